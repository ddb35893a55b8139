//! This library's C interface, and buffers that show which bytes a call wrote.

/// The archive that was linked: its bytes, its sum, and where it stood when oracle/build took it.
pub const LINKED: &str = include_str!("../linked.txt");

unsafe extern "C" {
    fn sam_header_read(text: *const u8, text_len: usize, catalogue: *mut u8, catalogue_len: usize) -> u64;
    fn sam_header_check(text: *const u8, text_len: usize, catalogue: *const u8, catalogue_len: usize) -> u64;
    fn sam_header_tidy(text: *const u8, text_len: usize, out: *mut u8, out_len: usize) -> u64;
}

#[cfg(feature = "lookup")]
unsafe extern "C" {
    fn sam_header_count(text: *const u8, text_len: usize, catalogue: *const u8, catalogue_len: usize, kind: u8) -> u64;
    fn sam_header_key(
        text: *const u8,
        text_len: usize,
        catalogue: *const u8,
        catalogue_len: usize,
        kind: u8,
        ordinal: u32,
    ) -> u64;
    fn sam_header_line(
        text: *const u8,
        text_len: usize,
        catalogue: *const u8,
        catalogue_len: usize,
        kind: u8,
        ordinal: u32,
    ) -> u64;
    fn sam_header_length(
        text: *const u8,
        text_len: usize,
        catalogue: *const u8,
        catalogue_len: usize,
        ordinal: u32,
        length: *mut u64,
    ) -> u64;
    fn sam_header_field(
        text: *const u8,
        text_len: usize,
        catalogue: *const u8,
        catalogue_len: usize,
        kind: u8,
        ordinal: u32,
        tag_0: u8,
        tag_1: u8,
    ) -> u64;
}

#[cfg(feature = "found")]
unsafe extern "C" {
    fn sam_header_find(
        text: *const u8,
        text_len: usize,
        catalogue: *const u8,
        catalogue_len: usize,
        kind: u8,
        key: *const u8,
        key_len: usize,
    ) -> u64;
    fn sam_header_references(
        text: *const u8,
        text_len: usize,
        catalogue: *const u8,
        catalogue_len: usize,
        table: *mut u32,
        table_len: usize,
    ) -> u64;
}

#[cfg(feature = "graph")]
unsafe extern "C" {
    fn sam_header_roots(
        text: *const u8,
        text_len: usize,
        catalogue: *const u8,
        catalogue_len: usize,
        out: *mut u32,
        out_len: usize,
    ) -> u64;
    fn sam_header_leaves(
        text: *const u8,
        text_len: usize,
        catalogue: *const u8,
        catalogue_len: usize,
        out: *mut u32,
        out_len: usize,
    ) -> u64;
}

#[cfg(feature = "table")]
unsafe extern "C" {
    fn sam_header_leaves_by_table(
        text: *const u8,
        text_len: usize,
        catalogue: *const u8,
        catalogue_len: usize,
        table: *mut Node,
        table_len: usize,
        out: *mut u32,
        out_len: usize,
    ) -> u64;
}

#[cfg(feature = "add")]
unsafe extern "C" {
    fn sam_header_add(
        text: *const u8,
        text_len: usize,
        catalogue: *const u8,
        catalogue_len: usize,
        prefix: *const u8,
        prefix_len: usize,
        fields: *const u8,
        fields_len: usize,
        out: *mut u8,
        out_len: usize,
    ) -> u64;
}

#[cfg(feature = "prune")]
unsafe extern "C" {
    fn sam_header_prune(
        text: *const u8,
        text_len: usize,
        catalogue: *const u8,
        catalogue_len: usize,
        used: *const u32,
        used_len: usize,
        out: *mut u8,
        out_len: usize,
    ) -> u64;
}

#[cfg(feature = "names")]
unsafe extern "C" {
    fn sam_header_names(
        text: *const u8,
        text_len: usize,
        catalogue: *const u8,
        catalogue_len: usize,
        list: *const u8,
        list_len: usize,
        work: *mut u32,
        work_len: usize,
        out: *mut u32,
        out_len: usize,
        inspected: *mut u64,
    ) -> u64;
}

#[cfg(feature = "carry_on")]
unsafe extern "C" {
    fn sam_header_carry_on(
        text: *const u8,
        text_len: usize,
        out: *mut u8,
        out_len: usize,
        table: *mut u32,
        table_len: usize,
    ) -> u64;
    fn sam_header_carry_on_with(
        text: *const u8,
        text_len: usize,
        out: *mut u8,
        out_len: usize,
        table: *mut u32,
        table_len: usize,
        work: *mut u32,
        work_len: usize,
    ) -> u64;
}

#[cfg(feature = "faults")]
unsafe extern "C" {
    fn sam_header_faults(text: *const u8, text_len: usize, table: *mut u32, table_len: usize) -> u64;
}

#[cfg(feature = "work")]
unsafe extern "C" {
    fn sam_header_read_with(
        text: *const u8,
        text_len: usize,
        catalogue: *mut u8,
        catalogue_len: usize,
        work: *mut u32,
        work_len: usize,
    ) -> u64;
    fn sam_header_check_with(
        text: *const u8,
        text_len: usize,
        catalogue: *const u8,
        catalogue_len: usize,
        work: *mut u32,
        work_len: usize,
    ) -> u64;
    fn sam_header_tidy_with(
        text: *const u8,
        text_len: usize,
        out: *mut u8,
        out_len: usize,
        work: *mut u32,
        work_len: usize,
    ) -> u64;
}

#[cfg(feature = "binary")]
unsafe extern "C" {
    fn sam_header_binary_out(text: *const u8, text_len: usize, out: *mut u8, out_len: usize) -> u64;
    fn sam_header_binary_in(bytes: *const u8, bytes_len: usize, out: *mut u8, out_len: usize) -> u64;
}

#[cfg(feature = "lens")]
unsafe extern "C" {
    fn sam_header_text_len(bytes: *const u8, bytes_len: usize) -> u64;
    fn sam_header_binary_len(bytes: *const u8, bytes_len: usize) -> u64;
}

#[cfg(feature = "judge_merge")]
unsafe extern "C" {
    fn sam_header_judge_merge(
        a: *const u8,
        a_len: usize,
        b: *const u8,
        b_len: usize,
        merged: *const u8,
        merged_len: usize,
        list_a: *const u32,
        list_a_len: usize,
        list_b: *const u32,
        list_b_len: usize,
    ) -> u64;
}

#[cfg(feature = "seal")]
unsafe extern "C" {
    fn sam_header_seal(text: *const u8, text_len: usize, work: *mut u8, work_len: usize, seal: *mut u8) -> u64;
    fn sam_header_check_sealed(
        text: *const u8,
        text_len: usize,
        catalogue: *const u8,
        catalogue_len: usize,
        seal: *const u8,
        work: *mut u8,
        work_len: usize,
    ) -> u64;
}

/// A refusal: its number and its line.
#[derive(Clone, Copy, Debug, Eq, PartialEq)]
pub struct Refusal {
    pub number: u32,
    pub line: u32,
}

/// A call's answer: what it counts, or a refusal.
pub type Answer = Result<u64, Refusal>;

fn answer(a: u64) -> Answer {
    if a >> 63 == 0 { Ok(a) } else { Err(Refusal { number: (a >> 32) as u32 & 0x7fff_ffff, line: a as u32 }) }
}

pub fn read(text: &[u8], catalogue: &mut [u8]) -> Answer {
    answer(unsafe { sam_header_read(text.as_ptr(), text.len(), catalogue.as_mut_ptr(), catalogue.len()) })
}

pub fn check(text: &[u8], catalogue: &[u8]) -> Answer {
    answer(unsafe { sam_header_check(text.as_ptr(), text.len(), catalogue.as_ptr(), catalogue.len()) })
}

pub fn tidy(text: &[u8], out: &mut [u8]) -> Answer {
    answer(unsafe { sam_header_tidy(text.as_ptr(), text.len(), out.as_mut_ptr(), out.len()) })
}

#[cfg(feature = "lookup")]
pub fn count(text: &[u8], catalogue: &[u8], kind: u8) -> Answer {
    answer(unsafe { sam_header_count(text.as_ptr(), text.len(), catalogue.as_ptr(), catalogue.len(), kind) })
}

#[cfg(feature = "lookup")]
pub fn key(text: &[u8], catalogue: &[u8], kind: u8, ordinal: u32) -> Answer {
    answer(unsafe { sam_header_key(text.as_ptr(), text.len(), catalogue.as_ptr(), catalogue.len(), kind, ordinal) })
}

#[cfg(feature = "lookup")]
pub fn line(text: &[u8], catalogue: &[u8], kind: u8, ordinal: u32) -> Answer {
    answer(unsafe { sam_header_line(text.as_ptr(), text.len(), catalogue.as_ptr(), catalogue.len(), kind, ordinal) })
}

#[cfg(feature = "lookup")]
pub fn length(text: &[u8], catalogue: &[u8], ordinal: u32, length: &mut u64) -> Answer {
    answer(unsafe { sam_header_length(text.as_ptr(), text.len(), catalogue.as_ptr(), catalogue.len(), ordinal, length) })
}

/// Where the value of a field stands, its offset and its length; None where the stand-in takes its place.
#[cfg(feature = "lookup")]
pub fn field(text: &[u8], catalogue: &[u8], kind: u8, ordinal: u32, [a, b]: [u8; 2]) -> Option<(usize, usize)> {
    let place =
        unsafe { sam_header_field(text.as_ptr(), text.len(), catalogue.as_ptr(), catalogue.len(), kind, ordinal, a, b) };
    (place != u64::MAX).then_some(((place >> 32) as usize, place as u32 as usize))
}

#[cfg(feature = "found")]
pub fn find(text: &[u8], catalogue: &[u8], kind: u8, key: &[u8]) -> Answer {
    let (c, k) = (catalogue.as_ptr(), key.as_ptr());
    answer(unsafe { sam_header_find(text.as_ptr(), text.len(), c, catalogue.len(), kind, k, key.len()) })
}

/// Three numbers for each SQ are left in `table`.
#[cfg(feature = "found")]
pub fn references(text: &[u8], catalogue: &[u8], table: &mut [u32]) -> Answer {
    let (c, t) = (catalogue.as_ptr(), table.as_mut_ptr());
    answer(unsafe { sam_header_references(text.as_ptr(), text.len(), c, catalogue.len(), t, table.len()) })
}

#[cfg(feature = "graph")]
pub fn roots(text: &[u8], catalogue: &[u8], out: &mut [u32]) -> Answer {
    answer(unsafe {
        sam_header_roots(text.as_ptr(), text.len(), catalogue.as_ptr(), catalogue.len(), out.as_mut_ptr(), out.len())
    })
}

#[cfg(feature = "graph")]
pub fn leaves(text: &[u8], catalogue: &[u8], out: &mut [u32]) -> Answer {
    answer(unsafe {
        sam_header_leaves(text.as_ptr(), text.len(), catalogue.as_ptr(), catalogue.len(), out.as_mut_ptr(), out.len())
    })
}

/// A program in a table: its parent's ordinal, and the parent links from it to its root.
#[derive(Clone, Copy, Debug, Default, Eq, PartialEq)]
#[repr(C)]
pub struct Node {
    pub parent: u32,
    pub depth: u32,
}

/// Each program's record is left in `table`.
#[cfg(feature = "table")]
pub fn leaves_by_table(text: &[u8], catalogue: &[u8], table: &mut [Node], out: &mut [u32]) -> Answer {
    answer(unsafe {
        sam_header_leaves_by_table(
            text.as_ptr(),
            text.len(),
            catalogue.as_ptr(),
            catalogue.len(),
            table.as_mut_ptr(),
            table.len(),
            out.as_mut_ptr(),
            out.len(),
        )
    })
}

#[cfg(feature = "add")]
pub fn add(text: &[u8], catalogue: &[u8], prefix: &[u8], fields: &[u8], out: &mut [u8]) -> Answer {
    answer(unsafe {
        sam_header_add(
            text.as_ptr(),
            text.len(),
            catalogue.as_ptr(),
            catalogue.len(),
            prefix.as_ptr(),
            prefix.len(),
            fields.as_ptr(),
            fields.len(),
            out.as_mut_ptr(),
            out.len(),
        )
    })
}

#[cfg(feature = "prune")]
pub fn prune(text: &[u8], catalogue: &[u8], used: &[u32], out: &mut [u8]) -> Answer {
    answer(unsafe {
        sam_header_prune(
            text.as_ptr(),
            text.len(),
            catalogue.as_ptr(),
            catalogue.len(),
            used.as_ptr(),
            used.len(),
            out.as_mut_ptr(),
            out.len(),
        )
    })
}

/// The index of the SQ names is left in `work`, and the slots that were looked at in `inspected`.
#[cfg(feature = "names")]
pub fn names(text: &[u8], catalogue: &[u8], list: &[u8], work: &mut [u32], out: &mut [u32], inspected: &mut u64) -> Answer {
    answer(unsafe {
        sam_header_names(
            text.as_ptr(),
            text.len(),
            catalogue.as_ptr(),
            catalogue.len(),
            list.as_ptr(),
            list.len(),
            work.as_mut_ptr(),
            work.len(),
            out.as_mut_ptr(),
            out.len(),
            inspected,
        )
    })
}

/// Two numbers for each skipped line are left in `table`.
#[cfg(feature = "carry_on")]
pub fn carry_on(text: &[u8], out: &mut [u8], table: &mut [u32]) -> Answer {
    answer(unsafe {
        sam_header_carry_on(text.as_ptr(), text.len(), out.as_mut_ptr(), out.len(), table.as_mut_ptr(), table.len())
    })
}

/// The same by a lent area, which is all zeros afterwards.
#[cfg(feature = "carry_on")]
pub fn carry_on_with(text: &[u8], out: &mut [u8], table: &mut [u32], work: &mut [u32]) -> Answer {
    answer(unsafe {
        sam_header_carry_on_with(
            text.as_ptr(),
            text.len(),
            out.as_mut_ptr(),
            out.len(),
            table.as_mut_ptr(),
            table.len(),
            work.as_mut_ptr(),
            work.len(),
        )
    })
}

/// Two numbers for each faulty line are left in `table`.
#[cfg(feature = "faults")]
pub fn faults(text: &[u8], table: &mut [u32]) -> Answer {
    answer(unsafe { sam_header_faults(text.as_ptr(), text.len(), table.as_mut_ptr(), table.len()) })
}

/// Reading by a lent area, which is all zeros afterwards.
#[cfg(feature = "work")]
pub fn read_with(text: &[u8], catalogue: &mut [u8], work: &mut [u32]) -> Answer {
    let (c, w) = (catalogue.as_mut_ptr(), work.as_mut_ptr());
    answer(unsafe { sam_header_read_with(text.as_ptr(), text.len(), c, catalogue.len(), w, work.len()) })
}

/// Checking by a lent area.
#[cfg(feature = "work")]
pub fn check_with(text: &[u8], catalogue: &[u8], work: &mut [u32]) -> Answer {
    let (c, w) = (catalogue.as_ptr(), work.as_mut_ptr());
    answer(unsafe { sam_header_check_with(text.as_ptr(), text.len(), c, catalogue.len(), w, work.len()) })
}

/// Tidying by a lent area.
#[cfg(feature = "work")]
pub fn tidy_with(text: &[u8], out: &mut [u8], work: &mut [u32]) -> Answer {
    let (o, w) = (out.as_mut_ptr(), work.as_mut_ptr());
    answer(unsafe { sam_header_tidy_with(text.as_ptr(), text.len(), o, out.len(), w, work.len()) })
}

#[cfg(feature = "binary")]
pub fn binary_out(text: &[u8], out: &mut [u8]) -> Answer {
    answer(unsafe { sam_header_binary_out(text.as_ptr(), text.len(), out.as_mut_ptr(), out.len()) })
}

#[cfg(feature = "binary")]
pub fn binary_in(bytes: &[u8], out: &mut [u8]) -> Answer {
    answer(unsafe { sam_header_binary_in(bytes.as_ptr(), bytes.len(), out.as_mut_ptr(), out.len()) })
}

/// How many bytes at the front of a file belong to its header.
#[cfg(feature = "lens")]
pub fn text_len(bytes: &[u8]) -> Answer {
    answer(unsafe { sam_header_text_len(bytes.as_ptr(), bytes.len()) })
}

/// What the front of a stream tells of its binary header: how many bytes it has, or how many are needed to say more.
#[derive(Clone, Copy, Debug, Eq, PartialEq)]
pub enum Len {
    Whole(u64),
    More(u64),
}

#[cfg(feature = "lens")]
pub fn binary_len(bytes: &[u8]) -> Result<Len, Refusal> {
    let word = answer(unsafe { sam_header_binary_len(bytes.as_ptr(), bytes.len()) })?;
    Ok(if word >> 62 == 0 { Len::Whole(word) } else { Len::More(word ^ 1 << 62) })
}

/// The tidy text is left in `work`.
#[cfg(feature = "seal")]
pub fn seal(text: &[u8], work: &mut [u8], seal: &mut [u8; 32]) -> Answer {
    answer(unsafe { sam_header_seal(text.as_ptr(), text.len(), work.as_mut_ptr(), work.len(), seal.as_mut_ptr()) })
}

/// The tidy text is left in `work`, after 33 too.
#[cfg(feature = "seal")]
pub fn check_sealed(text: &[u8], catalogue: &[u8], seal: &[u8; 32], work: &mut [u8]) -> Answer {
    let (c, s) = (catalogue.as_ptr(), seal.as_ptr());
    answer(unsafe { sam_header_check_sealed(text.as_ptr(), text.len(), c, catalogue.len(), s, work.as_mut_ptr(), work.len()) })
}

/// A refusal comes with which text it is about: 1 for A, 2 for B, 3 for the merged one, 0 for none.
#[cfg(feature = "judge_merge")]
pub fn judge_merge(a: &[u8], b: &[u8], merged: &[u8], list_a: &[u32], list_b: &[u32]) -> Result<(), (Refusal, u32)> {
    let word = unsafe {
        sam_header_judge_merge(
            a.as_ptr(),
            a.len(),
            b.as_ptr(),
            b.len(),
            merged.as_ptr(),
            merged.len(),
            list_a.as_ptr(),
            list_a.len(),
            list_b.as_ptr(),
            list_b.len(),
        )
    };
    let about = (word >> 48) as u32 & 0x7fff;
    match answer(word & !(0xff << 48)) {
        Ok(n) => {
            assert_eq!(n, 0, "an accepted merge is 0");
            Ok(())
        }
        Err(refusal) => Err((refusal, about)),
    }
}

/// What an output may hold.
pub trait Element: Copy + Eq + Default {
    /// The pattern at a place. It changes from place to place, so that neither a constant nor a copy goes unseen.
    fn pattern(i: usize) -> Self;

    /// Elements, for a reader.
    fn show(all: &[Self]) -> String;
}

impl Element for u8 {
    fn pattern(i: usize) -> Self {
        (i.wrapping_mul(167) >> 1) as u8 ^ 0xa5
    }

    fn show(all: &[Self]) -> String {
        format!("\"{}\"", all.escape_ascii())
    }
}

impl Element for u32 {
    fn pattern(i: usize) -> Self {
        (i as u32).wrapping_mul(0x9e37_79b9) ^ 0xdead_beef
    }

    fn show(all: &[Self]) -> String {
        format!("{all:?}")
    }
}

impl Element for Node {
    fn pattern(i: usize) -> Self {
        Self { parent: u32::pattern(2 * i), depth: u32::pattern(2 * i + 1) }
    }

    fn show(all: &[Self]) -> String {
        format!("{all:?}")
    }
}

const GUARD: usize = 16;

/// An output filled with the pattern, with more of the pattern on both sides that the call is not lent.
#[derive(Default)]
pub struct Lent<T> {
    room: Vec<T>,
    len: usize,
}

impl<T: Element> Lent<T> {
    /// A fresh output of this length.
    pub fn lend(&mut self, len: usize) -> &mut [T] {
        let all = len + 2 * GUARD;
        if self.room.len() < all {
            self.room.resize(all, T::default());
        }
        for (i, x) in self.room[..all].iter_mut().enumerate() {
            *x = T::pattern(i);
        }
        self.len = len;
        &mut self.room[GUARD..GUARD + len]
    }

    /// The first elements of the output.
    pub fn front(&self, n: usize) -> &[T] {
        &self.room[GUARD..GUARD + n]
    }

    /// Whether everything from this place on, and everything around the output, is as it was.
    pub fn kept_from(&self, n: usize) -> bool {
        let kept = |a: usize, b: usize| (a..b).all(|i| self.room[i] == T::pattern(i));
        n <= self.len && kept(0, GUARD) && kept(GUARD + n, self.len + 2 * GUARD)
    }
}

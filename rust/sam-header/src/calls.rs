//! Each call of `include/sam_header.h`, over lent slices, with its answer taken apart. Nothing is allocated here, and everything else in this crate
//! uses these functions. The header file says what each call answers, and README how much room its outputs need.
//!
//! This is the one module with `unsafe` in it. What C asks of its pointers is what a slice of Rust is: not null, aligned, and where it is written, no
//! other slice's. An array of 32 bytes is just a pointer.
#![allow(unsafe_code)]
use crate::{BinaryLen, Kind, Node, Refusal, Unmerged, Which};

/// What a call answers, or why it refuses.
pub type Answer<T> = Result<T, Refusal>;

#[rustfmt::skip]
extern "C" {
    fn sam_header_read(text: *const u8, text_len: usize, catalogue: *mut u8, catalogue_len: usize) -> u64;
    fn sam_header_read_with(text: *const u8, text_len: usize, catalogue: *mut u8, catalogue_len: usize, work: *mut u32, work_len: usize) -> u64;
    fn sam_header_check(text: *const u8, text_len: usize, catalogue: *const u8, catalogue_len: usize) -> u64;
    fn sam_header_check_with(text: *const u8, text_len: usize, catalogue: *const u8, catalogue_len: usize, work: *mut u32, work_len: usize) -> u64;
    fn sam_header_check_sealed(
        text: *const u8, text_len: usize, catalogue: *const u8, catalogue_len: usize, seal: *const u8, work: *mut u8, work_len: usize,
    ) -> u64;
    fn sam_header_seal(text: *const u8, text_len: usize, work: *mut u8, work_len: usize, seal: *mut u8) -> u64;
    fn sam_header_tidy(text: *const u8, text_len: usize, out: *mut u8, out_len: usize) -> u64;
    fn sam_header_tidy_with(text: *const u8, text_len: usize, out: *mut u8, out_len: usize, work: *mut u32, work_len: usize) -> u64;
    fn sam_header_carry_on(text: *const u8, text_len: usize, out: *mut u8, out_len: usize, table: *mut u32, table_len: usize) -> u64;
    fn sam_header_carry_on_with(
        text: *const u8, text_len: usize, out: *mut u8, out_len: usize, table: *mut u32, table_len: usize, work: *mut u32, work_len: usize,
    ) -> u64;
    fn sam_header_faults(text: *const u8, text_len: usize, table: *mut u32, table_len: usize) -> u64;
    fn sam_header_text_len(bytes: *const u8, len: usize) -> u64;
    fn sam_header_binary_len(bytes: *const u8, len: usize) -> u64;
    fn sam_header_binary_out(text: *const u8, text_len: usize, out: *mut u8, out_len: usize) -> u64;
    fn sam_header_binary_in(bytes: *const u8, bytes_len: usize, out: *mut u8, out_len: usize) -> u64;
    fn sam_header_count(text: *const u8, text_len: usize, catalogue: *const u8, catalogue_len: usize, kind: u8) -> u64;
    fn sam_header_key(text: *const u8, text_len: usize, catalogue: *const u8, catalogue_len: usize, kind: u8, ordinal: u32) -> u64;
    fn sam_header_line(text: *const u8, text_len: usize, catalogue: *const u8, catalogue_len: usize, kind: u8, ordinal: u32) -> u64;
    fn sam_header_length(text: *const u8, text_len: usize, catalogue: *const u8, catalogue_len: usize, ordinal: u32, length: *mut u64) -> u64;
    fn sam_header_field(text: *const u8, text_len: usize, catalogue: *const u8, catalogue_len: usize, kind: u8, ordinal: u32, tag_0: u8, tag_1: u8) -> u64;
    fn sam_header_find(text: *const u8, text_len: usize, catalogue: *const u8, catalogue_len: usize, kind: u8, key: *const u8, key_len: usize) -> u64;
    fn sam_header_references(text: *const u8, text_len: usize, catalogue: *const u8, catalogue_len: usize, table: *mut u32, table_len: usize) -> u64;
    fn sam_header_names(
        text: *const u8, text_len: usize, catalogue: *const u8, catalogue_len: usize, list: *const u8, list_len: usize, work: *mut u32,
        work_len: usize, out: *mut u32, out_len: usize, inspected: *mut u64,
    ) -> u64;
    fn sam_header_roots(text: *const u8, text_len: usize, catalogue: *const u8, catalogue_len: usize, out: *mut u32, out_len: usize) -> u64;
    fn sam_header_leaves(text: *const u8, text_len: usize, catalogue: *const u8, catalogue_len: usize, out: *mut u32, out_len: usize) -> u64;
    fn sam_header_leaves_by_table(
        text: *const u8, text_len: usize, catalogue: *const u8, catalogue_len: usize, table: *mut Node, table_len: usize, out: *mut u32,
        out_len: usize,
    ) -> u64;
    fn sam_header_add(
        text: *const u8, text_len: usize, catalogue: *const u8, catalogue_len: usize, prefix: *const u8, prefix_len: usize, fields: *const u8,
        fields_len: usize, out: *mut u8, out_len: usize,
    ) -> u64;
    fn sam_header_prune(
        text: *const u8, text_len: usize, catalogue: *const u8, catalogue_len: usize, used: *const u32, used_len: usize, out: *mut u8,
        out_len: usize,
    ) -> u64;
    fn sam_header_judge_merge(
        a: *const u8, a_len: usize, b: *const u8, b_len: usize, merged: *const u8, merged_len: usize, list_a: *const u32, list_a_len: usize,
        list_b: *const u32, list_b_len: usize,
    ) -> u64;
}

/// Asks a call: `[x]` lends the slice `x` to be read, `[mut x]` to be written, and anything else goes as it is.
macro_rules! ask {
    ($call:ident, [$($given:tt)*] $(, $rest:tt)*) => { ask!(@ $call () ([$($given)*] $($rest)*)) };
    (@ $call:ident ($($done:expr,)*) ([mut $x:ident] $($rest:tt)*)) => { ask!(@ $call ($($done,)* $x.as_mut_ptr(), $x.len(),) ($($rest)*)) };
    (@ $call:ident ($($done:expr,)*) ([$x:ident] $($rest:tt)*)) => { ask!(@ $call ($($done,)* $x.as_ptr(), $x.len(),) ($($rest)*)) };
    (@ $call:ident ($($done:expr,)*) ($x:tt $($rest:tt)*)) => { ask!(@ $call ($($done,)* $x,) ($($rest)*)) };
    // SAFETY: each pointer is a slice's own with its own length, or a reference's, and the borrows keep what is written apart from all else.
    (@ $call:ident ($($done:expr,)*) ()) => { unsafe { $call($($done),*) } };
}

fn word(answer: u64) -> Answer<u64> {
    if answer >> 63 == 0 {
        Ok(answer)
    } else {
        Err(Refusal::given((answer >> 32) as u8, answer as u32))
    }
}

fn count_of(answer: u64) -> Answer<usize> {
    word(answer).map(|n| n as usize)
}

/// The two halves of an answer.
fn halves(answer: u64) -> Answer<(usize, usize)> {
    word(answer).map(|n| ((n >> 32) as usize, n as u32 as usize))
}

/// Reads a header: how many bytes its catalogue has.
pub fn read(text: &[u8], catalogue: &mut [u8]) -> Answer<usize> {
    count_of(ask!(sam_header_read, [text], [mut catalogue]))
}

/// The same with a lent work area, which is all zeros afterwards.
pub fn read_with(text: &[u8], catalogue: &mut [u8], work: &mut [u32]) -> Answer<usize> {
    count_of(ask!(sam_header_read_with, [text], [mut catalogue], [mut work]))
}

/// Whether the catalogue is this text's: 21 if not.
pub fn check(text: &[u8], catalogue: &[u8]) -> Answer<()> {
    word(ask!(sam_header_check, [text], [catalogue])).map(drop)
}

/// The same with a lent work area, which is all zeros afterwards.
pub fn check_with(text: &[u8], catalogue: &[u8], work: &mut [u32]) -> Answer<()> {
    word(ask!(sam_header_check_with, [text], [catalogue], [mut work])).map(drop)
}

/// Whether the catalogue is this text's, and the seal this header's: 33 if not. `work` takes the tidy text.
pub fn check_sealed(text: &[u8], catalogue: &[u8], seal: &[u8; 32], work: &mut [u8]) -> Answer<()> {
    let seal = seal.as_ptr();
    word(ask!(sam_header_check_sealed, [text], [catalogue], seal, [mut work])).map(drop)
}

/// The SHA-256 of the tidy text, which `work` takes.
pub fn seal(text: &[u8], work: &mut [u8], seal: &mut [u8; 32]) -> Answer<()> {
    let seal = seal.as_mut_ptr();
    word(ask!(sam_header_seal, [text], [mut work], seal)).map(drop)
}

/// Writes the tidy text: how many bytes it has.
pub fn tidy(text: &[u8], out: &mut [u8]) -> Answer<usize> {
    count_of(ask!(sam_header_tidy, [text], [mut out]))
}

/// The same with a lent work area, which is all zeros afterwards.
pub fn tidy_with(text: &[u8], out: &mut [u8], work: &mut [u32]) -> Answer<usize> {
    count_of(ask!(sam_header_tidy_with, [text], [mut out], [mut work]))
}

/// Writes the tidy text of the lines that are not refused: how many lines were skipped, and how many bytes written. `table` gets two numbers per skipped
/// line: the line and the refusal's number.
pub fn carry_on(text: &[u8], out: &mut [u8], table: &mut [u32]) -> Answer<(usize, usize)> {
    halves(ask!(sam_header_carry_on, [text], [mut out], [mut table]))
}

/// The same with a lent work area, which is all zeros afterwards.
pub fn carry_on_with(text: &[u8], out: &mut [u8], table: &mut [u32], work: &mut [u32]) -> Answer<(usize, usize)> {
    halves(ask!(sam_header_carry_on_with, [text], [mut out], [mut table], [mut work]))
}

/// How many lines are faulty; `table` gets two numbers per faulty line: the line and the refusal's number.
pub fn faults(text: &[u8], table: &mut [u32]) -> Answer<usize> {
    count_of(ask!(sam_header_faults, [text], [mut table]))
}

/// How many bytes at the front are header lines.
pub fn text_len(bytes: &[u8]) -> usize {
    ask!(sam_header_text_len, [bytes]) as usize
}

/// How long the binary header at the front is, or how many bytes are needed to say more; 28 if there is none, whatever follows.
pub fn binary_len(bytes: &[u8]) -> Answer<BinaryLen> {
    let answer = word(ask!(sam_header_binary_len, [bytes]))?;
    let bytes = (answer & !(1 << 62)) as usize;
    Ok(if answer >> 62 == 0 { BinaryLen::Whole(bytes) } else { BinaryLen::More(bytes) })
}

/// Writes the uncompressed binary header: how many bytes it has.
pub fn binary_out(text: &[u8], out: &mut [u8]) -> Answer<usize> {
    count_of(ask!(sam_header_binary_out, [text], [mut out]))
}

/// Writes the tidy text of an uncompressed binary header: how many bytes it has.
pub fn binary_in(bytes: &[u8], out: &mut [u8]) -> Answer<usize> {
    count_of(ask!(sam_header_binary_in, [bytes], [mut out]))
}

/// How many records of a kind there are.
pub fn count(text: &[u8], catalogue: &[u8], kind: Kind) -> Answer<usize> {
    let kind = kind as u8;
    count_of(ask!(sam_header_count, [text], [catalogue], kind))
}

/// The offset and length of SN or ID.
pub fn key(text: &[u8], catalogue: &[u8], kind: Kind, ordinal: u32) -> Answer<(usize, usize)> {
    let kind = kind as u8;
    halves(ask!(sam_header_key, [text], [catalogue], kind, ordinal))
}

/// The line of a record, from 0.
pub fn line(text: &[u8], catalogue: &[u8], kind: Kind, ordinal: u32) -> Answer<u32> {
    let kind = kind as u8;
    word(ask!(sam_header_line, [text], [catalogue], kind, ordinal)).map(|n| n as u32)
}

/// The LN of an SQ.
pub fn length(text: &[u8], catalogue: &[u8], ordinal: u32) -> Answer<u64> {
    let mut length = 0;
    let into = &mut length;
    word(ask!(sam_header_length, [text], [catalogue], ordinal, into))?;
    Ok(length)
}

/// The offset and length of a field's value; None if the record has no field with this tag, and for any refusal.
pub fn field(text: &[u8], catalogue: &[u8], kind: Kind, ordinal: u32, [a, b]: [u8; 2]) -> Option<(usize, usize)> {
    let kind = kind as u8;
    match ask!(sam_header_field, [text], [catalogue], kind, ordinal, a, b) {
        u64::MAX => None,
        place => Some(((place >> 32) as usize, place as u32 as usize)),
    }
}

/// The ordinal of the record with this SN or ID: 25 if there is none.
pub fn find(text: &[u8], catalogue: &[u8], kind: Kind, key: &[u8]) -> Answer<u32> {
    let kind = kind as u8;
    word(ask!(sam_header_find, [text], [catalogue], kind, [key])).map(|n| n as u32)
}

/// How many SQ there are; `table` gets three numbers per SQ: the offset and length of its name, and LN.
pub fn references(text: &[u8], catalogue: &[u8], table: &mut [u32]) -> Answer<usize> {
    count_of(ask!(sam_header_references, [text], [catalogue], [mut table]))
}

/// The ordinals of the names of `list` in `out`, `u32::MAX` for one that no SQ has: how many there are, and how many slots were looked at.
pub fn names(text: &[u8], catalogue: &[u8], list: &[u8], work: &mut [u32], out: &mut [u32]) -> Answer<(usize, u64)> {
    let mut inspected = 0;
    let into = &mut inspected;
    let n = count_of(ask!(sam_header_names, [text], [catalogue], [list], [mut work], [mut out], into))?;
    Ok((n, inspected))
}

/// The ordinals of the programs without PP: how many.
pub fn roots(text: &[u8], catalogue: &[u8], out: &mut [u32]) -> Answer<usize> {
    count_of(ask!(sam_header_roots, [text], [catalogue], [mut out]))
}

/// The ordinals of the programs that no PP names: the hops, and how many.
pub fn leaves(text: &[u8], catalogue: &[u8], out: &mut [u32]) -> Answer<(usize, usize)> {
    halves(ask!(sam_header_leaves, [text], [catalogue], [mut out]))
}

/// The same, with each program's parent and depth in `table`.
pub fn leaves_by_table(text: &[u8], catalogue: &[u8], table: &mut [Node], out: &mut [u32]) -> Answer<(usize, usize)> {
    halves(ask!(sam_header_leaves_by_table, [text], [catalogue], [mut table], [mut out]))
}

/// Writes the tidy text with a new program after each leaf: how many bytes it has.
pub fn add(text: &[u8], catalogue: &[u8], prefix: &[u8], fields: &[u8], out: &mut [u8]) -> Answer<usize> {
    count_of(ask!(sam_header_add, [text], [catalogue], [prefix], [fields], [mut out]))
}

/// Writes the tidy text with only the programs in use and their ancestors: how many bytes it has.
pub fn prune(text: &[u8], catalogue: &[u8], used: &[u32], out: &mut [u8]) -> Answer<usize> {
    count_of(ask!(sam_header_prune, [text], [catalogue], [used], [mut out]))
}

/// Whether a merge that another tool made is a good one.
pub fn judge_merge(a: &[u8], b: &[u8], merged: &[u8], list_a: &[u32], list_b: &[u32]) -> Result<(), Unmerged> {
    let answer = ask!(sam_header_judge_merge, [a], [b], [merged], [list_a], [list_b]);
    let Err(refusal) = word(answer) else { return Ok(()) };
    Err(match (answer >> 48) as u8 {
        1 => Unmerged::Text(Which::A, refusal),
        2 => Unmerged::Text(Which::B, refusal),
        3 => Unmerged::Text(Which::Merged, refusal),
        _ => Unmerged::Together(refusal),
    })
}

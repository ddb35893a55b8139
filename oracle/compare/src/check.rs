//! One case: both sides are asked, and everything that they answer is compared.

use library::{Answer, Element, Lent, Refusal};
#[cfg(feature = "names")]
use oracle::index::{self, Index};
use oracle::{
    Header, Refused,
    inputs::{self, Rng},
};

#[cfg(feature = "work")]
use crate::area;
#[cfg(feature = "carry_on")]
use crate::carried;
#[cfg(feature = "faults")]
use crate::faulty;
#[cfg(feature = "found")]
use crate::found;
#[cfg(feature = "add")]
use crate::grown::{self, Grown};
#[cfg(feature = "table")]
use crate::table::{self, Tabled};
#[cfg(feature = "prune")]
use crate::pruned;
#[cfg(feature = "seal")]
use crate::sealed::Sha256;
use crate::{
    known::{self, Kind},
    tally::{Call, Tally},
};

/// A text, and what is given to add after it. With a list only its names are asked for.
#[derive(Clone, Debug, Default, Eq, PartialEq)]
pub struct Case {
    pub text: Vec<u8>,
    pub add: Option<(Vec<u8>, Vec<u8>)>,
    pub list: Option<Vec<u8>>,
}

impl Case {
    pub fn len(&self) -> usize {
        let added = self.add.as_ref().map_or(0, |(p, f)| p.len() + f.len());
        self.text.len() + added + self.list.as_ref().map_or(0, Vec::len)
    }
}

/// A difference: a known kind, or none.
#[derive(Clone, Debug)]
pub struct Difference {
    pub call: Call,
    pub kind: Option<Kind>,
    pub what: String,
}

const SHORT: Refusal = Refusal { number: 20, line: 0 };
const STALE: Refusal = Refusal { number: 21, line: 0 };
#[cfg(any(feature = "lookup", feature = "found", feature = "prune"))]
const ABSENT: Refusal = Refusal { number: 25, line: 0 };

fn refusal(number: u32) -> Refusal {
    Refusal { number, line: 0 }
}

/// Runs a call with an output, at every length that matters: longer than the answer, exactly as long, one short, and empty.
/// `want` is what it writes and what it returns, or its refusal. Says what is wrong, if anything.
fn outputs<T: Element>(
    lent: &mut Lent<T>,
    want: Result<(&[T], u64), Refusal>,
    mut run: impl FnMut(&mut [T]) -> Answer,
) -> Option<String> {
    let n = want.as_ref().map_or(0, |(bytes, _)| bytes.len());
    let lengths = if n == 0 { [9, 0, 0, 0] } else { [n + 9, n, n - 1, 0] };
    for (i, &len) in lengths.iter().enumerate() {
        if lengths[..i].contains(&len) {
            continue;
        }
        let expected = match want {
            Ok((_, answer)) if len >= n => Ok(answer),
            Ok(_) => Err(SHORT),
            Err(r) => Err(r),
        };
        let got = run(lent.lend(len));
        if got != expected {
            return Some(format!("an output of {len}: {got:?}, wanted {expected:?}"));
        }
        let written = if expected.is_ok() { n } else { 0 };
        if let (Ok((bytes, _)), Ok(_)) = (want, expected)
            && lent.front(n) != bytes
        {
            let (got, want) = (T::show(lent.front(n)), T::show(bytes));
            return Some(format!("an output of {len}: {got}, wanted {want}"));
        }
        if !lent.kept_from(written) {
            return Some(format!("an output of {len}: something past the {written} elements of the answer was changed"));
        }
    }
    None
}

/// How long the entry of a kind is: by document 01's table, with document 02's line at the end of a record's.
const SIZES: [usize; 7] = [1, 13, 21, 13, 13, 13, 11];

/// How long the catalogue of these records is.
fn catalogue_len(header: &Header) -> usize {
    let f = |n: usize| SIZES[6] * n;
    header.header().map_or(0, |m| SIZES[1] + f(m.other_fields().len()))
        + header.reference_sequences().values().map(|m| SIZES[2] + f(m.other_fields().len())).sum::<usize>()
        + header.read_groups().values().map(|m| SIZES[3] + f(m.other_fields().len())).sum::<usize>()
        + header.programs().as_ref().values().map(|m| SIZES[4] + f(m.other_fields().len())).sum::<usize>()
        + SIZES[5] * header.comments().len()
}

/// Where the records' entries of a catalogue end, each just behind its line.
fn record_ends(catalogue: &[u8]) -> Vec<usize> {
    let (mut ends, mut at) = (Vec::new(), 0);
    while let Some(&kind) = catalogue.get(at) {
        at += SIZES[usize::from(kind)];
        if kind != 6 {
            ends.push(at);
        }
    }
    ends
}

/// Catalogues that differ from this one in lines alone: one record's is another, one is big-endian, and none is there at all.
fn relined(catalogue: &[u8], rng: &mut Rng) -> Vec<Vec<u8>> {
    let ends = record_ends(catalogue);
    let at = rng.below(ends.len());
    let line = |to: [u8; 4]| [&catalogue[..ends[at] - 4], &to, &catalogue[ends[at]..]].concat();
    let mut bare = Vec::new();
    for (i, &end) in ends.iter().enumerate() {
        let from = if i == 0 { 0 } else { ends[i - 1] };
        bare.extend_from_slice(&catalogue[from..end - 4]);
    }
    bare.extend_from_slice(&catalogue[ends[ends.len() - 1]..]);
    let mut all = vec![line((at as u32 ^ 1).to_le_bytes()), bare];
    if at > 0 {
        all.push(line((at as u32).to_be_bytes()));
    }
    all
}

/// The bytes of a value. Its place must be the last field of its line with this tag, from its colon to a tab or the line's end.
fn valued<'a>(
    text: &'a [u8],
    (start, end): (usize, usize),
    tag: &[u8; 2],
    (offset, len): (usize, usize),
) -> Result<&'a [u8], String> {
    let wrong = |why: &str| Err(format!("the place of {} at {offset} and {len}: {why}", tag.escape_ascii()));
    if offset < start + 4 || offset + len > end {
        return wrong("it is not in its line");
    }
    let whole = &text[start..end];
    let (at, last) = (offset - start, offset - start + len);
    let front = [b'\t', tag[0], tag[1], b':'];
    if whole[at - 4..at] != front {
        return wrong("its tag is not before it");
    }
    if whole[at..last].contains(&b'\t') || last < whole.len() && whole[last] != b'\t' {
        return wrong("it does not end where its field does");
    }
    if whole[last..].windows(4).any(|w| w == front) {
        return wrong("a later field has the tag");
    }
    Ok(&whole[at..last])
}

/// A catalogue's entries, taken one after the other.
struct Entries<'a> {
    text: &'a [u8],
    rest: &'a [u8],
    line: (usize, usize),
}

impl<'a> Entries<'a> {
    fn take<const N: usize>(&mut self) -> Result<[u8; N], String> {
        let (a, rest) = self.rest.split_first_chunk::<N>().ok_or("the catalogue ends within an entry")?;
        self.rest = rest;
        Ok(*a)
    }

    fn u32(&mut self) -> Result<u32, String> {
        self.take().map(u32::from_le_bytes)
    }

    fn place(&mut self) -> Result<(usize, usize), String> {
        let (offset, len) = (self.u32()? as usize, self.u32()? as usize);
        let (start, end) = self.line;
        if offset < start + 4 || offset + len > end {
            return Err(format!("{offset} and {len} are not in the line from {start} to {end}"));
        }
        Ok((offset, len))
    }

    // The line at the end of a record's own entry.
    fn number(&mut self, due: usize) -> Result<(), String> {
        let line = self.u32()?;
        if line as usize == due { Ok(()) } else { Err(format!("the entry of line {due} says that it is line {line}")) }
    }

    // A value's place, and the bytes there.
    fn value(&mut self, tag: &[u8; 2]) -> Result<&'a [u8], String> {
        let place = self.place()?;
        valued(self.text, self.line, tag, place)
    }

    fn fields<'b, K, V>(&mut self, fields: impl Iterator<Item = (&'b K, &'b V)>) -> Result<(), String>
    where
        K: AsRef<[u8; 2]> + 'b,
        V: AsRef<[u8]> + 'b,
    {
        for (tag, value) in fields {
            let tag = tag.as_ref();
            match self.take::<3>()? {
                [6, a, b] if [a, b] == *tag => {}
                other => return Err(format!("an entry starts {other:?} where the field {} is due", tag.escape_ascii())),
            }
            if self.value(tag)? != value.as_ref() {
                return Err(format!("the value of {}", tag.escape_ascii()));
            }
        }
        Ok(())
    }
}

/// Holds the catalogue to the crate's records, line by line.
fn records(text: &[u8], catalogue: &[u8], header: &Header) -> Result<(), String> {
    let mut e = Entries { text, rest: catalogue, line: (0, 0) };
    let mut sq = header.reference_sequences().iter();
    let mut rg = header.read_groups().iter();
    let mut pg = header.programs().as_ref().iter();
    let mut co = header.comments().iter();
    for (i, line) in oracle::spans(text).enumerate() {
        e.line = line;
        let due = match &text[line.0 + 1..line.0 + 3] {
            b"HD" => 1,
            b"SQ" => 2,
            b"RG" => 3,
            b"PG" => 4,
            _ => 5,
        };
        let [kind] = e.take()?;
        if kind != due {
            return Err(format!("an entry of kind {kind} for line {i}, where {due} is due"));
        }
        let odd = |what: &str| Err(format!("{what} of line {i}"));
        match kind {
            1 => {
                let hd = header.header().ok_or("the crate has no HD")?;
                if (e.u32()?, e.u32()?) != (hd.version().major(), hd.version().minor()) {
                    return odd("VN");
                }
                e.number(i)?;
                e.fields(hd.other_fields().iter())?;
            }
            2 => {
                let (name, map) = sq.next().ok_or("the crate has fewer SQ")?;
                if e.value(b"SN")? != &name[..] {
                    return odd("SN");
                }
                if u64::from_le_bytes(e.take()?) != map.length().get() as u64 {
                    return odd("LN");
                }
                e.number(i)?;
                e.fields(map.other_fields().iter())?;
            }
            3 => {
                let (id, map) = rg.next().ok_or("the crate has fewer RG")?;
                if e.value(b"ID")? != &id[..] {
                    return odd("ID");
                }
                e.number(i)?;
                e.fields(map.other_fields().iter())?;
            }
            4 => {
                let (id, map) = pg.next().ok_or("the crate has fewer PG")?;
                if e.value(b"ID")? != &id[..] {
                    return odd("ID");
                }
                e.number(i)?;
                e.fields(map.other_fields().iter())?;
            }
            _ => {
                let comment = co.next().ok_or("the crate has fewer CO")?;
                let (offset, len) = e.place()?;
                if (offset, offset + len) != (line.0 + 4, line.1) || &text[offset..offset + len] != &comment[..] {
                    return odd("the comment");
                }
                e.number(i)?;
            }
        }
    }
    if !e.rest.is_empty() || sq.next().is_some() || rg.next().is_some() || pg.next().is_some() || co.next().is_some() {
        return Err("the crate has other records, or there are entries left".into());
    }
    Ok(())
}

/// A record by kind and ordinal: its line, and its other fields in the crate's table.
#[cfg(feature = "lookup")]
struct Listed<'a> {
    kind: u8,
    ordinal: usize,
    line: (usize, usize),
    fields: Vec<([u8; 2], &'a [u8])>,
}

/// The records of the crate's tables, kind by kind.
#[cfg(feature = "lookup")]
fn listed<'a>(text: &[u8], header: &'a Header) -> Vec<Listed<'a>> {
    fn pairs<'a, K, V>(fields: impl Iterator<Item = (&'a K, &'a V)>) -> Vec<([u8; 2], &'a [u8])>
    where
        K: AsRef<[u8; 2]> + 'a,
        V: AsRef<[u8]> + 'a,
    {
        fields.map(|(tag, value)| (*tag.as_ref(), value.as_ref())).collect()
    }
    let tables: [(&[u8; 3], Vec<_>); 5] = [
        (b"@HD", header.header().iter().map(|m| pairs(m.other_fields().iter())).collect()),
        (b"@SQ", header.reference_sequences().values().map(|m| pairs(m.other_fields().iter())).collect()),
        (b"@RG", header.read_groups().values().map(|m| pairs(m.other_fields().iter())).collect()),
        (b"@PG", header.programs().as_ref().values().map(|m| pairs(m.other_fields().iter())).collect()),
        (b"@CO", vec![Vec::new(); header.comments().len()]),
    ];
    let mut all = Vec::new();
    for (kind, (front, table)) in (1..).zip(tables) {
        let lines = oracle::spans(text).filter(|&(a, b)| text[a..b].starts_with(front));
        let records = lines.zip(table).enumerate();
        all.extend(records.map(|(ordinal, (line, fields))| Listed { kind, ordinal, line, fields }));
    }
    all
}

/// The lines of the text's records, for each kind.
#[cfg(feature = "lookup")]
fn lines_by_kind(text: &[u8]) -> [Vec<usize>; 5] {
    let of = |front: &[u8; 3]| {
        let lines = oracle::spans(text).enumerate().filter(|&(_, (a, b))| text[a..b].starts_with(front));
        lines.map(|(i, _)| i).collect()
    };
    [of(b"@HD"), of(b"@SQ"), of(b"@RG"), of(b"@PG"), of(b"@CO")]
}

/// All of the first numbers, or four of them where they are many.
#[cfg(feature = "lookup")]
fn some(n: usize, rng: &mut Rng) -> Vec<usize> {
    if n <= 12 { (0..n).collect() } else { (0..4).map(|_| rng.below(n)).collect() }
}

/// Asks and compares. Buffers are kept from case to case.
#[derive(Default)]
pub struct Checker {
    bytes: Lent<u8>,
    #[cfg(any(feature = "graph", feature = "found", feature = "names", feature = "carry_on"))]
    words: Lent<u32>,
    #[cfg(any(feature = "names", feature = "carry_on"))]
    work: Lent<u32>,
    #[cfg(feature = "table")]
    lender: table::Lender,
    #[cfg(feature = "seal")]
    sha256: Sha256,
    found: Vec<Difference>,
    pub tally: Tally,
}

impl Checker {
    /// The differences of one case. The bytes that are damaged follow from the text, so that a case always answers the same.
    pub fn case(&mut self, case: &Case) -> Vec<Difference> {
        self.found.clear();
        let before = case.clone();
        match self.read(&case.text) {
            Some(Err(r)) => self.refused(case, r),
            Some(Ok((catalogue, header))) => self.accepted(case, &catalogue, &header),
            None => {}
        }
        #[cfg(feature = "carry_on")]
        if case.list.is_none() {
            self.carry_on(&case.text);
        }
        #[cfg(feature = "faults")]
        if case.list.is_none() {
            self.faultless(&case.text);
        }
        #[cfg(feature = "work")]
        if case.list.is_none() {
            match area::wrong(&case.text, seeded(&case.text).next()) {
                None => self.tally.area(),
                Some(what) => self.differ(Call::Read, None, what),
            }
        }
        if *case != before {
            self.differ(Call::Read, None, "a text, a prefix, fields or a list were changed".into());
        }
        std::mem::take(&mut self.found)
    }

    /// The differences of a case whose text is read once and asked nothing else.
    pub fn once(&mut self, case: &Case) -> Vec<Difference> {
        self.found.clear();
        self.read(&case.text);
        std::mem::take(&mut self.found)
    }

    // Reads the text on both sides: the refusal, or the catalogue and the crate's records; none where there is nothing to go on with.
    fn read(&mut self, text: &[u8]) -> Option<Result<(Vec<u8>, Header), Refusal>> {
        let theirs = self.crates_answer(text);
        let need = theirs.as_ref().map(catalogue_len);
        let ours = library::read(text, self.bytes.lend(need.as_ref().map_or(40, |n| n + 9)));
        match (ours, theirs) {
            (Err(r), theirs) => {
                let theirs = theirs.err();
                if theirs.as_ref().is_some_and(|t| t.number == r.number && t.line == r.line as usize) {
                    self.tally.text(r.number);
                } else {
                    let wide = theirs.as_ref().and_then(|t| known::taken(text, Some(r), t));
                    let kind = wide.or_else(|| known::reading(text, r, theirs.as_ref()));
                    let theirs = theirs.map_or("accepted".into(), |t| format!("{} line {} {}", t.number, t.line, t.error));
                    self.differ(Call::Read, kind, format!("refused {} line {}; the crate: {theirs}", r.number, r.line));
                }
                Some(Err(r))
            }
            (Ok(n), Err(t)) => {
                let theirs = format!("{} line {} {}", t.number, t.line, t.error);
                self.differ(Call::Read, known::taken(text, None, &t), format!("accepted ({n} bytes); the crate: {theirs}"));
                None
            }
            (Ok(n), Ok(header)) => {
                let catalogue = self.catalogued(text, n, &header)?;
                self.tally.text(0);
                Some(Ok((catalogue, header)))
            }
        }
    }

    // The crate's answer. Where line 0 gives no readable version and it says 14, it is asked again with repeats allowed: that this
    // library is asked to go on there is a known kind, and everything else must be as the crate then has it.
    fn crates_answer(&mut self, text: &[u8]) -> Result<Header, Refused> {
        let repeated = |r: &Result<Header, Refused>| r.as_ref().is_err_and(|t| t.number == 14);
        let strict = oracle::parse(text);
        if !repeated(&strict) || inputs::has_version(text) {
            return strict;
        }
        let lax = oracle::parse_lax(text);
        // It reads a version with a sign.
        if repeated(&lax) {
            return strict;
        }
        self.differ(Call::Read, Some(Kind::RepeatDefault), "a repeated tag is allowed; the crate: 14".into());
        lax
    }

    // The catalogue that reading left, held to the crate's records.
    fn catalogued(&mut self, text: &[u8], n: u64, header: &Header) -> Option<Vec<u8>> {
        let need = catalogue_len(header);
        let wrong = if n != need as u64 {
            format!("{n} bytes of catalogue, wanted {need}")
        } else if !self.bytes.kept_from(need) {
            "something past the catalogue was changed".into()
        } else {
            let catalogue = self.bytes.front(need).to_vec();
            match records(text, &catalogue, header) {
                Ok(()) => return Some(catalogue),
                Err(what) => format!("{what}; catalogue {}", inputs::hex(&catalogue)),
            }
        };
        self.differ(Call::Read, None, wrong);
        None
    }

    fn differ(&mut self, call: Call, kind: Option<Kind>, what: String) {
        self.found.push(Difference { call, kind, what });
    }

    // An answer that must be this one.
    fn same(&mut self, call: Call, got: Answer, want: Answer, what: &str) {
        if got == want {
            self.tally.call(call, want.err().map_or(0, |r| r.number));
        } else {
            self.differ(call, None, format!("{what}: {got:?}, wanted {want:?}"));
        }
    }

    // As `same` and `said`, over a refused text.
    fn still(&mut self, call: Call, got: Answer, r: Refusal) {
        self.held(call, (got != Err(r)).then(|| format!("on a refused text: {got:?}, wanted {r:?}")));
    }

    fn held(&mut self, call: Call, said: Option<String>) {
        match said {
            None => self.tally.refused(call),
            Some(what) => self.differ(call, None, what),
        }
    }

    // What `outputs` said.
    fn said(&mut self, call: Call, number: u32, said: Option<String>) {
        match said {
            None => self.tally.call(call, number),
            Some(what) => self.differ(call, None, what),
        }
    }

    // A refused text gives reading's refusal in every call, whatever the catalogue holds, and no byte is written.
    fn refused(&mut self, case: &Case, r: Refusal) {
        let text = &case.text[..];
        #[cfg(feature = "names")]
        if let Some(list) = &case.list {
            let said = self.names_at_lengths(text, b"", list, &Err(r));
            return self.held(Call::Names, said);
        }
        let said = outputs(&mut self.bytes, Err(r), |o| library::read(text, o));
        self.held(Call::Read, said);
        let said = outputs(&mut self.bytes, Err(r), |o| library::tidy(text, o));
        self.held(Call::Tidy, said);
        #[cfg(feature = "seal")]
        self.seal_refused(text, r);
        #[cfg(feature = "binary")]
        self.binary_refused(text, r);
        for catalogue in [&b""[..], b"\x01\x01\x00\x00\x00\x06\x00\x00\x00\x00\x00\x00\x00"] {
            self.still(Call::Check, library::check(text, catalogue), r);
            #[cfg(feature = "lookup")]
            {
                self.still(Call::Count, library::count(text, catalogue, 1), r);
                self.still(Call::Count, library::count(text, catalogue, 9), r);
                self.still(Call::Key, library::key(text, catalogue, 2, 0), r);
                self.still(Call::Line, library::line(text, catalogue, 1, 0), r);
                let mut ln = 0x5a5a;
                self.still(Call::Length, library::length(text, catalogue, 0, &mut ln), r);
                if ln != 0x5a5a {
                    self.differ(Call::Length, None, "a refusal changed the number".into());
                }
                for (kind, tag) in [(1, *b"SO"), (2, *b"M5"), (4, *b"PP")] {
                    let got = library::field(text, catalogue, kind, 0, tag);
                    self.held(Call::Field, got.map(|place| format!("on a refused text: kind {kind} at {place:?}")));
                }
            }
            #[cfg(feature = "found")]
            {
                for kind in [2, 9] {
                    self.still(Call::Find, library::find(text, catalogue, kind, b"a"), r);
                }
                let said = outputs(&mut self.words, Err(r), |o| library::references(text, catalogue, o));
                self.held(Call::References, said);
            }
            #[cfg(feature = "graph")]
            {
                let said = outputs(&mut self.words, Err(r), |o| library::roots(text, catalogue, o));
                self.held(Call::Roots, said);
                let said = outputs(&mut self.words, Err(r), |o| library::leaves(text, catalogue, o));
                self.held(Call::Leaves, said);
                #[cfg(feature = "table")]
                {
                    let said = self.lender.ask(&Err(r), |t, o| library::leaves_by_table(text, catalogue, t, o));
                    self.held(Call::LeavesByTable, said);
                }
            }
            #[cfg(feature = "add")]
            {
                let (p, f) = case.add.as_ref().map_or((&b"x"[..], &b""[..]), |(p, f)| (p, f));
                let said = outputs(&mut self.bytes, Err(r), |o| library::add(text, catalogue, p, f, o));
                self.held(Call::Add, said);
            }
            #[cfg(feature = "prune")]
            for used in [&[][..], &[0, 7, 0]] {
                let said = outputs(&mut self.bytes, Err(r), |o| library::prune(text, catalogue, used, o));
                self.held(Call::Prune, said);
            }
        }
    }

    fn accepted(&mut self, case: &Case, catalogue: &[u8], header: &Header) {
        let text = &case.text[..];
        let need = catalogue.len();
        #[cfg(feature = "names")]
        if let Some(list) = &case.list {
            return self.names(text, catalogue, header, list);
        }
        let said = outputs(&mut self.bytes, Ok((catalogue, need as u64)), |o| library::read(text, o));
        self.said(Call::Read, 0, said);

        // The catalogue is this text's; a damaged one is not.
        self.same(Call::Check, library::check(text, catalogue), Ok(0), "its own catalogue");
        let mut rng = seeded(text);
        let mut damaged = Vec::new();
        for _ in 0..if need == 0 { 0 } else { 3 } {
            let mut c = catalogue.to_vec();
            c[rng.below(need)] ^= if rng.one_in(2) { 1 << rng.below(8) } else { 1 + rng.below(255) as u8 };
            damaged.push(c);
        }
        damaged.push([catalogue, &[*rng.of(b"\x00\x06\x01\xff")]].concat());
        if need > 0 {
            damaged.push(catalogue[..need - 1].to_vec());
            damaged.push(Vec::new());
            damaged.extend(relined(catalogue, &mut rng));
        }
        damaged.extend(self.others(text, catalogue));
        for c in &damaged {
            self.same(Call::Check, library::check(text, c), Err(STALE), "a damaged catalogue");
        }

        self.tidy(text, header);
        #[cfg(feature = "seal")]
        self.seal(text, catalogue, &damaged, header, &mut rng);
        #[cfg(feature = "binary")]
        self.binary(text, header, &mut rng);
        #[cfg(feature = "lookup")]
        {
            self.lookup(text, catalogue, &damaged, header, &mut rng);
            self.fields(text, catalogue, &damaged, header, &mut rng);
        }
        #[cfg(feature = "graph")]
        self.graph(text, catalogue, &damaged, header, &mut rng);
        #[cfg(feature = "found")]
        self.found(text, catalogue, &damaged, header);
        #[cfg(feature = "add")]
        self.add(case, catalogue, &damaged, header, &mut rng);
        #[cfg(feature = "prune")]
        self.prune(text, catalogue, &damaged, header, &mut rng);
    }

    // Texts that are nearly this one: with other names its catalogue is fresh, with other places it is not. The catalogue of the
    // latter, which is as long and not this text's.
    fn others(&mut self, text: &[u8], catalogue: &[u8]) -> Option<Vec<u8>> {
        let named = inputs::renamed(text);
        self.same(Call::Check, library::check(&named, catalogue), Ok(0), "over a text with other names");
        let (other, moved) = inputs::ended_otherwise(text)?;
        let want = if moved { Err(STALE) } else { Ok(0) };
        self.same(Call::Check, library::check(&other, catalogue), want, "over a text whose first line ends otherwise");
        let mut own = vec![0; catalogue.len()];
        let got = library::read(&other, &mut own);
        self.same(Call::Read, got, Ok(own.len() as u64), "a text whose first line ends otherwise");
        moved.then_some(own)
    }

    // The line of the first SQ whose name the crate does not write.
    fn unwritable(text: &[u8], header: &Header) -> Refusal {
        let ordinal = oracle::unwritable(header).expect("the crate refused a name");
        let mut sq = oracle::spans(text).enumerate().filter(|&(_, (a, b))| text[a..b].starts_with(b"@SQ"));
        Refusal { number: 24, line: sq.nth(ordinal).expect("an SQ line").0 as u32 }
    }

    fn tidy(&mut self, text: &[u8], header: &Header) {
        let written = oracle::tidy(header);
        let want = match &written {
            Ok(t) if t.len() > oracle::LONGEST => Err(refusal(1)),
            Ok(t) => Ok((&t[..], t.len() as u64)),
            Err(_) => Err(Self::unwritable(text, header)),
        };
        let said = outputs(&mut self.bytes, want, |o| library::tidy(text, o));
        let number = want.err().map_or(0, |r| r.number);
        // What is written tidy is how a header is handed over to the crate: its parser takes it and holds the same records.
        if let Ok((tidy, _)) = want
            && oracle::parse(tidy).as_ref().ok() != Some(header)
        {
            self.differ(Call::Tidy, None, "the crate reads other records in the tidy text".into());
        }
        if number == 1 && said.is_none() {
            self.differ(Call::Tidy, Some(Kind::Size), "refused 1; the crate writes it".into());
        }
        self.said(Call::Tidy, number, said);
    }

    #[cfg(feature = "lookup")]
    fn lookup(&mut self, text: &[u8], catalogue: &[u8], damaged: &[Vec<u8>], header: &Header, rng: &mut Rng) {
        let sizes = [
            usize::from(header.header().is_some()),
            header.reference_sequences().len(),
            header.read_groups().len(),
            header.programs().as_ref().len(),
            header.comments().len(),
        ];
        let lines = lines_by_kind(text);
        for kind in [0, 1, 2, 3, 4, 5, 6, 7, 255] {
            let n = usize::from(kind).checked_sub(1).and_then(|k| sizes.get(k)).copied();
            let want = n.map_or(Err(ABSENT), |n| Ok(n as u64));
            self.same(Call::Count, library::count(text, catalogue, kind), want, &format!("kind {kind}"));
            let n = n.unwrap_or(0);
            let ordinals = [0, n, u32::MAX as usize, n.saturating_sub(1), rng.below(n.max(1))];
            let ordinals = if (1..=5).contains(&kind) { &ordinals[..] } else { &ordinals[..1] };
            for &i in ordinals {
                let line = usize::from(kind).checked_sub(1).and_then(|k| lines.get(k)?.get(i));
                let want = line.map_or(Err(ABSENT), |&l| Ok(l as u64));
                self.same(Call::Line, library::line(text, catalogue, kind, i as u32), want, &format!("kind {kind} ordinal {i}"));
                // The bytes at the place are the crate's key, and its tag stands before them.
                let key: Option<(&[u8], &[u8; 4])> = match kind {
                    2 => header.reference_sequences().get_index(i).map(|(k, _)| (&k[..], b"\tSN:")),
                    3 => header.read_groups().get_index(i).map(|(k, _)| (&k[..], b"\tID:")),
                    4 => header.programs().as_ref().get_index(i).map(|(k, _)| (&k[..], b"\tID:")),
                    _ => None,
                };
                let got = library::key(text, catalogue, kind, i as u32);
                let fits = match (key, got) {
                    (None, got) => got == Err(ABSENT),
                    (Some((k, tag)), Ok(a)) => {
                        let (offset, len) = ((a >> 32) as usize, a as u32 as usize);
                        let entry = [kind, a.to_le_bytes()[4], a.to_le_bytes()[5], a.to_le_bytes()[6], a.to_le_bytes()[7]];
                        text.get(offset..offset + len) == Some(k)
                            && text[..offset].ends_with(tag)
                            && catalogue.windows(5).any(|w| w == entry)
                    }
                    _ => false,
                };
                if fits {
                    self.tally.call(Call::Key, got.err().map_or(0, |r| r.number));
                } else {
                    self.differ(Call::Key, None, format!("kind {kind} ordinal {i}: {got:?}, the crate: {key:?}"));
                }
                if kind == 2 {
                    let mut ln = 0x5a5a_5a5a_5a5a;
                    let got = library::length(text, catalogue, i as u32, &mut ln);
                    let want = header.reference_sequences().get_index(i).map(|(_, m)| m.length().get() as u64);
                    let fits = match want {
                        Some(n) => got == Ok(0) && ln == n,
                        None => got == Err(ABSENT) && ln == 0x5a5a_5a5a_5a5a,
                    };
                    if fits {
                        self.tally.call(Call::Length, got.err().map_or(0, |r| r.number));
                    } else {
                        self.differ(Call::Length, None, format!("ordinal {i}: {got:?} and {ln}, the crate: {want:?}"));
                    }
                }
            }
        }
        let kind = rng.below(8) as u8;
        let mut ln = 7;
        self.same(Call::Count, library::count(text, &rng.of(damaged)[..], kind), Err(STALE), "a damaged catalogue");
        self.same(Call::Key, library::key(text, &rng.of(damaged)[..], kind, 0), Err(STALE), "a damaged catalogue");
        self.same(Call::Line, library::line(text, &rng.of(damaged)[..], kind, 0), Err(STALE), "a damaged catalogue");
        self.same(Call::Length, library::length(text, &rng.of(damaged)[..], 0, &mut ln), Err(STALE), "a damaged catalogue");
        if ln != 7 {
            self.differ(Call::Length, None, "a refusal changed the number".into());
        }
    }

    // Fields by kind, ordinal and tag. The value of every other field is answered, or of some where there are many. The stand-in takes
    // the place of a key, of a tag that the record lacks, and of all where no such record is there or the catalogue is damaged.
    #[cfg(feature = "lookup")]
    fn fields(&mut self, text: &[u8], catalogue: &[u8], damaged: &[Vec<u8>], header: &Header, rng: &mut Rng) {
        let all = listed(text, header);
        let tags: Vec<[u8; 2]> = all.iter().flat_map(|r| r.fields.iter().map(|f| f.0)).chain([*b"PP"]).collect();
        for i in some(all.len(), rng) {
            let r = &all[i];
            for j in some(r.fields.len(), rng) {
                let (tag, value) = r.fields[j];
                self.field(text, catalogue, (r.kind, r.ordinal), tag, Ok((r.line, value)));
                if rng.one_in(4) {
                    self.field(text, &rng.of(damaged)[..], (r.kind, r.ordinal), tag, Err(STALE));
                }
            }
            let keys: &[&[u8; 2]] = match r.kind {
                1 => &[b"VN"],
                2 => &[b"SN", b"LN"],
                3 | 4 => &[b"ID"],
                _ => &[],
            };
            let others = [*rng.of(&tags), *b"SN", *b"zz", [rng.below(256) as u8, rng.below(256) as u8]];
            let lacks = |tag: &&[u8; 2]| !r.fields.iter().any(|f| f.0 == **tag);
            for tag in keys.iter().copied().chain(others.iter().filter(lacks)) {
                self.field(text, catalogue, (r.kind, r.ordinal), *tag, Err(ABSENT));
            }
        }
        for kind in [0, 1, 2, 3, 4, 5, 6, 255] {
            let n = all.iter().filter(|r| r.kind == kind).count();
            for ordinal in [n, u32::MAX as usize] {
                self.field(text, catalogue, (kind, ordinal), *rng.of(&tags), Err(ABSENT));
            }
        }
    }

    // The value in its line, or why the stand-in takes its place.
    #[cfg(feature = "lookup")]
    fn field(
        &mut self,
        text: &[u8],
        catalogue: &[u8],
        (kind, ordinal): (u8, usize),
        tag: [u8; 2],
        want: Result<((usize, usize), &[u8]), Refusal>,
    ) {
        let got = library::field(text, catalogue, kind, ordinal as u32, tag);
        let said = match (got, want) {
            (None, Err(_)) => None,
            (Some(place), Ok((line, value))) => match valued(text, line, &tag, place) {
                Ok(there) if there == value => None,
                Ok(there) => Some(format!("the value {}, the crate: {}", there.escape_ascii(), value.escape_ascii())),
                Err(what) => Some(what),
            },
            (None, Ok((_, value))) => Some(format!("the stand-in, the crate: {}", value.escape_ascii())),
            (Some(place), Err(_)) => Some(format!("a value at {place:?}, where the stand-in is due")),
        };
        let said = said.map(|s| format!("kind {kind} ordinal {ordinal} tag {}: {s}", tag.escape_ascii()));
        self.said(Call::Field, want.err().map_or(0, |r| r.number), said);
    }

    #[cfg(feature = "graph")]
    fn graph(&mut self, text: &[u8], catalogue: &[u8], damaged: &[Vec<u8>], header: &Header, rng: &mut Rng) {
        use oracle::Leaves;
        let ordinals = |l: Vec<usize>| l.into_iter().map(|i| i as u32).collect::<Vec<u32>>();
        let roots = ordinals(oracle::roots(header));
        let said = outputs(&mut self.words, Ok((&roots, roots.len() as u64)), |o| library::roots(text, catalogue, o));
        self.said(Call::Roots, 0, said);

        let parents = oracle::parents(header);
        let leaves = oracle::leaves(header);
        let (number, kind) = chained(&parents, &leaves);
        let list = if let Leaves::List(l) = leaves { ordinals(l) } else { Vec::new() };
        let want = if number == 0 { Ok((&list[..], hops(&parents) << 32 | list.len() as u64)) } else { Err(refusal(number)) };
        let said = outputs(&mut self.words, want, |o| library::leaves(text, catalogue, o));
        if let (Some(kind), None) = (kind, &said) {
            self.differ(Call::Leaves, Some(kind), format!("refused {number}"));
        }
        self.said(Call::Leaves, number, said);
        #[cfg(feature = "table")]
        {
            let nodes = if number == 0 { table::nodes(&parents) } else { Vec::new() };
            let want = want.map(|(leaves, answer)| Tabled { leaves, answer, nodes: &nodes });
            let said = self.lender.ask(&want, |t, o| library::leaves_by_table(text, catalogue, t, o));
            self.said(Call::LeavesByTable, number, said);
        }

        let c = rng.of(damaged);
        let said = outputs(&mut self.words, Err(STALE), |o| library::roots(text, c, o));
        self.said(Call::Roots, 21, said);
        let said = outputs(&mut self.words, Err(STALE), |o| library::leaves(text, c, o));
        self.said(Call::Leaves, 21, said);
        #[cfg(feature = "table")]
        {
            let said = self.lender.ask(&Err(STALE), |t, o| library::leaves_by_table(text, c, t, o));
            self.said(Call::LeavesByTable, 21, said);
        }
    }

    #[cfg(feature = "add")]
    fn add(&mut self, case: &Case, catalogue: &[u8], damaged: &[Vec<u8>], header: &Header, rng: &mut Rng) {
        let Some((prefix, fields)) = &case.add else { return };
        let text = &case.text[..];
        // The lenient build cannot say what is not in form.
        if oracle::LENIENT {
            let line = [b"@PG\tID:", &prefix[..], fields].concat();
            if line.contains(&b'\n') || !inputs::in_domain(&line) {
                return;
            }
        }
        let given = oracle::program_fields(fields).ok().filter(|_| oracle::is_id(prefix));
        let parent = given.as_ref().map_or(oracle::Parent::Absent, |map| oracle::given_parent(header, map));
        let (mut kind, mut out) = (None, Vec::new());
        // The crate's answer; where it has none, or another by intent, a known kind.
        let leaves = oracle::leaves(header);
        let (graph, odd) = chained(&oracle::parents(header), &leaves);
        let want = match given {
            None => Err(refusal(26)),
            Some(_) if graph == 22 => {
                kind = odd;
                Err(refusal(22))
            }
            Some(_) if parent == oracle::Parent::Nobody => {
                kind = Some(Kind::AddNobody);
                Err(refusal(22))
            }
            Some(_) if graph == 23 => {
                kind = odd;
                Err(refusal(23))
            }
            Some(map) => match oracle::add(header, prefix, map) {
                None => Err(refusal(18)),
                Some(more) if more.programs().as_ref().len() > oracle::PROGRAMS => {
                    kind = Some(Kind::AddPrograms);
                    Err(refusal(19))
                }
                Some(more) => match oracle::tidy(&more) {
                    Err(_) => Err(Self::unwritable(text, header)),
                    Ok(t) if t.len() > oracle::LONGEST => {
                        kind = Some(Kind::Size);
                        Err(refusal(1))
                    }
                    Ok(t) => {
                        out = t;
                        Ok(())
                    }
                },
            },
        };
        let want = want.map(|()| (&out[..], out.len() as u64));
        let number = want.err().map_or(0, |r| r.number);
        let said = outputs(&mut self.bytes, want, |o| library::add(text, catalogue, prefix, fields, o));
        if let (Some(kind), None) = (kind, &said) {
            self.differ(Call::Add, Some(kind), format!("refused {number}; the crate does not"));
        }
        self.said(Call::Add, number, said);
        if number == 0 {
            match oracle::parse(&out).map(|after| grown::grown(header, &after, parent)) {
                Ok(Grown::Right) => self.tally.grown(),
                Ok(Grown::Unasked) => {}
                Ok(Grown::Wrong(what)) => self.differ(Call::Add, None, what),
                Err(r) => self.differ(Call::Add, None, format!("the crate refuses the text that was written: {r:?}")),
            }
        }
        let c = rng.of(damaged);
        let said = outputs(&mut self.bytes, Err(STALE), |o| library::add(text, c, prefix, fields, o));
        self.said(Call::Add, 21, said);
    }
}

#[cfg(feature = "found")]
impl Checker {
    // Keys of the text, and what is nearly one, asked for in the kind that has them and in another; then the table of references. What is asked by chance
    // follows from the text, and leaves the other calls' chances as they are.
    fn found(&mut self, text: &[u8], catalogue: &[u8], damaged: &[Vec<u8>], header: &Header) {
        let mut rng = seeded(text);
        for kind in 2..=4 {
            let keys = found::keys(header, kind);
            let mut asked = vec![(kind, Vec::new())];
            for _ in 0..keys.len().min(2) {
                let key = *rng.of(&keys);
                asked.extend([(kind, key.to_vec()), (rng.below(7) as u8, key.to_vec()), (kind, found::nearly(key, &mut rng))]);
            }
            for (kind, key) in asked {
                let place = found::keys(header, kind).iter().position(|k| *k == key);
                let want = place.map_or(Err(ABSENT), |i| Ok(i as u64));
                let what = format!("kind {kind} key {}", key.escape_ascii());
                self.same(Call::Find, library::find(text, catalogue, kind, &key), want, &what);
            }
        }
        let c = rng.of(damaged);
        self.same(Call::Find, library::find(text, c, rng.below(7) as u8, b"a"), Err(STALE), "a damaged catalogue");
        let rows = found::rows(text, header);
        let want = Ok((&rows[..], rows.len() as u64 / 3));
        let said = outputs(&mut self.words, want, |o| library::references(text, catalogue, o));
        self.said(Call::References, 0, said);
        let said = outputs(&mut self.words, Err(STALE), |o| library::references(text, c, o));
        self.said(Call::References, 21, said);
    }
}

#[cfg(feature = "prune")]
impl Checker {
    // Programs in use: what is left is the crate's table without the others, written by the crate. An ordinal that is too high comes
    // before what is wrong with the graph, and all programs are judged, also those that would go.
    fn prune(&mut self, text: &[u8], catalogue: &[u8], damaged: &[Vec<u8>], header: &Header, rng: &mut Rng) {
        let parents = oracle::parents(header);
        let (graph, _) = chained(&parents, &oracle::leaves(header));
        let lists = pruned::lists(parents.len(), rng);
        for used in &lists {
            let mut out = Vec::new();
            let want = if used.iter().any(|&u| u as usize >= parents.len()) {
                Err(ABSENT)
            } else if graph != 0 {
                Err(refusal(graph))
            } else {
                match oracle::tidy(&pruned::pruned(header, &parents, used)) {
                    Err(_) => Err(Self::unwritable(text, header)),
                    Ok(t) if t.len() > oracle::LONGEST => Err(refusal(1)),
                    Ok(t) => {
                        out = t;
                        Ok(())
                    }
                }
            };
            let want = want.map(|()| (&out[..], out.len() as u64));
            let said = outputs(&mut self.bytes, want, |o| library::prune(text, catalogue, used, o));
            let number = want.err().map_or(0, |r| r.number);
            self.said(Call::Prune, number, said.map(|what| format!("in use {used:?}: {what}")));
        }
        let (c, used) = (rng.of(damaged), rng.of(&lists));
        let said = outputs(&mut self.bytes, Err(STALE), |o| library::prune(text, c, used, o));
        self.said(Call::Prune, 21, said);
    }
}

/// What a seal holds before a call.
#[cfg(feature = "seal")]
const UNSEALED: [u8; 32] = [0x5A; 32];

/// The seal of another header.
#[cfg(feature = "seal")]
const OTHER: Refusal = Refusal { number: 33, line: 0 };

#[cfg(feature = "seal")]
impl Checker {
    // A refused text gives reading's refusal, whatever the catalogue and the seal hold, and neither the work area nor the seal changes.
    fn seal_refused(&mut self, text: &[u8], r: Refusal) {
        let mut seal = UNSEALED;
        let said = outputs(&mut self.bytes, Err(r), |o| library::seal(text, o, &mut seal));
        let said = said.or((seal != UNSEALED).then(|| "a refusal changed the seal".into()));
        self.held(Call::Seal, said);
        let said = outputs(&mut self.bytes, Err(r), |o| library::check_sealed(text, b"", &seal, o));
        self.held(Call::CheckSealed, said);
    }

    // The check of a seal that is another header's: 33 comes when the tidy text stands in the work area, and any other refusal as tidying's.
    fn other_seal(&mut self, text: &[u8], catalogue: &[u8], seal: &[u8; 32], want: Result<&[u8], Refusal>) {
        let said = outputs(&mut self.bytes, want.map(|t| (t, 33)), |o| match library::check_sealed(text, catalogue, seal, o) {
            Err(OTHER) => Ok(33),
            answer => answer,
        });
        self.said(Call::CheckSealed, want.err().map_or(33, |r| r.number), said.map(|what| format!("another seal: {what}")));
    }

    // The seal is the digest of the crate's tidy text. The check takes it and no other; a catalogue that is not the text's comes before, and the same text with
    // other names, which has the same catalogue, has another seal.
    fn seal(&mut self, text: &[u8], catalogue: &[u8], damaged: &[Vec<u8>], header: &Header, rng: &mut Rng) {
        let written = oracle::tidy(header);
        let want = match &written {
            Ok(t) if t.len() > oracle::LONGEST => Err(refusal(1)),
            Ok(t) => Ok(&t[..]),
            Err(_) => Err(Self::unwritable(text, header)),
        };
        let number = want.err().map_or(0, |r| r.number);
        let digest = want.map_or(UNSEALED, |t| self.sha256.digest(t));
        let mut wrong = None;
        let said = outputs(&mut self.bytes, want.map(|t| (t, t.len() as u64)), |o| {
            let mut seal = UNSEALED;
            let answer = library::seal(text, o, &mut seal);
            if seal != if answer.is_ok() { digest } else { UNSEALED } {
                wrong = Some(format!("{answer:?} and the seal {}", inputs::hex(&seal)));
            }
            answer
        });
        self.said(Call::Seal, number, said.or(wrong));
        let said = outputs(&mut self.bytes, want.map(|t| (t, 0)), |o| library::check_sealed(text, catalogue, &digest, o));
        self.said(Call::CheckSealed, number, said);
        let mut other = digest;
        other[rng.below(32)] ^= 1 << rng.below(8);
        self.other_seal(text, catalogue, &other, want);
        let (c, seal) = (rng.of(damaged), if rng.one_in(2) { &digest } else { &other });
        let said = outputs(&mut self.bytes, Err(STALE), |o| library::check_sealed(text, c, seal, o));
        self.said(Call::CheckSealed, 21, said);
        let named = inputs::renamed(text);
        // A name that a repeated tag replaces is none of the records: the seal is then the same.
        if let (Ok(own), Ok(header)) = (want, oracle::parse(&named))
            && let Ok(t) = oracle::tidy(&header)
            && t != own
        {
            self.other_seal(&named, catalogue, &digest, Ok(&t));
        }
    }
}

#[cfg(feature = "names")]
impl Checker {
    // The names of a list: the answers are the crate's, and the index and what is looked at are the rule's.
    fn names(&mut self, text: &[u8], catalogue: &[u8], header: &Header, list: &[u8]) {
        let table = header.reference_sequences();
        let index = Index::new(table.keys().map(|name| &name[..]).collect());
        let mut want = Named { slots: &index.slots, ordinals: Vec::new(), inspected: 0 };
        for name in index::listed(list) {
            let (ordinal, looked) = index.look(name);
            let theirs = table.get_index_of(name).map_or(index::NONE, |i| i as u32);
            assert!(
                ordinal == theirs && looked <= table.len() as u64 + 1,
                "the rule answers as the crate, and within its limit"
            );
            want.ordinals.push(theirs);
            want.inspected += looked;
        }
        let want = if list.len() > oracle::LONGEST { Err(refusal(1)) } else { Ok(want) };
        let said = self.names_at_lengths(text, catalogue, list, &want);
        self.said(Call::Names, want.err().map_or(0, |r| r.number), said);
        // Another catalogue is refused before anything else.
        let mut rng = seeded(text);
        let mut other = catalogue.to_vec();
        match rng.below(catalogue.len() + 2).checked_sub(2) {
            Some(i) => other[i] ^= 1 + rng.below(255) as u8,
            None => other.push(*rng.of(b"\x00\x02\x06")),
        }
        let said = self.names_at_lengths(text, &other, list, &Err(STALE));
        self.said(Call::Names, 21, said);
    }

    // Asks with every length of the work area together with every length of the output: longer than the answer, exactly as long, one
    // short, and empty. Says what is wrong, if anything.
    fn names_at_lengths(
        &mut self,
        text: &[u8],
        catalogue: &[u8],
        list: &[u8],
        want: &Result<Named, Refusal>,
    ) -> Option<String> {
        const BEFORE: u64 = 0x5a5a_5a5a_5a5a;
        let lengths = |n: usize| if n == 0 { vec![9, 0] } else { vec![n + 9, n, n - 1, 0] };
        let (slots, names) = want.as_ref().map_or((0, 0), |w| (w.slots.len(), w.ordinals.len()));
        for work in lengths(slots) {
            for out in lengths(names) {
                let due = match want {
                    Ok(w) if work >= slots && out >= names => Ok(w),
                    Ok(_) => Err(SHORT),
                    Err(r) => Err(*r),
                };
                let mut inspected = BEFORE;
                let got = library::names(text, catalogue, list, self.work.lend(work), self.words.lend(out), &mut inspected);
                let said = self.named(got, inspected, due, BEFORE);
                if let Some(what) = said {
                    return Some(format!("a work area of {work} and an output of {out}: {what}"));
                }
            }
        }
        None
    }

    // Holds one answer, and both buffers after it, to what is due.
    fn named(&self, got: Answer, inspected: u64, due: Result<&Named, Refusal>, before: u64) -> Option<String> {
        let (slots, ordinals, looked): (&[u32], &[u32], u64) =
            due.as_ref().map_or((&[], &[], before), |w| (w.slots, &w.ordinals, w.inspected));
        let due = due.map(|w| w.ordinals.len() as u64);
        let (index, answers) = (self.work.front(slots.len()), self.words.front(ordinals.len()));
        if got != due {
            Some(format!("{got:?}, wanted {due:?}"))
        } else if answers != ordinals {
            Some(format!("{answers:?}, wanted {ordinals:?}"))
        } else if index != slots {
            Some(format!("the index {index:?}, wanted {slots:?}"))
        } else if inspected != looked {
            Some(format!("{inspected} slots looked at, wanted {looked}"))
        } else if !self.work.kept_from(slots.len()) || !self.words.kept_from(ordinals.len()) {
            Some("something past the index or the answers was changed".into())
        } else {
            None
        }
    }
}

#[cfg(feature = "carry_on")]
impl Checker {
    // What is kept and what is skipped are the crate's, as far as it can say.
    fn carry_on(&mut self, text: &[u8]) {
        if oracle::LENIENT {
            return;
        }
        if text.len() > oracle::LONGEST {
            let said = self.carried_at_lengths(text, Err(refusal(1)), &[]);
            self.differ(Call::CarryOn, Some(Kind::Size), "refused 1; the crate goes on".into());
            return self.said(Call::CarryOn, 1, said);
        }
        let takes = |t: &[u8]| library::read(t, &mut vec![0; 3 * t.len() + 1]).is_ok();
        let Some(mut want) = carried::carried(text, takes) else {
            return self.differ(Call::CarryOn, Some(Kind::Wide), "a value that the crate's stand-in does not take".into());
        };
        if want.skipped.iter().any(|s| s.1.is_none() || s.1 == Some(19)) {
            self.differ(Call::CarryOn, Some(Kind::CarryLine), "a line that the crate takes otherwise".into());
        }
        if carried::defaults_differ(text) {
            self.differ(Call::CarryOn, Some(Kind::CarryDefault), "a repeated tag is allowed; the crate: 14".into());
        }
        let written = oracle::tidy(&want.header);
        let answer = library::carry_on(text, self.bytes.lend(text.len() + 1), self.words.lend(2 * want.skipped.len()));
        let rows = self.rows(answer, &want.skipped);
        let due = match &written {
            Ok(t) if t.len() > oracle::LONGEST => Err(refusal(1)),
            Ok(t) => Ok(&t[..]),
            Err(_) => {
                let ordinal = oracle::unwritable(&want.header).expect("the crate refused a name");
                Err(Refusal { number: 24, line: want.sequences[ordinal] })
            }
        };
        let said = self.carried_at_lengths(text, due, &rows);
        self.said(Call::CarryOn, due.err().map_or(0, |r| r.number), said);
        // Of a line that the crate was not given the faults have the number that carrying on told, if it did.
        for (skipped, row) in want.skipped.iter_mut().zip(rows.chunks(2)) {
            skipped.1 = skipped.1.or(Some(row[1]).filter(|&n| n != 0));
        }
        #[cfg(feature = "faults")]
        self.faults(text, &want);
    }

    // The rows that are due, after a call with room for them alone. A line that the crate was not given has any number of a line's refusal: the library's
    // own is taken over.
    fn rows(&self, answer: Answer, lines: &[(u32, Option<u32>)]) -> Vec<u32> {
        let own = |i: usize| answer.map_or(0, |_| self.words.front(2 * lines.len())[2 * i + 1]);
        let number = |i: usize, n: Option<u32>| n.unwrap_or(if matches!(own(i), 2..=18 | 27) { own(i) } else { 0 });
        lines.iter().enumerate().flat_map(|(i, &(line, n))| [line, number(i, n)]).collect()
    }

    // Asks with an output and a table that are longer than the answer, exactly as long, one short, and empty. Says what is wrong, if anything.
    fn carried_at_lengths(&mut self, text: &[u8], want: Result<&[u8], Refusal>, rows: &[u32]) -> Option<String> {
        let (n, m) = (want.map_or(0, <[u8]>::len), rows.len());
        for (room, table) in [(n + 9, m + 9), (n, m), (n.wrapping_sub(1), m), (n, m.wrapping_sub(1)), (0, 0)] {
            if room > n + 9 || table > m + 9 {
                continue;
            }
            let due = match want {
                Ok(_) if room < n || table < m => Err(SHORT),
                Ok(bytes) => Ok((bytes, rows)),
                Err(r) => Err(r),
            };
            let got = library::carry_on(text, self.bytes.lend(room), self.words.lend(table));
            let areas: &[usize] = if room > n { &[0, 1, 6_144, 6_145, 70_000] } else { &[6_145] };
            let wrong = self.carried_wrong(got, due).or_else(|| self.carried_with(text, room, table, due, areas));
            if let Some(wrong) = wrong {
                return Some(format!("an output of {room} and a table of {table}: {wrong}"));
            }
        }
        None
    }

    // Asks by work areas of these lengths, filled with the pattern: the same, and the area is all zeros.
    fn carried_with(
        &mut self,
        text: &[u8],
        room: usize,
        table: usize,
        due: Result<(&[u8], &[u32]), Refusal>,
        areas: &[usize],
    ) -> Option<String> {
        for &len in areas {
            let got = library::carry_on_with(text, self.bytes.lend(room), self.words.lend(table), self.work.lend(len));
            let zeros = self.work.front(len).iter().all(|x| *x == 0) && self.work.kept_from(len);
            let wrong = self.carried_wrong(got, due).or_else(|| (!zeros).then(|| "the area is not all zeros".into()));
            if let Some(wrong) = wrong {
                return Some(format!("a work area of {len}: {wrong}"));
            }
        }
        None
    }

    // Holds one answer, the output and the table to what is due: the bytes and the numbers that are written, or a refusal.
    fn carried_wrong(&self, got: Answer, due: Result<(&[u8], &[u32]), Refusal>) -> Option<String> {
        let (bytes, numbers): (&[u8], &[u32]) = due.unwrap_or((&[], &[]));
        let due = due.map(|_| (numbers.len() as u64 / 2) << 32 | bytes.len() as u64);
        if got != due {
            Some(format!("{got:?}, wanted {due:?}"))
        } else if self.bytes.front(bytes.len()) != bytes {
            Some(format!("{}, wanted {}", u8::show(self.bytes.front(bytes.len())), u8::show(bytes)))
        } else if self.words.front(numbers.len()) != numbers {
            Some(format!("the table {:?}, wanted {numbers:?}", self.words.front(numbers.len())))
        } else if !self.bytes.kept_from(bytes.len()) || !self.words.kept_from(numbers.len()) {
            Some("something past the answer or the table was changed".into())
        } else {
            None
        }
    }
}

#[cfg(feature = "faults")]
impl Checker {
    // The faulty lines: what is skipped and why is carrying on's, and what is faulty of the rest follows from the crate's tables.
    fn faults(&mut self, text: &[u8], kept: &carried::Carried) {
        let lines = faulty::lines(kept);
        let answer = library::faults(text, self.words.lend(2 * lines.len()));
        let rows = self.rows(answer, &lines);
        let said = outputs(&mut self.words, Ok((&rows, lines.len() as u64)), |o| library::faults(text, o));
        if said.is_none() {
            self.tally.faults(&rows);
        }
        self.said(Call::Faults, 0, said);
    }

    // What the library must tell of any text, the crate unasked: 1 for one that is too long; else no faults exactly where reading, tidying and leaves all
    // accept, and the first fault that has a number of reading's is reading's refusal.
    fn faultless(&mut self, text: &[u8]) {
        if text.len() > oracle::LONGEST {
            let said = outputs(&mut self.words, Err(refusal(1)), |o| library::faults(text, o));
            return self.said(Call::Faults, 1, said);
        }
        let mut table = vec![0; 2 * oracle::spans(text).count()];
        let answer = library::faults(text, &mut table);
        let Some(rows) = answer.ok().and_then(|n| table.get(..2 * n as usize)) else {
            return self.differ(Call::Faults, None, format!("with room for all lines: {answer:?}"));
        };
        let mut catalogue = vec![0; 3 * text.len() + 1];
        let read = library::read(text, &mut catalogue);
        let tidy = library::tidy(text, &mut vec![0; text.len() + 1]);
        let leaves = read.and_then(|n| library::leaves(text, &catalogue[..n as usize], &mut [0; oracle::PROGRAMS]));
        // The longest text may be too long by the last LF when it is tidied, which is no fault.
        let tidies = tidy.is_ok() || text.len() == oracle::LONGEST && tidy == Err(refusal(1));
        let first = rows.chunks(2).find(|row| !matches!(row[1], 22..=24)).map(|row| Refusal { number: row[1], line: row[0] });
        if rows.is_empty() != (tidies && leaves.is_ok()) {
            let calls = format!("read {read:?}, tidy {tidy:?}, leaves {leaves:?}");
            self.differ(Call::Faults, None, format!("the faults {rows:?}, and {calls}"));
        } else if first != read.err() {
            self.differ(Call::Faults, None, format!("the faults {rows:?}, and read {read:?}"));
        } else {
            self.tally.told();
        }
    }
}

/// A run of bytes behind its length.
#[cfg(feature = "binary")]
fn sized(bytes: &[u8]) -> Vec<u8> {
    [&(bytes.len() as u32).to_le_bytes(), bytes].concat()
}

/// A binary header by the SAM specification: made here, of a text and of names and lengths from the crate's table.
#[cfg(feature = "binary")]
fn packed(text: &[u8], references: &[(Vec<u8>, u32)]) -> Vec<u8> {
    let entry = |(name, n): &(Vec<u8>, u32)| [sized(&[name, &b"\0"[..]].concat()), n.to_le_bytes().to_vec()].concat();
    let list: Vec<u8> = references.iter().flat_map(entry).collect();
    [b"BAM\x01", &sized(text)[..], &(references.len() as u32).to_le_bytes(), &list].concat()
}

#[cfg(feature = "binary")]
impl Checker {
    // Out and in give reading's refusal: in only where no zero byte would be dropped.
    fn binary_refused(&mut self, text: &[u8], r: Refusal) {
        let said = outputs(&mut self.bytes, Err(r), |o| library::binary_out(text, o));
        self.held(Call::BinaryOut, said);
        if text.last() != Some(&0) && text.len() <= u32::MAX as usize {
            let bytes = packed(text, &[]);
            let said = outputs(&mut self.bytes, Err(r), |o| library::binary_in(&bytes, o));
            self.held(Call::BinaryIn, said);
        }
    }

    // Out is the crate's tidy text and its table of references; in takes it back, and refuses what differs from it.
    fn binary(&mut self, text: &[u8], header: &Header, rng: &mut Rng) {
        let references = header.reference_sequences().iter();
        let list: Vec<(Vec<u8>, u32)> = references.map(|(name, map)| (name[..].to_vec(), map.length().get() as u32)).collect();
        let written = oracle::tidy(header);
        let refused = match &written {
            Ok(t) if t.len() > oracle::LONGEST => Some(refusal(1)),
            Ok(_) => None,
            Err(_) => Some(Self::unwritable(text, header)),
        };
        let tidy = written.unwrap_or_default();
        let full = packed(&tidy, &list);
        let want = refused.map_or(Ok((&full[..], full.len() as u64)), Err);
        let said = outputs(&mut self.bytes, want, |o| library::binary_out(text, o));
        self.said(Call::BinaryOut, refused.map_or(0, |r| r.number), said);
        if text.last() == Some(&0) {
            return; // a comment's zero bytes at the end of the text would be dropped
        }
        let given = packed(text, &list);
        let back = refused.map_or(Ok((&tidy[..], tidy.len() as u64)), Err);
        let number = refused.map_or(0, |r| r.number);
        let zeros = [text, &b"\0\0\0"[..1 + rng.below(3)]].concat();
        for bytes in [&given, &packed(&zeros, &list)] {
            let said = outputs(&mut self.bytes, back, |o| library::binary_in(bytes, o));
            self.said(Call::BinaryIn, number, said);
        }
        if refused.is_none() {
            let said = outputs(&mut self.bytes, back, |o| library::binary_in(&full, o));
            self.said(Call::BinaryIn, 0, said);
        }
        for (bytes, number) in unlike(text, &list, &given, rng) {
            let said = outputs(&mut self.bytes, Err(refusal(number)), |o| library::binary_in(&bytes, o));
            self.said(Call::BinaryIn, number, said);
        }
    }
}

/// Binary headers that are not this one's, with the refusal that each gets.
#[cfg(feature = "binary")]
fn unlike(text: &[u8], list: &[(Vec<u8>, u32)], given: &[u8], rng: &mut Rng) -> Vec<(Vec<u8>, u32)> {
    let mut all = vec![(given[..rng.below(given.len())].to_vec(), 28), ([given, b"\0"].concat(), 28)];
    let mut start = given.to_vec();
    start[rng.below(4)] ^= 1 << rng.below(8);
    all.push((start, 28));
    all.push((packed(text, &[list, &[(b"another".to_vec(), 1)]].concat()), 29));
    if let Some(i) = (!list.is_empty()).then(|| rng.below(list.len())) {
        let with = |change: &dyn Fn(&mut Vec<(Vec<u8>, u32)>)| {
            let mut other = list.to_vec();
            change(&mut other);
            (packed(text, &other), 29)
        };
        all.push(with(&|l| l[i].1 ^= 1 << (i % 32)));
        all.push(with(&|l| l[i].0.push(0)));
        all.push(with(&|l| drop(l.remove(i))));
        if list.len() > 1 {
            all.push(with(&|l| l.rotate_left(1)));
        }
        let mut open = given.to_vec();
        open[given.len() - 5] = 1 + rng.below(255) as u8; // the last name's closing zero
        all.push((open, 28));
    }
    all
}

/// What asking for names leaves: the index, each name's ordinal, and how many slots were looked at.
#[cfg(feature = "names")]
struct Named<'a> {
    slots: &'a [u32],
    ordinals: Vec<u32>,
    inspected: u64,
}

/// Numbers that follow from the text.
fn seeded(text: &[u8]) -> Rng {
    Rng::new(text.iter().fold(0xcbf2_9ce4_8422_2325u64, |h, &b| (h ^ u64::from(b)).wrapping_mul(0x100_0000_01b3)))
}

/// The refusal that is due where leaves are looked for, 0 for none, and the kind of difference if the crate has no such answer.
#[cfg(any(feature = "graph", feature = "add", feature = "prune"))]
fn chained(parents: &[oracle::Parent], leaves: &oracle::Leaves) -> (u32, Option<Kind>) {
    use oracle::Leaves;
    match (parents.contains(&oracle::Parent::Nobody), leaves) {
        (false, Leaves::List(_)) => (0, None),
        (false, Leaves::Cycle) => (23, None),
        (false, Leaves::Endless) => (23, Some(Kind::Endless)),
        (true, Leaves::Panics) => (22, Some(Kind::Dangling)),
        (true, Leaves::Cycle) => (22, Some(Kind::CycleFirst)),
        (true, Leaves::Endless) => (22, Some(Kind::Endless)),
        (true, Leaves::List(_)) | (false, Leaves::Panics) => unreachable!("the crate looks up every PP"),
    }
}

/// The parent links from every program to its root, summed. The crate has no such number: this one comes from its tables.
#[cfg(feature = "graph")]
fn hops(parents: &[oracle::Parent]) -> u64 {
    let depth = |mut i: usize| {
        let mut d = 0;
        while let oracle::Parent::Program(p) = parents[i] {
            (i, d) = (p, d + 1);
        }
        d
    };
    (0..parents.len()).map(depth).sum()
}

//! What is asked of the crate, and how its answers read in document 01's terms.
//!
//! Nothing here decides what a header means: every answer is the crate's. Where the crate would never end, a guard says so
//! beforehand, from the crate's own tables.

pub mod index;
pub mod inputs;

use std::{cell::Cell, collections::HashMap, io, panic};

use bstr::BString;
pub use noodles_sam::Header;
use noodles_sam::{
    header::{
        ParseError, Parser,
        record::value::{Map, map::Program, map::program::tag},
    },
    io::writer::write_header,
};

/// The longest text that document 01 takes. The crate has no limit.
pub const LONGEST: usize = 16_777_216;

/// The most programs that document 01 takes. The crate has no limit.
pub const PROGRAMS: usize = 1_024;

/// The largest LN that document 02 takes, which is the specification's. The crate takes 64 bits.
pub const LONGEST_SEQUENCE: u64 = 2_147_483_647;

/// Whether the crate was built with any two bytes as a tag and any bytes as a value.
pub const LENIENT: bool = cfg!(feature = "lenient");

/// A refused text.
#[derive(Clone, Debug)]
pub struct Refused {
    /// Document 01's number for the crate's error.
    pub number: u32,
    /// The line that the crate refused, counted from 0.
    pub line: usize,
    /// The crate's error as its Debug text.
    pub error: String,
}

/// Start and end of each line without its ending: it ends at LF, and one CR just before that LF belongs to the ending. A last
/// line needs no LF. The rule of `str::lines`, over bytes.
pub fn spans(text: &[u8]) -> impl Iterator<Item = (usize, usize)> {
    let mut at = 0;
    std::iter::from_fn(move || {
        if at == text.len() {
            return None;
        }
        let start = at;
        let end = match text[start..].iter().position(|&b| b == b'\n') {
            Some(i) => {
                at = start + i + 1;
                let i = start + i;
                if i > start && text[i - 1] == b'\r' { i - 1 } else { i }
            }
            None => {
                at = text.len();
                at
            }
        };
        Some((start, end))
    })
}

/// Document 01's number for an error of the crate, 0 for one that it has no number for.
///
/// Most of the error's inner types have no public name, so this goes by the names in its Debug text, from the outside in. All
/// of them come from files of the crate and none from a stand-in.
fn number(line: &[u8], error: &str) -> u32 {
    // InvalidRecord(InvalidValue(InvalidReferenceSequence(InvalidLength(Zero)))) is five names.
    let mut names = error.split('(').map(|s| s.trim_end_matches(')'));
    let mut next = || names.next().unwrap_or("");
    match next() {
        "UnexpectedHeader" => 17,
        "DuplicateReferenceSequenceName" | "DuplicateReadGroupId" | "DuplicateProgramId" => 18,
        "InvalidRecord" => match (next(), next(), next(), next()) {
            ("MissingPrefix", ..) => 3,
            ("InvalidKind", "Empty", ..) => 4,
            ("InvalidKind", "Invalid", ..) => 5,
            // The crate has one error for both.
            ("InvalidValue", "InvalidComment", "InvalidDelimiter", _) => {
                if line.len() == 3 {
                    7
                } else {
                    6
                }
            }
            (_, _, "InvalidField", "MissingDelimiter" | "InvalidDelimiter") => 6,
            (_, _, "InvalidTag", _) => 8,
            (_, _, "InvalidField", "MissingSeparator" | "InvalidSeparator") => 9,
            (_, _, "InvalidValue" | "InvalidId" | "InvalidOther", _) => 10,
            (_, _, "InvalidVersion", _) => 11,
            (_, _, "InvalidLength", "Invalid") => 12,
            (_, _, "InvalidLength", "Zero") => 13,
            (_, _, "DuplicateTag", _) => 14,
            (_, _, "MissingVersion" | "MissingName" | "MissingId", _) => 15,
            (_, _, "MissingLength", _) => 16,
            _ => 0,
        },
        _ => 0,
    }
}

/// The crate's answer to a text. UTF-8 texts go through its whole-text parser, others line by line; for UTF-8 both are run and
/// must agree, since only the second tells the line.
pub fn parse(text: &[u8]) -> Result<Header, Refused> {
    let whole = str::from_utf8(text).ok().map(|s| s.parse::<Header>());
    match by_line(Parser::default(), text) {
        Err((refused, e)) => {
            assert!(whole.is_none_or(|w| w == Err(e)), "whole and by line differ");
            Err(refused)
        }
        Ok(header) => {
            assert!(whole.is_none_or(|w| w.as_ref() == Ok(&header)), "whole and by line differ");
            Ok(header)
        }
    }
}

/// A parser under which repeated tags are allowed until a line says otherwise: an `@HD` line of 1.5 that it refused comes before, and
/// set its rule all the same.
pub fn lax_parser() -> Parser {
    let mut parser = Parser::default();
    assert!(parser.parse_partial(b"@HD\tVN:1.5\t").is_err(), "a tag is missing");
    parser
}

/// The crate's answer to a text, line by line, where repeated tags are allowed unless line 0 says otherwise.
pub fn parse_lax(text: &[u8]) -> Result<Header, Refused> {
    by_line(lax_parser(), text).map_err(|(refused, _)| refused)
}

/// Document 01's number for what the crate says of a line.
pub fn number_of(line: &[u8], e: &ParseError) -> u32 {
    number(line, &format!("{e:?}"))
}

fn by_line(mut parser: Parser, text: &[u8]) -> Result<Header, (Refused, ParseError)> {
    for (line, (a, b)) in spans(text).enumerate() {
        if let Err(e) = parser.parse_partial(&text[a..b]) {
            let error = format!("{e:?}");
            let number = number(&text[a..b], &error);
            return Err((Refused { number, line, error }, e));
        }
    }
    Ok(parser.finish())
}

/// As the crate's `parse_partial` goes on after a refused line: the refusals, and what was accepted.
pub fn parse_rest(text: &[u8]) -> (Vec<Refused>, Header) {
    let mut parser = Parser::default();
    let mut skipped = Vec::new();
    for (line, (a, b)) in spans(text).enumerate() {
        if let Err(e) = parser.parse_partial(&text[a..b]) {
            let error = format!("{e:?}");
            skipped.push(Refused { number: number(&text[a..b], &error), line, error });
        }
    }
    (skipped, parser.finish())
}

/// The text that the crate writes.
pub fn tidy(header: &Header) -> io::Result<Vec<u8>> {
    let mut out = Vec::new();
    write_header(&mut out, header).map(|()| out)
}

/// The places, among the SQ records, of those that the crate's writer refuses.
pub fn all_unwritable(header: &Header) -> impl Iterator<Item = usize> {
    let mut one = Header::default();
    let references = header.reference_sequences().iter().enumerate();
    references.filter_map(move |(i, (name, map))| {
        one.clear();
        one.reference_sequences_mut().insert(name.clone(), map.clone());
        tidy(&one).is_err().then_some(i)
    })
}

/// The first of these places.
pub fn unwritable(header: &Header) -> Option<usize> {
    all_unwritable(header).next()
}

/// The ordinals of the roots.
pub fn roots(header: &Header) -> Vec<usize> {
    let programs = header.programs();
    let place = |id: &[u8]| programs.as_ref().get_index_of(id).expect("a program");
    programs.roots().map(|(id, _)| place(id)).collect()
}

/// What the crate's leaves call does.
#[derive(Clone, Debug, Eq, PartialEq)]
pub enum Leaves {
    /// The ordinals that it answers.
    List(Vec<usize>),
    /// It answers that there is a cycle.
    Cycle,
    /// It panics: a walk comes to a PP that names no program.
    Panics,
    /// Not asked: a walk never ends.
    Endless,
}

/// A program's parent.
#[derive(Clone, Copy, Debug, Eq, PartialEq)]
pub enum Parent {
    /// It has no PP.
    Absent,
    /// Its PP is the ID of this one.
    Program(usize),
    /// Its PP is the ID of none.
    Nobody,
}

/// Each program's parent.
pub fn parents(header: &Header) -> Vec<Parent> {
    let programs = header.programs().as_ref();
    let place: HashMap<&BString, usize> = programs.keys().enumerate().map(|(i, id)| (id, i)).collect();
    let parent = |map: &Map<Program>| match map.other_fields().get(&tag::PREVIOUS_PROGRAM_ID) {
        None => Parent::Absent,
        Some(id) => place.get(id).map_or(Parent::Nobody, |&i| Parent::Program(i)),
    };
    programs.values().map(parent).collect()
}

// The crate walks up from each program in order until the program itself, where it answers, or a root. A walk that comes to
// neither meets a PP that names no program, or never ends.
fn walks_end(parents: &[Parent]) -> bool {
    for start in 0..parents.len() {
        let mut at = start;
        let mut steps = 0;
        loop {
            match parents[at] {
                Parent::Absent => break,
                Parent::Nobody => return true,
                Parent::Program(p) if p == start => return true,
                Parent::Program(p) => at = p,
            }
            steps += 1;
            if steps > parents.len() {
                return false;
            }
        }
    }
    true
}

/// The crate's leaves, if it ends. Its panics are caught; `quiet` keeps them from being printed.
pub fn leaves(header: &Header) -> Leaves {
    let parents = parents(header);
    if !walks_end(&parents) {
        return Leaves::Endless;
    }
    let programs = header.programs();
    let place = |id: &[u8]| programs.as_ref().get_index_of(id).expect("a program");
    if !parents.contains(&Parent::Nobody) {
        return answered(programs.leaves().map(|it| it.map(|(id, _)| place(id)).collect()));
    }
    EXPECTED.set(true);
    let answer = panic::catch_unwind(|| programs.leaves().map(|it| it.map(|(id, _)| place(id)).collect()));
    EXPECTED.set(false);
    answer.map_or(Leaves::Panics, answered)
}

fn answered(answer: io::Result<Vec<usize>>) -> Leaves {
    match answer {
        Ok(list) => Leaves::List(list),
        Err(e) => {
            assert_eq!(e.kind(), io::ErrorKind::InvalidData, "{e}");
            Leaves::Cycle
        }
    }
}

thread_local! {
    static EXPECTED: Cell<bool> = const { Cell::new(false) };
}

/// From here on a panic of the crate that is caught is not printed.
pub fn quiet() {
    let usual = panic::take_hook();
    panic::set_hook(Box::new(move |info| {
        if !EXPECTED.get() {
            usual(info);
        }
    }));
}

/// The crate's leaves with no guard: it may panic or never end.
pub fn raw_leaves(header: &Header) -> io::Result<Vec<BString>> {
    header.programs().leaves().map(|it| it.map(|(id, _)| id.into()).collect())
}

/// The fields given to add, read by the crate's own PG reader under its default, which forbids repeats. They stand before the
/// ID here, so that bytes without a leading tab don't become part of it. The refusal's number is the reader's.
pub fn program_fields(fields: &[u8]) -> Result<Map<Program>, u32> {
    let line = [b"@PG", fields, b"\tID:x"].concat();
    let mut parser = Parser::default();
    match parser.parse_partial(&line) {
        Ok(()) => Ok(parser.finish().programs().as_ref()[0].clone()),
        Err(e) => Err(number(&line, &format!("{e:?}"))),
    }
}

/// Whether the crate's reader takes these bytes as an ID.
pub fn is_id(id: &[u8]) -> bool {
    let mut parser = Parser::default();
    parser.parse_partial(&[b"@PG\tID:", id].concat()).is_ok()
        && parser.finish().programs().as_ref().get_index(0).is_some_and(|(key, _)| key == id)
}

/// The program of the header that the PP among these fields names.
pub fn given_parent(header: &Header, fields: &Map<Program>) -> Parent {
    match fields.other_fields().get(&tag::PREVIOUS_PROGRAM_ID) {
        None => Parent::Absent,
        Some(id) => header.programs().as_ref().get_index_of(id).map_or(Parent::Nobody, Parent::Program),
    }
}

/// The header after the crate's add; None if it says that an ID is used already. Only for headers with `Leaves::List`.
pub fn add(header: &Header, prefix: &[u8], fields: Map<Program>) -> Option<Header> {
    let mut header = header.clone();
    match header.programs_mut().add(prefix, fields) {
        Ok(()) => Some(header),
        Err(e) => {
            assert_eq!(e.kind(), io::ErrorKind::InvalidInput, "{e}");
            None
        }
    }
}

//! What carrying on over a text must leave: the crate's `parse_partial` on every line, with errors passed over.
//!
//! Two things are set beforehand. Repeated tags are allowed until a line announces a version, as document 02 has it. And a line on which both
//! sides differ by a listed kind, and which reading refuses, is not given to the crate: of it only the version that it announces is.

use std::collections::HashSet;

use noodles_sam::header::{ParseError, Parser};
use oracle::{Header, PROGRAMS, inputs, spans};

use crate::known;

pub struct Carried {
    /// What is kept.
    pub header: Header,
    /// The lines of the SQ that are kept.
    pub sequences: Vec<u32>,
    /// The lines of the programs that are kept.
    #[cfg_attr(not(feature = "faults"), allow(dead_code))]
    pub programs: Vec<u32>,
    /// The lines that are skipped, with the refusal's number; none where the line was not given to the crate.
    pub skipped: Vec<(u32, Option<u32>)>,
}

/// A text in which a line stands under a rule, to see whether reading takes it. An HD stands alone.
fn alone(line: &[u8], strict: bool) -> Vec<u8> {
    let before: &[u8] = if line.starts_with(b"@HD") { b"" } else { inputs::ruled(strict) };
    [before, line].concat()
}

/// The ID of a program's line that the crate takes.
fn program_id(line: &[u8], strict: bool) -> Vec<u8> {
    let header = oracle::parse(&alone(line, strict)).expect("the crate has taken this line");
    header.programs().as_ref().get_index(0).expect("a program").0.to_vec()
}

/// None where a line has a value that the crate's stand-in does not take, so that it cannot say what is kept. `takes` is whether reading takes
/// a text.
pub fn carried(text: &[u8], takes: impl Fn(&[u8]) -> bool) -> Option<Carried> {
    let mut parser = oracle::lax_parser();
    let (mut strict, mut empty) = (false, true);
    let mut surplus: HashSet<Vec<u8>> = HashSet::new();
    let (mut sequences, mut programs, mut skipped) = (Vec::new(), Vec::new(), Vec::new());
    for (i, (a, b)) in spans(text).enumerate() {
        let (i, line) = (i as u32, &text[a..b]);
        if known::widened(line) {
            return None;
        }
        let announced = if empty { inputs::announced(line) } else { None };
        strict = announced.map_or(strict, inputs::is_strict);
        if known::is_odd(line) && !takes(&alone(line, strict)) {
            if let Some(version) = announced {
                parser.parse_partial(&[b"@HD\tVN:", version, b"\t"].concat()).expect_err("a tag is missing");
            }
            skipped.push((i, None));
            continue;
        }
        let refused = match parser.parse_partial(line) {
            Ok(()) if line.starts_with(b"@PG") && programs.len() == PROGRAMS => {
                surplus.insert(program_id(line, strict));
                Some(19)
            }
            Ok(()) => None,
            Err(ParseError::DuplicateProgramId(id)) if surplus.contains(&id[..]) => Some(19),
            Err(e) => Some(oracle::number_of(line, &e)),
        };
        if refused.is_some() {
            skipped.push((i, refused));
            continue;
        }
        empty = false;
        match &line[..3] {
            b"@SQ" => sequences.push(i),
            b"@PG" => programs.push(i),
            _ => {}
        }
    }
    let mut header = parser.finish();
    header.programs_mut().as_mut().truncate(PROGRAMS);
    Some(Carried { header, sequences, programs, skipped })
}

/// Whether the crate's own default, which forbids repeated tags until a version is announced, skips other lines.
pub fn defaults_differ(text: &[u8]) -> bool {
    let mut lax = oracle::lax_parser();
    let mut own = Parser::default();
    spans(text).any(|(a, b)| lax.parse_partial(&text[a..b]).is_ok() != own.parse_partial(&text[a..b]).is_ok())
}

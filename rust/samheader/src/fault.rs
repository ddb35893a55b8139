//! A refusal explained: where in its line, the line itself, a caret, a hint.
use crate::output::{bold, dim, red, shown};
use sam_header::{calls, Refusal};
use serde_json::{json, Value};
use std::path::Path;

/// A text by its lines.
pub struct Lines<'t> {
    text: &'t [u8],
    starts: Vec<usize>,
}

impl<'t> Lines<'t> {
    pub fn of(text: &'t [u8]) -> Self {
        let behind = text.iter().enumerate().filter(|(_, &b)| b == b'\n').map(|(at, _)| at + 1);
        Lines { text, starts: std::iter::once(0).chain(behind).collect() }
    }

    /// A line without its ending.
    pub fn get(&self, line: u32) -> &'t [u8] {
        let at = |i: usize| self.starts.get(i).copied().unwrap_or(self.text.len());
        let line = &self.text[at(line as usize)..at(line as usize + 1)];
        let body = line.strip_suffix(b"\n").unwrap_or(line);
        if body.len() < line.len() {
            body.strip_suffix(b"\r").unwrap_or(body)
        } else {
            body
        }
    }
}

/// The number that reading gives to a text: 20, for want of room, where it accepts.
fn number_of(text: &[u8]) -> u8 {
    calls::read(text, &mut []).err().map_or(0, |refusal| refusal.number)
}

/// The field that ends the shortest front of the line which gets the same refusal: where it starts, after its tab, and where it ends.
fn field(line: &[u8], number: u8) -> Option<(usize, usize)> {
    let ends: Vec<usize> = (4..line.len()).filter(|&i| line[i] == b'\t').chain([line.len()]).collect();
    let is_refused = |end: usize| match number {
        // whether tags may be repeated is said by line 0: ask under a version that forbids it, and of an HD as if it were a program
        14 if line.starts_with(b"@HD") => number_of(&[b"@HD\tVN:1.6\n@PG", &line[3..end]].concat()) == number,
        14 => number_of(&[b"@HD\tVN:1.6\n", &line[..end]].concat()) == number,
        _ => number_of(&line[..end]) == number,
    };
    // a line is judged from left to right: once a front is refused, every longer one is
    let first = ends.partition_point(|&end| !is_refused(end));
    let end = *ends.get(first)?;
    Some((ends[..first].last().map_or(4, |before| before + 1).min(end), end))
}

/// The value of the last field with this tag.
fn value(line: &[u8], tag: &[u8; 3]) -> Option<(usize, usize)> {
    let mut end = 0;
    let fields = line.split(|&b| b == b'\t').map(|field| {
        end += field.len() + 1;
        (end - 1 - field.len(), field)
    });
    fields.skip(1).filter(|(_, field)| field.starts_with(tag)).last().map(|(at, field)| (at + 3, at + field.len()))
}

/// The first byte of a value that may not be in it.
fn wrong_byte(tag: &[u8], value: &[u8]) -> Option<usize> {
    let control = |b: &u8| *b < 32 || *b == 127;
    match std::str::from_utf8(value) {
        Err(why) if matches!(tag, b"DS" | b"CL") => Some(why.valid_up_to()),
        Ok(_) if matches!(tag, b"DS" | b"CL") => value.iter().position(control),
        _ => value.iter().position(|b| control(b) || *b > 126),
    }
}

/// The part of a line that a refusal is about.
pub fn place(line: &[u8], number: u8) -> (usize, usize) {
    let kind = (0, line.len().min(3));
    match number {
        2 => line.iter().position(|b| matches!(b, b'\r' | b'\n')).map_or(kind, |at| (at, at + 1)),
        3 => (0, line.len().min(1)),
        4 | 7 => (line.len(), line.len()),
        15 | 16 | 17 | 5 => kind,
        18 | 24 if line.starts_with(b"@SQ") => value(line, b"SN:").unwrap_or(kind),
        18 | 19 => value(line, b"ID:").unwrap_or(kind),
        22 | 23 => value(line, b"PP:").unwrap_or(kind),
        _ => field(line, number).map_or(kind, |(start, end)| in_field(line, start, end, number)),
    }
}

fn in_field(line: &[u8], start: usize, end: usize, number: u8) -> (usize, usize) {
    let (tag_end, from) = ((start + 2).min(end), (start + 3).min(end));
    match number {
        6 if line[start..end].starts_with(b"LN:") => {
            let digits = line[from..end].iter().take_while(|b| b.is_ascii_digit()).count();
            (from + digits, end)
        }
        6 => (3, 4),
        8 | 14 => (start, tag_end),
        9 => (tag_end, from),
        10 => wrong_byte(&line[start..tag_end], &line[from..end]).map_or((from, end), |at| (from + at, from + at + 1)),
        _ => (from, end),
    }
}

/// Characters count, from 1.
fn column(line: &[u8], at: usize) -> usize {
    String::from_utf8_lossy(&line[..at]).chars().count() + 1
}

/// A fault in JSON; lines and columns count from 1.
pub fn json(lines: &Lines, refusal: Refusal) -> Value {
    let place = refusal.line.map(|no| (no, lines.get(no.0))).map(|(no, line)| (no, line, place(line, refusal.number)));
    json!({
        "line": place.map(|(no, ..)| u64::from(no.0) + 1),
        "column": place.map(|(_, line, (from, _))| column(line, from)),
        "end": place.map(|(_, line, (_, to))| column(line, to)),
        "number": refusal.number,
        "name": refusal.name(),
        "message": refusal.meaning(),
        "help": refusal.hint(),
    })
}

/// A refusal that is about no line.
pub fn whole(file: &Path, refusal: Refusal) -> String {
    let head = bold(&format!("{}:", file.display()));
    format!("{head} {} [{} {}]\n  {} {}\n", refusal.meaning(), refusal.number, refusal.name(), dim("help:"), refusal.hint())
}

/// `file:line:column: words [number name]`, the line, cut around the place, with a caret below it, and a hint.
pub fn explained(file: &Path, lines: &Lines, refusal: Refusal) -> String {
    let Some(no) = refusal.line else { return whole(file, refusal) };
    let line = lines.get(no.0);
    let (from, to) = place(line, refusal.number);
    let head = bold(&format!("{}:{no}:{}:", file.display(), column(line, from)));
    let help = format!("  {} {}\n", dim("help:"), refusal.hint());
    format!("{head} {} [{} {}]\n{}{help}", refusal.meaning(), refusal.number, refusal.name(), pointed(line, from, to))
}

/// The line and below it a caret for each character of the part.
pub fn pointed(line: &[u8], from: usize, to: usize) -> String {
    let start = if from > 60 { from - 40 } else { 0 };
    let end = line.len().min(start + 100);
    let (before, part) = (shown(&line[start..from]), shown(&line[from..to.min(end).max(from)]));
    let dots = |cut: bool| if cut { "…" } else { "" };
    let gap = " ".repeat(before.chars().count() + usize::from(start > 0));
    let carets = red(&"^".repeat(part.chars().count().max(1)));
    format!("  {}{}{}\n  {gap}{carets}\n", dots(start > 0), shown(&line[start..end]), dots(end < line.len()))
}

/// A refusal of this text, explained. 22 and 23 come without a line: the faults have it, unless they are about a given PP.
pub fn of(file: &Path, text: &[u8], refusal: Refusal) -> String {
    let lines = Lines::of(text);
    let chains =
        || sam_header::faults(text).into_iter().flatten().filter(|fault| matches!(fault.number, 22 | 23)).collect::<Vec<_>>();
    let mut told = if matches!(refusal.number, 22 | 23) { chains() } else { Vec::new() };
    if told.is_empty() {
        told.push(refusal);
    }
    told.into_iter().map(|refusal| explained(file, &lines, refusal)).collect()
}

#[cfg(test)]
mod tests {
    use super::*;

    /// Halving finds the same field as asking about each front in turn.
    #[test]
    fn the_shortest_front() {
        let pieces: [&[u8]; 12] =
            [b"ID:a", b"SN:s", b"LN:8", b"LN:8x", b"LN:0", b"LN:", b"VN:1.6", b"VN:x", b"SM:\xe9", b"DS:\xc3\xa9", b"X", b"SM"];
        let mut asked = 0;
        for kind in [&b"@HD"[..], b"@SQ", b"@RG", b"@PG", b"@SQ "] {
            for i in 0..pieces.len().pow(3) {
                let line = [kind, pieces[i % 12], pieces[i / 12 % 12], pieces[i / 144]].join(&b'\t');
                let strict = [b"@HD\tVN:1.6\n", &line[..]].concat();
                let number = number_of(if kind == b"@HD" { &line } else { &strict });
                if !matches!(number, 6 | 8..=14 | 27) {
                    continue;
                }
                let ends = (4..=line.len()).filter(|&end| end == line.len() || line[end] == b'\t');
                let mut start = 4;
                for end in ends {
                    let front = match (number, kind) {
                        (14, b"@HD") => [b"@HD\tVN:1.6\n@PG", &line[3..end]].concat(),
                        (14, _) => [b"@HD\tVN:1.6\n", &line[..end]].concat(),
                        _ => line[..end].to_vec(),
                    };
                    if number_of(&front) == number {
                        assert_eq!(field(&line, number), Some((start.min(end), end)), "{:?}", String::from_utf8_lossy(&line));
                        break;
                    }
                    start = end + 1;
                }
                let (from, to) = place(&line, number);
                assert!(from <= to && to <= line.len());
                asked += 1;
            }
        }
        assert!(asked > 5000, "{asked} lines");
    }
}

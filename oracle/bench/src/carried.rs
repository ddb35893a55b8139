//! The fourth table: carrying on after refused lines.
//!
//! A row is a header: its bytes, its lines and how many of them are skipped, then for the call
//!
//!   /crate     its time to that of the crate's `parse_partial` on each line, with errors passed over, and its writer, into a buffer that
//!              is reused; it shall be at most 1.2
//!   ns/line    its time for a line
//!
//! and how often both ran: rounds and the best time are as in the first table. What is written is held to what the crate writes.
//!
//!   20000 SQ, ..          an HD and SQ lines of five fields
//!   20000 short SQ        with SN and LN alone, names of 10 bytes
//!
//! of which none is refused, every tenth for its length, and every tenth since the name before it stands there again.

use std::{
    hint::black_box,
    time::{Duration, Instant},
};

use noodles_sam::{header::Parser, io::writer::write_header};

use crate::{
    ENOUGH,
    calls::timed,
    texts::{self, Names},
};

const MANY: usize = 20_000;

/// What the crate keeps of a text, written.
fn kept(text: &str, written: &mut Vec<u8>) -> noodles_sam::Header {
    let mut parser = Parser::default();
    for line in text.lines() {
        let _ = parser.parse_partial(line.as_bytes());
    }
    let header = parser.finish();
    written.clear();
    write_header(written, &header).expect("written by the crate");
    header
}

/// Every tenth line changed.
fn tenth(text: &str, change: impl Fn(&str, &str) -> String) -> String {
    let lines: Vec<&str> = text.lines().collect();
    let each = |i: usize| if i % 10 == 9 { change(lines[i], lines[i - 1]) } else { lines[i].into() };
    (0..lines.len()).map(|i| each(i) + "\n").collect()
}

/// The SN of an SQ line and what follows it.
fn parted(line: &str) -> (&str, &str) {
    line.strip_prefix("@SQ\tSN:").and_then(|l| l.split_once('\t')).expect("an SQ line")
}

fn without_length(line: &str, _: &str) -> String {
    let (name, rest) = parted(line);
    let (_, others) = rest.split_once('\t').map_or(("", ""), |(ln, o)| (ln, o));
    let tab = if others.is_empty() { "" } else { "\t" };
    format!("@SQ\tSN:{name}\tLN:0{tab}{others}")
}

fn named_as(line: &str, before: &str) -> String {
    format!("@SQ\tSN:{}\t{}", parted(before).0, parted(line).1)
}

fn row(name: &str, text: &str, rounds: usize) {
    let lines = text.lines().count();
    let (mut out, mut table) = (vec![0; text.len() + 1], vec![0; 2 * lines]);
    let mut written = Vec::new();
    let (mut ours, mut crates) = (Duration::MAX, Duration::MAX);
    let (mut ran, mut skipped, began) = (0, 0, Instant::now());
    while ran < rounds && (ran < 3 || began.elapsed() < ENOUGH) {
        ran += 1;
        drop(timed(&mut crates, || kept(black_box(text), &mut written)));
        let answer = timed(&mut ours, || library::carry_on(black_box(text.as_bytes()), &mut out, &mut table)).expect("written");
        skipped = answer >> 32;
        assert!(out[..answer as u32 as usize] == written[..], "both wrote the same");
    }
    println!(
        "{name:<34}{:>10}{lines:>8}{skipped:>8}{:>9.2}{:>9.0}{ran:>9}",
        text.len(),
        ours.as_secs_f64() / crates.as_secs_f64(),
        ours.as_nanos() as f64 / lines as f64,
    );
}

pub fn table(rounds: usize) {
    println!("{:<34}{:>10}{:>8}{:>8}{:>9}{:>9}{:>9}", "carrying on", "bytes", "lines", "skipped", "/crate", "ns/line", "best of");
    each(&mut |name, text| row(name, text, rounds));
}

/// The texts of the rows.
pub fn each(f: &mut dyn FnMut(&str, &str)) {
    let made = Names::ALL.map(|(names, word)| (format!("20000 SQ, {word}"), texts::sequences(MANY, names, true)));
    let short = ("20000 short SQ".to_string(), texts::sequences(MANY, Names::Of(10), false));
    for (name, text) in made.into_iter().chain([short]) {
        f(&name, &text);
        f(&format!("{name}, a tenth LN:0"), &tenth(&text, without_length));
        f(&format!("{name}, a tenth used"), &tenth(&text, named_as));
    }
}

//! The ninth table: how long the header at the front of a file or of a stream is.
//!
//! A row of the upper part is a SAM file, a header with an alignment line behind it: its bytes, the time of text_len in microseconds, and how many bytes
//! it passes in a nanosecond. A row of the lower part is an uncompressed BAM stream: its bytes, its references, and
//!
//!   one        the time of one call of binary_len over all of it, in microseconds
//!   ns         the same for a reference: the rows shall differ little
//!   doubled    the time where a front of 64 KiB is lent first, and then one of twice as many bytes, to that of one call: about 3 at most,
//!              since the fronts before the last one have at most twice as many bytes as the stream
//!
//! and how often all ran: rounds and the best time are as in the first table.

use std::{
    hint::black_box,
    time::{Duration, Instant},
};

use library::Len;

use crate::{
    ENOUGH,
    calls::timed,
    texts::{self, Names},
};

const ALIGNMENT: &str = "r1\t4\t*\t0\t0\t*\t*\t0\t0\tACGT\tIIII\n";

fn file(name: &str, text: &str, rounds: usize) {
    let all = [text, ALIGNMENT].concat();
    let (mut best, mut ran, began) = (Duration::MAX, 0, Instant::now());
    while ran < rounds && (ran < 3 || began.elapsed() < ENOUGH) {
        ran += 1;
        assert!(timed(&mut best, || library::text_len(black_box(all.as_bytes()))) == Ok(text.len() as u64));
    }
    let nanos = best.as_nanos() as f64;
    println!("{name:<27}{:>10}{:>10.1}{:>10.2}{ran:>9}", text.len(), nanos / 1e3, text.len() as f64 / nanos);
}

/// A binary header with a text of one line and with numbered names.
fn stream(count: usize) -> Vec<u8> {
    let mut all = [b"BAM\x01", &5u32.to_le_bytes()[..], b"@CO\t\n", &(count as u32).to_le_bytes()].concat();
    for i in 0..count {
        let name = format!("chrUn_{i:07}\0");
        all.extend_from_slice(&(name.len() as u32).to_le_bytes());
        all.extend_from_slice(name.as_bytes());
        all.extend_from_slice(&248_956_422u32.to_le_bytes());
    }
    all
}

/// Fronts that are twice as long each time.
fn doubled(bytes: &[u8]) -> Result<Len, library::Refusal> {
    let mut lent = 65_536;
    loop {
        match library::binary_len(&bytes[..lent.min(bytes.len())]) {
            Ok(Len::More(n)) if lent < bytes.len() => lent = (2 * lent).max(n as usize),
            told => return told,
        }
    }
}

fn references(count: usize, rounds: usize) {
    let bytes = stream(count);
    let due = Ok(Len::Whole(bytes.len() as u64));
    let [mut one, mut twice] = [Duration::MAX; 2];
    let (mut ran, began) = (0, Instant::now());
    while ran < rounds && (ran < 3 || began.elapsed() < ENOUGH) {
        ran += 1;
        assert!(timed(&mut one, || library::binary_len(black_box(&bytes))) == due);
        assert!(timed(&mut twice, || doubled(black_box(&bytes))) == due);
    }
    println!(
        "{:<27}{:>10}{:>10.1}{:>10.2}{:>10.2}{ran:>9}",
        format!("{count} references"),
        bytes.len(),
        one.as_nanos() as f64 / 1e3,
        one.as_nanos() as f64 / count as f64,
        twice.as_nanos() as f64 / one.as_nanos() as f64,
    );
}

pub fn table(rounds: usize) {
    println!("{:<27}{:>10}{:>10}{:>10}{:>9}", "text_len", "bytes", "us", "bytes/ns", "best of");
    for n in [25, 2_000, 20_000, 200_000] {
        file(&format!("{n} SQ, numbered"), &texts::sequences(n, Names::Numbered, true), rounds);
    }
    println!("\n{:<27}{:>10}{:>10}{:>10}{:>10}{:>9}", "binary_len", "bytes", "one, us", "ns", "doubled", "best of");
    for n in [25, 2_000, 20_000, 200_000, 2_000_000] {
        references(n, rounds);
    }
}

//! Nanoseconds for each line against the number of lines: the first plot.
//!
//! A row is an HD and SQ lines of five fields with random names: how many lines, then reading and tidying by the library, the crate and htslib, in
//! nanoseconds for a line (`-` where htslib is not there), and how often all ran: rounds and the best time are as in the first table.

use std::{
    hint::black_box,
    time::{Duration, Instant},
};

use crate::{
    ENOUGH, Theirs,
    calls::timed,
    htslib,
    texts::{self, Names},
};

fn row(n: usize, rounds: usize) {
    let text = texts::sequences(n, Names::Random, true);
    let bytes = text.as_bytes();
    let (mut catalogue, mut out) = (vec![0; 3 * bytes.len() + 1], vec![0; bytes.len() + 1]);
    let mut theirs = Theirs::new();
    let mut best = [Duration::MAX; 6];
    let (mut ran, began) = (0, Instant::now());
    while ran < rounds && (ran < 3 || began.elapsed() < ENOUGH) {
        ran += 1;
        timed(&mut best[0], || library::read(black_box(bytes), &mut catalogue)).expect("read");
        drop(timed(&mut best[1], || theirs.parse(black_box(&text))));
        drop(timed(&mut best[2], || htslib::read(black_box(bytes))));
        timed(&mut best[3], || library::tidy(black_box(bytes), &mut out)).expect("tidied");
        drop(timed(&mut best[4], || theirs.tidy(black_box(&text))));
        drop(timed(&mut best[5], || htslib::tidy(black_box(bytes))));
    }
    print!("{:>8}", n + 1);
    for (i, time) in best.iter().enumerate() {
        match htslib::version() {
            None if i % 3 == 2 => print!("{:>9}", "-"),
            _ => print!("{:>9.0}", time.as_nanos() as f64 / (n + 1) as f64),
        }
    }
    println!("{ran:>9}");
}

pub fn table(rounds: usize) {
    println!("lines: ns for each line, reading and then tidying");
    println!(
        "{:>8}{:>9}{:>9}{:>9}{:>9}{:>9}{:>9}{:>9}",
        "lines", "library", "crate", "htslib", "library", "crate", "htslib", "best of"
    );
    for n in [1, 3, 10, 30, 100, 300, 1_000, 3_000, 10_000, 30_000, 100_000] {
        row(n, rounds.max(3) * if n < 1_000 { 10 } else { 1 });
    }
}

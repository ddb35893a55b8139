//! The fifth table: the leaves by both engines.
//!
//! A row is a header of programs alone: its bytes, then the library's time in microseconds for
//!
//!   check      the check of text and catalogue, with which both begin
//!   leaves     the first engine
//!   by table   the second
//!
//! and the second's time to that of the first, and to that of the crate's parser and its leaves; what it takes for a program beyond the check, in ns,
//! which shall not grow with the number of programs but for the search of each PP among the IDs; and how often all ran: rounds and the best time are
//! as in the first table. Both engines must answer the same, and as many leaves as the crate.
//!
//!   N chained PG          each after the one before
//!   N turned PG           each before the one that it comes after
//!   N PG after one        all after the first

use std::{
    hint::black_box,
    time::{Duration, Instant},
};

use library::Node;
use noodles_sam::Header;

use crate::{ENOUGH, calls::timed, texts};

fn row(name: &str, text: &str, rounds: usize) {
    let bytes = text.as_bytes();
    let mut catalogue = vec![0; 3 * bytes.len() + 1];
    let size = library::read(bytes, &mut catalogue).expect("accepted") as usize;
    let kept = &catalogue[..size];
    let (mut first, mut second) = (vec![0; oracle::PROGRAMS], vec![0; oracle::PROGRAMS]);
    let mut table = vec![Node::default(); oracle::PROGRAMS];
    let [mut check, mut leaves, mut by_table, mut crates] = [Duration::MAX; 4];
    let (mut ran, began) = (0, Instant::now());
    while ran < rounds && (ran < 3 || began.elapsed() < ENOUGH) {
        ran += 1;
        let mut count = 0;
        drop(timed(&mut crates, || {
            let header: Header = black_box(text).parse().expect("accepted by the crate");
            count = header.programs().leaves().expect("no cycle").count();
            header
        }));
        timed(&mut check, || library::check(black_box(bytes), kept)).expect("fresh");
        let a = timed(&mut leaves, || library::leaves(black_box(bytes), kept, &mut first)).expect("answered");
        let b = timed(&mut by_table, || library::leaves_by_table(black_box(bytes), kept, &mut table, &mut second));
        assert!(b == Ok(a) && first == second && a as u32 as usize == count, "all answer the same");
    }
    let micros = |d: Duration| d.as_nanos() as f64 / 1e3;
    let programs = oracle::spans(bytes).count() as f64;
    println!(
        "{name:<22}{:>8}{:>10.1}{:>10.1}{:>10.1}{:>9.2}{:>9.2}{:>9.0}{ran:>9}",
        bytes.len(),
        micros(check),
        micros(leaves),
        micros(by_table),
        micros(by_table) / micros(leaves),
        micros(by_table) / micros(crates),
        1e3 * (micros(by_table) - micros(check)) / programs,
    );
}

pub fn table(rounds: usize) {
    println!(
        "{:<22}{:>8}{:>10}{:>10}{:>10}{:>9}{:>9}{:>9}{:>9}",
        "microseconds", "bytes", "check", "leaves", "by table", "/first", "/crate", "ns/PG", "best of"
    );
    for n in [64, 128, 256, 512, 1_024] {
        row(&format!("{n} chained PG"), &texts::chain(n), rounds);
    }
    row("1024 turned PG", &texts::turned(1_024), rounds);
    row("1024 PG after one", &texts::star(1_024), rounds);
}

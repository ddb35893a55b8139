//! The ninth table: the references in one table, and a record by its key.
//!
//! A row is a header: its bytes, its SQ, and the time of checking text and catalogue alone in microseconds, with which every call begins; then each call's time to that:
//!
//!   references   all rows
//!   find         the name of the last SQ
//!   no name      a name as long that no SQ has, and that begins as they do
//!
//! and how often all ran: rounds and the best time are as in the first table.

use std::{
    hint::black_box,
    time::{Duration, Instant},
};

use crate::{
    ENOUGH,
    calls::timed,
    texts::{self, Names},
};

fn row(name: &str, text: &str, rounds: usize) {
    let bytes = text.as_bytes();
    let mut catalogue = vec![0; 3 * bytes.len() + 1];
    let n = library::read(bytes, &mut catalogue).expect("accepted");
    catalogue.truncate(n as usize);
    let count = library::count(bytes, &catalogue, 2).expect("SQ are counted");
    let mut table = vec![0; 3 * count as usize];
    library::references(bytes, &catalogue, &mut table).expect("there is room");
    let [at, len] = [table[table.len() - 3], table[table.len() - 2]].map(|n| n as usize);
    let last = &bytes[at..at + len];
    let mut none = last.to_vec();
    none[len - 1] = b'~';
    let [mut check, mut rows, mut there, mut absent] = [Duration::MAX; 4];
    let (mut ran, began) = (0, Instant::now());
    while ran < rounds && (ran < 3 || began.elapsed() < ENOUGH) {
        ran += 1;
        assert!(timed(&mut check, || library::check(black_box(bytes), &catalogue)) == Ok(0));
        assert!(timed(&mut rows, || library::references(black_box(bytes), &catalogue, &mut table)) == Ok(count));
        assert!(timed(&mut there, || library::find(black_box(bytes), &catalogue, 2, last)) == Ok(count - 1));
        assert!(timed(&mut absent, || library::find(black_box(bytes), &catalogue, 2, &none)).is_err());
    }
    let ratio = |d: Duration| d.as_secs_f64() / check.as_secs_f64();
    println!(
        "{name:<27}{:>10}{count:>9}{:>12.1}{:>12.2}{:>9.2}{:>9.2}{ran:>9}",
        bytes.len(),
        check.as_nanos() as f64 / 1e3,
        ratio(rows),
        ratio(there),
        ratio(absent),
    );
}

pub fn table(rounds: usize) {
    println!(
        "{:<27}{:>10}{:>9}{:>12}{:>12}{:>9}{:>9}{:>9}",
        "/check", "bytes", "SQ", "check, us", "references", "find", "no name", "best of"
    );
    row("25 SQ, numbered", &texts::sequences(25, Names::Numbered, true), rounds);
    row("20000 SQ, numbered", &texts::sequences(20_000, Names::Numbered, true), rounds);
    row("200000 short SQ, numbered", &texts::sequences(200_000, Names::Numbered, false), rounds);
}

//! The eighth table: reading with a lent work area, and the first reading in a fresh thread.
//!
//! A row is a header: its bytes, the crate's time for its parser in microseconds, and the library's to it:
//!
//!   read       without an area
//!   full       with an area of twice as many slots as there are lines
//!   short      with an area of 1,000 slots, which is too short to be used
//!   empty      with none
//!
//! Below, for 25 lines, the time of the first reading in a fresh thread and of the second, the best of as many threads as there are rounds. Rounds and the best
//! time are as in the first table.

use std::{
    hint::black_box,
    thread,
    time::{Duration, Instant},
};

use noodles_sam::Header;

use crate::{
    ENOUGH,
    calls::timed,
    texts::{self, Names},
};

fn row(name: &str, text: &str, rounds: usize) {
    let bytes = text.as_bytes();
    let mut catalogue = vec![0; 3 * bytes.len() + 1];
    let due = library::read(bytes, &mut catalogue).expect("accepted");
    let mut areas = [2 * oracle::spans(bytes).count(), 1_000, 0].map(|n| vec![0; n]);
    let [mut crates, mut plain] = [Duration::MAX; 2];
    let mut with = [Duration::MAX; 3];
    let (mut ran, began) = (0, Instant::now());
    while ran < rounds && (ran < 3 || began.elapsed() < ENOUGH) {
        ran += 1;
        drop(timed(&mut crates, || black_box(text).parse::<Header>().expect("accepted by the crate")));
        assert!(timed(&mut plain, || library::read(black_box(bytes), &mut catalogue)) == Ok(due));
        for (best, area) in with.iter_mut().zip(&mut areas) {
            assert!(timed(best, || library::read_with(black_box(bytes), &mut catalogue, area)) == Ok(due));
        }
    }
    let ratio = |d: Duration| d.as_nanos() as f64 / crates.as_nanos() as f64;
    println!(
        "{name:<30}{:>10}{:>12.1}{:>8.2}{:>8.2}{:>8.2}{:>8.2}{ran:>9}",
        bytes.len(),
        crates.as_nanos() as f64 / 1e3,
        ratio(plain),
        ratio(with[0]),
        ratio(with[1]),
        ratio(with[2]),
    );
}

fn fresh(text: &str, rounds: usize) {
    let [mut first, mut second] = [Duration::MAX; 2];
    for _ in 0..rounds {
        let (a, b) = thread::scope(|scope| {
            let reading = || {
                let mut catalogue = vec![0; 3 * text.len() + 1];
                let [mut a, mut b] = [Duration::MAX; 2];
                for best in [&mut a, &mut b] {
                    timed(best, || library::read(black_box(text.as_bytes()), &mut catalogue)).expect("accepted");
                }
                (a, b)
            };
            scope.spawn(reading).join().expect("no panic")
        });
        (first, second) = (first.min(a), second.min(b));
    }
    let micros = |d: Duration| d.as_nanos() as f64 / 1e3;
    println!("\n25 SQ: the first reading in a fresh thread {:.1} us, the second {:.1} us", micros(first), micros(second));
}

pub fn table(rounds: usize) {
    println!("{:<30}{:>10}{:>12}{:>8}{:>8}{:>8}{:>8}{:>9}", "", "bytes", "crate, us", "read", "full", "short", "empty", "rounds");
    for (names, word) in Names::ALL {
        row(&format!("20000 SQ, {word}"), &texts::sequences(20_000, names, true), rounds);
    }
    row("200000 short SQ, numbered", &texts::sequences(200_000, Names::Numbered, false), rounds);
    fresh(&texts::sequences(25, Names::Numbered, true), rounds.max(100));
}

//! What the first reading in a fresh process and in a fresh thread takes, and the second: the second plot.
//!
//! A row is an HD and SQ lines of five fields with random names: how many lines, then for the library, the crate and htslib (`-` where it is not there)
//! the first and the second reading in a fresh process, and the first and the second in its first thread, in microseconds: the best of N processes
//! (default 100) of each. What a side is given to write to was written before; what it asks the system for itself, and its stack, is fresh.

use std::{
    hint::black_box,
    process::Command,
    time::{Duration, Instant},
};

use noodles_sam::Header;

use crate::{
    htslib,
    texts::{self, Names},
};

const SIDES: [&str; 3] = ["library", "crate", "htslib"];

fn took(read: impl FnOnce()) -> Duration {
    let began = Instant::now();
    read();
    began.elapsed()
}

/// Reads once; dropping what the crate and htslib make is not timed.
fn once(side: &str, text: &str, catalogue: &mut [u8]) -> Duration {
    let (mut header, mut parsed) = (None, None);
    let time = match side {
        "library" => took(|| assert!(library::read(black_box(text.as_bytes()), catalogue).is_ok())),
        "crate" => took(|| header = Some(black_box(text).parse::<Header>().expect("accepted by the crate"))),
        _ => took(|| parsed = htslib::read(black_box(text.as_bytes()))),
    };
    drop((black_box(header), black_box(parsed)));
    time
}

/// What a fresh process does: `bench fresh SIDE LINES` prints four times in nanoseconds.
pub fn fresh(side: &str, lines: usize) {
    let text = texts::sequences(lines, Names::Random, true);
    let mut catalogue = vec![1; 3 * text.len() + 1];
    let mut twice = || [(); 2].map(|()| once(side, &text, &mut catalogue));
    let here = twice();
    let thread = std::thread::scope(|s| {
        let started = std::thread::Builder::new().stack_size(4 << 20).spawn_scoped(s, &mut twice);
        started.expect("started").join().expect("ended")
    });
    for time in here.into_iter().chain(thread) {
        println!("{}", time.as_nanos());
    }
}

/// The four times of a fresh process, in nanoseconds.
fn asked(side: &str, lines: usize) -> [u64; 4] {
    let program = std::env::current_exe().expect("this program");
    let said = Command::new(program).args(["fresh", side, &lines.to_string()]).output().expect("started").stdout;
    let times: Vec<u64> = String::from_utf8_lossy(&said).lines().filter_map(|line| line.parse().ok()).collect();
    times.try_into().expect("four times")
}

fn row(lines: usize, rounds: usize) {
    let mut best = [[u64::MAX; 4]; SIDES.len()];
    for _ in 0..rounds {
        for (best, side) in best.iter_mut().zip(SIDES) {
            if side != "htslib" || htslib::version().is_some() {
                for (best, time) in best.iter_mut().zip(asked(side, lines)) {
                    *best = time.min(*best);
                }
            }
        }
    }
    print!("{:>8}", lines + 1);
    for time in best.as_flattened() {
        if *time == u64::MAX { print!("{:>9}", "-") } else { print!("{:>9.1}", *time as f64 / 1e3) }
    }
    println!("{rounds:>9}");
}

pub fn table(rounds: usize) {
    println!("first: us for the first and the second reading in a fresh process, and in a fresh thread");
    print!("{:>8}", "lines");
    for side in SIDES {
        print!("{:>9}{:>9}{:>9}{:>9}", side, "second", "thread", "second");
    }
    println!("{:>9}", "best of");
    for lines in [1, 3, 10, 30, 100, 300, 1_000, 3_000, 10_000] {
        row(lines, rounds);
    }
}

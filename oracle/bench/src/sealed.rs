//! Seals: what the SHA-256 of the tidy text costs beside tidying and checking. The crate has no such call.
//!
//! A row is a header: its bytes, then
//!
//!   tidy, seal          the time of each call in microseconds
//!   /tidy               seal's time to tidy's
//!   MB/s                the bytes of the tidy text to what seal takes more than tidy
//!   check, check_sealed the same for these two, with the text's own catalogue and seal
//!   /check              check_sealed's time to check's
//!
//! and how often all ran: rounds and the best time are as in the first table.

use std::{
    hint::black_box,
    path::Path,
    time::{Duration, Instant},
};

use crate::{
    ENOUGH,
    calls::timed,
    texts::{self, Names},
};

fn row(name: &str, text: &[u8], rounds: usize) {
    let mut catalogue = vec![0; 3 * text.len() + 1];
    let Ok(n) = library::read(text, &mut catalogue) else { return };
    catalogue.truncate(n as usize);
    let (mut work, mut kept) = (vec![0; text.len() + 1], [0; 32]);
    let Ok(due) = library::seal(text, &mut work, &mut kept) else { return };
    let mut best = [Duration::MAX; 4];
    let (mut ran, began) = (0, Instant::now());
    while ran < rounds && (ran < 3 || began.elapsed() < ENOUGH) {
        ran += 1;
        let mut seal = [0; 32];
        assert!(timed(&mut best[0], || library::tidy(black_box(text), &mut work)) == Ok(due));
        assert!(timed(&mut best[1], || library::seal(black_box(text), &mut work, &mut seal)) == Ok(due) && seal == kept);
        assert!(timed(&mut best[2], || library::check(black_box(text), &catalogue)) == Ok(0));
        assert!(timed(&mut best[3], || library::check_sealed(black_box(text), &catalogue, &seal, &mut work)) == Ok(0));
    }
    let [tidy, seal, check, sealed] = best.map(|d| d.as_nanos() as f64 / 1e3);
    println!(
        "{name:<32}{:>10}{tidy:>10.1}{seal:>10.1}{:>8.2}{:>8.0}{check:>10.1}{sealed:>14.1}{:>8.2}{ran:>9}",
        text.len(),
        seal / tidy,
        due as f64 / (seal - tidy),
        sealed / check,
    );
}

pub fn table(rounds: usize, folder: &Path) {
    println!(
        "{:<32}{:>10}{:>10}{:>10}{:>8}{:>8}{:>10}{:>14}{:>8}{:>9}",
        "seals, us", "bytes", "tidy", "seal", "/tidy", "MB/s", "check", "check_sealed", "/check", "best of"
    );
    for n in [25, 200, 2_000, 20_000] {
        row(&format!("{n} SQ, numbered"), texts::sequences(n, Names::Numbered, true).as_bytes(), rounds);
    }
    row("200000 short SQ, numbered", texts::sequences(200_000, Names::Numbered, false).as_bytes(), rounds);
    texts::found(folder, &mut |name, text| row(name, text, rounds));
}

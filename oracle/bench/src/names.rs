//! The third table: many names asked for at once.
//!
//! A row is a header and a list of names: how many SQ and names, then for the call
//!
//!   /check        its time to that of checking alone, which it begins with
//!   /crate        its time to that of the crate's whole-text parser and looking the names up in its table of SQ, one `get_index_of` for
//!                 each into a buffer that is reused; the list is cut into names before
//!   ns/name       what it takes longer than checking alone, for each name
//!   ms            its time
//!   mean, most    the slots looked at for a name, by the rule of the index; the sum is the one that the library reports
//!
//! and how often all ran: rounds and the best time are as in the first table. The answers are held to the crate's, and the index and the
//! sum to the rule's (`oracle::index`).
//!
//!   N SQ, ..              headers of the first table, asked for all of their names, for half of them and as many others, and for others
//!                         alone, which are named the same way; in an order by chance
//!   32768 SQ, one number  names of thirty bytes that all have one number in the index of names, asked for themselves
//!   FILE                  a real header, asked for its own names

use std::{
    hint::black_box,
    path::Path,
    time::{Duration, Instant},
};

use noodles_sam::Header;
use oracle::{
    index::{self, Index},
    inputs::{self, Rng},
};

use crate::{
    ENOUGH,
    calls::timed,
    texts::{self, Names},
};

/// How many SQ are made, and how many names are asked for.
const MANY: usize = 20_000;

/// The ordinal of each name in the crate's table.
fn looked_up(header: &Header, names: &[&[u8]], ordinals: &mut Vec<u32>) {
    ordinals.clear();
    let table = header.reference_sequences();
    ordinals.extend(names.iter().map(|&name| table.get_index_of(name).map_or(index::NONE, |i| i as u32)));
}

fn row(name: &str, bytes: &[u8], list: &[u8], rounds: usize) {
    let Ok(text) = str::from_utf8(bytes) else {
        return println!("{name}: not UTF-8, which the crate's whole-text parser needs");
    };
    let mut catalogue = vec![0; 3 * bytes.len() + 1];
    match library::read(bytes, &mut catalogue) {
        Ok(n) => catalogue.truncate(n as usize),
        Err(r) => return println!("{name}: refused {} line {}", r.number, r.line),
    }
    let header: Header = text.parse().expect("accepted by the crate");
    let index = Index::new(header.reference_sequences().keys().map(|name| &name[..]).collect());
    let names: Vec<&[u8]> = index::listed(list).collect();
    let looked: Vec<u64> = names.iter().map(|name| index.look(name).1).collect();
    let (sum, most) = (looked.iter().sum::<u64>(), looked.iter().max().copied().unwrap_or(0));

    let (mut work, mut out, mut theirs) = (vec![0; index.slots.len()], vec![0; names.len()], Vec::new());
    let (mut whole, mut check, mut crates) = (Duration::MAX, Duration::MAX, Duration::MAX);
    let (mut ran, began) = (0, Instant::now());
    while ran < rounds && (ran < 3 || began.elapsed() < ENOUGH) {
        ran += 1;
        drop(timed(&mut crates, || {
            let header: Header = black_box(text).parse().expect("accepted by the crate");
            looked_up(&header, &names, &mut theirs);
            header
        }));
        assert_eq!(timed(&mut check, || library::check(black_box(bytes), &catalogue)), Ok(0));
        let mut inspected = 0;
        let answer = timed(&mut whole, || {
            library::names(black_box(bytes), &catalogue, black_box(list), &mut work, &mut out, &mut inspected)
        });
        assert!(answer == Ok(names.len() as u64) && out == theirs, "both answer the same");
        assert!(work == index.slots && inspected == sum, "the index and what was looked at are the rule's");
    }
    let per_name = |x: f64| x / names.len().max(1) as f64;
    println!(
        "{name:<29}{:>8}{:>8}{:>9.2}{:>9.2}{:>9.0}{:>10.2}{:>10.2}{most:>8}{ran:>9}",
        header.reference_sequences().len(),
        names.len(),
        whole.as_secs_f64() / check.as_secs_f64(),
        whole.as_secs_f64() / crates.as_secs_f64(),
        per_name(1e9 * (whole.as_secs_f64() - check.as_secs_f64())),
        1e3 * whole.as_secs_f64(),
        per_name(sum as f64),
    );
}

/// The names of a header's SQ.
fn own(text: &str) -> Vec<String> {
    let header: Header = text.parse().expect("accepted by the crate");
    header.reference_sequences().keys().map(|name| name.to_string()).collect()
}

/// Names in an order by chance, each ended by an LF.
fn shuffled(mut names: Vec<&str>) -> Vec<u8> {
    Rng::new(7).shuffle(&mut names);
    names.iter().flat_map(|name| [name, "\n"]).collect::<String>().into_bytes()
}

fn made(rounds: usize) {
    for (names, word) in Names::ALL {
        let text = texts::sequences(MANY, names, true);
        let (there, others) = (own(&text), texts::strangers(MANY, names));
        for (parts, there_of_two) in [("all", 2), ("half", 1), ("none", 0)] {
            let pairs = there.iter().zip(&others).enumerate();
            let asked = pairs.map(|(i, (own, other))| if i % 2 < there_of_two { own } else { other }.as_str());
            row(&format!("{MANY} SQ, {word}, {parts}"), text.as_bytes(), &shuffled(asked.collect()), rounds);
        }
    }
    let names: Vec<String> = inputs::one_number(15).collect();
    let text: String = names.iter().map(|name| format!("@SQ\tSN:{name}\tLN:1\n")).collect();
    row("32768 SQ, one number", text.as_bytes(), names.join("\n").as_bytes(), rounds);
}

/// The third table, with the real headers of a folder.
pub fn table(rounds: usize, folder: &Path) {
    println!(
        "{:<29}{:>8}{:>8}{:>9}{:>9}{:>9}{:>10}{:>10}{:>8}{:>9}",
        "names", "SQ", "asked", "/check", "/crate", "ns/name", "ms", "mean", "most", "best of"
    );
    made(rounds);
    texts::found(folder, &mut |name, text| {
        let names = str::from_utf8(text).map_or(Vec::new(), own);
        row(name, text, names.join("\n").as_bytes(), rounds);
    });
}

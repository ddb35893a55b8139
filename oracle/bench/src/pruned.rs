//! The fifth table: dropping programs that nobody uses.
//!
//! A row is a header: its bytes, its programs, how many are in use and how many stay, then for the call
//!
//!   /crate     its time to that of the crate's parser, the removal of what nobody needs from its table, and its writer, into a buffer
//!              that is reused; it shall be at most 0.6
//!   us         its time
//!
//! and how often both ran: rounds and the best time are as in the first table. What is written is held to what the crate writes.
//!
//!   1024 PG in fours      20,000 SQ of five fields, then 256 chains of four programs, of which 10 programs are in use
//!   1024 PG in one chain  the same with one chain

use std::{
    hint::black_box,
    time::{Duration, Instant},
};

use noodles_sam::{Header, header::record::value::map::program::tag, io::writer::write_header};

use crate::{
    ENOUGH,
    calls::timed,
    texts::{self, Names},
};

const PROGRAMS: usize = 1_024;

/// Which programs are in use: ten, one from each tenth.
fn in_use() -> Vec<u32> {
    (0..10).map(|i| (i * PROGRAMS / 10 + 7 * i) as u32).collect()
}

/// What the crate leaves of a text, written, and how many programs stay.
fn left(text: &str, used: &[u32], written: &mut Vec<u8>) -> (Header, usize) {
    let mut header: Header = text.parse().expect("accepted by the crate");
    let programs = header.programs_mut().as_mut();
    let mut needed = vec![false; programs.len()];
    for &u in used {
        let mut at = Some(u as usize);
        while let Some(i) = at.filter(|&i| !needed[i]) {
            needed[i] = true;
            at = programs[i].other_fields().get(&tag::PREVIOUS_PROGRAM_ID).and_then(|id| programs.get_index_of(id));
        }
    }
    let mut ordinals = needed.iter();
    programs.retain(|_, _| *ordinals.next().expect("a program"));
    let stay = programs.len();
    written.clear();
    write_header(written, &header).expect("written by the crate");
    (header, stay)
}

fn row(name: &str, text: &str, rounds: usize) {
    let used = in_use();
    let mut catalogue = vec![0; 3 * text.len() + 1];
    let n = library::read(text.as_bytes(), &mut catalogue).expect("accepted");
    catalogue.truncate(n as usize);
    let (mut out, mut written) = (vec![0; text.len() + 1], Vec::new());
    let (mut ours, mut crates) = (Duration::MAX, Duration::MAX);
    let (mut ran, mut stay, began) = (0, 0, Instant::now());
    while ran < rounds && (ran < 3 || began.elapsed() < ENOUGH) {
        ran += 1;
        let (header, count) = timed(&mut crates, || left(black_box(text), &used, &mut written));
        drop(header);
        stay = count;
        let n = timed(&mut ours, || library::prune(black_box(text.as_bytes()), &catalogue, &used, &mut out)).expect("written");
        assert!(out[..n as usize] == written[..], "both wrote the same");
    }
    println!(
        "{name:<27}{:>10}{PROGRAMS:>9}{:>8}{stay:>8}{:>9.2}{:>9.0}{ran:>9}",
        text.len(),
        used.len(),
        ours.as_secs_f64() / crates.as_secs_f64(),
        ours.as_nanos() as f64 / 1_000.0,
    );
}

pub fn table(rounds: usize) {
    println!("{:<27}{:>10}{:>9}{:>8}{:>8}{:>9}{:>9}{:>9}", "pruning", "bytes", "programs", "in use", "stay", "/crate", "us", "best of");
    for (name, step) in [("1024 PG in fours", 4), ("1024 PG in one chain", PROGRAMS)] {
        row(name, &(texts::sequences(20_000, Names::Numbered, true) + &texts::chains(PROGRAMS, step)), rounds);
    }
}

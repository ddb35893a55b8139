//! The library's calls, as they are timed, and the clock.

use std::{
    hint::black_box,
    time::{Duration, Instant},
};

use library::Answer;

/// What is given to add.
pub const PREFIX: &[u8] = b"bench";
pub const FIELDS: &[u8] = b"\tPN:v";

/// What the library is lent: long enough for any answer, reused from call to call and not cleared.
pub struct Room {
    catalogue: Vec<u8>,
    size: usize,
    pub out: Vec<u8>,
    ordinals: Vec<u32>,
    table: Vec<u32>,
}

impl Room {
    /// A field of five bytes has an entry of eleven, and nothing has more for its length but a last comment without LF.
    pub fn new() -> Self {
        let longest = oracle::LONGEST;
        Self {
            catalogue: vec![0; 3 * longest + 1],
            size: 0,
            out: vec![0; longest],
            ordinals: vec![0; oracle::PROGRAMS],
            table: vec![0; longest / 4],
        }
    }

    fn kept(&self) -> &[u8] {
        &self.catalogue[..self.size]
    }
}

/// A call of the library. The others stand on the catalogue that the last reading left.
pub type Call = fn(&[u8], &mut Room) -> Answer;

fn read(text: &[u8], room: &mut Room) -> Answer {
    let answer = library::read(text, &mut room.catalogue);
    room.size = answer.map_or(0, |n| n as usize);
    answer
}

fn leaves(text: &[u8], room: &mut Room) -> Answer {
    let Room { catalogue, size, ordinals, .. } = room;
    library::leaves(text, &catalogue[..*size], ordinals)
}

fn add(text: &[u8], room: &mut Room) -> Answer {
    let Room { catalogue, size, out, .. } = room;
    library::add(text, &catalogue[..*size], PREFIX, FIELDS, out)
}

/// The calls that are timed; count counts the SQ.
pub const CALLS: [(&str, Call); 6] = [
    ("read", read),
    ("check", |text, room| library::check(text, room.kept())),
    ("count", |text, room| library::count(text, room.kept(), 2)),
    ("leaves", leaves),
    ("add", add),
    ("tidy", |text, room| library::tidy(text, &mut room.out)),
];

/// Calls that go on after a refused line, on a text that has one.
#[cfg(all(feature = "carry_on", feature = "faults"))]
pub const GOING_ON: [(&str, Call); 2] = [
    ("carry on", |text, room| library::carry_on(text, &mut room.out, &mut room.table)),
    ("faults", |text, room| library::faults(text, &mut room.table)),
];
#[cfg(not(all(feature = "carry_on", feature = "faults")))]
pub const GOING_ON: [(&str, Call); 0] = [];

/// Runs it; the best time is kept.
pub fn timed<T>(best: &mut Duration, f: impl FnOnce() -> T) -> T {
    let began = Instant::now();
    let result = black_box(f());
    *best = (*best).min(began.elapsed());
    result
}

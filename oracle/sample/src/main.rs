//! sample: a fixed sample of the crate's answers, for a program that has no Rust at hand to replay.
//!
//! sample          writes it to standard output
//! sample FILE     exit status 1 if FILE, without the lines that start with `!` or `#`, is not what it would write
//!
//! One case to a line, words with one space between; byte strings in lower-case hex, `-` for no bytes:
//!     TEXT refused NUMBER LINE              document 01's number for the crate's error, and the line, in decimal
//!     TEXT accepted TIDY ROOTS LEAVES       the crate's written text
//!     TEXT unwritable LINE ROOTS LEAVES     read, but its writer refuses a name: refusal 24 on that line
//! ROOTS and LEAVES are program ordinals, two bytes each, the higher first; LEAVES is `cycle` where the crate says so.
//! A text on which document 01 or 02 is known to differ from the crate, or where a PP names no program or a walk of the crate's
//! leaves never ends, is not in it.

use std::{collections::HashSet, fmt::Write, process::ExitCode};

use oracle::{
    Leaves, Parent,
    inputs::{self, Rng, hex, undisputed},
};

const SEED: u64 = 93;

fn ordinals(l: &[usize]) -> String {
    hex(&l.iter().flat_map(|&i| (i as u16).to_be_bytes()).collect::<Vec<u8>>())
}

/// The crate's answer: its number, the line where it refuses, and a line's end; None where it has none to compare.
fn answer(text: &[u8]) -> Option<(u32, Option<usize>, String)> {
    let header = match oracle::parse(text) {
        Err(r) => return Some((r.number, Some(r.line), format!("refused {} {}", r.number, r.line))),
        Ok(header) => header,
    };
    if oracle::parents(&header).contains(&Parent::Nobody) {
        return None;
    }
    let leaves = match oracle::leaves(&header) {
        Leaves::List(l) => ordinals(&l),
        Leaves::Cycle => "cycle".into(),
        Leaves::Panics | Leaves::Endless => return None,
    };
    let graph = format!("{} {leaves}", ordinals(&oracle::roots(&header)));
    match oracle::tidy(&header) {
        Ok(tidy) => Some((0, None, format!("accepted {} {graph}", hex(&tidy)))),
        Err(_) => {
            let mut sq = oracle::spans(text).enumerate().filter(|&(_, (a, b))| text[a..b].starts_with(b"@SQ"));
            let line = sq.nth(oracle::unwritable(&header)?)?.0;
            Some((24, None, format!("unwritable {line} {graph}")))
        }
    }
}

#[derive(Default)]
struct Sample {
    seen: HashSet<Vec<u8>>,
    out: String,
}

impl Sample {
    fn take(&mut self, text: &[u8], longest: usize) -> Option<u32> {
        if text.len() > longest || self.seen.contains(text) || !undisputed(text) {
            return None;
        }
        let (number, line, answer) = answer(text)?;
        // Where line 0 gives no readable version the crate alone refuses a repeated tag, and it alone takes a long length.
        let repeated = number == 14 && !inputs::has_version(text);
        if repeated || inputs::long_length(text).is_some_and(|n| line.is_none_or(|l| l >= n)) {
            return None;
        }
        self.seen.insert(text.to_vec());
        writeln!(self.out, "{} {answer}", hex(text)).unwrap();
        Some(number)
    }

    /// Takes from a generator until each outcome has come `each` times, or there is no more of it for long.
    fn fill(&mut self, each: usize, accepted: usize, longest: usize, mut next: impl FnMut() -> Vec<u8>) {
        let mut had = [0; 27];
        for _ in 0..20_000 {
            let text = next();
            let mut probe = Sample { seen: HashSet::new(), out: String::new() };
            if let Some(n) = probe.take(&text, longest)
                && had[n as usize] < if n == 0 { accepted } else { each }
                && self.take(&text, longest).is_some()
            {
                had[n as usize] += 1;
            }
        }
    }
}

fn sample() -> String {
    let mut s = Sample::default();
    let rng = &mut Rng::new(SEED);
    let corners = inputs::corners();
    // The sweeps over all bytes stand last among the corners; of these every seventh.
    let sweeps = corners.len() - 9 * 256;
    for (i, text) in corners.iter().enumerate() {
        if i < sweeps || (i - sweeps) % 7 == 0 && !(i - sweeps).is_multiple_of(2) {
            s.take(text, 200);
        }
    }
    s.fill(4, 60, 300, || inputs::header(rng));
    s.fill(6, 10, 200, || {
        let text = inputs::header(rng);
        inputs::damaged(rng, &text)
    });
    s.fill(2, 6, 60, || inputs::soup(rng));
    s.fill(0, 40, 400, || {
        let n = 1 + rng.below(9);
        inputs::programs(rng, n)
    });
    // Some that are longer than one block of anything.
    s.fill(0, 1, 2_500, || (0..6).flat_map(|_| inputs::header(rng)).collect());
    s.fill(0, 2, 2_000, || inputs::programs(rng, 50));
    s.out
}

fn main() -> ExitCode {
    let now = sample();
    match std::env::args().nth(1) {
        None => print!("{now}"),
        Some(file) => {
            let held = std::fs::read_to_string(&file).unwrap_or_default();
            // Such a line holds a wrong answer, for the program that replays the file to find, or it is a note.
            let held: String = held.split_inclusive('\n').filter(|l| !l.starts_with(['!', '#'])).collect();
            if held != now {
                eprintln!("sample: {file} is not the crate's answers now");
                return ExitCode::FAILURE;
            }
            println!("{file}: {} cases, as the crate answers", now.lines().count());
        }
    }
    ExitCode::SUCCESS
}

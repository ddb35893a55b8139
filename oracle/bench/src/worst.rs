//! The second table: texts as long as may be, made to be slow.
//!
//! A row is a text: its name, bytes and lines, then the library's time for each call in ms, the best of three; a call that takes
//! longer than twenty seconds is timed once. Where a call is refused the number stands behind its time in brackets. Every text
//! leaves room for the line that add puts after it. The last two calls are asked of the same text with a first line that is refused. Each cell is
//! printed when it is measured; there is no limit of time.
//!
//!   shortest SQ, RG       as many lines as fit, their keys all different and as short as possible
//!   all tags, VN:1.6      one line with each of the 3,224 tags once and values that fill it; under VN:1.5 too
//!   all tags in turn      one line under VN:1.5 with all tags again and again, values of one byte
//!   fields, then PG       lines of a hundred fields of one byte, as many as fit before 1,024 chained programs
//!   long IDs, chained     1,024 programs, each after the one before, their IDs as long as fit and alike but for the end
//!   long IDs, leaves      512 programs without PP, the IDs such that the text with one more after each fits
//!   comment               one comment
//!   one number, N RG      lines whose IDs all differ and have one and the same plain number in the index of keys
//!   one number, all SQ    the same with SQ, whose names can be written, with PG, and with SQ and RG in turn, each kind with a number of its own

use std::{
    io::{Write, stdout},
    time::{Duration, Instant},
};

use oracle::{LONGEST, PROGRAMS};

use crate::calls::{CALLS, Call, FIELDS, GOING_ON, PREFIX, Room, timed};

/// The most bytes of a text: a last LF and a program may be added.
const MOST: usize = LONGEST - (b"\n@PG\tID:\n".len() + PREFIX.len() + FIELDS.len());

/// A call that took longer, all rounds together, is not timed again.
const PATIENCE: Duration = Duration::from_secs(20);

/// The bytes of a value, and the first and later bytes of a name that may be written.
const VALUE: &[u8] = b" !\"#$%&'()*+,-./0123456789:;<=>?@ABCDEFGHIJKLMNOPQRSTUVWXYZ[\\]^_`abcdefghijklmnopqrstuvwxyz{|}~";
const FIRST: &[u8] = b"0123456789ABCDEFGHIJKLMNOPQRSTUVWXYZabcdefghijklmnopqrstuvwxyz!#$%&+./:;?@^_|~-";
const LATER: &[u8] = b"0123456789ABCDEFGHIJKLMNOPQRSTUVWXYZabcdefghijklmnopqrstuvwxyz!#$%&+./:;?@^_|~-*=";

/// All words of this length.
fn words(first: &'static [u8], later: &'static [u8], len: u32) -> impl Iterator<Item = Vec<u8>> {
    (0..first.len() * later.len().pow(len - 1)).map(move |i| {
        let mut w = vec![first[i % first.len()]];
        let mut rest = i / first.len();
        for _ in 1..len {
            w.push(later[rest % later.len()]);
            rest /= later.len();
        }
        w
    })
}

/// As many of the lines as fit.
fn filled(most: usize, lines: impl Iterator<Item = Vec<u8>>) -> Vec<u8> {
    let mut t = Vec::with_capacity(most);
    for line in lines {
        if t.len() + line.len() > most {
            break;
        }
        t.extend_from_slice(&line);
    }
    t
}

/// Lines with these words between two others.
fn shortest(front: &[u8], first: &'static [u8], later: &'static [u8], back: &[u8]) -> Vec<u8> {
    filled(MOST, (1..=4).flat_map(|len| words(first, later, len)).map(|w| [front, &w, back].concat()))
}

/// All tags; ID, which a line needs, is one of them.
fn tags() -> impl Iterator<Item = [u8; 2]> + Clone {
    FIRST[10..62].iter().flat_map(|&a| FIRST[..62].iter().map(move |&b| [a, b]))
}

/// A field with a value of this length.
fn field(tag: [u8; 2], len: usize) -> Vec<u8> {
    [b"\t", &tag[..], b":", &vec![b'v'; len]].concat()
}

fn all_tags(head: &[u8]) -> Vec<u8> {
    let len = (MOST - head.len()) / tags().count() - field(*b"ID", 0).len();
    [head.to_vec(), tags().flat_map(|t| field(t, len)).collect()].concat()
}

fn all_tags_in_turn(head: &[u8]) -> Vec<u8> {
    [head.to_vec(), filled(MOST - head.len(), tags().cycle().map(|t| field(t, 1)))].concat()
}

/// Programs whose IDs have this length and end with their ordinals.
fn programs(n: usize, len: usize, chained: bool) -> Vec<u8> {
    let id = |i: usize| format!("{}{i:04}", "x".repeat(len - 4));
    let after = |i: usize| if chained && i > 0 { format!("\tPP:{}", id(i - 1)) } else { String::new() };
    (0..n).map(|i| format!("@PG\tID:{}{}\n", id(i), after(i))).collect::<String>().into_bytes()
}

fn fields_then_programs() -> Vec<u8> {
    let last = programs(PROGRAMS, 4, true);
    let fields: Vec<u8> = tags().filter(|t| t != b"ID").take(100).flat_map(|t| field(t, 1)).collect();
    let lines = (0..).map(|i: usize| [format!("@RG\tID:{i}").as_bytes(), &fields, b"\n"].concat());
    [filled(MOST - last.len(), lines), last].concat()
}

/// One step of a key's number.
fn step(sum: u32) -> u32 {
    let p = u64::from(sum) * 2_654_435_761;
    (p as u32).wrapping_add((p >> 32) as u32)
}

/// A key's plain number in the index, by its kind (2 SQ, 3 RG, 4 PG) and name: `hash` of crates/key_look, which looks for a key from the slot
/// number % slots on. What changes there changes here.
fn key_hash(kind: u32, name: &[u8]) -> u32 {
    let (fours, rest) = name.as_chunks::<4>();
    let words = fours.iter().map(|&w| u32::from_le_bytes(w)).chain(rest.iter().map(|&b| b.into()));
    words.fold(kind, |h, w| step(h.wrapping_add(w)))
}

/// Names of twelve of these bytes that have one number: the last four bytes are what brings the last sum to one and the same. The slots are then
/// one and the same too, however many there are.
fn one_number(kind: u32, bytes: &'static [u8]) -> impl Iterator<Item = Vec<u8>> {
    const SUM: u32 = 1;
    [b"aaaa", b"bbbb", b"cccc", b"dddd"].into_iter().flat_map(move |lead| {
        words(bytes, bytes, 4).filter_map(move |word| {
            let front = [&lead[..], &word].concat();
            let last = SUM.wrapping_sub(key_hash(kind, &front)).to_le_bytes();
            last.iter().all(|b| bytes.contains(b)).then(|| {
                let name = [&front[..], &last].concat();
                assert_eq!(key_hash(kind, &name), step(SUM));
                name
            })
        })
    })
}

fn groups() -> impl Iterator<Item = Vec<u8>> {
    one_number(3, VALUE).map(|id| [b"@RG\tID:", &id[..], b"\n"].concat())
}

fn references() -> impl Iterator<Item = Vec<u8>> {
    one_number(2, FIRST).map(|name| [b"@SQ\tSN:", &name[..], b"\tLN:1\n"].concat())
}

fn programs_alike() -> impl Iterator<Item = Vec<u8>> {
    one_number(4, VALUE).map(|id| [b"@PG\tID:", &id[..], b"\n"].concat())
}

fn cell(call: Call, text: &[u8], room: &mut Room) {
    let (mut best, mut answer, began) = (Duration::MAX, Ok(0), Instant::now());
    for ran in 0..3 {
        if ran == 0 || began.elapsed() < PATIENCE {
            answer = timed(&mut best, || call(text, room));
        }
    }
    let number = answer.map_or_else(|r| format!(" ({})", r.number), |_| String::new());
    print!("{:>14}", format!("{:.1}{number}", 1e3 * best.as_secs_f64()));
    stdout().flush().expect("written");
}

fn row(name: &str, text: &[u8]) {
    print!("{name:<24}{:>10}{:>9}", text.len(), oracle::spans(text).count());
    let mut room = Room::new();
    for (_, call) in CALLS {
        cell(call, text, &mut room);
    }
    let refused = [b"@XX\n", text].concat();
    for (_, call) in GOING_ON {
        cell(call, &refused, &mut room);
    }
    println!();
}

/// The rows that have this word in their names.
pub fn table(word: &str) {
    print!("{:<24}{:>10}{:>9}", "ms", "bytes", "lines");
    for (call, _) in CALLS.iter().chain(&GOING_ON) {
        print!("{call:>14}");
    }
    println!();
    let ids = |n: usize, parts: usize| (MOST - n * 64) / (n * parts);
    let rows: [(&str, &dyn Fn() -> Vec<u8>); 15] = [
        ("shortest SQ", &|| shortest(b"@SQ\tSN:", FIRST, LATER, b"\tLN:1\n")),
        ("shortest RG", &|| shortest(b"@RG\tID:", VALUE, VALUE, b"\n")),
        ("all tags, VN:1.6", &|| all_tags(b"@HD\tVN:1.6\n@RG")),
        ("all tags, VN:1.5", &|| all_tags(b"@HD\tVN:1.5\n@RG")),
        ("all tags in turn", &|| all_tags_in_turn(b"@HD\tVN:1.5\n@RG")),
        ("fields, then PG", &fields_then_programs),
        ("long IDs, chained", &|| programs(PROGRAMS, ids(PROGRAMS, 2), true)),
        ("long IDs, leaves", &|| programs(PROGRAMS / 2, ids(PROGRAMS / 2, 3), false)),
        ("comment", &|| [b"@CO\t", &vec![b'c'; MOST - 4][..]].concat()),
        ("one number, 10000 RG", &|| filled(MOST, groups().take(10_000))),
        ("one number, 100000 RG", &|| filled(MOST, groups().take(100_000))),
        ("one number, all RG", &|| filled(MOST, groups())),
        ("one number, all SQ", &|| filled(MOST, references())),
        ("one number, all PG", &|| filled(MOST, programs_alike())),
        ("one number, SQ and RG", &|| filled(MOST, references().zip(groups()).map(|(sq, rg)| [sq, rg].concat()))),
    ];
    for (name, text) in rows.iter().filter(|(name, _)| name.contains(word)) {
        row(name, &text());
    }
}

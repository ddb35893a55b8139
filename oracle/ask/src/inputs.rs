//! Texts to ask about. Everything follows from a seed.

use std::{collections::HashSet, fmt::Write};

use crate::{LONGEST, LONGEST_SEQUENCE, PROGRAMS, spans};

/// Lower-case hex, `-` for no bytes.
pub fn hex(b: &[u8]) -> String {
    if b.is_empty() {
        return "-".into();
    }
    let mut s = String::with_capacity(2 * b.len());
    for x in b {
        write!(s, "{x:02x}").unwrap();
    }
    s
}

/// The bytes of such a hex text.
pub fn unhex(s: &str) -> Option<Vec<u8>> {
    if s == "-" {
        return Some(Vec::new());
    }
    if s.len() % 2 != 0 || !s.is_ascii() {
        return None;
    }
    (0..s.len() / 2).map(|i| u8::from_str_radix(&s[2 * i..2 * i + 2], 16).ok()).collect()
}

/// A small generator of random numbers (splitmix64).
pub struct Rng(u64);

impl Rng {
    pub fn new(seed: u64) -> Self {
        Self(seed)
    }

    pub fn next(&mut self) -> u64 {
        self.0 = self.0.wrapping_add(0x9e37_79b9_7f4a_7c15);
        let z = (self.0 ^ (self.0 >> 30)).wrapping_mul(0xbf58_476d_1ce4_e5b9);
        let z = (z ^ (z >> 27)).wrapping_mul(0x94d0_49bb_1331_11eb);
        z ^ (z >> 31)
    }

    /// A number below n.
    pub fn below(&mut self, n: usize) -> usize {
        (self.next() % n as u64) as usize
    }

    /// True once in n.
    pub fn one_in(&mut self, n: usize) -> bool {
        self.below(n) == 0
    }

    pub fn of<'a, T>(&mut self, items: &'a [T]) -> &'a T {
        &items[self.below(items.len())]
    }

    pub fn shuffle<T>(&mut self, items: &mut [T]) {
        for i in (1..items.len()).rev() {
            items.swap(i, self.below(i + 1));
        }
    }
}

/// Whether every tag, value, version and length that stands in the text has document 01's form, no line holds a CR, and the
/// text and its programs are within the limits: the domain on which the library and the crate must agree.
pub fn in_domain(text: &[u8]) -> bool {
    text.len() <= LONGEST
        && spans(text).filter(|&(a, b)| text[a..b].starts_with(b"@PG")).count() <= PROGRAMS
        && spans(text).all(|(a, b)| line_in_domain(&text[a..b]))
}

fn line_in_domain(line: &[u8]) -> bool {
    let kind = line.get(..3).unwrap_or(b"");
    !line.contains(&b'\r')
        && (!matches!(kind, b"@HD" | b"@SQ" | b"@RG" | b"@PG")
            || line[3..].split(|&b| b == b'\t').skip(1).all(|piece| piece_in_domain(kind, piece)))
}

/// One or more digits, worth at most `max`.
fn is_number(s: &[u8], max: u128) -> bool {
    !s.is_empty()
        && s.iter().all(u8::is_ascii_digit)
        && s.iter().try_fold(0u128, |n, b| Some(10 * n + u128::from(b - b'0')).filter(|&n| n <= max)).is_some()
}

/// The digits at the front are worth more than document 02 takes as a length, and still a number of 64 bits.
pub fn is_long_length(value: &[u8]) -> bool {
    let digits = &value[..value.iter().position(|b| !b.is_ascii_digit()).unwrap_or(value.len())];
    is_number(digits, u64::MAX.into()) && !is_number(digits, LONGEST_SEQUENCE.into())
}

/// The first line that is an SQ with such a length.
pub fn long_length(text: &[u8]) -> Option<usize> {
    spans(text).map(|(a, b)| &text[a..b]).position(|line| {
        line.starts_with(b"@SQ\t") && line.split(|&b| b == b'\t').filter_map(|p| p.strip_prefix(b"LN:")).any(is_long_length)
    })
}

/// Two numbers of 32 bits with a dot between.
fn is_version(s: &[u8]) -> bool {
    let sides = s.iter().position(|&b| b == b'.').map(|i| (&s[..i], &s[i + 1..]));
    sides.is_some_and(|(major, minor)| is_number(major, u32::MAX.into()) && is_number(minor, u32::MAX.into()))
}

/// The version that a line gives the repeat rule: it starts `@HD` tab, and its first piece that starts `VN:` has document 01's form.
pub fn announced(line: &[u8]) -> Option<&[u8]> {
    let pieces = line.strip_prefix(b"@HD\t")?.split(|&b| b == b'\t');
    pieces.filter_map(|p| p.strip_prefix(b"VN:")).next().filter(|v| is_version(v))
}

/// Whether repeated tags are forbidden under an announced version.
pub fn is_strict(version: &[u8]) -> bool {
    let number = |s: &[u8]| s.iter().fold(0u64, |n, b| 10 * n + u64::from(b - b'0'));
    let dot = version.iter().position(|&b| b == b'.').expect("an announced version has a dot");
    (number(&version[..dot]), number(&version[dot + 1..])) >= (1, 6)
}

/// A line before others that sets their repeat rule.
pub fn ruled(strict: bool) -> &'static [u8] {
    if strict { b"@HD\tVN:1.6\n" } else { b"@HD\tVN:1.5\n" }
}

/// Whether line 0 gives the repeat rule a version.
pub fn has_version(text: &[u8]) -> bool {
    spans(text).next().is_some_and(|(a, b)| announced(&text[a..b]).is_some())
}

fn piece_in_domain(kind: &[u8], piece: &[u8]) -> bool {
    let (Some(tag), rest) = (piece.get(..2), piece.get(2..).unwrap_or(b"")) else {
        return false; // a short tag
    };
    if !(tag[0].is_ascii_alphabetic() && tag[1].is_ascii_alphanumeric()) {
        return false;
    }
    let Some(value) = rest.strip_prefix(b":") else {
        return true; // no value is there
    };
    if value.is_empty() || !value.iter().all(|b| (32..=126).contains(b)) {
        return false;
    }
    match (kind, tag) {
        (b"@HD", b"VN") => is_version(value),
        (b"@SQ", b"LN") => is_number(value, LONGEST_SEQUENCE.into()) && value.iter().any(|&b| b != b'0'),
        _ => true,
    }
}

/// Whether the text has nothing on which document 01 is known to differ from the crate in reading and tidying: a CR inside a
/// line, HD's VN with a sign, an LN that starts with another byte than a digit, or a limit passed.
pub fn undisputed(text: &[u8]) -> bool {
    let sign = |b: Option<&u8>| matches!(b, Some(b'+' | b'-'));
    let disputed = |line: &[u8]| {
        let end = line.len();
        let mut at = 0;
        line.contains(&b'\r')
            || line.split(|&b| b == b'\t').any(|piece| {
                at += piece.len() + 1;
                match (line.get(..4), piece.get(..3)) {
                    (Some(b"@HD\t"), Some(b"VN:")) => {
                        let dot = piece.iter().position(|&b| b == b'.');
                        sign(piece.get(3)) || dot.is_some_and(|i| sign(piece.get(i + 1)))
                    }
                    // `LN:` where the line ends is 12 on both sides.
                    (Some(b"@SQ\t"), Some(b"LN:")) => match piece.get(3) {
                        Some(b) => !b.is_ascii_digit(),
                        None => at <= end,
                    },
                    _ => false,
                }
            })
    };
    text.len() < LONGEST
        && spans(text).filter(|&(a, b)| text[a..b].starts_with(b"@PG")).count() <= PROGRAMS
        && !spans(text).any(|(a, b)| disputed(&text[a..b]))
}

/// Document 01's cases, and others on the edge of a rule.
#[rustfmt::skip]
pub fn corners() -> Vec<Vec<u8>> {
    let zeros = "0".repeat(40);
    let mut o: Vec<Vec<u8>> = [
        "", "\n", "\r\n", "\r", "\n\n", "@", "@\n", "@H", "@H\n", "@CO", "@CO\n", "@COx", "@CO\t", "@CO\t\n", "@CO\ta\tb\t", "@XX\tVN:1",
        "@hd\tVN:1.6", "@HD", "@HD\n", "@HD\t", "@HDxVN:1.6", "@HD\tVN", "@HD\tVN=1.6", "@HD\tV", "@HD\t1A:x", "@HD\tA_:x", "@HD\tVN:",
        "@HD\tVN:1.6\t", "@HD\tVN:1.6\t\n", "@HD\tVN:1.6.0", "@HD\tVN:1.", "@HD\tVN:.6", "@HD\tVN:1", "@HD\tVN:.", "@HD\tVN:01.06",
        "@HD\tVN:1.6x", "@HD\tVN:1. 6", "@HD\tVN:+1.6", "@HD\tVN:1.+6", "@HD\tVN:-1.6", "@HD\tVN:-0.6", "@HD\tVN:1.-6", "@HD\tVN:0.0",
        "@HD\tVN:4294967295.4294967295", "@HD\tVN:4294967296.0", "@HD\tVN:0.4294967296", "@HD\tVN:99999999999.0", "@HD\tVN:1.99999999999",
        "@HD\tVN:1.5\tSO:a\tSO:b", "@HD\tVN:1.6\tSO:a\tSO:b", "@HD\tVN:1.5\tVN:1.6", "@HD\tVN:1.6\tVN:1.5", "@HD\tVN:x\tVN:1.5",
        "@HD\tSO:a\tSO:b\tVN:+1.5", "@HD\tSO:a\tSO:b\tVN:1.+5", "@HD\tSO:a\tVN:1.5\tSO:b", "@HD\tVN:1.5\tVN:x", "@HD\tSO:VN:1.5\tSO:b\tVN:1.6",
        "@HD\tVN:1.5\tVN:1.6\n@RG\tID:a\tPL:x\tPL:y\n", "@HD\tVN:0.99999\n@RG\tID:a\tID:b\n", "@HD\tVN:1.05\n@RG\tID:a\tID:b\n",
        "@HD\tVN:1.5\n@SQ\tSN:a\tLN:1\tLN:2\tSN:b\n", "@HD\tVN:1.5\n@SQ\tSN:a\tSN:b\tLN:1\n@SQ\tSN:a\tLN:2\n", "@HD\tVN:1.5\n@SQ\tSN:a\tLN:1\tLN:0\n",
        "@HD\tVN:1.5\n@PG\tID:a\tPP:b\tPN:x\tPP:a\n", "@RG\tID:a\tPL:x\tPL:y", "@RG\tID:a\tID:a", "@CO\t\n@HD\tVN:1.6\n", "@HD\tVN:1.6\n@HD\tVN:1.6",
        "@CO\t\n@HD\tVN:x\n", "@CO\t\n@HD\tVN:1.5\tSO:a\tSO:b\n", "@CO\t\n@HD\n", "@HD\tVN:1.6\r\n@CO\tx\r\n", "@HD\tVN:1.6\r\r\n", "@CO\tx\r\r\n",
        "@CO\ta\rb\n", "@CO\ta\r", "@CO\ta\r\n", "@RG\tID:a\rb\n", "@RG\tID:a\r", "@RG\r\tID:a", "\rRG\tID:a", "@\r", "@H\r", "@CO\r", "@CO\r\n",
        "@RG\tID:", "@RG\tID:\tPL:x", "@RG\tID:a\u{7f}", "@RG\tID:a\u{1}", "@RG\tID:\u{e9}", "@RG\tID: ", "@RG\tID:~", "@RG\tID:a:b", "@RG\tPL:x",
        "@PG", "@PG\tID:bwa\tVN:0.7.17-r1188", "@SQ", "@SQ\tLN:8", "@SQ\tSN:a", "@SQ\tID:q\tVN:zz\tSN:a\tLN:1", "@HD\tVN:1.6\tzz:1", "@HD\tVN:1.6\tLN:x",
        "@RG\tID:a\tLN:0\tSN:*\tVN:x", "@SQ\tSN:a\tLN:8\n@SQ\tSN:a\tLN:9\n", "@RG\tID:a\n@RG\tID:a", "@PG\tID:a\n@PG\tID:a", "@PG\tID:a\n@RG\tID:a\n@SQ\tSN:a\tLN:1",
        "@SQ\tSN:a\tLN:0", "@SQ\tSN:a\tLN:00", "@SQ\tSN:a\tLN:0x", "@SQ\tSN:a\tLN:8x", "@SQ\tSN:a\tLN:8 ", "@SQ\tSN:a\tLN:1_0", "@SQ\tSN:a\tLN:08",
        "@SQ\tSN:a\tLN:", "@SQ\tSN:a\tLN:\tM5:x", "@SQ\tSN:a\tLN:x", "@SQ\tSN:a\tLN:+8", "@SQ\tSN:a\tLN:-8", "@SQ\tSN:a\tLN:-0", "@SQ\tSN:a\tLN:+0",
        "@SQ\tSN:a\tLN:+", "@SQ\tSN:a\tLN:-", "@SQ\tSN:a\tLN:+\tM5:x", "@SQ\tSN:a\tLN:+x", "@SQ\tLN:+8", "@SQ\tLN:8\tLN:+8\tSN:a", "@SQ\tSN:a\tLN:+8\n@RG\n",
        "@SQ\tSN:a\tLN:18446744073709551615", "@SQ\tSN:a\tLN:18446744073709551616", "@SQ\tSN:a\tLN:18446744073709551616x", "@SQ\tSN:a\tLN:9999999999999999999999999",
        "@SQ\tSN:a\tLN:2147483647", "@SQ\tSN:a\tLN:2147483648", "@SQ\tSN:a\tLN:4294967296", "@SQ\tSN:a\tLN:9223372036854775808",
        "@HD\tSO:unsorted\tVN:01.6\n@PG\tID:a\n@SQ\tLN:08\tSN:s1\n@CO\tx", "@PG\tID:pg0\n@PG\tID:pg1\tPP:pg0\n@PG\tID:pg2\tPP:pg1\n@PG\tID:pg3\n",
        "@PG\tID:c\tPP:a\n@PG\tID:a\tPP:b\n@PG\tID:b\tPP:a\n", "@PG\tID:a\tPP:a\n", "@PG\tID:a\tPP:z\n", "@PG\tID:a\tPP:b\n@PG\tID:b\tPP:a\n",
        "@PG\tID:a\tPP:z\n@PG\tID:b\tPP:b\n", "@PG\tID:b\tPP:b\n@PG\tID:a\tPP:z\n", "@PG\tID:c\tPP:b\n@PG\tID:b\tPP:b\n@PG\tID:a\tPP:z\n", "@PG\tID:b\tPP:a\n@PG\tID:a\n", "@PG\tID:a\tPP:b\n", "@PG\tID:a\tpp:a\n", "@RG\tID:a\n@PG\tID:b\tPP:a\n",
    ]
    .into_iter()
    .map(|s| s.as_bytes().to_vec())
    .collect();
    o.push(b"@RG\tID:a\xe9".to_vec());
    o.push(b"@CO\t\x00\x7f\xff\n".to_vec());
    o.push(b"@CO\t\xff\n@HD\tVN:1.6\n".to_vec());
    for n in ["8", "18446744073709551615", "18446744073709551616", "0"] {
        o.push(format!("@SQ\tSN:a\tLN:{zeros}{n}").into_bytes());
    }
    for v in ["1.6", "4294967295.6", "4294967296.6"] {
        o.push(format!("@HD\tVN:{zeros}{v}").into_bytes());
    }
    // Every byte as a name's first and later byte, as a tag's first and second, and in a value.
    for b in 0..=255u8 {
        for (front, back) in [("@SQ\tSN:", "\tLN:1\n"), ("@SQ\tSN:a", "\tLN:1\n"), ("@RG\tID:a\t", "X:v\n"), ("@RG\tID:a\tX", ":v\n"), ("@RG\tID:a", "b\n"), ("", "RG\tID:a\n"), ("@RG\tID:a\tPL", "v\n"), ("@RG", "ID:a\n"), ("@CO", "x\n")] {
            o.push([front.as_bytes(), &[b], back.as_bytes()].concat());
        }
    }
    o
}

/// All sequences of up to `most` of these tokens, after a prefix.
pub fn sequences(prefix: &[u8], tokens: &[&[u8]], most: usize, f: &mut dyn FnMut(&[u8])) {
    fn go(text: &mut Vec<u8>, tokens: &[&[u8]], most: usize, f: &mut dyn FnMut(&[u8])) {
        f(text);
        if most > 0 {
            for t in tokens {
                let len = text.len();
                text.extend_from_slice(t);
                go(text, tokens, most - 1, f);
                text.truncate(len);
            }
        }
    }
    go(&mut prefix.to_vec(), tokens, most, f);
}

/// Tokens from which short texts are made.
pub const TOKENS: [&[u8]; 17] = [
    b"@", b"HD", b"SQ", b"RG", b"PG", b"CO", b"\t", b"\n", b"\r", b"VN:1.6", b"VN:1.5", b"SN:a", b"LN:0", b"LN:8", b"ID:a",
    b"PP:a", b"x",
];

/// Tokens from which short texts of whole fields are made.
pub const FIELDS: [&[u8]; 17] = [
    b"@HD",
    b"@SQ",
    b"@RG",
    b"@PG",
    b"@CO",
    b"\n",
    b"\r\n",
    b"\t",
    b"\tVN:1.6",
    b"\tVN:1.5",
    b"\tSN:a",
    b"\tSN:b",
    b"\tLN:8",
    b"\tID:a",
    b"\tID:b",
    b"\tPP:a",
    b"x",
];

/// Prefixes, each with the bytes of which all short strings are put after it, and how long these may be.
pub const BYTES: [(&[u8], &[u8], usize); 12] = [
    (b"", b"@HDCO\t\n\rx: \xff", 4),
    (b"@", b"HDSQRGPCO\t\n", 4),
    (b"@HD\tVN:", b"0156.+-\t\nSx\r", 5),
    (b"@SQ\tSN:a\tLN:", b"0189+-x\t\n\r:M", 5),
    (b"@SQ\tSN:a\tLN:1844674407370955161", b"0123456789\tx", 2),
    (b"@SQ\tLN:8\tSN:", b"a*=,.\t\n\r\x7f @~", 4),
    (b"@RG\tID:", b"aB1:\t\n\r \x1f\x7f\xc3\xa9", 4),
    (b"@RG\tID:a", b"\tPL:1_\n\r@Rx", 4),
    (b"@CO", b"\t\n\r@CO x:\x00\xff", 4),
    (b"@HD\tVN:1.5\n@RG\tID:a", b"\tID:ab\n\rPL1", 4),
    (b"@HD\tVN:1.5\tSO:a", b"\tSO:abVN1.6", 4),
    (b"@PG\tID:a\n@PG\tID:b", b"\tPID:ab\n\rx@", 4),
];

fn value(rng: &mut Rng) -> Vec<u8> {
    match rng.below(12) {
        0 => (0..1 + rng.below(3)).map(|_| b' ' + rng.below(95) as u8).collect(),
        1 => (0..1 + rng.below(30)).map(|_| b' ' + rng.below(95) as u8).collect(),
        2 => rng.of(&["VN:1.5", "ID:a", "@SQ", "SN:a", ":", "::", " ", "~", "-", "1.6", "x-pg0", "0"]).as_bytes().to_vec(),
        3 if rng.one_in(300) => (0..rng.below(3000)).map(|i| b' ' + ((i * 7) % 95) as u8).chain([b'v']).collect(),
        _ => (0..1 + rng.below(4)).map(|_| *rng.of(b"abcxyz019")).collect(),
    }
}

fn name(rng: &mut Rng) -> Vec<u8> {
    const FIRST: &[u8] = b"abcXYZ019!#$%&+./:;?@^_|~-";
    const LATER: &[u8] = b"abcXYZ019!#$%&+./:;?@^_|~-*=";
    match rng.below(12) {
        0 => value(rng),
        1 => rng.of(&["*", "=", "a,b", "a*", "a=", "(", "a b"]).as_bytes().to_vec(),
        _ => {
            let mut n = vec![*rng.of(FIRST)];
            n.extend((0..rng.below(4)).map(|_| *rng.of(LATER)));
            n
        }
    }
}

fn id(rng: &mut Rng) -> Vec<u8> {
    match rng.below(5) {
        0 => value(rng),
        1 => format!("pg{}", rng.below(12)).into_bytes(),
        2 => rng.of(&["x", "x-pg0", "x-x", "a", "b", "c", "x-a", "x-b"]).as_bytes().to_vec(),
        _ => (0..1 + rng.below(3)).map(|_| *rng.of(b"abcd")).collect(),
    }
}

fn digits(rng: &mut Rng, n: impl std::fmt::Display) -> String {
    let zeros = if rng.one_in(4) { rng.below(5) } else { 0 };
    format!("{}{n}", "0".repeat(zeros))
}

fn version(rng: &mut Rng) -> Vec<u8> {
    let (a, b) = *rng.of(&[
        (1, 6),
        (1, 5),
        (1, 6),
        (1, 5),
        (1, 4),
        (1, 0),
        (1, 7),
        (2, 0),
        (0, 9),
        (1, 10),
        (u32::MAX, u32::MAX),
        (0, u32::MAX),
    ]);
    let (a, b) = if rng.one_in(8) { (rng.next() as u32, rng.next() as u32) } else { (a, b) };
    format!("{}.{}", digits(rng, a), digits(rng, b)).into_bytes()
}

fn length(rng: &mut Rng) -> Vec<u8> {
    let n = match rng.below(6) {
        0 => *rng.of(&[1, 8, u64::MAX, u64::MAX - 1, 1 << 31, (1 << 31) - 1, 1 << 32, 1 << 63, 9, 10, 99, 100]),
        1 => rng.next() >> rng.below(64),
        _ => rng.below(100_000) as u64,
    };
    // Of the lengths that document 02 refuses some are left.
    let n = if n % 8 == 7 { n } else { n & LONGEST_SEQUENCE };
    digits(rng, n.max(1)).into_bytes()
}

fn field(tag: &[u8], value: &[u8]) -> Vec<u8> {
    [tag, b":", value].concat()
}

fn others(rng: &mut Rng, tags: &[&[u8; 2]], out: &mut Vec<Vec<u8>>) {
    let mut free: Vec<[u8; 2]> = tags.iter().map(|t| **t).collect();
    rng.shuffle(&mut free);
    free.truncate(rng.below(free.len().min(5) + 1));
    for t in free {
        out.push(field(&t, &value(rng)));
    }
    if rng.one_in(10) {
        let t = [*rng.of(b"aZzX"), *rng.of(b"aZ09")];
        out.push(field(&t, &value(rng)));
    }
}

/// One line without its ending, in document 01's form. `ids` are the IDs of programs so far.
fn line(rng: &mut Rng, kind: usize, repeats: bool, ids: &mut Vec<Vec<u8>>) -> Vec<u8> {
    let mut f = Vec::new();
    let head: &[u8] = match kind {
        0 => {
            f.push(field(b"VN", &version(rng)));
            others(rng, &[b"SO", b"GO", b"SS", b"ID", b"LN"], &mut f);
            b"@HD"
        }
        1 => {
            f.push(field(b"SN", &name(rng)));
            f.push(field(b"LN", &length(rng)));
            others(rng, &[b"AH", b"AN", b"AS", b"DS", b"M5", b"SP", b"TP", b"UR", b"VN", b"ID"], &mut f);
            b"@SQ"
        }
        2 => {
            f.push(field(b"ID", &id(rng)));
            others(rng, &[b"BC", b"CN", b"DS", b"DT", b"LB", b"PI", b"PL", b"PU", b"SM", b"VN", b"LN"], &mut f);
            b"@RG"
        }
        3 => {
            let own = id(rng);
            f.push(field(b"ID", &own));
            if !rng.one_in(3) {
                let parent = match rng.below(12) {
                    0 => id(rng),
                    1 => own.clone(),
                    _ if ids.is_empty() => own.clone(),
                    _ => rng.of(ids).clone(),
                };
                if !rng.one_in(4) || ids.contains(&parent) {
                    f.push(field(b"PP", &parent));
                }
            }
            ids.push(own);
            others(rng, &[b"PN", b"CL", b"DS", b"VN", b"LN", b"SN"], &mut f);
            b"@PG"
        }
        _ => {
            let n = if rng.one_in(4) { 0 } else { rng.below(12) };
            let body: Vec<u8> = match rng.below(4) {
                0 => (0..n).map(|_| rng.next() as u8).filter(|b| !matches!(b, b'\n' | b'\r')).collect(),
                1 => "\u{e9}\u{4e2d}\t@CO".bytes().collect(),
                _ => (0..n).map(|_| *rng.of(b"ab \t:@")).collect(),
            };
            return [b"@CO\t", &body[..]].concat();
        }
    };
    if repeats {
        for _ in 0..1 + rng.below(2) {
            let again = rng.below(f.len());
            let tag = [f[again][0], f[again][1]];
            let v = match (head, &tag) {
                (b"@HD", b"VN") => version(rng),
                (b"@SQ", b"LN") => length(rng),
                (b"@SQ", b"SN") => name(rng),
                _ => value(rng),
            };
            f.push(field(&tag, &v));
        }
    }
    if rng.one_in(3) {
        rng.shuffle(&mut f);
    }
    let mut o = head.to_vec();
    for x in f {
        o.push(b'\t');
        o.extend_from_slice(&x);
    }
    o
}

/// A header in document 01's form. Repeats, used keys and dangling or looping programs are in it now and then.
pub fn header(rng: &mut Rng) -> Vec<u8> {
    let n = match rng.below(20) {
        0 => 0,
        1 => 30 + rng.below(40),
        _ => 1 + rng.below(10),
    };
    let early = rng.one_in(2);
    let (mut lines, mut ids): (Vec<Vec<u8>>, Vec<Vec<u8>>) = (Vec::new(), Vec::new());
    if early {
        let mut hd = line(rng, 0, false, &mut ids);
        if rng.one_in(2) {
            // Where repeats are allowed, some follow.
            hd = [b"@HD\tVN:", *rng.of(&[&b"1.5"[..], b"1.05", b"0.9", b"1.0"])].concat();
            if rng.one_in(3) {
                hd.extend_from_slice(*rng.of(&[&b"\tSO:a\tSO:b"[..], b"\tVN:1.6", b"\tVN:1.4\tGO:x"]));
            }
        }
        lines.push(hd);
    }
    let favourite = rng.below(9);
    for _ in 0..n {
        let kind = if favourite < 4 && rng.one_in(2) { 1 + favourite } else { 1 + rng.below(4) };
        let kind = if rng.one_in(150) { 0 } else { kind };
        let repeats = rng.one_in(if early { 5 } else { 60 });
        lines.push(line(rng, kind, repeats, &mut ids));
    }
    // Most keys that stand twice are made different, so that longer headers are accepted too.
    if !rng.one_in(6) {
        let mut seen: Vec<Vec<u8>> = Vec::new();
        lines.retain(|l| {
            let tag: &[u8] = match l.get(..3) {
                Some(b"@SQ") => b"SN:",
                Some(b"@RG" | b"@PG") => b"ID:",
                _ => return true,
            };
            let key = l.split(|&b| b == b'\t').rfind(|p| p.starts_with(tag)).map(|p| [&l[..3], p].concat());
            match key {
                Some(key) if seen.contains(&key) => false,
                Some(key) => {
                    seen.push(key);
                    true
                }
                None => true,
            }
        });
    }
    ended(rng, &lines)
}

fn ended(rng: &mut Rng, lines: &[Vec<u8>]) -> Vec<u8> {
    let style = rng.below(4);
    let mut o = Vec::new();
    for l in lines {
        o.extend_from_slice(l);
        o.extend_from_slice(if style == 1 || style == 2 && rng.one_in(2) { b"\r\n" } else { b"\n" });
    }
    if rng.one_in(3) && o.pop().is_some() && o.last() == Some(&b'\r') {
        o.pop();
    }
    o
}

/// A header of programs only: chains, forests, stars, and now and then a loop or a PP that names nobody.
pub fn programs(rng: &mut Rng, n: usize) -> Vec<u8> {
    let shape = rng.below(8);
    let mut order: Vec<usize> = (0..n).collect();
    if rng.one_in(2) {
        rng.shuffle(&mut order);
    }
    let parent = |rng: &mut Rng, i: usize| -> Option<usize> {
        match shape {
            0 => i.checked_sub(1),
            1 => (i > 0).then_some(0),
            2 => (i + 1 < n).then_some(i + 1),
            3 | 4 => (i > 0 && !rng.one_in(4)).then(|| rng.below(i)),
            5 => (!rng.one_in(3)).then(|| rng.below(n)),
            6 => (i > 0 && !rng.one_in(3)).then(|| {
                let among = if rng.one_in(n) { n + 1 } else { i };
                rng.below(among)
            }),
            _ => i.checked_sub(1 + rng.below(3)),
        }
    };
    let mut lines = Vec::new();
    for i in 0..n {
        let mut l = format!("@PG\tID:{}", program_id(order[i])).into_bytes();
        if let Some(p) = parent(rng, i) {
            let p = if p < n { order[p] } else { n };
            l.extend_from_slice(format!("\tPP:{}", program_id(p)).as_bytes());
        }
        if rng.one_in(6) {
            l.extend_from_slice(b"\tPN:v");
        }
        lines.push(l);
        if rng.one_in(20) {
            let mut none = Vec::new();
            let kind = *rng.of(&[2, 4]);
            let extra = line(rng, kind, false, &mut none);
            if kind == 4 {
                lines.push(extra);
            }
        }
    }
    ended(rng, &lines)
}

fn program_id(i: usize) -> String {
    const SHORT: [&str; 8] = ["x", "a", "b", "x-a", "x-b", "pg0", "x-x", "a-b"];
    SHORT.get(i).map_or_else(|| format!("p{i}"), |s| (*s).to_string())
}

/// All graphs of n programs: each PP absent, any of the n, or the name of nobody.
pub fn graphs(n: usize, f: &mut dyn FnMut(&[u8])) {
    let mut pick = vec![0; n];
    loop {
        let mut text = String::new();
        for (i, &p) in pick.iter().enumerate() {
            write!(text, "@PG\tID:{}", program_id(i)).unwrap();
            if p > 0 {
                write!(text, "\tPP:{}", if p <= n { program_id(p - 1) } else { "nobody".into() }).unwrap();
            }
            text.push('\n');
        }
        f(text.as_bytes());
        let Some(i) = pick.iter().position(|&p| p <= n) else { return };
        pick[i] += 1;
        pick[..i].fill(0);
    }
}

/// What is given to add: mostly in form.
pub fn addition(rng: &mut Rng, text: &[u8]) -> (Vec<u8>, Vec<u8>) {
    // An ID that is there, or the front of one up to a `-`, so that used IDs are met early and late.
    let there = |rng: &mut Rng| -> Option<Vec<u8>> {
        let ids: Vec<&[u8]> =
            text.split(|&b| matches!(b, b'\t' | b'\n' | b'\r')).filter_map(|p| p.strip_prefix(b"ID:")).collect();
        (!ids.is_empty()).then(|| rng.of(&ids).to_vec())
    };
    let prefix = match rng.below(12) {
        0 => Vec::new(),
        1 => rng.of(&[&b"a\tb"[..], b"a\n", b"\x7f", b"\xff", b"a\rb", b"\x00"]).to_vec(),
        2 | 3 => there(rng).unwrap_or(b"x".to_vec()),
        4 => {
            let id = there(rng).unwrap_or(b"x".to_vec());
            let i = id.iter().position(|&b| b == b'-').unwrap_or(id.len());
            id[..i].to_vec()
        }
        5 => value(rng),
        _ => rng.of(&["x", "a", "b", "pg0"]).as_bytes().to_vec(),
    };
    let mut fields = Vec::new();
    let mut tags: Vec<&[u8; 2]> = vec![b"PN", b"VN", b"CL", b"DS"];
    rng.shuffle(&mut tags);
    tags.truncate(rng.below(3));
    if rng.one_in(3) {
        tags.push(b"PP");
        rng.shuffle(&mut tags);
    }
    if rng.one_in(20) {
        tags.push([b"ID", b"PN", b"PP"][rng.below(3)]);
    }
    for t in tags {
        let v = if t == b"PP" { there(rng).filter(|_| !rng.one_in(6)).unwrap_or(b"z".to_vec()) } else { value(rng) };
        fields.push(b'\t');
        fields.extend_from_slice(&field(t, &v));
    }
    if rng.one_in(12) {
        fields = damaged(rng, &fields);
    }
    (prefix, fields)
}

/// A damaged copy.
pub fn damaged(rng: &mut Rng, text: &[u8]) -> Vec<u8> {
    const BYTES: &[u8] = b"@\t\n\r:.+-0159 aA_\x7f\xff\x00HDSQRGPCOVNLI";
    let mut t = text.to_vec();
    for _ in 0..1 + rng.below(3) {
        let at = rng.below(t.len() + 1);
        match rng.below(9) {
            0 | 1 if at < t.len() => t[at] = *rng.of(BYTES),
            2 if at < t.len() => {
                t.remove(at);
            }
            3 => t.insert(at, *rng.of(BYTES)),
            4 => t.truncate(at),
            5 => {
                let end = at + rng.below((t.len() - at).min(20) + 1);
                let part = t[at..end].to_vec();
                let to = rng.below(t.len() + 1);
                t.splice(to..to, part);
            }
            6 => {
                // A piece or a line once more, somewhere.
                let by = *rng.of(b"\t\n");
                let parts: Vec<&[u8]> = t.split(|&b| b == by).collect();
                let mut parts: Vec<Vec<u8>> = parts.iter().map(|p| p.to_vec()).collect();
                let again = rng.of(&parts).clone();
                parts.insert(rng.below(parts.len() + 1), again);
                t = parts.join(&by);
            }
            7 => {
                let by = *rng.of(b"\t\n");
                let mut parts: Vec<Vec<u8>> = t.split(|&b| b == by).map(<[u8]>::to_vec).collect();
                let (i, j) = (rng.below(parts.len()), rng.below(parts.len()));
                parts.swap(i, j);
                t = parts.join(&by);
            }
            _ if at < t.len() => t[at] ^= 1 << rng.below(8),
            _ => {}
        }
    }
    t
}

/// Random bytes of the kind that stand in headers.
pub fn soup(rng: &mut Rng) -> Vec<u8> {
    let n = rng.below(10);
    (0..n)
        .flat_map(|_| match rng.below(3) {
            0 => rng.of(&TOKENS).to_vec(),
            1 => rng.of(&FIELDS).to_vec(),
            _ => vec![rng.next() as u8],
        })
        .collect()
}

/// Texts at the limits: long lines, long texts, many records. The longest are some of 16 MiB.
pub fn boundaries(f: &mut dyn FnMut(&[u8])) {
    let comment = |n: usize, last: &str| {
        let mut t = b"@CO\t".to_vec();
        t.resize(n - last.len(), b'c');
        t.extend_from_slice(last.as_bytes());
        t
    };
    for n in [255, 256, 257, 4095, 4096, 65_534, 65_535, 65_536, 65_537] {
        f(&comment(n, ""));
        f(&comment(n, "\n"));
        f(&comment(n, "\r\n"));
        f(&[b"@RG\tID:", &vec![b'v'; n - 8][..], b"\n"].concat());
        f(&[b"@RG\tID:", &vec![b'v'; n - 9][..], b"\x7f\n"].concat());
    }
    // Repeated fields in one line, allowed and not; all tags there are in one line.
    let many = "\tPL:x\tPU:y".repeat(400);
    f(format!("@HD\tVN:1.5\n@RG\tID:a{many}\n").as_bytes());
    f(format!("@RG\tID:a{many}\n").as_bytes());
    let mut all = "@HD\tVN:1.6\n@RG\tID:a".to_string();
    for a in (b'A'..=b'Z').chain(b'a'..=b'z') {
        for b in (b'0'..=b'9').chain(b'A'..=b'Z').chain(b'a'..=b'z') {
            if (a, b) != (b'I', b'D') {
                write!(all, "\t{}{}:{}", a as char, b as char, b as char).unwrap();
            }
        }
    }
    f(all.as_bytes());
    f(format!("{all}\tzz:again\n").as_bytes());
    // Programs: as many as may be, one more, and their chains.
    for n in [1, 2, 1_023, 1_024, 1_025] {
        let lines = |parent: &dyn Fn(usize) -> Option<usize>| -> Vec<u8> {
            let mut t = String::new();
            for i in 0..n {
                write!(t, "@PG\tID:p{i}").unwrap();
                if let Some(p) = parent(i) {
                    write!(t, "\tPP:p{p}").unwrap();
                }
                t.push('\n');
            }
            t.into_bytes()
        };
        f(&lines(&|_| None));
        f(&lines(&|i| i.checked_sub(1)));
        f(&lines(&|i| (i + 1 < n).then_some(i + 1)));
        f(&lines(&|i| (i > 0).then_some(0)));
        f(&lines(&|i| (i + 1 < n).then_some(n - 1)));
        f(&lines(&|i| (i > 0).then_some((i - 1) / 2)));
        f(&lines(&|i| Some((i + 1) % n)));
        f(&lines(&|i| if i == 0 { Some(n - 1) } else { Some(i - 1) }));
        f(&lines(&|i| if i == 1 { Some(n - 1) } else { i.checked_sub(1) }));
        f(&lines(&|i| if i + 1 == n { Some(n) } else { i.checked_sub(1) }));
    }
    // Many records of each kind.
    let mut sq = String::from("@HD\tVN:1.6\tSO:coordinate\n");
    for i in 0..2_000 {
        writeln!(sq, "@SQ\tSN:chrUn_{i:05}\tLN:{}\tUR:u", 1 + i * 7).unwrap();
    }
    f(sq.as_bytes());
    f(format!("{sq}@SQ\tSN:chrUn_00000\tLN:1\n").as_bytes());
    f(format!("{sq}@SQ\tSN:chrUn_01999\tLN:1\n").as_bytes());
    let mut rg = String::new();
    for i in 0..1_500 {
        writeln!(rg, "@RG\tID:{i}\tSM:s").unwrap();
    }
    f(rg.as_bytes());
    f("@CO\t\n".repeat(20_000).as_bytes());
    // The longest text, with and without a last LF, and one byte more.
    f(&comment(LONGEST, "\n"));
    f(&comment(LONGEST, ""));
    f(&comment(LONGEST, "\r\n"));
    f(&comment(LONGEST + 1, "\n"));
    f(&comment(LONGEST - 1, ""));
    let mut lines =
        "@CO\tsome comment of some length, so that there are not too many of them\n".repeat(LONGEST / 73 + 1).into_bytes();
    lines.truncate(LONGEST);
    f(&lines);
    // Short once it is tidied: zeros go.
    f(&[b"@SQ\tSN:a\tLN:", &vec![b'0'; LONGEST - 14][..], b"8\n"].concat());
}

/// A key of few letters and digits, one for each number.
fn short_key(mut i: usize) -> String {
    const BYTES: &[u8] = b"0123456789ABCDEFGHIJKLMNOPQRSTUVWXYZabcdefghijklmnopqrstuvwxyz";
    let mut key = String::new();
    loop {
        key.push(BYTES[i % 62] as char);
        i /= 62;
        if i == 0 {
            return key;
        }
    }
}

fn short_sq(i: usize) -> String {
    format!("@SQ\tSN:{}\tLN:1", short_key(i))
}

fn short_rg(i: usize) -> String {
    format!("@RG\tID:{}", short_key(i))
}

fn short_pg(i: usize) -> String {
    format!("@PG\tID:{}", short_key(i))
}

/// Headers of n short lines, more than the `block` of lines whose keys are in one area of the key index: all SQ, all RG, and all kinds
/// in turn, which share their keys. A key stands twice, near or far, or two do, or none.
pub fn many_keys(n: usize, block: usize, f: &mut dyn FnMut(&[u8])) {
    // At most 1,000 programs.
    let every = (n / 1_000).next_multiple_of(6).max(6);
    let mixed = |i: usize| match i % 3 {
        0 if i % every == 0 => short_pg(i / 3),
        0 => short_sq(i / 3),
        1 => short_rg(i / 3),
        _ => "@CO\t".into(),
    };
    let last = n - 1;
    for line in [&short_sq as &dyn Fn(usize) -> String, &short_rg, &mixed] {
        let lines: Vec<String> = (0..n).map(line).collect();
        // Each first line, or the one before where it has no key, once more in place of the second.
        let mut again = |pairs: &[(usize, usize)]| {
            let mut lines: Vec<&str> = lines.iter().map(String::as_str).collect();
            for &(from, to) in pairs {
                lines[to] = lines[if lines[from].starts_with("@CO") { from - 1 } else { from }];
            }
            f(lines.join("\n").as_bytes());
        };
        again(&[]);
        for (from, to) in [
            (0, block - 1),
            (0, block),
            (0, last),
            (block / 2, last),
            (block - 1, block),
            (block - 1, last),
            (block, last),
            (last - 3, last),
        ] {
            again(&[(from, to)]);
        }
        again(&[(0, last), (block, block + 3)]);
        again(&[(block - 1, last), (0, block + 3)]);
    }
}

/// Headers of n short lines, programs before read groups, with another refusal before, on or after the line of an 18, which stands in
/// the last block: a wrong tag, a second HD, a program more than may be.
pub fn beside_used(n: usize, block: usize, f: &mut dyn FnMut(&[u8])) {
    let programs = PROGRAMS.min(n / 2);
    let lines: Vec<String> = (0..n).map(|i| if i < programs { short_pg(i) } else { short_rg(i) }).collect();
    let mut with = |changed: &[(usize, &str)]| {
        let mut lines: Vec<&str> = lines.iter().map(String::as_str).collect();
        for &(i, line) in changed {
            lines[i] = line;
        }
        f(lines.join("\n").as_bytes());
    };
    let (at, used) = (n - 2, [short_pg(0), short_rg(programs)]);
    for other in [format!("{}\t1A:v", short_rg(n)), "@HD\tVN:1.6".into(), short_pg(n)] {
        for used in &used {
            for place in [at - block / 4, at - 1, at + 1] {
                with(&[(at, used), (place, &other)]);
            }
        }
    }
    for used in &used {
        with(&[(at, &format!("{used}\t1A:v"))]);
        with(&[(at, &format!("{used}\tID:x"))]);
    }
    with(&[(at, &short_pg(programs - 1))]);
}

/// Texts with as many programs as may be, or nearly, each with what is given to add: IDs that are used and more programs than may be, a
/// PP that names one and one that names none.
pub fn full_of_programs(f: &mut dyn FnMut(&[u8], &str, &str)) {
    let text = |n: usize, chained: bool, named: &[(usize, String)]| {
        let id = |i: usize| named.iter().find(|x| x.0 == i).map_or(format!("p{i}"), |x| x.1.clone());
        let after = |i: usize| if chained && i > 0 { format!("\tPP:{}", id(i - 1)) } else { String::new() };
        (0..n).map(|i| format!("@PG\tID:{}{}\n", id(i), after(i))).collect::<String>()
    };
    for n in [PROGRAMS - 1, PROGRAMS] {
        let leaf = format!("p{}", n - 1);
        let chain = text(n, true, &[(7, "x".into()), (9, format!("x-{leaf}"))]);
        for (prefix, fields) in [("y", ""), ("x", ""), ("p0", ""), ("y", "\tPP:p0"), ("x", "\tPP:p0\tPN:v"), ("x", "\tPP:z")] {
            f(chain.as_bytes(), prefix, fields);
        }
        f(chain.as_bytes(), "y", &format!("\tPP:{leaf}"));
        // One more that is used already, that is not in form, and that is neither.
        f(format!("{chain}@PG\tID:{leaf}\n").as_bytes(), "y", "");
        f(format!("{chain}@RG\tID:p0\n@PG\tID:p0\n@PG\tID:y\n").as_bytes(), "y", "");
        f(format!("{chain}@PG\tID:y\tPP\n").as_bytes(), "y", "");
        f(format!("{chain}@RG\tID:p0\tPP:z\n@PG\tID:y\n").as_bytes(), "y", "");
    }
    for n in [PROGRAMS / 2, PROGRAMS / 2 + 1, PROGRAMS] {
        f(text(n, false, &[]).as_bytes(), "x", "");
        for used in [0, 1, n / 2, n - 1] {
            let id = (3, format!("x-p{used}"));
            f(text(n, false, &[id.clone()]).as_bytes(), "x", "");
            f(text(n, false, &[id, (4, "x".into())]).as_bytes(), "x", "\tPP:p2");
        }
    }
}

/// The text with read groups between its lines. Their keys are those of programs, and a PP among their fields is no parent.
pub fn with_groups(rng: &mut Rng, text: &[u8]) -> Vec<u8> {
    let mut o = Vec::new();
    for (i, line) in text.split_inclusive(|&b| b == b'\n').enumerate() {
        if rng.one_in(2) {
            o.extend_from_slice(format!("@RG\tID:{}", program_id(i)).as_bytes());
            if rng.one_in(2) {
                o.extend_from_slice(format!("\tPP:{}", program_id(rng.below(9))).as_bytes());
            }
            o.push(b'\n');
        }
        o.extend_from_slice(line);
    }
    o
}

/// The text with other names: in each value every small letter becomes the next, and z becomes a. Lengths and numbers stay, and keys are
/// equal where they were: an accepted text keeps its catalogue.
pub fn renamed(text: &[u8]) -> Vec<u8> {
    // A value stands behind the three bytes of its tag and colon. The line's front has three too.
    let mut at = 0;
    let next = |&b: &u8| {
        at = if matches!(b, b'\t' | b'\n') { 0 } else { at + 1 };
        match b {
            b'z' if at > 3 => b'a',
            b'a'..b'z' if at > 3 => b + 1,
            _ => b,
        }
    };
    text.iter().map(next).collect()
}

/// Lines of two headers and lines that are refused, in an order by chance, many of them before the first that is kept.
pub fn with_refused(rng: &mut Rng) -> Vec<u8> {
    const BAD: [&[u8]; 20] = [
        b"@HD\tVN:1.6\tx", b"@HD\tVN:1.5\tx", b"@HD\tVN:1.7\tSO:", b"@HD\tVN:z", b"@HD\tVN:1.6\tVN:z", b"@HD\tVN:1.4\tVN:1.6\tSO", b"@HD", b"@HD VN:1.6",
        b"@HD\tVN:1.6\tSO:a\rb", b"@HD\tVN:1.6\r\tSO:a", b"@HD\tVN:1.6", b"@HD\tVN:1.5\tSO:a\tSO:b", b"@PG\tID:a\tID:b", b"@RG\tID:r\tSM:x\tSM:y", b"@SQ\tSN:s\tLN:0",
        b"@SQ\tSN:s", b"@SQ\tSN:s\tLN:7\tLN:8", b"@CO", b"", b"x",
    ];
    let texts = [header(rng), header(rng)];
    let lines: Vec<&[u8]> = texts.iter().flat_map(|t| spans(t).map(|(a, b)| &t[a..b])).collect();
    let mut all: Vec<Vec<u8>> = (0..rng.below(5)).map(|_| rng.of(&BAD).to_vec()).collect();
    for _ in 0..rng.below(16) {
        all.push(match rng.below(8) {
            0 | 1 => rng.of(&BAD).to_vec(),
            2 if !all.is_empty() => rng.of(&all).clone(),
            3 if !lines.is_empty() => {
                let line = *rng.of(&lines);
                damaged(rng, line)
            }
            _ if !lines.is_empty() => rng.of(&lines).to_vec(),
            _ => b"@CO\t".to_vec(),
        });
    }
    let mut text = all.join(&b"\n"[..]);
    if rng.one_in(2) {
        text.push(b'\n');
    }
    text
}

/// Programs, SQ of which some have names that can't be written, and lines that are refused, in an order by chance. A program that is refused leaves
/// those whose PP names it without a parent. With many, 20,000 SQ stand before, between or behind them.
pub fn faulty(rng: &mut Rng, many: bool) -> Vec<u8> {
    const BAD: [&[u8]; 9] = [
        b"", b"x", b"@CO", b"@SQ\tSN:s", b"@SQ\tSN:s\tLN:0", b"@HD\tVN:1.6", b"@PG\tPP:a", b"@PG\tID:a\tPP:", b"@PG\tID:b\tPP:b\tx",
    ];
    let n = rng.below(9);
    let text = programs(rng, n);
    let mut all: Vec<Vec<u8>> = spans(&text).map(|(a, b)| text[a..b].to_vec()).collect();
    if rng.one_in(3) && !all.is_empty() {
        let at = rng.below(all.len());
        all[at].push(b'\t');
    }
    for _ in 0..rng.below(7) {
        let more = match rng.below(8) {
            0 => [b"@SQ\tSN:", *rng.of(&[&b"*"[..], b"=a", b"a,b", b"<a>"]), b"\tLN:7"].concat(),
            1 | 2 => [b"@SQ\tSN:", &name(rng)[..], b"\tLN:8"].concat(),
            3 if !all.is_empty() => {
                let line = rng.of(&all).clone();
                damaged(rng, &line)
            }
            4 if !all.is_empty() => rng.of(&all).clone(),
            5 => b"@HD\tVN:1.5".to_vec(),
            _ => rng.of(&BAD).to_vec(),
        };
        let at = rng.below(all.len() + 1);
        all.insert(at, more);
    }
    if many {
        let at = rng.below(all.len() + 1);
        all.splice(at..at, (0..20_000).map(|i| short_sq(i).into_bytes()));
        let (from, to) = (rng.below(all.len()), rng.below(all.len()));
        let line = all.remove(from);
        all.insert(to, line);
    }
    ended(rng, &all)
}

/// The text with its first line ended by CR LF in place of LF, or the other way, and whether a line stands behind it: an accepted text
/// keeps its records, and the places behind the first line become others. None where there is no LF, or too many bytes.
pub fn ended_otherwise(text: &[u8]) -> Option<(Vec<u8>, bool)> {
    let (line, rest) = text.split_at(text.iter().position(|&b| b == b'\n')?);
    let other = match line.strip_suffix(b"\r") {
        Some(line) => [line, rest].concat(),
        None => [line, b"\r", rest].concat(),
    };
    (other.len() <= LONGEST).then_some((other, rest.len() > 1))
}

/// Names that all have one number in the index of SQ names: at each place one of two pairs of bytes that give the same sum.
pub fn one_number(places: u32) -> impl Iterator<Item = String> {
    (0..1 << places).map(move |i: u32| (0..places).map(|p| if i >> p & 1 == 0 { "Ab" } else { "BA" }).collect())
}

/// A header of SQ lines with different names, among them some with one number, and now and then another line; with hundreds of them
/// where there shall be many.
pub fn references(rng: &mut Rng, many: bool) -> Vec<u8> {
    let n = if many { 100 + rng.below(900) } else { rng.below(20) };
    let alike: Vec<String> = one_number(1 + rng.below(7) as u32).collect();
    let (mut seen, mut lines, mut ids) = (HashSet::new(), Vec::new(), Vec::new());
    let style = rng.below(4);
    for i in 0..n {
        if rng.one_in(12) {
            let kind = 2 + rng.below(3);
            lines.push(line(rng, kind, false, &mut ids));
        }
        let name = match style {
            0 => format!("chr{i}").into_bytes(),
            1 => rng.of(&alike).as_bytes().to_vec(),
            _ => name(rng),
        };
        if seen.insert(name.clone()) {
            lines.push([b"@SQ\tSN:", &name[..], b"\tLN:", &length(rng)].concat());
        }
    }
    ended(rng, &lines)
}

/// A name that is nearly this one, or this one.
fn near(rng: &mut Rng, name: &[u8]) -> Vec<u8> {
    let mut o = name.to_vec();
    let at = rng.below(o.len().max(1));
    match rng.below(14) {
        0 => o.truncate(at),
        1 => o.push(rng.next() as u8),
        2 => o = o.iter().map(|b| b ^ if b.is_ascii_alphabetic() { 32 } else { 0 }).collect(),
        3 => o.push(b'\r'),
        4 => o.insert(at, *rng.of(b"\r\t \x00")),
        // Zero bytes in front leave the number as it is, and so does one more at a place and 33 less behind it.
        5 => o.insert(0, 0),
        6 if o.len() > at + 1 => (o[at], o[at + 1]) = (o[at].wrapping_add(1), o[at + 1].wrapping_sub(33)),
        7 if !o.is_empty() => o[at] = rng.next() as u8,
        8 => o.clear(),
        _ => {}
    }
    o
}

/// A list of names to ask of a text: most are its keys or nearly so. It may be empty, and may lack the last LF.
pub fn list(rng: &mut Rng, text: &[u8]) -> Vec<u8> {
    let pieces = text.split(|b| matches!(b, b'\t' | b'\n' | b'\r'));
    let keys: Vec<&[u8]> = pieces.filter_map(|p| p.strip_prefix(b"SN:").or(p.strip_prefix(b"ID:"))).collect();
    let n = match rng.below(20) {
        0 => 0,
        1 => 50 + rng.below(200),
        _ => 1 + rng.below(8),
    };
    let mut o = Vec::new();
    for _ in 0..n {
        let key = if keys.is_empty() || rng.one_in(8) { name(rng) } else { rng.of(&keys).to_vec() };
        o.extend_from_slice(&near(rng, &key));
        o.push(b'\n');
    }
    if rng.one_in(3) {
        o.pop();
    }
    o
}

/// Texts with lists as long as may be and longer, and with SQ names that all have one number, asked for forwards, backwards and by names
/// that are not there.
pub fn long_lists(f: &mut dyn FnMut(&[u8], &[u8])) {
    let text = b"@SQ\tSN:a\tLN:1\n@SQ\tSN:aa\tLN:1\n";
    for n in [LONGEST, LONGEST + 1] {
        f(text, &vec![b'a'; n]);
    }
    f(text, &vec![b'\n'; LONGEST + 1]);
    f(text, &b"a\naa\nb\n\n".repeat(100_000));
    let names: Vec<String> = one_number(9).collect();
    let text: String = names.iter().map(|name| format!("@SQ\tSN:{name}\tLN:1\n")).collect();
    let absent: Vec<String> = names.iter().map(|name| format!("\0{name}")).collect();
    f(text.as_bytes(), names.join("\n").as_bytes());
    f(text.as_bytes(), names.iter().rev().flat_map(|name| [name, "\n"]).collect::<String>().as_bytes());
    f(text.as_bytes(), absent.join("\n").as_bytes());
}

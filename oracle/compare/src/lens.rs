//! Fronts of SAM files and of uncompressed BAM streams, and a second writing of the rule for how long their headers are.

use std::fmt;

use library::{Len, Refusal};
use oracle::inputs::{self, Rng};

// ---- the rule

/// Whole lines from the first on that start with `@`.
fn text_len(bytes: &[u8]) -> usize {
    bytes.split_inclusive(|&b| b == b'\n').take_while(|line| line[0] == b'@').map(<[u8]>::len).sum()
}

/// The parts of a stream, one after another.
struct Parts<'a> {
    bytes: &'a [u8],
    at: usize,
}

/// Why the parts end early.
enum Stop {
    Cut(usize),
    Other,
}

impl<'a> Parts<'a> {
    fn part(&mut self, n: usize) -> Result<&'a [u8], Stop> {
        let start = self.at;
        self.at += n;
        self.bytes.get(start..self.at).ok_or(Stop::Cut(self.at))
    }

    fn number(&mut self) -> Result<usize, Stop> {
        Ok(u32::from_le_bytes(self.part(4)?.try_into().expect("four bytes")) as usize)
    }

    fn name(&mut self) -> Result<(), Stop> {
        let n = self.number()?;
        let closed = n > 0 && self.part(n)?[n - 1] == 0;
        if closed { Ok(()) } else { Err(Stop::Other) }
    }

    fn header(&mut self) -> Result<usize, Stop> {
        if self.bytes.iter().zip(b"BAM\x01").any(|(a, b)| a != b) {
            return Err(Stop::Other);
        }
        self.part(4)?;
        let n = self.number()?;
        self.part(n)?;
        for _ in 0..self.number()? {
            self.name()?;
            self.number()?;
        }
        Ok(self.at)
    }
}

fn binary_len(bytes: &[u8]) -> Result<Len, Refusal> {
    match (Parts { bytes, at: 0 }).header() {
        Ok(n) => Ok(Len::Whole(n as u64)),
        Err(Stop::Cut(n)) => Ok(Len::More(n as u64)),
        Err(Stop::Other) => Err(Refusal { number: 28, line: 0 }),
    }
}

/// The answer where as many bytes as are asked for are lent each time; nothing where no more are asked for than were lent.
fn by_fronts(bytes: &[u8]) -> Option<Result<Len, Refusal>> {
    let mut lent = 0;
    loop {
        match library::binary_len(&bytes[..lent]) {
            Ok(Len::More(n)) if n <= lent as u64 => return None,
            Ok(Len::More(n)) if lent < bytes.len() => lent = bytes.len().min(n as usize),
            told => return Some(told),
        }
    }
}

// ---- made by chance

const BEHIND: [&[u8]; 8] =
    [b"", b"r1\t4\t*\t0\t0\t*\t*\t0\t0\tA\tI\n", b"\n", b"\r\n", b"\n@CO\tx\n", b"x", b"@r1\t4\n", b"\x00@"];

/// A header, or one that is damaged, with something behind it.
pub fn file(rng: &mut Rng) -> Vec<u8> {
    let text = if rng.one_in(8) { inputs::soup(rng) } else { inputs::header(rng) };
    let mut text = if rng.one_in(4) { inputs::damaged(rng, &text) } else { text };
    if rng.one_in(2) && !text.ends_with(b"\n") {
        text.push(b'\n');
    }
    text.extend_from_slice(BEHIND[rng.below(BEHIND.len())]);
    text
}

/// A binary header, or one that is cut or has bytes changed, with something behind it.
pub fn stream(rng: &mut Rng) -> Vec<u8> {
    let sized = |bytes: &[u8]| [&(bytes.len() as u32).to_le_bytes(), bytes].concat();
    let text = if rng.one_in(3) { inputs::header(rng) } else { vec![b'@'; rng.below(9)] };
    let count = if rng.one_in(20) { rng.below(200) } else { rng.below(5) };
    let mut all = [b"BAM\x01", &sized(&text)[..], &(count as u32).to_le_bytes()[..]].concat();
    for _ in 0..count {
        let mut name: Vec<u8> = (0..rng.below(12)).map(|_| rng.below(256) as u8).collect();
        name.push(0);
        all.extend_from_slice(&sized(&name));
        all.extend_from_slice(&(rng.next() as u32).to_le_bytes());
    }
    let end = all.len();
    all.extend((0..rng.below(3) * rng.below(20)).map(|i| (i * 37) as u8));
    for _ in 0..rng.below(3) {
        // mostly behind the text, where the parts are
        let low = if rng.one_in(4) { 0 } else { end.saturating_sub(60) };
        let i = low + rng.below(all.len() - low);
        let any = rng.below(256) as u8;
        all[i] = *rng.of(&[0, 1, 2, 7, 255, any]);
    }
    if rng.one_in(2) {
        let to = if rng.one_in(2) { end.saturating_sub(rng.below(24)) } else { rng.below(all.len() + 1) };
        all.truncate(to);
    }
    all
}

/// How often both sides agreed.
#[derive(Default)]
pub struct Tally {
    headers: u64,
    whole: u64,
    more: u64,
    other: u64,
}

impl Tally {
    /// What differs, if something does.
    pub fn compare(&mut self, bytes: &[u8]) -> Option<String> {
        let differs = |what: &str, got: &dyn fmt::Debug, due: &dyn fmt::Debug| {
            Some(format!("{what}: {got:?} in place of {due:?}: {}", inputs::hex(bytes)))
        };
        let (got, due) = (library::text_len(bytes), Ok(text_len(bytes) as u64));
        if got != due {
            return differs("text_len", &got, &due);
        }
        self.headers += 1;
        let (got, due) = (library::binary_len(bytes), binary_len(bytes));
        if got != due {
            return differs("binary_len", &got, &due);
        }
        let lent = by_fronts(bytes);
        if lent != Some(due) {
            return differs("binary_len, lent front by front", &lent, &due);
        }
        match due {
            Ok(Len::Whole(_)) => self.whole += 1,
            Ok(Len::More(_)) => self.more += 1,
            Err(_) => self.other += 1,
        }
        #[cfg(feature = "binary")]
        if let Some(what) = taken_in(bytes, due) {
            return Some(what);
        }
        None
    }
}

/// Binary in refuses with 28 what is no whole header, and nothing else.
#[cfg(feature = "binary")]
fn taken_in(bytes: &[u8], due: Result<Len, Refusal>) -> Option<String> {
    let whole = match due {
        Ok(Len::Whole(n)) => n as usize,
        _ => usize::MAX,
    };
    let mut out = vec![0; bytes.len() + 1];
    for n in [bytes.len(), whole.min(bytes.len()), whole.min(bytes.len()).saturating_sub(1)] {
        let refused = library::binary_in(&bytes[..n], &mut out).is_err_and(|r| r.number == 28);
        if refused == (n == whole) {
            return Some(format!("binary_in beside binary_len {due:?}, {n} bytes: {}", inputs::hex(bytes)));
        }
    }
    None
}

impl fmt::Display for Tally {
    fn fmt(&self, f: &mut fmt::Formatter<'_>) -> fmt::Result {
        if self.headers == 0 {
            return Ok(());
        }
        let Self { headers, whole, more, other } = self;
        writeln!(f, "  text_len: {headers}\n  binary_len: whole {whole}, more {more}, 28: {other}")
    }
}

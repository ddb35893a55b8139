//! Cuts headers out of files. The proved library says where a header ends; nothing after it is judged.
use crate::{calls, BinaryLen, Header, Refusal, TEXT_LIMIT};
use std::io::{self, Read};

/// More bytes than any accepted header has before its alignment records.
const MOST: usize = 4 * TEXT_LIMIT;

/// What a header was found in.
#[derive(Clone, Copy, Debug, Eq, PartialEq)]
pub enum Form {
    /// A SAM file.
    Sam,
    /// A BAM file, compressed or not.
    Bam,
    /// A CRAM file.
    Cram,
}

/// A header that was cut out of a file, and is not judged yet.
#[derive(Clone, Debug)]
pub struct Found {
    form: Form,
    /// The text, or the whole binary header.
    bytes: Vec<u8>,
}

impl Found {
    /// What it was found in.
    pub fn form(&self) -> Form {
        self.form
    }

    /// The text as it is in the file; for a binary header without the zero bytes at its end.
    pub fn text(&self) -> &[u8] {
        if self.form != Form::Bam {
            return &self.bytes;
        }
        let length = self.bytes.get(4..8).and_then(|n| n.try_into().ok()).map_or(0, u32::from_le_bytes) as usize;
        let text = self.bytes.get(8..8 + length).unwrap_or_default();
        let end = text.iter().rposition(|&b| b != 0).map_or(0, |last| last + 1);
        &text[..end]
    }

    /// Reads the header. In a BAM file the whole binary header must be in order, including its reference list (29).
    pub fn read(&self) -> Result<Header<'_>, Refusal> {
        self.check_list()?;
        Header::read(self.text())
    }

    /// The tidy text.
    pub fn tidy(&self) -> Result<Vec<u8>, Refusal> {
        match self.form {
            Form::Bam => crate::binary_in(&self.bytes),
            _ => crate::tidy(&self.bytes),
        }
    }

    /// Whether the reference list of a BAM file is the SQ list of its text: 29 if not. A text that is refused has no such list and is not judged here.
    pub fn check_list(&self) -> Result<(), Refusal> {
        match self.form {
            Form::Bam => crate::binary_in(&self.bytes).map(drop).or_else(|refusal| match refusal.number {
                28 | 29 => Err(refusal),
                _ => Ok(()),
            }),
            _ => Ok(()),
        }
    }
}

/// Cuts the header out of a SAM, BAM or CRAM file, also one in gzip or BGZF (with the feature `flate2`). It reads somewhat further than the header goes.
///
/// In a SAM file the header ends before the first alignment record: a line that does not start with `@` and has eleven fields or more. Another line
/// in its place is left in, so that it is refused (3) and not passed over, and the header goes on after it if `@` comes next. In a BAM file the
/// proved `binary_len` says where the header ends, and what can be no binary header is an error that holds refusal 28. Of CRAM, versions 2 and 3 are
/// taken, whose header block is plain or in gzip.
///
/// ```
/// let sam = &b"@SQ\tSN:chr1\tLN:9\nread1\t0\tchr1\t1\t60\t4M\t*\t0\t0\tACGT\tIIII\n"[..];
/// let found = sam_header::read_header(sam)?;
/// assert_eq!(found.text(), b"@SQ\tSN:chr1\tLN:9\n");
/// assert_eq!(found.read().unwrap().references().len(), 1);
/// # Ok::<(), std::io::Error>(())
/// ```
pub fn read_header(from: impl Read) -> io::Result<Found> {
    let mut front = Front { from, bytes: Vec::new(), ended: false };
    front.fill(4)?;
    match &front.bytes[..] {
        [0x1f, 0x8b, ..] => {
            let mut inner = Front { from: unpacked(front.rest())?, bytes: Vec::new(), ended: false };
            inner.fill(4)?;
            inner.cut()
        }
        [b'C', b'R', b'A', b'M', ..] => Ok(Found { form: Form::Cram, bytes: cram(front.rest())? }),
        _ => front.cut(),
    }
}

/// The front of a stream, as far as it was read.
struct Front<R> {
    from: R,
    bytes: Vec<u8>,
    ended: bool,
}

impl<R: Read> Front<R> {
    /// Reads on until there are `n` bytes, or the stream ends.
    fn fill(&mut self, n: usize) -> io::Result<()> {
        let missing = n.saturating_sub(self.bytes.len()) as u64;
        self.from.by_ref().take(missing).read_to_end(&mut self.bytes)?;
        self.ended |= self.bytes.len() < n;
        Ok(())
    }

    /// At least twice as much as before: each look at the front starts anew.
    fn grow(&mut self, needed: usize) -> io::Result<()> {
        self.fill(needed.max(2 * self.bytes.len()).max(1 << 16))
    }

    /// The stream from its first byte on.
    fn rest(self) -> impl Read {
        io::Cursor::new(self.bytes).chain(self.from)
    }

    fn cut(mut self) -> io::Result<Found> {
        let binary = self.bytes.starts_with(b"BAM\x01");
        let length = if binary { self.binary()? } else { self.text()? };
        self.bytes.truncate(length);
        Ok(Found { form: if binary { Form::Bam } else { Form::Sam }, bytes: self.bytes })
    }

    fn binary(&mut self) -> io::Result<usize> {
        loop {
            match calls::binary_len(&self.bytes).map_err(bad)? {
                BinaryLen::Whole(n) => return Ok(n),
                BinaryLen::More(_) if self.ended => {
                    return Err(io::Error::new(io::ErrorKind::UnexpectedEof, "the file ends inside its binary header"))
                }
                BinaryLen::More(n) if n > MOST => return Err(bad("the binary header says that it has more than 64 MiB")),
                BinaryLen::More(n) => self.grow(n)?,
            }
        }
    }

    fn text(&mut self) -> io::Result<usize> {
        let (mut end, mut foreign) = (0, false);
        loop {
            let lines = calls::text_len(&self.bytes[end..]);
            end += lines;
            foreign &= lines == 0;
            let line = self.bytes[end..].split_inclusive(|&b| b == b'\n').next().unwrap_or_default();
            if !self.ended && !line.ends_with(b"\n") {
                if end + line.len() > TEXT_LIMIT {
                    return Ok(end + line.len()); // too long, which reading says
                }
                end = self.line_start(end);
                self.grow(0)?;
            } else if line.is_empty() || foreign || line.iter().filter(|&&b| b == b'\t').count() >= 10 {
                return Ok(end);
            } else {
                end += line.len();
                foreign = true;
            }
        }
    }

    /// Where the line begins that may go on after what was read.
    fn line_start(&self, end: usize) -> usize {
        self.bytes[..end].iter().rposition(|&b| b == b'\n').map_or(0, |lf| lf + 1)
    }
}

fn bad(why: impl Into<Box<dyn std::error::Error + Send + Sync>>) -> io::Error {
    io::Error::new(io::ErrorKind::InvalidData, why)
}

#[cfg(feature = "flate2")]
fn unpacked(from: impl Read) -> io::Result<impl Read> {
    Ok(flate2::read::MultiGzDecoder::new(from))
}

#[cfg(not(feature = "flate2"))]
fn unpacked(from: impl Read) -> io::Result<impl Read> {
    let _ = from;
    Err::<io::Empty, _>(io::Error::new(io::ErrorKind::Unsupported, "gzip and BGZF need the feature flate2 of sam-header"))
}

/// The text in the first block of a CRAM file's first container.
fn cram(mut from: impl Read) -> io::Result<Vec<u8>> {
    let start = bytes::<26>(&mut from)?;
    let version = start[4];
    if !(2..=3).contains(&version) {
        return Err(bad("of CRAM, versions 2 and 3 are taken"));
    }
    bytes::<4>(&mut from)?; // the container's length
    for _ in 0..4 {
        short(&mut from)?; // reference, start, span, records
    }
    long(&mut from)?; // records before
    long(&mut from)?; // bases
    short(&mut from)?; // blocks
    for _ in 0..short(&mut from)? {
        short(&mut from)?; // landmarks
    }
    if version == 3 {
        bytes::<4>(&mut from)?; // checksum
    }
    let [method, _kind] = bytes(&mut from)?;
    short(&mut from)?; // content
    let packed = short(&mut from)? as u64;
    short(&mut from)?; // the size when unpacked
    let block = from.take(packed);
    match method {
        0 => cram_text(block),
        1 => cram_text(unpacked(block)?),
        _ => Err(bad("the CRAM header block is packed by another method than gzip")),
    }
}

/// A header block is the text's length and the text; the bytes after it are room to grow.
fn cram_text(mut block: impl Read) -> io::Result<Vec<u8>> {
    let length = u32::from_le_bytes(bytes(&mut block)?) as usize;
    let mut text = Vec::new();
    block.take(length.min(MOST) as u64).read_to_end(&mut text)?;
    if text.len() < length {
        return Err(io::Error::new(io::ErrorKind::UnexpectedEof, "the file ends inside its CRAM header block"));
    }
    let end = text.iter().rposition(|&b| b != 0).map_or(0, |last| last + 1);
    text.truncate(end);
    Ok(text)
}

fn bytes<const N: usize>(from: &mut impl Read) -> io::Result<[u8; N]> {
    let mut bytes = [0; N];
    from.read_exact(&mut bytes)?;
    Ok(bytes)
}

/// A number of CRAM of up to 32 bits (ITF-8): the ones at the front of the first byte say how many bytes follow.
fn short(from: &mut impl Read) -> io::Result<u32> {
    let [first] = bytes(from)?;
    let more = first.leading_ones().min(4);
    let mut value = u32::from(first) & (0x7f >> more.min(3));
    for i in 0..more {
        let [byte] = bytes(from)?;
        value = if i == 3 { value << 4 | u32::from(byte) & 15 } else { value << 8 | u32::from(byte) };
    }
    Ok(value)
}

/// A number of CRAM of up to 64 bits (LTF-8), passed over.
fn long(from: &mut impl Read) -> io::Result<()> {
    let [first] = bytes(from)?;
    for _ in 0..first.leading_ones() {
        bytes::<1>(from)?;
    }
    Ok(())
}

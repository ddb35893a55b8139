//! SAM headers, read, checked and written by a library in which every function is proved to meet its contract. The proved code is the archive that
//! `./archive` builds; this crate is its face in Rust: outputs are vectors of the right size, a refusal is an error in words, and nothing panics.
//!
//! ```
//! use sam_header::Header;
//!
//! let text = b"@SQ\tLN:0248956422\tSN:chr1\n@PG\tID:bwa\n@PG\tID:sort\tPP:bwa\n";
//! let header = Header::read(text)?;
//! let chr1 = header.references().next().unwrap();
//! assert_eq!((chr1.name(), chr1.length()), (&b"chr1"[..], 248956422));
//! assert_eq!(header.tidy()?, b"@SQ\tSN:chr1\tLN:248956422\n@PG\tID:bwa\n@PG\tID:sort\tPP:bwa\n");
//! # Ok::<(), sam_header::Refusal>(())
//! ```
//!
//! # What is proved, and what is not
//! Reading, checking, tidying, the program chains, names, adding, pruning, the binary header, faults, seals and merges are calls of the proved
//! library ([`calls`]). A [`Header`] is made only by such a call, so that its catalogue is this text's; its iterators walk that catalogue and are
//! plain Rust, which the tests compare with the proved calls. Cutting a header out of a file asks the proved library where it ends ([`read_header`]);
//! decompression is flate2's.
//!
//! # Stack
//! For texts of up to 256 KiB no call takes more than 80 KiB, [`faults`] 136 and [`judge_merge`] 208. For longer texts reading, checking, tidying and carrying on take their
//! work area from the heap and no more than 64 KiB of stack; the others up to 912 KiB, which every thread of the standard library has.
//!
//! # With noodles
//! noodles keeps the alignment records; this crate judges and writes the header in front of them. The tidy text is the bridge: the parser of noodles-sam
//! 0.93.0 takes every tidy text and holds the same records (`oracle/compare` asks it about millions).
//!
//! ```ignore
//! let found = sam_header::read_header(File::open(path)?)?;        // SAM, BAM, BGZF, CRAM
//! let tidy = found.tidy()?;                                       // refused here, with a number and a line
//! let header: noodles_sam::Header = std::str::from_utf8(&tidy)?.parse()?;
//! ```
//!
//! What it gives back, as text, goes through [`Header::read`] again.
//!
//! # Features
//! None is on by itself, and without them no package is needed. `flate2`: gzip, BGZF, BAM and CRAM in [`read_header`]. `serde`: refusals, seals and
//! chains can be serialized.
#![deny(unsafe_code)]
#![warn(missing_docs)]
mod header;
mod input;
mod refusal;
mod texts;

pub mod calls;

pub use header::{Chains, Comment, Header, HeaderLine, NamesAnswer, Program, ReadGroup, Record, Reference};
pub use input::{read_header, Form, Found};
pub use refusal::{LineNo, ProgramNo, Refusal};
pub use texts::{binary_in, binary_out, carry_on, faults, judge_merge, tidy};

/// The greatest number of bytes in a text.
pub const TEXT_LIMIT: usize = 16_777_216;
/// The greatest number of programs in a header.
pub const PROGRAM_LIMIT: usize = 1_024;

/// The kinds of records, by their numbers in the catalogue.
#[derive(Clone, Copy, Debug, Eq, Hash, PartialEq)]
#[cfg_attr(feature = "serde", derive(serde::Serialize, serde::Deserialize))]
pub enum Kind {
    /// `@HD`
    Header = 1,
    /// `@SQ`
    Reference = 2,
    /// `@RG`
    ReadGroup = 3,
    /// `@PG`
    Program = 4,
    /// `@CO`
    Comment = 5,
}

impl Kind {
    /// All of them, in the order of the tidy text.
    pub const ALL: [Kind; 5] = [Kind::Header, Kind::Reference, Kind::ReadGroup, Kind::Program, Kind::Comment];

    /// The two letters after the `@`.
    pub fn letters(self) -> &'static str {
        ["HD", "SQ", "RG", "PG", "CO"][self as usize - 1]
    }

    /// The kind with these two letters.
    pub fn from_letters(letters: &str) -> Option<Kind> {
        Kind::ALL.into_iter().find(|kind| kind.letters() == letters)
    }
}

/// A program in a table: its parent's ordinal, `u32::MAX` for a program without PP, and its depth, the parent links from it to its root.
#[derive(Clone, Copy, Debug, Default, Eq, PartialEq)]
#[cfg_attr(feature = "serde", derive(serde::Serialize, serde::Deserialize))]
#[repr(C)]
pub struct Node {
    /// The ordinal of the parent.
    pub parent: u32,
    /// The links up to the root.
    pub depth: u32,
}

impl Node {
    /// The parent, where there is one.
    pub fn parent(&self) -> Option<ProgramNo> {
        (self.parent != u32::MAX).then_some(ProgramNo(self.parent))
    }
}

/// How long a binary header is, from the front of its stream.
#[derive(Clone, Copy, Debug, Eq, PartialEq)]
pub enum BinaryLen {
    /// So many bytes.
    Whole(usize),
    /// It goes on: so many bytes are needed to say more.
    More(usize),
}

/// The texts of a merge.
#[derive(Clone, Copy, Debug, Eq, PartialEq)]
pub enum Which {
    /// The first header.
    A,
    /// The second header.
    B,
    /// What was made of both.
    Merged,
}

/// Why a merge is refused: one of its texts is, or they do not go together (30, 31 or 32).
#[derive(Clone, Copy, Debug, Eq, PartialEq)]
pub enum Unmerged {
    /// One text's own refusal.
    Text(Which, Refusal),
    /// A refusal of the three together.
    Together(Refusal),
}

impl std::fmt::Display for Unmerged {
    fn fmt(&self, f: &mut std::fmt::Formatter) -> std::fmt::Result {
        match self {
            Unmerged::Text(Which::A, refusal) => write!(f, "A: {refusal}"),
            Unmerged::Text(Which::B, refusal) => write!(f, "B: {refusal}"),
            Unmerged::Text(Which::Merged, refusal) => write!(f, "the merged header: {refusal}"),
            Unmerged::Together(refusal) => refusal.fmt(f),
        }
    }
}

impl std::error::Error for Unmerged {}

/// The SHA-256 of a header's tidy text: two headers with equal records have one seal, and an edit that keeps every length gets another. Shown in hex.
#[derive(Clone, Copy, Debug, Eq, Hash, PartialEq)]
#[cfg_attr(feature = "serde", derive(serde::Serialize, serde::Deserialize))]
pub struct Seal(pub [u8; 32]);

impl std::fmt::Display for Seal {
    fn fmt(&self, f: &mut std::fmt::Formatter) -> std::fmt::Result {
        self.0.iter().try_for_each(|byte| write!(f, "{byte:02x}"))
    }
}

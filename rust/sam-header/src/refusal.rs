use std::fmt;

/// A line of the text. The number counts from 0, as the library does; it is shown from 1, as people count.
#[derive(Clone, Copy, Debug, Eq, Hash, Ord, PartialEq, PartialOrd)]
#[cfg_attr(feature = "serde", derive(serde::Serialize, serde::Deserialize))]
pub struct LineNo(pub u32);

impl fmt::Display for LineNo {
    fn fmt(&self, f: &mut fmt::Formatter) -> fmt::Result {
        (u64::from(self.0) + 1).fmt(f)
    }
}

/// A program's ordinal: only programs count, from 0. It is never a line.
#[derive(Clone, Copy, Debug, Eq, Hash, Ord, PartialEq, PartialOrd)]
#[cfg_attr(feature = "serde", derive(serde::Serialize, serde::Deserialize))]
pub struct ProgramNo(pub u32);

/// Why a call refuses: a number that docs/REFUSALS.md explains, and the line that it is about where there is one. A refusal changes nothing.
///
/// ```
/// let refusal = sam_header::tidy(b"@CO\tx\n@SQ\tSN:chr1\tLN:8x\n").unwrap_err();
/// assert_eq!((refusal.number, refusal.line), (6, Some(sam_header::LineNo(1))));
/// assert_eq!(refusal.name(), "no-tab");
/// assert_eq!(refusal.to_string(), "line 2: another byte stands where a tab is due (refusal 6)");
/// ```
#[derive(Clone, Copy, Debug, Eq, Hash, PartialEq)]
#[cfg_attr(feature = "serde", derive(serde::Serialize, serde::Deserialize))]
#[non_exhaustive]
pub struct Refusal {
    /// The number.
    pub number: u8,
    /// The line that it is about.
    pub line: Option<LineNo>,
}

impl Refusal {
    /// Reading's refusals and 24 are about a line.
    pub(crate) fn given(number: u8, line: u32) -> Refusal {
        Refusal { number, line: matches!(number, 2..=19 | 24 | 27).then_some(LineNo(line)) }
    }

    pub(crate) fn on_line([line, number]: [u32; 2]) -> Refusal {
        Refusal { number: number as u8, line: Some(LineNo(line)) }
    }

    /// The refusal with a number, to explain it; None if there is none.
    pub fn from_number(number: u8) -> Option<Refusal> {
        (number > 0 && usize::from(number) < WORDS.len()).then_some(Refusal { number, line: None })
    }

    /// The name that the header file has for the number, in small letters: `zero-length` for 13, which is `SAM_HEADER_ZERO_LENGTH` in C.
    pub fn name(&self) -> &'static str {
        self.row().0
    }

    /// What is wrong, in words.
    pub fn meaning(&self) -> &'static str {
        self.row().1
    }

    /// What can be done about it.
    pub fn hint(&self) -> &'static str {
        self.row().2
    }

    fn row(&self) -> &'static (&'static str, &'static str, &'static str) {
        WORDS.get(usize::from(self.number)).unwrap_or(&WORDS[0])
    }
}

impl fmt::Display for Refusal {
    fn fmt(&self, f: &mut fmt::Formatter) -> fmt::Result {
        if let Some(line) = self.line {
            write!(f, "line {line}: ")?;
        }
        write!(f, "{} (refusal {})", self.meaning(), self.number)
    }
}

impl std::error::Error for Refusal {}

/// By number: the name, what is wrong, what to do.
#[rustfmt::skip]
const WORDS: [(&str, &str, &str); 34] = [
    ("unknown", "no refusal has this number", ""),
    ("too-long", "the header has more than 16,777,216 bytes", "check that the alignment records were cut off"),
    ("break", "a line break stands inside the line", "a CR may stand only just before an LF: convert the line ends"),
    ("no-at", "the line does not start with @", "an empty line, or something else after the header: cut there"),
    ("no-kind", "nothing stands after the @", "the line is cut off"),
    ("unknown-kind", "the kind is none of HD, SQ, RG, PG, CO", "a record of another format, or one that is cut off"),
    ("no-tab", "another byte stands where a tab is due", "spaces in place of tabs, or a length such as LN:8x"),
    ("no-comment", "a comment ends before its tab", "a comment needs a tab, also an empty one"),
    ("bad-tag", "a tag is a letter and then a letter or digit", "a tab at the line's end is the usual cause"),
    ("no-colon", "the colon after the tag is missing", "a field is TAG:VALUE"),
    ("bad-value", "the value is empty or holds a byte that may not stand there", "accents stand only in DS and CL, in UTF-8; control characters nowhere"),
    ("bad-version", "VN is no version", "write a version such as 1.6"),
    ("bad-length", "LN is no length", "a length is a decimal number without a sign"),
    ("zero-length", "LN is 0", "take the length from the FASTA index (.fai) or the dictionary (.dict)"),
    ("repeated-tag", "a tag stands twice in the line, and the header's version is 1.6 or more", "remove one of the two"),
    ("no-key", "VN of HD, SN of SQ, or ID of RG or PG is missing", "add it"),
    ("no-length", "LN is missing", "take the length from the FASTA index (.fai) or the dictionary (.dict)"),
    ("late-hd", "an HD stands after another line", "two headers were joined: keep the first HD"),
    ("used-key", "the name or ID is used already", "two headers were joined, or a step ran twice"),
    ("programs", "the header has more than 1,024 programs", "`samheader tidy --keep-going` writes the header without the programs from the 1,025th on"),
    ("short-output", "an output is too short for the answer", "lend more room"),
    ("stale", "the catalogue is not this text's", "the text changed since it was read: read it again, and plan anew"),
    ("dangling", "PP names no program", "a program was cut out of its chain: repair the PP"),
    ("cycle", "the program comes back to itself by its PPs", "repair the PPs"),
    ("unwritable", "the reference name may be read but not written", "rename the reference: the SAM specification's rule for names"),
    ("no-record", "there is no such record", "ordinals count from 0 within a kind"),
    ("bad-given", "the ID or the fields that are to be added are not in form", "each field is TAG:VALUE, with no ID among them and no tag twice"),
    ("long-length", "LN is above 2,147,483,647", "the SAM specification stops there"),
    ("bad-binary", "the bytes are no uncompressed binary header", "the file was cut, or is no BAM"),
    ("other-list", "the reference list of the binary header is not the SQ list of its text",
        "one of the two was changed without the other: make the file anew"),
    ("merged-sq", "the merged references are not A's followed by those that B alone has, or a shared name has two lengths",
        "merge anew in A's order, or do not merge headers of two assemblies"),
    ("merged-lists", "a list has not one ordinal for each program, or a merged program is in neither list",
        "`samtools merge` adds a program of its own: ask it for --no-PG"),
    ("merged-image", "a merged program has other fields than its original, or another parent",
        "the tool changed programs or their chains: do not plan from it"),
    ("other-seal", "the seal is another header's", "the header was edited since the seal was made: plan anew"),
];

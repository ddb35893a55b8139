//! Differences that documents 01 and 02 make on purpose. Each is recognised from the text and from both answers; whatever is not
//! recognised here is reported as unlisted.

use library::Refusal;
use oracle::{LENIENT, LONGEST, PROGRAMS, Refused, inputs, spans};

#[derive(Clone, Copy, Debug, Eq, Ord, PartialEq, PartialOrd)]
pub enum Kind {
    Size,
    CommentReturn,
    OtherReturn,
    LengthPlus,
    LengthZero,
    LengthLong,
    VersionSign,
    RepeatSign,
    RepeatDefault,
    Programs,
    Dangling,
    CycleFirst,
    Endless,
    AddNobody,
    AddPrograms,
    CarryDefault,
    CarryLine,
    Wide,
    Lenient,
}

pub const ALL: [(Kind, &str); 19] = [
    (Kind::Size, "a text, or one to be written, over 16,777,216 bytes: 1; the crate has no limit"),
    (Kind::CommentReturn, "a CR inside a comment: 2; the crate keeps it"),
    (Kind::OtherReturn, "a CR inside another line: 2; the crate has another error for it"),
    (Kind::LengthPlus, "LN with a plus sign: 12; the crate reads `+8` as 8"),
    (Kind::LengthZero, "LN that starts with something else than a digit: 12; the crate says zero (13)"),
    (Kind::LengthLong, "LN above 2,147,483,647, in 64 bits: 27; the crate takes it"),
    (Kind::VersionSign, "HD's VN with a sign: 11; the crate reads `+1.6` as 1.6"),
    (Kind::RepeatSign, "a signed first VN gives the repeat rule no version; the crate reads it there too (14)"),
    (Kind::RepeatDefault, "a tag repeated where line 0 gives no readable version: its last value stands; the crate says 14"),
    (Kind::Programs, "a 1,025th program: 19; the crate has no limit"),
    (Kind::Dangling, "leaves or add where a PP names no program: 22; the crate panics"),
    (Kind::CycleFirst, "leaves or add where a PP names no program, after a cycle: 22; the crate says that there is a cycle"),
    (Kind::Endless, "leaves or add where a chain leads into a loop: 23, or 22 if a PP names no program; the crate never ends"),
    (Kind::AddNobody, "add with a PP that names no program: 22; the crate does not look for it"),
    (Kind::AddPrograms, "add past 1,024 programs: 19; the crate has no limit"),
    (Kind::CarryDefault, "carrying on while no version is announced: repeated tags are allowed; the crate skips the line"),
    (Kind::CarryLine, "carrying on past a line that is refused by a kind above: it is skipped; the crate keeps it, or has another number"),
    (Kind::Wide, "DS of SQ, RG or PG, or CL of PG in UTF-8: taken; the crate's stand-in has document 01's rule and says 10"),
    (Kind::Lenient, "a tag or value outside document 01's form: 8 or 10; taken by the lenient build's stand-ins"),
];

fn sign(b: Option<&u8>) -> bool {
    matches!(b, Some(b'+' | b'-'))
}

/// The values of the line's pieces that start with this tag and a colon.
fn values<'a>(line: &'a [u8], tag: &'static [u8]) -> impl Iterator<Item = &'a [u8]> {
    line.split(|&b| b == b'\t').filter_map(move |p| p.strip_prefix(tag))
}

/// Whether a line has a value that document 02 allows and document 01 does not.
pub fn widened(line: &[u8]) -> bool {
    let tags: &[&'static [u8]] = match line.get(..4) {
        Some(b"@SQ\t" | b"@RG\t") => &[b"DS:"],
        Some(b"@PG\t") => &[b"DS:", b"CL:"],
        _ => &[],
    };
    let wide = |v: &[u8]| str::from_utf8(v).is_ok_and(|s| !s.is_ascii() && s.chars().all(|c| c >= ' ' && c != '\x7f'));
    tags.iter().any(|&tag| values(line, tag).any(wide))
}

fn signed_version(v: &[u8]) -> bool {
    let dot = v.iter().position(|&b| b == b'.');
    sign(v.first()) || dot.is_some_and(|i| sign(v.get(i + 1)))
}

/// Whether a line may be one that both sides take otherwise: a CR, a sign in a version, a length that is no number of document 02's.
pub fn is_odd(line: &[u8]) -> bool {
    let bare = |v: &[u8]| !v.first().is_some_and(u8::is_ascii_digit);
    line.contains(&b'\r')
        || line.starts_with(b"@HD\t") && values(line, b"VN:").any(signed_version)
        || line.starts_with(b"@SQ\t") && values(line, b"LN:").any(|v| bare(v) || inputs::is_long_length(v))
}

/// The kind of a difference in reading where the crate's stand-in refuses a value that the library takes and goes on behind.
pub fn taken(text: &[u8], ours: Option<Refusal>, theirs: &Refused) -> Option<Kind> {
    let (a, b) = spans(text).nth(theirs.line)?;
    let further = ours.is_none_or(|r| theirs.line <= r.line as usize);
    (theirs.number == 10 && further && widened(&text[a..b])).then_some(Kind::Wide)
}

/// The kind of a difference in reading: the library refuses, and the crate does not or has another refusal.
pub fn reading(text: &[u8], ours: Refusal, theirs: Option<&Refused>) -> Option<Kind> {
    if ours.number == 1 {
        return (ours.line == 0 && text.len() > LONGEST).then_some(Kind::Size);
    }
    let at = ours.line as usize;
    let (a, b) = spans(text).nth(at)?;
    let line = &text[a..b];
    // The crate went at least as far; on this very line it may have another number.
    if theirs.is_some_and(|t| t.line < at) {
        return None;
    }
    let here = theirs.filter(|t| t.line == at).map(|t| t.number);
    match ours.number {
        2 if !line.contains(&b'\r') => None,
        2 if line.starts_with(b"@CO\t") => here.is_none().then_some(Kind::CommentReturn),
        2 => (here.is_some() || LENIENT).then_some(Kind::OtherReturn),
        6 | 8..=11 if here == Some(14) => {
            let first = values(line, b"VN:").next();
            (at == 0 && line.starts_with(b"@HD\t") && first.is_some_and(signed_version)).then_some(Kind::RepeatSign)
        }
        11 => (line.starts_with(b"@HD\t") && values(line, b"VN:").any(signed_version)).then_some(Kind::VersionSign),
        12 if line.starts_with(b"@SQ\t") => {
            if values(line, b"LN:").any(|v| v.first() == Some(&b'+')) {
                Some(Kind::LengthPlus)
            } else {
                let bare = values(line, b"LN:").any(|v| !v.first().is_some_and(u8::is_ascii_digit));
                (bare && here == Some(13)).then_some(Kind::LengthZero)
            }
        }
        27 => (line.starts_with(b"@SQ\t") && values(line, b"LN:").any(inputs::is_long_length)).then_some(Kind::LengthLong),
        19 => {
            let programs = spans(text).take(at + 1).filter(|&(a, b)| text[a..b].starts_with(b"@PG")).count();
            (programs == PROGRAMS + 1 && line.starts_with(b"@PG")).then_some(Kind::Programs)
        }
        8 | 10 if LENIENT => Some(Kind::Lenient),
        _ => None,
    }
}

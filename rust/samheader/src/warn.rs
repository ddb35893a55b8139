//! What the SAM specification says of values, and document 01 does not judge. Nothing here is proved.
use crate::output::shown;
use sam_header::{Header, LineNo, Record};

pub struct Warning {
    pub line: LineNo,
    pub says: String,
}

const ORDERS: &[&str] = &["unknown", "unsorted", "queryname", "coordinate"];
const GROUPS: &[&str] = &["none", "query", "reference"];
const TOPOLOGIES: &[&str] = &["linear", "circular"];
const PLATFORMS: &[&str] = &[
    "CAPILLARY",
    "DNBSEQ",
    "ELEMENT",
    "HELICOS",
    "ILLUMINA",
    "IONTORRENT",
    "LS454",
    "ONT",
    "PACBIO",
    "SINGULAR",
    "SOLID",
    "ULTIMA",
];

/// The warnings for a header that reading accepts; none for another.
pub fn warnings(text: &[u8]) -> Vec<Warning> {
    let Ok(header) = Header::read(text) else { return Vec::new() };
    let mut found = Vec::new();
    let mut warn = |record: &Record, says: String| found.push(Warning { line: record.line(), says });
    if let Some(hd) = header.header() {
        one_of(&hd, b"SO", ORDERS, &mut warn);
        one_of(&hd, b"GO", GROUPS, &mut warn);
        if let Some(value) = hd.get(b"SS").filter(|value| !is_sub_sort(value)) {
            warn(&hd, format!("SS is {}, and no sort order with a colon and its sub-sort", shown(value)));
        }
    }
    for reference in header.references() {
        one_of(&reference, b"TP", TOPOLOGIES, &mut warn);
        if let Some(value) = reference.get(b"M5").filter(|value| value.len() != 32 || !value.iter().all(u8::is_ascii_hexdigit))
        {
            warn(&reference, format!("M5 is {}, and not 32 hexadecimal digits", shown(value)));
        }
    }
    for group in header.read_groups() {
        one_of(&group, b"PL", PLATFORMS, &mut warn);
        if let Some(value) = group.get(b"DT").filter(|value| !is_date(value)) {
            warn(&group, format!("DT is {}, and no ISO 8601 date", shown(value)));
        }
        if group.get(b"SM").is_none() {
            warn(&group, "the read group has no SM, which many tools ask for".into());
        }
    }
    found.sort_by_key(|warning| warning.line);
    found
}

fn one_of(record: &Record, tag: &[u8; 2], allowed: &[&str], warn: &mut impl FnMut(&Record, String)) {
    if let Some(value) = record.get(tag).filter(|value| !allowed.iter().any(|name| name.as_bytes() == *value)) {
        warn(record, format!("{} is {}, and none of {}", shown(tag), shown(value), allowed.join(", ")));
    }
}

fn is_sub_sort(value: &[u8]) -> bool {
    let mut parts = value.split(|&b| b == b':');
    let order = parts.next().unwrap_or_default();
    let name = |part: &[u8]| !part.is_empty() && part.iter().all(|b| b.is_ascii_alphanumeric() || matches!(b, b'_' | b'-'));
    let rest: Vec<_> = parts.collect();
    [&b"coordinate"[..], b"queryname", b"unsorted"].contains(&order) && !rest.is_empty() && rest.into_iter().all(name)
}

/// The front of an ISO 8601 date: four digits, two, two, with hyphens or without; a time may follow.
fn is_date(value: &[u8]) -> bool {
    let day = value.split(|&b| b == b'T').next().unwrap_or_default();
    let digits: Vec<u8> = day.iter().copied().filter(|&b| b != b'-').collect();
    let number = |part: &[u8]| part.iter().fold(0, |n, b| 10 * n + u32::from(b - b'0'));
    let in_place = day.len() == 8 || day.len() == 10 && day[4] == b'-' && day[7] == b'-';
    in_place
        && digits.len() == 8
        && digits.iter().all(u8::is_ascii_digit)
        && (1..=12).contains(&number(&digits[4..6]))
        && (1..=31).contains(&number(&digits[6..]))
}

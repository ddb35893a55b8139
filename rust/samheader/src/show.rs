//! Records for people and for scripts.
use crate::output::{put, Stop};
use crate::{header, load, Done};
use sam_header::{Header, Kind, Record};
use serde_json::{json, Map, Value};
use std::path::{Path, PathBuf};

/// A kind by its letters, or by what people call it.
pub fn kind(word: &str) -> Result<Kind, String> {
    let plain = word.trim_start_matches('@').to_ascii_uppercase();
    let letters = match plain.as_str() {
        "HEADER" => "HD",
        "REFS" | "REFERENCES" => "SQ",
        "READGROUPS" | "GROUPS" => "RG",
        "PROGRAMS" => "PG",
        "COMMENTS" => "CO",
        other => other,
    };
    Kind::from_letters(letters).ok_or_else(|| "a kind is hd, sq or refs, rg, pg or co".into())
}

fn text(bytes: &[u8]) -> String {
    String::from_utf8_lossy(bytes).into_owned()
}

/// VN of an HD as it is written tidy, LN of an SQ.
fn number(header: &Header, record: &Record) -> Option<String> {
    match record.kind() {
        Kind::Header => header.header().map(|hd| hd.version()).map(|(major, minor)| format!("{major}.{minor}")),
        Kind::Reference => header.reference(record.ordinal()).map(|reference| reference.length().to_string()),
        _ => None,
    }
}

/// A record in JSON: its line, from 1, its keys and fields by their tags, in order.
fn object(header: &Header, record: &Record) -> Value {
    let mut all = Map::new();
    all.insert("line".into(), (u64::from(record.line().0) + 1).into());
    let number = number(header, record);
    match record.kind() {
        Kind::Header => drop(all.insert("VN".into(), number.into())),
        Kind::Reference => {
            all.insert("SN".into(), text(record.key()).into());
            all.insert("LN".into(), number.and_then(|n| n.parse::<u32>().ok()).into());
        }
        Kind::Comment => drop(all.insert("comment".into(), text(record.key()).into())),
        _ => drop(all.insert("ID".into(), text(record.key()).into())),
    }
    all.extend(record.fields().map(|(tag, value)| (text(&tag), text(value).into())));
    Value::Object(all)
}

/// The key, the number where there is one, and the fields.
fn cells(header: &Header, record: &Record) -> Vec<Vec<u8>> {
    let key = if record.kind() == Kind::Header { None } else { Some(record.key().to_vec()) };
    let fields = record.fields().map(|(tag, value)| [&tag[..], b":", value].concat());
    key.into_iter().chain(number(header, record).map(String::into_bytes)).chain(fields).collect()
}

pub fn show(words: &[PathBuf], json: bool) -> Done {
    let (only, file) = match words {
        [] => (None, Path::new("-")),
        [word] => match kind(&word.to_string_lossy()) {
            Ok(only) => (Some(only), Path::new("-")),
            Err(_) => (None, word.as_path()),
        },
        [word, file, ..] => {
            (Some(kind(&word.to_string_lossy()).map_err(|why| Stop::Usage(format!("samheader: {why}\n")))?), file.as_path())
        }
    };
    let found = load(file)?;
    let header = header(file, &found)?;
    let objects = |kind| header.records(kind).map(|record| object(&header, &record)).collect::<Vec<_>>();
    let out = match (json, only) {
        (true, Some(only)) => format!("{}\n", Value::Array(objects(only))).into_bytes(),
        (true, None) => {
            let all = Kind::ALL.map(|kind| (kind.letters().to_string(), json!(objects(kind))));
            format!("{}\n", Value::Object(all.into_iter().collect())).into_bytes()
        }
        (false, Some(Kind::Reference)) => {
            rows(header.records(Kind::Reference).map(|record| cells(&header, &record)[..2].to_vec()))
        }
        (false, Some(only)) => rows(header.records(only).map(|record| cells(&header, &record))),
        (false, None) => table(&header),
    };
    put(&out, None).map(|()| true)
}

/// Cells with tabs between.
fn rows(records: impl Iterator<Item = Vec<Vec<u8>>>) -> Vec<u8> {
    records.flat_map(|cells| [cells.join(&b'\t'), b"\n".to_vec()].concat()).collect()
}

/// All records with their lines: kind by kind, the keys below each other.
fn table(header: &Header) -> Vec<u8> {
    let mut out = Vec::new();
    for kind in Kind::ALL {
        let all: Vec<_> = header.records(kind).map(|record| (record.line(), cells(header, &record))).collect();
        let width = |i: usize| all.iter().filter_map(|(_, cells)| cells.get(i)).map(Vec::len).max().unwrap_or(0).min(40);
        let widths = [width(0), width(1)];
        for (line, cells) in &all {
            let mut row = format!("{line:>6}  {}", kind.letters());
            for (i, cell) in cells.iter().enumerate() {
                let width = if i + 1 < cells.len() && kind != Kind::Comment { widths.get(i).copied().unwrap_or(0) } else { 0 };
                row += &format!("  {:width$}", text(cell));
            }
            out.extend(row.bytes().chain([b'\n']));
        }
    }
    out
}

pub fn get(kind: Kind, name: &str, words: &[PathBuf]) -> Done {
    let is_tag = |word: &PathBuf| matches!(word.as_os_str().as_encoded_bytes(), [a, b] if a.is_ascii_alphabetic() && b.is_ascii_alphanumeric());
    let (tag, file) = match words {
        [] => (None, Path::new("-")),
        [tag] if is_tag(tag) => (Some(tag), Path::new("-")),
        [file] => (None, file.as_path()),
        [tag, file, ..] if is_tag(tag) => (Some(tag), file.as_path()),
        [tag, ..] => return Err(Stop::on(tag, "a tag is a letter and then a letter or digit")),
    };
    let found = load(file)?;
    let header = header(file, &found)?;
    let by_ordinal = || name.parse().ok().and_then(|ordinal| header.get(kind, ordinal));
    let missing = |what: String| Stop::Refused(format!("{}: {what}\n", file.display()));
    let record = header.find(kind, name.as_bytes()).or_else(by_ordinal);
    let record = record.ok_or_else(|| missing(format!("no {} is {name}", kind.letters())))?;
    let mut out = match tag.map(|tag| tag.as_os_str().as_encoded_bytes()) {
        None => crate::fault::Lines::of(header.text()).get(record.line().0).to_vec(),
        Some(tag) => {
            value(&header, &record, tag).ok_or_else(|| missing(format!("{} {name} has no {}", kind.letters(), text(tag))))?
        }
    };
    out.push(b'\n');
    put(&out, None).map(|()| true)
}

fn value(header: &Header, record: &Record, tag: &[u8]) -> Option<Vec<u8>> {
    match (record.kind(), tag) {
        (Kind::Header, b"VN") | (Kind::Reference, b"LN") => number(header, record).map(String::into_bytes),
        (Kind::Reference, b"SN") | (Kind::ReadGroup | Kind::Program, b"ID") => Some(record.key().to_vec()),
        _ => record.get(tag.try_into().ok()?).map(<[u8]>::to_vec),
    }
}

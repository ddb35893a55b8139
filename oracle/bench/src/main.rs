//! bench: the library's calls timed: beside the crate on headers as tools write them, and alone on texts made to be slow.
//!
//! bench [--rounds N] [FOLDER]          the first table
//! bench rows WORD                      its rows that have this word in their names
//! bench worst [WORD]                   the second table (`worst.rs`), or its rows that have this word in their names
//! bench names [--rounds N] [FOLDER]    the third table (`names.rs`), where the archive has the call
//! bench carry_on [--rounds N]          the fourth table (`carried.rs`), where the archive has the call
//! bench leaves_by_table [--rounds N]   the fifth table (`table.rs`), where the archive has the call
//! bench prune [--rounds N]             the sixth table (`pruned.rs`), where the archive has the call
//! bench judge_merge [--rounds N]       the seventh table (`merged.rs`), where the archive has the call
//! bench read_with [--rounds N]         the eighth table (`area.rs`), where the archive has the call
//! bench lens [--rounds N]              the ninth table (`lens.rs`), where the archive has text_len and binary_len
//! bench seal [--rounds N] [FOLDER]     seals (`sealed.rs`), where the archive has the calls
//! bench references [--rounds N]        the ninth table (`found.rs`), where the archive has references and find
//! bench faults [--rounds N]            faults (`faulty.rs`), where the archive has the call
//! bench lines [--rounds N]             ns for each line against the number of lines (`lines.rs`)
//! bench first [--rounds N]             the first reading in a fresh process or thread, and the second (`first.rs`)
//! bench all [--rounds N] [FOLDER]      every table above, one after the other
//!
//! FOLDER has real headers, `*.sam` (default ../shared/headers beside the repository).
//!
//! A row of the first table is a text: its name and bytes, then library/crate for each call, library/htslib for reading and tidying (`-` where
//! htslib is not there), the library's time for a line of reading and of tidying in ns, and how often all ran. All sides take the same bytes in the
//! same process, one after the other, and the best time of each counts: of N times (default 100), of fewer where ten seconds are over, but of three
//! at least.
//!
//!   read, check, count    against the crate's whole-text parser; here and below dropping its header is not timed
//!   leaves                against its parser and its leaves
//!   add                   against its parser, its add and its writer, into a buffer that is reused; its fields are read before
//!   tidy                  against its parser and its writer
//!   read/hts, tidy/hts    against sam_hdr_parse of htslib, which fills its tables, and against that and sam_hdr_str, which writes the lines again as they
//!                         were and in their order, HD first
//!
//! A call that the library refuses is not timed: the refusal's number stands there in brackets. The library's outputs are reused
//! and not cleared, and hold the bytes that the crate wrote.
//!
//!   N SQ, numbered        an HD and SQ lines of five fields, the names `chrUn_00012`
//!   N SQ, random          with names of twelve letters and digits
//!   N SQ, assembler       with names as `NODE_12_length_4711_cov_9.3`
//!   200000 short SQ       with SN and LN alone
//!   20000 SQ, names of N  the same, with names of as many letters and digits
//!   20000 RG              of five fields
//!   1024 chained PG       after 20,000 SQ of five fields; one more may not be added (19)
//!   500 PG, long CL       with command lines of 400 bytes
//!   500 PG, accented CL   the same with accents, as many bytes; the crate, whose stand-in takes none, is given the row before

#[cfg(feature = "work")]
mod area;
mod calls;
#[cfg(feature = "carry_on")]
mod carried;
#[cfg(feature = "faults")]
mod faulty;
mod first;
#[cfg(feature = "found")]
mod found;
mod htslib;
#[cfg(feature = "lens")]
mod lens;
mod lines;
#[cfg(feature = "judge_merge")]
mod merged;
#[cfg(feature = "names")]
mod names;
#[cfg(feature = "prune")]
mod pruned;
#[cfg(feature = "seal")]
mod sealed;
#[cfg(feature = "table")]
mod table;
mod texts;
mod worst;

use std::{
    hint::black_box,
    path::Path,
    process::{Command, ExitCode},
    time::{Duration, Instant},
};

use calls::{CALLS, FIELDS, PREFIX, Room, timed};
use noodles_sam::{
    Header,
    header::record::value::{Map, map::Program},
    io::writer::write_header,
};

/// Where real headers stand if no folder is given. This file is compiled in target/oracle.
const HEADERS: &str = concat!(env!("CARGO_MANIFEST_DIR"), "/../../../../shared/headers");

/// No round begins after this, but three are run at least.
const ENOUGH: Duration = Duration::from_secs(10);

/// What the crate is given and writes.
struct Theirs {
    fields: Map<Program>,
    written: Vec<u8>,
}

impl Theirs {
    fn new() -> Self {
        Self { fields: oracle::program_fields(FIELDS).expect("in form"), written: Vec::new() }
    }

    fn parse(&mut self, text: &str) -> Header {
        text.parse().expect("accepted by the crate")
    }

    fn leaves(&mut self, text: &str) -> Header {
        let header = self.parse(text);
        black_box(header.programs().leaves().expect("no cycle").count());
        header
    }

    fn add(&mut self, text: &str) -> Header {
        let mut header = self.parse(text);
        header.programs_mut().add(PREFIX, self.fields.clone()).expect("added by the crate");
        self.write(header)
    }

    fn tidy(&mut self, text: &str) -> Header {
        let header = self.parse(text);
        self.write(header)
    }

    fn write(&mut self, header: Header) -> Header {
        self.written.clear();
        write_header(&mut self.written, &header).expect("written by the crate");
        header
    }
}

/// What the crate does for each of CALLS, and whether it writes a text.
const CRATE: [(fn(&mut Theirs, &str) -> Header, bool); CALLS.len()] = [
    (Theirs::parse, false),
    (Theirs::parse, false),
    (Theirs::parse, false),
    (Theirs::leaves, false),
    (Theirs::add, true),
    (Theirs::tidy, true),
];

/// Times the library on a text, and the crate on the same or on one that stands for it.
fn row(name: &str, bytes: &[u8], given: &[u8], rounds: usize) {
    let Ok(text) = str::from_utf8(given) else {
        return println!("{name}: not UTF-8, which the crate's whole-text parser needs");
    };
    let mut room = Room::new();
    let mut theirs = Theirs::new();
    let first = CALLS.map(|(_, ours)| ours(bytes, &mut room));
    if let Err(r) = first[0] {
        return println!("{name}: refused {} line {}", r.number, r.line);
    }
    let mut best = [(Duration::MAX, Duration::MAX); CALLS.len()];
    let mut hts = [Duration::MAX; 2];
    let (mut ran, began) = (0, Instant::now());
    while ran < rounds && (ran < 3 || began.elapsed() < ENOUGH) {
        ran += 1;
        for (i, ((_, ours), (crates, writes))) in CALLS.into_iter().zip(CRATE).enumerate() {
            if first[i].is_err() {
                continue;
            }
            drop(timed(&mut best[i].1, || crates(&mut theirs, black_box(text))));
            let n = timed(&mut best[i].0, || ours(black_box(bytes), &mut room)).expect("accepted as before");
            assert!(!writes || bytes != given || room.out[..n as usize] == theirs.written[..], "both wrote the same");
        }
        for (best, theirs) in hts.iter_mut().zip([htslib::read, htslib::tidy]) {
            drop(timed(best, || theirs(black_box(bytes))));
        }
    }
    print!("{name:<27}{:>10}", bytes.len());
    for (answer, (ours, crates)) in first.iter().zip(best) {
        match answer {
            Ok(_) => print!("{:>9.2}", ours.as_secs_f64() / crates.as_secs_f64()),
            Err(r) => print!("{:>9}", format!("({})", r.number)),
        }
    }
    let [read, tidy] = [best[0].0, best[CALLS.len() - 1].0];
    let takes = htslib::tidy(bytes).is_some();
    for (ours, theirs) in [read, tidy].into_iter().zip(hts) {
        if takes { print!("{:>9.2}", ours.as_secs_f64() / theirs.as_secs_f64()) } else { print!("{:>9}", "-") }
    }
    let lines = oracle::spans(bytes).count().max(1) as f64;
    for ours in [read, tidy] {
        print!("{:>9.0}", ours.as_nanos() as f64 / lines);
    }
    println!("{ran:>9}");
}

/// The kind of processor, as the system tells it.
fn processor() -> String {
    let named = |all: String| {
        let line = all.lines().find(|l| l.to_lowercase().starts_with("model name"))?;
        Some(line.split_once(':')?.1.trim().to_string())
    };
    let told = std::fs::read_to_string("/proc/cpuinfo").ok().and_then(named);
    let asked = || Command::new("lscpu").output().ok().and_then(|o| named(String::from_utf8(o.stdout).ok()?));
    format!("{} ({})", told.or_else(asked).unwrap_or("a processor that is not told".into()), std::env::consts::ARCH)
}

/// The first table, or its rows that have a word in their names.
fn rows(rounds: usize, folder: &Path, word: &str) {
    print!("{:<27}{:>10}", "library/crate", "bytes");
    for (call, _) in CALLS {
        print!("{call:>9}");
    }
    println!("{:>9}{:>9}{:>9}{:>9}{:>9}", "read/hts", "tidy/hts", "ns read", "ns tidy", "best of");
    let asked = |name: &str, text: &[u8], given: &[u8]| {
        if name.contains(word) {
            row(name, text, given, rounds);
        }
    };
    texts::made(&mut |name, text| asked(name, text, text));
    let [plain, accented] = texts::commands(500);
    asked("500 PG, long CL", plain.as_bytes(), plain.as_bytes());
    asked("500 PG, accented CL", accented.as_bytes(), plain.as_bytes());
    texts::found(folder, &mut |name, text| asked(name, text, text));
}

/// What prints a table, of so many rounds and with the real headers of a folder.
type Table = fn(usize, &Path);

/// The table, if the archive has its calls.
macro_rules! where_built {
    ($feature:tt, $table:expr) => {{
        #[cfg(feature = $feature)]
        let table: Option<Table> = Some($table);
        #[cfg(not(feature = $feature))]
        let table: Option<Table> = None;
        table
    }};
}

/// Each table by its word.
const TABLES: [(&str, Option<Table>); 14] = [
    ("", Some(|rounds, folder| rows(rounds, folder, ""))),
    ("lines", Some(|rounds, _| lines::table(rounds))),
    ("first", Some(|rounds, _| first::table(rounds))),
    ("worst", Some(|_, _| worst::table(""))),
    ("names", where_built!("names", names::table)),
    ("carry_on", where_built!("carry_on", |rounds, _| carried::table(rounds))),
    ("faults", where_built!("faults", |rounds, _| faulty::table(rounds))),
    ("leaves_by_table", where_built!("table", |rounds, _| table::table(rounds))),
    ("prune", where_built!("prune", |rounds, _| pruned::table(rounds))),
    ("judge_merge", where_built!("judge_merge", |rounds, _| merged::table(rounds))),
    ("read_with", where_built!("work", |rounds, _| area::table(rounds))),
    ("lens", where_built!("lens", |rounds, _| lens::table(rounds))),
    ("seal", where_built!("seal", sealed::table)),
    ("references", where_built!("found", |rounds, _| found::table(rounds))),
];

fn main() -> ExitCode {
    let args: Vec<String> = std::env::args().skip(1).collect();
    let args: Vec<&str> = args.iter().map(String::as_str).collect();
    if let ["fresh", side, lines] = args[..] {
        first::fresh(side, lines.parse().expect("a number of lines"));
        return ExitCode::SUCCESS;
    }
    let named = |word: &str| word == "all" || TABLES.iter().any(|(name, _)| *name == word);
    let (call, rest) = match args[..] {
        [word, ref rest @ ..] if named(word) => (word, rest),
        _ => ("", &args[..]),
    };
    let (rounds, folder) = match *rest {
        [] => (100, HEADERS),
        ["rows", _] if call.is_empty() => (100, HEADERS),
        [_] if call == "worst" => (100, HEADERS),
        [folder] if !folder.starts_with('-') => (100, folder),
        ["--rounds", n] if n.parse::<usize>().is_ok() => (n.parse().unwrap(), HEADERS),
        ["--rounds", n, folder] if n.parse::<usize>().is_ok() => (n.parse().unwrap(), folder),
        _ => {
            eprintln!("usage: see the top of oracle/bench/src/main.rs");
            return ExitCode::from(2);
        }
    };
    println!("processor: {}\narchive: {}", processor(), library::LINKED.trim());
    println!("htslib: {}", htslib::version().unwrap_or("not there".into()));
    match *rest {
        ["rows", word] if call.is_empty() => {
            println!();
            rows(rounds, Path::new(folder), word);
        }
        [word] if call == "worst" => {
            println!();
            worst::table(word);
        }
        _ => {
            for (name, table) in TABLES.iter().filter(|(name, _)| call == "all" || call == *name) {
                let Some(table) = table else {
                    eprintln!("the archive has no sam_header_{name}");
                    return ExitCode::from(2);
                };
                println!();
                table(rounds, Path::new(folder));
            }
        }
    }
    ExitCode::SUCCESS
}

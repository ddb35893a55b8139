//! oracle: asks the crate.
//!
//! oracle show FILE                 parse FILE, print in readable form
//! oracle add FILE PREFIX FIELDS    FIELDS as TAG:VALUE pieces with tabs between (shell: $'PN:x\tVN:1'), may be empty
//! oracle                           one command to a line on stdin, byte strings in hex, `-` for the empty one:
//!     parse TEXT
//!     skip TEXT                    as the crate's parse_partial: goes on after a refused line
//!     add TEXT PREFIX FIELDS       FIELDS each with its leading tab, as in a PG line
//!     rawleaves TEXT               leaves without the guard: may panic (caught) or never end
//!   An answer is lines, the last of which is `end`. Byte strings are hex again.
//!     refused LINE NUMBER DEBUG    NUMBER: this error's number in document 01 (from the crate's error alone)
//!     accepted
//!     HD MAJOR MINOR | SQ NAME LENGTH | RG ID | PG ID | CO TEXT    in the order of the crate's tables
//!     F TAG VALUE                  a field of the record above
//!     roots I I ..                 ordinals in the programs table
//!     leaves I I ..                or: leaves cycle (the crate says so) | leaves panics | leaves endless (not asked)
//!     tidy TEXT                    or: tidy error DEBUG
use std::{
    fmt::Write as _,
    fs,
    io::{self, BufRead, Write as _},
    panic,
};

use oracle::{Header, Leaves};

type Enc = fn(&[u8]) -> String;

fn plain(b: &[u8]) -> String {
    b.escape_ascii().to_string()
}

fn list(o: &mut String, name: &str, items: &[usize]) {
    o.push_str(name);
    for i in items {
        write!(o, " {i}").unwrap();
    }
    o.push('\n');
}

fn fields<'a, K: AsRef<[u8; 2]> + 'a, V: AsRef<[u8]> + 'a>(o: &mut String, enc: Enc, it: impl Iterator<Item = (&'a K, &'a V)>) {
    for (t, v) in it {
        writeln!(o, "F {} {}", enc(t.as_ref()), enc(v.as_ref())).unwrap();
    }
}

fn show(o: &mut String, enc: Enc, header: &Header) {
    writeln!(o, "accepted").unwrap();
    if let Some(hd) = header.header() {
        writeln!(o, "HD {} {}", hd.version().major(), hd.version().minor()).unwrap();
        fields(o, enc, hd.other_fields().iter());
    }
    for (name, map) in header.reference_sequences() {
        writeln!(o, "SQ {} {}", enc(name), map.length()).unwrap();
        fields(o, enc, map.other_fields().iter());
    }
    for (id, map) in header.read_groups() {
        writeln!(o, "RG {}", enc(id)).unwrap();
        fields(o, enc, map.other_fields().iter());
    }
    for (id, map) in header.programs().as_ref() {
        writeln!(o, "PG {}", enc(id)).unwrap();
        fields(o, enc, map.other_fields().iter());
    }
    for comment in header.comments() {
        writeln!(o, "CO {}", enc(comment)).unwrap();
    }
    list(o, "roots", &oracle::roots(header));
    match oracle::leaves(header) {
        Leaves::List(l) => list(o, "leaves", &l),
        Leaves::Cycle => o.push_str("leaves cycle\n"),
        Leaves::Panics => o.push_str("leaves panics\n"),
        Leaves::Endless => o.push_str("leaves endless\n"),
    }
    match oracle::tidy(header) {
        Ok(text) => writeln!(o, "tidy {}", enc(&text)).unwrap(),
        Err(e) => writeln!(o, "tidy error {e:?}").unwrap(),
    }
}

fn parsed(o: &mut String, text: &[u8]) -> Option<Header> {
    match oracle::parse(text) {
        Ok(header) => Some(header),
        Err(r) => {
            writeln!(o, "refused {} {} {}", r.line, r.number, r.error).unwrap();
            None
        }
    }
}

fn do_skip(o: &mut String, enc: Enc, text: &[u8]) {
    let (skipped, header) = oracle::parse_rest(text);
    for r in skipped {
        writeln!(o, "skipped {} {} {}", r.line, r.number, r.error).unwrap();
    }
    show(o, enc, &header);
}

fn do_add(o: &mut String, enc: Enc, text: &[u8], prefix: &[u8], given: &[u8]) {
    let Some(header) = parsed(o, text) else { return };
    let map = match oracle::program_fields(given) {
        Ok(map) => map,
        Err(n) => return writeln!(o, "fields refused {n}").unwrap(),
    };
    if oracle::given_parent(&header, &map) == oracle::Parent::Nobody {
        o.push_str("note: the given PP names no program\n");
    }
    match oracle::leaves(&header) {
        Leaves::List(_) => match oracle::add(&header, prefix, map) {
            Some(header) => show(o, enc, &header),
            None => o.push_str("add error duplicate ID\n"),
        },
        other => writeln!(o, "add {}", format!("{other:?}").to_lowercase()).unwrap(),
    }
}

fn do_raw_leaves(o: &mut String, enc: Enc, text: &[u8]) {
    let Some(header) = parsed(o, text) else { return };
    match panic::catch_unwind(|| oracle::raw_leaves(&header)) {
        Ok(Ok(ids)) => {
            o.push_str("rawleaves");
            for id in ids {
                write!(o, " {}", enc(&id)).unwrap();
            }
            o.push('\n');
        }
        Ok(Err(e)) => writeln!(o, "rawleaves error {e:?}").unwrap(),
        Err(_) => o.push_str("rawleaves panic\n"),
    }
}

fn serve() -> io::Result<()> {
    panic::set_hook(Box::new(|_| {}));
    let unhex = |s: &str| oracle::inputs::unhex(s).expect("hex");
    let hex: Enc = oracle::inputs::hex;
    let mut stdout = io::BufWriter::new(io::stdout().lock());
    let mut o = String::new();
    for command in io::stdin().lock().lines() {
        let command = command?;
        let words: Vec<&str> = command.split(' ').collect();
        o.clear();
        match words[..] {
            ["parse", t] => {
                if let Some(header) = parsed(&mut o, &unhex(t)) {
                    show(&mut o, hex, &header);
                }
            }
            ["skip", t] => do_skip(&mut o, hex, &unhex(t)),
            ["add", t, p, f] => do_add(&mut o, hex, &unhex(t), &unhex(p), &unhex(f)),
            ["rawleaves", t] => do_raw_leaves(&mut o, hex, &unhex(t)),
            _ => o.push_str("bad command\n"),
        }
        o.push_str("end\n");
        stdout.write_all(o.as_bytes())?;
    }
    stdout.flush()
}

fn main() -> io::Result<()> {
    oracle::quiet();
    let args: Vec<String> = std::env::args().skip(1).collect();
    let args: Vec<&str> = args.iter().map(String::as_str).collect();
    let mut o = String::new();
    match args[..] {
        ["show", file] => {
            if let Some(header) = parsed(&mut o, &fs::read(file)?) {
                show(&mut o, plain, &header);
            }
        }
        ["add", file, prefix, given] => {
            let lead = if given.is_empty() { "" } else { "\t" };
            let given = [lead.as_bytes(), given.as_bytes()].concat();
            do_add(&mut o, plain, &fs::read(file)?, prefix.as_bytes(), &given)
        }
        [] => return serve(),
        _ => {
            eprintln!("usage: see the top of oracle/ask/src/main.rs");
            std::process::exit(2);
        }
    }
    print!("{o}");
    Ok(())
}

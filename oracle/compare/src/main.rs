//! compare: asks this library and the crate about the same texts and compares every answer.
//!
//! compare [--seed N] [--scale N] [--only PHASE] [--trace]    everything; --scale: N times as many random texts
//! compare case TEXT [LIST | PREFIX FIELDS]                   one case, in hex, `-` for no bytes; LIST: its names alone
//!
//! Prints the seed, the counts, each known kind of difference with the smallest input found, and each unlisted difference,
//! reduced. Exit status 1 if there is an unlisted one. With --trace each case is written to standard error before it is asked,
//! for a library that crashes.

#[cfg(feature = "work")]
mod area;
#[cfg(feature = "carry_on")]
mod carried;
mod check;
#[cfg(feature = "faults")]
mod faulty;
#[cfg(feature = "found")]
mod found;
#[cfg(feature = "add")]
mod grown;
mod known;
#[cfg(feature = "lens")]
mod lens;
#[cfg(feature = "judge_merge")]
mod merged;
#[cfg(feature = "prune")]
mod pruned;
mod reduce;
#[cfg(feature = "seal")]
mod sealed;
#[cfg(feature = "table")]
mod table;
mod tally;

use std::{collections::BTreeMap, process::ExitCode, time::Instant};

use check::{Case, Checker, Difference};
use known::Kind;
use oracle::inputs::{self, Rng, in_domain};

const PHASES: [&str; 15] = [
    "corners", "tokens", "fields", "bytes", "graphs", "random", "damaged", "programs", "boundaries", "keys", "names", "skipped", "merged", "lens", "faults",
];

/// Unlisted differences that are printed; the run ends at the last of them.
const MOST: usize = 8;

struct Run {
    checker: Checker,
    texts: u64,
    inside: u64,
    repeating: u64,
    known: BTreeMap<Kind, (u64, Case)>,
    unlisted: Vec<(Case, Difference)>,
    unlisted_count: u64,
    #[cfg(feature = "judge_merge")]
    merges: merged::Tally,
    #[cfg(feature = "lens")]
    lens: lens::Tally,
    trace: bool,
}

fn show(case: &Case) -> String {
    let plain = |b: &[u8]| {
        if b.len() > 600 { format!("{}.. ({} bytes)", b[..60].escape_ascii(), b.len()) } else { b.escape_ascii().to_string() }
    };
    let mut o = format!("\"{}\"", plain(&case.text));
    if let Some((p, f)) = &case.add {
        o += &format!(" prefix \"{}\" fields \"{}\"", plain(p), plain(f));
    }
    if let Some(list) = &case.list {
        o += &format!(" list \"{}\"", plain(list));
    }
    o
}

fn replay(case: &Case) -> String {
    let mut o = format!("case {}", inputs::hex(&case.text));
    if let Some((p, f)) = &case.add {
        o += &format!(" {} {}", inputs::hex(p), inputs::hex(f));
    }
    if let Some(list) = &case.list {
        o += &format!(" {}", inputs::hex(list));
    }
    if o.len() > 2_000 { "(too long to print)".into() } else { o }
}

// On the domain no difference in reading, tidying or carrying on is a known one, but for the size and for repeats without a version.
fn judged(case: &Case, mut found: Vec<Difference>) -> Vec<Difference> {
    use tally::Call::{CarryOn, Read, Tidy};
    let outside = |k: Kind| !matches!(k, Kind::Size | Kind::RepeatDefault | Kind::CarryDefault);
    if found.iter().any(|d| matches!(d.call, Read | Tidy | CarryOn) && d.kind.is_some_and(outside))
        && in_domain(&case.text)
    {
        for d in &mut found {
            d.kind = None;
        }
    }
    found
}

impl Run {
    fn ask(&mut self, case: &Case) {
        self.compare(case, Checker::case);
    }

    // A text that takes long is read once and asked nothing else.
    fn once(&mut self, text: &[u8]) {
        self.compare(&Case { text: text.to_vec(), ..Case::default() }, Checker::once);
    }

    fn compare(&mut self, case: &Case, compared: fn(&mut Checker, &Case) -> Vec<Difference>) {
        if self.trace {
            eprintln!("{}", replay(case));
        }
        self.texts += 1;
        let found = compared(&mut self.checker, case);
        let repeating = found.iter().any(|d| d.kind == Some(Kind::RepeatDefault));
        let inside = in_domain(&case.text);
        self.inside += u64::from(inside && !repeating);
        self.repeating += u64::from(inside && repeating);
        if found.is_empty() {
            return;
        }
        for d in judged(case, found) {
            match d.kind {
                Some(kind) => {
                    let (n, smallest) = self.known.entry(kind).or_insert_with(|| (0, case.clone()));
                    *n += 1;
                    if case.len() < smallest.len() {
                        *smallest = case.clone();
                    }
                }
                None => {
                    self.unlisted_count += 1;
                    self.report(case, &d);
                }
            }
        }
    }

    fn text(&mut self, text: &[u8]) {
        self.ask(&Case { text: text.to_vec(), ..Case::default() });
    }

    fn reduced(&mut self, case: &Case, d: &Difference) -> Case {
        let checker = &mut self.checker;
        let tally = std::mem::take(&mut checker.tally);
        let small = reduce::reduce(case, &mut |c| {
            let found = checker.case(c);
            judged(c, found).iter().any(|e| e.kind == d.kind && e.call == d.call)
        });
        checker.tally = tally;
        small
    }

    fn report(&mut self, case: &Case, d: &Difference) {
        if self.unlisted.len() >= MOST {
            return;
        }
        let small = self.reduced(case, d);
        if self.unlisted.iter().any(|(c, e)| *c == small && e.call == d.call) {
            return;
        }
        let tally = std::mem::take(&mut self.checker.tally);
        let found = self.checker.case(&small);
        self.checker.tally = tally;
        let e = judged(&small, found).into_iter().find(|e| e.kind.is_none() && e.call == d.call).unwrap_or(d.clone());
        println!("UNLISTED {:?}: {}\n  {}\n  {}", e.call, show(&small), clipped(&e.what), replay(&small));
        self.unlisted.push((small, e));
    }

    #[cfg(feature = "judge_merge")]
    fn merge(&mut self, merge: &merged::Merge) {
        self.texts += 3;
        if let Some(what) = self.merges.compare(merge) {
            self.unlisted_count += 1;
            if self.unlisted_count <= MOST as u64 {
                println!("UNLISTED judge_merge: {}", clipped(&what));
            }
        }
    }

    #[cfg(feature = "lens")]
    fn stream(&mut self, bytes: &[u8]) {
        self.texts += 1;
        if let Some(what) = self.lens.compare(bytes) {
            self.unlisted_count += 1;
            if self.unlisted_count <= MOST as u64 {
                println!("UNLISTED {}", clipped(&what));
            }
        }
    }

    fn phase(&mut self, phase: &str, rng: &mut Rng, scale: usize) {
        match phase {
            "corners" => {
                for text in inputs::corners() {
                    self.text(&text);
                    for (p, f) in [
                        ("x", ""),
                        ("a", "\tPN:q"),
                        ("pg0", ""),
                        ("x", "\tPP:a"),
                        ("x", "\tPP:pg1\tPN:q"),
                        ("", ""),
                        ("x", "\tID:b"),
                    ] {
                        self.ask(&Case { text: text.clone(), add: Some((p.into(), f.into())), list: None });
                    }
                    // Each with an LF and a line after it, and after a line.
                    self.text(&[&text[..], b"\n@CO\tend"].concat());
                    self.text(&[b"@RG\tID:first\n", &text[..]].concat());
                    self.text(&[b"@HD\tVN:1.5\n", &text[..]].concat());
                }
            }
            "tokens" => {
                inputs::sequences(b"", &inputs::TOKENS, 3, &mut |t| self.text(t));
                for prefix in [&b"@"[..], b"@SQ\t", b"@HD\tVN:1.5\t", b"@PG\tID:a", b"@CO\t\n@"] {
                    inputs::sequences(prefix, &inputs::TOKENS, 4, &mut |t| self.text(t));
                }
            }
            "fields" => {
                inputs::sequences(b"", &inputs::FIELDS, 5, &mut |t| self.text(t));
                for prefix in [&b"@HD\tVN:1.5"[..], b"@SQ\tSN:a\tLN:8\n@SQ", b"@PG\tID:a\n@PG\tID:b"] {
                    inputs::sequences(prefix, &inputs::FIELDS, 4, &mut |t| self.text(t));
                }
            }
            "bytes" => {
                for (prefix, alphabet, most) in inputs::BYTES {
                    let tokens: Vec<&[u8]> = alphabet.chunks(1).collect();
                    inputs::sequences(prefix, &tokens, most, &mut |t| self.text(t));
                }
            }
            "graphs" => {
                for n in 0..=5 {
                    inputs::graphs(n, &mut |t| {
                        let (p, f) = inputs::addition(rng, t);
                        self.ask(&Case { text: t.to_vec(), add: Some((p, f)), list: None });
                    });
                }
            }
            "random" => {
                for _ in 0..150_000 * scale {
                    let text = inputs::header(rng);
                    let add = Some(inputs::addition(rng, &text));
                    self.ask(&Case { text, add, list: None });
                }
            }
            "damaged" => {
                for _ in 0..150_000 * scale {
                    let text = if rng.one_in(4) { inputs::soup(rng) } else { inputs::header(rng) };
                    let text = if rng.one_in(8) { text } else { inputs::damaged(rng, &text) };
                    let add = rng.one_in(4).then(|| inputs::addition(rng, &text));
                    self.ask(&Case { text, add, list: None });
                }
            }
            "programs" => {
                for i in 0..40_000 * scale {
                    let n = if i % 100 == 0 { 1 + rng.below(60) } else { rng.below(9) };
                    let text = inputs::programs(rng, n);
                    let text = if rng.one_in(3) { inputs::with_groups(rng, &text) } else { text };
                    let text = if rng.one_in(20) { inputs::damaged(rng, &text) } else { text };
                    let add = Some(inputs::addition(rng, &text));
                    self.ask(&Case { text, add, list: None });
                }
            }
            "boundaries" => {
                inputs::boundaries(&mut |t| {
                    let add = Some((b"x".to_vec(), b"\tPN:v".to_vec()));
                    self.ask(&Case { text: t.to_vec(), add, list: None });
                });
                inputs::full_of_programs(&mut |t, p, f| {
                    self.ask(&Case { text: t.to_vec(), add: Some((p.into(), f.into())), list: None });
                });
            }
            "keys" => {
                // Lines, and the lines of a block: an area of the key index has four slots for three of them.
                for (n, block) in [(450, 384), (500, 384), (2_500, 384)] {
                    inputs::many_keys(n, block, &mut |t| self.text(t));
                    inputs::beside_used(n, block, &mut |t| self.text(t));
                }
                for (n, block) in [(7_000, 6_144), (13_000, 6_144), (160_000, 147_456)] {
                    inputs::many_keys(n, block, &mut |t| self.once(t));
                    inputs::beside_used(n, block, &mut |t| self.once(t));
                }
                inputs::many_keys(300_000, 147_456, &mut |t| self.once(t));
            }
            "names" if cfg!(feature = "names") => {
                for i in 0..20_000 * scale {
                    let text = if rng.one_in(3) { inputs::header(rng) } else { inputs::references(rng, i % 100 == 0) };
                    let text = if rng.one_in(12) { inputs::damaged(rng, &text) } else { text };
                    let list = Some(inputs::list(rng, &text));
                    self.ask(&Case { text, add: None, list });
                }
                inputs::long_lists(&mut |t, l| self.ask(&Case { text: t.to_vec(), add: None, list: Some(l.to_vec()) }));
            }
            "names" => {}
            "skipped" if cfg!(feature = "carry_on") => {
                for _ in 0..100_000 * scale {
                    let text = inputs::with_refused(rng);
                    self.text(&text);
                }
            }
            "skipped" => {}
            #[cfg(feature = "judge_merge")]
            "merged" => {
                for _ in 0..200_000 * scale {
                    self.merge(&merged::by_chance(rng));
                }
            }
            #[cfg(not(feature = "judge_merge"))]
            "merged" => {}
            #[cfg(feature = "lens")]
            "lens" => {
                for _ in 0..100_000 * scale {
                    self.stream(&lens::file(rng));
                    self.stream(&lens::stream(rng));
                }
            }
            #[cfg(not(feature = "lens"))]
            "lens" => {}
            "faults" if cfg!(feature = "faults") => {
                for _ in 0..100_000 * scale {
                    let text = inputs::faulty(rng, false);
                    self.text(&text);
                }
                for _ in 0..20 * scale {
                    let text = inputs::faulty(rng, true);
                    self.text(&text);
                }
            }
            "faults" => {}
            _ => unreachable!(),
        }
    }
}

fn clipped(s: &str) -> String {
    if s.len() > 900 { format!("{}..", s.chars().take(900).collect::<String>()) } else { s.into() }
}

fn one(text: &str, add: Option<(&str, &str)>, list: Option<&str>) -> ExitCode {
    let bytes = |s: &str| inputs::unhex(s).expect("hex");
    let case = Case { text: bytes(text), add: add.map(|(p, f)| (bytes(p), bytes(f))), list: list.map(bytes) };
    let mut checker = Checker::default();
    let found = checker.case(&case);
    println!("{}\nin the domain: {}\n{}", show(&case), in_domain(&case.text), checker.tally);
    let mut code = ExitCode::SUCCESS;
    for d in judged(&case, found) {
        println!("{:?} {:?}: {}", d.call, d.kind, d.what);
        if d.kind.is_none() {
            code = ExitCode::FAILURE;
        }
    }
    code
}

fn main() -> ExitCode {
    oracle::quiet();
    let args: Vec<String> = std::env::args().skip(1).collect();
    let mut args: &[&str] = &args.iter().map(String::as_str).collect::<Vec<_>>();
    let (mut seed, mut scale, mut only, mut trace) = (1, 1, None, false);
    loop {
        match *args {
            [] => break,
            ["case", t] => return one(t, None, None),
            ["case", t, l] => return one(t, None, Some(l)),
            ["case", t, p, f] => return one(t, Some((p, f)), None),
            ["--seed", n, ref rest @ ..] if n.parse::<u64>().is_ok() => (seed, args) = (n.parse().unwrap(), rest),
            ["--scale", n, ref rest @ ..] if n.parse::<usize>().is_ok() => (scale, args) = (n.parse().unwrap(), rest),
            ["--trace", ref rest @ ..] => (trace, args) = (true, rest),
            ["--only", p, ref rest @ ..] if PHASES.contains(&p) => (only, args) = (Some(p), rest),
            _ => {
                eprintln!("usage: see the top of oracle/compare/src/main.rs; phases: {}", PHASES.join(" "));
                return ExitCode::from(2);
            }
        }
    }
    let calls: Vec<&str> = [
        ("lookup", cfg!(feature = "lookup")),
        ("found", cfg!(feature = "found")),
        ("graph", cfg!(feature = "graph")),
        ("leaves_by_table", cfg!(feature = "table")),
        ("add", cfg!(feature = "add")),
        ("prune", cfg!(feature = "prune")),
        ("names", cfg!(feature = "names")),
        ("carry_on", cfg!(feature = "carry_on")),
        ("faults", cfg!(feature = "faults")),
        ("binary", cfg!(feature = "binary")),
        ("judge_merge", cfg!(feature = "judge_merge")),
        ("text_len binary_len", cfg!(feature = "lens")),
        ("seal", cfg!(feature = "seal")),
    ]
    .iter()
    .filter_map(|&(name, there)| there.then_some(name))
    .collect();
    println!(
        "seed {seed}, scale {scale}; calls: read check tidy {}{}",
        calls.join(" "),
        if oracle::LENIENT { "; lenient" } else { "" }
    );
    let mut run = Run {
        checker: Checker::default(),
        texts: 0,
        inside: 0,
        repeating: 0,
        known: BTreeMap::new(),
        unlisted: Vec::new(),
        unlisted_count: 0,
        #[cfg(feature = "judge_merge")]
        merges: merged::Tally::default(),
        #[cfg(feature = "lens")]
        lens: lens::Tally::default(),
        trace,
    };
    let began = Instant::now();
    for (i, phase) in PHASES.into_iter().enumerate() {
        if only.is_some_and(|p| p != phase) {
            continue;
        }
        let (before, at) = (run.texts, Instant::now());
        run.phase(phase, &mut Rng::new(seed ^ (i as u64) << 56), scale);
        println!("{phase}: {} texts, {:.1} s", run.texts - before, at.elapsed().as_secs_f64());
    }
    println!("\n{} texts, {} of them in the domain, {:.0} s.", run.texts, run.inside, began.elapsed().as_secs_f64());
    println!("{} more in the domain but for a tag repeated without a version.", run.repeating);
    print!("{}", run.checker.tally);
    #[cfg(feature = "judge_merge")]
    print!("{}", run.merges);
    #[cfg(feature = "lens")]
    print!("{}", run.lens);
    println!("\nKnown kinds of difference, with the smallest input:");
    for (kind, meaning) in known::ALL {
        if let Some((n, smallest)) = run.known.get(&kind).cloned() {
            let found = run.checker.case(&smallest);
            let d = judged(&smallest, found).into_iter().find(|d| d.kind == Some(kind)).expect("the same answer again");
            // Where it takes a long text, it is not made smaller.
            let small = if smallest.len() < 2_000 { run.reduced(&smallest, &d) } else { smallest };
            println!("  {n} {kind:?}: {meaning}\n    {:?} {}", d.call, show(&small));
        } else {
            println!("  0 {kind:?}: {meaning}");
        }
    }
    println!("\n{} unlisted differences", run.unlisted_count);
    if run.unlisted_count == 0 { ExitCode::SUCCESS } else { ExitCode::FAILURE }
}

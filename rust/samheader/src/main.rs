//! `samheader`: what the proved library answers about SAM headers, for a shell.
mod chains;
mod fault;
mod merged;
mod output;
mod same;
mod show;
mod validate;
mod warn;

use clap::{ColorChoice, CommandFactory, Parser, Subcommand};
use output::{put, Stop};
use sam_header::{carry_on, Found, Header, Kind, ProgramNo, Refusal, Seal};
use std::fs::File;
use std::io;
use std::path::{Path, PathBuf};
use std::process::ExitCode;

/// Whether all was in order: if not, the exit status is 1.
type Done = Result<bool, Stop>;

/// Reads, checks and writes SAM headers with a library in which every function is proved to meet its contract.
///
/// FILE is a SAM, BAM or CRAM file, also in gzip or BGZF; `-` or nothing is standard input. Only the header is judged.
#[derive(Parser)]
#[command(
    name = "samheader",
    version,
    after_help = "Exit status: 0 in order; 1 refused, faulty or different; 2 usage, input or output."
)]
struct Args {
    /// When to write in color
    #[arg(long, global = true, value_name = "WHEN", default_value_t = ColorChoice::Auto)]
    color: ColorChoice,
    #[command(subcommand)]
    verb: Verb,
}

#[derive(Subcommand)]
enum Verb {
    /// List every fault: file:line:column, the line, a caret and a hint
    Validate(validate::Asked),
    /// Write the header tidy
    Tidy {
        #[command(flatten)]
        of: Of,
        /// Skip lines that are refused, and list them on standard error
        #[arg(long)]
        keep_going: bool,
        #[command(flatten)]
        to: To,
    },
    /// Show the header, or its records of one KIND: hd, sq or refs, rg, pg, co
    Show {
        /// KIND, FILE, or both
        #[arg(num_args = 0..=2, value_name = "KIND|FILE")]
        words: Vec<PathBuf>,
        /// As JSON, all fields
        #[arg(long)]
        json: bool,
    },
    /// Print a record's line, or the value of one TAG
    Get {
        /// hd, sq or refs, rg, pg, co
        #[arg(value_parser = show::kind)]
        kind: Kind,
        /// SN or ID, or where none has this name an ordinal, from 0
        name: String,
        /// TAG, FILE, or both
        #[arg(num_args = 0..=2, value_name = "TAG|FILE")]
        words: Vec<PathBuf>,
    },
    /// Show the programs as a tree; faulty PPs are marked with their lines
    Chains {
        #[command(flatten)]
        of: Of,
        /// As a graph for Graphviz
        #[arg(long, conflicts_with = "json")]
        dot: bool,
        /// As JSON: each program's parent and depth
        #[arg(long)]
        json: bool,
    },
    /// Print the ordinals of reference names, from 0; `-` for a name that is not there
    Names {
        #[command(flatten)]
        of: Of,
        /// The names, with commas between
        #[arg(short, long, value_name = "NAME,..", value_delimiter = ',', required_unless_present = "from")]
        name: Vec<String>,
        /// A file with one name on each line
        #[arg(short, long, value_name = "FILE")]
        from: Option<PathBuf>,
    },
    /// Write the header tidy with a new program after each leaf
    Add {
        #[command(flatten)]
        of: Of,
        /// What the new IDs are made from
        #[arg(long, value_name = "ID")]
        id: String,
        /// A field of the new programs
        #[arg(short, long = "tag", value_name = "TAG:VALUE")]
        tags: Vec<String>,
        #[command(flatten)]
        to: To,
    },
    /// Write the header tidy with only the programs in use and their ancestors
    Prune {
        #[command(flatten)]
        of: Of,
        /// The programs in use, with commas between; '' drops all of them
        #[arg(long, value_name = "ID,..", value_delimiter = ',', required = true)]
        keep: Vec<String>,
        #[command(flatten)]
        to: To,
    },
    /// Write the uncompressed binary header, as a BAM file has it
    Binary {
        #[command(flatten)]
        of: Of,
        #[command(flatten)]
        to: To,
    },
    /// Write what a plan keeps: the header's seal and its catalogue
    Keep {
        #[command(flatten)]
        of: Of,
        #[command(flatten)]
        to: To,
    },
    /// Check what was kept against the header, before it is used
    Check {
        /// What `keep` wrote
        kept: PathBuf,
        #[command(flatten)]
        of: Of,
    },
    /// Compare two headers: equal records, or the first differences
    Same {
        /// One header
        a: PathBuf,
        /// The other
        b: PathBuf,
    },
    /// Judge a merge of A and B that another tool made
    Merged {
        /// The first header
        a: PathBuf,
        /// The second
        b: PathBuf,
        /// What was made of both
        merged: PathBuf,
        /// Two lines: for each program of A, and for each of B, its ordinal in the merged header
        #[arg(long, value_name = "FILE")]
        lists: Option<PathBuf>,
    },
    /// Say what a refusal's number or name means
    Explain {
        /// As 13, or zero-length
        number: String,
    },
    /// Write completions for a shell
    Completions {
        /// The shell
        shell: clap_complete::Shell,
    },
    /// Write the man page, or that of one verb
    Man {
        /// The verb
        verb: Option<String>,
    },
}

#[derive(clap::Args)]
struct Of {
    /// A SAM, BAM or CRAM file; `-` or nothing is standard input
    #[arg(default_value = "-")]
    file: PathBuf,
}

#[derive(clap::Args)]
struct To {
    /// Write to FILE: beside it first, then renamed
    #[arg(short, long, value_name = "FILE")]
    output: Option<PathBuf>,
}

impl To {
    fn put(&self, bytes: &[u8]) -> Done {
        put(bytes, self.output.as_deref()).map(|()| true)
    }
}

/// The header of a file, cut out and not judged yet.
fn cut_out(file: &Path) -> io::Result<Found> {
    if file == Path::new("-") {
        sam_header::read_header(io::stdin().lock())
    } else {
        sam_header::read_header(File::open(file)?)
    }
}

fn load(file: &Path) -> Result<Found, Stop> {
    cut_out(file).map_err(|why| match refusal_in(&why) {
        Some(refusal) => Stop::Refused(fault::whole(file, refusal)),
        None => Stop::on(file, why),
    })
}

/// The refusal that an input's error holds: what can be no binary header.
fn refusal_in(why: &io::Error) -> Option<Refusal> {
    why.get_ref().and_then(|inner| inner.downcast_ref::<Refusal>()).copied()
}

/// What a call says of this file's header, with its refusal explained.
fn judged<T>(file: &Path, found: &Found, answer: Result<T, Refusal>) -> Result<T, Stop> {
    answer.map_err(|refusal| Stop::Refused(fault::of(file, found.text(), refusal)))
}

fn header<'f>(file: &Path, found: &'f Found) -> Result<Header<'f>, Stop> {
    judged(file, found, found.read())
}

fn tidy(file: &Path, keep_going: bool) -> Result<(Vec<u8>, bool), Stop> {
    let found = load(file)?;
    if !keep_going {
        return judged(file, &found, found.tidy()).map(|tidy| (tidy, true));
    }
    judged(file, &found, found.check_list())?;
    let (kept, skipped) = judged(file, &found, carry_on(found.text()))?;
    let lines = fault::Lines::of(found.text());
    for refusal in &skipped {
        eprint!("{}", fault::explained(file, &lines, *refusal));
    }
    Ok((kept, skipped.is_empty()))
}

/// What `keep` writes: these bytes, the seal, the catalogue.
const KEPT: &[u8; 8] = b"samkept\x01";

fn kept(file: &Path) -> Result<Vec<u8>, Stop> {
    let found = load(file)?;
    let header = header(file, &found)?;
    let seal = judged(file, &found, header.seal())?;
    Ok([&KEPT[..], &seal.0, header.catalogue()].concat())
}

fn check(kept: &Path, file: &Path) -> Done {
    let bytes = output::read(kept)?;
    let parts = bytes.strip_prefix(KEPT).and_then(|rest| rest.split_first_chunk::<32>());
    let (seal, catalogue) = parts.ok_or_else(|| Stop::on(kept, "it is not what `samheader keep` writes"))?;
    let found = load(file)?;
    judged(file, &found, found.check_list())?;
    judged(file, &found, Header::from_sealed(found.text(), catalogue.to_vec(), &Seal(*seal)))?;
    put(b"in order: catalogue and seal are this header's\n", None).map(|()| true)
}

fn names(file: &Path, name: Vec<String>, from: Option<PathBuf>) -> Done {
    let mut asked: Vec<Vec<u8>> = name.into_iter().map(String::into_bytes).collect();
    if let Some(from) = from {
        let list = output::read(&from)?;
        asked.extend(list.split_inclusive(|&b| b == b'\n').map(|name| name.strip_suffix(b"\n").unwrap_or(name).to_vec()));
    }
    let found = load(file)?;
    let header = header(file, &found)?;
    let ordinals = judged(file, &found, header.names(&asked))?.ordinals;
    let mut out = Vec::new();
    for (name, ordinal) in asked.iter().zip(&ordinals) {
        out.extend_from_slice(name);
        out.extend(ordinal.map_or("\t-\n".into(), |i| format!("\t{i}\n")).bytes());
    }
    put(&out, None)?;
    Ok(ordinals.iter().all(Option::is_some))
}

fn prune(file: &Path, keep: &[String], to: &To) -> Done {
    let found = load(file)?;
    let header = header(file, &found)?;
    let mut used = Vec::new();
    for id in keep.iter().filter(|id| !id.is_empty()) {
        let program = header.programs().find(|program| program.id() == id.as_bytes());
        used.push(program.ok_or_else(|| Stop::Refused(format!("{}: no program has the ID {id}\n", file.display())))?.number());
    }
    let pruned = judged(file, &found, header.prune(&used))?;
    to.put(&pruned)
}

fn explain(asked: &str) -> Done {
    let known = || (1..=u8::MAX).map_while(Refusal::from_number);
    let refusal = known().find(|refusal| refusal.number.to_string() == asked || refusal.name() == asked);
    let refusal =
        refusal.ok_or_else(|| Stop::Usage(format!("samheader: no refusal is {asked}: they are 1 to {}\n", known().count())))?;
    put(format!("{} {}: {}\n  help: {}\n", refusal.number, refusal.name(), refusal.meaning(), refusal.hint()).as_bytes(), None)
        .map(|()| true)
}

fn man(verb: Option<&str>) -> Done {
    let mut command = Args::command();
    command.build();
    if let Some(verb) = verb {
        let found = command.find_subcommand(verb).cloned();
        command = found.ok_or_else(|| Stop::Usage(format!("samheader: no verb is {verb}\n")))?;
    }
    let mut page = Vec::new();
    clap_mangen::Man::new(command).render(&mut page).map_err(|why| Stop::on(Path::new("man"), why))?;
    put(&page, None).map(|()| true)
}

fn add(file: &Path, id: &str, tags: &[String]) -> Result<Vec<u8>, Stop> {
    let found = load(file)?;
    let fields: String = tags.iter().map(|tag| format!("\t{tag}")).collect();
    judged(file, &found, header(file, &found)?.add(id.as_bytes(), fields.as_bytes()))
}

fn binary(file: &Path) -> Result<Vec<u8>, Stop> {
    let found = load(file)?;
    judged(file, &found, header(file, &found)?.to_binary())
}

fn completions(shell: clap_complete::Shell) -> Done {
    let mut script = Vec::new();
    clap_complete::generate(shell, &mut Args::command(), "samheader", &mut script);
    put(&script, None).map(|()| true)
}

fn run(verb: Verb) -> Done {
    match verb {
        Verb::Validate(asked) => validate::run(asked),
        Verb::Tidy { of, keep_going, to } => {
            let (tidy, whole) = tidy(&of.file, keep_going)?;
            to.put(&tidy)?;
            Ok(whole)
        }
        Verb::Show { words, json } => show::show(&words, json),
        Verb::Get { kind, name, words } => show::get(kind, &name, &words),
        Verb::Chains { of, dot, json } => chains::run(&of.file, dot, json),
        Verb::Names { of, name, from } => names(&of.file, name, from),
        Verb::Add { of, id, tags, to } => to.put(&add(&of.file, &id, &tags)?),
        Verb::Prune { of, keep, to } => prune(&of.file, &keep, &to),
        Verb::Binary { of, to } => to.put(&binary(&of.file)?),
        Verb::Keep { of, to } => to.put(&kept(&of.file)?),
        Verb::Check { kept, of } => check(&kept, &of.file),
        Verb::Same { a, b } => same::run(&a, &b),
        Verb::Merged { a, b, merged, lists } => merged::run([&a, &b, &merged], lists.as_deref()),
        Verb::Explain { number } => explain(&number),
        Verb::Completions { shell } => completions(shell),
        Verb::Man { verb } => man(verb.as_deref()),
    }
}

/// A program by its number, for messages.
fn program_name(header: &Header, number: ProgramNo) -> String {
    header.program(number).map_or_else(String::new, |program| output::shown(program.id()))
}

fn main() -> ExitCode {
    let args = Args::parse();
    output::set_color(args.color);
    match run(args.verb) {
        Ok(true) => ExitCode::SUCCESS,
        Ok(false) => ExitCode::from(1),
        Err(Stop::BrokenPipe) => ExitCode::SUCCESS,
        Err(Stop::Refused(said)) => {
            eprint!("{said}");
            ExitCode::from(1)
        }
        Err(Stop::Usage(said)) => {
            eprint!("{said}");
            ExitCode::from(2)
        }
    }
}

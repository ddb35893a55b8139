//! Every fault of many files, side by side.
use crate::fault::{self, Lines};
use crate::output::{self, put, Stop};
use crate::{warn, Done};
use indicatif::{ProgressBar, ProgressDrawTarget, ProgressStyle};
use sam_header::Refusal;
use serde_json::json;
use std::collections::BTreeMap;
use std::ffi::OsStr;
use std::io::IsTerminal;
use std::os::unix::ffi::OsStrExt;
use std::path::{Path, PathBuf};
use std::sync::atomic::{AtomicUsize, Ordering};
use std::sync::mpsc;
use std::time::{Duration, Instant};

#[derive(clap::Args)]
pub struct Asked {
    /// SAM, BAM or CRAM files; `-` or nothing is standard input
    #[arg(value_name = "FILE")]
    files: Vec<PathBuf>,
    /// A file with the name of a file on each line
    #[arg(long, value_name = "FILE")]
    files_from: Option<PathBuf>,
    /// One JSON object on a line for each file; lines and columns count from 1
    #[arg(long)]
    json: bool,
    /// Say nothing of files, the exit status tells
    #[arg(short, long)]
    quiet: bool,
    /// List at most N faults of a file
    #[arg(long, value_name = "N", default_value_t = 100)]
    max: usize,
    /// Add what the SAM specification says of values and nobody has proved: no fault, and the exit status stays
    #[arg(long)]
    warn: bool,
    /// Work on N files side by side
    #[arg(short, long, value_name = "N", default_value_t = 1, value_parser = clap::value_parser!(u16).range(1..=1024))]
    jobs: u16,
}

/// What became of one file.
enum State {
    Faults(usize),
    Unreadable,
}

struct Report {
    state: State,
    /// For standard output.
    said: String,
    /// For standard error.
    complaint: String,
}

#[derive(Default)]
struct Total {
    files: usize,
    faulty: usize,
    faults: usize,
    unreadable: usize,
}

impl Total {
    fn count(&mut self, state: &State) {
        self.files += 1;
        match *state {
            State::Unreadable => self.unreadable += 1,
            State::Faults(n) => {
                self.faulty += usize::from(n > 0);
                self.faults += n;
            }
        }
    }
}

fn counted(n: usize, one: &str) -> String {
    format!("{n} {one}{}", if n == 1 { "" } else { "s" })
}

pub fn run(mut asked: Asked) -> Done {
    if let Some(list) = &asked.files_from {
        let names = output::read(list)?;
        asked.files.extend(
            names.split(|&b| b == b'\n').filter(|name| !name.is_empty()).map(|name| PathBuf::from(OsStr::from_bytes(name))),
        );
    } else if asked.files.is_empty() {
        asked.files.push("-".into());
    }
    let total = reports(&asked)?;
    if total.files > 1 && !asked.quiet {
        let good = total.files - total.faulty - total.unreadable;
        let (files, faults) = (counted(total.files, "file"), counted(total.faults, "fault"));
        eprintln!("{files}: {good} in order, {} faulty ({faults}), {} unreadable", total.faulty, total.unreadable);
    }
    match total {
        Total { unreadable: 1.., .. } => Err(Stop::Usage(String::new())),
        Total { faults, .. } => Ok(faults == 0),
    }
}

/// Has every file judged, and writes the reports in the order of the files.
fn reports(asked: &Asked) -> Result<Total, Stop> {
    let (next, started) = (AtomicUsize::new(0), Instant::now());
    let (sender, reports) = mpsc::channel();
    let bar = ProgressBar::with_draw_target(Some(asked.files.len() as u64), ProgressDrawTarget::hidden());
    if let Ok(style) = ProgressStyle::with_template("{bar:40} {pos} of {len} files, {eta} left") {
        bar.set_style(style);
    }
    let shows_bar = asked.files.len() > 1 && std::io::stderr().is_terminal();
    std::thread::scope(|scope| {
        for _ in 0..usize::from(asked.jobs).min(asked.files.len()) {
            let (sender, next) = (sender.clone(), &next);
            scope.spawn(move || {
                while let Some((i, file)) =
                    Some(next.fetch_add(1, Ordering::Relaxed)).and_then(|i| Some((i, asked.files.get(i)?)))
                {
                    if sender.send((i, report(asked, file))).is_err() {
                        return;
                    }
                }
            });
        }
        drop(sender);
        let (mut total, mut waiting) = (Total::default(), BTreeMap::new());
        for (i, report) in reports {
            waiting.insert(i, report);
            while let Some(report) = waiting.remove(&total.files) {
                total.count(&report.state);
                if shows_bar && bar.is_hidden() && started.elapsed() > Duration::from_secs(1) {
                    bar.set_draw_target(ProgressDrawTarget::stderr());
                }
                if !report.complaint.is_empty() || !report.said.is_empty() {
                    bar.suspend(|| {
                        eprint!("{}", report.complaint);
                        put(report.said.as_bytes(), None)
                    })?;
                }
                bar.inc(1);
            }
        }
        bar.finish_and_clear();
        Ok(total)
    })
}

fn report(asked: &Asked, file: &Path) -> Report {
    match crate::cut_out(file) {
        Ok(found) => {
            let mut faults = sam_header::faults(found.text()).unwrap_or_else(|whole| vec![whole]);
            faults.extend(found.check_list().err());
            told(asked, file, found.text(), &faults)
        }
        Err(why) => match crate::refusal_in(&why) {
            Some(refusal) => told(asked, file, &[], &[refusal]),
            None => {
                let said = if asked.json {
                    format!("{}\n", json!({ "file": file.to_string_lossy(), "error": why.to_string() }))
                } else {
                    String::new()
                };
                Report { state: State::Unreadable, said, complaint: format!("samheader: {}: {why}\n", file.display()) }
            }
        },
    }
}

fn told(asked: &Asked, file: &Path, text: &[u8], faults: &[Refusal]) -> Report {
    let lines = Lines::of(if faults.is_empty() { &[] } else { text });
    let warnings = if asked.warn { warn::warnings(text) } else { Vec::new() };
    let mut said = String::new();
    if asked.quiet {
        // the exit status tells
    } else if asked.json {
        let list: Vec<_> = faults.iter().take(asked.max).map(|fault| fault::json(&lines, *fault)).collect();
        let mut object = json!({ "file": file.to_string_lossy(), "count": faults.len(), "faults": list });
        if asked.warn {
            let warning = |warning: &warn::Warning| json!({ "line": u64::from(warning.line.0) + 1, "message": warning.says });
            object["warnings"] = warnings.iter().map(warning).collect();
        }
        said = format!("{object}\n");
    } else {
        said.extend(faults.iter().take(asked.max).map(|fault| fault::explained(file, &lines, *fault)));
        for warning in &warnings {
            let place = output::bold(&format!("{}:{}:", file.display(), warning.line));
            said += &format!("{place} warning: {} (not part of what is proved)\n", warning.says);
        }
        let state = if faults.is_empty() { "in order".into() } else { counted(faults.len(), "fault") };
        let more = if faults.len() > asked.max { format!(", {} of them shown", asked.max) } else { String::new() };
        said += &format!("{}: {state}{more}\n", file.display());
    }
    Report { state: State::Faults(faults.len()), said, complaint: String::new() }
}

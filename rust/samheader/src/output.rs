//! What is written, where, and how it looks.
use clap::builder::styling::{AnsiColor, Style};
use clap::ColorChoice;
use std::fs;
use std::io::{self, IsTerminal, Read, Write};
use std::path::Path;
use std::sync::OnceLock;

/// Why the command ends early.
pub enum Stop {
    /// The header is refused, or what was asked for is not there: exit status 1.
    Refused(String),
    /// Usage, input or output: exit status 2.
    Usage(String),
    /// Nobody reads on, which is no error.
    BrokenPipe,
}

impl Stop {
    pub fn on(file: &Path, why: impl std::fmt::Display) -> Stop {
        Stop::Usage(format!("samheader: {}: {why}\n", file.display()))
    }
}

/// A whole file, or standard input.
pub fn read(file: &Path) -> Result<Vec<u8>, Stop> {
    let mut bytes = Vec::new();
    let done = if file == Path::new("-") {
        io::stdin().read_to_end(&mut bytes).map(drop)
    } else {
        fs::read(file).map(|all| bytes = all)
    };
    done.map(|()| bytes).map_err(|why| Stop::on(file, why))
}

/// Writes to standard output, or to a file: to a new file next to it, so that it is never half written, which is then renamed.
pub fn put(bytes: &[u8], to: Option<&Path>) -> Result<(), Stop> {
    match to.filter(|to| *to != Path::new("-")) {
        None => {
            let mut out = io::stdout().lock();
            out.write_all(bytes).and_then(|()| out.flush()).map_err(|why| match why.kind() {
                io::ErrorKind::BrokenPipe => Stop::BrokenPipe,
                _ => Stop::on(Path::new("standard output"), why),
            })
        }
        Some(to) => {
            let name = to.file_name().ok_or_else(|| Stop::on(to, "it is no file"))?;
            let beside = to.with_file_name(format!(".{}.{}", name.to_string_lossy(), std::process::id()));
            let done = fs::File::create(&beside).and_then(|mut file| file.write_all(bytes).and_then(|()| file.sync_all()));
            done.and_then(|()| fs::rename(&beside, to)).map_err(|why| {
                let _ = fs::remove_file(&beside);
                Stop::on(to, why)
            })
        }
    }
}

static COLOR: OnceLock<ColorChoice> = OnceLock::new();

pub fn set_color(choice: ColorChoice) {
    COLOR.get_or_init(|| choice);
}

fn colored() -> bool {
    match COLOR.get() {
        Some(ColorChoice::Always) => true,
        Some(ColorChoice::Never) => false,
        _ => {
            io::stdout().is_terminal()
                && io::stderr().is_terminal()
                && std::env::var_os("NO_COLOR").is_none_or(|set| set.is_empty())
        }
    }
}

fn styled(style: Style, words: &str) -> String {
    if colored() {
        format!("{style}{words}{style:#}")
    } else {
        words.into()
    }
}

pub fn bold(words: &str) -> String {
    styled(Style::new().bold(), words)
}

pub fn red(words: &str) -> String {
    styled(AnsiColor::Red.on_default().bold(), words)
}

pub fn dim(words: &str) -> String {
    styled(Style::new().dimmed(), words)
}

/// Bytes for people: a tab as an arrow, another control character as a dot.
pub fn shown(bytes: &[u8]) -> String {
    let one = |c: char| match c {
        '\t' => '→',
        c if c.is_control() => '·',
        c => c,
    };
    String::from_utf8_lossy(bytes).chars().map(one).collect()
}

/// At most so many characters.
pub fn cut(words: &str, most: usize) -> String {
    match words.char_indices().nth(most) {
        Some((at, _)) => format!("{}…", &words[..at]),
        None => words.into(),
    }
}

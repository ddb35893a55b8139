//! Whether two headers have equal records: their tidy texts are then equal.
use crate::output::{cut, put, red, shown};
use crate::{header, judged, load, Done};
use sam_header::{Header, Kind, LineNo};
use std::collections::HashSet;
use std::path::Path;

/// How many differences are reported at most.
const MOST: usize = 10;

/// The lines of the tidy text, each with the line of the text that it came from: kind by kind, each in its order.
fn tidy_lines<'t>(header: &Header, tidy: &'t [u8]) -> Vec<(LineNo, &'t [u8])> {
    let from = Kind::ALL.into_iter().flat_map(|kind| header.records(kind).map(|record| record.line()).collect::<Vec<_>>());
    from.zip(tidy.split(|&b| b == b'\n')).collect()
}

pub fn run(a: &Path, b: &Path) -> Done {
    let (found_a, found_b) = (load(a)?, load(b)?);
    let (header_a, header_b) = (header(a, &found_a)?, header(b, &found_b)?);
    let (tidy_a, tidy_b) = (judged(a, &found_a, header_a.tidy())?, judged(b, &found_b, header_b.tidy())?);
    if tidy_a == tidy_b {
        return put(b"equal records\n", None).map(|()| true);
    }
    let (lines_a, lines_b) = (tidy_lines(&header_a, &tidy_a), tidy_lines(&header_b, &tidy_b));
    let only = |file: &Path, sign: &str, own: &[(LineNo, &[u8])], other: &[(LineNo, &[u8])]| {
        let other: HashSet<_> = other.iter().map(|(_, line)| *line).collect();
        let told = |(no, line): &(LineNo, &[u8])| {
            (no.0, format!("{} {}:{no}: {}\n", red(sign), file.display(), cut(&shown(line), 120)))
        };
        own.iter().filter(|(_, line)| !other.contains(line)).map(told).collect::<Vec<_>>()
    };
    let differences = [only(a, "-", &lines_a, &lines_b), only(b, "+", &lines_b, &lines_a)];
    let total: usize = differences.iter().map(Vec::len).sum();
    let mut out = String::new();
    for (_, told) in differences.iter().flat_map(|list| list.iter().take(MOST)) {
        out += told;
    }
    if total == 0 {
        let ((no_a, line_a), (no_b, line_b)) =
            lines_a.iter().zip(&lines_b).find(|(x, y)| x.1 != y.1).unwrap_or((&lines_a[0], &lines_b[0]));
        out += &format!(
            "the same records in another order, first here:\n- {}:{no_a}: {}\n",
            a.display(),
            cut(&shown(line_a), 120)
        );
        out += &format!("+ {}:{no_b}: {}\n", b.display(), cut(&shown(line_b), 120));
    } else {
        let shown: usize = differences.iter().map(|list| list.len().min(MOST)).sum();
        out += &format!(
            "{total} records differ{}\n",
            if shown < total { format!(", {shown} of them shown") } else { String::new() }
        );
    }
    put(out.as_bytes(), None).map(|()| false)
}

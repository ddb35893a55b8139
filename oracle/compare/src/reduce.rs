//! Makes a case small: what can go, goes.

use std::time::{Duration, Instant};

use crate::check::Case;

/// How long one case may take. Long texts take long to ask about.
const PATIENCE: Duration = Duration::from_secs(20);

/// The parts of the bytes that start after each of these separators, and the separator before them.
fn parts(b: &[u8], by: u8) -> Vec<(usize, usize)> {
    let mut o = Vec::new();
    let mut start = 0;
    for (i, &x) in b.iter().enumerate() {
        if x == by {
            // A line takes its LF with it, a field its tab.
            let cut = if by == b'\n' { i + 1 } else { i };
            o.push((start, cut));
            start = cut;
        }
    }
    o.push((start, b.len()));
    o
}

fn without(b: &[u8], (from, to): (usize, usize)) -> Vec<u8> {
    [&b[..from], &b[to..]].concat()
}

// Deletes what can go of one byte string: halves, lines, fields, bytes.
fn shrink(b: &mut Vec<u8>, until: Instant, holds: &mut dyn FnMut(&[u8]) -> bool) {
    let mut try_cut = |b: &mut Vec<u8>, cut: (usize, usize)| {
        if cut.0 == cut.1 || cut.1 > b.len() {
            return false;
        }
        let smaller = without(b, cut);
        let good = holds(&smaller);
        if good {
            *b = smaller;
        }
        good
    };
    // Runs of lines, then of bytes, from half of all down to one.
    let mut run = parts(b, b'\n').len();
    while run > 0 && Instant::now() < until {
        let mut i = 0;
        while Instant::now() < until {
            let p = parts(b, b'\n');
            if i >= p.len() {
                break;
            }
            if !try_cut(b, (p[i].0, p[(i + run - 1).min(p.len() - 1)].1)) {
                i += run;
            }
        }
        run /= 2;
    }
    let mut i = 0;
    while Instant::now() < until {
        let p = parts(b, b'\t');
        if i >= p.len() {
            break;
        }
        if !try_cut(b, p[i]) {
            i += 1;
        }
    }
    let mut run = b.len() / 2;
    while run > 0 && Instant::now() < until {
        let mut i = 0;
        while i < b.len() && Instant::now() < until {
            let to = (i + run).min(b.len());
            if !try_cut(b, (i, to)) {
                i += run;
            }
        }
        run /= 2;
    }
}

/// The smallest case found for which `holds` is still true.
pub fn reduce(case: &Case, holds: &mut dyn FnMut(&Case) -> bool) -> Case {
    let mut case = case.clone();
    let until = Instant::now() + PATIENCE;
    if case.add.is_some() {
        let bare = Case { add: None, ..case.clone() };
        if holds(&bare) {
            case = bare;
        }
    }
    loop {
        let before = case.len();
        let mut text = case.text.clone();
        shrink(&mut text, until, &mut |t| holds(&Case { text: t.to_vec(), ..case.clone() }));
        case.text = text;
        if let Some((mut p, mut f)) = case.add.clone() {
            shrink(&mut p, until, &mut |p| holds(&Case { add: Some((p.to_vec(), f.clone())), ..case.clone() }));
            shrink(&mut f, until, &mut |f| holds(&Case { add: Some((p.clone(), f.to_vec())), ..case.clone() }));
            case.add = Some((p, f));
        }
        if let Some(mut list) = case.list.clone() {
            shrink(&mut list, until, &mut |l| holds(&Case { list: Some(l.to_vec()), ..case.clone() }));
            case.list = Some(list);
        }
        if case.len() == before || Instant::now() >= until {
            return case;
        }
    }
}

//! Merges made by chance, good ones and damaged ones, and a second writing of document 02's rule for them over the crate's headers.

use std::{collections::BTreeMap, fmt};

use library::Refusal;
use oracle::{
    Header, Parent,
    inputs::{self, Rng},
};

/// Which of the three texts a refusal is about: 1 for A, 2 for B, 3 for the merged one, 0 for none.
type Verdict = Result<(), (u32, u32, u32)>;

pub struct Merge {
    pub texts: [Vec<u8>; 3],
    pub lists: [Vec<u32>; 2],
}

impl fmt::Display for Merge {
    fn fmt(&self, f: &mut fmt::Formatter<'_>) -> fmt::Result {
        let [a, b, m] = self.texts.each_ref().map(|t| t.escape_ascii());
        write!(f, "\"{a}\" and \"{b}\" to \"{m}\" by {:?} and {:?}", self.lists[0], self.lists[1])
    }
}

// ---- the rule

/// Names and lengths, in order.
fn references(header: &Header) -> Vec<(&[u8], usize)> {
    header.reference_sequences().iter().map(|(name, map)| (&name[..], map.length().get())).collect()
}

/// A program's fields besides ID and PP, in order.
fn fields(header: &Header, i: usize) -> Vec<([u8; 2], &[u8])> {
    let (_, map) = header.programs().as_ref().get_index(i).expect("a program");
    let all = map.other_fields().iter().map(|(tag, value)| (*tag.as_ref(), &value[..]));
    all.filter(|(tag, _)| tag != b"PP").collect()
}

/// 22 for a PP that names no program, 23 for a chain that does not end.
fn tangled(parents: &[Parent]) -> Option<u32> {
    if parents.contains(&Parent::Nobody) {
        return Some(22);
    }
    let ends = |start: usize| {
        let mut at = start;
        for _ in 0..=parents.len() {
            match parents[at] {
                Parent::Program(p) => at = p,
                _ => return true,
            }
        }
        false
    };
    (!(0..parents.len()).all(ends)).then_some(23)
}

fn is_joined(a: &Header, b: &Header, m: &Header) -> bool {
    let (a, b) = (references(a), references(b));
    let length: BTreeMap<&[u8], usize> = a.iter().copied().collect();
    let shared = |(name, n): &(&[u8], usize)| length.get(name).is_none_or(|have| have == n);
    let lacking = b.iter().filter(|(name, _)| !length.contains_key(name));
    b.iter().all(shared) && references(m) == a.iter().chain(lacking).copied().collect::<Vec<_>>()
}

fn are_lists(counts: [usize; 3], lists: &[Vec<u32>; 2]) -> bool {
    let mut hit = vec![false; counts[2]];
    for (list, &n) in lists.iter().zip(&counts) {
        let mut own = vec![false; counts[2]];
        for &k in list {
            match own.get_mut(k as usize) {
                Some(met) if !*met => *met = true,
                _ => return false,
            }
            hit[k as usize] = true;
        }
        if list.len() != n {
            return false;
        }
    }
    hit.into_iter().all(|h| h)
}

fn are_images(text: &Header, m: &Header, list: &[u32]) -> bool {
    let (own, images) = (oracle::parents(text), oracle::parents(m));
    list.iter().enumerate().all(|(i, &k)| {
        let parent = match own[i] {
            Parent::Program(p) => Parent::Program(list[p] as usize),
            other => other,
        };
        images[k as usize] == parent && fields(text, i) == fields(m, k as usize)
    })
}

/// Reading's refusals are reading's own, which other phases compare. None where the crate refuses a text that reading takes.
fn judged(merge: &Merge) -> Option<Verdict> {
    let mut room = Vec::new();
    for (text, about) in merge.texts.iter().zip(1..) {
        room.resize(3 * text.len() + 1, 0);
        if let Err(Refusal { number, line }) = library::read(text, &mut room) {
            return Some(Err((number, line, about)));
        }
    }
    let [a, b, m] = merge.texts.each_ref().map(|t| oracle::parse_lax(t));
    let (a, b, m) = (a.ok()?, b.ok()?, m.ok()?);
    for (header, about) in [&a, &b, &m].into_iter().zip(1..) {
        if let Some(number) = tangled(&oracle::parents(header)) {
            return Some(Err((number, 0, about)));
        }
    }
    let count = |h: &Header| h.programs().as_ref().len();
    Some(if !is_joined(&a, &b, &m) {
        Err((30, 0, 0))
    } else if !are_lists([count(&a), count(&b), count(&m)], &merge.lists) {
        Err((31, 0, 0))
    } else if !(are_images(&a, &m, &merge.lists[0]) && are_images(&b, &m, &merge.lists[1])) {
        Err((32, 0, 0))
    } else {
        Ok(())
    })
}

// ---- merges by chance

#[derive(Clone)]
struct Program {
    fields: Vec<(&'static str, String)>,
    parent: Option<usize>,
}

#[derive(Clone, Default)]
struct Made {
    references: Vec<(String, usize)>,
    programs: Vec<Program>,
    ids: Vec<String>,
}

fn program(rng: &mut Rng, i: usize) -> Program {
    let mut fields = Vec::new();
    for tag in ["PN", "VN", "CL", "DS", "zz"] {
        if rng.one_in(2) {
            fields.push((tag, (*rng.of(&["a", "b", "x y", "1.0", "-"])).to_string()));
        }
    }
    rng.shuffle(&mut fields);
    Program { fields, parent: (i > 0 && !rng.one_in(3)).then(|| rng.below(i)) }
}

fn made(rng: &mut Rng, mark: &str) -> Made {
    let most = if rng.one_in(30) { 300 } else { 6 };
    let references = (0..rng.below(most)).map(|i| (format!("{mark}{i}"), 1 + rng.below(9))).collect();
    let programs: Vec<Program> = (0..rng.below(5)).map(|i| program(rng, i)).collect();
    let ids = (0..programs.len()).map(|i| format!("{mark}{i}")).collect();
    Made { references, programs, ids }
}

/// The text: programs in the given order, PP anywhere in the line, other lines between.
fn text(rng: &mut Rng, made: &Made, order: &[usize]) -> Vec<u8> {
    let mut lines: Vec<String> = made
        .references
        .iter()
        .map(|(n, l)| if rng.one_in(2) { format!("@SQ\tSN:{n}\tLN:{l}") } else { format!("@SQ\tLN:{l}\tM5:q\tSN:{n}") })
        .collect();
    for &i in order {
        let p = &made.programs[i];
        let mut f: Vec<String> = p.fields.iter().map(|(t, v)| format!("{t}:{v}")).collect();
        f.insert(rng.below(f.len() + 1), format!("ID:{}", made.ids[i]));
        if let Some(parent) = p.parent {
            f.insert(rng.below(f.len() + 1), format!("PP:{}", made.ids[parent]));
        }
        let at = if rng.one_in(3) { rng.below(lines.len() + 1) } else { lines.len() };
        // Only whole runs keep the order of the programs.
        let at = if lines[at..].iter().any(|l| l.starts_with("@PG")) { lines.len() } else { at };
        lines.insert(at, format!("@PG\t{}", f.join("\t")));
    }
    for extra in ["@CO\tnote", "@RG\tID:lane"] {
        if rng.one_in(3) {
            lines.insert(rng.below(lines.len() + 1), extra.into());
        }
    }
    if rng.one_in(2) {
        lines.insert(0, (*rng.of(&["@HD\tVN:1.6", "@HD\tVN:1.5", "@HD\tVN:1.0\tSO:x"])).into());
    }
    let end = *rng.of(&["\n", "\r\n"]);
    lines.iter().flat_map(|l| [l.as_bytes(), end.as_bytes()].concat()).collect()
}

/// A good merge: B has some of A's references and programs, and what both have may have one image or two.
fn merged(rng: &mut Rng) -> (Merge, [Made; 3]) {
    let (a, mut b) = (made(rng, "a"), made(rng, "b"));
    let in_order = !rng.one_in(3);
    let mut shared: Vec<_> = a.references.iter().filter(|_| rng.one_in(2)).cloned().collect();
    if !in_order {
        rng.shuffle(&mut shared);
    }
    for r in shared.into_iter().rev() {
        let at = if in_order { 0 } else { rng.below(b.references.len() + 1) };
        b.references.insert(at, r);
    }
    let both = rng.one_in(2) && !a.programs.is_empty();
    if both {
        // B starts with A's programs.
        for p in &mut b.programs {
            p.parent = p.parent.map(|k| k + a.programs.len());
        }
        b.programs.splice(0..0, a.programs.iter().cloned());
        b.ids = (0..b.programs.len()).map(|i| format!("q{i}")).collect();
    }
    let apart = if both && !rng.one_in(3) { a.programs.len() } else { 0 };
    let mut m = Made::default();
    m.references = a.references.clone();
    m.references.extend(b.references.iter().filter(|(n, _)| !a.references.iter().any(|(o, _)| o == n)).cloned());
    let place = |k: usize| if k < apart { k } else { a.programs.len() + k - apart };
    m.programs = a.programs.clone();
    m.programs.extend(b.programs[apart..].iter().map(|p| Program { fields: p.fields.clone(), parent: p.parent.map(place) }));
    m.ids = (0..m.programs.len()).map(|i| format!("m{i}")).collect();
    let mut order: Vec<usize> = (0..m.programs.len()).collect();
    if rng.one_in(2) {
        rng.shuffle(&mut order);
    }
    let mut ordinal = vec![0; order.len()];
    order.iter().enumerate().for_each(|(at, &k)| ordinal[k] = at as u32);
    let lists = [ordinal[..a.programs.len()].to_vec(), (0..b.programs.len()).map(|k| ordinal[place(k)]).collect()];
    let plain = |n: usize| (0..n).collect::<Vec<_>>();
    let texts = [text(rng, &a, &plain(a.programs.len())), text(rng, &b, &plain(b.programs.len())), text(rng, &m, &order)];
    (Merge { texts, lists }, [a, b, m])
}

/// One of the parts of a header changed: a reference, a field or a parent.
fn altered(rng: &mut Rng, made: &mut Made) {
    match rng.below(5) {
        0 if !made.references.is_empty() => {
            let i = rng.below(made.references.len());
            match rng.below(4) {
                0 => made.references[i].1 += 1,
                1 => made.references[i].0.push('x'),
                2 => drop(made.references.remove(i)),
                _ => made.references.swap(i, 0),
            }
        }
        1 => made.references.push(("more".into(), 5)),
        2 if !made.programs.is_empty() => {
            let n = made.programs.len();
            let p = &mut made.programs[rng.below(n)];
            p.parent = if p.parent.is_some() && rng.one_in(3) { None } else { Some(rng.below(n)) };
        }
        3 if !made.programs.is_empty() => {
            let n = made.programs.len();
            let f = &mut made.programs[rng.below(n)].fields;
            match rng.below(3) {
                0 if f.len() > 1 => f.swap(0, 1),
                1 if !f.is_empty() => f[0].1.push('+'),
                _ => f.push(("yy", "1".into())),
            }
        }
        _ => {
            made.programs.push(Program { fields: Vec::new(), parent: None });
            made.ids.push("another".into());
        }
    }
}

/// A PP that names nobody.
fn dangling(text: &[u8]) -> Vec<u8> {
    [text, if text.is_empty() || text.ends_with(b"\n") { b"" } else { b"\n" }, b"@PG\tID:lost\tPP:nobody\n"].concat()
}

pub fn by_chance(rng: &mut Rng) -> Merge {
    let (mut merge, mut parts) = merged(rng);
    match rng.below(12) {
        0..4 => {}
        4..7 => {
            let which = rng.below(3);
            altered(rng, &mut parts[which]);
            let order: Vec<usize> = (0..parts[which].programs.len()).collect();
            merge.texts[which] = text(rng, &parts[which], &order);
        }
        7..9 => {
            let list = &mut merge.lists[rng.below(2)];
            let high = parts[2].programs.len() as u32;
            match rng.below(4) {
                0 => drop(list.pop()),
                1 => list.push(rng.below(high as usize + 2) as u32),
                2 if list.len() > 1 => list.swap(0, 1),
                _ if !list.is_empty() => {
                    let i = rng.below(list.len());
                    list[i] = if rng.one_in(4) { u32::MAX } else { rng.below(high as usize + 1) as u32 };
                }
                _ => list.push(0),
            }
        }
        9 => {
            let which = rng.below(3);
            merge.texts[which] = dangling(&merge.texts[which]);
        }
        _ => {
            let which = rng.below(3);
            merge.texts[which] = inputs::damaged(rng, &merge.texts[which]);
        }
    }
    merge
}

/// How often both sides agreed, by the refusal's number and the text that it is about.
#[derive(Default)]
pub struct Tally {
    agreed: BTreeMap<(u32, u32), u64>,
    skipped: u64,
}

impl Tally {
    /// What differs, if something does.
    pub fn compare(&mut self, merge: &Merge) -> Option<String> {
        let [a, b, m] = &merge.texts;
        let got =
            library::judge_merge(a, b, m, &merge.lists[0], &merge.lists[1]).map_err(|(r, about)| (r.number, r.line, about));
        let Some(due) = judged(merge) else {
            self.skipped += 1;
            return None;
        };
        if got != due {
            return Some(format!("{got:?} in place of {due:?}: {merge}"));
        }
        let key = due.err().map_or((0, 0), |(number, _, about)| (number, about));
        *self.agreed.entry(key).or_default() += 1;
        None
    }
}

impl fmt::Display for Tally {
    fn fmt(&self, f: &mut fmt::Formatter<'_>) -> fmt::Result {
        if self.agreed.is_empty() {
            return Ok(());
        }
        write!(f, "  judge_merge:")?;
        for ((number, about), n) in &self.agreed {
            match (number, about) {
                (0, _) => write!(f, " accepted {n}")?,
                (_, 0) => write!(f, ", {number}: {n}")?,
                _ => write!(f, ", {number} for {}: {n}", ["", "A", "B", "merged"][*about as usize])?,
            }
        }
        writeln!(f, "; not compared, since the crate refuses a text: {}", self.skipped)
    }
}

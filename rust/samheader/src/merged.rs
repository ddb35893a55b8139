//! Judges a merge. Where the lists are not given they are looked for: the search is not trusted, the verdict on what it finds is the proved call's.
use crate::output::{self, put, shown, Stop};
use crate::{fault, header, judged, load, Done};
use sam_header::{judge_merge, Chains, Found, Header, Program, Unmerged, Which};
use std::fmt::Write;
use std::path::Path;

/// How many tries a search makes at most.
const TRIES: usize = 100_000;

type Lists = [Vec<u32>; 2];

/// The programs of a header, with what an image must have: its fields but for ID and PP.
struct Programs<'h> {
    all: Vec<Program<'h>>,
    shapes: Vec<Vec<([u8; 2], &'h [u8])>>,
    parents: Vec<Option<u32>>,
    /// Each program comes after its parent.
    order: Vec<usize>,
}

impl<'h> Programs<'h> {
    fn of(header: &'h Header, chains: &Chains) -> Self {
        let all: Vec<_> = header.programs().collect();
        let shapes = all.iter().map(|program| program.fields().filter(|(tag, _)| tag != b"PP").collect()).collect();
        let parents = chains.nodes.iter().map(|node| node.parent().map(|parent| parent.0)).collect();
        let mut order: Vec<_> = (0..all.len()).collect();
        order.sort_by_key(|&i| chains.nodes[i].depth);
        Programs { all, shapes, parents, order }
    }
}

/// A search for the lists, one program of A and then of B after the other.
struct Search<'s, 'h> {
    from: [&'s Programs<'h>; 2],
    merged: &'s Programs<'h>,
    lists: Lists,
    /// How many programs of A and of B each merged program is the image of.
    hits: Vec<[bool; 2]>,
    tries: usize,
    /// How many merged programs have fields that none of A and B has: with any of them no list is accepted, and the others are placed to show this.
    extra: usize,
    /// The furthest that it came, and what could not be placed there.
    furthest: (usize, usize, usize),
}

const NONE: u32 = u32::MAX;

impl Search<'_, '_> {
    /// What may be the image of a program whose parent has its image: first one that no program has yet, first of those the one with the same ID.
    fn candidates(&self, which: usize, program: usize) -> Vec<usize> {
        let (from, merged) = (self.from[which], self.merged);
        let parent = from.parents[program].map(|parent| self.lists[which][parent as usize]);
        let fits = |&image: &usize| {
            !self.hits[image][which] && merged.parents[image] == parent && merged.shapes[image] == from.shapes[program]
        };
        let mut found: Vec<_> = (0..merged.all.len()).filter(fits).collect();
        found.sort_by_key(|&image| (which == 1 && self.hits[image][0], merged.all[image].id() != from.all[program].id()));
        found
    }

    fn place(&mut self, step: usize) -> bool {
        let first = self.from[0].order.len();
        let (which, at) = if step < first { (0, step) } else { (1, step - first) };
        let Some(&program) = self.from[which].order.get(at) else {
            self.furthest = (step, 0, 0);
            return self.extra > 0 || self.hits.iter().all(|hit| hit[0] || hit[1]);
        };
        if step >= self.furthest.0 {
            self.furthest = (step, which, program);
        }
        for image in self.candidates(which, program) {
            self.tries += 1;
            if self.tries > TRIES {
                return false;
            }
            self.lists[which][program] = image as u32;
            self.hits[image][which] = true;
            if self.place(step + 1) {
                return true;
            }
            self.lists[which][program] = NONE;
            self.hits[image][which] = false;
        }
        false
    }
}

/// One line of ordinals for A and one for B.
fn given(file: &Path) -> Result<Lists, Stop> {
    let text = String::from_utf8_lossy(&output::read(file)?).into_owned();
    let mut lines =
        text.lines().map(|line| line.split([' ', ',', '\t']).filter(|word| !word.is_empty()).map(str::parse).collect());
    let mut list = || lines.next().unwrap_or(Ok(Vec::new())).map_err(|why: std::num::ParseIntError| Stop::on(file, why));
    Ok([list()?, list()?])
}

pub fn run(files: [&Path; 3], lists: Option<&Path>) -> Done {
    let found = [load(files[0])?, load(files[1])?, load(files[2])?];
    let judge = |lists: &Lists| judge_merge(found[0].text(), found[1].text(), found[2].text(), &lists[0], &lists[1]);
    for (file, found) in files.iter().zip(&found) {
        judged(file, found, found.check_list())?;
    }
    if let Some(file) = lists {
        let lists = given(file)?;
        return judge(&lists).map_or_else(|why| Err(refused(files, &found, why)), |()| accepted(None));
    }
    // A text that is refused, or references that do not fit together, are reported before any list is looked at.
    if let Err(why @ (Unmerged::Text(..) | Unmerged::Together(..))) = judge(&Lists::default()) {
        if !matches!(why, Unmerged::Together(refusal) if refusal.number == 31) {
            return Err(refused(files, &found, why));
        }
    }
    let headers = [header(files[0], &found[0])?, header(files[1], &found[1])?, header(files[2], &found[2])?];
    let mut all = Vec::new();
    for (i, header) in headers.iter().enumerate() {
        all.push(Programs::of(header, &judged(files[i], &found[i], header.chains())?));
    }
    let lists = [vec![NONE; all[0].all.len()], vec![NONE; all[1].all.len()]];
    let hits = vec![[false; 2]; all[2].all.len()];
    let extra = extra([&all[0], &all[1]], &all[2]);
    let (from, furthest) = ([&all[0], &all[1]], (0, 0, 0));
    let mut search = Search { from, merged: &all[2], lists, hits, tries: 0, extra: extra.len(), furthest };
    if search.place(0) && judge(&search.lists).is_ok() {
        return accepted(Some(&search.lists));
    }
    Err(Stop::Refused(stopped(files, &search, &extra, judge(&search.lists))))
}

fn accepted(lists: Option<&Lists>) -> Done {
    let mut said = String::from("accepted: the merge is a good one\n");
    for (name, list) in ["A", "B"].iter().zip(lists.into_iter().flatten()) {
        let list: Vec<_> = list.iter().map(u32::to_string).collect();
        let _ = writeln!(said, "{name}: {}", list.join(" "));
    }
    put(said.as_bytes(), None).map(|()| true)
}

fn refused(files: [&Path; 3], found: &[Found; 3], why: Unmerged) -> Stop {
    Stop::Refused(match why {
        Unmerged::Together(refusal) => fault::whole(files[2], refusal),
        Unmerged::Text(which, refusal) => {
            let i = match which {
                Which::A => 0,
                Which::B => 1,
                Which::Merged => 2,
            };
            fault::of(files[i], found[i].text(), refusal)
        }
    })
}

/// No lists were found: what is in the way.
fn stopped(files: [&Path; 3], search: &Search, extra: &[&Program], verdict: Result<(), Unmerged>) -> String {
    let mut said = format!("{}: no lists were found with which the merge is accepted\n", files[2].display());
    if search.tries > TRIES {
        let _ = writeln!(said, "  the search ended after {TRIES} tries: give the lists with --lists");
    }
    let (step, which, program) = search.furthest;
    if let Some(shape) =
        search.from[which].shapes.get(program).filter(|_| step < search.from[0].all.len() + search.from[1].all.len())
    {
        let program = &search.from[which].all[program];
        let why = if search.merged.shapes.contains(shape) {
            "the merged programs with its fields have other parents, or are taken"
        } else {
            "no merged program has its fields"
        };
        let _ = writeln!(said, "  {}:{}: {}: {why}", files[which].display(), program.line(), shown(program.id()));
    }
    for program in extra {
        let own = if is_samtools_merge(program) { ": samtools' own @PG of the merge; ask it for --no-PG" } else { "" };
        let _ = writeln!(
            said,
            "  {}:{}: {} comes from neither header{own}",
            files[2].display(),
            program.line(),
            shown(program.id())
        );
    }
    if let Err(why) = verdict {
        let _ = writeln!(said, "  {why}");
    }
    said
}

/// Merged programs with fields that no program of A or B has.
fn extra<'s, 'h>(from: [&Programs; 2], merged: &'s Programs<'h>) -> Vec<&'s Program<'h>> {
    let known = |shape| from.iter().any(|from| from.shapes.contains(shape));
    merged.all.iter().zip(&merged.shapes).filter(|(_, shape)| !known(shape)).map(|(program, _)| program).collect()
}

fn is_samtools_merge(program: &Program) -> bool {
    let command = program.get(b"CL").unwrap_or_default();
    program.get(b"PN") == Some(b"samtools") && command.split(|&b| b == b' ').any(|word| word == b"merge")
}

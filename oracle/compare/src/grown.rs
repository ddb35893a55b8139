//! What an accepted add does to the chains, seen in the crate's tables before it and of the text that was written (request 11).

use std::collections::BTreeSet;

use oracle::{Header, Leaves, Parent};

/// The parent links from each program to its root.
fn depths(parents: &[Parent]) -> Vec<usize> {
    let depth = |mut i: usize| {
        let mut d = 0;
        while let Parent::Program(p) = parents[i] {
            (i, d) = (p, d + 1);
        }
        d
    };
    (0..parents.len()).map(depth).collect()
}

/// The crate's leaves of a header to which programs may be added.
fn leaves(header: &Header) -> Vec<usize> {
    match oracle::leaves(header) {
        Leaves::List(list) => list,
        other => unreachable!("add was accepted, and the leaves are {other:?}"),
    }
}

pub enum Grown {
    Right,
    /// The header had no programs.
    Unasked,
    Wrong(String),
}

/// The chains after an add to a header with programs. Without a given PP the leaves are the new programs, as many as before, and
/// each old leaf is the parent of one of them; with one the leaves are the new programs and the old leaves but the one that it names, which is the
/// parent of all new ones. The roots and the depths of the old programs are the same.
pub fn grown(before: &Header, after: &Header, given: Parent) -> Grown {
    let (old, all) = (oracle::parents(before), oracle::parents(after));
    let n = old.len();
    if n == 0 {
        return Grown::Unasked;
    }
    let old_leaves = leaves(before);
    let new_leaves = leaves(after);
    let told: BTreeSet<usize> = new_leaves.iter().copied().collect();
    let stay = old_leaves.iter().copied().filter(|&k| !matches!(given, Parent::Absent) && given != Parent::Program(k));
    let due: BTreeSet<usize> = (n..all.len()).chain(stay).collect();
    if told != due || told.len() != new_leaves.len() {
        return Grown::Wrong(format!("leaves after add: {new_leaves:?}, wanted {due:?}"));
    }
    if given == Parent::Absent && new_leaves.len() != old_leaves.len() {
        return Grown::Wrong(format!("{} leaves after add, {} before", new_leaves.len(), old_leaves.len()));
    }
    if oracle::roots(after) != oracle::roots(before) {
        return Grown::Wrong("add changed the roots".into());
    }
    if depths(&all)[..n] != depths(&old) {
        return Grown::Wrong("add changed the depth of a program".into());
    }
    let parents: Vec<Parent> = match given {
        Parent::Absent => old_leaves.iter().map(|&k| Parent::Program(k)).collect(),
        named => vec![named; old_leaves.len()],
    };
    if all[n..] != parents {
        return Grown::Wrong(format!("parents of the new programs: {:?}, wanted {parents:?}", &all[n..]));
    }
    Grown::Right
}

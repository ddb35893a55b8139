//! What pruning a header must leave: the crate's table of programs without those that nobody needs. The crate has no such call: which
//! programs are needed is worked out here, from the parents in its tables, and its own table and writer do the rest.

use oracle::{Header, Parent, inputs::Rng};

/// Ordinals in use, of `n` programs: none, all, some by chance with one of them twice, a single one, and a list with an ordinal that no program has.
pub fn lists(n: usize, rng: &mut Rng) -> Vec<Vec<u32>> {
    let mut all = vec![Vec::new()];
    if n > 0 {
        all.push((0..n as u32).rev().collect());
        let mut some: Vec<u32> = (0..1 + rng.below(4)).map(|_| rng.below(n) as u32).collect();
        some.push(*rng.of(&some));
        all.push(some);
        all.push(vec![rng.below(n) as u32]);
    }
    let mut high = rng.of(&all).clone();
    high.truncate(8);
    let over = if rng.one_in(4) { u32::MAX } else { (n + rng.below(2)) as u32 };
    high.insert(rng.below(high.len() + 1), over);
    all.push(high);
    all
}

/// The header with the programs in use and their ancestors alone. Nothing dangles, and no chain leads into a cycle.
pub fn pruned(header: &Header, parents: &[Parent], used: &[u32]) -> Header {
    let mut needed = vec![false; parents.len()];
    for &u in used {
        let mut at = u as usize;
        needed[at] = true;
        while let Parent::Program(p) = parents[at] {
            needed[p] = true;
            at = p;
        }
    }
    let mut header = header.clone();
    let mut ordinals = needed.iter();
    header.programs_mut().as_mut().retain(|_, _| *ordinals.next().expect("as many programs as parents"));
    header
}

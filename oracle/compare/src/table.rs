//! The leaves by a table: what the second engine must leave, and how it is asked for it.
//!
//! The table is made here from the crate's own parents, each depth counted by a walk to the root. What is written and answered beside it is what the
//! first engine must give for the same text, catalogue and output.

use library::{Answer, Lent, Node, Refusal};
use oracle::Parent;

/// The parent of a program without PP.
const NOBODY: u32 = u32::MAX;

/// The record of each program. The walks end: this is asked where there is no cycle and nothing dangles.
pub fn nodes(parents: &[Parent]) -> Vec<Node> {
    let up = |i: usize| if let Parent::Program(p) = parents[i] { Some(p) } else { None };
    let depth = |i: usize| std::iter::successors(up(i), |&k| up(k)).count() as u32;
    (0..parents.len()).map(|i| Node { parent: up(i).map_or(NOBODY, |p| p as u32), depth: depth(i) }).collect()
}

/// What an answer leaves: the leaves, the number that is returned, and the table.
pub struct Tabled<'a> {
    pub leaves: &'a [u32],
    pub answer: u64,
    pub nodes: &'a [Node],
}

/// An output and a table, kept from case to case.
#[derive(Default)]
pub struct Lender {
    out: Lent<u32>,
    table: Lent<Node>,
}

impl Lender {
    /// Asks with an output and a table that are longer than the answer, exactly as long, one short, and empty. A short one is 20, and no refusal
    /// changes an element. Says what is wrong, if anything.
    pub fn ask(
        &mut self,
        want: &Result<Tabled<'_>, Refusal>,
        mut run: impl FnMut(&mut [Node], &mut [u32]) -> Answer,
    ) -> Option<String> {
        let (n, m) = want.as_ref().map_or((0, 0), |w| (w.leaves.len(), w.nodes.len()));
        let less = |len: usize| len.saturating_sub(1);
        let lengths = [(n + 9, m + 9), (n, m), (less(n), m), (n, less(m)), (n + 9, less(m)), (n, 0), (0, m), (0, 0)];
        for (i, &(room, seats)) in lengths.iter().enumerate() {
            if lengths[..i].contains(&(room, seats)) {
                continue;
            }
            let due = match want {
                Ok(_) if room < n || seats < m => Err(Refusal { number: 20, line: 0 }),
                Ok(w) => Ok(w),
                Err(r) => Err(*r),
            };
            let got = run(self.table.lend(seats), self.out.lend(room));
            if let Some(what) = self.wrong(got, &due) {
                return Some(format!("an output of {room} and a table of {seats}: {what}"));
            }
        }
        None
    }

    // Holds one answer, and what was lent, to what is due.
    fn wrong(&self, got: Answer, due: &Result<&Tabled<'_>, Refusal>) -> Option<String> {
        let (leaves, nodes): (&[u32], &[Node]) = due.as_ref().map_or((&[], &[]), |w| (w.leaves, w.nodes));
        let due = due.as_ref().map(|w| w.answer).map_err(|r| *r);
        if got != due {
            Some(format!("{got:?}, wanted {due:?}"))
        } else if self.out.front(leaves.len()) != leaves {
            Some(format!("{:?}, wanted {leaves:?}", self.out.front(leaves.len())))
        } else if self.table.front(nodes.len()) != nodes {
            Some(format!("the table {:?}, wanted {nodes:?}", self.table.front(nodes.len())))
        } else if !self.out.kept_from(leaves.len()) || !self.table.kept_from(nodes.len()) {
            Some("something past the leaves or the table was changed".into())
        } else {
            None
        }
    }
}

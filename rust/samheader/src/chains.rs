//! The programs as a tree.
use crate::output::{cut, dim, put, red, shown};
use crate::{fault, header, load, Done};
use sam_header::{Header, LineNo, Program, Refusal};
use serde_json::json;
use std::collections::HashMap;
use std::path::Path;

/// The programs, each one's parent, and the faults of their PPs.
struct Forest<'h> {
    programs: Vec<Program<'h>>,
    parents: Vec<Option<usize>>,
    faults: HashMap<LineNo, Refusal>,
}

impl<'h> Forest<'h> {
    /// Where the chains are in order the parents are the proved call's; else a PP that names no program, or leads back, has no parent here and is marked.
    fn of(header: &'h Header) -> Self {
        let programs: Vec<_> = header.programs().collect();
        if let Ok(chains) = header.chains() {
            let parents = chains.nodes.iter().map(|node| node.parent().map(|parent| parent.0 as usize)).collect();
            return Forest { programs, parents, faults: HashMap::new() };
        }
        let found = sam_header::faults(header.text()).unwrap_or_default();
        let faults: HashMap<_, _> = found
            .into_iter()
            .filter(|fault| matches!(fault.number, 22 | 23))
            .filter_map(|fault| Some((fault.line?, fault)))
            .collect();
        let by_id: HashMap<_, _> = programs.iter().enumerate().map(|(i, program)| (program.id(), i)).collect();
        let parent = |program: &Program| {
            program.get(b"PP").filter(|_| !faults.contains_key(&program.line())).and_then(|pp| by_id.get(pp).copied())
        };
        let parents = programs.iter().map(parent).collect();
        Forest { programs, parents, faults }
    }

    fn children(&self) -> HashMap<Option<usize>, Vec<usize>> {
        let mut children: HashMap<_, Vec<_>> = HashMap::new();
        for (i, parent) in self.parents.iter().enumerate() {
            children.entry(*parent).or_default().push(i);
        }
        children
    }

    /// ID, version and the front of the command line; and what is wrong with its PP.
    fn label(&self, i: usize) -> String {
        let program = &self.programs[i];
        let field = |tag, before: &str, most| {
            program.get(tag).map_or_else(String::new, |value| format!("{before}{}", cut(&shown(value), most)))
        };
        let fault = self.faults.get(&program.line()).map(|fault| {
            let pp = program.get(b"PP").map(shown).unwrap_or_default();
            red(&format!("  line {}: PP:{pp}: {} [{} {}]", program.line(), fault.meaning(), fault.number, fault.name()))
        });
        format!("{}{}{}{}", shown(program.id()), field(b"VN", " ", 30), dim(&field(b"CL", "  ", 60)), fault.unwrap_or_default())
    }

    fn tree(&self) -> String {
        let children = self.children();
        let below = |of| children.get(&of).map(Vec::as_slice).unwrap_or_default();
        let mut out = String::new();
        let mut todo: Vec<(usize, String, String)> =
            below(None).iter().rev().map(|&i| (i, String::new(), String::new())).collect();
        while let Some((i, own, rest)) = todo.pop() {
            out += &format!("{own}{}\n", self.label(i));
            for (k, &child) in below(Some(i)).iter().enumerate().rev() {
                let (branch, line) = if k + 1 == below(Some(i)).len() { ("└─ ", "   ") } else { ("├─ ", "│  ") };
                todo.push((child, format!("{rest}{branch}"), format!("{rest}{line}")));
            }
        }
        out
    }

    fn dot(&self) -> String {
        let quoted = |bytes: &[u8]| format!("{:?}", shown(bytes));
        let mut out = String::from("digraph programs {\n    rankdir=LR\n    node [shape=box]\n");
        for (i, program) in self.programs.iter().enumerate() {
            let color = if self.faults.contains_key(&program.line()) { " [color=red]" } else { "" };
            out += &format!("    {}{color}\n", quoted(program.id()));
            if let Some(parent) = self.parents[i] {
                out += &format!("    {} -> {}\n", quoted(self.programs[parent].id()), quoted(program.id()));
            }
        }
        out + "}\n"
    }
}

pub fn run(file: &Path, dot: bool, json: bool) -> Done {
    let found = load(file)?;
    let header = header(file, &found)?;
    let forest = Forest::of(&header);
    let out = if json {
        let chains = header.chains();
        let depth = |i: usize| chains.as_ref().ok().and_then(|chains| chains.nodes.get(i)).map(|node| node.depth);
        let lines = fault::Lines::of(header.text());
        let program = |(i, program): (usize, &Program)| {
            let parent = forest.parents[i].map(|parent| shown(forest.programs[parent].id()));
            let fault = forest.faults.get(&program.line()).map(|fault| fault::json(&lines, *fault));
            let mut all = json!({ "id": shown(program.id()), "line": u64::from(program.line().0) + 1, "parent": parent, "depth": depth(i) });
            if let Some(fault) = fault {
                all["fault"] = fault;
            }
            all
        };
        let programs: Vec<_> = forest.programs.iter().enumerate().map(program).collect();
        let leaves = chains
            .as_ref()
            .ok()
            .map(|chains| chains.leaves.iter().map(|leaf| crate::program_name(&header, *leaf)).collect::<Vec<_>>());
        format!(
            "{}\n",
            json!({ "programs": programs, "leaves": leaves, "hops": chains.as_ref().ok().map(|chains| chains.hops) })
        )
    } else if dot {
        forest.dot()
    } else {
        forest.tree()
    };
    put(out.as_bytes(), None)?;
    Ok(forest.faults.is_empty())
}

//! Shortest paths, against plain Rust that checks as well and then searches; and against the check alone.
use crate::programs::{accepted, ending_unreachably, sharing, straight, three_words, Program};
use crate::reference::{decode, paths as plain, Op, Technique};
use crate::timing::{measure, Table, Times};
use crate::{library, GOAL};
use post_guard as guard;

/// what is counted where no path leads to the address
const UNREACHABLE: usize = usize::MAX;

/// A program, an address in it, and the place that is lent for the path.
struct Asked {
    technique: Technique,
    program: Program,
    address: u64,
    path: Vec<u16>,
}

impl Asked {
    /// how many addresses the path has
    fn shortest_path(&mut self) -> usize {
        let Program { memory, n, edges } = &self.program;
        let found = guard::shortest_path_into(library(self.technique), memory, *n, edges, self.address, &mut self.path);
        found.map_or(0, |count| count.unwrap_or(UNREACHABLE))
    }

    fn plain_shortest_path(&mut self) -> usize {
        let Program { memory, n, edges } = &self.program;
        let found = plain::shortest_path_flat(self.technique, memory, *n, edges, self.address, &mut self.path);
        found.map_or(0, |count| count.unwrap_or(UNREACHABLE))
    }

    fn accepts(&self) -> bool {
        let Program { memory, n, edges } = &self.program;
        guard::check(library(self.technique), memory, *n, edges) == guard::Verdict::Accepted
    }

    fn agree(&mut self, expected: &Option<Vec<u16>>) {
        for search in [Asked::shortest_path, Asked::plain_shortest_path] {
            self.path = vec![0; 2048];
            assert_eq!(search(self), expected.as_ref().map_or(UNREACHABLE, Vec::len));
            assert!(self.path.starts_with(expected.as_deref().unwrap_or(&[])));
        }
    }
}

/// How long a path takes, and a check alone, both ours.
pub struct OverCheck {
    told: String,
    times: Times,
}

pub fn paths(table: &mut Table) -> Vec<OverCheck> {
    let mut programs = vec![(Technique::Plain, three_words())];
    for n in [64, 219, 2048] {
        programs.push((Technique::Plain, ending_unreachably(accepted(Technique::Plain, n))));
        programs.push((Technique::Plain, ending_unreachably(sharing(n))));
    }
    programs.push((Technique::Plain, ending_unreachably(straight(2048))));
    programs.push((Technique::MemoryGuards, ending_unreachably(accepted(Technique::MemoryGuards, 2048))));
    let mut over_checks = Vec::new();
    for (technique, program) in programs {
        let (n, edges) = (program.n, program.edges.len() / 2);
        let calls = program.memory[..n].iter().filter(|&&word| matches!(decode(word), Op::Call(_))).count();
        let all: Vec<u64> = (0..n as u64).collect();
        let found = plain::shortest_paths(technique, &program.memory, n, &program.edges, &all);
        let found: Vec<Option<Vec<u16>>> = found.into_iter().map(Result::unwrap).collect();
        let count = |&address: &usize| found[address].as_ref().map_or(0, Vec::len);
        let farthest = (0..n).max_by_key(count).unwrap();
        let unreachable = (0..n).find(|address| count(address) == 0).unwrap();
        let mut asked = Asked { technique, program, address: 0, path: Vec::new() };
        for address in [farthest, unreachable] {
            asked.address = address as u64;
            asked.agree(&found[address]);
            let answer = if address == farthest { format!("{} addresses", count(&farthest)) } else { "unreachable".to_string() };
            let told = format!("{technique:?}, {n} words, {edges} edges, {calls} calls: {answer}");
            let times = measure(1, &mut asked, Asked::shortest_path, Asked::plain_shortest_path);
            table.row(&format!("shortest path, {told}, flat arrays"), times, GOAL);
            let times = measure(1, &mut asked, |a| a.shortest_path() != 0, |a| a.accepts());
            over_checks.push(OverCheck { told, times });
        }
    }
    over_checks
}

pub fn print_over_checks(over_checks: &[OverCheck]) {
    println!("\n| shortest path against check | path | check | ratio |");
    println!("|---|---|---|---|");
    for OverCheck { told, times: Times { ours, theirs } } in over_checks {
        println!("| {told} | {ours:.0} | {theirs:.0} | {:.2} |", ours / theirs);
    }
}

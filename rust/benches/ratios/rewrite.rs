//! Guards put in for the installer, against plain Rust; and against the check of what comes out.
use crate::programs::{bare, bare_post, Program};
use crate::reference::{checkers, rewrite as plain, Technique};
use crate::timing::{measure, Table, Times};
use crate::{numbers, GOAL};
use post_guard as guard;

/// A bare program, and the places that are lent for what comes out.
struct Bare {
    program: Program,
    code: Vec<u64>,
    edges: Vec<u16>,
    map: Vec<u16>,
}

impl Bare {
    fn of(program: Program) -> Bare {
        Bare { program, code: vec![0; 2048], edges: vec![0; 4096], map: vec![0; 2048] }
    }

    fn rewrite(&mut self) -> usize {
        let Program { memory, n, edges } = &self.program;
        guard::rewrite(memory, *n, edges, &mut self.code, &mut self.edges, &mut self.map).unwrap_or(0)
    }

    fn plain_rewrite(&mut self) -> usize {
        let Program { memory, n, edges } = &self.program;
        plain::rewrite_flat(memory, *n, edges, &mut self.code, &mut self.edges, &mut self.map).unwrap_or(0)
    }

    /// the guarded program that stands in the places, with the same data words
    fn guarded(&self, new_n: usize) -> Program {
        let memory = [&self.code[..new_n], &self.program.memory[self.program.n..]].concat();
        Program { memory, n: new_n, edges: self.edges[..self.program.edges.len()].to_vec() }
    }

    fn agree(&mut self) -> usize {
        let new = plain::rewrite(&self.program.memory, self.program.n, &self.program.edges).unwrap();
        for rewrite in [Bare::rewrite, Bare::plain_rewrite] {
            (self.code, self.edges, self.map) = (vec![0; 2048], vec![0; 4096], vec![0; 2048]);
            assert_eq!(rewrite(self), new.code.len());
            assert!(self.code.starts_with(&new.code) && self.edges.starts_with(&new.edges) && self.map.starts_with(&new.map));
        }
        new.code.len()
    }
}

/// How long putting guards in takes, and a check of what comes out, both ours.
pub struct OverCheck {
    new_n: usize,
    edges: usize,
    times: Times,
}

pub fn rewrites(table: &mut Table) -> Vec<OverCheck> {
    let mut over_checks = Vec::new();
    let sizes = [256, 2048].into_iter().flat_map(|new_n| [bare(new_n, false), bare(new_n, true)]);
    for program in [bare_post()].into_iter().chain(sizes) {
        let (n, edges) = (program.n, program.edges.len() / 2);
        let mut lent = Bare::of(program);
        let new_n = lent.agree();
        let times = measure(1, &mut lent, Bare::rewrite, Bare::plain_rewrite);
        table.row(&format!("guards put into {n} words, {edges} edges: {new_n} words, flat arrays"), times, GOAL);
        let guarded = lent.guarded(new_n);
        assert_eq!(checkers::check(Technique::Plain, &guarded.memory, new_n, &guarded.edges), (0, 0, 0));
        let mut both = (lent, guarded);
        let check = |p: &Program| numbers(guard::check(guard::Technique::Plain, &p.memory, p.n, &p.edges)).0 as usize + p.n;
        let times = measure(1, &mut both, |b| b.0.rewrite(), |b| check(&b.1));
        over_checks.push(OverCheck { new_n, edges, times });
    }
    over_checks
}

pub fn print_over_checks(over_checks: &[OverCheck]) {
    println!("\n| putting guards in against the check of what comes out | words | edges | guards | check | ratio |");
    println!("|---|---|---|---|---|---|");
    for OverCheck { new_n, edges, times: Times { ours, theirs } } in over_checks {
        println!("| plain | {new_n} | {edges} | {ours:.0} | {theirs:.0} | {:.2} |", ours / theirs);
    }
}

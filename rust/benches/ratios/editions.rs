//! The second edition: its reader, its writer, the converters and the check on 32-bit edges, against plain Rust; and that check
//! against the one on 16-bit edges.
use crate::programs::{accepted, Program};
use crate::reference::{checkers, editions, Technique, TECHNIQUES};
use crate::timing::{measure, Table, Times};
use crate::{answer_sum, library, numbers, GOAL};
use post_guard as guard;

/// A program in both editions, its parcels, and the places that these are put and read into.
struct Editions {
    memory: Vec<u64>,
    n: usize,
    edges: Vec<u32>,
    parcel: Vec<u8>,
    wide: Vec<u8>,
    put: Vec<u8>,
    read_memory: Vec<u64>,
    read_edges: Vec<u32>,
}

impl Editions {
    fn of(program: Program) -> Editions {
        let edges = wide(&program.edges);
        let first = guard::Program { memory: program.memory, code_words: program.n, edges: program.edges };
        let parcel = first.to_parcel().unwrap();
        let wide = guard::widened(&parcel).unwrap();
        let (memory, n) = (first.memory, first.code_words);
        let put = vec![0; guard::MAX_WIDE_PARCEL];
        Editions { memory, n, edges, parcel, wide, put, read_memory: vec![0; 4096], read_edges: vec![0; 4096] }
    }

    fn write(&mut self) -> usize {
        guard::write_wide_parcel(&self.memory, self.n, &self.edges, &mut self.put).unwrap_or(0)
    }

    fn plain_write(&mut self) -> usize {
        editions::write_wide(&self.memory, self.n, &self.edges, &mut self.put).unwrap_or(0)
    }

    fn read(&mut self) -> usize {
        let counts = guard::read_wide_parcel(&self.wide, &mut self.read_memory, &mut self.read_edges);
        counts.map_or(0, |counts| counts.code_words + counts.edges + counts.data_words)
    }

    fn plain_read(&mut self) -> usize {
        let counts = editions::read_wide(&self.wide, &mut self.read_memory, &mut self.read_edges);
        counts.map_or(0, |(code_words, edges, data_words)| code_words + edges + data_words)
    }

    fn widen(&mut self) -> usize {
        guard::widen(&self.parcel, &mut self.put).unwrap_or(0)
    }

    fn plain_widen(&mut self) -> usize {
        editions::widen(&self.parcel, &mut self.put).unwrap_or(0)
    }

    fn narrow(&mut self) -> usize {
        guard::narrow(&self.wide, &mut self.put).unwrap_or(0)
    }

    fn plain_narrow(&mut self) -> usize {
        editions::narrow(&self.wide, &mut self.put).unwrap_or(0)
    }
}

fn wide(edges: &[u16]) -> Vec<u32> {
    edges.iter().map(|&number| number.into()).collect()
}

pub fn parcels(table: &mut Table, what: &str, program: Program) {
    let mut e = Editions::of(program);
    let times = measure(1, &mut e, Editions::write, Editions::plain_write);
    table.row(&format!("writing {what}, second edition"), times, GOAL);
    assert!(e.put.starts_with(&e.wide));
    let times = measure(1, &mut e, Editions::read, Editions::plain_read);
    table.row(&format!("reading {what}, second edition"), times, GOAL);
    assert!(e.read_memory.starts_with(&e.memory) && e.read_edges.starts_with(&e.edges));
    let times = measure(1, &mut e, Editions::widen, Editions::plain_widen);
    table.row(&format!("widening {what}"), times, GOAL);
    assert!(e.put.starts_with(&e.wide));
    let times = measure(1, &mut e, Editions::narrow, Editions::plain_narrow);
    table.row(&format!("narrowing {what}"), times, GOAL);
    assert!(e.put.starts_with(&e.parcel));
}

/// A program with its edges in 16 bits and in 32.
struct Both {
    first: Program,
    edges: Vec<u32>,
}

/// How long a check of ours takes on edges of 32 bits, and on the same edges of 16.
pub struct AgainstFirst {
    technique: Technique,
    n: usize,
    times: Times,
}

pub fn checks(table: &mut Table) -> Vec<AgainstFirst> {
    let mut against_first = Vec::new();
    for technique in TECHNIQUES {
        for n in [64, 256, 1024, 2048] {
            let first = accepted(technique, n);
            let mut both = Both { edges: wide(&first.edges), first };
            let check = |b: &Both| numbers(guard::check_wide(library(technique), &b.first.memory, n, &b.edges));
            let plain_check = |b: &Both| checkers::check_flat(technique, &b.first.memory, n, &b.edges);
            let first_check = |b: &Both| numbers(guard::check(library(technique), &b.first.memory, n, &b.first.edges));
            assert_eq!(check(&both), (0, 0, 0));
            let edges = both.edges.len() / 2;
            let times = measure(1, &mut both, |b| answer_sum(check(b)), |b| answer_sum(plain_check(b)));
            table.row(&format!("check of 32-bit edges, {technique:?}, {n} words, {edges} edges, flat arrays"), times, GOAL);
            let times = measure(1, &mut both, |b| answer_sum(check(b)), |b| answer_sum(first_check(b)));
            against_first.push(AgainstFirst { technique, n, times });
        }
    }
    against_first
}

pub fn print_against_first(against_first: &[AgainstFirst]) {
    println!("\n| check of 32-bit edges against 16-bit ones | words | 32 bits | 16 bits | ratio |");
    println!("|---|---|---|---|---|");
    for AgainstFirst { technique, n, times: Times { ours, theirs } } in against_first {
        println!("| {technique:?} | {n} | {ours:.0} | {theirs:.0} | {:.2} |", ours / theirs);
    }
}

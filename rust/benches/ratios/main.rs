//! Times as ratios: the library's calls, through the safe wrapper, against plain safe Rust that does the same work, both built
//! for release, in one run. `cargo bench` prints the table of ratios, the check's time by size, and the times of the report, of the
//! check on 32-bit edges, of putting in guards and of a shortest path against the check's; at last the rows that are over their
//! goal.
//!
//! Like is timed with like. The plain Rust side is a call too: what is timed of it is kept out of line, here and in the
//! reference, and state and memory are lent. No buffer is cleared between calls, for either side: places are filled once, before
//! the first round.
#[path = "../../reference/mod.rs"]
mod reference;
mod editions;
mod paths;
mod programs;
mod rewrite;
mod timing;

use post_guard as guard;
use programs::{accepted, calling, refused, spinning, Fault, Program};
use reference::figures::{report_flat, report_parcel_flat, Report, KINDS};
use reference::{checkers, checkers::Answer, totals, Op, Technique, TECHNIQUES};
use std::hint::black_box;
use timing::{measure, Table, Times, ROUNDS};

const GOAL: f64 = 1.3;
const RUN_GOAL: f64 = 0.9;

fn main() {
    println!("Nanoseconds, median of {ROUNDS} interleaved rounds. No buffer is cleared between calls.\n");
    let mut table = Table::head();
    runs(&mut table);
    single_steps(&mut table);
    bus_writes(&mut table);
    words(&mut table);
    parcels(&mut table, "a small parcel", small());
    parcels(&mut table, "a full parcel", full());
    let growth = accepted_checks(&mut table);
    refused_checks(&mut table);
    let over_checks = reports(&mut table);
    additions(&mut table);
    editions::parcels(&mut table, "a small parcel", small());
    editions::parcels(&mut table, "a full parcel", full());
    let against_first = editions::checks(&mut table);
    let over_guarded = rewrite::rewrites(&mut table);
    let over_accepted = paths::paths(&mut table);
    print_growth(&growth);
    print_over_checks(&over_checks);
    editions::print_against_first(&against_first);
    rewrite::print_over_checks(&over_guarded);
    paths::print_over_checks(&over_accepted);
    println!("\n{}", table.told());
}

fn library(technique: Technique) -> guard::Technique {
    match technique {
        Technique::Plain => guard::Technique::Plain,
        Technique::MemoryGuards => guard::Technique::MemoryGuards,
    }
}

/// A state for each side, over one memory.
struct Machine {
    technique: Technique,
    state: guard::State,
    plain_state: reference::State,
    memory: Vec<u64>,
    n: usize,
    limit: u16,
}

impl Machine {
    fn fresh(technique: Technique, program: Program) -> Machine {
        Machine {
            technique,
            state: guard::State::fresh([0; 32]),
            plain_state: reference::State::fresh([0; 32]),
            memory: program.memory,
            n: program.n,
            limit: 65_535,
        }
    }

    fn run(&mut self) -> u16 {
        let ran = guard::run(library(self.technique), &mut self.state, &mut self.memory, self.n, self.limit);
        ran.map_or(0, |ran| ran.count)
    }

    fn plain_run(&mut self) -> u16 {
        reference::run(self.technique, &mut self.plain_state, &mut self.memory, self.n, self.limit).1
    }

    fn step(&mut self) -> bool {
        guard::step(library(self.technique), &mut self.state, &mut self.memory, self.n) == Ok(guard::Step::Made)
    }

    fn plain_step(&mut self) -> bool {
        reference::step(self.technique, &mut self.plain_state, &mut self.memory, self.n) == 0
    }

    fn agree(&self) {
        let guard::State { registers, pc, depth, stack } = self.state;
        assert_eq!(reference::State { regs: registers, pc, depth, stack }, self.plain_state);
    }
}

fn runs(table: &mut Table) {
    for technique in TECHNIQUES {
        let mut machine = Machine::fresh(technique, spinning());
        let times = measure(machine.limit.into(), &mut machine, Machine::run, Machine::plain_run);
        table.row(&format!("a run's step, {technique:?}"), times, RUN_GOAL);
        let mut machine = Machine::fresh(technique, calling());
        let times = measure(machine.limit.into(), &mut machine, Machine::run, Machine::plain_run);
        table.row(&format!("a run's step with call and ret in the loop, {technique:?}"), times, RUN_GOAL);
    }
}

fn single_steps(table: &mut Table) {
    for technique in TECHNIQUES {
        let mut machine = Machine::fresh(technique, spinning());
        for _ in 0..30 {
            assert!(machine.step() && machine.plain_step());
            machine.agree();
        }
        let times = measure(1, &mut machine, Machine::step, Machine::plain_step);
        table.row(&format!("a single step, {technique:?}"), times, GOAL);
    }
}

/// Writes to a data word, and to a register.
struct Bus {
    machine: Machine,
    address: u64,
    register: u64,
    word: u64,
}

impl Bus {
    fn write_data(&mut self) -> bool {
        guard::write_data(&mut self.machine.memory, self.machine.n, self.address, self.word).is_ok()
    }

    fn plain_write_data(&mut self) -> bool {
        reference::write_data(&mut self.machine.memory, self.machine.n, self.address, self.word) == 0
    }

    fn write_register(&mut self) -> bool {
        self.machine.state.write_register(self.register, self.word).is_ok()
    }

    fn plain_write_register(&mut self) -> bool {
        reference::write_register(&mut self.machine.plain_state, self.register, self.word) == 0
    }
}

fn bus_writes(table: &mut Table) {
    let machine = Machine::fresh(Technique::Plain, accepted(Technique::Plain, 64));
    let mut bus = Bus { machine, address: 70, register: 5, word: 9 };
    let times = measure(1, &mut bus, Bus::write_data, Bus::plain_write_data);
    table.row("a bus write to data", times, GOAL);
    let times = measure(1, &mut bus, Bus::write_register, Bus::plain_write_register);
    table.row("a bus write to a register", times, GOAL);
    bus.machine.agree();
}

#[inline(never)]
fn plain_decode(word: u64) -> Op {
    reference::decode(word)
}

#[inline(never)]
fn plain_encode(op: Op) -> u64 {
    reference::encode(op)
}

/// makes the call on each item, and looks at each answer
fn each<T: Copy, A>(items: &[T], call: impl Fn(T) -> A) {
    for &item in items {
        black_box(call(item));
    }
}

/// The words of a program, and what they are to each side.
struct Words {
    words: Vec<u64>,
    instructions: Vec<guard::Instruction>,
    ops: Vec<Op>,
}

fn words(table: &mut Table) {
    let words = accepted(Technique::Plain, 2048).memory;
    let instructions: Vec<_> = words.iter().map(|&word| guard::decode(word)).collect();
    let ops: Vec<_> = words.iter().map(|&word| plain_decode(word)).collect();
    assert!(instructions.iter().map(|&i| guard::encode(i)).eq(words.iter().copied()));
    assert!(ops.iter().map(|&op| plain_encode(op)).eq(words.iter().copied()));

    let count = words.len();
    let mut words = Words { words, instructions, ops };
    let times = measure(count, &mut words, |w| each(&w.words, guard::decode), |w| each(&w.words, plain_decode));
    table.row("decode", times, GOAL);
    let times = measure(count, &mut words, |w| each(&w.instructions, guard::encode), |w| each(&w.ops, plain_encode));
    table.row("encode", times, GOAL);
}

/// A program, its parcel, and the places that the parcel is read into.
struct Parcel {
    program: Program,
    bytes: Vec<u8>,
    memory: Vec<u64>,
    edges: Vec<u16>,
}

impl Parcel {
    fn write(&mut self) -> usize {
        let Program { memory, n, edges } = &self.program;
        guard::write_parcel(memory, *n, edges, &mut self.bytes).unwrap_or(0)
    }

    fn plain_write(&mut self) -> usize {
        let Program { memory, n, edges } = &self.program;
        reference::write_parcel(memory, *n, edges, &mut self.bytes).unwrap_or(0)
    }

    fn read(&mut self) -> usize {
        let counts = guard::read_parcel(&self.bytes, &mut self.memory, &mut self.edges);
        counts.map_or(0, |counts| counts.code_words + counts.edges + counts.data_words)
    }

    fn plain_read(&mut self) -> usize {
        let counts = reference::read_parcel(&self.bytes, &mut self.memory, &mut self.edges);
        counts.map_or(0, |(code_words, edges, data_words)| code_words + edges + data_words)
    }
}

/// 64 code words, 36 edges, 8 data words
fn small() -> Program {
    let mut program = accepted(Technique::Plain, 64);
    program.memory.truncate(64 + 8);
    program
}

/// as much as a parcel may hold
fn full() -> Program {
    let memory = (0..4096u64).map(|x| x.wrapping_mul(0x9e37_79b9_7f4a_7c15)).collect();
    Program { memory, n: 2048, edges: (0..4096).collect() }
}

fn parcels(table: &mut Table, what: &str, program: Program) {
    let mut parcel = Parcel { program, bytes: vec![0; 40_972], memory: vec![0; 4096], edges: vec![0; 4096] };
    let times = measure(1, &mut parcel, Parcel::write, Parcel::plain_write);
    table.row(&format!("writing {what}"), times, GOAL);
    let size = parcel.write();
    parcel.bytes.truncate(size);
    let times = measure(1, &mut parcel, Parcel::read, Parcel::plain_read);
    table.row(&format!("reading {what}"), times, GOAL);
    assert!(parcel.memory.starts_with(&parcel.program.memory) && parcel.edges.starts_with(&parcel.program.edges));
}

type Checker = fn(Technique, &[u64], usize, &[u16]) -> Answer;

/// the check of a program by the library and by plain Rust, which both answer this
fn check_times(technique: Technique, program: &mut Program, answer: Answer, plain: Checker) -> Times {
    let check = |p: &Program| numbers(guard::check(library(technique), &p.memory, p.n, &p.edges));
    let plain_check = |p: &Program| plain(technique, &p.memory, p.n, &p.edges);
    assert_eq!(check(program), answer);
    assert_eq!(plain_check(program), answer);
    assert_eq!(checkers::check(technique, &program.memory, program.n, &program.edges), answer);
    measure(1, program, |p| answer_sum(check(p)), |p| answer_sum(plain_check(p)))
}

#[inline(always)]
fn answer_sum((number, kind, place): Answer) -> u64 {
    u64::from(number) + kind + place
}

fn numbers(verdict: guard::Verdict) -> Answer {
    match verdict {
        guard::Verdict::Accepted => (0, 0, 0),
        guard::Verdict::Refused(refusal, None) => (refusal.number(), 0, 0),
        guard::Verdict::Refused(refusal, Some(guard::Place::Edge(k))) => (refusal.number(), 1, k as u64),
        guard::Verdict::Refused(refusal, Some(guard::Place::Address(a))) => (refusal.number(), 2, a as u64),
    }
}

/// How long a check of ours takes by the program's size.
struct Growth {
    technique: Technique,
    n: usize,
    edges: usize,
    time: f64,
}

fn accepted_checks(table: &mut Table) -> Vec<Growth> {
    let mut growth = Vec::new();
    for technique in TECHNIQUES {
        for n in [64, 256, 1024, 2048] {
            let mut program = accepted(technique, n);
            let edges = program.edges.len() / 2;
            let flat = check_times(technique, &mut program, (0, 0, 0), checkers::check_flat);
            table.row(&format!("check, {technique:?}, {n} words, {edges} edges, flat arrays"), flat, GOAL);
            let sets = check_times(technique, &mut program, (0, 0, 0), checkers::check_with_sets);
            table.row(&format!("check, {technique:?}, {n} words, {edges} edges, sets"), sets, GOAL);
            growth.push(Growth { technique, n, edges, time: flat.ours });
        }
    }
    growth
}

fn refused_checks(table: &mut Table) {
    let plain = [Fault::LastEdge, Fault::LastRepeat, Fault::LastSets, Fault::LastJump, Fault::LastBranch].map(|fault| (Technique::Plain, fault));
    let guards = [Fault::LastJump, Fault::LastBranch].map(|fault| (Technique::MemoryGuards, fault));
    for (technique, fault) in plain.into_iter().chain(guards) {
        for n in [64, 2048] {
            let (mut program, answer) = refused(technique, n, fault);
            let times = check_times(technique, &mut program, answer, checkers::check_flat);
            table.row(&format!("check, {technique:?}, {n} words, {}", fault.told()), times, GOAL);
        }
    }
}

fn print_growth(growth: &[Growth]) {
    println!("\n| check | words | edges | nanoseconds | per word |");
    println!("|---|---|---|---|---|");
    for Growth { technique, n, edges, time } in growth {
        println!("| {technique:?} | {n} | {edges} | {time:.0} | {:.2} |", time / *n as f64);
    }
}

/// How long a report of ours takes, and a check of ours alone.
struct OverCheck {
    technique: Technique,
    n: usize,
    times: Times,
}

fn reports(table: &mut Table) -> Vec<OverCheck> {
    let mut over_checks = Vec::new();
    for technique in TECHNIQUES {
        for n in [64, 256, 1024, 2048] {
            let mut program = accepted(technique, n);
            let edges = program.edges.len() / 2;
            let times = report_times(technique, &mut program);
            table.row(&format!("report, {technique:?}, {n} words, {edges} edges, flat arrays"), times, GOAL);
            over_checks.push(OverCheck { technique, n, times: report_and_check_times(technique, &mut program) });
        }
    }
    over_checks
}

fn our_report(technique: Technique, p: &Program) -> Result<guard::Figures, guard::Fault> {
    guard::report(library(technique), &p.memory, p.n, &p.edges)
}

/// the report on an accepted program by the library and by plain Rust
fn report_times(technique: Technique, program: &mut Program) -> Times {
    let plain_report = |p: &Program| report_flat(technique, &p.memory, p.n, &p.edges);
    assert!(plain_report(program).is_ok());
    measure(1, program, |p| our_sum(our_report(technique, p)), |p| sum(plain_report(p)))
}

/// the library's report against the library's check: both answer whether the program is accepted
fn report_and_check_times(technique: Technique, program: &mut Program) -> Times {
    let accepts = |p: &Program| guard::check(library(technique), &p.memory, p.n, &p.edges) == guard::Verdict::Accepted;
    measure(1, program, |p| black_box(our_report(technique, p)).is_ok(), |p| accepts(p))
}

/// every number of the figures in one, each at another weight
fn our_sum(report: Result<guard::Figures, guard::Fault>) -> u64 {
    let Ok(guard::Figures { words, sets, largest, freedom }) = report else { return 0 };
    let (edges, possible) = freedom.map_or((0, 0), |freedom| (freedom.edges, freedom.possible));
    weighed(words, sets, largest, edges, possible)
}

fn sum(report: Report) -> u64 {
    let Ok(reference::figures::Figures { words, sets, largest, freedom }) = report else { return 0 };
    let (edges, possible) = freedom.unwrap_or((0, 0));
    weighed(words, sets, largest, edges, possible)
}

#[inline(always)]
fn weighed(words: [u16; KINDS], sets: u16, largest: u16, edges: u32, possible: u32) -> u64 {
    let kinds: u64 = words.iter().zip(1..).map(|(&count, weight): (_, u64)| u64::from(count) * weight).sum();
    kinds + u64::from(sets) * 13 + u64::from(largest) * 14 + u64::from(edges) * 15 + u64::from(possible) * 16
}

fn print_over_checks(over_checks: &[OverCheck]) {
    println!("\n| report against check | words | report | check | ratio |");
    println!("|---|---|---|---|---|");
    for OverCheck { technique, n, times: Times { ours, theirs } } in over_checks {
        println!("| {technique:?} | {n} | {ours:.0} | {theirs:.0} | {:.2} |", ours / theirs);
    }
}

/// A parcel that is added again and again to the same totals.
struct Addition {
    parcel: Vec<u8>,
    totals: guard::Totals,
    plain_totals: totals::Totals,
}

impl Addition {
    fn of(program: Program) -> Addition {
        let program = guard::Program { memory: program.memory, code_words: program.n, edges: program.edges };
        let mut addition = Addition {
            parcel: program.to_parcel().unwrap_or_default(),
            totals: guard::Totals::fresh(),
            plain_totals: totals::Totals::default(),
        };
        (addition.totals, addition.plain_totals) = (addition.added(), addition.plain_added());
        assert_eq!(addition.totals.parcels, 1);
        assert!(addition.totals.largest.is_some());
        addition
    }

    fn added(&self) -> guard::Totals {
        let mut totals = self.totals;
        black_box(totals.add_parcel(guard::Technique::Plain, &self.parcel));
        totals
    }

    fn plain_added(&self) -> totals::Totals {
        let mut totals = self.plain_totals;
        black_box(plain_add_parcel(&mut totals, &self.parcel));
        totals
    }
}

#[inline(never)]
fn plain_add_parcel(totals: &mut totals::Totals, parcel: &[u8]) -> totals::Added {
    totals::add(totals, &report_parcel_flat(Technique::Plain, parcel))
}

fn additions(table: &mut Table) {
    for (what, program) in [("a small parcel", small()), ("a large parcel", accepted(Technique::Plain, 2048))] {
        let mut addition = Addition::of(program);
        let sum = |t: guard::Totals| u64::from(t.parcels) + t.edges + t.possible;
        let plain_sum = |t: totals::Totals| t.parcels + t.edges + t.possible;
        let times = measure(1, &mut addition, |a| sum(a.added()), |a| plain_sum(a.plain_added()));
        table.row(&format!("adding {what}"), times, GOAL);
    }
}

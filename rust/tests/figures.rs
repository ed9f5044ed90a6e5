//! Reports against the reference, on programs and on parcels, for each technique: accepted programs, with and without jumps,
//! programs with faults, some of them with edges listed again, and parcels that are cut or changed. What plain Rust answers in the
//! benchmarks is held against the reference as well. The figures of some programs are worked out by hand.
#[path = "../reference/mod.rs"]
mod reference;
mod common;

use common::{accepted, answer_of, damage, library, number_of, padded, parcel_of, repeat_edges, told, without_jumps, Program, Random};
use post_guard::{raw, Fault, Freedom, Kind};
use reference::figures::{self, Figures, Report};
use reference::{encode, Op, Technique, TECHNIQUES};
use std::collections::HashSet;

fn numbers(figures: Figures) -> [u64; 16] {
    let (edges, possible) = figures.freedom.unwrap_or((0, 0));
    let mut numbers = [0; 16];
    for (number, count) in numbers.iter_mut().zip(figures.words) {
        *number = count.into();
    }
    numbers[12..].copy_from_slice(&[figures.sets.into(), figures.largest.into(), edges.into(), possible.into()]);
    numbers
}

/// The places of a call, longer than they need to be, and with more behind what is lent.
#[derive(Clone, PartialEq, Debug)]
struct Lent {
    figures: Vec<u64>,
    figures_len: usize,
    place: Vec<u64>,
    place_len: usize,
}

impl Lent {
    fn new(r: &mut Random, figures_len: usize, place_len: usize) -> Lent {
        let (figures, place) = (padded(0, figures_len, 3, || r.word()), padded(0, place_len, 3, || r.word()));
        Lent { figures, figures_len, place, place_len }
    }

    /// what is there after this report
    fn after(&self, report: &Report) -> (u32, Lent) {
        let mut after = self.clone();
        if self.figures_len < 16 || self.place_len < 2 {
            return (5, after);
        }
        let (answer, kind, at) = report.err().unwrap_or((0, 0, 0));
        after.place[..2].copy_from_slice(&[kind, at]);
        if let Ok(figures) = *report {
            after.figures[..16].copy_from_slice(&numbers(figures));
        }
        (answer, after)
    }

    /// makes the call on the lent places, and holds everything against what the report says
    fn hold(mut self, report: &Report, told: impl Fn() -> String, call: impl Fn(&mut [u64], &mut [u64]) -> u32) {
        let (expected, after) = self.after(report);
        let answer = call(&mut self.figures[..self.figures_len], &mut self.place[..self.place_len]);
        assert_eq!(answer, expected, "{}", told());
        assert_eq!(self, after, "{}", told());
    }
}

fn some_lengths(r: &mut Random) -> (usize, usize) {
    (16 + r.below(3), 2 + r.below(3))
}

fn compare(r: &mut Random, technique: Technique, number: u8, p: &Program) -> Report {
    let expected = figures::report(technique, &p.memory, p.n, &p.edges);
    let told = || format!("{technique:?} {}", told(p));
    let (figures_len, place_len) = some_lengths(r);
    Lent::new(r, figures_len, place_len).hold(&expected, told, |figures, place| {
        raw::report(number, &p.memory, p.n, &p.edges, figures, place)
    });
    assert_eq!(figures::report_flat(technique, &p.memory, p.n, &p.edges), expected, "flat, {}", told());
    assert_eq!(plainly(post_guard::report(library(technique), &p.memory, p.n, &p.edges)), expected, "{}", told());
    if let Ok(figures) = expected {
        assert_eq!(figures.words.iter().map(|&count| usize::from(count)).sum::<usize>(), p.n, "{}", told());
    }
    expected
}

fn compare_parcel(r: &mut Random, technique: Technique, number: u8, parcel: &[u8]) -> Report {
    let expected = figures::report_parcel(technique, parcel);
    let told = || format!("{technique:?}, {} bytes", parcel.len());
    let (figures_len, place_len) = some_lengths(r);
    Lent::new(r, figures_len, place_len)
        .hold(&expected, told, |figures, place| raw::report_parcel(number, parcel, figures, place));
    assert_eq!(figures::report_parcel_flat(technique, parcel), expected, "flat, {}", told());
    assert_eq!(plainly(post_guard::report_parcel(library(technique), parcel)), expected, "{}", told());
    expected
}

/// what the wrapper gives, as the reference has it
fn plainly(report: Result<post_guard::Figures, Fault>) -> Report {
    match report {
        Ok(figures) => Ok(Figures {
            words: Kind::ALL.map(|kind| figures.words_of(kind)),
            sets: figures.sets,
            largest: figures.largest,
            freedom: figures.freedom.map(|Freedom { edges, possible }| (edges, possible)),
        }),
        Err(fault) => Err(answer_of(fault)),
    }
}

/// How many programs of each sort were met.
#[derive(Default, Debug)]
struct Met {
    without_jumps: usize,
    several_sets: usize,
    several_targets: usize,
    shared_sets: usize,
    refused: [usize; 19],
}

impl Met {
    fn note(&mut self, report: &Report, edges: &[u16]) {
        match *report {
            Ok(figures) => self.note_accepted(figures, edges),
            Err((number, _, _)) => self.refused[number as usize] += 1,
        }
    }

    fn note_accepted(&mut self, figures: Figures, edges: &[u16]) {
        let distinct = edges.chunks(2).collect::<HashSet<_>>().len();
        self.without_jumps += usize::from(figures.freedom.is_none());
        self.several_sets += usize::from(figures.sets > 1);
        self.several_targets += usize::from(figures.largest > 1);
        self.shared_sets += usize::from(figures.words[6] > figures.sets);
        assert_eq!(distinct, edges.len() / 2, "an accepted program has no edge twice");
    }

    fn all_accepted_sorts(&self) {
        let sorts = [self.without_jumps, self.several_sets, self.several_targets, self.shared_sets];
        assert!(sorts.iter().all(|&times| times > 500), "{self:?}");
    }
}

/// a program of any sort: accepted, with edges listed again or without jumps, and then damaged up to two times
fn some_program(r: &mut Random, technique: Technique) -> Program {
    let n = if r.chance(60) { 1 + r.below(300) } else { 1 + r.below(64) };
    let d = r.below(6);
    let mut p = if r.chance(8) { without_jumps(r, technique, n, d) } else { accepted(r, technique, n, d) };
    if r.chance(12) {
        repeat_edges(r, &mut p);
    }
    for _ in 0..r.below(5).saturating_sub(2) {
        damage(r, &mut p);
    }
    p
}

fn many(technique: Technique, seed: u64) {
    let mut r = Random::new(seed);
    let mut met = Met::default();
    for _ in 0..40_000 {
        let p = some_program(&mut r, technique);
        let report = compare(&mut r, technique, number_of(technique), &p);
        met.note(&report, &p.edges);
    }
    println!("{technique:?}: {met:?}");
    met.all_accepted_sorts();
    for number in (6..16).chain([18]) {
        let never = technique == Technique::Plain && number == 13;
        assert!(never == (met.refused[number] == 0), "number {number} was given {} times", met.refused[number]);
    }
}

#[test]
fn plain_programs() {
    many(Technique::Plain, 41);
}

#[test]
fn programs_with_memory_guards() {
    many(Technique::MemoryGuards, 42);
}

/// cuts a parcel, makes it longer, or changes the count of a section or any bit
fn damage_parcel(r: &mut Random, p: &Program, parcel: &mut Vec<u8>) {
    match r.below(5) {
        0 => parcel.truncate(r.below(parcel.len())),
        1 => parcel.extend((0..1 + r.below(9)).map(|_| 0)),
        2 => {
            let edges = 4 + p.n * 8;
            let section = r.pick(&[0, edges, edges + 4 + p.edges.len() * 2]);
            let count = r.pick(&[0, 1, 5, 2048, 2049, u32::MAX, 1 << 29, 1 << 31]);
            parcel[section..section + 4].copy_from_slice(&count.to_le_bytes());
        }
        _ => {
            let at = r.below(parcel.len());
            parcel[at] ^= 1 << r.below(8);
        }
    }
}

#[test]
fn parcels() {
    let mut r = Random::new(43);
    let mut met = Met::default();
    for round in 0..50_000usize {
        let technique = TECHNIQUES[round % 2];
        let p = some_program(&mut r, technique);
        let Some(mut parcel) = parcel_of(&p) else { continue };
        let whole = !r.chance(4);
        if !whole {
            damage_parcel(&mut r, &p, &mut parcel);
        }
        let report = compare_parcel(&mut r, technique, number_of(technique), &parcel);
        if whole {
            assert_eq!(report, figures::report(technique, &p.memory, p.n, &p.edges), "{}", told(&p));
        }
        if whole || report.is_err() {
            met.note(&report, &p.edges);
        }
    }
    println!("{met:?}");
    met.all_accepted_sorts();
    for number in (1..5).chain(7..16).chain([18]) {
        assert!(met.refused[number] > 0, "number {number} was not given");
    }
    assert_eq!((met.refused[5], met.refused[6]), (0, 0));
}

#[test]
fn every_length_of_the_post_parcel() {
    let mut r = Random::new(44);
    let parcel = parcel_of(&post()).unwrap();
    assert_eq!(parcel.len(), 88);
    for length in 0..parcel.len() {
        for technique in TECHNIQUES {
            let report = compare_parcel(&mut r, technique, number_of(technique), &parcel[..length]);
            assert!(matches!(report, Err((1 | 3, 0, 0))), "{length} bytes: {report:?}");
        }
    }
    let more = [parcel, vec![0]].concat();
    assert_eq!(compare_parcel(&mut r, Technique::Plain, 0, &more), Err((4, 0, 0)));
}

/// a program with as many words as there may be, and fewer edges than that
fn large_program(r: &mut Random, technique: Technique) -> Program {
    let (n, d) = (r.pick(&[2047, 2048]), r.pick(&[0, 1, 2047, 2048]));
    loop {
        let p = accepted(r, technique, n, d);
        if p.edges.len() < 4096 {
            return p;
        }
    }
}

#[test]
fn full_size() {
    let mut r = Random::new(45);
    let mut met = Met::default();
    for round in 0..200usize {
        let technique = TECHNIQUES[round % 2];
        let mut p = large_program(&mut r, technique);
        if round % 10 == 0 {
            repeat_edges(&mut r, &mut p);
        }
        for _ in 0..round / 2 % 3 {
            damage(&mut r, &mut p);
        }
        let report = compare(&mut r, technique, number_of(technique), &p);
        met.note(&report, &p.edges);
        if let Some(parcel) = parcel_of(&p) {
            assert_eq!(compare_parcel(&mut r, technique, number_of(technique), &parcel), report);
        }
    }
    println!("{met:?}");
    assert!(met.several_sets > 50 && met.shared_sets > 50 && met.refused[18] > 10, "{met:?}");
}

#[test]
fn places_too_short() {
    let mut r = Random::new(46);
    let mut accepted_ones = 0;
    for round in 0..60usize {
        let technique = TECHNIQUES[round % 2];
        let mut p = if round < 20 { without_jumps(&mut r, technique, 9, 2) } else { accepted(&mut r, technique, 40, 2) };
        for _ in 0..round % 3 {
            damage(&mut r, &mut p);
        }
        let parcel = parcel_of(&p).unwrap_or_default();
        let report = compare(&mut r, technique, number_of(technique), &p);
        let parcel_report = figures::report_parcel(technique, &parcel);
        accepted_ones += usize::from(report.is_ok());
        for figures_len in 0..18 {
            for place_len in 0..4 {
                let told = || format!("{figures_len} and {place_len} numbers");
                Lent::new(&mut r, figures_len, place_len).hold(&report, told, |figures, place| {
                    raw::report(number_of(technique), &p.memory, p.n, &p.edges, figures, place)
                });
                Lent::new(&mut r, figures_len, place_len).hold(&parcel_report, told, |figures, place| {
                    raw::report_parcel(number_of(technique), &parcel, figures, place)
                });
            }
        }
    }
    assert!((10..50).contains(&accepted_ones), "{accepted_ones} were accepted");
}

#[test]
fn other_technique_numbers() {
    let mut r = Random::new(47);
    let mut with_guards = 0;
    for _ in 0..300 {
        let p = some_program(&mut r, Technique::MemoryGuards);
        let Some(parcel) = parcel_of(&p) else { continue };
        for number in [1, 2, 77, 255] {
            let report = compare(&mut r, Technique::MemoryGuards, number, &p);
            assert_eq!(compare_parcel(&mut r, Technique::MemoryGuards, number, &parcel), report);
            with_guards += usize::from(report.is_ok_and(|figures| figures.freedom.is_some()));
        }
    }
    assert!(with_guards > 100, "{with_guards} accepted programs with jumps");
}

#[test]
fn shapes() {
    let mut r = Random::new(48);
    let mut met = Met::default();
    for code in [0usize, 1, 2, 2048, 2049] {
        for data in [0usize, 1, 2048, 2049] {
            for numbers in [0usize, 1, 2, 4095, 4096, 4097, 4098] {
                let memory = vec![u64::MAX; code + data];
                let edges: Vec<u16> = (0..numbers).map(|_| r.word() as u16).collect();
                for n in [0, 1, code, code + 1, 2048, 2049, code + data, code + data + 1, usize::MAX] {
                    let p = Program { memory: memory.clone(), n, edges: edges.clone() };
                    for technique in TECHNIQUES {
                        let report = compare(&mut r, technique, number_of(technique), &p);
                        met.note(&report, &p.edges);
                    }
                }
            }
        }
    }
    assert!(met.without_jumps > 0 && met.refused[6] > 0 && met.refused[7] > 0, "{met:?}");
}

fn program(code: &[Op], edges: &[(usize, usize)]) -> Program {
    let memory: Vec<u64> = code.iter().map(|&op| encode(op)).collect();
    let edges = edges.iter().flat_map(|&(jump, target)| [jump as u16, target as u16]).collect();
    Program { n: memory.len(), memory, edges }
}

/// the plain guard of a jump and the jump itself
fn jump(id: usize, halt: usize) -> [Op; 6] {
    let (id, halt) = (id as u32, halt as u32);
    [Op::Addi(0, 5, 0), Op::Ld(1, 0, 0), Op::Movi(2, id), Op::Bgt(1, 2, halt), Op::Bgt(2, 1, halt), Op::Jmp(0)]
}

fn post() -> Program {
    let code = [&[Op::Movi(5, 7)], &jump(7, 8)[..], &[Op::Label(7), Op::Illegal]].concat();
    program(&code, &[(6, 7)])
}

fn by_hand(p: &Program, expected: Figures) {
    let mut r = Random::new(49);
    assert_eq!(compare(&mut r, Technique::Plain, 0, p), Ok(expected), "{}", told(p));
    assert_eq!(compare_parcel(&mut r, Technique::Plain, 0, &parcel_of(p).unwrap()), Ok(expected), "{}", told(p));
}

#[test]
fn figures_worked_out_by_hand() {
    by_hand(&post(), Figures { words: [1, 0, 1, 2, 2, 0, 1, 1, 0, 0, 0, 1], sets: 1, largest: 1, freedom: Some((1, 9)) });

    // the edge listed three times: refused, at the second
    let mut p = post();
    p.edges = [6, 7].repeat(3);
    assert_eq!(compare(&mut Random::new(49), Technique::Plain, 0, &p), Err((18, 1, 1)));

    // no jump: nothing but an illegal word, and one word of each other kind
    let p = program(&[Op::Illegal], &[]);
    by_hand(&p, Figures { words: [0, 0, 0, 0, 0, 0, 0, 0, 0, 0, 0, 1], sets: 0, largest: 0, freedom: None });
    let others = [
        Op::Add(3, 4, 5),
        Op::Addi(3, 4, 5),
        Op::Movi(3, 4),
        Op::Bgt(3, 4, 6),
        Op::Jd(6),
        Op::Ld(3, 4, 5),
        Op::St(3, 4, 5),
        Op::Call(7),
        Op::Ret,
        Op::Call(0),
        Op::Illegal,
        Op::Illegal,
    ];
    by_hand(
        &program(&others, &[]),
        Figures { words: [0, 1, 1, 1, 1, 1, 0, 1, 1, 2, 1, 2], sets: 0, largest: 0, freedom: None },
    );
}

#[test]
fn largest_figures_worked_out_by_hand() {
    // one jump to every other word but the last: 6 words, 2,041 labels, an illegal word
    let labels = vec![Op::Label(6); 2041];
    let code = [&jump(6, 2047)[..], &labels, &[Op::Illegal]].concat();
    let edges: Vec<_> = (6..2047).map(|target| (5, target)).collect();
    by_hand(
        &program(&code, &edges),
        Figures { words: [2041, 0, 1, 1, 2, 0, 1, 1, 0, 0, 0, 1], sets: 1, largest: 2041, freedom: Some((2041, 2048)) },
    );

    // 341 jumps to one label: 2,046 words, the label, an illegal word
    let code = [jump(2046, 2047).repeat(341), vec![Op::Label(2046), Op::Illegal]].concat();
    let edges: Vec<_> = (0..341).map(|k| (k * 6 + 5, 2046)).collect();
    by_hand(
        &program(&code, &edges),
        Figures {
            words: [1, 0, 341, 341, 682, 0, 341, 341, 0, 0, 0, 1],
            sets: 1,
            largest: 1,
            freedom: Some((341, 341 * 2048)),
        },
    );

    // 292 jumps with a label each: 2,044 words, three others, an illegal word
    let mut code = Vec::new();
    for id in (0..292).map(|k| k * 7 + 6) {
        code.extend(jump(id, 2047));
        code.push(Op::Label(id as u32));
    }
    code.extend([Op::Jd(0), Op::Jd(7), Op::Jd(2047), Op::Illegal]);
    let edges: Vec<_> = (0..292).map(|k| (k * 7 + 5, k * 7 + 6)).collect();
    by_hand(
        &program(&code, &edges),
        Figures {
            words: [292, 0, 292, 292, 584, 3, 292, 292, 0, 0, 0, 1],
            sets: 292,
            largest: 1,
            freedom: Some((292, 292 * 2048)),
        },
    );

    // 2,048 edges: 32 jumps to 64 labels
    let mut code: Vec<Op> = jump(192, 2047).repeat(32);
    code.extend([Op::Label(192); 64]);
    code.resize(2047, Op::Add(3, 4, 5));
    code.push(Op::Illegal);
    let edges: Vec<_> = (0..32).flat_map(|k| (192..256).map(move |target| (k * 6 + 5, target))).collect();
    by_hand(
        &program(&code, &edges),
        Figures {
            words: [64, 1791, 32, 32, 64, 0, 32, 32, 0, 0, 0, 1],
            sets: 1,
            largest: 64,
            freedom: Some((2048, 32 * 2048)),
        },
    );
}

/// the examples of the repository that are accepted
#[test]
fn examples_have_the_figures_worked_out_by_hand() {
    use post_guard::Technique::{MemoryGuards, Plain};
    let expected = [
        ("post", Plain, [1, 0, 1, 2, 2, 0, 1, 1, 0, 0, 0, 1], 1, 1, Some((1, 9))),
        ("clipping", Plain, [1, 1, 1, 5, 3, 1, 1, 2, 1, 0, 0, 1], 1, 1, Some((1, 17))),
        ("day-and-night", Plain, [3, 0, 4, 8, 5, 0, 2, 3, 1, 0, 0, 1], 2, 2, Some((3, 54))),
        ("memory-guards", MemoryGuards, [1, 0, 2, 5, 6, 0, 1, 1, 1, 0, 0, 1], 1, 1, Some((1, 18))),
        ("shared-return-by-jump", Plain, [2, 3, 1, 6, 3, 4, 1, 3, 1, 0, 0, 1], 1, 2, Some((2, 25))),
        ("shared-routine", Plain, [0, 3, 0, 3, 1, 1, 0, 2, 1, 2, 2, 1], 0, 0, None),
        ("credit-routine", Plain, [2, 0, 7, 3, 3, 4, 1, 4, 2, 2, 1, 1], 1, 2, Some((2, 30))),
    ];
    for (name, technique, words, sets, largest, freedom) in expected {
        let path = format!("{}/../examples/{name}.parcel", env!("CARGO_MANIFEST_DIR"));
        let parcel = std::fs::read(&path).unwrap_or_else(|error| panic!("{path}: {error}"));
        let freedom = freedom.map(|(edges, possible)| Freedom { edges, possible });
        let expected = post_guard::Figures { words, sets, largest, freedom };
        assert_eq!(post_guard::report_parcel(technique, &parcel), Ok(expected), "{name}");
        assert_eq!(post_guard::Program::from_parcel(&parcel).unwrap().report(technique), Ok(expected), "{name}");
    }
}

//! Totals against the reference: programs and parcels added one after the other, up to 65,535 and beyond, and to totals made by
//! hand, at and past every limit.
#[path = "../reference/mod.rs"]
mod reference;
mod common;

use common::{accepted, answer_of, damage, library, number_of, padded, parcel_of, repeat_edges, without_jumps, Program, Random};
use post_guard::{raw, Freedom};
use reference::figures::{self, Report};
use reference::totals::{self, Added};
use reference::{encode, Op, Technique, TECHNIQUES};

const WITHOUT_JUMPS: u32 = 256;
const UNCHANGED: u32 = 257;
const TOP: u64 = u64::MAX;

/// A program, its parcel and its report, so that it can be added many times.
struct Item {
    technique: Technique,
    program: Program,
    parcel: Vec<u8>,
    report: Report,
}

impl Item {
    fn new(technique: Technique, program: Program) -> Item {
        let parcel = parcel_of(&program).unwrap_or_default();
        let report = figures::report(technique, &program.memory, program.n, &program.edges);
        Item { technique, program, parcel, report }
    }

    fn freedom(&self) -> Option<(u64, u64)> {
        let (c, d) = self.report.ok()?.freedom?;
        Some((c.into(), d.into()))
    }

    /// adds the program to the numbers by one of the two calls, and holds everything against the reference
    fn add(&self, r: &mut Random, by_parcel: bool, numbers: &mut [u64; 6]) -> u32 {
        // what has no parcel is an empty one
        let report = if by_parcel && self.parcel.is_empty() { Err((1, 0, 0)) } else { self.report };
        let before = *numbers;
        let (expected, after, at) = added(before, &report);
        let (totals_len, place_len) = (6 + r.below(3), 2 + r.below(3));
        let (mut lent, mut place) = (padded(0, totals_len, 3, || r.word()), padded(0, place_len, 3, || r.word()));
        lent[..6].copy_from_slice(&before);
        let (mut lent_after, mut place_after) = (lent.clone(), place.clone());
        lent_after[..6].copy_from_slice(&after);
        place_after[..2].copy_from_slice(&at);
        let answer = self.call(by_parcel, &mut lent[..totals_len], &mut place[..place_len]);
        assert_eq!(answer, expected, "{before:?} and {:?}", self.report);
        assert_eq!(lent, lent_after, "{before:?} and {:?}", self.report);
        assert_eq!(place, place_after, "{before:?} and {:?}", self.report);
        self.add_by_wrapper(by_parcel, before, (expected, after, at));
        *numbers = after;
        answer
    }

    fn call(&self, by_parcel: bool, totals: &mut [u64], place: &mut [u64]) -> u32 {
        let Program { memory, n, edges } = &self.program;
        if by_parcel {
            raw::add_parcel(number_of(self.technique), &self.parcel, totals, place)
        } else {
            raw::add_report(number_of(self.technique), memory, *n, edges, totals, place)
        }
    }

    /// the same by the safe wrapper, where its types hold the numbers
    fn add_by_wrapper(&self, by_parcel: bool, before: [u64; 6], expected: Expected) {
        let Some(mut totals) = wrapped(before) else { return };
        let Program { memory, n, edges } = &self.program;
        let added = if by_parcel {
            totals.add_parcel(library(self.technique), &self.parcel)
        } else {
            totals.add(library(self.technique), memory, *n, edges)
        };
        let (answer, after, place) = expected;
        assert_eq!(told(added), (answer, place), "{before:?}");
        assert_eq!(Some(totals), wrapped(after), "{before:?}");
    }
}

/// an answer, the totals after it and the place
type Expected = (u32, [u64; 6], [u64; 2]);

/// what comes of adding a report to these numbers
fn added(numbers: [u64; 6], report: &Report) -> Expected {
    let Some(mut totals) = totals::read(numbers) else { return (UNCHANGED, numbers, [0, 0]) };
    let (answer, place) = match totals::add(&mut totals, report) {
        Added::Counted => (0, [0, 0]),
        Added::WithoutJumps => (WITHOUT_JUMPS, [0, 0]),
        Added::Refused(number, kind, at) => (number, [kind, at]),
        Added::Unchanged => return (UNCHANGED, numbers, [0, 0]),
    };
    (answer, totals::written(totals), place)
}

fn wrapped(numbers: [u64; 6]) -> Option<post_guard::Totals> {
    let totals = totals::read(numbers)?;
    let largest = totals.largest.map(|(place, a, b)| post_guard::Largest {
        parcel: place as u16,
        freedom: Freedom { edges: a as u32, possible: b as u32 },
    });
    Some(post_guard::Totals { parcels: totals.parcels as u16, edges: totals.edges, possible: totals.possible, largest })
}

/// what the wrapper answers, in the library's numbers
fn told(added: post_guard::Added) -> (u32, [u64; 2]) {
    match added {
        post_guard::Added::Counted => (0, [0, 0]),
        post_guard::Added::WithoutJumps => (WITHOUT_JUMPS, [0, 0]),
        post_guard::Added::Unchanged => (UNCHANGED, [0, 0]),
        post_guard::Added::Refused(fault) => {
            let (number, kind, at) = answer_of(fault);
            (number, [kind, at])
        }
    }
}

/// How often each answer was given.
#[derive(Default, Debug)]
struct Met {
    counted: usize,
    without_jumps: usize,
    unchanged: usize,
    refused: [usize; 19],
}

impl Met {
    fn note(&mut self, answer: u32) {
        match answer {
            0 => self.counted += 1,
            WITHOUT_JUMPS => self.without_jumps += 1,
            UNCHANGED => self.unchanged += 1,
            number => self.refused[number as usize] += 1,
        }
    }

    fn all_refused(&self) -> usize {
        self.refused.iter().sum()
    }
}

/// a plain program of n words with one jump to so many targets: freedom targets of n
fn one_jump(targets: usize, n: usize) -> Item {
    let halt = (n - 1) as u32;
    let mut code = vec![Op::Addi(0, 5, 0), Op::Ld(1, 0, 0), Op::Movi(2, 6), Op::Bgt(1, 2, halt), Op::Bgt(2, 1, halt), Op::Jmp(0)];
    code.resize(6 + targets, Op::Label(6));
    code.resize(n - 1, Op::Add(3, 4, 5));
    code.push(Op::Illegal);
    assert_eq!(code.len(), n);
    let edges = (6..6 + targets).flat_map(|target| [5, target as u16]).collect();
    let item = Item::new(Technique::Plain, Program { memory: code.into_iter().map(encode).collect(), n, edges });
    assert_eq!(item.freedom(), Some((targets as u64, n as u64)));
    item
}

fn no_jump() -> Item {
    Item::new(Technique::Plain, Program { memory: vec![u64::MAX], n: 1, edges: Vec::new() })
}

/// refused 11 at 0
fn refused() -> Item {
    Item::new(Technique::Plain, Program { memory: vec![7], n: 1, edges: Vec::new() })
}

/// not well shaped: refused 6, and its parcel, which is empty, 1
fn unshaped() -> Item {
    Item::new(Technique::MemoryGuards, Program { memory: Vec::new(), n: 0, edges: Vec::new() })
}

/// an item of each sort: counted, without jumps, refused with a place and without one
fn sorts() -> [Item; 4] {
    [one_jump(1, 9), no_jump(), refused(), unshaped()]
}

fn some_item(r: &mut Random) -> Item {
    let technique = TECHNIQUES[r.below(2)];
    let (n, d) = (1 + r.below(48), r.below(4));
    let mut p = if r.chance(8) { without_jumps(r, technique, n, d) } else { accepted(r, technique, n, d) };
    if r.chance(16) {
        repeat_edges(r, &mut p);
    }
    for _ in 0..r.below(5).saturating_sub(2) {
        damage(r, &mut p);
    }
    Item::new(technique, p)
}

/// a parcel that is cut, has trailing bytes or no code: it is to be added by its bytes alone
fn some_bytes(r: &mut Random) -> Item {
    let mut item = some_item(r);
    match r.below(3) {
        0 => item.parcel.push(0),
        1 => item.parcel.truncate(r.below(item.parcel.len() + 1)),
        _ => item.parcel.splice(0..item.parcel.len().min(4), [0; 4]).for_each(drop),
    }
    item.report = figures::report_parcel(item.technique, &item.parcel);
    item
}

/// What the totals over these freedoms are, straight from their meaning: the sums, and the first that no other passes. The
/// numbers are small here, and so are the products.
fn totals_of(freedoms: &[Option<(u64, u64)>]) -> [u64; 6] {
    let counted = || freedoms.iter().flatten();
    let is_largest = |&(a, b): &(u64, u64)| counted().all(|&(c, d)| c * b <= a * d);
    let place = freedoms.iter().position(|freedom| freedom.as_ref().is_some_and(is_largest));
    let (a, b) = place.and_then(|place| freedoms[place]).unwrap_or((0, 0));
    let (edges, possible) = (counted().map(|x| x.0).sum(), counted().map(|x| x.1).sum());
    [freedoms.len() as u64, edges, possible, place.unwrap_or(0) as u64, a, b]
}

#[test]
fn lists_of_programs_and_parcels() {
    let mut r = Random::new(51);
    let mut met = Met::default();
    for _ in 0..150 {
        let mut numbers = [0; 6];
        let mut freedoms = Vec::new();
        for _ in 0..r.below(600) {
            let bytes = r.chance(10);
            let item = if bytes { some_bytes(&mut r) } else { some_item(&mut r) };
            let by_parcel = bytes || r.chance(2);
            met.note(item.add(&mut r, by_parcel, &mut numbers));
            freedoms.push(item.freedom());
        }
        assert_eq!(numbers, totals_of(&freedoms));
    }
    println!("{met:?}");
    assert!(met.counted > 10_000 && met.without_jumps > 1_000 && met.unchanged == 0, "{met:?}");
    for number in (1..5).chain(6..16).chain([18]) {
        assert!(met.refused[number] > 0, "number {number} was not given: {met:?}");
    }
}

#[test]
fn as_many_as_there_may_be_and_more() {
    let mut r = Random::new(52);
    let pool: Vec<Item> = (0..60).map(|_| some_item(&mut r)).chain(sorts()).collect();
    let mut met = Met::default();
    let mut numbers = [0; 6];
    let mut freedoms = Vec::new();
    for _ in 0..65_535 {
        let item = &pool[r.below(pool.len())];
        let by_parcel = r.chance(2);
        met.note(item.add(&mut r, by_parcel, &mut numbers));
        freedoms.push(item.freedom());
    }
    println!("{met:?}");
    assert!(met.counted > 10_000 && met.without_jumps > 1_000 && met.all_refused() > 1_000 && met.unchanged == 0, "{met:?}");
    assert_eq!(numbers, totals_of(&freedoms));
    let full = numbers;
    for item in sorts().iter().chain(&pool) {
        for by_parcel in [false, true] {
            assert_eq!(item.add(&mut r, by_parcel, &mut numbers), UNCHANGED);
            assert_eq!(numbers, full);
        }
    }
}

#[test]
fn none_where_all_are_passed_over() {
    let mut r = Random::new(53);
    let mut numbers = [0; 6];
    let mut met = Met::default();
    for round in 0..3_000usize {
        let item = &[no_jump(), refused(), unshaped()][round % 3];
        met.note(item.add(&mut r, round % 2 == 0, &mut numbers));
    }
    assert_eq!(numbers, [3_000, 0, 0, 0, 0, 0]);
    assert_eq!((met.without_jumps, met.refused[11], met.refused[6], met.refused[1]), (1_000, 1_000, 500, 500));
    // the first that is counted has the place 3,000, and then the largest freedom
    assert_eq!(one_jump(1, 2048).add(&mut r, true, &mut numbers), 0);
    assert_eq!(numbers, [3_001, 1, 2048, 3_000, 1, 2048]);
}

#[test]
fn sums_at_the_top() {
    let mut r = Random::new(54);
    let (item, c, d) = (one_jump(3, 20), 3, 20);
    for by_parcel in [false, true] {
        for (edges, possible, fits) in [
            (TOP - c, 0, true),
            (TOP - c + 1, 0, false),
            (TOP, 0, false),
            (0, TOP - d, true),
            (0, TOP - d + 1, false),
            (0, TOP, false),
            (TOP - c, TOP - d, true),
            (TOP - c + 1, TOP - d, false),
            (TOP - c, TOP - d + 1, false),
            (TOP, TOP, false),
        ] {
            let before = [7, edges, possible, 2, 1, 9];
            let mut numbers = before;
            let answer = item.add(&mut r, by_parcel, &mut numbers);
            if fits {
                assert_eq!((answer, numbers), (0, [8, edges + c, possible + d, 7, c, d]));
            } else {
                assert_eq!((answer, numbers), (UNCHANGED, before));
            }
            // what is passed over adds nothing, so that no sum passes the top
            let mut numbers = before;
            assert_eq!(no_jump().add(&mut r, by_parcel, &mut numbers), WITHOUT_JUMPS);
            assert_eq!(numbers, [8, edges, possible, 2, 1, 9]);
            let mut numbers = before;
            assert_eq!(refused().add(&mut r, by_parcel, &mut numbers), 11);
            assert_eq!(numbers, [8, edges, possible, 2, 1, 9]);
        }
    }
}

#[test]
fn counts_at_the_limit() {
    let mut r = Random::new(55);
    for by_parcel in [false, true] {
        for (parcels, room) in [(0, true), (65_533, true), (65_534, true), (65_535, false)] {
            for item in sorts() {
                let before = [parcels, 100, 1_000, 65_535, 1, 10];
                let mut numbers = before;
                let answer = item.add(&mut r, by_parcel, &mut numbers);
                assert_eq!(answer == UNCHANGED, !room, "{parcels}");
                let counted = match item.freedom() {
                    Some((c, d)) => [parcels + 1, 100 + c, 1_000 + d, parcels, c, d],
                    None => [parcels + 1, 100, 1_000, 65_535, 1, 10],
                };
                assert_eq!(numbers, if room { counted } else { before });
            }
        }
    }
}

#[test]
fn ties_and_near_ties() {
    let mut r = Random::new(56);
    // the freedoms in their sequence, and the place of the largest
    let rows: [(&[(usize, usize)], usize); 8] = [
        (&[(1, 9), (2, 18)], 0),
        (&[(2, 18), (1, 9)], 0),
        (&[(1, 10), (2, 18), (1, 9), (3, 27)], 1),
        (&[(2, 18), (3, 26)], 1),
        (&[(2, 18), (2, 19), (3, 28)], 0),
        (&[(1, 9), (1, 8), (2, 16)], 1),
        (&[(227, 2043), (228, 2048)], 1),
        (&[(227, 2044), (227, 2043), (1, 9)], 1),
    ];
    for (freedoms, largest) in rows {
        for by_parcel in [false, true] {
            let mut numbers = [0; 6];
            for &(targets, n) in freedoms {
                assert_eq!(one_jump(targets, n).add(&mut r, by_parcel, &mut numbers), 0);
            }
            let (a, b) = freedoms[largest];
            assert_eq!(numbers[3..], [largest as u64, a as u64, b as u64], "{freedoms:?}");
        }
    }
}

#[test]
fn largest_made_by_hand() {
    let mut r = Random::new(57);
    let most = (1 << 32) - 1;
    let item = one_jump(1, 9);
    // the freedom that is kept, and whether 1 of 9 takes its place
    for (a, b, taken) in [
        (most, most, false),
        (most, 1, false),
        (1, most, true),
        (0, 1, true),
        (0, most, true),
        (477_218_588, 4_294_967_292, false),
        (477_218_588, 4_294_967_293, true),
        (477_218_587, 4_294_967_292, true),
    ] {
        let mut numbers = [10, 0, 0, 3, a, b];
        assert_eq!(item.add(&mut r, false, &mut numbers), 0);
        assert_eq!(numbers, if taken { [11, 1, 9, 10, 1, 9] } else { [11, 1, 9, 3, a, b] });
    }
    // with 0 possible edges there is none, whatever the two others are
    for (place, a) in [(0, 0), (65_535, most), (4, 1)] {
        let mut numbers = [10, 5, 50, place, a, 0];
        assert_eq!(item.add(&mut r, true, &mut numbers), 0);
        assert_eq!(numbers, [11, 6, 59, 10, 1, 9]);
        let mut numbers = [10, 5, 50, place, a, 0];
        assert_eq!(no_jump().add(&mut r, true, &mut numbers), WITHOUT_JUMPS);
        assert_eq!(numbers, [11, 5, 50, 0, 0, 0]);
        // but where the totals are given back as they were, so are these
        for before in [[65_535, 5, 50, place, a, 0], [10, TOP, 50, place, a, 0], [10, 5, TOP - 8, place, a, 0]] {
            let mut numbers = before;
            assert_eq!(item.add(&mut r, false, &mut numbers), UNCHANGED);
            assert_eq!(numbers, before);
        }
    }
}

#[test]
fn numbers_that_are_no_totals() {
    let mut r = Random::new(58);
    let good = [9, 5, 50, 3, 1, 10];
    for (at, first_bad) in [(0, 65_536), (3, 65_536), (4, 1 << 32), (5, 1 << 32)] {
        for bad in [first_bad, first_bad + 1, 1 << 40, TOP] {
            let mut before = good;
            before[at] = bad;
            for item in sorts() {
                for by_parcel in [false, true] {
                    let mut numbers = before;
                    assert_eq!(item.add(&mut r, by_parcel, &mut numbers), UNCHANGED);
                    assert_eq!(numbers, before);
                }
            }
        }
        // one less is a number of totals
        let mut numbers = good;
        numbers[at] = first_bad - 1;
        let full = at == 0;
        assert_eq!(no_jump().add(&mut r, false, &mut numbers), if full { UNCHANGED } else { WITHOUT_JUMPS });
    }
}

/// a number that is often at one of the limits
fn any_number(r: &mut Random, limit: u64) -> u64 {
    match r.below(8) {
        0 => r.word(),
        1 => limit.wrapping_sub(2).wrapping_add(r.below(4) as u64),
        2 => limit - 1,
        3 => 0,
        4 => TOP - r.below(3_000) as u64,
        _ => r.word() % limit,
    }
}

#[test]
fn any_numbers() {
    let mut r = Random::new(59);
    let pool: Vec<Item> = (0..200).map(|_| some_item(&mut r)).chain(sorts()).collect();
    let mut met = Met::default();
    let mut replaced = 0;
    for _ in 0..60_000 {
        let mut numbers = [65_535, 1 << 63, 1 << 63, 65_536, 1 << 32, 1 << 32].map(|limit| r.word() % limit);
        for (at, limit) in [65_536, 1 << 63, 1 << 63, 65_536, 1 << 32, 1 << 32].into_iter().enumerate() {
            if r.chance(8) {
                numbers[at] = any_number(&mut r, limit);
            }
        }
        if r.chance(2) {
            numbers[4] = numbers[5] / (2 + r.below(60) as u64);
        }
        let before = numbers;
        let item = &pool[r.below(pool.len())];
        let by_parcel = r.chance(2);
        met.note(item.add(&mut r, by_parcel, &mut numbers));
        replaced += usize::from(before[5] != 0 && numbers[3] != before[3]);
    }
    println!("{met:?}, the largest was replaced {replaced} times");
    assert!(met.counted > 5_000 && met.without_jumps > 500 && met.unchanged > 5_000 && met.all_refused() > 500, "{met:?}");
    assert!(replaced > 1_000 && replaced < met.counted, "{replaced}");
}

#[test]
fn places_too_short() {
    let mut r = Random::new(60);
    for item in sorts() {
        for by_parcel in [false, true] {
            for totals_len in 0..8 {
                for place_len in 0..4 {
                    let (mut totals, mut place) = (padded(0, totals_len, 3, || 1), padded(0, place_len, 3, || r.word()));
                    let (totals_before, place_before) = (totals.clone(), place.clone());
                    let answer = item.call(by_parcel, &mut totals[..totals_len], &mut place[..place_len]);
                    let short = totals_len < 6 || place_len < 2;
                    assert_eq!(answer == 5, short, "{totals_len} and {place_len} numbers");
                    assert_eq!(totals == totals_before, short, "{totals_len} and {place_len} numbers");
                    assert_eq!(place == place_before, short, "{totals_len} and {place_len} numbers");
                }
            }
        }
    }
}

#[test]
fn fresh_totals_are_zeros() {
    assert_eq!(Some(post_guard::Totals::fresh()), wrapped([0; 6]));
    assert_eq!(post_guard::Totals::fresh(), post_guard::Totals::default());
}

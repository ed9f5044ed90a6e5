//! Shortest paths (document 02, K9): against the reference, over random programs of both techniques, whole and damaged, for every
//! address and for addresses outside code, with places of any length; against every path of small programs; the numbers in their
//! order; and that no run arrives where no path leads, whatever the bus writes.
#[path = "../reference/mod.rs"]
mod reference;
mod common;

use common::{accepted, answer_of, damage, library, number_of, padded, told, without_jumps, Program, Random};
use post_guard::{raw, step, Fault, Refusal, State, Step, Stop};
use reference::checkers::{self, Answer};
use reference::paths::{comes_first, every_path, shortest_path, shortest_path_flat, shortest_paths, successors, Found};
use reference::{decode, encode, is_successor, Op, Technique, TECHNIQUES};
use std::collections::BTreeSet;

const UNREACHABLE: u32 = 258;

/// How much is lent to a call.
#[derive(Clone, Copy, Debug)]
struct Lent {
    path: usize,
    count: usize,
    place: usize,
}

impl Lent {
    /// just enough for this answer: what is refused or unreachable needs none but the place
    fn enough(found: &Found) -> Lent {
        let path = found.as_ref().map_or(0, |path| path.as_ref().map_or(0, Vec::len));
        Lent { path, count: 1, place: 2 }
    }

    /// enough or more; one time in three, one of them is too short
    fn some(r: &mut Random, found: &Found) -> Lent {
        let mut lent = Lent::enough(found);
        lent.path += r.below(4);
        lent.count += r.below(3);
        lent.place += r.below(3);
        match r.below(12) {
            0 => lent.path = r.below(lent.path + 1),
            1 => lent.path = Lent::enough(found).path.saturating_sub(1),
            2 => lent.count = 0,
            3 => lent.place = r.below(2),
            _ => {}
        }
        lent
    }

    fn suffices(self, path: &[u16]) -> bool {
        self.path >= path.len() && self.count >= 1 && self.place >= 2
    }
}

/// The places that are lent, with three more items after each.
#[derive(Clone, PartialEq, Debug)]
struct Places {
    path: Vec<u16>,
    count: Vec<u64>,
    place: Vec<u64>,
}

impl Places {
    fn filled(r: &mut Random, lent: Lent) -> Places {
        Places {
            path: padded(0, lent.path, 3, || r.word() as u16),
            count: padded(0, lent.count, 3, || r.word()),
            place: padded(0, lent.place, 3, || r.word()),
        }
    }
}

/// The number that the call gives. It is the one that follows from what was found, and so is everything in the lent places and past
/// them afterwards.
fn compare_number(r: &mut Random, number: u8, p: &Program, address: u64, found: &Found, lent: Lent) -> u32 {
    let mut places = Places::filled(r, lent);
    let mut expected = places.clone();
    let (answer, kind, at) = match found {
        Ok(Some(path)) if lent.suffices(path) => {
            expected.path[..path.len()].copy_from_slice(path);
            expected.count[0] = path.len() as u64;
            (0, 0, 0)
        }
        Ok(Some(_)) => (5, 0, 0),
        Ok(None) => (UNREACHABLE, 0, 0),
        Err(refused) => *refused,
    };
    if lent.place >= 2 {
        expected.place[..2].copy_from_slice(&[kind, at]);
    }
    let (path, count, place) = (&mut places.path[..lent.path], &mut places.count[..lent.count], &mut places.place[..lent.place]);
    let given = raw::shortest_path(number, &p.memory, p.n, &p.edges, address, path, count, place);
    assert_eq!(given, answer, "to {address}, {lent:?}, {}", told(p));
    assert_eq!(places, expected, "{answer} to {address}, {lent:?}, {}", told(p));
    answer
}

/// The same by the technique, and what the wrapper and the benchmark's plain Rust give: all are alike.
fn compare(r: &mut Random, technique: Technique, p: &Program, address: u64, found: &Found, lent: Lent) -> u32 {
    let answer = compare_number(r, number_of(technique), p, address, found, lent);
    let Program { memory, n, edges } = p;
    let wrapped = post_guard::shortest_path(library(technique), memory, *n, edges, address);
    assert_eq!(plainly(wrapped), *found, "to {address}, {}", told(p));

    let short = matches!(found, Ok(Some(path)) if path.len() > lent.path);
    let expected = match found {
        Ok(_) if short => Err((5, 0, 0)),
        found => found.clone().map(|path| path.map(|path| path.len())),
    };
    let before = padded(0, lent.path, 0, || r.word() as u16);
    let mut after = before.clone();
    if let (Ok(Some(path)), false) = (found, short) {
        after[..path.len()].copy_from_slice(path);
    }
    let mut path = before.clone();
    let into = post_guard::shortest_path_into(library(technique), memory, *n, edges, address, &mut path);
    assert_eq!((plainly(into), &path), (expected.clone(), &after), "into, to {address}, {}", told(p));
    let mut path = before;
    let flat = shortest_path_flat(technique, memory, *n, edges, address, &mut path);
    assert_eq!((flat, path), (expected, after), "flat, to {address}, {}", told(p));
    answer
}

/// what the wrapper gives, as the reference has it
fn plainly<T>(found: Result<T, Fault>) -> Result<T, Answer> {
    found.map_err(answer_of)
}

fn program(ops: &[Op]) -> Program {
    Program { memory: ops.iter().map(|&op| encode(op)).collect(), n: ops.len(), edges: Vec::new() }
}

/// Puts branches, calls, rets, ordinary and illegal words in place of some words, wherever the program is accepted with them. Many
/// branches lead to the same two addresses, so that ways part and meet.
fn thicken(r: &mut Random, technique: Technique, p: &mut Program) {
    let meeting = [r.below(p.n), r.below(p.n)];
    for a in 0..p.n.saturating_sub(1) {
        let word = p.memory[a];
        let illegal = decode(word) == Op::Illegal;
        if !r.chance(if illegal { 2 } else { 5 }) {
            continue;
        }
        let target = if r.chance(2) { r.pick(&meeting) } else { r.below(p.n) } as u32;
        p.memory[a] = encode(match r.below(12) {
            0..=4 => Op::Bgt(3 + r.below(29) as u8, r.below(32) as u8, target),
            5 | 6 => Op::Jd(target),
            7 | 8 => Op::Call(target),
            9 => Op::Ret,
            10 => Op::Addi(9, 9, 1),
            _ => Op::Illegal,
        });
        if checkers::check_flat(technique, &p.memory, p.n, &p.edges) != (0, 0, 0) {
            p.memory[a] = word;
        }
    }
}

/// A program that the technique accepts, with jumps or without, most often with many branches.
fn some_accepted(r: &mut Random, technique: Technique, n: usize, d: usize) -> Program {
    let mut p = if r.chance(6) { without_jumps(r, technique, n, d) } else { accepted(r, technique, n, d) };
    if !r.chance(4) {
        thicken(r, technique, &mut p);
    }
    p
}

/// A jmp to two, three or four labels. The ways from there have up to two more words, calls of one routine among them, and meet
/// again before the last word.
fn parting_ways(r: &mut Random, technique: Technique) -> Program {
    let guards = technique == Technique::MemoryGuards;
    // whether each word of each way is a call
    let ways: Vec<Vec<bool>> = (0..2 + r.below(3)).map(|_| (0..r.below(3)).map(|_| r.chance(2)).collect()).collect();
    let first = if guards { 10 } else { 6 };
    let routine = first + ways.iter().map(|way| way.len() + 2).sum::<usize>();
    let (meeting, n) = (routine + 2, routine + 4);
    let halt = n as u32 - 1;
    let mut ops = vec![Op::Addi(0, 5, 0)];
    if guards {
        ops.extend([Op::Movi(1, halt), Op::Movi(2, 0), Op::Bgt(0, 1, halt), Op::Bgt(2, 0, halt)]);
    }
    let id = first as u32;
    ops.extend([Op::Ld(1, 0, 0), Op::Movi(2, id), Op::Bgt(1, 2, halt), Op::Bgt(2, 1, halt), Op::Jmp(0)]);
    let mut edges = Vec::new();
    for way in ways {
        edges.extend([first as u16 - 1, ops.len() as u16]);
        ops.push(Op::Label(id));
        ops.extend(way.into_iter().map(|call| if call { Op::Call(routine as u32) } else { Op::Addi(9, 9, 1) }));
        ops.push(if r.chance(3) { Op::Bgt(3, 4, meeting as u32) } else { Op::Jd(meeting as u32) });
    }
    ops.extend([Op::Addi(8, 8, 1), Op::Ret, Op::Addi(7, 7, 1), Op::Illegal]);
    Program { edges, ..program(&ops) }
}

/// addresses that are outside the code of n words, some of which have low bits that are inside
fn outside(r: &mut Random, p: &Program) -> Vec<u64> {
    let n = p.n.min(4096) as u64;
    let low = r.below(p.n.clamp(1, 2048)) as u64;
    let all = [n, n + 1, p.memory.len() as u64, 2047, 2048, 65_535, 65_536, 65_536 + low, 1 << 32 | low, 1 << 63 | low, u64::MAX];
    all.into_iter().filter(|&address| address >= n).collect()
}

/// how many rets of the path do not go to the word after the latest call of it that has not come back
fn strange_returns(p: &Program, path: &[u16]) -> usize {
    let (mut called, mut strange) = (Vec::new(), 0);
    for pair in path.windows(2) {
        match decode(p.memory[usize::from(pair[0])]) {
            Op::Call(_) => called.push(pair[0] + 1),
            Op::Ret => strange += usize::from(called.pop() != Some(pair[1])),
            _ => {}
        }
    }
    strange
}

/// What was found, and where the paths lead through.
#[derive(Default, Debug)]
struct Met {
    found: usize,
    unreachable: usize,
    longest: usize,
    /// steps from a bgt to its target, and from a jd, jmp, call and ret
    branches: usize,
    jds: usize,
    jumps: usize,
    calls: usize,
    returns: usize,
    strange_returns: usize,
    /// what the calls gave
    given: [usize; 24],
}

impl Met {
    /// Notes a path, which is one: from 0 to the address, each step to a successor.
    fn note(&mut self, p: &Program, address: u64, path: &[u16]) {
        assert_eq!((path.first(), path.last()), (Some(&0), Some(&(address as u16))));
        self.found += 1;
        self.longest = self.longest.max(path.len());
        self.strange_returns += strange_returns(p, path);
        for pair in path.windows(2) {
            let (from, to) = (pair[0], pair[1]);
            assert!(is_successor(&p.memory[..p.n], &p.edges, from.into(), to.into()), "{from} to {to}, {}", told(p));
            match decode(p.memory[usize::from(from)]) {
                Op::Bgt(_, _, w) => self.branches += usize::from(u32::from(to) == w),
                Op::Jd(_) => self.jds += 1,
                Op::Jmp(_) => self.jumps += 1,
                Op::Call(_) => self.calls += 1,
                Op::Ret => self.returns += 1,
                _ => {}
            }
        }
    }

    /// these addresses, with places of any length
    fn compare_all(&mut self, r: &mut Random, technique: Technique, p: &Program, addresses: &[u64]) {
        let all = shortest_paths(technique, &p.memory, p.n, &p.edges, addresses);
        for (&address, found) in addresses.iter().zip(all) {
            let lent = Lent::some(r, &found);
            let answer = compare(r, technique, p, address, &found, lent);
            match found {
                Ok(None) => self.unreachable += 1,
                Ok(Some(path)) => {
                    self.note(p, address, &path);
                    self.given[answer as usize] += 1;
                }
                Err(_) => self.given[answer as usize] += 1,
            }
        }
    }

    fn all_sorts(&self, technique: Technique, often: usize) {
        println!("{technique:?}: {self:?}");
        let ways = [self.branches, self.jds, self.jumps, self.calls, self.returns, self.strange_returns];
        assert!(ways.iter().chain([&self.found, &self.unreachable]).all(|&times| times > often), "{self:?}");
        for (number, &times) in self.given.iter().enumerate() {
            let never = matches!(number, 1..=4 | 16 | 17 | 19..=22) || technique == Technique::Plain && number == 13;
            assert!(never == (times == 0), "number {number} was given {times} times");
        }
    }
}

fn many(technique: Technique, seed: u64) {
    let mut r = Random::new(seed);
    let mut met = Met::default();
    for round in 0..12_000usize {
        let n = if r.chance(100) { 1 + r.below(400) } else { 1 + r.below(64) };
        let d = r.below(6);
        let mut p = some_accepted(&mut r, technique, n, d);
        for _ in 0..(round % 5).saturating_sub(2) {
            damage(&mut r, &mut p);
        }
        let inside = 0..p.n.min(p.memory.len()) as u64;
        let addresses: Vec<u64> = inside.chain(outside(&mut r, &p)).collect();
        met.compare_all(&mut r, technique, &p, &addresses);
    }
    met.all_sorts(technique, 5_000);
}

/// 12,000 programs, two in five of them damaged: for every address, and some outside, the answer and every lent place are the
/// reference's.
#[test]
fn plain_programs() {
    many(Technique::Plain, 111);
}

#[test]
fn programs_with_memory_guards() {
    many(Technique::MemoryGuards, 112);
}

/// Shortest paths of small programs, picked out of all their paths.
#[derive(Default, Debug)]
struct Picked {
    programs: usize,
    found: usize,
    unreachable: usize,
    /// addresses with several shortest paths, by the word where the picked one and another first part
    parted_at_bgt: usize,
    parted_at_jmp: usize,
    parted_at_ret: usize,
}

impl Picked {
    /// Of every address, all paths are gone through: the answer is the one of them that comes before all others, and there is none
    /// exactly where no path is.
    fn pick(&mut self, r: &mut Random, technique: Technique, p: &Program) {
        let code = &p.memory[..p.n];
        self.programs += 1;
        for address in 0..p.n as u16 {
            let all = every_path(code, &p.edges, address);
            let first = all.iter().find(|one| all.iter().all(|two| one == &two || comes_first(one, two)));
            assert_eq!(first.is_none(), all.is_empty());
            let found = Ok(first.cloned());
            let lent = Lent::some(r, &found);
            compare(r, technique, p, address.into(), &found, lent);
            match first {
                None => self.unreachable += 1,
                Some(first) => {
                    self.found += 1;
                    for other in all.iter().filter(|other| other.len() == first.len() && *other != first) {
                        let parted = first.iter().zip(other).take_while(|(one, two)| one == two).count();
                        match decode(code[usize::from(first[parted - 1])]) {
                            Op::Bgt(..) => self.parted_at_bgt += 1,
                            Op::Jmp(_) => self.parted_at_jmp += 1,
                            Op::Ret => self.parted_at_ret += 1,
                            op => panic!("two paths part at {op:?}"),
                        }
                    }
                }
            }
        }
    }
}

/// Every program of up to five words out of all branches, jds and calls in it, ret, an ordinary and an illegal word; the last word
/// is illegal. Both techniques accept them.
#[test]
fn all_small_programs() {
    let mut r = Random::new(113);
    let mut picked = Picked::default();
    for n in 1..=5usize {
        let target = 0..n as u32;
        let words: Vec<Op> = [Op::Ret, Op::Movi(3, 1), Op::Illegal]
            .into_iter()
            .chain(target.clone().map(|w| Op::Bgt(3, 4, w)))
            .chain(target.clone().map(Op::Jd))
            .chain(target.map(Op::Call))
            .collect();
        for choice in 0..words.len().pow(n as u32 - 1) {
            let mut ops: Vec<Op> = (0..n as u32 - 1).map(|a| words[choice / words.len().pow(a) % words.len()]).collect();
            ops.push(Op::Illegal);
            picked.pick(&mut r, TECHNIQUES[choice % 2], &program(&ops));
        }
    }
    println!("{picked:?}");
    assert_eq!(picked.programs, 1 + 9 + 12 * 12 + 15 * 15 * 15 + 18 * 18 * 18 * 18);
    assert!(picked.found > 100_000 && picked.unreachable > 100_000 && picked.parted_at_bgt > 1_000, "{picked:?}");
    assert!(picked.parted_at_ret > 40, "{picked:?}");
}

/// Random programs of up to 30 words, with jumps.
#[test]
fn small_programs_with_jumps() {
    let mut r = Random::new(114);
    for technique in TECHNIQUES {
        let mut picked = Picked::default();
        let least = if technique == Technique::Plain { 8 } else { 12 };
        for round in 0..8_000 {
            let (n, d) = (least + r.below(21 - least), r.below(3));
            let mut p = if round % 4 == 0 { parting_ways(&mut r, technique) } else { accepted(&mut r, technique, n, d) };
            for _ in 0..round % 4 {
                thicken(&mut r, technique, &mut p);
            }
            picked.pick(&mut r, technique, &p);
        }
        println!("{technique:?}: {picked:?}");
        assert!(picked.found > 20_000 && picked.unreachable > 20_000, "{picked:?}");
        let parted = [picked.parted_at_bgt, picked.parted_at_jmp, picked.parted_at_ret];
        assert!(parted.iter().all(|&times| times > 100), "{picked:?}");
    }
}

/// Paths that were worked out by hand: the lower address of a parting is not always the next word's, and fewer steps count before
/// lower addresses.
#[test]
fn the_lower_address_where_two_part() {
    let mut r = Random::new(115);
    // a bgt back to 1 and on to 4: both lead to 5 in two steps, by the target which is the lower one
    let back = program(&[Op::Jd(3), Op::Jd(5), Op::Illegal, Op::Bgt(3, 4, 1), Op::Jd(5), Op::Illegal]);
    // fewer steps come before lower addresses
    let fewer = program(&[Op::Bgt(3, 4, 3), Op::Movi(5, 1), Op::Jd(4), Op::Jd(4), Op::Illegal]);
    // the first lower address decides, and not the sum or the last: 1, 7, 8 before 2, 3, 8
    let first = program(&[
        Op::Bgt(3, 4, 2),
        Op::Jd(7),
        Op::Jd(3),
        Op::Jd(8),
        Op::Illegal,
        Op::Illegal,
        Op::Illegal,
        Op::Jd(8),
        Op::Illegal,
    ]);
    // a bgt whose target is the next word has one successor
    let alike = program(&[Op::Bgt(3, 4, 1), Op::Illegal]);
    let expected: [(&Program, u64, Option<&[u16]>); 9] = [
        (&back, 5, Some(&[0, 3, 1, 5])),
        (&back, 2, None),
        (&back, 4, Some(&[0, 3, 4])),
        (&fewer, 4, Some(&[0, 3, 4])),
        (&fewer, 2, Some(&[0, 1, 2])),
        (&first, 8, Some(&[0, 1, 7, 8])),
        (&first, 4, None),
        (&alike, 1, Some(&[0, 1])),
        (&alike, 0, Some(&[0])),
    ];
    for (p, address, path) in expected {
        let found = Ok(path.map(<[u16]>::to_vec));
        for technique in TECHNIQUES {
            compare(&mut r, technique, p, address, &found, Lent::enough(&found));
            assert_eq!(shortest_path(technique, &p.memory, p.n, &p.edges, address), found);
        }
    }
}

/// The successors that the searches go by are those that `is_successor` says, of every pair of addresses, rising.
#[test]
fn successors_are_those_of_the_graph() {
    let mut r = Random::new(116);
    let mut several = 0;
    for round in 0..400usize {
        let technique = TECHNIQUES[round % 2];
        let n = 1 + r.below(50);
        let p = some_accepted(&mut r, technique, n, 2);
        let code = &p.memory[..n];
        for from in 0..n as u16 {
            let all: Vec<u16> = (0..n as u16).filter(|&to| is_successor(code, &p.edges, from.into(), to.into())).collect();
            several += usize::from(all.len() > 1);
            assert_eq!(successors(code, &p.edges, from), all);
        }
    }
    assert!(several > 500, "{several}");
}

/// "The path from 0 to 0 is 0 alone", also where a longer way leads back to it.
#[test]
fn from_0_to_0() {
    let mut r = Random::new(117);
    for round in 0..400usize {
        let technique = TECHNIQUES[round % 2];
        let n = 1 + r.below(40);
        let p = some_accepted(&mut r, technique, n, 2);
        let found = Ok(Some(vec![0]));
        for lent in [Lent::enough(&found), Lent { path: 40, count: 3, place: 4 }] {
            assert_eq!(compare(&mut r, technique, &p, 0, &found, lent), 0);
        }
        assert_eq!(compare(&mut r, technique, &p, 0, &found, Lent { path: 0, ..Lent::enough(&found) }), 5);
    }
    for first in [Op::Jd(0), Op::Call(0), Op::Bgt(3, 4, 0), Op::Ret, Op::Illegal] {
        let (p, found) = (program(&[first, Op::Illegal]), Ok(Some(vec![0])));
        assert_eq!(compare(&mut r, Technique::Plain, &p, 0, &found, Lent::enough(&found)), 0);
    }
}

/// Every length of every lent place, up to more than enough: one too short gives 5 and changes nothing, exactly enough is enough,
/// and more is left as it is.
#[test]
fn places_of_every_length() {
    let mut r = Random::new(118);
    let (mut short, mut enough, mut no_room_needed) = (0, 0, 0);
    for round in 0..120usize {
        let technique = TECHNIQUES[round % 2];
        let n = 12 + r.below(20);
        let mut p = some_accepted(&mut r, technique, n, 2);
        if round % 4 == 3 {
            damage(&mut r, &mut p);
        }
        let mut addresses: Vec<u64> = (0..6).map(|_| r.below(n) as u64).collect();
        addresses.push(n as u64);
        for address in addresses {
            let found = shortest_path(technique, &p.memory, p.n, &p.edges, address);
            let most = Lent::enough(&found).path + 2;
            for (path, count, place) in (0..=most).flat_map(|path| (0..12).map(move |k| (path, k / 4, k % 4))) {
                let lent = Lent { path, count, place };
                let answer = compare(&mut r, technique, &p, address, &found, lent);
                match &found {
                    Ok(Some(path)) if lent.suffices(path) => {
                        assert_eq!(answer, 0);
                        enough += 1;
                    }
                    Ok(Some(_)) => {
                        assert_eq!(answer, 5);
                        short += 1;
                    }
                    Ok(None) => {
                        assert_eq!(answer, UNREACHABLE);
                        no_room_needed += 1;
                    }
                    Err((number, ..)) => {
                        assert_eq!(answer, *number);
                        no_room_needed += 1;
                    }
                }
            }
        }
    }
    println!("too short: {short}, enough: {enough}, no room needed: {no_room_needed}");
    assert!(short > 20_000 && enough > 3_000 && no_room_needed > 3_000);
}

/// What a call may be turned away for, in the order in which it is tested.
const ORDER: [u32; 13] = [6, 7, 8, 18, 9, 10, 11, 12, 13, 14, 15, 23, 5];

/// A program with these faults: one for each number of the check; with memory guards.
fn with_faults(faults: &[u32]) -> Program {
    let broken = |number| faults.contains(&number);
    let n = 50;
    let halt = n as u32 - 1;
    let mut ops = vec![Op::Movi(9, 1); n];
    let guard = |id| {
        let test = [Op::Addi(0, 5, 0), Op::Movi(1, halt), Op::Movi(2, 0), Op::Bgt(0, 1, halt), Op::Bgt(2, 0, halt)];
        let label = [Op::Ld(1, 0, 0), Op::Movi(2, id), Op::Bgt(1, 2, halt), Op::Bgt(2, 1, halt), Op::Jmp(0)];
        [test, label].concat()
    };
    ops[0] = Op::Bgt(3, 4, if broken(15) { 12 } else { 10 });
    ops[1] = if broken(13) { Op::St(3, 4, 0) } else { Op::Movi(3, 1) };
    ops[2] = if broken(12) { Op::Label(2) } else { Op::Movi(3, 1) };
    ops[10..20].copy_from_slice(&guard(40));
    ops[20..30].copy_from_slice(&guard(42));
    ops[40..43].copy_from_slice(&[Op::Label(40), Op::Label(40), Op::Label(42)]);
    if broken(14) {
        ops[18] = Op::Bgt(2, 1, 0);
    }
    ops[30] = if broken(9) { Op::Jmp(0) } else { Op::Movi(3, 1) };
    ops[n - 1] = if broken(11) { Op::Movi(3, 1) } else { Op::Illegal };
    // no path leads to 45
    ops[44] = Op::Illegal;
    let mut pairs = vec![[19, 40], [19, 41], [29, 42]];
    if broken(10) {
        pairs.insert(2, [19, 42]);
    }
    if broken(18) {
        pairs.swap(0, 1);
    }
    if broken(8) {
        pairs.push([29, n as u16]);
    }
    if broken(7) {
        pairs.push([33, 42]);
    }
    let mut edges = pairs.concat();
    if broken(6) {
        edges.pop();
    }
    Program { memory: ops.into_iter().map(encode).chain([7]).collect(), n, edges }
}

/// Every choice of faults, one for each number: the first in the order is the answer. Where no path leads to the address, that is
/// told after 23 and before 5: where it is told, and where another number comes first, places that are too short do not count.
#[test]
fn numbers_come_in_their_order() {
    let mut r = Random::new(119);
    let technique = Technique::MemoryGuards;
    let mut given = [0; 24];
    let mut unreachable = 0;
    for choice in 0..1 << ORDER.len() {
        let faults: Vec<u32> = (0..ORDER.len()).filter(|k| choice >> k & 1 == 1).map(|k| ORDER[k]).collect();
        let p = with_faults(&faults);
        let outside = faults.contains(&23);
        for address in if outside { [p.n as u64, u64::MAX] } else { [45, 42] } {
            let found = shortest_path(technique, &p.memory, p.n, &p.edges, address);
            let enough = Lent::enough(&found);
            let lents = if faults.contains(&5) {
                let short = Lent { path: enough.path.saturating_sub(1), ..enough };
                [short, Lent { count: 0, ..enough }, Lent { place: 1, ..enough }, Lent { path: 0, count: 0, place: 0 }]
            } else {
                [enough, Lent { path: 2048, ..enough }, Lent { count: 2, ..enough }, Lent { place: 3, ..enough }]
            };
            for lent in lents {
                let answer = compare(&mut r, technique, &p, address, &found, lent);
                let expected = match faults.first() {
                    None | Some(5) if address == 45 => UNREACHABLE,
                    first => first.copied().unwrap_or(0),
                };
                assert_eq!(answer, expected, "{faults:?}, to {address}, {lent:?}");
                match answer {
                    UNREACHABLE => unreachable += 1,
                    number => given[number as usize] += 1,
                }
            }
        }
    }
    println!("{given:?}, unreachable: {unreachable}");
    assert!(ORDER.iter().all(|&number| given[number as usize] > 0) && given[0] > 0 && unreachable > 0, "{given:?}");
}

/// Whatever n is, and however many words and edge numbers there are.
#[test]
fn shapes() {
    let mut r = Random::new(120);
    let mut given = [0; 24];
    for code in [0usize, 1, 2, 2048, 2049] {
        for data in [0usize, 1, 2048, 2049] {
            for numbers in [0usize, 1, 2, 4096, 4097, 4098] {
                let memory = vec![u64::MAX; code + data];
                let edges: Vec<u16> = (0..numbers).map(|_| r.word() as u16).collect();
                for n in [0, 1, code, code + 1, 2048, 2049, code + data, code + data + 1, usize::MAX] {
                    let p = Program { memory: memory.clone(), n, edges: edges.clone() };
                    for address in [0, 1, n as u64, u64::MAX] {
                        for technique in TECHNIQUES {
                            let found = shortest_path(technique, &p.memory, p.n, &p.edges, address);
                            let lent = Lent::some(&mut r, &found);
                            let answer = compare(&mut r, technique, &p, address, &found, lent);
                            if answer != UNREACHABLE {
                                given[answer as usize] += 1;
                            }
                        }
                    }
                }
            }
        }
    }
    println!("{given:?}");
    assert!([0, 5, 6, 7, 23].iter().all(|&number| given[number] > 20), "{given:?}");

    let wild = post_guard::Program { memory: vec![7; 3], code_words: usize::MAX, edges: vec![0; 100_000] };
    assert_eq!(wild.shortest_path(library(Technique::Plain), 0), Err(Refusal::Shape.into()));
}

/// Any technique number but 0 means memory guards.
#[test]
fn other_technique_numbers() {
    let mut r = Random::new(121);
    let (mut found, mut refused) = (0, 0);
    for round in 0..200usize {
        let n = 12 + r.below(30);
        let p = some_accepted(&mut r, TECHNIQUES[round % 2], n, 2);
        for address in 0..n as u64 + 1 {
            let expected = shortest_path(Technique::MemoryGuards, &p.memory, p.n, &p.edges, address);
            for number in [1, 2, 77, 255] {
                match compare_number(&mut r, number, &p, address, &expected, Lent::enough(&expected)) {
                    0 => found += 1,
                    5 => panic!("enough is lent"),
                    UNREACHABLE => {}
                    _ => refused += 1,
                }
            }
        }
    }
    assert!(found > 2_000 && refused > 2_000, "{found} and {refused}");
}

/// The longest path has 2,048 addresses: one word after the other. One that is one shorter does not take it.
#[test]
fn the_longest_path() {
    let mut r = Random::new(122);
    for d in [0, 1, 2048] {
        let mut p = program(&[&[Op::Addi(9, 9, 1); 2047][..], &[Op::Illegal]].concat());
        p.memory.resize(2048 + d, 5);
        let found: Found = Ok(Some((0..2048).collect()));
        for technique in TECHNIQUES {
            assert_eq!(shortest_path(technique, &p.memory, p.n, &p.edges, 2047), found);
            for (path, expected) in [(2047, 5), (2048, 0), (2049, 0), (4096, 0)] {
                assert_eq!(compare(&mut r, technique, &p, 2047, &found, Lent { path, count: 1, place: 2 }), expected);
            }
            assert_eq!(compare(&mut r, technique, &p, 2048, &Err((23, 0, 0)), Lent { path: 2048, count: 1, place: 2 }), 23);
        }
    }
}

/// A program with as many words as there may be. One that is sparse has few words that lead elsewhere or nowhere, so that paths are
/// long and go through jumps.
fn large_program(r: &mut Random, technique: Technique, sparse: bool) -> Program {
    let (n, d) = (r.pick(&[2047, 2048]), r.pick(&[0, 1, 2047, 2048]));
    loop {
        let mut p = accepted(r, technique, n, d);
        for word in &mut p.memory[..n - 1] {
            let leads_away = matches!(decode(*word), Op::Jd(_) | Op::Call(_) | Op::Ret | Op::Illegal);
            if sparse && leads_away && !r.chance(60) {
                *word = encode(Op::Addi(9, 9, 1));
            }
        }
        if checkers::check_flat(technique, &p.memory, p.n, &p.edges) == (0, 0, 0) {
            return p;
        }
    }
}

#[test]
fn full_size() {
    let mut r = Random::new(123);
    for technique in TECHNIQUES {
        for sparse in [false, true] {
            let mut met = Met::default();
            for _ in 0..6 {
                let p = large_program(&mut r, technique, sparse);
                let inside = (0..300).map(|_| r.below(p.n) as u64).collect();
                let addresses: Vec<u64> = [inside, outside(&mut r, &p)].concat();
                met.compare_all(&mut r, technique, &p, &addresses);
            }
            println!("{technique:?}, sparse: {sparse}: {met:?}");
            assert!(met.found > 300 && met.unreachable > 300, "{met:?}");
            assert!(!sparse || met.longest > 40 && met.jumps > 1_000, "{met:?}");
        }
    }
}

/// What happened in runs of accepted programs.
#[derive(Default, Debug)]
struct Walks {
    made: usize,
    jumps: usize,
    returns: usize,
    /// addresses that runs came to, and addresses that no path leads to
    came_to: usize,
    unreachable: usize,
    /// paths on which a ret goes to another place than the one after its own call
    followed_by_no_run: usize,
}

impl Walks {
    /// Steps an accepted program from a fresh state, with bus writes between any two steps, again and again: the pc is never at an
    /// address that no path leads to, and never there in fewer steps than the path has.
    fn walk(&mut self, r: &mut Random, technique: Technique, p: &Program, steps: usize) {
        let paths: Vec<Option<Vec<u16>>> = (0..p.n as u64)
            .map(|address| post_guard::shortest_path(library(technique), &p.memory, p.n, &p.edges, address).unwrap())
            .collect();
        self.unreachable += paths.iter().filter(|path| path.is_none()).count();
        let mut seen = BTreeSet::new();
        let mut memory = p.memory.clone();
        let mut state = State::fresh(std::array::from_fn(|_| some_word(r, p)));
        let mut made = 0;
        for _ in 0..steps {
            let path = paths[state.pc as usize].as_ref();
            let path = path.unwrap_or_else(|| panic!("a run comes to {}, {technique:?}, {}", state.pc, told(p)));
            assert!(path.len() <= made + 1, "a run comes to {} in {made} steps, {technique:?}, {}", state.pc, told(p));
            seen.insert(state.pc);
            for _ in 0..r.below(4) {
                let word = some_word(r, p);
                state.write_register(3 + r.below(29) as u64, word).unwrap();
                if memory.len() > p.n {
                    let (address, word) = (p.n + r.below(memory.len() - p.n), some_word(r, p));
                    post_guard::write_data(&mut memory, p.n, address as u64, word).unwrap();
                }
            }
            let op = decode(p.memory[state.pc as usize]);
            match step(library(technique), &mut state, &mut memory, p.n).unwrap() {
                Step::Made => {
                    made += 1;
                    self.made += 1;
                    self.jumps += usize::from(matches!(op, Op::Jmp(_)));
                    self.returns += usize::from(op == Op::Ret);
                }
                // the bus may mend a load, a store or a jmp; an illegal word stays illegal, and the stack as it is
                Step::Stopped(stop) => {
                    if matches!(stop, Stop::Illegal | Stop::Full | Stop::Empty) || r.chance(3) {
                        state = State::fresh(std::array::from_fn(|_| some_word(r, p)));
                        memory = p.memory.clone();
                        made = 0;
                    }
                }
            }
        }
        self.came_to += seen.len();
        self.followed_by_no_run += paths.iter().flatten().filter(|path| strange_returns(p, path) > 0).count();
    }
}

/// an address of code or data, most often a destination; or any word
fn some_word(r: &mut Random, p: &Program) -> u64 {
    match r.below(4) {
        0 | 1 if !p.edges.is_empty() => p.edges[r.below(p.edges.len() / 2) * 2 + 1].into(),
        2 if r.chance(4) => r.odd_number(),
        _ => r.below(p.memory.len()) as u64,
    }
}

/// "No run of that program started at address 0, under any bus writes, then arrives there."
#[test]
fn no_run_arrives_where_no_path_leads() {
    let mut r = Random::new(124);
    for technique in TECHNIQUES {
        let mut walks = Walks::default();
        for _ in 0..4_000 {
            let (n, d) = (1 + r.below(60), r.below(6));
            let p = some_accepted(&mut r, technique, n, d);
            walks.walk(&mut r, technique, &p, 300);
        }
        println!("{technique:?}: {walks:?}");
        assert!(walks.made > 500_000 && walks.jumps > 5_000 && walks.returns > 4_000, "{walks:?}");
        assert!(walks.came_to > 20_000 && walks.unreachable > 20_000 && walks.followed_by_no_run > 100, "{walks:?}");
    }
}

/// The program of examples/credit-routine.txt, its paths worked out by hand.
#[test]
fn ways_to_the_credit_routine() {
    let mut r = Random::new(125);
    let parcel = std::fs::read(format!("{}/../examples/credit-routine.parcel", env!("CARGO_MANIFEST_DIR"))).unwrap();
    let example = post_guard::Program::from_parcel(&parcel).unwrap();
    let p = Program { memory: example.memory.clone(), n: example.code_words, edges: example.edges.clone() };
    assert_eq!((p.n, p.memory.len(), &p.edges[..]), (30, 34, &[14, 15, 14, 18][..]));

    // by 4 and not by 6, by 15 and not by 18
    let shared = [0, 1, 2, 3, 4, 5, 8, 9, 10, 11, 12];
    let to_jump = [&shared[..], &[13, 14]].concat();
    let to_routine = [&to_jump[..], &[15, 16, 25]].concat();
    let expected = [
        (25, Some(to_routine.clone())),
        // the ret goes to the word after the other call, which no run does
        (20, Some([&to_routine[..], &[26, 27, 28, 20]].concat())),
        (29, Some([&shared[..], &[29]].concat())),
        (7, Some(vec![0, 1, 2, 3, 6, 7])),
        (18, Some([&to_jump[..], &[18]].concat())),
        (0, Some(vec![0])),
        (23, None),
        (24, None),
    ];
    for (address, path) in expected {
        let found = Ok(path);
        compare(&mut r, Technique::Plain, &p, address, &found, Lent::enough(&found));
        assert_eq!(plainly(example.shortest_path(library(Technique::Plain), address)), found);
    }
    for address in [30, 33, 34, u64::MAX] {
        compare(&mut r, Technique::Plain, &p, address, &Err((23, 0, 0)), Lent { path: 30, count: 1, place: 2 });
    }
    // the store at 21 has no guard; 13 comes before 23
    let refused = Err((13, 2, 21));
    for address in [25, 30] {
        compare(&mut r, Technique::MemoryGuards, &p, address, &refused, Lent { path: 30, count: 1, place: 2 });
    }

    // four paths of 16 addresses lead to the routine, and none of fewer
    let all = every_path(&p.memory[..p.n], &p.edges, 25);
    let mut fewest: Vec<&Vec<u16>> = all.iter().filter(|path| path.len() == 16).collect();
    fewest.sort();
    assert!(fewest.len() == 4 && fewest[0] == &to_routine && all.iter().all(|path| path.len() >= 16), "{all:?}");

    // a stay that is long and paid by card comes to 20 by its own call
    let (mut state, mut memory) = (State::fresh([0; 32]), p.memory.clone());
    let mut path = vec![0];
    while step(library(Technique::Plain), &mut state, &mut memory, p.n) == Ok(Step::Made) {
        path.push(state.pc);
    }
    let run = [0, 1, 2, 3, 6, 7, 8, 9, 10, 11, 12, 13, 14, 18, 19, 25, 26, 27, 28, 20, 21, 22, 29];
    assert_eq!((path, &memory[32..]), (run.to_vec(), &[50, 16][..]));
}

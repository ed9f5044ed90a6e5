//! Guards put in for the installer: against the reference, over random bare programs, whole and damaged, places of any length, and
//! results around 2,048 words. What comes out is accepted, keeps to its graph whatever the bus writes, and does what the bare code
//! does.
#[path = "../reference/mod.rs"]
mod reference;
mod common;

use common::{answer_of, padded, sort_edges, told, Program, Random};
use post_guard::{raw, step, Ending, Guarded, Refusal, State, Step, Stop, Technique, Verdict};
use reference::rewrite::{rewrite, rewrite_flat, Rewritten};
use reference::{checkers, checkers::Answer, decode, encode, is_successor, Op};
use std::collections::BTreeSet;

const MARK: u64 = 0x5ca1_ab1e_0ddb_a115;

/// How much is lent to a call.
#[derive(Clone, Copy, Debug)]
struct Lent {
    code: usize,
    edges: usize,
    map: usize,
    counts: usize,
    place: usize,
}

impl Lent {
    /// just enough for this result; a refusal needs none but the place
    fn enough(result: &Result<Rewritten, Answer>) -> Lent {
        let (code, edges, map) = match result {
            Ok(new) => (new.code.len(), new.edges.len(), new.map.len()),
            Err(_) => (0, 0, 0),
        };
        Lent { code, edges, map, counts: 2, place: 2 }
    }

    /// enough or more; one time in three, one of them is too short
    fn some(r: &mut Random, result: &Result<Rewritten, Answer>) -> Lent {
        let mut lent = Lent::enough(result);
        lent.code += r.below(4);
        lent.edges += r.below(4);
        lent.map += r.below(4);
        lent.counts += r.below(3);
        lent.place += r.below(3);
        let short = lent.one_too_short(result);
        match r.below(18) {
            0 => lent.code = r.below(lent.code + 1),
            1 => lent.edges = r.below(lent.edges + 1),
            2 => lent.map = r.below(lent.map + 1),
            3 => lent.counts = r.below(2),
            4 => lent.place = r.below(2),
            5 if !short.is_empty() => lent = r.pick(&short),
            _ => {}
        }
        lent
    }

    /// each of the places that are not empty, one too short by itself
    fn one_too_short(self, result: &Result<Rewritten, Answer>) -> Vec<Lent> {
        let enough = Lent::enough(result);
        let all = [
            (enough.code > 0).then(|| Lent { code: enough.code - 1, ..self }),
            (enough.edges > 0).then(|| Lent { edges: enough.edges - 1, ..self }),
            (enough.map > 0).then(|| Lent { map: enough.map - 1, ..self }),
            Some(Lent { counts: 1, ..self }),
            Some(Lent { place: 1, ..self }),
        ];
        all.into_iter().flatten().collect()
    }

    fn suffices(self, new: &Rewritten) -> bool {
        self.code >= new.code.len()
            && self.edges >= new.edges.len()
            && self.map >= new.map.len()
            && self.counts >= 2
            && self.place >= 2
    }
}

/// The places that are lent, with three more items after each.
#[derive(Clone, PartialEq, Debug)]
struct Places {
    code: Vec<u64>,
    edges: Vec<u16>,
    map: Vec<u16>,
    counts: [u64; 7],
    place: [u64; 7],
}

impl Places {
    fn filled(r: &mut Random, lent: Lent) -> Places {
        Places {
            code: padded(0, lent.code, 3, || r.word()),
            edges: padded(0, lent.edges, 3, || r.word() as u16),
            map: padded(0, lent.map, 3, || r.word() as u16),
            counts: [MARK; 7],
            place: [MARK + 1; 7],
        }
    }

    fn put(&mut self, new: &Rewritten) {
        self.code[..new.code.len()].copy_from_slice(&new.code);
        self.edges[..new.edges.len()].copy_from_slice(&new.edges);
        self.map[..new.map.len()].copy_from_slice(&new.map);
        self.counts[..2].copy_from_slice(&[new.code.len() as u64, new.edges.len() as u64]);
    }
}

/// The number that the call gives. It is the reference's, and so is everything in the lent places and past them afterwards.
fn compare(r: &mut Random, p: &Program, result: &Result<Rewritten, Answer>, lent: Lent) -> u32 {
    let mut places = Places::filled(r, lent);
    let (before, mut expected) = (places.clone(), places.clone());
    let (number, kind, at) = match result {
        Ok(new) if lent.suffices(new) => {
            expected.put(new);
            (0, 0, 0)
        }
        Ok(_) => (5, 0, 0),
        Err(refused) => *refused,
    };
    if lent.place >= 2 {
        expected.place[..2].copy_from_slice(&[kind, at]);
    }
    let answer = raw::rewrite(
        &p.memory,
        p.n,
        &p.edges,
        &mut places.code[..lent.code],
        &mut places.edges[..lent.edges],
        &mut places.map[..lent.map],
        &mut places.counts[..lent.counts],
        &mut places.place[..lent.place],
    );
    assert_eq!(answer, number, "{lent:?} {}", told(p));
    assert_eq!(places.counts, expected.counts, "{answer}, {lent:?} {}", told(p));
    assert_eq!(places.place, expected.place, "{answer}, {lent:?} {}", told(p));
    assert!(places == expected, "{answer}, {lent:?} {}\n{places:x?}\n{expected:x?}", told(p));

    // the benchmark's, which has no place of its own for counts and place
    if lent.counts >= 2 && lent.place >= 2 {
        places = before;
        let (code, edges, map) =
            (&mut places.code[..lent.code], &mut places.edges[..lent.edges], &mut places.map[..lent.map]);
        let flat = rewrite_flat(&p.memory, p.n, &p.edges, code, edges, map);
        assert_eq!(flat.map_or_else(|refused| refused, |_| (0, 0, 0)), (number, kind, at), "flat, {}", told(p));
        (places.counts, places.place) = (expected.counts, expected.place);
        assert!(places == expected, "flat, {number}, {lent:?} {}", told(p));
    }
    answer
}

fn result_of(p: &Program) -> Result<Rewritten, Answer> {
    rewrite(&p.memory, p.n, &p.edges)
}

/// any register but r0, r1 and r2
fn register(r: &mut Random) -> u8 {
    3 + r.below(29) as u8
}

fn small(r: &mut Random) -> u32 {
    match r.below(4) {
        0 => r.odd_number() as u32,
        1 => r.below(20) as u32,
        _ => r.below(3) as u32,
    }
}

/// an illegal word, often nearly an instruction that bare code must not have
fn illegal(r: &mut Random) -> u64 {
    loop {
        let word = match r.below(7) {
            0 => u64::MAX,
            1 => r.word(),
            2 => encode(Op::Movi(r.below(3) as u8, 5)) | 1 << (32 + r.below(16)),
            3 => encode(Op::Jd(r.word() as u32)) | 1 << (32 + r.below(24)),
            4 => encode(Op::Call(r.word() as u32)) | 1 << (32 + r.below(24)),
            5 => encode(Op::Ret) | 1 << r.below(56),
            _ => r.instruction_word(),
        };
        if decode(word) == Op::Illegal {
            return word;
        }
    }
}

/// a word of bare code that is no jmp
fn ordinary(r: &mut Random, n: usize) -> u64 {
    let target = r.below(n) as u32;
    encode(match r.below(13) {
        0 => Op::Add(register(r), register(r), register(r)),
        1 => Op::Addi(register(r), register(r), small(r)),
        2 => Op::Movi(register(r), small(r)),
        3 | 4 => Op::Bgt(register(r), register(r), target),
        5 if r.chance(2) => Op::Jd(target),
        6 => Op::Ld(register(r), register(r), small(r)),
        7 => Op::St(register(r), register(r), small(r)),
        8 if r.chance(2) => return illegal(r),
        9 | 10 => Op::Call(target),
        11 | 12 => Op::Ret,
        _ => Op::Addi(register(r), register(r), 1),
    })
}

/// A bare program of n words with d data words that is turned away for its length at most.
fn bare(r: &mut Random, n: usize, d: usize) -> Program {
    let (jump_in, target_in) = if n > 100 { (6 + r.below(60), 1 + r.below(30)) } else { (1 + r.below(10), 1 + r.below(10)) };
    let mut sets: Vec<Vec<usize>> = vec![Vec::new(); 1 + r.below(4)];
    for a in 0..n {
        if r.chance(target_in) {
            let set = r.below(sets.len());
            sets[set].push(a);
        }
    }
    sets.retain(|set| !set.is_empty());
    if sets.is_empty() {
        sets.push(vec![r.below(n)]);
    }
    let mut edges = Vec::new();
    let mut memory = Vec::new();
    for a in 0..n {
        let set = &sets[r.below(sets.len())];
        if r.chance(jump_in) && edges.len() / 2 + set.len() <= 2048 {
            memory.push(encode(Op::Jmp(register(r))));
            edges.extend(set.iter().flat_map(|&target| [a as u16, target as u16]));
        } else {
            memory.push(ordinary(r, n));
        }
    }
    memory.extend((0..d).map(|_| r.odd_number()));
    Program { memory, n, edges }
}

/// an instruction that bare code must not have: a label, or one that names r0, r1 or r2
fn reserved(r: &mut Random, n: usize) -> Op {
    let (low, one, two) = (r.below(3) as u8, register(r), register(r));
    match r.below(16) {
        0 => Op::Add(low, one, two),
        1 => Op::Add(one, low, two),
        2 => Op::Add(one, two, low),
        3 => Op::Addi(low, one, 0),
        4 => Op::Addi(one, low, 0),
        5 => Op::Movi(low, 5),
        6 => Op::Bgt(low, one, r.below(n + 1) as u32),
        7 => Op::Bgt(one, low, r.below(n + 1) as u32),
        8 => Op::Jmp(low),
        9 => Op::Ld(low, one, 0),
        10 => Op::Ld(one, low, 0),
        11 => Op::St(low, one, 0),
        12 => Op::St(one, low, 0),
        _ => Op::Label(r.below(n + 1) as u32),
    }
}

/// a target that is just outside, or far, or whose low bits are inside
fn outside(r: &mut Random, n: usize) -> u32 {
    match r.below(5) {
        0 => u32::MAX - r.below(3) as u32,
        1 => (1 << (11 + r.below(21))) + r.below(n) as u32,
        _ => (n + r.below(3)) as u32,
    }
}

/// Damages a bare program in one place.
fn damage(r: &mut Random, p: &mut Program) {
    let n = p.n.clamp(1, p.memory.len());
    let at = r.below(n);
    let pairs = p.edges.len() / 2;
    let edge = if pairs > 0 { r.below(pairs) * 2 } else { 0 };
    match r.below(16) {
        0 | 1 => p.memory[at] = encode(reserved(r, n)),
        2 if r.chance(2) => p.memory[at] = encode(Op::Call(outside(r, n).max(n as u32))),
        2 => p.memory[at] = encode(Op::Jd(outside(r, n).max(n as u32))),
        3 => p.memory[at] = encode(Op::Bgt(register(r), register(r), outside(r, n).max(n as u32))),
        4 => p.memory[at] = r.instruction_word(),
        5 => p.memory[at] = encode(Op::Jmp(register(r))),
        6 => p.memory[at] = ordinary(r, n),
        7 if pairs > 0 => {
            p.edges[edge] = r.below(n + 2) as u16;
            sort_edges(&mut p.edges);
        }
        8 if pairs > 0 => {
            p.edges[edge + 1] = r.below(n) as u16;
            sort_edges(&mut p.edges);
        }
        9 if pairs > 0 => {
            p.edges[edge + 1] = r.pick(&[n, n + 1, 2048, 65_535]) as u16;
            sort_edges(&mut p.edges);
        }
        10 if pairs > 0 => {
            p.edges.drain(edge..edge + 2);
        }
        11 if pairs > 0 => {
            let jump = p.edges[edge];
            p.edges = p.edges.chunks(2).filter(|e| e[0] != jump).flatten().copied().collect();
        }
        12 if pairs > 0 => {
            p.edges.extend([p.edges[edge], r.below(n) as u16]);
            sort_edges(&mut p.edges);
        }
        13 if pairs > 0 => {
            let other = r.below(pairs) * 2;
            p.edges.swap(edge, other);
            p.edges.swap(edge + 1, other + 1);
        }
        14 if pairs > 0 && r.chance(3) => {
            p.edges.pop();
        }
        15 if r.chance(3) => p.n = r.pick(&[0, p.n.wrapping_sub(1), p.n + 1, 2049, p.memory.len() + 1, usize::MAX]),
        _ => p.memory[at] = encode(reserved(r, n)),
    }
}

/// each of these numbers was given often, and no other at all
fn assert_given(seen: &[usize; 23], numbers: &[usize], often: usize) {
    println!("how often each number was given: {seen:?}");
    for (number, &times) in seen.iter().enumerate() {
        let expected = if numbers.contains(&number) { times >= often } else { times == 0 };
        assert!(expected, "number {number} was given {times} times");
    }
}

/// the new code with the same data words, and the new edges
fn guarded_program(p: &Program, new: &Rewritten) -> post_guard::Program {
    let memory = [&new.code, &p.memory[p.n..]].concat();
    post_guard::Program { memory, code_words: new.code.len(), edges: new.edges.clone() }
}

/// What happened in runs with bus writes.
#[derive(Default, Debug)]
struct Walks {
    made: usize,
    jumps: usize,
    returns: usize,
    stops: [usize; 7],
}

impl Walks {
    /// Runs a program from address 0, with bus writes of any word between any two steps: every step made is in the graph, and the
    /// code stays.
    fn walk(&mut self, r: &mut Random, program: &post_guard::Program, steps: usize) {
        let n = program.code_words;
        let (code, d) = (&program.memory[..n], program.memory.len() - n);
        let mut memory = program.memory.clone();
        let destinations: Vec<u64> = program.edges.chunks(2).map(|edge| edge[1].into()).collect();
        let word = |r: &mut Random| match r.below(4) {
            0 if !destinations.is_empty() => r.pick(&destinations),
            1 if d > 0 => (n + r.below(d)) as u64,
            2 => r.below(n + d) as u64,
            3 if r.chance(3) => r.odd_number(),
            _ => r.below(n) as u64,
        };
        let mut state = State::fresh(std::array::from_fn(|_| word(r)));
        for _ in 0..steps {
            for _ in 0..r.below(4) {
                let written = word(r);
                state.write_register(3 + r.below(29) as u64, written).unwrap();
                if d > 0 {
                    // often the word of a label, which a jmp may then find in data
                    let written = word(r);
                    post_guard::write_data(&mut memory, n, (n + r.below(d)) as u64, written).unwrap();
                }
            }
            let from = state.pc;
            match step(Technique::Plain, &mut state, &mut memory, n).unwrap() {
                Step::Made => {
                    assert!(is_successor(code, &program.edges, from, state.pc), "{from} to {}", state.pc);
                    self.made += 1;
                    self.jumps += usize::from(matches!(decode(code[from as usize]), Op::Jmp(_)));
                    self.returns += usize::from(decode(code[from as usize]) == Op::Ret);
                }
                Step::Stopped(stop) => {
                    self.stops[stop.number() as usize] += 1;
                    assert!(stop != Stop::Fetch);
                    assert!(stop != Stop::Next || matches!(decode(code[from as usize]), Op::Jmp(_)), "stop 4 at {from}");
                    // the bus may mend a load, a store or a jmp; an illegal word stays illegal, and the stack as it is
                    if matches!(stop, Stop::Illegal | Stop::Full | Stop::Empty) || r.chance(3) {
                        state = State::fresh(state.registers);
                    }
                }
            }
            assert_eq!(memory[..n], *code);
        }
    }
}

/// 50,000 bare programs, whole ones and ones with up to three faults: the library's answer and every lent place are the
/// reference's. What comes out is accepted, and keeps to its graph.
#[test]
fn bare_programs_are_rewritten_as_the_reference_says() {
    let mut r = Random::new(81);
    let mut seen = [0; 23];
    let mut walks = Walks::default();
    for round in 0..50_000usize {
        let n = if r.chance(30) { 1 + r.below(2048) } else { 1 + r.below(40) };
        let d = r.below(6);
        let mut p = bare(&mut r, n, d);
        for _ in 0..(round % 6).saturating_sub(2) {
            damage(&mut r, &mut p);
        }
        let result = result_of(&p);
        let lent = Lent::some(&mut r, &result);
        seen[compare(&mut r, &p, &result, lent) as usize] += 1;
        if let Ok(new) = &result {
            let program = guarded_program(&p, new);
            assert_eq!(program.check(Technique::Plain), Verdict::Accepted, "{}", told(&p));
            let flat = checkers::check_flat(reference::Technique::Plain, &program.memory, program.code_words, &program.edges);
            assert_eq!(flat, (0, 0, 0), "{}", told(&p));
            walks.walk(&mut r, &program, 60);
        }
    }
    println!("{walks:?}");
    assert_given(&seen, &[0, 5, 6, 7, 8, 9, 10, 18, 20, 21, 22], 100);
    assert!(walks.made > 500_000 && walks.jumps > 5_000 && walks.returns > 5_000, "{walks:?}");
    assert!(walks.stops[2] > 1_000 && walks.stops[3] > 1_000 && walks.stops[4] > 0 && walks.stops[6] > 1_000, "{walks:?}");
}

/// Every program of up to three words out of twelve, with every set of edges between their addresses.
#[test]
fn all_small_programs() {
    let mut r = Random::new(82);
    let mut seen = [0; 23];
    for n in 1..=3usize {
        let words = [
            Op::Jmp(5),
            Op::Jmp(31),
            Op::Jd(0),
            Op::Jd(n as u32),
            Op::Call(n as u32 - 1),
            Op::Call(n as u32),
            Op::Ret,
            Op::Bgt(3, 4, n as u32 - 1),
            Op::Movi(3, 1),
            Op::Movi(2, 1),
            Op::Label(0),
            Op::Illegal,
        ];
        for choice in 0..words.len().pow(n as u32) {
            let memory: Vec<u64> = (0..n).map(|a| encode(words[choice / words.len().pow(a as u32) % words.len()])).collect();
            let jumps: Vec<usize> = (0..n).filter(|&a| matches!(decode(memory[a]), Op::Jmp(_))).collect();
            // without jumps every edge is 7: one is enough
            for set in 0..if jumps.is_empty() { 2 } else { 1usize << (n * n) } {
                let edges = (0..n * n).filter(|k| set >> k & 1 == 1).flat_map(|k| [(k / n) as u16, (k % n) as u16]).collect();
                let p = Program { memory: memory.clone(), n, edges };
                let result = result_of(&p);
                seen[compare(&mut r, &p, &result, Lent::enough(&result)) as usize] += 1;
            }
        }
    }
    assert_given(&seen, &[0, 7, 9, 10, 20, 21], 100);
}

/// every register in every field of every instruction: 20 where it is r0, r1 or r2 and the instruction names it
#[test]
fn every_register_in_every_field() {
    let mut r = Random::new(83);
    let mut seen = [0; 23];
    for x in 0..32u8 {
        for y in 0..32u8 {
            for z in [0, 1, 2, 3, 4, 31] {
                let low = |registers: &[u8]| registers.iter().any(|&register| register < 3);
                let w = u32::from(z % 3);
                let ops = [
                    (Op::Add(x, y, z), low(&[x, y, z])),
                    (Op::Add(z, x, y), low(&[x, y, z])),
                    (Op::Add(y, z, x), low(&[x, y, z])),
                    (Op::Addi(x, y, w), low(&[x, y])),
                    (Op::Movi(x, w), low(&[x])),
                    (Op::Bgt(x, y, w), low(&[x, y])),
                    (Op::Jd(w), false),
                    (Op::Call(w), false),
                    (Op::Ret, false),
                    (Op::Jmp(x), low(&[x])),
                    (Op::Ld(x, y, w), low(&[x, y])),
                    (Op::St(x, y, w), low(&[x, y])),
                    (Op::Label(w), true),
                    (Op::Illegal, false),
                ];
                for (op, refused) in ops {
                    let edges = if matches!(op, Op::Jmp(_)) { vec![1, 0] } else { vec![] };
                    let memory = vec![encode(Op::Movi(9, 1)), encode(op), encode(Op::Illegal), 0];
                    let p = Program { memory, n: 3, edges };
                    let result = result_of(&p);
                    let answer = compare(&mut r, &p, &result, Lent::enough(&result));
                    assert_eq!(answer, if refused { 20 } else { 0 }, "{op:?}");
                    assert_eq!(result.err(), refused.then_some((20, 2, 1)), "{op:?}");
                    seen[answer as usize] += 1;
                }
            }
        }
    }
    assert_given(&seen, &[0, 20], 1_000);
}

/// An illegal word is an ordinary word, whatever it is nearly: it stays, bit by bit.
#[test]
fn illegal_words_stay() {
    let mut r = Random::new(84);
    for _ in 0..20_000 {
        let words = [illegal(&mut r), illegal(&mut r)];
        // a destination too
        let p = Program { memory: vec![words[0], encode(Op::Jmp(7)), words[1]], n: 3, edges: vec![1, 2] };
        let result = result_of(&p);
        assert_eq!(compare(&mut r, &p, &result, Lent::enough(&result)), 0);
        let new = result.unwrap();
        assert_eq!((new.code[0], new.code[7], new.code[8], new.code[9]), (words[0], 7, words[1], u64::MAX));
    }
}

/// A branch may go to every word of the bare code and to none past it.
#[test]
fn branch_targets_at_the_ends() {
    let mut r = Random::new(85);
    for n in [1usize, 2, 3, 9, 1023, 1024, 2046, 2047] {
        for d in [0usize, 1, 2048] {
            let near = [0, n - 1, n, n + 1, n + d, 2 * n];
            let far = [2047, 2048, 2049, 65_535, 65_536, 65_536 + n - 1, 1 << 31, u32::MAX as usize - 1, u32::MAX as usize];
            for w in near.into_iter().chain(far) {
                for branch in [Op::Jd(w as u32), Op::Call(w as u32), Op::Bgt(3, 4, w as u32)] {
                    let mut memory = vec![encode(Op::Movi(5, 0)); n + d];
                    memory[n - 1] = encode(branch);
                    let p = Program { memory, n, edges: Vec::new() };
                    let result = result_of(&p);
                    let expected = if w < n { Ok(w as u32) } else { Err((21, 2, n as u64 - 1)) };
                    let target = result.as_ref().map_err(|&refused| refused).map(|new| new.code[n - 1] as u32);
                    assert_eq!(target, expected, "{branch:?} of {n} words");
                    compare(&mut r, &p, &result, Lent::enough(&result));
                }
            }
        }
    }
}

/// What a program may be turned away for, in the order in which it is tested.
const ORDER: [u32; 10] = [6, 7, 8, 18, 9, 10, 20, 21, 22, 5];

/// A program with these faults: one for each number. Its places are all at hand: 21 is at a lower address than 20, and 10 at a
/// lower one than 9.
fn with_faults(faults: &[u32]) -> (Program, usize) {
    let broken = |number| faults.contains(&number);
    let n = if broken(22) { 2040 } else { 30 };
    let mut ops = vec![Op::Movi(9, 1); n];
    ops[1] = if broken(21) { Op::Jd(n as u32) } else { Op::Jd(4) };
    ops[5] = Op::Jmp(5);
    ops[6] = Op::Jmp(6);
    ops[7] = if broken(9) { Op::Jmp(7) } else { Op::Illegal };
    ops[20] = if broken(20) { Op::Label(20) } else { Op::Movi(3, 1) };
    let mut pairs = vec![[5, 10], [5, 11], [6, 12]];
    if broken(10) {
        pairs.insert(2, [5, 12]);
    }
    if broken(18) {
        pairs.swap(0, 1);
    }
    if broken(8) {
        pairs.push([6, n as u16]);
    }
    if broken(7) {
        pairs.push([8, 12]);
    }
    let mut edges = pairs.concat();
    if broken(6) {
        edges.pop();
    }
    (Program { memory: ops.into_iter().map(encode).chain([7]).collect(), n, edges }, n)
}

/// Every choice of faults, one for each number: the first number in the order is the answer, and its place is that of its fault.
#[test]
fn numbers_come_in_their_order() {
    let mut r = Random::new(86);
    for choice in 0..1 << ORDER.len() {
        let faults: Vec<u32> = (0..ORDER.len()).filter(|k| choice >> k & 1 == 1).map(|k| ORDER[k]).collect();
        let (p, n) = with_faults(&faults);
        let result = result_of(&p);
        let enough = Lent::enough(&result);
        // where another number comes before 5, nothing but the counts and the place is lent
        let lents = match (&result, faults.contains(&5)) {
            (Ok(_), true) => enough.one_too_short(&result),
            (Err(_), true) => {
                [(2, 2), (1, 2), (0, 1), (2, 0)].into_iter().map(|(counts, place)| Lent { counts, place, ..enough }).collect()
            }
            (Ok(_), false) => vec![enough],
            (Err(_), false) => vec![Lent { code: 2048, edges: 4096, map: 2048, ..enough }],
        };
        let expected = faults.first().copied().unwrap_or(0);
        for lent in lents {
            assert_eq!(compare(&mut r, &p, &result, lent), expected, "{faults:?}");
        }
        let edges = p.edges.len() as u64 / 2;
        let expected = match expected {
            7 => (7, 1, edges - 1),
            8 => (8, 1, edges - 1),
            18 => (18, 1, 1),
            9 => (9, 2, 7),
            10 => (10, 2, 5),
            20 => (20, 2, 20),
            21 => (21, 2, 1),
            number @ (6 | 22) => (number, 0, 0),
            number => {
                assert!(number == 0 || number == 5);
                assert_eq!(result.map(|new| new.code.len()), Ok(n + 10 + 3 + 1));
                continue;
            }
        };
        assert_eq!(result.unwrap_err(), expected, "{faults:?}");
    }
}

/// Every lent place one too short gives 5 and changes nothing; just enough is enough.
#[test]
fn places_one_too_short() {
    let mut r = Random::new(87);
    let mut short = 0;
    for round in 0..8_000 {
        let n = if round % 100 == 0 { 300 + r.below(500) } else { 1 + r.below(30) };
        let d = r.below(4);
        let p = bare(&mut r, n, d);
        let result = result_of(&p);
        let enough = Lent::enough(&result);
        if result.is_err() {
            continue;
        }
        assert_eq!(compare(&mut r, &p, &result, enough), 0);
        for lent in enough.one_too_short(&result) {
            assert_eq!(compare(&mut r, &p, &result, lent), 5);
            short += 1;
        }
        for counts in 0..3 {
            for place in 0..3 {
                let expected = if counts < 2 || place < 2 { 5 } else { 0 };
                assert_eq!(compare(&mut r, &p, &result, Lent { counts, place, ..enough }), expected);
            }
        }
        // room in one place does not make up for another
        let long = Lent { code: 2048, edges: 4096, map: 2048, counts: 4, place: 4 };
        for lent in long.one_too_short(&result) {
            assert_eq!(compare(&mut r, &p, &result, lent), 5);
        }
    }
    assert!(short > 30_000, "{short}");
}

/// a program of n words, of which the first are jumps, to the addresses from 0 to `targets`
fn sized(n: usize, jumps: usize, targets: usize, d: usize) -> Program {
    let mut memory = vec![encode(Op::Jmp(30)); jumps];
    memory.resize(n, encode(Op::Addi(9, 9, 1)));
    memory.resize(n + d, 77);
    let edges = (0..jumps as u16).flat_map(|jump| (0..targets as u16).flat_map(move |target| [jump, target])).collect();
    Program { memory, n, edges }
}

/// Results of 2,047, 2,048 and 2,049 words, reached by plain words, by jumps and by destinations.
#[test]
fn results_around_2048_words() {
    let mut r = Random::new(88);
    let mut seen = [0; 23];
    // words, jumps, targets of each
    let shapes = [
        (2046, 0, 0),
        (2047, 0, 0),
        (2048, 0, 0),
        (2040, 1, 1),
        (2041, 1, 1),
        (2042, 1, 1),
        // every word is a jump
        (340, 340, 1),
        (341, 341, 1),
        (342, 342, 1),
        (341, 341, 2),
        (340, 340, 6),
        (342, 341, 1),
        // every word is a destination, or all but one
        (1021, 1, 1020),
        (1021, 1, 1021),
        (1022, 1, 1021),
        (1022, 1, 1022),
        // of each some
        (1000, 2, 1000),
        (1019, 2, 1018),
        (1018, 2, 1019),
        (1019, 2, 1019),
        (1518, 100, 20),
        (1526, 100, 20),
        (1527, 100, 20),
        (1528, 100, 20),
        (2048, 1, 1),
        (2048, 2048, 1),
    ];
    for (n, jumps, targets) in shapes {
        let new_n = n + 5 * jumps + if jumps > 0 { targets.min(n) } else { 0 } + 1;
        for d in [0, 1, 2048] {
            let p = sized(n, jumps, targets.min(n), d);
            let result = result_of(&p);
            let expected = if new_n <= 2048 { Ok(new_n) } else { Err((22, 0, 0)) };
            assert_eq!(result.as_ref().map_err(|&refused| refused).map(|new| new.code.len()), expected, "{n}, {jumps}, {targets}");
            let longest = Lent { code: 2048, edges: 4096, map: 2048, counts: 2, place: 2 };
            let mut lents = vec![longest, Lent { code: 2049, edges: 4097, map: 2049, ..longest }, Lent::enough(&result)];
            lents.extend(Lent::enough(&result).one_too_short(&result));
            lents.push(Lent { code: 0, edges: 0, map: 0, counts: 0, place: 0 });
            for lent in lents {
                seen[compare(&mut r, &p, &result, lent) as usize] += 1;
            }
            if let Ok(new) = result {
                let program = guarded_program(&p, &new);
                assert_eq!(program.check(Technique::Plain), Verdict::Accepted);
            }
        }
    }
    assert_given(&seen, &[0, 5, 22], 30);

    // at random: words are added to a program, or taken away, until its result has one of the three lengths
    let mut lengths = [0; 3];
    for _ in 0..150 {
        let n = 200 + r.below(1100);
        let mut p = bare(&mut r, n, 1);
        let jumps = p.memory[..n].iter().filter(|&&word| matches!(decode(word), Op::Jmp(_))).count();
        let destinations: BTreeSet<u16> = p.edges.chunks(2).map(|edge| edge[1]).collect();
        let wanted = 2047 + r.below(3);
        let without = 5 * jumps + destinations.len() + 1;
        if without + n > wanted || wanted - without > 2048 {
            continue;
        }
        p.n = wanted - without;
        p.memory.splice(n..n, (n..p.n).map(|_| encode(Op::Movi(4, 4))));
        let result = result_of(&p);
        assert_eq!(result.as_ref().map(|new| new.code.len()).ok(), (wanted <= 2048).then_some(wanted));
        compare(&mut r, &p, &result, Lent::enough(&result));
        lengths[wanted - 2047] += 1;
    }
    println!("2,047, 2,048 and 2,049 words: {lengths:?}");
    assert!(lengths.iter().all(|&times| times > 10), "{lengths:?}");
}

#[test]
fn shapes() {
    let mut r = Random::new(89);
    let mut seen = [0; 23];
    for code in [0usize, 1, 2, 2047, 2048, 2049] {
        for data in [0usize, 1, 2048, 2049] {
            for numbers in [0usize, 1, 2, 3, 4095, 4096, 4097, 4098] {
                let memory = vec![u64::MAX; code + data];
                let edges: Vec<u16> = (0..numbers).map(|_| r.word() as u16).collect();
                for n in [0, 1, code, code + 1, 2048, 2049, code + data, code + data + 1, usize::MAX] {
                    let p = Program { memory: memory.clone(), n, edges: edges.clone() };
                    let result = result_of(&p);
                    seen[compare(&mut r, &p, &result, Lent::enough(&result)) as usize] += 1;
                }
            }
        }
    }
    assert_given(&seen, &[0, 6, 7, 22], 20);
}

/// As many edges as there may be, each of which starts and ends elsewhere afterwards.
#[test]
fn as_many_edges_as_there_may_be() {
    let mut r = Random::new(90);
    for (jumps, targets) in [(2usize, 1024usize), (4, 512), (8, 256), (32, 64), (64, 32), (128, 16), (256, 8)] {
        assert_eq!(jumps * targets, 2048);
        let n = (2047 - 5 * jumps - targets).max(jumps).max(targets);
        let mut p = sized(n, jumps, targets, 3);
        // the jumps at the end, so that every address in front of them moves
        p.memory[..n].reverse();
        p.edges.chunks_exact_mut(2).for_each(|edge| edge[0] = (n - jumps) as u16 + edge[0]);
        let result = result_of(&p);
        assert_eq!(p.edges.len(), 4096);
        for lent in [Lent::enough(&result), Lent { edges: 4095, ..Lent::enough(&result) }] {
            compare(&mut r, &p, &result, lent);
        }
        println!("{jumps} jumps, {targets} targets, {n} words: {:?}", result.map(|new| new.code.len()));
    }
}

/// a random program that passes, what comes out of it, and the guarded program
fn passing(r: &mut Random) -> (Program, Guarded) {
    loop {
        let n = if r.chance(50) { 1 + r.below(600) } else { 1 + r.below(40) };
        let d = r.below(6);
        let p = bare(r, n, d);
        let program = post_guard::Program { memory: p.memory.clone(), code_words: p.n, edges: p.edges.clone() };
        match program.with_guards() {
            Ok(guarded) => return (p, guarded),
            Err(fault) => assert_eq!((fault.refusal, fault.place), (Refusal::ResultTooLong, None)),
        }
    }
}

/// What is said of every result, asked of the library's by itself: its length, the map, the word at each entry, the edges; and
/// without labels, guards and the last word, the words are those of the bare code, in their sequence.
#[test]
fn what_is_said_of_every_result() {
    let mut r = Random::new(91);
    for _ in 0..10_000 {
        let (p, Guarded { program, map }) = passing(&mut r);
        let n = p.n;
        let (code, data) = program.memory.split_at(program.code_words);
        let old: Vec<Op> = p.memory[..n].iter().map(|&word| decode(word)).collect();
        let jumps = old.iter().filter(|op| matches!(op, Op::Jmp(_))).count();
        let sets: Vec<(u16, BTreeSet<u16>)> = (0..n as u16)
            .map(|a| (a, p.edges.chunks(2).filter(|edge| edge[0] == a).map(|edge| edge[1]).collect()))
            .collect();
        let destinations: BTreeSet<u16> = p.edges.chunks(2).map(|edge| edge[1]).collect();
        assert_eq!(code.len(), n + 5 * jumps + destinations.len() + 1);
        assert_eq!(data, &p.memory[n..]);
        assert_eq!(map.len(), n);
        assert!(map.is_sorted_by(|one, two| one < two));
        assert!(map[0] == 0 && usize::from(map[n - 1]) < code.len());

        let halt = code.len() as u32 - 1;
        assert_eq!(code[halt as usize], u64::MAX);
        let mut kept = Vec::new();
        for a in 0..n {
            let mut at = usize::from(map[a]);
            let destination = destinations.contains(&(a as u16));
            let id = |jump: usize| u32::from(map[usize::from(*sets[jump].1.first().unwrap())]);
            if destination {
                let leads_here = sets.iter().position(|(_, set)| set.contains(&(a as u16))).unwrap();
                assert_eq!(decode(code[at]), Op::Label(id(leads_here)));
                at += 1;
            }
            assert_eq!(destination, matches!(decode(code[usize::from(map[a])]), Op::Label(_)));
            match old[a] {
                Op::Jmp(rs) => {
                    let guard = [
                        Op::Addi(0, rs, 0),
                        Op::Ld(1, 0, 0),
                        Op::Movi(2, id(a)),
                        Op::Bgt(1, 2, halt),
                        Op::Bgt(2, 1, halt),
                        Op::Jmp(0),
                    ];
                    assert_eq!(code[at..at + 6], guard.map(encode));
                    at += 6;
                }
                Op::Bgt(rs, rt, w) => {
                    assert_eq!(decode(code[at]), Op::Bgt(rs, rt, map[w as usize].into()));
                    at += 1;
                }
                Op::Jd(w) => {
                    assert_eq!(decode(code[at]), Op::Jd(map[w as usize].into()));
                    at += 1;
                }
                Op::Call(w) => {
                    assert_eq!(decode(code[at]), Op::Call(map[w as usize].into()));
                    at += 1;
                }
                _ => {
                    kept.push(code[at]);
                    at += 1;
                }
            }
            assert_eq!(at, map.get(a + 1).map_or(code.len() - 1, |&next| next.into()), "nothing is between the blocks");
        }
        let same = |op: &Op| !matches!(op, Op::Jmp(_) | Op::Bgt(..) | Op::Jd(_) | Op::Call(_));
        assert_eq!(kept, (0..n).filter(|&a| same(&old[a])).map(|a| p.memory[a]).collect::<Vec<_>>());

        assert_eq!(program.edges.len(), p.edges.len());
        for (new, old) in program.edges.chunks(2).zip(p.edges.chunks(2)) {
            assert_eq!(decode(code[usize::from(new[0])]), Op::Jmp(0));
            assert_eq!(map.partition_point(|&begins| begins <= new[0]) - 1, usize::from(old[0]), "a jmp of its own block");
            assert_eq!(new[1], map[usize::from(old[1])]);
        }
    }
}

/// Claims over the same bare code that differ by one edge and both pass: the lengths differ by at most one.
#[test]
fn one_edge_more() {
    let mut r = Random::new(92);
    let (mut pairs, mut refused) = (0, 0);
    for _ in 0..3_000 {
        let n = 1 + r.below(14);
        let p = bare(&mut r, n, 0);
        let program = post_guard::Program { memory: p.memory.clone(), code_words: n, edges: p.edges.clone() };
        let length = program.with_guards().unwrap().program.code_words;
        let claimed: BTreeSet<[u16; 2]> = p.edges.chunks(2).map(|edge| [edge[0], edge[1]]).collect();
        let others = |change: &dyn Fn(&mut BTreeSet<[u16; 2]>)| {
            let mut edges = claimed.clone();
            change(&mut edges);
            let edges = edges.into_iter().flatten().collect();
            post_guard::Program { edges, ..program.clone() }.with_guards()
        };
        for jump in 0..n as u16 {
            for target in 0..n as u16 {
                let edge = [jump, target];
                let other = others(&|edges| {
                    if !edges.remove(&edge) {
                        edges.insert(edge);
                    }
                });
                match other {
                    Ok(other) => {
                        pairs += 1;
                        assert!(length.abs_diff(other.program.code_words) <= 1, "{} with or without {edge:?}", told(&p));
                    }
                    Err(_) => refused += 1,
                }
            }
        }
    }
    println!("both pass: {pairs}; one does not: {refused}");
    assert!(pairs > 5_000, "{pairs}");
}

/// `with_guards` gives the reference's words, edges and map, or its fault, and `new_address` and `map_movi` go by them. Nothing
/// panics, whatever the program's fields hold.
#[test]
fn programs_with_guards() {
    let mut r = Random::new(93);
    let (mut passed, mut refused, mut mapped) = (0, 0, 0);
    for round in 0..20_000usize {
        let n = if round % 200 == 0 { 1 + r.below(2048) } else { 1 + r.below(40) };
        let d = r.below(6);
        let mut p = bare(&mut r, n, d);
        for _ in 0..round % 3 {
            damage(&mut r, &mut p);
        }
        if r.chance(200) {
            p.edges.resize(4096 + 2 * r.below(3), 0);
        }
        let program = post_guard::Program { memory: p.memory.clone(), code_words: p.n, edges: p.edges.clone() };
        let mut guarded = match (program.with_guards(), result_of(&p)) {
            (Ok(guarded), Ok(new)) => {
                assert_eq!(guarded, Guarded { program: guarded_program(&p, &new), map: new.map });
                passed += 1;
                guarded
            }
            (Err(fault), Err(answer)) => {
                assert_eq!(answer_of(fault), answer);
                refused += 1;
                continue;
            }
            (ours, expected) => panic!("{ours:?}, and not {expected:?}"),
        };
        let (n, new_n) = (p.n as u64, guarded.program.code_words as u64);
        let end = p.memory.len() as u64;
        for old in (0..end + 2).chain([65_536, 65_536 + n - 1, 1 << 32, u64::MAX]) {
            let expected = match old {
                old if old < n => Some(guarded.map[old as usize]),
                old if old < end => Some((old - n + new_n) as u16),
                _ => None,
            };
            assert_eq!(guarded.new_address(old), expected);
        }
        for a in 0..p.n + 2 {
            let before = guarded.clone();
            let movi = match p.memory[..p.n].get(a).map(|&word| decode(word)) {
                Some(Op::Movi(rd, w)) => before.new_address(w.into()).map(|new| (rd, new)),
                _ => None,
            };
            assert_eq!(guarded.map_movi(a), movi.map(|(_, new)| new));
            let mut expected = before;
            if let Some((rd, new)) = movi {
                let at = usize::from(expected.map[a]);
                let destination = p.edges.chunks(2).any(|edge| usize::from(edge[1]) == a);
                expected.program.memory[at + usize::from(destination)] = encode(Op::Movi(rd, new.into()));
                mapped += 1;
            }
            assert!(guarded == expected, "the movi at {a}");
        }
        // what a movi holds does not count
        assert_eq!(guarded.program.check(Technique::Plain), Verdict::Accepted);
    }
    println!("passed: {passed}, refused: {refused}, movi words mapped: {mapped}");
    assert!(passed > 5_000 && refused > 5_000 && mapped > 5_000);

    let wild = post_guard::Program { memory: vec![7; 3], code_words: usize::MAX, edges: vec![0; 100_000] };
    assert_eq!(wild.with_guards(), Err(Refusal::Shape.into()));
    let mut wild = Guarded { program: wild, map: vec![9, 2] };
    assert_eq!((wild.map_movi(0), wild.map_movi(1), wild.map_movi(usize::MAX)), (None, None, None));
    assert_eq!((wild.new_address(0), wild.new_address(2), wild.new_address(u64::MAX)), (Some(9), None, None));
}

/// A bare program that keeps addresses apart from values: r3 to r19 hold values, r20 to r25 addresses of code, r26 to r31 addresses
/// of data. And the addresses of its movi words that hold addresses.
fn with_addresses(r: &mut Random) -> (Program, Vec<usize>) {
    let (n, d) = (2 + r.below(30), 1 + r.below(5));
    let mut p = bare(r, n, d);
    let mut movis = Vec::new();
    let value = |r: &mut Random| 3 + r.below(17) as u8;
    let code_register = |r: &mut Random| 20 + r.below(6) as u8;
    let data_register = |r: &mut Random| 26 + r.below(6) as u8;
    let targets: Vec<u16> = p.edges.chunks(2).map(|edge| edge[1]).collect();
    for a in 0..n {
        p.memory[a] = encode(match decode(p.memory[a]) {
            Op::Jmp(_) => Op::Jmp(code_register(r)),
            Op::Bgt(_, _, w) => Op::Bgt(value(r), value(r), w),
            Op::Add(..) => Op::Add(value(r), value(r), value(r)),
            Op::Addi(_, _, w) => Op::Addi(value(r), value(r), w),
            Op::Ld(..) => Op::Ld(value(r), data_register(r), 0),
            Op::St(..) => Op::St(data_register(r), value(r), 0),
            Op::Movi(_, w) => match r.below(4) {
                0 => Op::Movi(value(r), w),
                1 => {
                    movis.push(a);
                    Op::Movi(data_register(r), (n + r.below(d)) as u32)
                }
                _ => {
                    movis.push(a);
                    Op::Movi(code_register(r), if targets.is_empty() { 0 } else { r.pick(&targets).into() })
                }
            },
            _ => continue,
        });
    }
    (p, movis)
}

/// With its addresses mapped, a guarded program does what the bare one does, block by block: it makes the same values, is at the
/// mapped address, and has the mapped return addresses on its stack. Where the bare program leaves its graph at a jmp, the guarded
/// one goes to HALT; where the bare one falls off its end, or returns to it, too.
#[test]
fn guarded_programs_do_what_the_bare_ones_do() {
    let mut r = Random::new(94);
    let (mut blocks, mut jumps, mut returns, mut left, mut ended, mut fell, mut came_back) = (0, 0, 0, 0, 0, 0, 0);
    for _ in 0..20_000 {
        let (p, movis) = with_addresses(&mut r);
        let (n, d) = (p.n, p.memory.len() - p.n);
        let mut bare = post_guard::Program { memory: p.memory, code_words: n, edges: p.edges };
        let mut guarded = bare.with_guards().unwrap();
        for a in movis {
            assert!(guarded.map_movi(a).is_some());
        }
        let new_n = guarded.program.code_words;
        let map = guarded.map.clone();
        let mut memory = guarded.program.memory.clone();
        let run = |state: &mut State, memory: &mut [u64], limit| {
            post_guard::run(Technique::Plain, state, memory, new_n, limit).unwrap()
        };

        // values are alike, and addresses mapped
        let mut old: [u64; 32] = std::array::from_fn(|_| r.odd_number());
        for register in 20..32 {
            old[register] = if register < 26 { r.below(n) } else { n + r.below(d) } as u64;
        }
        let mapped = |old: [u64; 32]| {
            let address = |register: usize| guarded.new_address(old[register]).unwrap().into();
            std::array::from_fn(|register| if register < 20 { old[register] } else { address(register) })
        };
        // a return address a + 1 is where the block of a + 1 begins; n is HALT, and a place that no call has written is 0 in both
        let homes = |stack: [u64; 128]| stack.map(|home| map.get(home as usize).map_or(new_n as u64 - 1, |&new| new.into()));
        let (mut state, mut new_state) = (State::fresh(old), State::fresh(mapped(old)));
        for _ in 0..60 {
            let a = state.pc as usize;
            let op = decode(bare.memory[a]);
            let label = u16::from(bare.edges.chunks(2).any(|edge| usize::from(edge[1]) == a));
            match step(Technique::Plain, &mut state, &mut bare.memory, n).unwrap() {
                Step::Made if matches!(op, Op::Jmp(_)) && !is_successor(&bare.memory[..n], &bare.edges, a as u64, state.pc) => {
                    let ran = run(&mut new_state, &mut memory, 100);
                    // r20 to r25 hold no address of data, so the word of the label cannot be found there
                    assert_eq!((ran.ending, new_state.pc), (Ending::Stopped(Stop::Illegal), new_n as u64 - 1));
                    left += 1;
                    break;
                }
                Step::Made => {
                    let block = label + if matches!(op, Op::Jmp(_)) { 6 } else { 1 };
                    let ran = run(&mut new_state, &mut memory, block);
                    assert_eq!((ran.ending, ran.count), (Ending::Spent, block), "{op:?} at {a}");
                    assert_eq!(new_state.pc, u64::from(map[state.pc as usize]), "{op:?} at {a}");
                    assert_eq!(new_state.registers[3..], mapped(state.registers)[3..], "{op:?} at {a}");
                    assert_eq!(memory[new_n..], bare.memory[n..], "{op:?} at {a}");
                    assert_eq!((new_state.depth, new_state.stack), (state.depth, homes(state.stack)), "{op:?} at {a}");
                    blocks += 1;
                    jumps += usize::from(matches!(op, Op::Jmp(_)));
                    returns += usize::from(op == Op::Ret);
                }
                Step::Stopped(stop @ (Stop::Illegal | Stop::Full | Stop::Empty)) => {
                    let ran = run(&mut new_state, &mut memory, 100);
                    assert_eq!((ran.ending, ran.count), (Ending::Stopped(stop), label));
                    ended += 1;
                    break;
                }
                Step::Stopped(Stop::Next) => {
                    if op == Op::Ret {
                        assert_eq!(state.pending().last(), Some(&(n as u64)));
                        came_back += 1;
                    } else {
                        assert_eq!(a, n - 1);
                    }
                    let ran = run(&mut new_state, &mut memory, 100);
                    assert_eq!((ran.ending, ran.count), (Ending::Stopped(Stop::Illegal), label + 1));
                    assert_eq!(new_state.pc, new_n as u64 - 1);
                    fell += 1;
                    break;
                }
                Step::Stopped(stop) => panic!("{stop:?} of {op:?} at {a}"),
            }
        }
    }
    println!("blocks: {blocks}, of jumps {jumps}, of returns {returns}; left the graph: {left}, ended: {ended}");
    println!("fell off the end: {fell}, of these at a ret: {came_back}");
    assert!(blocks > 100_000 && jumps > 5_000 && left > 1_000 && ended > 1_000 && fell > 500);
    assert!(returns > 1_500 && came_back > 20, "{returns} and {came_back}");
}

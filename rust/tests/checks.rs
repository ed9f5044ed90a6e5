//! The checker against the naive reference, for each technique: accepted programs, programs with one to three faults, and random
//! words. The two checkers of the benchmarks are held against the reference as well.
#[path = "../reference/mod.rs"]
mod reference;
mod common;

use common::{accepted, damage, number_of, rising_edges, sort_edges, told, Program, Random};
use post_guard::raw;
use reference::{checkers, Technique, TECHNIQUES};

const MARK: u64 = 0x5ca1_ab1e_0ddb_a115;

fn compare(technique: Technique, number: u8, p: &Program) -> u32 {
    let expected = checkers::check(technique, &p.memory, p.n, &p.edges);
    let mut place = [MARK; 4];
    let answer = raw::check(number, &p.memory, p.n, &p.edges, &mut place[..2]);
    assert_eq!((answer, place[0], place[1]), expected, "{technique:?} {}", told(p));
    assert_eq!(place[2..], [MARK; 2]);
    assert_eq!(checkers::check_flat(technique, &p.memory, p.n, &p.edges), expected, "flat, {technique:?} {}", told(p));
    assert_eq!(checkers::check_with_sets(technique, &p.memory, p.n, &p.edges), expected, "sets, {technique:?} {}", told(p));
    answer
}

fn many(technique: Technique, seed: u64) {
    let mut r = Random::new(seed);
    let mut seen = [0usize; 19];
    for round in 0..110_000usize {
        let n = if r.chance(60) { 1 + r.below(300) } else { 1 + r.below(48) };
        let d = r.below(6);
        let mut p = if r.chance(8) { garbage(&mut r, n, d) } else { accepted(&mut r, technique, n, d) };
        for _ in 0..round % 4 {
            damage(&mut r, &mut p);
        }
        seen[compare(technique, number_of(technique), &p) as usize] += 1;
    }
    println!("{technique:?}: how often each number was given: {seen:?}");
    for number in (6..16).chain([0, 18]) {
        let never = technique == Technique::Plain && number == 13;
        assert!(never == (seen[number] == 0), "number {number} was given {} times", seen[number]);
    }
}

/// short programs of jumps, labels, branches and illegal words, with any edges
fn garbage(r: &mut Random, n: usize, d: usize) -> Program {
    let word = |r: &mut Random, n: usize| {
        use reference::Op;
        reference::encode(match r.below(8) {
            0 | 1 => Op::Jmp(0),
            2 => Op::Label(r.below(n) as u32),
            3 => Op::Jd(r.below(n + 1) as u32),
            4 => Op::St(0, 1, 0),
            5 => Op::Call(r.below(n + 1) as u32),
            6 => Op::Ret,
            _ => Op::Illegal,
        })
    };
    let n = 1 + n % 14;
    let memory: Vec<u64> = (0..n + d).map(|_| word(r, n)).collect();
    let jumps: Vec<u16> = (0..n as u16).filter(|&a| memory[a as usize] >> 56 == 6).collect();
    let mut edges = Vec::new();
    if !jumps.is_empty() {
        for &jump in &jumps {
            edges.extend([jump, r.below(n) as u16]);
        }
        for _ in 0..r.below(12) {
            edges.extend([r.pick(&jumps), r.below(n) as u16]);
        }
    }
    if !r.chance(4) {
        let mut pairs: Vec<&[u16]> = edges.chunks(2).collect();
        pairs.sort();
        pairs.dedup();
        edges = pairs.concat();
    }
    Program { memory, n, edges }
}

#[test]
fn plain_codes() {
    many(Technique::Plain, 21);
}

#[test]
fn codes_with_memory_guards() {
    many(Technique::MemoryGuards, 22);
}

#[test]
fn full_size() {
    let mut r = Random::new(23);
    for round in 0..120usize {
        let technique = TECHNIQUES[round % 2];
        let n = r.pick(&[2047, 2048, 2048, 2048]);
        let d = r.pick(&[0, 1, 2047, 2048, 2049]);
        let mut p = accepted(&mut r, technique, n, d);
        for _ in 0..round / 2 % 3 {
            damage(&mut r, &mut p);
        }
        compare(technique, number_of(technique), &p);
    }
}

/// A branch may go to every word of code and to none past it, in both techniques.
#[test]
fn branch_targets_at_the_ends() {
    use reference::{encode, Op};
    for technique in TECHNIQUES {
        for n in [2usize, 3, 9, 2047, 2048] {
            for d in [0usize, 1, 2048] {
                let near = [0, n - 2, n - 1, n, n + 1, n + d - 1, n + d];
                let far = [2047, 2048, 2049, 65_535, 65_536, 1 << 31, u32::MAX as usize - 1, u32::MAX as usize];
                for w in near.into_iter().chain(far) {
                    for branch in [Op::Jd(w as u32), Op::Call(w as u32), Op::Bgt(3, 4, w as u32)] {
                        let mut memory = vec![encode(Op::Movi(5, 0)); n + d];
                        memory[n - 2] = encode(branch);
                        memory[n - 1] = encode(Op::Illegal);
                        let p = Program { memory, n, edges: Vec::new() };
                        let expected = if w < n { (0, 0, 0) } else { (15, 2, n as u64 - 2) };
                        assert_eq!(checkers::check(technique, &p.memory, n, &p.edges), expected, "{branch:?} of {n} words");
                        compare(technique, number_of(technique), &p);
                    }
                }
            }
        }
    }
}

/// Up to five edges, in every sequence and with every repeat, of the four that belong to a program and two that are faulty: it is
/// accepted with the four in rising sequence alone. 7 and 8 come before 18, and 9, 10 and 12 after it.
#[test]
fn sequences_of_edges() {
    use reference::{encode, Op};
    let jump = |id: u32, halt: u32| {
        [Op::Addi(0, 5, 0), Op::Ld(1, 0, 0), Op::Movi(2, id), Op::Bgt(1, 2, halt), Op::Bgt(2, 1, halt), Op::Jmp(0)]
    };
    // jumps at 5 and 11; labels of one set at 12 and 13, which both of them have
    let code = [&jump(12, 14)[..], &jump(12, 14), &[Op::Label(12), Op::Label(12), Op::Illegal]].concat();
    let memory: Vec<u64> = code.into_iter().map(encode).collect();
    let all = [[5u16, 12], [5, 13], [11, 12], [11, 13], [4, 12], [5, 15]];
    let mut seen = [0usize; 19];
    for choice in 0..6usize.pow(5) {
        let picked: Vec<[u16; 2]> = (0..5).map(|i| all[choice / 6usize.pow(i) % 6]).collect();
        for count in 0..=5 {
            let p = Program { memory: memory.clone(), n: 15, edges: picked[..count].concat() };
            let falls = (1..count).find(|&k| picked[k] <= picked[k - 1]);
            let answer = compare(Technique::Plain, 0, &p);
            seen[answer as usize] += 1;
            let sound = picked[..count].iter().all(|edge| all[..4].contains(edge));
            assert_eq!(answer == 18, sound && falls.is_some(), "{:?}", p.edges);
            assert_eq!(answer == 0, picked[..count] == all[..4], "{:?}", p.edges);
        }
    }
    println!("how often each number was given: {seen:?}");
    assert!([0, 7, 8, 9, 10, 12, 18].iter().all(|&number| seen[number] > 0), "{seen:?}");
}

/// As many edges as there may be: the place of one that falls or repeats, from the first to the last.
#[test]
fn every_place_of_a_fall() {
    let mut r = Random::new(26);
    let jump = reference::encode(reference::Op::Jmp(0));
    for pairs in [1usize, 2, 3, 64, 2047, 2048] {
        // every word is a jmp, so that 7 and 8 find nothing
        let memory = vec![jump; 2048];
        let mut edges = rising_edges(&mut r, pairs);
        edges.iter_mut().for_each(|number| *number %= 2048);
        sort_edges(&mut edges);
        let mut distinct: Vec<[u16; 2]> = edges.chunks(2).map(|e| [e[0], e[1]]).collect();
        distinct.dedup();
        let rising = Program { memory, n: 2048, edges: distinct.concat() };
        assert!(![7, 8, 18].contains(&compare(Technique::Plain, 0, &rising)));
        for k in 1..distinct.len() {
            let mut p = rising.clone();
            let falls = r.chance(2);
            p.edges[k * 2] = if falls { 0 } else { p.edges[k * 2 - 2] };
            p.edges[k * 2 + 1] = if falls { 0 } else { p.edges[k * 2 - 1] };
            let mut place = [0; 2];
            assert_eq!(raw::check(0, &p.memory, p.n, &p.edges, &mut place), 18);
            assert_eq!(place, [1, k as u64]);
            if k < 40 || k + 40 > distinct.len() {
                compare(Technique::Plain, 0, &p);
            }
        }
    }
}

#[test]
fn shapes() {
    let mut r = Random::new(24);
    for code in [0usize, 1, 2, 2048, 2049] {
        for data in [0usize, 1, 2048, 2049] {
            for numbers in [0usize, 1, 2, 3, 4095, 4096, 4097, 4098] {
                let memory = vec![u64::MAX; code + data];
                let mut edges: Vec<u16> = (0..numbers).map(|_| r.word() as u16).collect();
                if r.chance(2) {
                    sort_edges(&mut edges);
                }
                for n in [0, 1, code, code + 1, 2048, 2049, code + data, code + data + 1, usize::MAX] {
                    for technique in TECHNIQUES {
                        compare(technique, number_of(technique), &Program { memory: memory.clone(), n, edges: edges.clone() });
                    }
                }
            }
        }
    }
}

#[test]
fn short_places_and_other_technique_numbers() {
    let mut r = Random::new(25);
    for _ in 0..200 {
        let mut p = accepted(&mut r, Technique::MemoryGuards, 30, 3);
        damage(&mut r, &mut p);
        for number in [1, 2, 77, 255] {
            compare(Technique::MemoryGuards, number, &p);
        }
        for lent in 0..2 {
            let mut place = [MARK; 4];
            assert_eq!(raw::check(0, &p.memory, p.n, &p.edges, &mut place[..lent]), 5);
            assert_eq!(place, [MARK; 4]);
        }
    }
}

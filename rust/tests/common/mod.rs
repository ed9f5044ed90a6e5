//! Random inputs with fixed seeds: words, and programs that are accepted before they are damaged.
#![allow(dead_code)]

use crate::reference::checkers::Answer;
use crate::reference::{encode, shaped, Op, Technique};
use std::collections::BTreeSet;

/// a technique's number, as C has it
pub fn number_of(technique: Technique) -> u8 {
    match technique {
        Technique::Plain => 0,
        Technique::MemoryGuards => 1,
    }
}

/// a technique as the wrapper has it
pub fn library(technique: Technique) -> post_guard::Technique {
    match technique {
        Technique::Plain => post_guard::Technique::Plain,
        Technique::MemoryGuards => post_guard::Technique::MemoryGuards,
    }
}

/// a fault of the wrapper, as the reference has it
pub fn answer_of(fault: post_guard::Fault) -> Answer {
    let number = fault.refusal.number();
    match fault.place {
        None => (number, 0, 0),
        Some(post_guard::Place::Edge(k)) => (number, 1, k as u64),
        Some(post_guard::Place::Address(a)) => (number, 2, a as u64),
    }
}

/// a program for the message of a test that fails: in full where it is short
pub fn told(p: &Program) -> String {
    if p.memory.len() < 80 {
        return format!("{p:x?}");
    }
    format!("n {}, {} words, {} edge numbers", p.n, p.memory.len(), p.edges.len())
}

/// A xorshift generator.
pub struct Random(u64);

impl Random {
    pub fn new(seed: u64) -> Random {
        Random(seed.wrapping_mul(0x9e37_79b9_7f4a_7c15) | 1)
    }

    pub fn word(&mut self) -> u64 {
        self.0 ^= self.0 << 13;
        self.0 ^= self.0 >> 7;
        self.0 ^= self.0 << 17;
        self.0.wrapping_mul(0x2545_f491_4f6c_dd1d)
    }

    pub fn below(&mut self, n: usize) -> usize {
        ((self.word() >> 32) * n as u64 >> 32) as usize
    }

    pub fn chance(&mut self, one_in: usize) -> bool {
        self.below(one_in) == 0
    }

    pub fn pick<T: Copy>(&mut self, xs: &[T]) -> T {
        xs[self.below(xs.len())]
    }

    /// a number near a limit, or any
    pub fn odd_number(&mut self) -> u64 {
        match self.below(8) {
            0 => self.word(),
            1 => u64::MAX - self.below(4) as u64,
            2 => 1 << self.below(64),
            3 => (1u64 << 32).wrapping_sub(2).wrapping_add(self.below(4) as u64),
            _ => self.below(40) as u64,
        }
    }

    /// a word that is often an instruction, and often nearly one
    pub fn instruction_word(&mut self) -> u64 {
        if self.chance(16) {
            return self.word();
        }
        let opcode = self.below(12) as u64;
        let register = |r: &mut Random| if r.chance(12) { r.below(256) as u64 } else { r.below(33) as u64 };
        let (a, b, c) = (register(self), register(self), register(self));
        let w = self.w();
        let word = opcode << 56 | a << 48 | b << 40 | c << 32 | w;
        if self.chance(3) {
            return word;
        }
        // keep only what the instruction names
        let names: u64 = match opcode {
            0 | 5 | 9 => 0xff00_0000_ffff_ffff,
            1 => 0xffff_ffff_0000_0000,
            2 | 4 | 7 | 8 => 0xffff_ff00_ffff_ffff,
            3 => 0xffff_0000_ffff_ffff,
            6 => 0xffff_0000_0000_0000,
            10 => 0xff00_0000_0000_0000,
            _ => u64::MAX,
        };
        word & names
    }

    fn w(&mut self) -> u64 {
        match self.below(6) {
            0 => u64::from(self.word() as u32),
            1 => u64::from(u32::MAX - self.below(3) as u32),
            2 => self.below(4100) as u64,
            3 => 0,
            _ => self.below(20) as u64,
        }
    }
}

#[derive(Clone, Debug)]
pub struct Program {
    pub memory: Vec<u64>,
    pub n: usize,
    pub edges: Vec<u16>,
}

#[derive(Clone, Copy)]
enum Block {
    Other,
    Label(usize),
    Jump(usize),
    Store,
}

/// A program of n words with d data words that the technique accepts.
pub fn accepted(r: &mut Random, technique: Technique, n: usize, d: usize) -> Program {
    let guards = technique == Technique::MemoryGuards;
    let jump_length = if guards { 10 } else { 6 };
    // the blocks: each set of targets has a label and a jump before anything else goes in
    let room = n - 1;
    let mut blocks = Vec::new();
    let mut used = 0;
    let density = 1 + r.below(12);
    let mut sets = 0;
    while used + jump_length + 1 <= room && sets < 1 + room / (jump_length * density) {
        blocks.push(Block::Jump(sets));
        blocks.push(Block::Label(sets));
        used += jump_length + 1;
        sets += 1;
        if r.chance(6) {
            break;
        }
    }
    while used < room {
        let left = room - used;
        let block = match r.below(8) {
            0 | 1 if sets > 0 => Block::Label(r.below(sets)),
            2 if sets > 0 && jump_length <= left => Block::Jump(r.below(sets)),
            3 if guards && d > 0 && 6 <= left => Block::Store,
            _ => Block::Other,
        };
        used += match block {
            Block::Jump(_) => jump_length,
            Block::Store => 6,
            _ => 1,
        };
        blocks.push(block);
    }
    for i in (1..blocks.len()).rev() {
        blocks.swap(i, r.below(i + 1));
    }
    // where they stand
    let mut at = 0;
    let mut first_words = vec![n - 1];
    let mut targets: Vec<Vec<usize>> = vec![Vec::new(); sets];
    for block in &blocks {
        first_words.push(at);
        match *block {
            Block::Label(set) => {
                targets[set].push(at);
                at += 1;
            }
            Block::Jump(_) => at += jump_length,
            Block::Store => at += 6,
            Block::Other => at += 1,
        }
    }
    // the words and the edges
    let halt = (n - 1) as u32;
    let mut code: Vec<Op> = Vec::new();
    let mut pairs: Vec<(usize, usize)> = Vec::new();
    for block in &blocks {
        match *block {
            Block::Label(set) => code.push(Op::Label(targets[set][0] as u32)),
            Block::Jump(set) => {
                code.push(Op::Addi(0, r.below(32) as u8, 0));
                if guards {
                    code.extend([Op::Movi(1, halt), Op::Movi(2, 0), Op::Bgt(0, 1, halt), Op::Bgt(2, 0, halt)]);
                }
                let id = targets[set][0] as u32;
                code.extend([Op::Ld(1, 0, 0), Op::Movi(2, id), Op::Bgt(1, 2, halt), Op::Bgt(2, 1, halt), Op::Jmp(0)]);
                for &target in &targets[set] {
                    pairs.push((code.len() - 1, target));
                }
            }
            Block::Store => code.extend([
                Op::Addi(0, r.below(32) as u8, r.w() as u32),
                Op::Movi(1, (n + d - 1) as u32),
                Op::Movi(2, n as u32),
                Op::Bgt(0, 1, halt),
                Op::Bgt(2, 0, halt),
                Op::St(0, r.below(32) as u8, 0),
            ]),
            Block::Other => code.push(other(r, guards, &first_words)),
        }
    }
    code.push(Op::Illegal);
    assert_eq!(code.len(), n);
    assert!(pairs.is_sorted_by(|a, b| a < b));
    // too many edges: the claim keeps those of the first jumps alone, and the program is refused
    pairs.truncate(2048);
    let mut memory: Vec<u64> = code.into_iter().map(encode).collect();
    memory.extend((0..d).map(|_| r.odd_number()));
    Program { memory, n, edges: pairs.into_iter().flat_map(|(j, t)| [j as u16, t as u16]).collect() }
}

fn other(r: &mut Random, guards: bool, first_words: &[usize]) -> Op {
    let register = |r: &mut Random| r.below(32) as u8;
    let target = |r: &mut Random| r.pick(first_words) as u32;
    match r.below(11) {
        0 => Op::Add(register(r), register(r), register(r)),
        1 => Op::Addi(register(r), register(r), r.w() as u32),
        2 => Op::Movi(register(r), r.w() as u32),
        3 => Op::Bgt(register(r), register(r), target(r)),
        4 => Op::Jd(target(r)),
        5 => Op::Ld(register(r), register(r), r.w() as u32),
        6 if !guards => Op::St(register(r), register(r), r.w() as u32),
        7 | 8 => Op::Call(target(r)),
        9 => Op::Ret,
        _ => Op::Illegal,
    }
}

/// A program of n words without jumps that the technique accepts.
pub fn without_jumps(r: &mut Random, technique: Technique, n: usize, d: usize) -> Program {
    let guards = technique == Technique::MemoryGuards;
    let all: Vec<usize> = (0..n).collect();
    let mut memory: Vec<u64> = (1..n).map(|_| encode(other(r, guards, &all))).collect();
    memory.push(encode(Op::Illegal));
    memory.extend((0..d).map(|_| r.odd_number()));
    Program { memory, n, edges: Vec::new() }
}

/// Puts the edges into rising sequence; repeated ones stay. A number at the end that is no pair stays there.
pub fn sort_edges<N: Copy + Ord>(edges: &mut [N]) {
    let mut pairs: Vec<[N; 2]> = edges.chunks_exact(2).map(|e| [e[0], e[1]]).collect();
    pairs.sort();
    for (to, pair) in edges.chunks_exact_mut(2).zip(pairs) {
        to.copy_from_slice(&pair);
    }
}

/// Random edges, rising and without repeats.
pub fn rising_edges(r: &mut Random, pairs: usize) -> Vec<u16> {
    let mut set = BTreeSet::new();
    let small = r.chance(2);
    while set.len() < pairs {
        // few different jumps, so that many edges differ by their targets alone
        let jump = if small { r.below(1 + pairs / 4) as u16 } else { r.word() as u16 };
        set.insert([jump, r.word() as u16]);
    }
    set.into_iter().flatten().collect()
}

/// Three times in four the edges stay as they are; else two change places, one is listed again, one number changes, or one goes.
pub fn damage_sequence<N: Copy + Ord + From<u8>>(r: &mut Random, edges: &mut Vec<N>) {
    if edges.is_empty() || !r.chance(4) {
        return;
    }
    let pairs = edges.len() / 2;
    let (one, two) = (r.below(pairs) * 2, r.below(pairs) * 2);
    match r.below(5) {
        0 => {
            edges.swap(one, two);
            edges.swap(one + 1, two + 1);
        }
        1 => edges.extend_from_within(one..one + 2),
        2 => {
            edges.extend_from_within(one..one + 2);
            sort_edges(edges);
        }
        3 => edges[one + r.below(2)] = N::from(r.below(4) as u8),
        _ => {
            edges.pop();
        }
    }
}

/// Lists one to eight edges again, at any place of the list, as far as there is room: the edges then fall or repeat somewhere.
pub fn repeat_edges(r: &mut Random, p: &mut Program) {
    for _ in 0..1 + r.below(8) {
        let pairs = p.edges.len() / 2;
        if pairs == 0 || pairs >= 2048 {
            return;
        }
        let (from, to) = (r.below(pairs) * 2, r.below(pairs + 1) * 2);
        let edge = [p.edges[from], p.edges[from + 1]];
        p.edges.splice(to..to, edge);
    }
}

/// The parcel of a program with its edges as they are, rising or not, or none where its shape has no parcel.
pub fn parcel_of(p: &Program) -> Option<Vec<u8>> {
    if !shaped(p.memory.len(), p.n) || p.edges.len() % 2 != 0 || p.edges.len() > 4096 {
        return None;
    }
    let (code, data) = p.memory.split_at(p.n);
    let count = |items: usize| (items as u32).to_le_bytes();
    let mut parcel = count(p.n).to_vec();
    parcel.extend(code.iter().flat_map(|word| word.to_le_bytes()));
    parcel.extend(count(p.edges.len() / 2));
    parcel.extend(p.edges.iter().flat_map(|number| number.to_le_bytes()));
    parcel.extend(count(data.len()));
    parcel.extend(data.iter().flat_map(|word| word.to_le_bytes()));
    Some(parcel)
}

/// Four times in seven a parcel, whose counts stand at these bytes, is damaged: cut off, followed by zeros, or with another count or
/// another bit.
pub fn damage_bytes(r: &mut Random, parcel: &mut Vec<u8>, counts: [usize; 3]) {
    match r.below(7) {
        0 => parcel.truncate(r.below(parcel.len() + 1)),
        1 => parcel.extend((0..1 + r.below(9)).map(|_| 0)),
        2 => {
            let section = r.pick(&counts);
            let count = r.pick(&[0, 1, 5, 2048, 2049, u32::MAX, 1 << 29, 1 << 31]);
            parcel[section..section + 4].copy_from_slice(&count.to_le_bytes());
        }
        3 => {
            let at = r.below(parcel.len());
            parcel[at] ^= 1 << r.below(8);
        }
        _ => {}
    }
}

/// A target of a branch: in code, just past it, or far outside.
fn some_target(r: &mut Random, n: usize) -> u32 {
    match r.below(8) {
        0 => (n + r.below(5000)) as u32,
        1 => u32::MAX - r.below(3) as u32,
        _ => r.below(n + 2) as u32,
    }
}

/// Damages a program in one place, in one of many ways.
pub fn damage(r: &mut Random, p: &mut Program) {
    let n = p.n.min(p.memory.len()).max(1);
    let at = r.below(n);
    let claimed = p.edges.len() >= 2;
    let edge = if claimed { r.below(p.edges.len() / 2) * 2 } else { 0 };
    let before = p.edges.clone();
    match r.below(15) {
        0 => p.memory[at] ^= 1 << r.below(64),
        1 => p.memory[at] = r.instruction_word(),
        2 => p.memory[at] = encode(Op::Label(r.below(n) as u32)),
        3 if r.chance(2) => p.memory[at] = encode(Op::Call(some_target(r, n))),
        3 => p.memory[at] = encode(Op::Jd(some_target(r, n))),
        4 => p.memory[at] = encode(Op::Bgt(r.below(3) as u8, r.below(3) as u8, some_target(r, n))),
        5 => p.memory[at] = encode(Op::Illegal),
        6 => {
            let other = r.below(n);
            p.memory.swap(at, other);
        }
        7 if claimed => p.edges[edge] = r.below(n + 1) as u16,
        8 if claimed => p.edges[edge + 1] = r.below(n + 1) as u16,
        9 if claimed => {
            p.edges.drain(edge..edge + 2);
        }
        10 => {
            let jump = if claimed { p.edges[edge] } else { r.below(n) as u16 };
            p.edges.extend([jump, r.below(n) as u16]);
        }
        11 if claimed && r.chance(4) => {
            p.edges.pop();
        }
        12 if r.chance(4) => p.n = r.pick(&[0, 1, p.n.wrapping_sub(1), p.n + 1, 2048, 2049, p.memory.len() + 1, usize::MAX]),
        13 if p.memory.len() > p.n => {
            p.memory.pop();
        }
        14 if claimed => {
            // two edges change places, or one becomes another again
            let other = r.below(p.edges.len() / 2) * 2;
            let (one, two) = ([p.edges[edge], p.edges[edge + 1]], [p.edges[other], p.edges[other + 1]]);
            p.edges[other..other + 2].copy_from_slice(&one);
            if !r.chance(3) {
                p.edges[edge..edge + 2].copy_from_slice(&two);
            }
            return;
        }
        _ => p.memory[at] = encode(Op::Jmp(r.below(2) as u8)),
    }
    if p.edges != before && !r.chance(4) {
        sort_edges(&mut p.edges);
    }
}

/// A buffer with a lent part in it: what is lent is `all[before .. before + lent]`.
pub fn padded<T: Copy>(before: usize, lent: usize, after: usize, mut fill: impl FnMut() -> T) -> Vec<T> {
    (0..before + lent + after).map(|_| fill()).collect()
}

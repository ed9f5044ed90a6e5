//! Guards put in for the installer, from document 02, K7: word by word, for the tests; and, for the benchmarks, with flat arrays.
use super::{checkers, checkers::Answer, decode, encode, shaped, Op, Technique};
use std::collections::HashMap;

/// What comes out of bare code. The data words are not in it.
#[derive(Clone, PartialEq, Eq, Debug)]
pub struct Rewritten {
    pub code: Vec<u64>,
    pub edges: Vec<u16>,
    pub map: Vec<u16>,
}

/// the registers that an instruction names
fn named(op: Op) -> Vec<u8> {
    match op {
        Op::Label(_) | Op::Jd(_) | Op::Call(_) | Op::Ret | Op::Illegal => vec![],
        Op::Movi(a, _) | Op::Jmp(a) => vec![a],
        Op::Addi(a, b, _) | Op::Bgt(a, b, _) | Op::Ld(a, b, _) | Op::St(a, b, _) => vec![a, b],
        Op::Add(a, b, c) => vec![a, b, c],
    }
}

/// What the words of document 02 say, each old address a block of new words; or the number with its place. That a lent place is too
/// short is the caller's to tell, after these.
pub fn rewrite(memory: &[u64], n: usize, edges: &[u16]) -> Result<Rewritten, Answer> {
    // 6, 7, 8, 18, 9 and 10 as the checkers answer them; what they ask after these is not asked of bare code
    let verdict = checkers::check(Technique::Plain, memory, n, edges);
    if [6, 7, 8, 18, 9, 10].contains(&verdict.0) {
        return Err(verdict);
    }
    let ops: Vec<Op> = memory[..n].iter().map(|&word| decode(word)).collect();
    let reserved = |op: Op| matches!(op, Op::Label(_)) || named(op).iter().any(|&register| register <= 2);
    if let Some(a) = (0..n).find(|&a| reserved(ops[a])) {
        return Err((20, 2, a as u64));
    }
    let leads_out = |op: Op| matches!(op, Op::Bgt(_, _, w) | Op::Jd(w) | Op::Call(w) if w as usize >= n);
    if let Some(a) = (0..n).find(|&a| leads_out(ops[a])) {
        return Err((21, 2, a as u64));
    }

    // the ID of each jump's target set, and of the set that each destination is in
    let pairs: Vec<(usize, usize)> = edges.chunks(2).map(|e| (e[0] as usize, e[1] as usize)).collect();
    let mut id: HashMap<usize, usize> = HashMap::new();
    for &(jump, target) in &pairs {
        let lowest = id.entry(jump).or_insert(target);
        *lowest = target.min(*lowest);
    }
    let set_of: HashMap<usize, usize> = pairs.iter().map(|&(jump, target)| (target, id[&jump])).collect();

    // where the block of each old address begins: after the blocks of all addresses before it
    let length = |a: usize| usize::from(set_of.contains_key(&a)) + if let Op::Jmp(_) = ops[a] { 6 } else { 1 };
    let mut map = vec![0];
    for a in 0..n {
        map.push(map[a] + length(a));
    }
    let new_n = map[n] + 1;
    if new_n > 2048 {
        return Err((22, 0, 0));
    }
    let halt = new_n as u32 - 1;
    let new = |a: usize| map[a] as u32;

    let mut code = Vec::new();
    for a in 0..n {
        assert_eq!(code.len(), map[a]);
        if let Some(&id) = set_of.get(&a) {
            code.push(encode(Op::Label(new(id))));
        }
        match ops[a] {
            Op::Jmp(rs) => code.extend(
                [
                    Op::Addi(0, rs, 0),
                    Op::Ld(1, 0, 0),
                    Op::Movi(2, new(id[&a])),
                    Op::Bgt(1, 2, halt),
                    Op::Bgt(2, 1, halt),
                    Op::Jmp(0),
                ]
                .map(encode),
            ),
            Op::Bgt(rs, rt, w) => code.push(encode(Op::Bgt(rs, rt, new(w as usize)))),
            Op::Jd(w) => code.push(encode(Op::Jd(new(w as usize)))),
            Op::Call(w) => code.push(encode(Op::Call(new(w as usize)))),
            _ => code.push(memory[a]),
        }
    }
    code.push(u64::MAX);

    // an edge starts at the last word of its jump's block, which is the word before the next block
    let edges = pairs.iter().flat_map(|&(jump, target)| [map[jump + 1] as u16 - 1, map[target] as u16]).collect();
    let map = map[..n].iter().map(|&at| at as u16).collect();
    Ok(Rewritten { code, edges, map })
}

/// By opcode, and 11 for illegal words: the bits that are 0 in a legal word (fields that the instruction does not name, and the high
/// bits of registers), and fields a, b and c with 31 where none is named.
const FORMS: [(u64, u32); 12] = [
    (0x00ff_ffff_0000_0000, 0),
    (0x00e0_e0e0_ffff_ffff, 0),
    (0x00e0_e0ff_0000_0000, 0x00_001f),
    (0x00e0_ffff_0000_0000, 0x00_1f1f),
    (0x00e0_e0ff_0000_0000, 0x00_001f),
    (0x00ff_ffff_0000_0000, 0x1f_1f1f),
    (0x00e0_ffff_ffff_ffff, 0x00_1f1f),
    (0x00e0_e0ff_0000_0000, 0x00_001f),
    (0x00e0_e0ff_0000_0000, 0x00_001f),
    (0x00ff_ffff_0000_0000, 0x1f_1f1f),
    (0x00ff_ffff_ffff_ffff, 0x1f_1f1f),
    (0, 0x1f_1f1f),
];

const BGT: usize = 4;
const JD: usize = 5;
const JMP: usize = 6;
const CALL: usize = 9;
const ILLEGAL: usize = 11;

/// the opcode of a word, 11 where it is illegal
#[inline(always)]
fn opcode(word: u64) -> usize {
    let opcode = ((word >> 56) as usize).min(ILLEGAL);
    if word & FORMS[opcode].0 == 0 {
        opcode
    } else {
        ILLEGAL
    }
}

#[inline(always)]
fn is_jump(word: u64) -> bool {
    word & 0xffe0_ffff_ffff_ffff == 0x0600_0000_0000_0000
}

#[inline(always)]
fn is_branch(word: u64) -> bool {
    let head = word & 0xffff_ffff_0000_0000;
    word & 0xffe0_e0ff_0000_0000 == 0x0400_0000_0000_0000 || head == 0x0500_0000_0000_0000 || head == 0x0900_0000_0000_0000
}

/// a label, whose fields are 0, or a word that names r0, r1 or r2: a field that is below 3 has no bit 5 when 29 is added
#[inline(always)]
fn is_reserved(opcode: usize, word: u64) -> bool {
    let fields = (word >> 32) as u32 & 0x1f_1f1f | FORMS[opcode].1;
    fields + 0x1d_1d1d & 0x20_2020 != 0x20_2020
}

#[inline(always)]
fn is_out(opcode: usize, word: u64, n: usize) -> bool {
    (opcode == BGT || opcode == JD || opcode == CALL) && word as u32 as usize >= n
}

const NONE: u16 = u16::MAX;

/// an address that is known to be below 2,048
#[inline(always)]
fn at(address: u16) -> usize {
    address as usize & 2047
}

/// The same with flat arrays, in time that follows words plus edges: n', or the number with its place.
#[inline(never)]
pub fn rewrite_flat(
    memory: &[u64],
    n: usize,
    edges: &[u16],
    code: &mut [u64],
    new_edges: &mut [u16],
    map: &mut [u16],
) -> Result<usize, Answer> {
    if !shaped(memory.len(), n) || edges.len() % 2 != 0 || edges.len() > 4096 {
        return Err((6, 0, 0));
    }
    let words = &memory[..n];
    let (pairs, _) = edges.as_chunks::<2>();
    let mut sound = pairs.is_sorted_by(|one, two| one < two);
    for &[jump, target] in pairs {
        sound &= words.get(jump as usize).is_some_and(|&word| is_jump(word)) & ((target as usize) < n);
    }
    if !sound {
        return Err(broken(words, pairs));
    }

    // Edges rise, so those of one jump follow each other, and the first of them has its ID. Of each address, the ID of the set that
    // it is in; of each ID, the size of its set, and afterwards, of each address, where its block begins.
    let (mut set_of, mut new) = ([NONE; 2048], [0u16; 2048]);
    let mut jumps = 0;
    for run in pairs.chunk_by(|one, two| one[0] == two[0]) {
        let (id, count) = (run[0][1], run.len() as u16);
        jumps += 1;
        if set_of[at(id)] == NONE {
            for &[_, target] in run {
                sound &= set_of[at(target)] == NONE;
                set_of[at(target)] = id;
            }
            new[at(id)] = count;
        } else {
            sound &= count == new[at(id)];
            for &[_, target] in run {
                sound &= set_of[at(target)] == id;
            }
        }
    }
    let (mut jumps_in_code, mut end) = (0, 0);
    for ((&word, to), &set) in words.iter().zip(&mut new).zip(&set_of) {
        *to = end as u16;
        let opcode = opcode(word);
        let jump = opcode == JMP;
        jumps_in_code += usize::from(jump);
        end += usize::from(set != NONE) + if jump { 6 } else { 1 };
        sound &= !is_reserved(opcode, word) & !is_out(opcode, word, n);
    }
    if !sound || jumps_in_code != jumps {
        return Err(broken(words, pairs));
    }
    let new_n = end + 1;
    if new_n > 2048 {
        return Err((22, 0, 0));
    }
    if code.len() < new_n || new_edges.len() < edges.len() || map.len() < n {
        return Err((5, 0, 0));
    }

    // all is sound
    map[..n].copy_from_slice(&new[..n]);
    let halt = end as u64;
    let code = &mut code[..new_n];
    let mut runs = pairs.chunk_by(|one, two| one[0] == two[0]);
    for ((&word, &set), &begins) in words.iter().zip(&set_of).zip(&new) {
        let mut to = begins as usize;
        if set != NONE {
            code[to] = u64::from(new[at(set)]);
            to += 1;
        }
        if is_jump(word) {
            let id = runs.next().map_or(0, |run| u64::from(new[at(run[0][1])]));
            code[to..to + 6].copy_from_slice(&[
                0x0200_0000_0000_0000 | (word >> 48 & 31) << 40,
                0x0701_0000_0000_0000,
                0x0302_0000_0000_0000 | id,
                0x0401_0200_0000_0000 | halt,
                0x0402_0100_0000_0000 | halt,
                0x0600_0000_0000_0000,
            ]);
        } else if is_branch(word) {
            code[to] = word & !0xffff_ffff | u64::from(new[at(word as u16)]);
        } else {
            code[to] = word;
        }
    }
    code[end] = u64::MAX;
    for (to, &[jump, target]) in new_edges.chunks_exact_mut(2).zip(pairs) {
        to[0] = new[at(jump)] + u16::from(set_of[at(jump)] != NONE) + 5;
        to[1] = new[at(target)];
    }
    Ok(new_n)
}

/// the first of 7, 8, 18, 9, 10, 20 and 21 that is broken, where one of them is
#[cold]
#[inline(never)]
fn broken(words: &[u64], pairs: &[[u16; 2]]) -> Answer {
    let verdict = checkers::check_flat(Technique::Plain, words, words.len(), pairs.as_flattened());
    if [7, 8, 18, 9, 10].contains(&verdict.0) {
        return verdict;
    }
    if let Some(a) = words.iter().position(|&word| is_reserved(opcode(word), word)) {
        return (20, 2, a as u64);
    }
    let out = words.iter().position(|&word| is_out(opcode(word), word, words.len()));
    (21, 2, out.unwrap_or(0) as u64)
}

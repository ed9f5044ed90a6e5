//! The figures of a program: straight from their meaning, with sets, for the tests; and, for the benchmarks, with flat arrays.
use super::{checkers, checkers::Answer, decode, fields, read_parcel, Op, Technique};
use std::collections::{BTreeSet, HashMap, HashSet};

/// The eleven instructions, and the illegal words, which are counted last.
pub const KINDS: usize = 12;
const ILLEGAL: usize = KINDS - 1;

/// Words by kind, illegal ones last; target sets, and the size of the largest; distinct edges, and jumps times code words.
#[derive(Clone, Copy, PartialEq, Eq, Debug)]
pub struct Figures {
    pub words: [u16; KINDS],
    pub sets: u16,
    pub largest: u16,
    pub freedom: Option<(u32, u32)>,
}

/// The figures, or the verdict of a program that has none.
pub type Report = Result<Figures, Answer>;

/// the place of an opcode in the table of instructions; illegal words come after it
fn row(op: Op) -> usize {
    usize::from(fields(op).0).min(ILLEGAL)
}

/// What the words of document 02 say, with a set for each jump.
fn figures(memory: &[u64], n: usize, edges: &[u16]) -> Figures {
    let mut words = [0; KINDS];
    for &word in &memory[..n] {
        words[row(decode(word))] += 1;
    }
    let jumps = memory[..n].iter().filter(|&&word| matches!(decode(word), Op::Jmp(_))).count();
    let distinct: HashSet<(u16, u16)> = edges.chunks(2).map(|e| (e[0], e[1])).collect();
    let mut targets: HashMap<u16, BTreeSet<u16>> = HashMap::new();
    for &(jump, target) in &distinct {
        targets.entry(jump).or_default().insert(target);
    }
    let sets: HashSet<&BTreeSet<u16>> = targets.values().collect();
    let largest = sets.iter().map(|set| set.len()).max().unwrap_or(0);
    let freedom = if jumps == 0 { None } else { Some((distinct.len() as u32, (jumps * n) as u32)) };
    Figures { words, sets: sets.len() as u16, largest: largest as u16, freedom }
}

/// The report on a program.
pub fn report(technique: Technique, memory: &[u64], n: usize, edges: &[u16]) -> Report {
    match checkers::check(technique, memory, n, edges) {
        (0, _, _) => Ok(figures(memory, n, edges)),
        refused => Err(refused),
    }
}

/// The report on a parcel.
pub fn report_parcel(technique: Technique, parcel: &[u8]) -> Report {
    let (mut memory, mut edges) = (vec![0; 4096], vec![0; 4096]);
    let (n, pairs, d) = read_parcel(parcel, &mut memory, &mut edges).map_err(|number| (number, 0, 0))?;
    report(technique, &memory[..n + d], n, &edges[..pairs * 2])
}

/// By opcode, the bits that are 0 in a legal word: fields that the instruction does not name, and the high bits of registers.
const CLEAR: [u64; ILLEGAL] = [
    0x00ff_ffff_0000_0000,
    0x00e0_e0e0_ffff_ffff,
    0x00e0_e0ff_0000_0000,
    0x00e0_ffff_0000_0000,
    0x00e0_e0ff_0000_0000,
    0x00ff_ffff_0000_0000,
    0x00e0_ffff_ffff_ffff,
    0x00e0_e0ff_0000_0000,
    0x00e0_e0ff_0000_0000,
    0x00ff_ffff_0000_0000,
    0x00ff_ffff_ffff_ffff,
];

/// the row of a word, without decoding it
#[inline(always)]
fn row_flat(word: u64) -> usize {
    match CLEAR.get((word >> 56) as usize) {
        Some(clear) if word & clear == 0 => (word >> 56) as usize,
        _ => ILLEGAL,
    }
}

/// The same with flat arrays of n numbers. An accepted program has a label with the set's ID at each target and nowhere else, so
/// that labels tell how large a set is, and none of its edges repeats.
fn figures_flat(memory: &[u64], n: usize, edges: &[u16]) -> Figures {
    let mut words = [0; KINDS];
    let mut size = vec![0u16; n];
    for &word in &memory[..n] {
        let row = row_flat(word);
        words[row] += 1;
        if row == 0 {
            size[word as usize] += 1;
        }
    }
    let sets = size.iter().filter(|&&count| count > 0).count();
    let largest = size.iter().copied().max().unwrap_or(0);
    let jumps = u32::from(words[6]);
    let freedom = if jumps == 0 { None } else { Some((edges.len() as u32 / 2, jumps * n as u32)) };
    Figures { words, sets: sets as u16, largest, freedom }
}

#[inline(never)]
pub fn report_flat(technique: Technique, memory: &[u64], n: usize, edges: &[u16]) -> Report {
    match checkers::check_flat(technique, memory, n, edges) {
        (0, _, _) => Ok(figures_flat(memory, n, edges)),
        refused => Err(refused),
    }
}

#[inline(never)]
pub fn report_parcel_flat(technique: Technique, parcel: &[u8]) -> Report {
    let (mut memory, mut edges) = ([0; 4096], [0; 4096]);
    let (n, pairs, d) = read_parcel(parcel, &mut memory, &mut edges).map_err(|number| (number, 0, 0))?;
    report_flat(technique, &memory[..n + d], n, &edges[..pairs * 2])
}

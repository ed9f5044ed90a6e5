//! Document 01, and what document 02 adds, in plain, safe Rust, written apart from the Rattle sources: what tests and benchmarks
//! hold the library against.
//! A call that the benchmark times is kept out of line, as the library's calls are.
#![allow(dead_code)]

pub mod checkers;
pub mod editions;
pub mod figures;
pub mod paths;
pub mod rewrite;
pub mod totals;

#[derive(Clone, Copy, PartialEq, Eq, Debug)]
pub enum Op {
    Label(u32),
    Add(u8, u8, u8),
    Addi(u8, u8, u32),
    Movi(u8, u32),
    Bgt(u8, u8, u32),
    Jd(u32),
    Jmp(u8),
    Ld(u8, u8, u32),
    St(u8, u8, u32),
    Call(u32),
    Ret,
    Illegal,
}

#[derive(Clone, Copy, PartialEq, Eq, Debug)]
pub enum Technique {
    Plain,
    MemoryGuards,
}

pub const TECHNIQUES: [Technique; 2] = [Technique::Plain, Technique::MemoryGuards];

#[inline(always)]
pub fn decode(word: u64) -> Op {
    let a = (word >> 48) as u8;
    let b = (word >> 40) as u8;
    let c = (word >> 32) as u8;
    let w = word as u32;
    match (word >> 56) as u8 {
        0 if a == 0 && b == 0 && c == 0 => Op::Label(w),
        1 if a < 32 && b < 32 && c < 32 && w == 0 => Op::Add(a, b, c),
        2 if a < 32 && b < 32 && c == 0 => Op::Addi(a, b, w),
        3 if a < 32 && b == 0 && c == 0 => Op::Movi(a, w),
        4 if a < 32 && b < 32 && c == 0 => Op::Bgt(a, b, w),
        5 if a == 0 && b == 0 && c == 0 => Op::Jd(w),
        6 if a < 32 && b == 0 && c == 0 && w == 0 => Op::Jmp(a),
        7 if a < 32 && b < 32 && c == 0 => Op::Ld(a, b, w),
        8 if a < 32 && b < 32 && c == 0 => Op::St(a, b, w),
        9 if a == 0 && b == 0 && c == 0 => Op::Call(w),
        10 if a == 0 && b == 0 && c == 0 && w == 0 => Op::Ret,
        _ => Op::Illegal,
    }
}

/// opcode, a, b, c, w; illegal is 255 and zeros
pub fn fields(op: Op) -> (u8, u8, u8, u8, u32) {
    match op {
        Op::Label(w) => (0, 0, 0, 0, w),
        Op::Add(rd, rs, rt) => (1, rd, rs, rt, 0),
        Op::Addi(rd, rs, w) => (2, rd, rs, 0, w),
        Op::Movi(rd, w) => (3, rd, 0, 0, w),
        Op::Bgt(rs, rt, w) => (4, rs, rt, 0, w),
        Op::Jd(w) => (5, 0, 0, 0, w),
        Op::Jmp(rs) => (6, rs, 0, 0, 0),
        Op::Ld(rd, rs, w) => (7, rd, rs, 0, w),
        Op::St(rd, rs, w) => (8, rd, rs, 0, w),
        Op::Call(w) => (9, 0, 0, 0, w),
        Op::Ret => (10, 0, 0, 0, 0),
        Op::Illegal => (255, 0, 0, 0, 0),
    }
}

/// the instruction of an opcode and fields, as they are given
pub fn instruction(opcode: u8, a: u8, b: u8, c: u8, w: u32) -> Op {
    match opcode {
        0 => Op::Label(w),
        1 => Op::Add(a, b, c),
        2 => Op::Addi(a, b, w),
        3 => Op::Movi(a, w),
        4 => Op::Bgt(a, b, w),
        5 => Op::Jd(w),
        6 => Op::Jmp(a),
        7 => Op::Ld(a, b, w),
        8 => Op::St(a, b, w),
        9 => Op::Call(w),
        10 => Op::Ret,
        _ => Op::Illegal,
    }
}

#[inline(always)]
pub fn encode(op: Op) -> u64 {
    let (opcode, a, b, c, w) = fields(op);
    if opcode == 255 || a > 31 || b > 31 || c > 31 {
        return u64::MAX;
    }
    u64::from(opcode) << 56 | u64::from(a) << 48 | u64::from(b) << 40 | u64::from(c) << 32 | u64::from(w)
}

/// how many return addresses a state holds
pub const PLACES: usize = 128;

#[derive(Clone, Copy, PartialEq, Eq, Debug)]
pub struct State {
    pub regs: [u64; 32],
    pub pc: u64,
    pub depth: u64,
    pub stack: [u64; PLACES],
}

impl State {
    pub fn fresh(regs: [u64; 32]) -> State {
        State { regs, pc: 0, depth: 0, stack: [0; PLACES] }
    }

    fn shaped(&self) -> bool {
        self.depth <= PLACES as u64
    }
}

/// What a step answers for stops 5 and 6, since 5 and 6 are refusals.
pub const STOP_FULL: u32 = 256 + 5;
pub const STOP_EMPTY: u32 = 256 + 6;

pub fn shaped(len: usize, n: usize) -> bool {
    n >= 1 && n <= 2048 && n <= len && len - n <= 2048
}

/// Whether a step from one pc to another keeps to the claimed graph: at a jmp the listed edges, at a ret the words after all calls,
/// elsewhere what the word says, cut to code.
pub fn is_successor(code: &[u64], edges: &[u16], from: u64, to: u64) -> bool {
    let inside = |pc: u64| pc < code.len() as u64;
    if !inside(from) || !inside(to) {
        return false;
    }
    match decode(code[from as usize]) {
        Op::Jmp(_) => edges.chunks(2).any(|edge| [u64::from(edge[0]), u64::from(edge[1])] == [from, to]),
        Op::Bgt(_, _, w) => to == from + 1 || to == u64::from(w),
        Op::Jd(w) | Op::Call(w) => to == u64::from(w),
        Op::Ret => to > 0 && matches!(decode(code[to as usize - 1]), Op::Call(_)),
        Op::Illegal => false,
        _ => to == from + 1,
    }
}

/// A call of this address: 0, or what is answered for the stop. Out of line, as ret is, so that other steps keep their registers.
#[inline(never)]
fn call(plain: bool, state: &mut State, n: usize, routine: u64) -> u32 {
    let Some(place) = state.stack.get_mut(state.depth as usize) else { return STOP_FULL };
    if plain && routine >= n as u64 {
        return 4;
    }
    *place = state.pc + 1;
    state.depth += 1;
    state.pc = routine;
    0
}

/// A ret, likewise. The place keeps its address.
#[inline(never)]
fn ret(plain: bool, state: &mut State, n: usize) -> u32 {
    let Some(latest) = state.depth.checked_sub(1) else { return STOP_EMPTY };
    let home = state.stack[latest as usize];
    if plain && home >= n as u64 {
        return 4;
    }
    state.depth = latest;
    state.pc = home;
    0
}

/// 0, or what is answered for the stop
#[inline(always)]
fn advance(technique: Technique, state: &mut State, memory: &mut [u64], n: usize) -> u32 {
    let plain = technique == Technique::Plain;
    let fetch_end = if plain { n } else { memory.len() };
    if state.pc >= fetch_end as u64 {
        return 1;
    }
    let op = decode(memory[state.pc as usize]);
    let mut next = state.pc + 1;
    let mut register: Option<(u8, u64)> = None;
    let mut word: Option<(u64, u64)> = None;
    match op {
        Op::Label(_) => {}
        Op::Add(rd, rs, rt) => register = Some((rd, state.regs[rs as usize].wrapping_add(state.regs[rt as usize]))),
        Op::Addi(rd, rs, w) => register = Some((rd, state.regs[rs as usize].wrapping_add(u64::from(w)))),
        Op::Movi(rd, w) => register = Some((rd, u64::from(w))),
        Op::Bgt(rs, rt, w) => {
            if state.regs[rs as usize] > state.regs[rt as usize] {
                next = u64::from(w);
            }
        }
        Op::Jd(w) => next = u64::from(w),
        Op::Jmp(rs) => next = state.regs[rs as usize],
        Op::Ld(rd, rs, w) => {
            let Some(address) = state.regs[rs as usize].checked_add(u64::from(w)) else { return 3 };
            if address >= memory.len() as u64 {
                return 3;
            }
            register = Some((rd, memory[address as usize]));
        }
        Op::St(rd, rs, w) => {
            let Some(address) = state.regs[rd as usize].checked_add(u64::from(w)) else { return 3 };
            let start = if plain { n as u64 } else { 0 };
            if address < start || address >= memory.len() as u64 {
                return 3;
            }
            word = Some((address, state.regs[rs as usize]));
        }
        Op::Call(w) => return call(plain, state, n, w.into()),
        Op::Ret => return ret(plain, state, n),
        Op::Illegal => return 2,
    }
    if plain && next >= n as u64 {
        return 4;
    }
    if let Some((rd, value)) = register {
        state.regs[rd as usize] = value;
    }
    if let Some((address, value)) = word {
        memory[address as usize] = value;
    }
    state.pc = next;
    0
}

/// 0, what is answered for the stop, or 6
#[inline(never)]
pub fn step(technique: Technique, state: &mut State, memory: &mut [u64], n: usize) -> u32 {
    if !shaped(memory.len(), n) || !state.shaped() {
        return 6;
    }
    advance(technique, state, memory, n)
}

/// 0 where it is spent, what is answered for the stop, or 6; and the count
#[inline(never)]
pub fn run(technique: Technique, state: &mut State, memory: &mut [u64], n: usize, limit: u16) -> (u32, u16) {
    if !shaped(memory.len(), n) || !state.shaped() {
        return (6, 0);
    }
    for count in 0..limit {
        let stop = advance(technique, state, memory, n);
        if stop != 0 {
            return (stop, count);
        }
    }
    (0, limit)
}

#[inline(never)]
pub fn write_data(memory: &mut [u64], n: usize, address: u64, word: u64) -> u32 {
    if !shaped(memory.len(), n) {
        return 6;
    }
    if address < n as u64 || address >= memory.len() as u64 {
        return 16;
    }
    memory[address as usize] = word;
    0
}

#[inline(never)]
pub fn write_register(state: &mut State, register: u64, word: u64) -> u32 {
    if !state.shaped() {
        return 6;
    }
    if !(3..=31).contains(&register) {
        return 17;
    }
    state.regs[register as usize] = word;
    0
}

/// the counts of code words, edges and data words, or the number
#[inline(never)]
pub fn read_parcel(parcel: &[u8], memory: &mut [u64], edges: &mut [u16]) -> Result<(usize, usize, usize), u32> {
    fn section<'a>(rest: &mut &'a [u8], size: usize, low: u32, high: u32) -> Result<&'a [u8], u32> {
        let all: &'a [u8] = rest;
        if all.len() < 4 {
            return Err(1);
        }
        let (count, after) = all.split_at(4);
        let count = u32::from_le_bytes(count.try_into().unwrap());
        if count < low || count > high {
            return Err(2);
        }
        let bytes = count as usize * size;
        if after.len() < bytes {
            return Err(3);
        }
        let (items, after) = after.split_at(bytes);
        *rest = after;
        Ok(items)
    }
    let mut rest = parcel;
    let code = section(&mut rest, 8, 1, 2048)?;
    let pairs = section(&mut rest, 4, 0, 2048)?;
    let data = section(&mut rest, 8, 0, 2048)?;
    if !rest.is_empty() {
        return Err(4);
    }
    let (n, numbers, d) = (code.len() / 8, pairs.len() / 2, data.len() / 8);
    if memory.len() < n + d || edges.len() < numbers {
        return Err(5);
    }
    let (to_code, to_data) = memory.split_at_mut(n);
    for (to, from) in to_code.iter_mut().zip(code.chunks_exact(8)) {
        *to = u64::from_le_bytes(from.try_into().unwrap());
    }
    for (to, from) in to_data.iter_mut().zip(data.chunks_exact(8)) {
        *to = u64::from_le_bytes(from.try_into().unwrap());
    }
    for (to, from) in edges.iter_mut().zip(pairs.chunks_exact(2)) {
        *to = u16::from_le_bytes(from.try_into().unwrap());
    }
    Ok((n, numbers / 2, d))
}

/// the number of bytes, or the number with its place
#[inline(never)]
pub fn write_parcel(memory: &[u64], n: usize, edges: &[u16], parcel: &mut [u8]) -> Result<usize, checkers::Answer> {
    if !shaped(memory.len(), n) || edges.len() % 2 != 0 || edges.len() > 4096 {
        return Err((6, 0, 0));
    }
    let mut last = None;
    for (k, edge) in edges.chunks_exact(2).enumerate() {
        if last >= Some(edge) {
            return Err((18, 1, k as u64));
        }
        last = Some(edge);
    }
    let size = 12 + memory.len() * 8 + edges.len() * 2;
    if parcel.len() < size {
        return Err((5, 0, 0));
    }
    fn words<'a>(to: &'a mut [u8], xs: &[u64]) -> &'a mut [u8] {
        let (count, to) = to.split_at_mut(4);
        count.copy_from_slice(&(xs.len() as u32).to_le_bytes());
        let (items, to) = to.split_at_mut(xs.len() * 8);
        for (to, x) in items.chunks_exact_mut(8).zip(xs) {
            to.copy_from_slice(&x.to_le_bytes());
        }
        to
    }
    let to = words(parcel, &memory[..n]);
    let (count, to) = to.split_at_mut(4);
    count.copy_from_slice(&(edges.len() as u32 / 2).to_le_bytes());
    let (items, to) = to.split_at_mut(edges.len() * 2);
    for (to, x) in items.chunks_exact_mut(2).zip(edges) {
        to.copy_from_slice(&x.to_le_bytes());
    }
    words(to, &memory[n..]);
    Ok(size)
}

//! Steps, runs and bus writes against the reference, one by one and in lists, at odd shapes.
#[path = "../reference/mod.rs"]
mod reference;
mod common;

use common::{accepted, Random};
use post_guard::raw;
use reference::{State, Technique, STOP_EMPTY, STOP_FULL, TECHNIQUES};

const MARK: u64 = 0x5ca1_ab1e_0ddb_a115;

/// 32 registers, the pc, the depth, and 128 places of the stack
const STATE_WORDS: usize = 162;

/// The same call on the library's words and on the reference's, with what lies past the lent words.
struct Both {
    state: Vec<u64>,
    state_len: usize,
    memory: Vec<u64>,
    memory_len: usize,
    reference: State,
    reference_memory: Vec<u64>,
}

impl Both {
    fn new(reference: State, memory: &[u64], state_len: usize) -> Both {
        let mut state = words_of(&reference);
        state.extend([MARK; 3]);
        let mut whole = memory.to_vec();
        whole.extend([MARK; 3]);
        Both {
            state,
            state_len,
            memory: whole.clone(),
            memory_len: memory.len(),
            reference,
            reference_memory: whole,
        }
    }

    fn short(&self) -> bool {
        self.state_len < STATE_WORDS
    }

    fn compare(&self, what: &str) {
        assert_eq!(self.state[..32], self.reference.regs, "registers after {what}");
        assert_eq!(self.state[32], self.reference.pc, "pc after {what}");
        assert_eq!(self.state[33], self.reference.depth, "depth after {what}");
        assert_eq!(self.state[34..STATE_WORDS], self.reference.stack, "stack after {what}");
        assert_eq!(self.state[STATE_WORDS..], [MARK; 3], "past the state after {what}");
        assert!(self.memory == self.reference_memory, "memory after {what}");
    }

    fn step(&mut self, technique: Technique, number: u8, n: usize) -> u32 {
        let expected = if self.short() {
            5
        } else {
            reference::step(technique, &mut self.reference, &mut self.reference_memory[..self.memory_len], n)
        };
        let answer =
            raw::step(number, &mut self.state[..self.state_len], &mut self.memory[..self.memory_len], n);
        assert_eq!(answer, expected, "step, n {n}, {} words", self.memory_len);
        answer
    }

    fn run(&mut self, technique: Technique, number: u8, n: usize, limit: u16, count_len: usize) -> u32 {
        let mut count = [MARK; 3];
        let mut expected_count = count;
        let expected = if self.short() || count_len == 0 {
            5
        } else {
            let (answer, made) = reference::run(
                technique,
                &mut self.reference,
                &mut self.reference_memory[..self.memory_len],
                n,
                limit,
            );
            expected_count[0] = made.into();
            answer
        };
        let answer = raw::run(
            number,
            &mut self.state[..self.state_len],
            &mut self.memory[..self.memory_len],
            n,
            limit,
            &mut count[..count_len],
        );
        assert_eq!((answer, count), (expected, expected_count), "run, n {n}, limit {limit}");
        answer
    }

    fn write_data(&mut self, n: usize, address: u64, word: u64) {
        let expected = reference::write_data(&mut self.reference_memory[..self.memory_len], n, address, word);
        let answer = raw::write_data(&mut self.memory[..self.memory_len], n, address, word);
        assert_eq!(answer, expected, "write to {address}, n {n}");
    }

    fn write_register(&mut self, register: u64, word: u64) {
        let expected =
            if self.short() { 5 } else { reference::write_register(&mut self.reference, register, word) };
        let answer = raw::write_register(&mut self.state[..self.state_len], register, word);
        assert_eq!(answer, expected, "write to r{register}");
    }
}

/// the state as it is lent: r0 to r31, the pc, the depth, the stack with its oldest place first
fn words_of(state: &State) -> Vec<u64> {
    let mut words = state.regs.to_vec();
    words.extend([state.pc, state.depth]);
    words.extend(state.stack);
    words
}

/// 0 is plain, any other number is with memory guards
fn number_for(r: &mut Random, technique: Technique) -> u8 {
    match technique {
        Technique::Plain => 0,
        Technique::MemoryGuards => r.pick(&[1, 1, 2, 128, 255]),
    }
}

fn registers(r: &mut Random, len: usize) -> [u64; 32] {
    std::array::from_fn(|_| match r.below(4) {
        0 => r.odd_number(),
        1 => (r.below(5) as u64).wrapping_sub(2).wrapping_add(len as u64),
        _ => r.below(len + 1) as u64,
    })
}

fn pc(r: &mut Random, len: usize) -> u64 {
    if r.chance(12) {
        return r.odd_number();
    }
    r.below(len + 2) as u64
}

/// often at an end, or above 128
fn depth(r: &mut Random) -> u64 {
    match r.below(12) {
        0 => r.pick(&[129, 130, 255, 256, 1 << 32, (1 << 32) + 3, 1 << 63, u64::MAX]),
        1 | 2 => 128,
        3 => 127,
        4 | 5 => 0,
        6 => 1,
        _ => r.below(129) as u64,
    }
}

/// A state with this pc and any words elsewhere: many of them are addresses around the end of memory.
fn any_state(r: &mut Random, len: usize, pc: u64) -> State {
    let stack = std::array::from_fn(|_| if r.chance(6) { r.odd_number() } else { r.below(len + 1) as u64 });
    State { regs: registers(r, len), pc, depth: depth(r), stack }
}

/// such a state with room for a call and with an address for a ret, which is this one
fn amid(r: &mut Random, len: usize, pc: u64, home: u64) -> State {
    let mut state = any_state(r, len, pc);
    state.depth = 1 + r.below(127) as u64;
    state.stack[state.depth as usize - 1] = home;
    state
}

#[test]
fn single_steps() {
    let mut r = Random::new(11);
    let mut seen = std::collections::HashMap::new();
    for round in 0..150_000usize {
        let len = 1 + r.below(24);
        let n = if r.chance(20) { r.below(len + 3) } else { 1 + r.below(len) };
        let memory: Vec<u64> = (0..len).map(|_| r.instruction_word()).collect();
        let technique = TECHNIQUES[round % 2];
        let state_len = if r.chance(50) { r.below(STATE_WORDS + 4) } else { STATE_WORDS + r.below(3) };
        let pc = pc(&mut r, len);
        let mut both = Both::new(any_state(&mut r, len, pc), &memory, state_len);
        let number = number_for(&mut r, technique);
        *seen.entry(both.step(technique, number, n)).or_insert(0) += 1;
        both.compare("a step");
    }
    println!("how often each was answered: {seen:?}");
    assert!([0, 1, 2, 3, 4, 5, 6, STOP_FULL, STOP_EMPTY].iter().all(|answer| seen[answer] > 200), "{seen:?}");
}

/// each instruction with addresses at both ends of 64 bits
#[test]
fn sums_and_addresses_at_the_ends() {
    let mut r = Random::new(12);
    let ends = [0, 1, 2, 7, 8, 9, u64::MAX, u64::MAX - 1, u64::MAX - 7, 1 << 63, (1 << 63) - 1, 1 << 32, u32::MAX as u64];
    for &x in &ends {
        for &y in &ends {
            for w in [0u32, 1, 2, 7, 8, 9, u32::MAX, u32::MAX - 1] {
                for op in [
                    reference::Op::Add(3, 4, 5),
                    reference::Op::Addi(3, 4, w),
                    reference::Op::Bgt(4, 5, w),
                    reference::Op::Jmp(4),
                    reference::Op::Jd(w),
                    reference::Op::Ld(3, 4, w),
                    reference::Op::St(4, 5, w),
                    reference::Op::Call(w),
                    reference::Op::Ret,
                ] {
                    for technique in TECHNIQUES {
                        let mut state = amid(&mut r, 9, 3, x);
                        state.regs[4] = x;
                        state.regs[5] = y;
                        let mut memory = [7u64; 9];
                        memory[3] = reference::encode(op);
                        let mut both = Both::new(state, &memory, STATE_WORDS);
                        let number = number_for(&mut r, technique);
                        both.step(technique, number, 6);
                        both.compare("a step at the ends");
                    }
                }
            }
        }
    }
}

/// Loads and stores at both ends of 64 bits and of memory: "For ld and st the sum is exact, and one of two to the 64 or more is stop
/// 3." The sum is made once more here, on 128 bits. At the last code word a plain step that could be made gives stop 4: 3 comes first.
#[test]
fn exact_addresses_at_the_ends() {
    use reference::Op;
    let mut r = Random::new(19);
    let mut seen = std::collections::HashMap::new();
    for (n, len) in [(1, 1), (1, 2), (6, 6), (6, 7), (6, 9), (2048, 4096)] {
        let around: Vec<u64> = [0, n, len].into_iter().flat_map(|end: u64| end.saturating_sub(2)..=end + 2).collect();
        let displacements: Vec<u32> = [0, 1, u32::MAX].into_iter().chain(around.iter().map(|&a| a as u32)).collect();
        // 2^64 - v and 2^64 - v - 1 for every displacement v
        let high = displacements.iter().flat_map(|&v| [u64::from(v).wrapping_neg(), u64::MAX - u64::from(v)]);
        let bases: Vec<u64> = [0, 1, u32::MAX.into(), u64::MAX].into_iter().chain(high).chain(around.iter().copied()).collect();
        for &w in &displacements {
            // and those whose sum modulo 2^64 would be an address around n or the end of memory
            let round = around.iter().map(|a| a.wrapping_sub(w.into()));
            for base in bases.iter().copied().chain(round) {
                for (op, stores) in [(Op::Ld(3, 4, w), false), (Op::St(4, 5, w), true)] {
                    for technique in TECHNIQUES {
                        for pc in [0, n - 1] {
                            let mut memory: Vec<u64> = (0..len).map(|_| r.word()).collect();
                            memory[pc as usize] = reference::encode(op);
                            let mut state = amid(&mut r, len as usize, pc, 0);
                            state.regs[4] = base;
                            let plain = technique == Technique::Plain;
                            let allowed = if plain && stores { n.into()..len.into() } else { 0..u128::from(len) };
                            let exact = u128::from(base) + u128::from(w);
                            let expected = if !allowed.contains(&exact) {
                                3
                            } else if plain && pc + 1 == n {
                                4
                            } else {
                                0
                            };
                            let mut both = Both::new(state, &memory, STATE_WORDS);
                            let number = number_for(&mut r, technique);
                            let answer = both.step(technique, number, n as usize);
                            assert_eq!(answer, expected, "{op:?} at {pc}, base {base:#x}, n {n}, {len} words");
                            both.compare("a load or a store at the ends");
                            if answer != 0 {
                                assert_eq!((both.memory[..len as usize].to_vec(), both.state[32]), (memory, pc), "{op:?}");
                            }
                            let came_round = exact >= 1 << 64 && allowed.contains(&(exact % (1 << 64)));
                            *seen.entry((stores, plain, answer, came_round)).or_insert(0) += 1;
                        }
                    }
                }
            }
        }
    }
    // every kind of end came up, those that would come round modulo 2^64 among them
    for stores in [false, true] {
        for plain in [false, true] {
            assert!(seen.contains_key(&(stores, plain, 0, false)), "made: {seen:?}");
            assert!(seen.contains_key(&(stores, plain, 3, false)), "stopped: {seen:?}");
            assert!(seen.contains_key(&(stores, plain, 3, true)), "stopped, and would come round: {seen:?}");
        }
        assert!(seen.contains_key(&(stores, true, 4, false)), "stop 4: {seen:?}");
    }
}

#[test]
fn shapes() {
    let mut r = Random::new(13);
    for code in [0usize, 1, 2, 2047, 2048, 2049] {
        for data in [0usize, 1, 2047, 2048, 2049] {
            let memory: Vec<u64> = (0..code + data).map(|_| r.instruction_word()).collect();
            let len = memory.len();
            for n in [0, 1, code, code + 1, 2047, 2048, 2049, len, len + 1, usize::MAX, 1 << 63] {
                for technique in TECHNIQUES {
                    let number = number_for(&mut r, technique);
                    for pc in [0, n as u64, (n as u64).wrapping_sub(1), len as u64, u64::MAX] {
                        let mut both = Both::new(any_state(&mut r, len, pc), &memory, STATE_WORDS);
                        both.step(technique, number, n);
                        for limit in [0, 1, 300, 65_535] {
                            both.run(technique, number, n, limit, 1);
                        }
                        both.run(technique, number, n, 5, 0);
                        let ends = [0, n as u64, (n as u64).wrapping_sub(1), len as u64, (len as u64).wrapping_sub(1)];
                        for address in ends.into_iter().chain([u64::MAX, 1 << 63, 1 << 32]) {
                            both.write_data(n, address, r.word());
                        }
                        both.compare("calls at a shape");
                    }
                }
            }
        }
    }
}

#[test]
fn registers_at_both_ends() {
    let mut r = Random::new(14);
    for state_len in [0, 1, 32, 33, 34, 36, 161, 162, 163, 165] {
        for register in (0..170).chain([255, 256, 1 << 31, 1 << 32, (1 << 32) + 3, 1 << 63, u64::MAX - 1, u64::MAX]) {
            for depth in [0, 1, 127, 128, 129, 1 << 32, u64::MAX] {
                let mut state = any_state(&mut r, 9, 0);
                state.depth = depth;
                let mut both = Both::new(state, &[u64::MAX], state_len);
                both.write_register(register, r.word());
                both.compare("a register write");
            }
        }
    }
}

/// Steps, runs and register writes with a lent state of every length: below 162 words each call answers 5, and from 162 on only
/// the first 162 words count. Each instruction is made, stops, and is refused for its shape.
#[test]
fn states_of_every_length() {
    use reference::Op;
    let mut r = Random::new(17);
    let ops = [
        Op::Label(7),
        Op::Add(31, 4, 5),
        Op::Addi(0, 31, 1),
        Op::Movi(30, 9),
        Op::Bgt(4, 31, 1),
        Op::Jd(0),
        Op::Jmp(31),
        Op::Ld(31, 4, 0),
        Op::St(4, 31, 0),
        Op::Call(1),
        Op::Ret,
        Op::Illegal,
    ];
    for state_len in 0..=STATE_WORDS + 3 {
        for op in ops {
            for technique in TECHNIQUES {
                for (n, pc) in [(6, 3), (4, 3), (6, 6), (6, 9), (6, u64::MAX), (0, 3), (10, 3), (2049, 3)] {
                    let mut memory = [7u64; 9];
                    memory[3] = reference::encode(op);
                    let mut both = Both::new(any_state(&mut r, 9, pc), &memory, state_len);
                    let number = number_for(&mut r, technique);
                    both.step(technique, number, n);
                    both.compare("a step with this state");
                    for (limit, count_len) in [(0, 1), (1, 2), (5, 3), (5, 0), (65_535, 1)] {
                        both.run(technique, number, n, limit, count_len);
                        both.compare("a run with this state");
                    }
                    for register in [0, 2, 3, 31, 32, 33, 34, 161, 162, u64::MAX] {
                        both.write_register(register, r.word());
                        both.compare("a register write with this state");
                    }
                }
            }
        }
    }
}

/// each instruction with each register in each of its fields: r31 stands beside the pc, which stands beside the depth
#[test]
fn every_register_in_every_field() {
    use reference::Op;
    let mut r = Random::new(18);
    for x in 0..32 {
        for y in 0..32 {
            let z = r.below(32) as u8;
            let ops = [
                Op::Add(x, y, z),
                Op::Add(z, x, y),
                Op::Addi(x, y, 5),
                Op::Movi(x, 5),
                Op::Bgt(x, y, 5),
                Op::Jmp(x),
                Op::Ld(x, y, 1),
                Op::St(x, y, 1),
            ];
            for op in ops {
                for technique in TECHNIQUES {
                    let mut memory = [7u64; 9];
                    memory[3] = reference::encode(op);
                    let mut both = Both::new(amid(&mut r, 9, 3, 5), &memory, STATE_WORDS);
                    let number = number_for(&mut r, technique);
                    both.step(technique, number, 6);
                    both.compare("a step with these registers");
                }
            }
        }
    }
}

/// lists of calls over accepted programs: each call goes on from what the one before left
#[test]
fn lists_of_calls() {
    let mut r = Random::new(15);
    let mut calls = 0;
    let mut out_of_code = 0;
    for round in 0..8_000usize {
        let technique = TECHNIQUES[round % 2];
        let n = 1 + r.below(60);
        let d = r.below(20);
        let program = accepted(&mut r, technique, n, d);
        assert_eq!(reference::checkers::check(technique, &program.memory, n, &program.edges), (0, 0, 0));
        let fresh = State::fresh(registers(&mut r, n + d));
        let mut both = Both::new(fresh, &program.memory, STATE_WORDS);
        for _ in 0..1 + r.below(40) {
            calls += 1;
            let number = number_for(&mut r, technique);
            match r.below(6) {
                0 | 1 => {
                    let stop = both.step(technique, number, n);
                    out_of_code += only_at_a_jmp(stop, &both.state, &program.memory);
                }
                2 => {
                    let limit = if r.chance(20) { r.below(65_536) as u16 } else { r.below(50) as u16 };
                    let stop = both.run(technique, number, n, limit, 1);
                    out_of_code += only_at_a_jmp(stop, &both.state, &program.memory);
                }
                3 => {
                    let address = if r.chance(4) { r.odd_number() } else { (n + r.below(d + 1)) as u64 };
                    let word = r.odd_number();
                    both.write_data(n, address, word);
                }
                4 => {
                    let register = if r.chance(4) { r.odd_number() } else { 3 + r.below(29) as u64 };
                    let word = r.below(n + d + 1) as u64;
                    both.write_register(register, word);
                }
                _ => {
                    let pc_before = both.state[32];
                    both.run(technique, number, n, 0, 1);
                    assert_eq!(both.state[32], pc_before);
                }
            }
            both.compare("a call of a list");
        }
        // what is proved of every accepted program: the code words stay as they were
        assert_eq!(both.memory[..n], program.memory[..n]);
    }
    assert!(calls >= 100_000, "{calls} calls");
    assert!(out_of_code > 0, "no jmp led out of code");
}

/// what is proved of every accepted program: where stop 4 is met, a jmp stands at the pc. How often that was seen, 0 or 1
fn only_at_a_jmp(stop: u32, state: &[u64], checked: &[u64]) -> usize {
    if stop != 4 {
        return 0;
    }
    let word = reference::decode(checked[state[32] as usize]);
    assert!(matches!(word, reference::Op::Jmp(_)), "stop 4 at {word:?}");
    1
}

/// random words from any pc: the lists that no check accepts
#[test]
fn lists_over_random_words() {
    let mut r = Random::new(16);
    for round in 0..20_000usize {
        let technique = TECHNIQUES[round % 2];
        let len = 1 + r.below(40);
        let n = 1 + r.below(len);
        let memory: Vec<u64> = (0..len).map(|_| r.instruction_word()).collect();
        let pc = pc(&mut r, n);
        let mut both = Both::new(any_state(&mut r, len, pc), &memory, STATE_WORDS);
        for _ in 0..8 {
            let number = number_for(&mut r, technique);
            both.run(technique, number, n, r.below(100) as u16, 1);
            let (register, word) = (r.below(34) as u64, r.below(len) as u64);
            both.write_register(register, word);
            let (address, word) = (r.below(len + 1) as u64, r.instruction_word());
            both.write_data(n, address, word);
            both.compare("a call on random words");
        }
    }
}

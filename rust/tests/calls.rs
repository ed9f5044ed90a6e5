//! Calls that return home (document 02, K8): what a call and a ret change and what they leave, their stops in their order, a depth
//! above 128, and that in an accepted program every ret goes to the word after the latest call not yet returned from, whatever the
//! bus writes. What is expected is worked out here; tests/steps.rs holds the same calls against the reference.
#[path = "../reference/mod.rs"]
mod reference;
mod common;

use common::{accepted, library, number_of, Random};
use post_guard::{raw, run, step, Ending, Program, Ran, Refusal, State, Step, Stop, Verdict};
use reference::{decode, encode, is_successor, Op, Technique, TECHNIQUES};

const FULL: u32 = 256 + 5;
const EMPTY: u32 = 256 + 6;
const TOO_DEEP: [u64; 6] = [129, 130, 255, 256, 1 << 32, u64::MAX];

/// the state as it is lent
fn words_of(state: &State) -> Vec<u64> {
    [&state.registers[..], &[state.pc, state.depth], &state.stack].concat()
}

/// A state with this pc and this depth; registers and stack hold any words.
fn some_state(r: &mut Random, pc: u64, depth: u64) -> State {
    State { registers: std::array::from_fn(|_| r.word()), pc, depth, stack: std::array::from_fn(|_| r.word()) }
}

/// The number of a step, and the state after it. The wrapper gives the same, and memory is as it was.
fn stepped(technique: Technique, before: &State, memory: &[u64], n: usize) -> (u32, State) {
    let (mut words, mut lent) = (words_of(before), memory.to_vec());
    let answer = raw::step(number_of(technique), &mut words, &mut lent, n);
    let mut after = *before;
    let told = match step(library(technique), &mut after, &mut lent, n) {
        Ok(Step::Made) => 0,
        Ok(Step::Stopped(stop @ (Stop::Full | Stop::Empty))) => 256 + stop.number(),
        Ok(Step::Stopped(stop)) => stop.number(),
        Err(refusal) => refusal.number(),
    };
    assert_eq!((told, words_of(&after)), (answer, words));
    assert_eq!(lent, memory);
    (answer, after)
}

/// "call puts down pc+1 and goes to w. ret goes to the latest address put down and lowers the depth by one. Stack places not written
/// by a call keep their values." And "Stop 5, stack full, and stop 6, stack empty, come after stop 2 and before 4".
#[test]
fn calls_and_rets_and_their_stops() {
    let mut r = Random::new(101);
    let mut seen = std::collections::BTreeMap::new();
    let (n, len) = (6u64, 9u64);
    let goals = [0, 3, n - 1, n, n + 1, len - 1, len, 2048, u32::MAX.into(), 1 << 32, u64::MAX];
    for technique in TECHNIQUES {
        let plain = technique == Technique::Plain;
        for pc in [0, 3, n - 1, n, len - 1, len] {
            for depth in [0, 1, 2, 64, 126, 127, 128] {
                for goal in goals {
                    for op in [Op::Call(goal as u32), Op::Ret] {
                        if op == Op::Call(goal as u32) && goal > u32::MAX.into() {
                            continue;
                        }
                        let mut state = some_state(&mut r, pc, depth);
                        if op == Op::Ret && depth > 0 {
                            state.stack[depth as usize - 1] = goal;
                        }
                        let mut memory: Vec<u64> = (0..len).map(|_| r.word()).collect();
                        if pc < len {
                            memory[pc as usize] = encode(op);
                        }
                        let (answer, after) = stepped(technique, &state, &memory, n as usize);
                        let expected = if pc >= if plain { n } else { len } {
                            1
                        } else if op == Op::Ret && depth == 0 {
                            EMPTY
                        } else if op != Op::Ret && depth == 128 {
                            FULL
                        } else if plain && goal >= n {
                            4
                        } else {
                            0
                        };
                        assert_eq!(answer, expected, "{op:?} at {pc}, depth {depth}, {technique:?}");
                        let mut left = state;
                        if answer == 0 {
                            left.pc = goal;
                            if op == Op::Ret {
                                left.depth -= 1;
                            } else {
                                left.stack[depth as usize] = pc + 1;
                                left.depth += 1;
                            }
                        }
                        assert_eq!(after, left, "{op:?} at {pc}, depth {depth}, {technique:?}");
                        *seen.entry((plain, op == Op::Ret, answer)).or_insert(0) += 1;

                        // no exact form of it is illegal, and that comes first
                        if pc < if plain { n } else { len } {
                            memory[pc as usize] |= 1 << (32 + r.below(24));
                            assert_eq!(stepped(technique, &state, &memory, n as usize), (2, state));
                        }
                    }
                }
            }
        }
    }
    println!("plain, ret, answer: {seen:?}");
    for (ret, stop) in [(false, FULL), (true, EMPTY)] {
        assert!([0, 1, 4, stop].iter().all(|&answer| seen.contains_key(&(true, ret, answer))), "{seen:?}");
        assert!([0, 1, stop].iter().all(|&answer| seen.contains_key(&(false, ret, answer))), "{seen:?}");
    }
}

/// "a state handed over with a depth above 128 is refused under 6": before every stop, at limit 0 too, with count 0; in the bus
/// write before 17. Only a place too short comes before it. Nothing is changed.
#[test]
fn a_depth_above_128_is_refused_under_6() {
    let mut r = Random::new(102);
    let ops = [Op::Movi(3, 1), Op::Jd(9), Op::Ld(3, 4, 0), Op::Call(1), Op::Ret, Op::Illegal];
    for depth in TOO_DEEP {
        for op in ops {
            for technique in TECHNIQUES {
                for (n, pc) in [(6, 3), (6, 6), (6, u64::MAX), (0, 3), (10, 3)] {
                    let state = some_state(&mut r, pc, depth);
                    let memory = [encode(op); 9];
                    assert_eq!(stepped(technique, &state, &memory, n), (6, state));
                    for limit in [0, 1, 100, 65_535] {
                        let (mut after, mut lent) = (state, memory);
                        assert_eq!(run(library(technique), &mut after, &mut lent, n, limit), Err(Refusal::Shape));
                        assert_eq!((after, lent), (state, memory));
                        let (mut words, mut count) = (words_of(&state), [7]);
                        let answer = raw::run(number_of(technique), &mut words, &mut lent, n, limit, &mut count);
                        assert_eq!((answer, count, words), (6, [0], words_of(&state)));
                    }
                }
            }
        }
        for register in (0..34).chain([161, 162, u64::MAX]) {
            let state = some_state(&mut r, 0, depth);
            let mut after = state;
            assert_eq!(after.write_register(register, 7), Err(Refusal::Shape));
            assert_eq!(after, state);
            let mut words = words_of(&state);
            assert_eq!(raw::write_register(&mut words[..161], register, 7), 5);
            assert_eq!(words, words_of(&state));
        }
        assert_eq!(some_state(&mut r, 0, depth).pending().len(), 128);
    }
    for depth in [0, 1, 127, 128] {
        let mut state = some_state(&mut r, 0, depth);
        assert_eq!((state.write_register(5, 7), state.write_register(2, 7)), (Ok(()), Err(Refusal::NotRegister)));
        assert_eq!(state.pending(), &state.stack[..depth as usize]);
    }
}

/// No word but a call and a ret changes the depth or a place of the stack, and no bus write that or the pc.
#[test]
fn nothing_else_reaches_the_stack() {
    let mut r = Random::new(103);
    for round in 0..100_000usize {
        let technique = TECHNIQUES[round % 2];
        let len = 1 + r.below(20);
        let n = 1 + r.below(len);
        let mut memory: Vec<u64> = (0..len).map(|_| r.instruction_word()).collect();
        let (pc, depth) = (r.below(n), r.below(129) as u64);
        let mut state = some_state(&mut r, pc as u64, depth);
        state.registers.iter_mut().for_each(|register| *register %= 2 * len as u64);
        let before = state;
        let op = decode(memory[pc]);
        step(library(technique), &mut state, &mut memory, n).unwrap();
        if !matches!(op, Op::Call(_) | Op::Ret) {
            assert_eq!((state.depth, state.stack), (before.depth, before.stack), "{op:?}");
        }
        let before = state;
        for _ in 0..8 {
            let _ = state.write_register(r.below(170) as u64, r.word());
            let _ = post_guard::write_data(&mut memory, n, r.below(len + 170) as u64, r.word());
        }
        assert_eq!((state.pc, state.depth, state.stack), (before.pc, before.depth, before.stack));
    }
}

/// A routine that calls itself as often as r4 says, and returns as often: 128 calls are made and no more, and the last place is used.
#[test]
fn calls_in_calls_up_to_128() {
    let code = [
        Op::Call(2),
        Op::Illegal,
        Op::Bgt(3, 4, 6), // 2: deep enough?
        Op::Addi(3, 3, 1),
        Op::Call(2), // 4
        Op::Ret,
        Op::Ret, // 6
        Op::Illegal,
    ];
    let program = Program { memory: code.map(encode).to_vec(), code_words: 8, edges: Vec::new() };
    for technique in TECHNIQUES {
        assert_eq!(program.check(library(technique)), Verdict::Accepted);
        for deeper in [0, 1, 50, 125, 126, 127, 128, 1 << 40] {
            let mut state = State::fresh([0; 32]);
            state.registers[4] = deeper;
            let mut memory = program.memory.clone();
            let ran = run(library(technique), &mut state, &mut memory, 8, 65_535).unwrap();
            if deeper <= 126 {
                // the first call, three words for each further one and one for each return, the last test and its ret
                let count = 1 + 4 * (deeper as u16 + 1) + 2;
                assert_eq!(ran, Ran { ending: Ending::Stopped(Stop::Illegal), count });
                assert_eq!((state.pc, state.depth, state.registers[3]), (1, 0, deeper + 1));
            } else {
                assert_eq!(ran.ending, Ending::Stopped(Stop::Full));
                assert_eq!((state.pc, state.pending()), (4, &[&[1][..], &[5; 127]].concat()[..]));
            }
            let calls = deeper.min(126) as usize + 1;
            assert_eq!((state.stack[0], &state.stack[1..=calls]), (1, &vec![5; calls][..]));
            assert!(state.stack[calls + 1..].iter().all(|&place| place == 0));
        }
    }
}

/// What happened in runs of accepted programs.
#[derive(Default, Debug)]
struct Walks {
    made: usize,
    returns: usize,
    deepest: usize,
    /// how often each stop was met
    stops: [usize; 7],
}

impl Walks {
    /// Steps an accepted program from a fresh state, with bus writes between any two steps, and keeps a list of its own of the words
    /// after the calls that have not come back, from the words that the pc was at: every ret goes to the last of them, every step
    /// made is to a successor, and a step that cannot be made changes nothing.
    fn walk(&mut self, r: &mut Random, technique: Technique, program: &Program, steps: usize) {
        let n = program.code_words;
        let code = &program.memory[..n];
        let mut memory = program.memory.clone();
        let mut state = fresh(r, program);
        let mut called = Vec::new();
        for _ in 0..steps {
            self.write(r, program, &mut state, &mut memory);
            let (before, memory_before) = (state, memory.clone());
            let op = decode(code[before.pc as usize]);
            match step(library(technique), &mut state, &mut memory, n).unwrap() {
                Step::Made => {
                    assert!(is_successor(code, &program.edges, before.pc, state.pc), "{op:?}: {} to {}", before.pc, state.pc);
                    match op {
                        Op::Call(_) => called.push(before.pc + 1),
                        Op::Ret => {
                            assert_eq!(Some(state.pc), called.pop(), "the ret at {}", before.pc);
                            self.returns += 1;
                        }
                        _ => {}
                    }
                    assert_eq!(state.pending(), called);
                    self.made += 1;
                    self.deepest = self.deepest.max(called.len());
                }
                Step::Stopped(stop) => {
                    assert!(may_stop(technique, op, stop), "{stop:?} of {op:?} at {}, {technique:?}", before.pc);
                    assert!(state == before && memory == memory_before, "{stop:?} changes something");
                    self.stops[stop.number() as usize] += 1;
                    // the bus may mend a load, a store or a jmp
                    if matches!(stop, Stop::Illegal | Stop::Full | Stop::Empty) || r.chance(3) {
                        state = fresh(r, program);
                        called.clear();
                    }
                }
            }
            assert_eq!(memory[..n], *code);
        }
    }

    /// Up to three bus writes to registers and data, often of an address that a ret or a jmp may go to; and one past both, which is
    /// refused.
    fn write(&self, r: &mut Random, program: &Program, state: &mut State, memory: &mut [u64]) {
        let n = program.code_words;
        for _ in 0..r.below(4) {
            let word = some_word(r, program);
            assert_eq!(state.write_register(3 + r.below(29) as u64, word), Ok(()));
            if memory.len() > n {
                let (address, word) = (n + r.below(memory.len() - n), some_word(r, program));
                assert_eq!(post_guard::write_data(memory, n, address as u64, word), Ok(()));
            }
        }
        assert_eq!(state.write_register(32 + r.below(130) as u64, 7), Err(Refusal::NotRegister));
    }
}

/// a fresh state, whatever its registers
fn fresh(r: &mut Random, program: &Program) -> State {
    State::fresh(std::array::from_fn(|_| some_word(r, program)))
}

/// an address of code or data, most often a destination or the word after a call; or any word
fn some_word(r: &mut Random, program: &Program) -> u64 {
    let at = r.below(program.memory.len());
    match r.below(4) {
        0 if !program.edges.is_empty() => program.edges[r.below(program.edges.len() / 2) * 2 + 1].into(),
        1 => {
            let after_call = (at..program.code_words).find(|&a| matches!(decode(program.memory[a]), Op::Call(_)));
            after_call.map_or(at, |call| call + 1) as u64
        }
        2 if r.chance(4) => r.odd_number(),
        _ => at as u64,
    }
}

/// the stops that an accepted program may meet
fn may_stop(technique: Technique, op: Op, stop: Stop) -> bool {
    match stop {
        Stop::Fetch => false,
        Stop::Illegal => op == Op::Illegal,
        Stop::Access => matches!(op, Op::Ld(..)) || technique == Technique::Plain && matches!(op, Op::St(..)),
        Stop::Next => technique == Technique::Plain && matches!(op, Op::Jmp(_)),
        Stop::Full => matches!(op, Op::Call(_)),
        Stop::Empty => op == Op::Ret,
    }
}

/// Puts calls and rets in place of illegal and of some other words, wherever the program is accepted with them.
fn put_calls_and_rets(r: &mut Random, technique: Technique, program: &mut Program) {
    let n = program.code_words;
    for a in 0..n - 1 {
        let word = program.memory[a];
        if decode(word) == Op::Illegal || r.chance(5) {
            program.memory[a] = encode(if r.chance(3) { Op::Ret } else { Op::Call(r.below(n) as u32) });
            if program.check(library(technique)) != Verdict::Accepted {
                program.memory[a] = word;
            }
        }
    }
}

/// "For an accepted program every ret made goes to the word after the latest call not yet returned from, whatever the bus writes."
#[test]
fn every_ret_of_an_accepted_program_goes_home() {
    let mut r = Random::new(104);
    for technique in TECHNIQUES {
        let mut walks = Walks::default();
        for _ in 0..6_000 {
            let (n, d) = (1 + r.below(80), r.below(6));
            let p = accepted(&mut r, technique, n, d);
            let mut program = Program { memory: p.memory, code_words: p.n, edges: p.edges };
            put_calls_and_rets(&mut r, technique, &mut program);
            assert_eq!(program.check(library(technique)), Verdict::Accepted);
            walks.walk(&mut r, technique, &program, 300);
        }
        println!("{technique:?}: {walks:?}");
        assert!(walks.made > 500_000 && walks.returns > 5_000 && walks.deepest == 128, "{walks:?}");
        let met = if technique == Technique::Plain { &[2, 3, 4, 5, 6][..] } else { &[2, 3, 5, 6] };
        assert!(met.iter().all(|&stop| walks.stops[stop] > 0), "{walks:?}");
    }
}

fn example(name: &str) -> Program {
    let path = format!("{}/../examples/{name}.parcel", env!("CARGO_MANIFEST_DIR"));
    let parcel = std::fs::read(&path).unwrap_or_else(|error| panic!("{path}: {error}"));
    let program = Program::from_parcel(&parcel).unwrap();
    assert_eq!(program.check(library(Technique::Plain)), Verdict::Accepted, "{name}");
    program
}

/// A run of an example, and what came of it.
struct Day {
    stop: Stop,
    /// the addresses that it went through
    path: Vec<u64>,
    bill: u64,
}

/// Runs an example from a fresh state with these readings; after so many steps the bus writes the word into the register.
fn day(example: &Program, readings: [u64; 2], steps: usize, register: u64, word: u64) -> Day {
    let n = example.code_words;
    let mut memory = example.memory.clone();
    memory[n..n + 2].copy_from_slice(&readings);
    let mut state = State::fresh([0; 32]);
    let mut path = vec![0];
    loop {
        if path.len() == steps + 1 {
            assert_eq!(state.write_register(register, word), Ok(()));
        }
        let from = state.pc;
        match step(library(Technique::Plain), &mut state, &mut memory, n).unwrap() {
            Step::Made => assert!(is_successor(&example.memory[..n], &example.edges, from, state.pc), "{from} to {}", state.pc),
            Step::Stopped(stop) => return Day { stop, path, bill: memory[n + 2] },
        }
        path.push(state.pc);
        assert!(path.len() < 100, "{path:?}");
    }
}

/// The two examples bill alike as long as the bus leaves their registers alone.
#[test]
fn shared_routines_bill_alike() {
    let readings = [([1200, 900], 3300), ([4094, 1], 8189), ([4095, 900], 900), ([1200, 4095], 2400), ([5000, 5000], 0)];
    for name in ["shared-routine", "shared-return-by-jump"] {
        for (readings, bill) in readings {
            let day = day(&example(name), readings, 0, 31, 7);
            assert_eq!((day.stop, day.bill), (Stop::Illegal, bill), "{name}, {readings:?}");
        }
    }
}

/// Written before the guard reads it, the register with the return address sends the jmp to the other caller's place: every step is
/// in the graph, and the bill is wrong.
#[test]
fn a_return_by_jump_goes_to_the_other_caller() {
    let example = example("shared-return-by-jump");
    // the day's reading comes to the night's place
    let first = day(&example, [1200, 900], 4, 9, 10);
    assert_eq!(first.path, [0, 1, 2, 3, 14, 15, 16, 17, 18, 19, 20, 21, 10, 11, 12, 13, 24]);
    assert_eq!((first.stop, first.bill), (Stop::Illegal, 1200), "it counts once, and the night's is lost");
    // the night's reading comes to the day's place
    let second = day(&example, [1200, 900], 18, 9, 4);
    let once = [14, 15, 16, 17, 18, 19, 20, 21];
    let expected = [&[0, 1, 2, 3][..], &once, &[4, 5, 6, 7, 8, 9], &once, &[4, 5, 6, 7, 8, 9], &once, &[10, 11, 12, 13, 24]];
    assert_eq!(second.path, expected.concat());
    assert_eq!((second.stop, second.bill), (Stop::Illegal, 2 * 1200 + 2 * 900 + 900), "it counts twice, and is read again");
}

/// Whenever the bus writes and whatever it writes into one of the 29 registers, the routine comes home to the call that it was called
/// by; r9 matters to nobody.
#[test]
fn a_ret_comes_home_to_its_caller() {
    let example = example("shared-routine");
    let undisturbed = [0, 1, 2, 10, 11, 12, 3, 4, 5, 6, 10, 11, 12, 7, 8, 9, 15];
    let mut clipped = 0;
    for steps in 0..undisturbed.len() {
        for register in 3..32 {
            for word in (0..20).chain([4094, 4095, u64::MAX]) {
                let Day { stop, path, bill } = day(&example, [1200, 900], steps, register, word);
                let told = || format!("r{register} becomes {word} after {steps} steps: {stop:?}, {path:?}");
                let calls = path.windows(2).enumerate().filter(|(_, pair)| pair[1] == 10);
                for (at, pair) in calls {
                    let home = path[at + 1..].iter().find(|pc| !(10..15).contains(*pc));
                    assert_eq!(home, Some(&(pair[0] + 1)), "{}", told());
                }
                assert!(matches!(stop, Stop::Illegal | Stop::Access), "{}", told());
                clipped += usize::from(path.contains(&14));
                if register == 9 {
                    assert_eq!((stop, bill, &path[..]), (Stop::Illegal, 3300, &undisturbed[..]));
                }
            }
        }
    }
    assert!(clipped > 0);
}

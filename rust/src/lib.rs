//! Post guard for Rust: the checker, the steppers, the bus writes, the parcels and the figures that the Rattle sources of this
//! repository prove, behind safe functions and Rust's own types.
//!
//! A gateway's day: read a parcel, check it, run it with bus writes in between.
//!
//! ```
//! use post_guard::{check, encode, run, Ending, Instruction::*, Program, State, Stop, Technique, Verdict};
//!
//! let code = [
//!     Movi { rd: 5, w: 7 },
//!     Addi { rd: 0, rs: 5, w: 0 },
//!     Ld { rd: 1, rs: 0, w: 0 },
//!     Movi { rd: 2, w: 7 },
//!     Bgt { rs: 1, rt: 2, w: 8 },
//!     Bgt { rs: 2, rt: 1, w: 8 },
//!     Jmp { rs: 0 },
//!     Label { w: 7 },
//!     Illegal,
//! ];
//! let mut memory: Vec<u64> = code.iter().map(|&i| encode(i)).collect();
//! assert_eq!(check(Technique::Plain, &memory, 9, &[6, 7]), Verdict::Accepted);
//!
//! let mut state = State::fresh([0; 32]);
//! let ran = run(Technique::Plain, &mut state, &mut memory, 9, 100).unwrap();
//! assert_eq!((ran.ending, ran.count, state.pc), (Ending::Stopped(Stop::Illegal), 8, 8));
//!
//! let program = Program { memory, code_words: 9, edges: vec![6, 7] };
//! let parcel = program.to_parcel().unwrap();
//! assert_eq!(parcel.len(), 88);
//! assert_eq!(Program::from_parcel(&parcel), Ok(program));
//! ```
//!
//! A routine that several places share is called, and returns to each of them whatever the bus writes: [`State`] shows how.
//!
//! A site owner's question: how tightly is a program held? [`report`] and [`report_parcel`] give its [`Figures`], and [`Totals`]
//! add up the freedoms of many parcels.
//!
//! Bigger controllers share a second edition of the parcel, whose edges have addresses of 32 bits: [`WideProgram`] reads, writes
//! and checks it, and [`widened`] and [`narrowed`] convert. Everything else is for the first edition, with 16 bits.
//!
//! An installer need not write labels and guards: [`Program::with_guards`] puts them into bare code, and gives a map from each old
//! address to its new one.
//!
//! A manager's question: how can a routine be reached? [`Program::shortest_path`] gives a path with the fewest steps, or says that
//! there is none.
//!
//! The functions are thin, and `#[inline]`: a call costs what the library's call costs.
//!
//! No function here panics, and none has a precondition: any numbers may be passed. The proved contract of each call is in
//! `crates/capi/src/lib.rt`; for figures and totals in `crates/owner/src/lib.rt`, for the second edition and the converters in
//! `crates/wide/src/lib.rt`, for guards that are put in in `crates/installer/src/lib.rt`, for shortest paths in
//! `crates/manager/src/lib.rt`. The only unsafe code, in `calls.rs`, hands slices over to them. Instructions, steps, what a check
//! asks, the parcel and every number are explained in docs/REFERENCE.md of the repository.

mod calls;
mod editions;
mod paths;
mod rewrite;

pub use editions::{
    check_wide, narrow, narrowed, read_wide_parcel, widen, widened, write_wide_parcel, WideProgram, MAX_WIDE_PARCEL,
};
pub use paths::{shortest_path, shortest_path_into};
pub use rewrite::{rewrite, Guarded, MAX_CODE};

use std::fmt;

/// How a program is held to its graph, and with it which steps it makes.
#[derive(Clone, Copy, PartialEq, Eq, Hash, Debug)]
pub enum Technique {
    /// Steps fetch from code and store into data only.
    Plain,
    /// Relaxed steps, which may fetch from data and store into code; the program's own guards prevent it.
    MemoryGuards,
}

impl Technique {
    #[inline]
    fn number(self) -> u8 {
        match self {
            Technique::Plain => 0,
            Technique::MemoryGuards => 1,
        }
    }
}

/// An instruction. Registers are 0 to 31; one above is written as illegal.
#[derive(Clone, Copy, PartialEq, Eq, Hash, Debug)]
pub enum Instruction {
    Label { w: u32 },
    Add { rd: u8, rs: u8, rt: u8 },
    Addi { rd: u8, rs: u8, w: u32 },
    Movi { rd: u8, w: u32 },
    Bgt { rs: u8, rt: u8, w: u32 },
    Jd { w: u32 },
    Jmp { rs: u8 },
    Ld { rd: u8, rs: u8, w: u32 },
    St { rd: u8, rs: u8, w: u32 },
    Call { w: u32 },
    Ret,
    Illegal,
}

/// The instruction that a word is.
///
/// ```
/// use post_guard::{decode, Instruction};
/// assert_eq!(decode(0x0302_0000_0000_0007), Instruction::Movi { rd: 2, w: 7 });
/// assert_eq!(decode(0x0320_0000_0000_0007), Instruction::Illegal); // register 32
/// ```
#[inline]
pub fn decode(word: u64) -> Instruction {
    let mut fields = [0u32; 5];
    calls::decode(word, &mut fields);
    let [opcode, a, b, c, w] = fields;
    let (a, b, c) = (a as u8, b as u8, c as u8);
    match opcode {
        0 => Instruction::Label { w },
        1 => Instruction::Add { rd: a, rs: b, rt: c },
        2 => Instruction::Addi { rd: a, rs: b, w },
        3 => Instruction::Movi { rd: a, w },
        4 => Instruction::Bgt { rs: a, rt: b, w },
        5 => Instruction::Jd { w },
        6 => Instruction::Jmp { rs: a },
        7 => Instruction::Ld { rd: a, rs: b, w },
        8 => Instruction::St { rd: a, rs: b, w },
        9 => Instruction::Call { w },
        10 => Instruction::Ret,
        _ => Instruction::Illegal,
    }
}

/// The word of an instruction: `decode` gives the instruction back, unless a register is above 31.
///
/// ```
/// use post_guard::{encode, Instruction};
/// assert_eq!(encode(Instruction::Label { w: 7 }), 7);
/// assert_eq!(encode(Instruction::Jmp { rs: 32 }), u64::MAX);
/// ```
#[inline]
pub fn encode(instruction: Instruction) -> u64 {
    let (opcode, a, b, c, w) = match instruction {
        Instruction::Label { w } => (0, 0, 0, 0, w),
        Instruction::Add { rd, rs, rt } => (1, rd, rs, rt, 0),
        Instruction::Addi { rd, rs, w } => (2, rd, rs, 0, w),
        Instruction::Movi { rd, w } => (3, rd, 0, 0, w),
        Instruction::Bgt { rs, rt, w } => (4, rs, rt, 0, w),
        Instruction::Jd { w } => (5, 0, 0, 0, w),
        Instruction::Jmp { rs } => (6, rs, 0, 0, 0),
        Instruction::Ld { rd, rs, w } => (7, rd, rs, 0, w),
        Instruction::St { rd, rs, w } => (8, rd, rs, 0, w),
        Instruction::Call { w } => (9, 0, 0, 0, w),
        Instruction::Ret => (10, 0, 0, 0, 0),
        Instruction::Illegal => (255, 0, 0, 0, 0),
    };
    calls::encode(opcode, a, b, c, w)
}

/// Why a call is turned away, by the number of docs/REFERENCE.md, which says what to do about it.
#[derive(Clone, Copy, PartialEq, Eq, Hash, Debug)]
pub enum Refusal {
    CountMissing = 1,
    CountLimit = 2,
    ItemsMissing = 3,
    TrailingBytes = 4,
    PlaceTooShort = 5,
    Shape = 6,
    EdgeFromNoJump = 7,
    TargetOutsideCode = 8,
    JumpWithoutEdge = 9,
    TargetSetsOverlap = 10,
    LastWordLegal = 11,
    LabelCondition = 12,
    StoreUnguarded = 13,
    JumpUnguarded = 14,
    BranchTarget = 15,
    NotData = 16,
    NotRegister = 17,
    EdgeNotRising = 18,
    EdgeTooWide = 19,
    LabelOrReserved = 20,
    BranchOut = 21,
    ResultTooLong = 22,
    OutsideCode = 23,
}

impl Refusal {
    /// The number of docs/REFERENCE.md, 1 to 23.
    #[inline]
    pub fn number(self) -> u32 {
        self as u32
    }

    /// Every refusal, in the sequence of the numbers.
    pub const ALL: [Refusal; 23] = [
        Refusal::CountMissing,
        Refusal::CountLimit,
        Refusal::ItemsMissing,
        Refusal::TrailingBytes,
        Refusal::PlaceTooShort,
        Refusal::Shape,
        Refusal::EdgeFromNoJump,
        Refusal::TargetOutsideCode,
        Refusal::JumpWithoutEdge,
        Refusal::TargetSetsOverlap,
        Refusal::LastWordLegal,
        Refusal::LabelCondition,
        Refusal::StoreUnguarded,
        Refusal::JumpUnguarded,
        Refusal::BranchTarget,
        Refusal::NotData,
        Refusal::NotRegister,
        Refusal::EdgeNotRising,
        Refusal::EdgeTooWide,
        Refusal::LabelOrReserved,
        Refusal::BranchOut,
        Refusal::ResultTooLong,
        Refusal::OutsideCode,
    ];

    /// The refusal of a number that the library answers: 1 to 23.
    #[inline]
    fn of(number: u32) -> Refusal {
        Refusal::ALL[(number as usize).clamp(1, Refusal::ALL.len()) - 1]
    }
}

impl fmt::Display for Refusal {
    fn fmt(&self, f: &mut fmt::Formatter) -> fmt::Result {
        let words = match self {
            Refusal::CountMissing => "fewer than four bytes are left for a count",
            Refusal::CountLimit => "a count breaks its section's limits",
            Refusal::ItemsMissing => "the bytes for a section's items are not all there",
            Refusal::TrailingBytes => "bytes follow the third section",
            Refusal::PlaceTooShort => "a place is too short",
            Refusal::Shape => "n, the data size, the count of edges or a state's depth is outside its limits",
            Refusal::EdgeFromNoJump => "an edge starts where no jmp of the code is",
            Refusal::TargetOutsideCode => "an edge's target is outside code",
            Refusal::JumpWithoutEdge => "a jmp has no edge",
            Refusal::TargetSetsOverlap => "a jump's target set meets another's and differs from it",
            Refusal::LastWordLegal => "the last code word is not illegal",
            Refusal::LabelCondition => "the label condition fails",
            Refusal::StoreUnguarded => "a st lacks its form or sequence",
            Refusal::JumpUnguarded => "a jmp lacks its form or sequence",
            Refusal::BranchTarget => "a bgt, jd or call leads into a guard or out of code",
            Refusal::NotData => "a bus write names an address outside data",
            Refusal::NotRegister => "a bus write names a register outside r3 to r31",
            Refusal::EdgeNotRising => "an edge is not above the one before it",
            Refusal::EdgeTooWide => "an edge's address is above 65,535",
            Refusal::LabelOrReserved => "bare code has a label, or a word that names r0, r1 or r2",
            Refusal::BranchOut => "a bgt, jd or call leads out of the bare code",
            Refusal::ResultTooLong => "with its guards the code has more than 2,048 words",
            Refusal::OutsideCode => "the address that a path is asked for is outside code",
        };
        write!(f, "{} ({})", words, self.number())
    }
}

impl std::error::Error for Refusal {}

/// Why a step cannot be made, by the number of docs/REFERENCE.md. The first that applies is told, in the sequence 1, 2, 3, 5, 6, 4.
#[derive(Clone, Copy, PartialEq, Eq, Hash, Debug)]
pub enum Stop {
    /// The pc is outside code, or, with memory guards, outside memory.
    Fetch = 1,
    /// The word at the pc is illegal.
    Illegal = 2,
    /// A load outside memory, or a store outside data, or, with memory guards, outside memory. The address is the exact sum of the
    /// register and w: one of 2^64 or more is outside.
    Access = 3,
    /// Plain only: the next pc is outside code. An accepted program meets it at a jmp only.
    Next = 4,
    /// A call where 128 return addresses are on the stack.
    Full = 5,
    /// A ret where the stack is empty.
    Empty = 6,
}

impl Stop {
    /// The number of docs/REFERENCE.md, 1 to 6.
    #[inline]
    pub fn number(self) -> u32 {
        self as u32
    }

    /// The stop of a number that the library answers. It answers 256 more for the last two, since 5 and 6 are refusals.
    #[inline]
    fn of(answer: u32) -> Option<Stop> {
        match answer {
            1 => Some(Stop::Fetch),
            2 => Some(Stop::Illegal),
            3 => Some(Stop::Access),
            4 => Some(Stop::Next),
            261 => Some(Stop::Full),
            262 => Some(Stop::Empty),
            _ => None,
        }
    }
}

/// The machine's state: 32 registers, the pc, and the stack of return addresses.
///
/// A call puts the address after it into the place `stack[depth]`, and the depth goes up by one. A ret goes to the latest address
/// put down, and the depth goes down by one; the place keeps what it holds. Neither stores nor bus writes reach pc, depth and
/// stack. A state with a depth above 128 is refused with [`Refusal::Shape`].
///
/// A routine that two callers share comes home to each of them:
///
/// ```
/// use post_guard::{check, encode, step, Instruction::*, State, Step, Technique, Verdict};
///
/// let code = [
///     Call { w: 4 },
///     Movi { rd: 6, w: 1 },
///     Call { w: 4 },
///     Illegal,
///     Addi { rd: 5, rs: 5, w: 10 }, // 4: the routine
///     Ret,
///     Illegal,
/// ];
/// let mut memory = code.map(encode);
/// assert_eq!(check(Technique::Plain, &memory, 7, &[]), Verdict::Accepted);
///
/// let mut state = State::fresh([0; 32]);
/// for (pc, pending) in [(4, &[1][..]), (5, &[1]), (1, &[]), (2, &[]), (4, &[3]), (5, &[3]), (3, &[])] {
///     assert_eq!(step(Technique::Plain, &mut state, &mut memory, 7), Ok(Step::Made));
///     assert_eq!((state.pc, state.pending()), (pc, pending));
///     // no bus write reaches the stack
///     assert!(state.write_register(34, 2).is_err());
/// }
/// assert_eq!(state.registers[5], 20);
/// assert_eq!((state.depth, state.stack[0]), (0, 3)); // the place keeps what the second call put there
/// ```
///
/// A call that finds no room and a ret that finds no address are stops:
///
/// ```
/// use post_guard::{encode, run, Ending, Instruction::*, Ran, Refusal, State, Stop, Technique};
///
/// // a routine that calls itself: the 129th call finds no room
/// let mut memory = [Call { w: 0 }, Illegal].map(encode);
/// let mut state = State::fresh([0; 32]);
/// let ran = run(Technique::Plain, &mut state, &mut memory, 2, 1000).unwrap();
/// assert_eq!(ran, Ran { ending: Ending::Stopped(Stop::Full), count: 128 });
/// assert_eq!((state.pc, state.pending()), (0, &[1; 128][..]));
///
/// // 128 returns take them off again, and the next finds none
/// memory = [Ret, Jd { w: 0 }].map(encode);
/// let ran = run(Technique::Plain, &mut state, &mut memory, 2, 1000).unwrap();
/// assert_eq!((ran.ending, state.pc, state.depth), (Ending::Stopped(Stop::Empty), 0, 0));
/// assert_eq!(Stop::Empty.number(), 6);
///
/// state.depth = 129; // no such state
/// assert_eq!(run(Technique::Plain, &mut state, &mut memory, 2, 0), Err(Refusal::Shape));
/// ```
#[repr(C)]
#[derive(Clone, Copy, PartialEq, Eq, Hash, Debug)]
pub struct State {
    pub registers: [u64; 32],
    pub pc: u64,
    /// How many return addresses are on the stack, 0 to 128.
    pub depth: u64,
    /// The places of the stack: the first `depth` of them hold the return addresses, the oldest first.
    pub stack: [u64; 128],
}

impl State {
    /// A fresh state: pc 0, the stack empty and its places 0, and the registers as they are given.
    #[inline]
    pub fn fresh(registers: [u64; 32]) -> State {
        State { registers, pc: 0, depth: 0, stack: [0; 128] }
    }

    /// The return addresses that no ret has taken yet, the oldest first: all 128 places where the depth is above that.
    #[inline]
    pub fn pending(&self) -> &[u64] {
        let depth = self.depth.min(self.stack.len() as u64);
        &self.stack[..depth as usize]
    }

    /// A bus write to a register. A refusal changes nothing.
    ///
    /// ```
    /// use post_guard::{Refusal, State};
    /// let mut state = State::fresh([0; 32]);
    /// assert_eq!(state.write_register(5, 9), Ok(()));
    /// assert_eq!(state.registers[5], 9);
    /// assert_eq!(state.write_register(2, 9), Err(Refusal::NotRegister));
    /// ```
    #[inline]
    pub fn write_register(&mut self, register: u64, word: u64) -> Result<(), Refusal> {
        done(calls::write_register(self, register, word))
    }
}

/// What a step came to.
#[derive(Clone, Copy, PartialEq, Eq, Hash, Debug)]
pub enum Step {
    Made,
    Stopped(Stop),
}

/// Makes one step over n words of code and the data after them. A stop or a refusal changes nothing.
///
/// ```
/// use post_guard::{encode, step, Instruction, State, Step, Stop, Technique};
/// let store = encode(Instruction::St { rd: 4, rs: 5, w: 8 });
/// let mut memory = [store, encode(Instruction::Illegal), 1200]; // two words of code, and the bill at 2
/// let mut state = State::fresh([0; 32]);
/// state.registers[4] = u64::MAX - 5; // r4 + 8 is 2^64 + 2: that is no address, and not the bill's
/// assert_eq!(step(Technique::Plain, &mut state, &mut memory, 2), Ok(Step::Stopped(Stop::Access)));
/// assert_eq!((memory[2], state.pc), (1200, 0));
/// state.registers[4] = 2;
/// memory[0] = encode(Instruction::St { rd: 4, rs: 5, w: 0 });
/// assert_eq!(step(Technique::Plain, &mut state, &mut memory, 2), Ok(Step::Made));
/// assert_eq!((memory[2], state.pc), (0, 1));
/// ```
#[inline]
pub fn step(technique: Technique, state: &mut State, memory: &mut [u64], n: usize) -> Result<Step, Refusal> {
    match calls::step(technique.number(), state, memory, n) {
        0 => Ok(Step::Made),
        number => match Stop::of(number) {
            Some(stop) => Ok(Step::Stopped(stop)),
            None => Err(Refusal::of(number)),
        },
    }
}

/// Why a run ended.
#[derive(Clone, Copy, PartialEq, Eq, Hash, Debug)]
pub enum Ending {
    /// As many steps as the limit were made.
    Spent,
    Stopped(Stop),
}

/// What a run came to.
#[derive(Clone, Copy, PartialEq, Eq, Hash, Debug)]
pub struct Ran {
    pub ending: Ending,
    /// How many steps were made.
    pub count: u16,
}

/// Makes steps until one cannot be made or the limit is reached. A refusal changes nothing.
#[inline]
pub fn run(technique: Technique, state: &mut State, memory: &mut [u64], n: usize, limit: u16) -> Result<Ran, Refusal> {
    let mut count = [0u64; 1];
    let ending = match calls::run(technique.number(), state, memory, n, limit, &mut count) {
        0 => Ending::Spent,
        number => match Stop::of(number) {
            Some(stop) => Ending::Stopped(stop),
            None => return Err(Refusal::of(number)),
        },
    };
    Ok(Ran { ending, count: count[0] as u16 })
}

/// A bus write to a data word. A refusal changes nothing.
///
/// ```
/// use post_guard::{write_data, Refusal};
/// let mut memory = [u64::MAX, 1, 2];
/// assert_eq!(write_data(&mut memory, 1, 2, 7), Ok(()));
/// assert_eq!(memory, [u64::MAX, 1, 7]);
/// assert_eq!(write_data(&mut memory, 1, 0, 7), Err(Refusal::NotData));
/// ```
#[inline]
pub fn write_data(memory: &mut [u64], n: usize, address: u64, word: u64) -> Result<(), Refusal> {
    done(calls::write_data(memory, n, address, word))
}

/// Where a fault is.
#[derive(Clone, Copy, PartialEq, Eq, Hash, Debug)]
pub enum Place {
    /// An edge of the claim, counted from 0.
    Edge(usize),
    Address(usize),
}

/// What a check answers: accepted, or the first rule that is broken and its first faulty place.
#[derive(Clone, Copy, PartialEq, Eq, Hash, Debug)]
pub enum Verdict {
    Accepted,
    Refused(Refusal, Option<Place>),
}

impl Verdict {
    /// The verdict of a number that the library answers, with what it puts for the place.
    #[inline]
    fn of(number: u32, place: [u64; 2]) -> Verdict {
        match number {
            0 => Verdict::Accepted,
            number => {
                let Fault { refusal, place } = Fault::of(number, place);
                Verdict::Refused(refusal, place)
            }
        }
    }
}

impl fmt::Display for Verdict {
    fn fmt(&self, f: &mut fmt::Formatter) -> fmt::Result {
        match *self {
            Verdict::Accepted => write!(f, "accepted"),
            Verdict::Refused(refusal, place) => Fault { refusal, place }.fmt(f),
        }
    }
}

/// Why a program has no figures, no parcel, no guards or no answer about paths, or a parcel none in the other edition: the first rule
/// that is broken, and its first faulty place.
#[derive(Clone, Copy, PartialEq, Eq, Hash, Debug)]
pub struct Fault {
    pub refusal: Refusal,
    pub place: Option<Place>,
}

impl Fault {
    /// The fault of a number that the library answers, with what it puts for the place.
    #[inline]
    fn of(number: u32, place: [u64; 2]) -> Fault {
        let [kind, at] = place;
        let place = match kind {
            1 => Some(Place::Edge(at as usize)),
            2 => Some(Place::Address(at as usize)),
            _ => None,
        };
        Fault { refusal: Refusal::of(number), place }
    }
}

/// As `verdict` prints it: `refused 14 at 6`.
impl fmt::Display for Fault {
    fn fmt(&self, f: &mut fmt::Formatter) -> fmt::Result {
        let number = self.refusal.number();
        match self.place {
            None => write!(f, "refused {number}"),
            Some(Place::Edge(at) | Place::Address(at)) => write!(f, "refused {number} at {at}"),
        }
    }
}

impl std::error::Error for Fault {}

/// A refusal without a place.
impl From<Refusal> for Fault {
    #[inline]
    fn from(refusal: Refusal) -> Fault {
        Fault { refusal, place: None }
    }
}

/// Checks n words of code, with the data size that the memory's length gives, against the claimed edges: pairs of a jump's
/// address and a target, which must rise by jump address, then by target, without repeats ([`Program::sort_edges`]).
///
/// ```
/// use post_guard::{check, Place, Refusal, Technique, Verdict};
/// assert_eq!(check(Technique::Plain, &[u64::MAX], 1, &[]), Verdict::Accepted);
/// assert_eq!(
///     check(Technique::Plain, &[7], 1, &[]),
///     Verdict::Refused(Refusal::LastWordLegal, Some(Place::Address(0)))
/// );
/// ```
#[inline]
pub fn check(technique: Technique, memory: &[u64], n: usize, edges: &[u16]) -> Verdict {
    let mut place = [0u64; 2];
    let number = calls::check(technique.number(), memory, n, edges, &mut place);
    Verdict::of(number, place)
}

/// The bytes of the longest parcel: 2,048 code words and 2,048 data words of 8 bytes, 2,048 edges of 4, and three counts of 4.
pub const MAX_PARCEL: usize = 40_972;

/// How much a parcel holds.
#[derive(Clone, Copy, PartialEq, Eq, Hash, Debug)]
pub struct Counts {
    pub code_words: usize,
    pub edges: usize,
    pub data_words: usize,
}

impl Counts {
    /// The counts that the library puts.
    #[inline]
    fn of(counts: [u64; 3]) -> Counts {
        let [code_words, edges, data_words] = counts.map(|count| count as usize);
        Counts { code_words, edges, data_words }
    }
}

/// Reads a parcel: code, and data directly after it, into the memory, and edge numbers into the edges. Nothing past them is
/// touched, and a refusal changes nothing.
#[inline]
pub fn read_parcel(parcel: &[u8], memory: &mut [u64], edges: &mut [u16]) -> Result<Counts, Refusal> {
    let mut counts = [0u64; 3];
    done(calls::read_parcel(parcel, memory, edges, &mut counts))?;
    Ok(Counts::of(counts))
}

/// Writes a program as a parcel, and gives the number of its bytes. The edges must rise by jump address, then by target, without
/// repeats. Nothing past the bytes is touched, and a refusal changes nothing.
#[inline]
pub fn write_parcel(memory: &[u64], n: usize, edges: &[u16], parcel: &mut [u8]) -> Result<usize, Refusal> {
    let mut count = [0u64; 1];
    done(calls::write_parcel(memory, n, edges, parcel, &mut count))?;
    Ok(count[0] as usize)
}

/// The same, and a refusal says at which edge: the first that is not above the one before it.
///
/// ```
/// use post_guard::{write_parcel, write_parcel_placed, Place, Refusal};
/// let mut parcel = [0; 100];
/// assert_eq!(write_parcel_placed(&[7], 1, &[5, 9, 6, 8], &mut parcel), Ok(28));
///
/// let fault = write_parcel_placed(&[7], 1, &[6, 8, 5, 9], &mut parcel).unwrap_err();
/// assert_eq!((fault.refusal, fault.place), (Refusal::EdgeNotRising, Some(Place::Edge(1))));
/// assert_eq!(fault.to_string(), "refused 18 at 1");
/// assert_eq!(write_parcel(&[7], 1, &[6, 8, 5, 9], &mut parcel), Err(Refusal::EdgeNotRising));
/// ```
#[inline]
pub fn write_parcel_placed(memory: &[u64], n: usize, edges: &[u16], parcel: &mut [u8]) -> Result<usize, Fault> {
    let (mut count, mut place) = ([0u64; 1], [0u64; 2]);
    let number = calls::write_parcel_placed(memory, n, edges, parcel, &mut count, &mut place);
    size_put(number, count, place)
}

/// A program with its claim: code with the data after it, and the edge numbers.
#[derive(Clone, PartialEq, Eq, Hash, Debug)]
pub struct Program {
    pub memory: Vec<u64>,
    /// n: how many words of the memory are code.
    pub code_words: usize,
    /// A jump's address, then a target, for each edge. A program is accepted, and written as a parcel, where the edges rise by
    /// jump address, then by target, without repeats.
    pub edges: Vec<u16>,
}

impl Program {
    /// The program that a parcel holds, with its edges as the parcel lists them.
    pub fn from_parcel(parcel: &[u8]) -> Result<Program, Refusal> {
        let mut memory = vec![0; 4096];
        let mut edges = vec![0; 4096];
        let counts = read_parcel(parcel, &mut memory, &mut edges)?;
        memory.truncate(counts.code_words + counts.data_words);
        edges.truncate(counts.edges * 2);
        Ok(Program { memory, code_words: counts.code_words, edges })
    }

    /// The parcel of the program, if its edges rise.
    pub fn to_parcel(&self) -> Result<Vec<u8>, Refusal> {
        bytes_put(MAX_PARCEL, |parcel| write_parcel(&self.memory, self.code_words, &self.edges, parcel))
    }

    /// The same, and a refusal says at which edge.
    pub fn to_parcel_placed(&self) -> Result<Vec<u8>, Fault> {
        bytes_put(MAX_PARCEL, |parcel| write_parcel_placed(&self.memory, self.code_words, &self.edges, parcel))
    }

    /// Puts the edges into the sequence that check and writer ask for, and takes out repeats: the graph stays the same. A number
    /// at the end that is no pair stays there.
    ///
    /// ```
    /// use post_guard::{Place, Program, Refusal};
    /// let mut program = Program { memory: vec![7], code_words: 1, edges: vec![6, 9, 5, 9, 6, 8, 5, 9] };
    /// let fault = program.to_parcel_placed().unwrap_err();
    /// assert_eq!((fault.refusal, fault.place), (Refusal::EdgeNotRising, Some(Place::Edge(1))));
    ///
    /// program.sort_edges();
    /// assert_eq!(program.edges, [5, 9, 6, 8, 6, 9]);
    /// assert_eq!(program.to_parcel_placed().unwrap().len(), 12 + 8 + 3 * 4);
    /// ```
    pub fn sort_edges(&mut self) {
        self.edges = rising(&self.edges);
    }

    /// The verdict on the program.
    pub fn check(&self, technique: Technique) -> Verdict {
        check(technique, &self.memory, self.code_words, &self.edges)
    }

    /// The figures of the program.
    pub fn report(&self, technique: Technique) -> Result<Figures, Fault> {
        report(technique, &self.memory, self.code_words, &self.edges)
    }
}

/// The kinds of words that figures count: the instructions, in the sequence of the opcodes, and the illegal words.
#[derive(Clone, Copy, PartialEq, Eq, Hash, Debug)]
pub enum Kind {
    Label,
    Add,
    Addi,
    Movi,
    Bgt,
    Jd,
    Jmp,
    Ld,
    St,
    Call,
    Ret,
    Illegal,
}

impl Kind {
    /// Every kind, in the sequence in which figures count them.
    pub const ALL: [Kind; 12] = [
        Kind::Label,
        Kind::Add,
        Kind::Addi,
        Kind::Movi,
        Kind::Bgt,
        Kind::Jd,
        Kind::Jmp,
        Kind::Ld,
        Kind::St,
        Kind::Call,
        Kind::Ret,
        Kind::Illegal,
    ];
}

/// The name of the instruction, as programs in text have it.
impl fmt::Display for Kind {
    fn fmt(&self, f: &mut fmt::Formatter) -> fmt::Result {
        f.pad(match self {
            Kind::Label => "label",
            Kind::Add => "add",
            Kind::Addi => "addi",
            Kind::Movi => "movi",
            Kind::Bgt => "bgt",
            Kind::Jd => "jd",
            Kind::Jmp => "jmp",
            Kind::Ld => "ld",
            Kind::St => "st",
            Kind::Call => "call",
            Kind::Ret => "ret",
            Kind::Illegal => "illegal",
        })
    }
}

/// How free the computed jumps of a program are: how many edges they have, of how many that they could have.
///
/// Freedom 3 of 54, for instance: two jumps in 27 code words. If nothing held them, each jump could go to each of the 27 words,
/// which makes 54 possible edges. The checked program has 3 of them, and no jump ever takes another. The smaller the part, the
/// tighter the program is held.
#[derive(Clone, Copy, PartialEq, Eq, Hash, Debug)]
pub struct Freedom {
    /// The distinct edges, which are the edges as listed.
    pub edges: u32,
    /// Jumps times code words.
    pub possible: u32,
}

impl fmt::Display for Freedom {
    fn fmt(&self, f: &mut fmt::Formatter) -> fmt::Result {
        write!(f, "{} of {}", self.edges, self.possible)
    }
}

/// The figures of an accepted program: how tightly it is held.
#[derive(Clone, Copy, PartialEq, Eq, Hash, Debug)]
pub struct Figures {
    /// How many words of each kind there are, in the sequence of [`Kind::ALL`]. They add up to n.
    pub words: [u16; 12],
    /// The target sets, equal ones counted once.
    pub sets: u16,
    /// How many targets the largest set has; 0 without jumps.
    pub largest: u16,
    /// Left out without jumps.
    pub freedom: Option<Freedom>,
}

impl Figures {
    /// How many words of this kind there are.
    #[inline]
    pub fn words_of(&self, kind: Kind) -> u16 {
        self.words[kind as usize]
    }

    /// The figures in the numbers that the library puts.
    #[inline]
    fn of(numbers: &[u64; 16]) -> Figures {
        let [words @ .., sets, largest, edges, possible] = numbers.map(|number| number as u32);
        Figures {
            words: words.map(|count| count as u16),
            sets: sets as u16,
            largest: largest as u16,
            freedom: (possible != 0).then_some(Freedom { edges, possible }),
        }
    }
}

/// Checks a program, as [`check`] does, and gives its figures where it is accepted.
///
/// The post program has nine words and one jump with one edge: its freedom is 1 of 9.
///
/// ```
/// use post_guard::{encode, report, Freedom, Instruction::*, Kind, Place, Refusal, Technique};
///
/// let code = [
///     Movi { rd: 5, w: 7 },
///     Addi { rd: 0, rs: 5, w: 0 },
///     Ld { rd: 1, rs: 0, w: 0 },
///     Movi { rd: 2, w: 7 },
///     Bgt { rs: 1, rt: 2, w: 8 },
///     Bgt { rs: 2, rt: 1, w: 8 },
///     Jmp { rs: 0 },
///     Label { w: 7 },
///     Illegal,
/// ];
/// let figures = report(Technique::Plain, &code.map(encode), 9, &[6, 7]).unwrap();
/// assert_eq!(figures.words, [1, 0, 1, 2, 2, 0, 1, 1, 0, 0, 0, 1]);
/// assert_eq!(figures.words_of(Kind::Movi), 2);
/// assert_eq!((figures.sets, figures.largest), (1, 1));
/// assert_eq!(figures.freedom, Some(Freedom { edges: 1, possible: 9 }));
///
/// let fault = report(Technique::MemoryGuards, &code.map(encode), 9, &[6, 7]).unwrap_err();
/// assert_eq!((fault.refusal, fault.place), (Refusal::JumpUnguarded, Some(Place::Address(6))));
/// assert_eq!(fault.to_string(), "refused 14 at 6");
///
/// // one illegal word: no jumps, and no freedom
/// let figures = report(Technique::Plain, &[u64::MAX], 1, &[]).unwrap();
/// assert_eq!((figures.sets, figures.largest, figures.freedom), (0, 0, None));
/// ```
#[inline]
pub fn report(technique: Technique, memory: &[u64], n: usize, edges: &[u16]) -> Result<Figures, Fault> {
    let (mut figures, mut place) = ([0u64; 16], [0u64; 2]);
    match calls::report(technique.number(), memory, n, edges, &mut figures, &mut place) {
        0 => Ok(Figures::of(&figures)),
        number => Err(Fault::of(number, place)),
    }
}

/// The same of a parcel, which is read first. One that cannot be read has a fault without a place.
///
/// ```
/// use post_guard::{report_parcel, Refusal, Technique};
/// // one illegal code word, no edges, no data
/// let mut parcel = [1u32.to_le_bytes(), [255; 4], [255; 4], [0; 4], [0; 4]].concat();
/// assert_eq!(report_parcel(Technique::Plain, &parcel).unwrap().words, [0, 0, 0, 0, 0, 0, 0, 0, 0, 0, 0, 1]);
/// parcel.push(0);
/// assert_eq!(report_parcel(Technique::Plain, &parcel).unwrap_err().refusal, Refusal::TrailingBytes);
/// ```
#[inline]
pub fn report_parcel(technique: Technique, parcel: &[u8]) -> Result<Figures, Fault> {
    let (mut figures, mut place) = ([0u64; 16], [0u64; 2]);
    match calls::report_parcel(technique.number(), parcel, &mut figures, &mut place) {
        0 => Ok(Figures::of(&figures)),
        number => Err(Fault::of(number, place)),
    }
}

/// The parcel with the largest freedom.
#[derive(Clone, Copy, PartialEq, Eq, Hash, Debug)]
pub struct Largest {
    /// Its place among those added, counted from 0; those passed over have a place too.
    pub parcel: u16,
    pub freedom: Freedom,
}

/// Totals over up to 65,535 parcels, added one after the other.
///
/// A parcel that is refused, or has no jumps, is passed over: it keeps its place, and nothing is added. Which freedom is larger
/// is told by cross products, without rounding: 2 of 18 is as large as 1 of 9. The earliest of equal ones is kept.
///
/// ```
/// use post_guard::{encode, Added, Freedom, Instruction::*, Largest, Program, Refusal, Technique, Totals};
///
/// let code = [
///     Addi { rd: 0, rs: 5, w: 0 },
///     Ld { rd: 1, rs: 0, w: 0 },
///     Movi { rd: 2, w: 6 },
///     Bgt { rs: 1, rt: 2, w: 7 },
///     Bgt { rs: 2, rt: 1, w: 7 },
///     Jmp { rs: 0 },
///     Label { w: 6 },
///     Illegal,
/// ];
/// let memory = code.map(encode).to_vec();
/// let mut totals = Totals::fresh();
///
/// // place 0: the edge that it claims starts at no jump
/// let Added::Refused(fault) = totals.add(Technique::Plain, &memory, 8, &[4, 6]) else { panic!() };
/// assert_eq!(fault.refusal, Refusal::EdgeFromNoJump);
/// // place 1: nothing but an illegal word
/// assert_eq!(totals.add(Technique::Plain, &[u64::MAX], 1, &[]), Added::WithoutJumps);
/// assert_eq!((totals.parcels, totals.largest), (2, None));
///
/// // places 2 and 3: one edge of eight, as a program and as a parcel
/// let program = Program { memory, code_words: 8, edges: vec![5, 6] };
/// assert_eq!(totals.add_program(Technique::Plain, &program), Added::Counted);
/// assert_eq!(totals.add_parcel(Technique::Plain, &program.to_parcel().unwrap()), Added::Counted);
/// assert_eq!((totals.parcels, totals.edges, totals.possible), (4, 2, 16));
/// assert_eq!(totals.largest, Some(Largest { parcel: 2, freedom: Freedom { edges: 1, possible: 8 } }));
/// ```
#[derive(Clone, Copy, PartialEq, Eq, Hash, Debug, Default)]
pub struct Totals {
    /// How many parcels were added, those passed over included.
    pub parcels: u16,
    /// The sum of their distinct edges.
    pub edges: u64,
    /// The sum of their possible edges, jumps times code words of each.
    pub possible: u64,
    /// `None` where all were passed over. One that is made by hand with 0 possible edges counts as none.
    pub largest: Option<Largest>,
}

/// What became of a parcel that was to be added.
#[derive(Clone, Copy, PartialEq, Eq, Hash, Debug)]
pub enum Added {
    Counted,
    /// Accepted, but it has no jumps: it is passed over.
    WithoutJumps,
    /// Refused: it is passed over.
    Refused(Fault),
    /// The totals are as they were: 65,535 parcels are in already, or a sum would pass 64 bits.
    Unchanged,
}

impl Totals {
    /// Fresh totals, over no parcels.
    #[inline]
    pub fn fresh() -> Totals {
        Totals::default()
    }

    /// Checks a program, as [`check`] does, and adds its freedom.
    #[inline]
    pub fn add(&mut self, technique: Technique, memory: &[u64], n: usize, edges: &[u16]) -> Added {
        let (mut totals, mut place) = (self.numbers(), [0u64; 2]);
        let number = calls::add_report(technique.number(), memory, n, edges, &mut totals, &mut place);
        self.take(number, &totals, place)
    }

    /// The same of a [`Program`].
    #[inline]
    pub fn add_program(&mut self, technique: Technique, program: &Program) -> Added {
        self.add(technique, &program.memory, program.code_words, &program.edges)
    }

    /// The same of a parcel, which is read first. One that cannot be read is passed over like any other refused one.
    #[inline]
    pub fn add_parcel(&mut self, technique: Technique, parcel: &[u8]) -> Added {
        let (mut totals, mut place) = (self.numbers(), [0u64; 2]);
        let number = calls::add_parcel(technique.number(), parcel, &mut totals, &mut place);
        self.take(number, &totals, place)
    }

    /// The totals as the library has them.
    #[inline]
    fn numbers(&self) -> [u64; 6] {
        let (parcel, edges, possible) = match self.largest {
            Some(Largest { parcel, freedom }) => (parcel, freedom.edges, freedom.possible),
            None => (0, 0, 0),
        };
        [self.parcels.into(), self.edges, self.possible, parcel.into(), edges.into(), possible.into()]
    }

    /// Takes over what the library put, and says what its answer means.
    #[inline]
    fn take(&mut self, number: u32, totals: &[u64; 6], place: [u64; 2]) -> Added {
        if number == 257 {
            return Added::Unchanged;
        }
        let freedom = Freedom { edges: totals[4] as u32, possible: totals[5] as u32 };
        *self = Totals {
            parcels: totals[0] as u16,
            edges: totals[1],
            possible: totals[2],
            largest: (totals[5] != 0).then_some(Largest { parcel: totals[3] as u16, freedom }),
        };
        match number {
            0 => Added::Counted,
            256 => Added::WithoutJumps,
            number => Added::Refused(Fault::of(number, place)),
        }
    }
}

#[inline]
fn done(number: u32) -> Result<(), Refusal> {
    match number {
        0 => Ok(()),
        number => Err(Refusal::of(number)),
    }
}

/// How many bytes a call put that answers this number, or its fault.
#[inline]
fn size_put(number: u32, count: [u64; 1], place: [u64; 2]) -> Result<usize, Fault> {
    match number {
        0 => Ok(count[0] as usize),
        number => Err(Fault::of(number, place)),
    }
}

/// The bytes that `put` puts, which are at most so many.
fn bytes_put<E>(most: usize, put: impl FnOnce(&mut [u8]) -> Result<usize, E>) -> Result<Vec<u8>, E> {
    let mut bytes = vec![0; most];
    let size = put(&mut bytes)?;
    bytes.truncate(size);
    Ok(bytes)
}

/// The pairs of these numbers in rising sequence, without repeats; a number at the end that is no pair stays there.
fn rising<N: Copy + Ord>(numbers: &[N]) -> Vec<N> {
    let pairs = numbers.chunks_exact(2);
    let odd = pairs.remainder();
    let mut edges: Vec<[N; 2]> = pairs.map(|edge| [edge[0], edge[1]]).collect();
    edges.sort_unstable();
    edges.dedup();
    let mut numbers: Vec<N> = edges.concat();
    numbers.extend(odd);
    numbers
}

/// The calls as the static library has them, for tests: on numbers and slices, places of any length.
#[doc(hidden)]
pub mod raw {
    pub use crate::calls::slices::*;
}

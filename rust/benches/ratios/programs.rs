//! The programs that are run, checked and put into parcels.
use crate::reference::{checkers::Answer, encode, Op, Technique};

/// Code with the data after it, and the edge numbers.
pub struct Program {
    pub memory: Vec<u64>,
    pub n: usize,
    pub edges: Vec<u16>,
}

/// a loop of all instructions but call and ret, 12 words, and one data word
pub fn spinning() -> Program {
    let code = [
        Op::Movi(3, 1),
        Op::Movi(4, 12),
        Op::Label(2),
        Op::Add(5, 5, 3),
        Op::Addi(6, 5, 3),
        Op::Ld(7, 4, 0),
        Op::St(4, 5, 0),
        Op::Bgt(3, 5, 2),
        Op::Movi(8, 10),
        Op::Jmp(8),
        Op::Jd(2),
        Op::Illegal,
    ];
    let mut memory = code.map(encode).to_vec();
    memory.push(0);
    Program { memory, n: code.len(), edges: Vec::new() }
}

/// a loop that calls one routine from two places, 9 words, and one data word
pub fn calling() -> Program {
    let code = [
        Op::Movi(4, 9),
        Op::Call(5), // 1
        Op::Call(5),
        Op::Bgt(5, 3, 1),
        Op::Illegal,
        Op::Ld(7, 4, 0), // 5: the routine
        Op::Addi(5, 7, 3),
        Op::Ret,
        Op::Illegal,
    ];
    let mut memory = code.map(encode).to_vec();
    memory.push(0);
    Program { memory, n: code.len(), edges: Vec::new() }
}

/// Blocks of a guarded jump, a guarded store (with memory guards), a label and three other words, the last of them a bgt.
#[derive(Clone, Copy)]
struct Blocks {
    /// how many words lead to a jump, itself with them, and to a store
    jump: usize,
    store: usize,
    count: usize,
}

impl Blocks {
    fn of(technique: Technique, n: usize) -> Blocks {
        let (jump, store) = match technique {
            Technique::Plain => (6, 0),
            Technique::MemoryGuards => (10, 6),
        };
        Blocks { jump, store, count: (n - 1) / (jump + store + 4) }
    }

    fn first_word(self, block: usize) -> usize {
        block * (self.jump + self.store + 4)
    }

    fn jump(self, block: usize) -> usize {
        self.first_word(block) + self.jump - 1
    }

    fn label(self, block: usize) -> usize {
        self.first_word(block) + self.jump + self.store
    }

    fn branch(self, block: usize) -> usize {
        self.label(block) + 3
    }
}

/// An accepted program of n words and 64 data words; eight blocks share a target set. Its edges rise as they come.
pub fn accepted(technique: Technique, n: usize) -> Program {
    let guards = technique == Technique::MemoryGuards;
    let blocks = Blocks::of(technique, n);
    let halt = (n - 1) as u32;
    let mut code = Vec::new();
    let mut edges = Vec::new();
    for block in 0..blocks.count {
        let first = block / 8 * 8;
        let id = blocks.label(first) as u32;
        code.push(Op::Addi(0, 5, 0));
        if guards {
            code.extend([Op::Movi(1, halt), Op::Movi(2, 0), Op::Bgt(0, 1, halt), Op::Bgt(2, 0, halt)]);
        }
        code.extend([Op::Ld(1, 0, 0), Op::Movi(2, id), Op::Bgt(1, 2, halt), Op::Bgt(2, 1, halt), Op::Jmp(0)]);
        for target in first..(first + 8).min(blocks.count) {
            edges.extend([blocks.jump(block) as u16, blocks.label(target) as u16]);
        }
        if guards {
            code.extend([
                Op::Addi(0, 6, 2),
                Op::Movi(1, (n + 63) as u32),
                Op::Movi(2, n as u32),
                Op::Bgt(0, 1, halt),
                Op::Bgt(2, 0, halt),
                Op::St(0, 7, 0),
            ]);
        }
        code.extend([Op::Label(id), Op::Movi(5, id), Op::Add(6, 6, 5), Op::Bgt(6, 7, blocks.first_word(block) as u32)]);
    }
    code.resize(n - 1, Op::Addi(9, 9, 1));
    code.push(Op::Illegal);
    let memory = code.into_iter().map(encode).chain(0..64).collect();
    Program { memory, n, edges }
}

/// One jd over the word at 1, which no path leads to.
pub fn three_words() -> Program {
    let memory = [Op::Jd(2), Op::Movi(5, 1), Op::Illegal].map(encode).to_vec();
    Program { memory, n: 3, edges: Vec::new() }
}

/// An accepted program of n words and 64 data words, without jumps: blocks of two branches, a call, and the routine that it calls.
pub fn sharing(n: usize) -> Program {
    let mut code = Vec::new();
    while code.len() + 8 < n - 2 {
        let (routine, next) = (code.len() as u32 + 5, code.len() as u32 + 8);
        code.extend([Op::Addi(6, 6, 1), Op::Bgt(6, 7, next), Op::Call(routine), Op::Add(6, 6, 5), Op::Jd(next)]);
        code.extend([Op::Ld(5, 4, 0), Op::Addi(5, 5, 1), Op::Ret]);
    }
    code.resize(n - 1, Op::Addi(9, 9, 1));
    code.push(Op::Illegal);
    let memory = code.into_iter().map(encode).chain(0..64).collect();
    Program { memory, n, edges: Vec::new() }
}

/// An accepted program of n words, one after the other, and 64 data words.
pub fn straight(n: usize) -> Program {
    let mut memory = vec![encode(Op::Addi(9, 9, 1)); n - 1];
    memory.push(encode(Op::Illegal));
    memory.extend(0..64);
    Program { memory, n, edges: Vec::new() }
}

/// The same program, but that no path leads to its last word but one: the word before it goes to the last. Both were ordinary words.
pub fn ending_unreachably(mut program: Program) -> Program {
    let halt = program.n as u32 - 1;
    program.memory[program.n - 3] = encode(Op::Jd(halt));
    program
}

/// The post program as bare code, without data.
pub fn bare_post() -> Program {
    let memory = [Op::Movi(5, 2), Op::Jmp(5), Op::Illegal].map(encode).to_vec();
    Program { memory, n: 3, edges: vec![1, 2] }
}

/// Bare code that has new_n words when its guards are put in, and 64 data words: blocks of a jmp, a destination and other words,
/// the last of them a bgt. Many edges: four words in a block, and eight blocks share a target set. Few edges: 32 words in a block,
/// and each jmp has one target.
pub fn bare(new_n: usize, many_edges: bool) -> Program {
    let (length, shared) = if many_edges { (4, 8) } else { (32, 1) };
    // a block grows by five words for its jmp and one for its destination; one illegal word comes at the end
    let count = (new_n - 1) / (length + 6);
    let mut code = Vec::new();
    let mut edges = Vec::new();
    for block in 0..count {
        let first = block / shared * shared;
        let at = code.len();
        code.extend([Op::Jmp(5), Op::Movi(5, 1)]);
        code.resize(at + length - 1, Op::Add(6, 6, 5));
        code.push(Op::Bgt(6, 7, at as u32));
        for target in first..(first + shared).min(count) {
            edges.extend([at as u16, (target * length + 1) as u16]);
        }
    }
    code.resize(new_n - 1 - count * 6, Op::Addi(9, 9, 1));
    let n = code.len();
    Program { memory: code.into_iter().map(encode).chain(0..64).collect(), n, edges }
}

/// A fault that is as late as it can be, so that the check goes through all that comes before it.
#[derive(Clone, Copy)]
pub enum Fault {
    /// 7: the last edge starts at no jmp
    LastEdge,
    /// 18: the last edge is the one before it again
    LastRepeat,
    /// 10: the last jump's only target is one of the two that the jump before it has
    LastSets,
    /// 14: the last jump's guard loads from the next word
    LastJump,
    /// 15: the last bgt aims at the second word of a guard
    LastBranch,
}

impl Fault {
    pub fn told(self) -> &'static str {
        match self {
            Fault::LastEdge => "refused 7 at the last edge",
            Fault::LastRepeat => "refused 18 at the last edge",
            Fault::LastSets => "refused 10 at the last jump but one",
            Fault::LastJump => "refused 14 at the last jump",
            Fault::LastBranch => "refused 15 at the last bgt",
        }
    }
}

/// An accepted program with this fault put in, and the answer that it gets.
pub fn refused(technique: Technique, n: usize, fault: Fault) -> (Program, Answer) {
    let mut program = accepted(technique, n);
    let blocks = Blocks::of(technique, n);
    let last = blocks.count - 1;
    let answer = match fault {
        Fault::LastEdge => {
            let edge = program.edges.len() / 2 - 1;
            program.edges[2 * edge] = 0;
            (7, 1, edge as u64)
        }
        Fault::LastRepeat => {
            let end = program.edges.len();
            program.edges.copy_within(end - 4..end - 2, end - 2);
            (18, 1, end as u64 / 2 - 1)
        }
        Fault::LastSets => {
            program.edges = part_last_sets(&program.edges, blocks);
            (10, 2, blocks.jump(last - 1) as u64)
        }
        Fault::LastJump => {
            program.memory[blocks.jump(last) - 4] = encode(Op::Ld(1, 0, 1));
            (14, 2, blocks.jump(last) as u64)
        }
        Fault::LastBranch => {
            program.memory[blocks.branch(last)] = encode(Op::Bgt(6, 7, blocks.first_word(last) as u32 + 1));
            (15, 2, blocks.branch(last) as u64)
        }
    };
    (program, answer)
}

/// The last two blocks leave the set of the others. The first of their jumps gets both labels, the last one of them alone.
fn part_last_sets(edges: &[u16], blocks: Blocks) -> Vec<u16> {
    let (first, last) = (blocks.count - 2, blocks.count - 1);
    let (jumps, labels) = ([blocks.jump(first), blocks.jump(last)], [blocks.label(first), blocks.label(last)]);
    let others = edges.chunks_exact(2).filter(|e| !jumps.contains(&e[0].into()) && !labels.contains(&e[1].into()));
    let added = [jumps[0], labels[0], jumps[0], labels[1], jumps[1], labels[0]];
    others.flatten().copied().chain(added.map(|x| x as u16)).collect()
}

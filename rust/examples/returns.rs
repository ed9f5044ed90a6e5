//! Where a routine returns to: runs a program from a fresh state, step by step, and tells each call, each ret and each jmp that is
//! made. With three numbers more, the bus writes once: when the program first comes to ADDRESS, register REGISTER becomes WORD.
//!
//!     cargo run --release --example returns ../examples/shared-routine.parcel
//!     cargo run --release --example returns ../examples/shared-routine.parcel 10 9 7
//!     cargo run --release --example returns ../examples/shared-return-by-jump.parcel 14 9 10
//!
//! docs/REFERENCE.md, "Calls that return", tells what the two programs show.
use post_guard::{decode, step, Instruction, Program, State, Step, Technique, Verdict};

const USAGE: &str = "usage: returns PARCEL [ADDRESS REGISTER WORD]";
const LIMIT: usize = 10_000;

/// "when the program first comes to this address, this register becomes this word"
struct Write {
    address: u64,
    register: u64,
    word: u64,
}

fn main() {
    let arguments: Vec<String> = std::env::args().skip(1).collect();
    let (path, write) = match &arguments[..] {
        [path] => (path, None),
        [path, address, register, word] => {
            (path, Some(Write { address: number(address), register: number(register), word: number(word) }))
        }
        _ => stop(2, USAGE),
    };
    let parcel = std::fs::read(path).unwrap_or_else(|error| stop(1, &format!("{path}: {error}")));
    let program = Program::from_parcel(&parcel).unwrap_or_else(|refusal| stop(1, &format!("{path}: {refusal}")));
    let technique = accepting(&program).unwrap_or_else(|verdict| stop(1, &format!("{path}: {verdict}")));
    println!("accepted, {technique:?}");
    follow(program, technique, write);
}

/// the technique that accepts the program, plain first; or what plain refuses
fn accepting(program: &Program) -> Result<Technique, Verdict> {
    let accepts = |technique: &Technique| program.check(*technique) == Verdict::Accepted;
    let technique = [Technique::Plain, Technique::MemoryGuards].into_iter().find(accepts);
    technique.ok_or_else(|| program.check(Technique::Plain))
}

fn follow(mut program: Program, technique: Technique, mut write: Option<Write>) {
    let n = program.code_words;
    let mut state = State::fresh([0; 32]);
    for steps in 0..LIMIT {
        if let Some(Write { register, word, .. }) = write.take_if(|write| write.address == state.pc) {
            match state.write_register(register, word) {
                Ok(()) => println!("  at {}: the bus writes {word} into r{register}", state.pc),
                Err(refusal) => stop(1, &format!("register {register}: {refusal}")),
            }
        }
        let pc = state.pc;
        match step(technique, &mut state, &mut program.memory, n).expect("the shape was checked") {
            Step::Made => tell(pc, decode(program.memory[pc as usize]), state.pc),
            Step::Stopped(stop) => {
                println!("stop {} at {pc} after {steps} steps", stop.number());
                program.memory[n..].iter().for_each(|word| println!("  data word {word}"));
                return;
            }
        }
    }
    println!("still running after {LIMIT} steps, at {}", state.pc);
}

fn tell(pc: u64, instruction: Instruction, next: u64) {
    match instruction {
        Instruction::Call { .. } => println!("  at {pc}: call to {next}, to come back to {}", pc + 1),
        Instruction::Ret => println!("  at {pc}: ret to {next}"),
        Instruction::Jmp { .. } => println!("  at {pc}: jmp to {next}"),
        _ => {}
    }
}

fn number(text: &str) -> u64 {
    text.parse().unwrap_or_else(|_| stop(2, &format!("'{text}' is no number\n{USAGE}")))
}

fn stop(status: i32, why: &str) -> ! {
    eprintln!("{why}");
    std::process::exit(status);
}

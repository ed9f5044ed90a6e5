//! A gateway's day: read a parcel, check it, say how tightly it is held, run it with bus writes in between, and say what happened.
//!
//!     cargo run --release --example gateway            the post program of docs/REFERENCE.md
//!     cargo run --release --example gateway FILE       a parcel of your own
use post_guard::{encode, run, write_data, Ending, Instruction::*, Program, State, Technique, Verdict};

fn main() {
    let parcel = match std::env::args().nth(1) {
        Some(path) => std::fs::read(&path).unwrap_or_else(|error| stop(&format!("{path}: {error}"))),
        None => post_parcel(),
    };

    let mut program = Program::from_parcel(&parcel).unwrap_or_else(|refusal| stop(&format!("not a parcel: {refusal}")));
    let n = program.code_words;
    println!("{} code words, {} edges, {} data words", n, program.edges.len() / 2, program.memory.len() - n);

    let technique = match (program.check(Technique::Plain), program.check(Technique::MemoryGuards)) {
        (Verdict::Accepted, _) => Technique::Plain,
        (_, Verdict::Accepted) => Technique::MemoryGuards,
        (plain, guarded) => stop(&format!("plain: {plain}; with memory guards: {guarded}")),
    };
    println!("accepted, {technique:?}");
    let figures = program.report(technique).expect("the program is accepted");
    match figures.freedom {
        Some(freedom) => println!("target sets: {}, the largest of {}; freedom: {freedom}", figures.sets, figures.largest),
        None => println!("no jumps"),
    }

    // ten slices of the program's time, with the bus writing a register and a data word between any two
    let mut state = State::fresh([0; 32]);
    let mut steps = 0;
    for slice in 0..10u64 {
        let ran = run(technique, &mut state, &mut program.memory, n, 3).expect("the shape was checked");
        steps += usize::from(ran.count);
        if let Ending::Stopped(stop) = ran.ending {
            println!("stop {} ({stop:?}) after {steps} steps, pc {}", stop.number(), state.pc);
            return;
        }
        let register = state.write_register(3 + slice, 100 + slice);
        let data = write_data(&mut program.memory, n, n as u64 + slice, 200 + slice);
        println!("{steps} steps, pc {}; bus: register {}, data {}", state.pc, answer(register), answer(data));
    }
    println!("still running at pc {}", state.pc);
}

fn answer(result: Result<(), post_guard::Refusal>) -> String {
    match result {
        Ok(()) => "written".to_string(),
        Err(refusal) => format!("refused {}", refusal.number()),
    }
}

fn post_parcel() -> Vec<u8> {
    let code = [
        Movi { rd: 5, w: 7 },
        Addi { rd: 0, rs: 5, w: 0 },
        Ld { rd: 1, rs: 0, w: 0 },
        Movi { rd: 2, w: 7 },
        Bgt { rs: 1, rt: 2, w: 8 },
        Bgt { rs: 2, rt: 1, w: 8 },
        Jmp { rs: 0 },
        Label { w: 7 },
        Illegal,
    ];
    let program = Program { memory: code.map(encode).to_vec(), code_words: 9, edges: vec![6, 7] };
    program.to_parcel().expect("the post program has a parcel")
}

fn stop(why: &str) -> ! {
    eprintln!("{why}");
    std::process::exit(1);
}

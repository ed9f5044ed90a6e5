//! A manager's view: how a routine can be reached, before a season opens.
//!
//!     cargo run --release --example paths plain ../examples/credit-routine.parcel 25 20 23
//!
//! Prints a shortest path from address 0 to each ADDRESS, and where it does not go on to the next word; or that the address is
//! unreachable: then no run comes there, whatever the bus writes. A path promises no run. docs/REFERENCE.md, "Shortest paths", says
//! how to read them. The exit status is 1 where something is refused.
use post_guard::{decode, Fault, Instruction, Program, Technique};

const USAGE: &str = "usage: paths plain|memory-guards PARCEL ADDRESS...

The technique is the one that the posts go by: plain for posts with memory protection, memory-guards for posts without it.";

fn main() {
    let arguments: Vec<String> = std::env::args().skip(1).collect();
    let [technique, path, addresses @ ..] = &arguments[..] else { stop(2, USAGE) };
    let technique = match technique.as_str() {
        "plain" => Technique::Plain,
        "memory-guards" => Technique::MemoryGuards,
        other => stop(2, &format!("'{other}' is no technique\n{USAGE}")),
    };
    let parcel = std::fs::read(path).unwrap_or_else(|error| stop(1, &format!("{path}: {error}")));
    let program = Program::from_parcel(&parcel).unwrap_or_else(|refusal| stop(1, &format!("{path}: {refusal}")));
    let mut refused = false;
    for text in addresses {
        let address: u64 = text.parse().unwrap_or_else(|_| stop(2, &format!("'{text}' is no address\n{USAGE}")));
        match program.shortest_path(technique, address) {
            Ok(Some(path)) => print_path(&program, address, &path),
            Ok(None) => println!("{address}: unreachable"),
            Err(fault @ Fault { refusal, .. }) => {
                println!("{address}: {fault}: {refusal}");
                refused = true;
            }
        }
    }
    std::process::exit(refused.into());
}

/// the addresses, and the steps of words that lead elsewhere than to the next word alone
fn print_path(program: &Program, address: u64, path: &[u16]) {
    let addresses: Vec<String> = path.iter().map(u16::to_string).collect();
    println!("{address}: {} addresses: {}", path.len(), addresses.join(" "));
    for pair in path.windows(2) {
        let (from, to) = (pair[0], pair[1]);
        let name = match decode(program.memory[usize::from(from)]) {
            Instruction::Bgt { .. } => "bgt",
            Instruction::Jd { .. } => "jd",
            Instruction::Jmp { .. } => "jmp",
            Instruction::Call { .. } => "call",
            Instruction::Ret => "ret",
            _ => continue,
        };
        println!("  at {from}: {name} to {to}");
    }
}

fn stop(status: i32, why: &str) -> ! {
    eprintln!("{why}");
    std::process::exit(status);
}

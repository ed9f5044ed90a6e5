//! Puts labels and plain guards into the bare code of a parcel, and writes what comes out as a parcel.
//!
//!     cargo run --release --example guards ../examples/clipping-bare.parcel /tmp/clipping.parcel 0 2 7
//!
//! The numbers name the movi words, by their bare addresses, that hold an address of code or data: these are mapped, and no other.
//! Prints the bare address of each new word and what the word is, or the number and the place of the first fault; docs/REFERENCE.md
//! says what to do about it. TO is written only after all that: a refusal leaves it as it was, and the exit status is then 1.
use post_guard::{decode, Guarded, Instruction, Place, Program, Technique, Verdict};

const USAGE: &str = "usage: guards FROM TO [ADDRESS...]

FROM is a parcel of bare code: no labels, no guards, and r0, r1 and r2 are left alone. TO is the parcel with guards, for plain posts.
Each ADDRESS is that of a movi in the bare code which holds an address of code or data: it gets the new address.";

fn main() {
    let arguments: Vec<String> = std::env::args().skip(1).collect();
    let [from, to, addresses @ ..] = &arguments[..] else { stop(2, USAGE) };
    let mut movis = Vec::new();
    for text in addresses {
        let address = text.parse().unwrap_or_else(|_| stop(2, &format!("'{text}' is no address\n{USAGE}")));
        if movis.contains(&address) {
            stop(2, &format!("address {address} is named twice"));
        }
        movis.push(address);
    }

    let bytes = std::fs::read(from).unwrap_or_else(|error| stop(1, &format!("{from}: {error}")));
    let bare = Program::from_parcel(&bytes).unwrap_or_else(|refusal| refused(&format!("not a parcel: {refusal}")));
    let mut guarded = bare.with_guards().unwrap_or_else(|fault| {
        let place = match fault.place {
            None => String::new(),
            Some(Place::Edge(k)) => format!(", edge {k}"),
            Some(Place::Address(a)) => format!(", address {a}"),
        };
        refused(&format!("{fault}: {}{place}", fault.refusal))
    });
    for &address in &movis {
        if guarded.map_movi(address).is_none() {
            refused(&format!("address {address}: {}", why_not_mapped(&bare, address)));
        }
    }

    let parcel = guarded.program.to_parcel().unwrap_or_else(|refusal| refused(&format!("no parcel: {refusal}")));
    print_words(&bare, &guarded, &movis);
    for (old, new) in bare.edges.chunks(2).zip(guarded.program.edges.chunks(2)) {
        println!("edge {} {} becomes edge {} {}", old[0], old[1], new[0], new[1]);
    }
    let (n, new_n) = (bare.code_words, guarded.program.code_words);
    println!("{n} code words become {new_n}; {} data words, at {n} before, are at {new_n}", bare.memory.len() - n);
    match guarded.program.check(Technique::Plain) {
        Verdict::Accepted => println!("plain: accepted"),
        verdict => refused(&format!("plain: {verdict}")),
    }
    std::fs::write(to, &parcel).unwrap_or_else(|error| stop(1, &format!("{to}: {error}")));
}

/// one line for each new word, after the bare address whose block begins there
fn print_words(bare: &Program, Guarded { program, map }: &Guarded, movis: &[usize]) {
    println!(" old  new  word");
    let mut blocks = map.iter().enumerate().peekable();
    let mut from = 0;
    for (at, &word) in program.memory[..program.code_words].iter().enumerate() {
        let old = match blocks.next_if(|&(_, &begins)| usize::from(begins) == at) {
            Some((old, _)) => {
                from = old;
                old.to_string()
            }
            None => String::new(),
        };
        let text = text_of(word);
        let before = text_of(bare.memory[from]);
        let last = at + 1 == program.code_words;
        let note = match (decode(word), decode(bare.memory[from])) {
            (Instruction::Label { .. }, _) => format!("{from} is a destination"),
            (Instruction::Addi { rd: 0, .. }, Instruction::Jmp { .. }) => format!("the guard of {before}"),
            (Instruction::Movi { .. }, Instruction::Movi { .. }) if movis.contains(&from) => format!("was {before}"),
            (Instruction::Bgt { .. }, Instruction::Bgt { .. })
            | (Instruction::Jd { .. }, Instruction::Jd { .. })
            | (Instruction::Call { .. }, Instruction::Call { .. })
                if before != text =>
            {
                format!("was {before}")
            }
            (Instruction::Illegal, _) if last => "HALT".to_string(),
            _ => String::new(),
        };
        println!("{}", format!("{old:>4} {at:>4}  {text:<18}{note}").trim_end());
    }
}

/// the word as programs in text have it
fn text_of(word: u64) -> String {
    match decode(word) {
        Instruction::Label { w } => format!("label {w}"),
        Instruction::Add { rd, rs, rt } => format!("add r{rd}, r{rs}, r{rt}"),
        Instruction::Addi { rd, rs, w } => format!("addi r{rd}, r{rs}, {w}"),
        Instruction::Movi { rd, w } => format!("movi r{rd}, {w}"),
        Instruction::Bgt { rs, rt, w } => format!("bgt r{rs}, r{rt}, {w}"),
        Instruction::Jd { w } => format!("jd {w}"),
        Instruction::Jmp { rs } => format!("jmp r{rs}"),
        Instruction::Ld { rd, rs, w } => format!("ld r{rd}, r{rs}({w})"),
        Instruction::St { rd, rs, w } => format!("st r{rd}({w}), r{rs}"),
        Instruction::Call { w } => format!("call {w}"),
        Instruction::Ret => "ret".to_string(),
        Instruction::Illegal if word == u64::MAX => "illegal".to_string(),
        Instruction::Illegal => format!("word {word:#018x}"),
    }
}

/// why the word at this bare address cannot be mapped
fn why_not_mapped(bare: &Program, address: usize) -> String {
    let n = bare.code_words;
    match bare.memory[..n].get(address) {
        None => format!("the bare code has {n} words"),
        Some(&word) => match decode(word) {
            Instruction::Movi { w, .. } => format!("its movi holds {w}, which is no address of the bare program"),
            _ => format!("no movi is there, but {}", text_of(word)),
        },
    }
}

/// the bare program is turned away
fn refused(why: &str) -> ! {
    println!("{why}");
    std::process::exit(1);
}

fn stop(status: i32, why: &str) -> ! {
    eprintln!("{why}");
    std::process::exit(status);
}

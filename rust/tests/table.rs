//! Document 01's table, over the safe wrapper.
use post_guard::{
    check, decode, encode, run, step, Ending, Instruction, Instruction::*, Place, Program, Refusal, State, Step, Stop, Technique,
    Verdict,
};

fn post_program() -> Vec<u64> {
    [
        Movi { rd: 5, w: 7 },
        Addi { rd: 0, rs: 5, w: 0 },
        Ld { rd: 1, rs: 0, w: 0 },
        Movi { rd: 2, w: 7 },
        Bgt { rs: 1, rt: 2, w: 8 },
        Bgt { rs: 2, rt: 1, w: 8 },
        Jmp { rs: 0 },
        Label { w: 7 },
        Illegal,
    ]
    .map(encode)
    .to_vec()
}

fn refused_at(refusal: Refusal, address: usize) -> Verdict {
    Verdict::Refused(refusal, Some(Place::Address(address)))
}

#[test]
fn words() {
    assert_eq!(decode(0x0000_0000_0000_0007), Label { w: 7 });
    assert_eq!(decode(0x0302_0000_0000_0007), Movi { rd: 2, w: 7 });
    assert_eq!(decode(0x0320_0000_0000_0007), Instruction::Illegal);
    assert_eq!(decode(0x0600_0000_0000_0001), Instruction::Illegal);
}

/// Document 02, K8: "call w (opcode 9, fields as jd) and ret (opcode 10, every field 0)". Opcode 11 is none.
#[test]
fn words_of_call_and_ret() {
    assert_eq!((decode(0x0900_0000_0000_0007), encode(Call { w: 7 })), (Call { w: 7 }, 0x0900_0000_0000_0007));
    assert_eq!((decode(0x0a00_0000_0000_0000), encode(Ret)), (Ret, 0x0a00_0000_0000_0000));
    assert_eq!(decode(0x0900_0000_ffff_ffff), Call { w: u32::MAX });
    for word in [0x0901_0000_0000_0007, 0x0900_0100_0000_0007, 0x0900_0001_0000_0007, 0x0b00_0000_0000_0000] {
        assert_eq!(decode(word), Instruction::Illegal, "{word:#x}");
    }
    for bit in 0..56 {
        assert_eq!(decode(0x0a00_0000_0000_0000 | 1 << bit), Instruction::Illegal, "bit {bit}");
    }
}

#[test]
fn verdicts() {
    let plain = |memory: &[u64], edges: &[u16]| check(Technique::Plain, memory, 9, edges);
    let post = post_program();
    assert_eq!(plain(&post, &[6, 7]), Verdict::Accepted);
    assert_eq!(check(Technique::MemoryGuards, &post, 9, &[6, 7]), refused_at(Refusal::JumpUnguarded, 6));
    assert_eq!(plain(&post, &[]), refused_at(Refusal::JumpWithoutEdge, 6));
    assert_eq!(plain(&post, &[6, 8]), refused_at(Refusal::LabelCondition, 7));
    let mut changed = post.clone();
    changed[0] = encode(Jd { w: 2 });
    assert_eq!(plain(&changed, &[6, 7]), refused_at(Refusal::BranchTarget, 0));
    changed[0] = encode(Jd { w: 1 });
    assert_eq!(plain(&changed, &[6, 7]), Verdict::Accepted);
    let mut changed = post.clone();
    changed[4] = encode(Bgt { rs: 1, rt: 2, w: 7 });
    assert_eq!(plain(&changed, &[6, 7]), refused_at(Refusal::JumpUnguarded, 6));
    assert_eq!(plain(&post, &[6, 7, 3, 7]), Verdict::Refused(Refusal::EdgeFromNoJump, Some(Place::Edge(1))));
    assert_eq!(plain(&post, &[6, 7, 6]), Verdict::Refused(Refusal::Shape, None));
}

#[test]
fn runs() {
    let mut memory = post_program();
    let mut state = State::fresh([0; 32]);
    let ran = run(Technique::Plain, &mut state, &mut memory, 9, 100).unwrap();
    assert_eq!((ran.ending, ran.count, state.pc), (Ending::Stopped(Stop::Illegal), 8, 8));

    let mut state = State::fresh([9; 32]);
    assert_eq!(step(Technique::Plain, &mut state, &mut memory, 9), Ok(Step::Made));
    state.write_register(5, 0).unwrap();
    let ran = run(Technique::Plain, &mut state, &mut memory, 9, 100).unwrap();
    assert_eq!((ran.ending, 1 + ran.count, state.pc), (Ending::Stopped(Stop::Illegal), 5, 8));

    memory.push(7);
    let mut state = State::fresh([1; 32]);
    assert_eq!(step(Technique::Plain, &mut state, &mut memory, 9), Ok(Step::Made));
    state.write_register(5, 9).unwrap();
    let ran = run(Technique::Plain, &mut state, &mut memory, 9, 100).unwrap();
    assert_eq!((ran.ending, 1 + ran.count, state.pc), (Ending::Stopped(Stop::Next), 6, 6));
    assert_eq!(step(Technique::MemoryGuards, &mut state, &mut memory, 9), Ok(Step::Made));
    assert_eq!(state.pc, 9);
}

#[test]
fn the_post_parcel() {
    let program = Program { memory: post_program(), code_words: 9, edges: vec![6, 7] };
    let parcel = program.to_parcel().unwrap();
    assert_eq!(parcel.len(), 88);
    assert_eq!(Program::from_parcel(&parcel).unwrap().check(Technique::Plain).to_string(), "accepted");
    assert_eq!(Program::from_parcel(&parcel[..87]), Err(Refusal::CountMissing));
    assert_eq!(program.check(Technique::MemoryGuards).to_string(), "refused 14 at 6");
}

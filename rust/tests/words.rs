//! decode and encode against the reference, on more than a million words.
#[path = "../reference/mod.rs"]
mod reference;
mod common;

use common::Random;
use post_guard::raw;

fn fields(word: u64) -> [u32; 5] {
    let (opcode, a, b, c, w) = reference::fields(reference::decode(word));
    [opcode.into(), a.into(), b.into(), c.into(), w]
}

#[test]
fn words_decode_as_the_reference_says() {
    let mut r = Random::new(1);
    for round in 0..1_200_000u32 {
        let word = if round % 4 == 0 { r.word() } else { r.instruction_word() };
        let mut place = [0xdead_beefu32; 8];
        let lent = if round % 16 == 0 { r.below(9) } else { 5 };
        let mut expected = place;
        let answer = if lent < 5 {
            5
        } else {
            expected[..5].copy_from_slice(&fields(word));
            0
        };
        assert_eq!(raw::decode(word, &mut place[..lent]), answer, "{word:#x}");
        assert_eq!(place, expected, "{word:#x}");
    }
}

#[test]
fn single_bits_and_single_bytes_decode_as_the_reference_says() {
    let mut words: Vec<u64> = vec![0, u64::MAX];
    let calls = [0x0900_0000_0000_0007, 0x0a00_0000_0000_0000];
    for base in [0u64, u64::MAX, 0x0302_0000_0000_0007, 0x0100_0000_0000_0000, 0x0800_0000_0000_0000].into_iter().chain(calls) {
        for bit in 0..64 {
            words.push(base ^ 1 << bit);
        }
    }
    for opcode in 0..=255u64 {
        for field in 0..=255u64 {
            for shift in [48, 40, 32, 0] {
                words.push(opcode << 56 | field << shift);
            }
        }
    }
    for word in words {
        let mut place = [0u32; 5];
        assert_eq!(raw::decode(word, &mut place), 0);
        assert_eq!(place, fields(word), "{word:#x}");
    }
}

#[test]
fn fields_encode_as_the_reference_says() {
    let mut r = Random::new(2);
    for _ in 0..1_000_000 {
        let word = r.instruction_word();
        let opcode = if r.chance(8) { r.below(256) as u8 } else { r.below(12) as u8 };
        let (a, b, c, w) = ((word >> 48) as u8, (word >> 40) as u8, (word >> 32) as u8, word as u32);
        let op = reference::instruction(opcode, a, b, c, w);
        assert_eq!(raw::encode(opcode, a, b, c, w), reference::encode(op), "{op:?}");
    }
}

/// the wrapper's fields by name, as the reference has them by place
fn named(instruction: post_guard::Instruction) -> reference::Op {
    use post_guard::Instruction as I;
    use reference::Op;
    match instruction {
        I::Label { w } => Op::Label(w),
        I::Add { rd, rs, rt } => Op::Add(rd, rs, rt),
        I::Addi { rd, rs, w } => Op::Addi(rd, rs, w),
        I::Movi { rd, w } => Op::Movi(rd, w),
        I::Bgt { rs, rt, w } => Op::Bgt(rs, rt, w),
        I::Jd { w } => Op::Jd(w),
        I::Jmp { rs } => Op::Jmp(rs),
        I::Ld { rd, rs, w } => Op::Ld(rd, rs, w),
        I::St { rd, rs, w } => Op::St(rd, rs, w),
        I::Call { w } => Op::Call(w),
        I::Ret => Op::Ret,
        I::Illegal => Op::Illegal,
    }
}

#[test]
fn the_wrapper_names_fields_as_the_reference_does() {
    let mut r = Random::new(4);
    for _ in 0..300_000 {
        let word = r.instruction_word();
        assert_eq!(named(post_guard::decode(word)), reference::decode(word), "{word:#x}");
    }
}

#[test]
fn legal_words_come_back() {
    let mut r = Random::new(3);
    for _ in 0..300_000 {
        let word = r.instruction_word();
        let instruction = post_guard::decode(word);
        let back = post_guard::encode(instruction);
        if instruction == post_guard::Instruction::Illegal {
            assert_eq!(back, u64::MAX);
        } else {
            assert_eq!(back, word);
        }
    }
}

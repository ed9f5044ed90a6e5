//! The second edition of the parcel, the converters, and the check on edge numbers of 32 bits: against the reference, over whole
//! parcels and damaged ones, places of any length, and numbers at 65,535 and past it; and what holds between the two editions.
#[path = "../reference/mod.rs"]
mod reference;
mod common;

use common::{accepted, damage, damage_bytes, damage_sequence, library, number_of, padded, sort_edges, Random};
use post_guard::{narrowed, raw, widened, Fault, Place, Refusal, Verdict, WideProgram};
use reference::{checkers, checkers::Answer, editions, Technique, TECHNIQUES};
use std::collections::BTreeSet;

/// how many bytes an edge number has
const FIRST: usize = 2;
const SECOND: usize = 4;

/// What a parcel holds, in either edition.
#[derive(Clone, Debug)]
struct Content {
    memory: Vec<u64>,
    n: usize,
    edges: Vec<u32>,
}

impl Content {
    /// random words, and edge numbers that both editions have
    fn near(r: &mut Random, code: usize, pairs: usize, data: usize) -> Content {
        let memory = (0..code + data).map(|_| r.word()).collect();
        Content { memory, n: code, edges: (0..pairs * 2).map(|_| near(r)).collect() }
    }

    /// the same, and one time in three an edge number or more that only the second edition has
    fn small(r: &mut Random) -> Content {
        let (code, pairs, data) = (1 + r.below(20), r.below(12), r.below(12));
        let mut content = Content::near(r, code, pairs, data);
        if r.chance(3) {
            put_far(r, &mut content.edges);
        }
        content
    }

    fn of(p: &common::Program) -> Content {
        Content { memory: p.memory.clone(), n: p.n, edges: wide(&p.edges) }
    }

    /// the parcel whose edge numbers have so many bytes; those above are left off
    fn parcel(&self, width: usize) -> Vec<u8> {
        let (code, data) = self.memory.split_at(self.n);
        let count = |items: usize| (items as u32).to_le_bytes();
        let mut parcel = count(code.len()).to_vec();
        parcel.extend(code.iter().flat_map(|word| word.to_le_bytes()));
        parcel.extend(count(self.edges.len() / 2));
        parcel.extend(self.edges.iter().flat_map(|number| number.to_le_bytes().into_iter().take(width)));
        parcel.extend(count(data.len()));
        parcel.extend(data.iter().flat_map(|word| word.to_le_bytes()));
        parcel
    }

    /// the same, damaged four times in seven
    fn damaged_parcel(&self, r: &mut Random, width: usize) -> Vec<u8> {
        let mut parcel = self.parcel(width);
        let edges = 4 + self.n * 8;
        damage_bytes(r, &mut parcel, [0, edges, edges + 4 + self.edges.len() * width]);
        parcel
    }

    /// the first edge that the first edition does not have
    fn first_far(&self) -> Option<usize> {
        self.edges.chunks(2).position(|edge| edge.iter().any(|&number| number > 65_535))
    }
}

fn wide(edges: &[u16]) -> Vec<u32> {
    edges.iter().map(|&number| number.into()).collect()
}

/// a number up to 65,535, often at the end
fn near(r: &mut Random) -> u32 {
    match r.below(4) {
        0 => 65_535 - r.below(3) as u32,
        1 => r.below(2050) as u32,
        _ => u32::from(r.word() as u16),
    }
}

/// a number above 65,535, often at an end, or with the low 16 bits of a small one
fn far(r: &mut Random) -> u32 {
    match r.below(6) {
        0 => 65_536 + r.below(3) as u32,
        1 => u32::MAX - r.below(3) as u32,
        2 => 1 << (16 + r.below(16)),
        3 => r.below(2050) as u32 + past_16_bits(r),
        _ => r.word() as u32 | 65_536,
    }
}

/// a multiple of 65,536 that may be added to any number of 16 bits
fn past_16_bits(r: &mut Random) -> u32 {
    (1 + r.below(65_535) as u32) << 16
}

fn put_far(r: &mut Random, edges: &mut [u32]) {
    if edges.is_empty() {
        return;
    }
    for _ in 0..1 + r.below(3) {
        let at = r.below(edges.len());
        edges[at] = far(r);
    }
}

/// Random edges, rising and without repeats; often they differ by their targets alone.
fn rising_wide_edges(r: &mut Random, pairs: usize) -> Vec<u32> {
    let mut set = BTreeSet::new();
    let few_jumps: Vec<u32> = (0..1 + pairs / 4).map(|_| if r.chance(2) { far(r) } else { near(r) }).collect();
    let any = r.chance(2);
    while set.len() < pairs {
        let jump = if any { r.word() as u32 } else { r.pick(&few_jumps) };
        set.insert([jump, if r.chance(2) { far(r) } else { near(r) }]);
    }
    set.into_iter().flatten().collect()
}

fn compare_read(r: &mut Random, parcel: &[u8], memory_len: usize, edges_len: usize, counts_len: usize) -> u32 {
    let mut memory = padded(0, memory_len, 3, || r.word());
    let mut edges = padded(0, edges_len, 3, || r.word() as u32);
    let mut counts = [7u64, 8, 9, 10, 11];
    let (mut expected_memory, mut expected_edges, mut expected_counts) = (memory.clone(), edges.clone(), counts);
    // without room for the counts it is as if there were none for the memory: 1 to 4 come first, and then 5
    let room = if counts_len < 3 { 0 } else { memory_len };
    let expected = match editions::read_wide(parcel, &mut expected_memory[..room], &mut expected_edges[..edges_len]) {
        Ok((code, pairs, data)) => {
            expected_counts[..3].copy_from_slice(&[code as u64, pairs as u64, data as u64]);
            0
        }
        Err(number) => number,
    };
    let answer = raw::read_wide_parcel(
        parcel,
        &mut memory[..memory_len],
        &mut edges[..edges_len],
        &mut counts[..counts_len],
    );
    assert_eq!(answer, expected, "{} bytes, {memory_len}, {edges_len}, {counts_len}", parcel.len());
    assert!(memory == expected_memory, "memory");
    assert!(edges == expected_edges, "edges");
    assert_eq!(counts, expected_counts);
    answer
}

/// How much is lent to a call that puts bytes, their count and a place.
#[derive(Clone, Copy, Debug)]
struct Lent {
    bytes: usize,
    count: usize,
    place: usize,
}

impl Lent {
    /// enough for so many bytes; or one of the three is too short
    fn some(r: &mut Random, size: usize) -> Lent {
        let mut lent = Lent { bytes: size + r.below(4), count: 1 + r.below(3), place: 2 + r.below(3) };
        match r.below(12) {
            0 => lent.bytes = size - 1,
            1 => lent.bytes = r.below(size),
            2 => lent.count = 0,
            3 => lent.place = r.below(2),
            _ => {}
        }
        lent
    }

    /// around the least that is enough
    fn around(size: usize) -> Vec<Lent> {
        let mut all = Vec::new();
        for bytes in [0, size - 1, size, size + 1] {
            for (count, place) in [(0, 2), (1, 0), (1, 1), (1, 2), (2, 3)] {
                all.push(Lent { bytes, count, place });
            }
        }
        all
    }
}

/// The number that a call gives which puts bytes, their count and a place. It is the reference's, and so is everything in the lent
/// places and past them afterwards.
fn compare_put(
    r: &mut Random,
    lent: Lent,
    call: impl FnOnce(&mut [u8], &mut [u64], &mut [u64]) -> u32,
    plain: impl FnOnce(&mut [u8]) -> Result<usize, Answer>,
) -> u32 {
    let mut bytes = padded(0, lent.bytes, 3, || r.word() as u8);
    let (mut count, mut place) = ([7u64, 8, 9], [4u64, 5, 6, 7]);
    let (mut expected_bytes, mut expected_count, mut expected_place) = (bytes.clone(), count, place);
    // without room for the count or the place it is as if there were none for the bytes: 5 comes last
    let room = if lent.count < 1 || lent.place < 2 { 0 } else { lent.bytes };
    let (expected, kind, at) = match plain(&mut expected_bytes[..room]) {
        Ok(size) => {
            expected_count[0] = size as u64;
            (0, 0, 0)
        }
        Err(refused) => refused,
    };
    if lent.place >= 2 {
        expected_place[..2].copy_from_slice(&[kind, at]);
    }
    let answer = call(&mut bytes[..lent.bytes], &mut count[..lent.count], &mut place[..lent.place]);
    assert_eq!(answer, expected, "{lent:?}");
    assert_eq!(count, expected_count, "{answer}, {lent:?}");
    assert_eq!(place, expected_place, "{answer}, {lent:?}");
    assert!(bytes == expected_bytes, "{answer}, {lent:?}");
    answer
}

fn compare_write(r: &mut Random, memory: &[u64], n: usize, edges: &[u32], lent: Lent) -> u32 {
    compare_put(
        r,
        lent,
        |parcel, count, place| raw::write_wide_parcel(memory, n, edges, parcel, count, place),
        |parcel| editions::write_wide(memory, n, edges, parcel),
    )
}

fn compare_widen(r: &mut Random, parcel: &[u8], lent: Lent) -> u32 {
    compare_put(
        r,
        lent,
        |wide, count, place| raw::widen(parcel, wide, count, place),
        |wide| editions::widen(parcel, wide),
    )
}

fn compare_narrow(r: &mut Random, wide: &[u8], lent: Lent) -> u32 {
    compare_put(
        r,
        lent,
        |parcel, count, place| raw::narrow(wide, parcel, count, place),
        |parcel| editions::narrow(wide, parcel),
    )
}

/// each of these numbers was given often, and no other at all
fn assert_given(seen: &[usize; 20], numbers: &[usize], often: usize) {
    println!("how often each number was given: {seen:?}");
    for (number, &times) in seen.iter().enumerate() {
        let expected = if numbers.contains(&number) { times >= often } else { times == 0 };
        assert!(expected, "number {number} was given {times} times");
    }
}

#[test]
fn wide_parcels_read_as_the_reference_says() {
    let mut r = Random::new(61);
    let mut seen = [0; 20];
    for _ in 0..110_000 {
        let content = Content::small(&mut r);
        let parcel = content.damaged_parcel(&mut r, SECOND);
        let (words, numbers) = (content.memory.len(), content.edges.len());
        let memory_len = if r.chance(6) { r.below(words + 1) } else { words + r.below(3) };
        let edges_len = if r.chance(6) { r.below(numbers + 1) } else { numbers + r.below(3) };
        let counts_len = if r.chance(8) { r.below(4) } else { 3 + r.below(3) };
        seen[compare_read(&mut r, &parcel, memory_len, edges_len, counts_len) as usize] += 1;
    }
    assert_given(&seen, &[0, 1, 2, 3, 4, 5], 500);
}

#[test]
fn wide_parcels_are_written_as_the_reference_says() {
    let mut r = Random::new(62);
    let mut seen = [0; 20];
    for _ in 0..110_000 {
        let (code, pairs, data) = (1 + r.below(20), r.below(12), r.below(12));
        let memory: Vec<u64> = (0..code + data).map(|_| r.word()).collect();
        let mut edges = rising_wide_edges(&mut r, pairs);
        damage_sequence(&mut r, &mut edges);
        let n = if r.chance(10) { r.pick(&[0, code + data + 1, usize::MAX, 2049]) } else { code };
        let lent = Lent::some(&mut r, 12 + memory.len() * 8 + edges.len() * 4);
        seen[compare_write(&mut r, &memory, n, &edges, lent) as usize] += 1;
    }
    assert_given(&seen, &[0, 5, 6, 18], 1000);
}

#[test]
fn parcels_are_widened_as_the_reference_says() {
    let mut r = Random::new(63);
    let mut seen = [0; 20];
    for _ in 0..110_000 {
        let content = Content::small(&mut r);
        let parcel = content.damaged_parcel(&mut r, FIRST);
        let lent = Lent::some(&mut r, content.parcel(SECOND).len());
        seen[compare_widen(&mut r, &parcel, lent) as usize] += 1;
    }
    assert_given(&seen, &[0, 1, 2, 3, 4, 5], 500);
}

#[test]
fn wide_parcels_are_narrowed_as_the_reference_says() {
    let mut r = Random::new(64);
    let mut seen = [0; 20];
    for _ in 0..110_000 {
        let content = Content::small(&mut r);
        let parcel = content.damaged_parcel(&mut r, SECOND);
        let lent = Lent::some(&mut r, content.parcel(FIRST).len());
        seen[compare_narrow(&mut r, &parcel, lent) as usize] += 1;
    }
    assert_given(&seen, &[0, 1, 2, 3, 4, 5, 19], 500);
}

/// Small parcels cut off at every byte, and places of every length.
#[test]
fn every_length_of_a_small_parcel() {
    let mut r = Random::new(65);
    for (code, pairs, data) in [(1, 0, 0), (9, 1, 0), (2, 2, 2), (1, 3, 5)] {
        let mut content = Content::near(&mut r, code, pairs, data);
        let (first, second) = (content.parcel(FIRST), content.parcel(SECOND));
        for length in 0..=second.len() {
            for counts_len in [0, 2, 3, 4] {
                compare_read(&mut r, &second[..length], code + data, pairs * 2, counts_len);
            }
            for lent in Lent::around(first.len()) {
                compare_narrow(&mut r, &second[..length], lent);
            }
        }
        for length in 0..=first.len() {
            for lent in Lent::around(second.len()) {
                compare_widen(&mut r, &first[..length], lent);
            }
        }
        for memory_len in 0..=code + data + 1 {
            for edges_len in 0..=pairs * 2 + 1 {
                compare_read(&mut r, &second, memory_len, edges_len, 3);
            }
        }
        for bytes in 0..=second.len() + 1 {
            let lent = Lent { bytes, count: 1, place: 2 };
            assert_eq!(compare_widen(&mut r, &first, lent), if bytes < second.len() { 5 } else { 0 });
            assert_eq!(compare_narrow(&mut r, &second, lent), if bytes < first.len() { 5 } else { 0 });
        }
        // 19 comes after 1 to 4 and before 5
        put_far(&mut r, &mut content.edges);
        let second = content.parcel(SECOND);
        for length in 0..=second.len() {
            for lent in Lent::around(first.len()) {
                let answer = compare_narrow(&mut r, &second[..length], lent);
                assert_eq!(answer == 19, pairs > 0 && length == second.len(), "{length} bytes, {lent:?}");
            }
        }
    }
}

#[test]
fn counts_at_the_limits() {
    let mut r = Random::new(66);
    for code in [0usize, 1, 2048, 2049] {
        for pairs in [0usize, 1, 2048, 2049] {
            for data in [0usize, 1, 2048, 2049] {
                let content = Content::near(&mut r, code, pairs, data);
                let (first, second) = (content.parcel(FIRST), content.parcel(SECOND));
                let enough = |bytes: usize| Lent { bytes, count: 1, place: 2 };
                let answers = [
                    compare_read(&mut r, &second, code + data, pairs * 2, 3),
                    compare_widen(&mut r, &first, enough(second.len())),
                    compare_narrow(&mut r, &second, enough(first.len())),
                ];
                let fine = (1..=2048).contains(&code) && pairs <= 2048 && data <= 2048;
                assert_eq!(answers, [if fine { 0 } else { 2 }; 3], "{code}, {pairs}, {data}");
                if fine {
                    assert_eq!(compare_widen(&mut r, &first, enough(second.len() - 1)), 5);
                    assert_eq!(compare_narrow(&mut r, &second, enough(first.len() - 1)), 5);
                }
            }
        }
    }
    let longest = Content::near(&mut r, 2048, 2048, 2048);
    assert_eq!(longest.parcel(FIRST).len(), post_guard::MAX_PARCEL);
    assert_eq!(longest.parcel(SECOND).len(), post_guard::MAX_WIDE_PARCEL);
}

#[test]
fn writing_at_the_limits() {
    let mut r = Random::new(67);
    let mut seen = [0; 20];
    for code in [0usize, 1, 2048, 2049] {
        for data in [0usize, 1, 2048, 2049] {
            for numbers in [0usize, 1, 2, 4095, 4096, 4097, 4098] {
                let memory: Vec<u64> = (0..code + data).map(|_| r.word()).collect();
                let mut rising = rising_wide_edges(&mut r, numbers / 2);
                rising.extend((rising.len()..numbers).map(|_| 7));
                let falling: Vec<u32> = rising.iter().rev().copied().collect();
                let size = 12 + memory.len() * 8 + numbers * 4;
                for bytes in [0, size - 1, size, size + 1] {
                    for (count, place) in [(0, 2), (1, 1), (1, 2)] {
                        for edges in [&rising, &falling] {
                            seen[compare_write(&mut r, &memory, code, edges, Lent { bytes, count, place }) as usize] += 1;
                        }
                    }
                }
            }
        }
    }
    assert_given(&seen, &[0, 5, 6, 18], 50);
}

/// 18 goes by the whole numbers: edges that rise in their low 16 bits alone do not rise, and the other way round.
#[test]
fn edges_rise_by_all_32_bits() {
    let mut r = Random::new(68);
    let lent = Lent { bytes: 100, count: 1, place: 2 };
    for (edges, expected) in [
        ([65_536, 1, 2, 1], 18),
        ([2, 1, 65_536, 1], 0),
        ([2, 65_536, 2, 1], 18),
        ([2, 1, 2, 65_536], 0),
        ([2, 65_537, 2, 1], 18),
        ([2, 1, 2, 65_537], 0),
        ([65_537, 1, 1, 1], 18),
        ([1, 1, 65_537, 1], 0),
        ([u32::MAX, u32::MAX, 0, 0], 18),
        ([u32::MAX, u32::MAX, u32::MAX, u32::MAX], 18),
        ([u32::MAX, u32::MAX - 1, u32::MAX, u32::MAX], 0),
        ([0, u32::MAX, 1, 0], 0),
    ] {
        assert_eq!(compare_write(&mut r, &[7, 8], 1, &edges, lent), expected, "{edges:?}");
    }
}

/// The first number above 65,535 at every place of as many edges as there may be.
#[test]
fn every_place_of_a_far_number() {
    let mut r = Random::new(69);
    let content = Content { memory: vec![7], n: 1, edges: vec![65_535; 4096] };
    let mut second = content.parcel(SECOND);
    let first_number = 4 + 8 + 4;
    let lent = Lent { bytes: content.parcel(FIRST).len(), count: 1, place: 2 };
    assert_eq!(compare_narrow(&mut r, &second, lent), 0);
    for at in (0..4096).rev() {
        // this number, and all those after it, which were put before
        let number = far(&mut r);
        second[first_number + at * 4..][..4].copy_from_slice(&number.to_le_bytes());
        let (mut parcel, mut count, mut place) = ([9; 100], [9], [9; 2]);
        assert_eq!(raw::narrow(&second, &mut parcel, &mut count, &mut place), 19, "{number} at {at}");
        assert_eq!((parcel, count, place), ([9; 100], [9], [1, at as u64 / 2]));
    }
    // each bit that the first edition does not have, by itself
    for bit in 16..32 {
        for at in [0, 1, 2, 3, 4094, 4095] {
            let mut content = content.clone();
            content.edges[at] = 1 << bit;
            assert_eq!(compare_narrow(&mut r, &content.parcel(SECOND), lent), 19, "bit {bit} at {at}");
        }
    }
}

/// Each converter gives back what the other was given, with the edges as they are listed, rising or not; what does not fit the first
/// edition is 19 at the first such edge.
#[test]
fn converters_undo_each_other() {
    let mut r = Random::new(70);
    let (mut converted, mut refused, mut fell) = (0, 0, 0);
    for _ in 0..30_000 {
        let content = Content::small(&mut r);
        let second = content.parcel(SECOND);
        match content.first_far() {
            None => {
                let first = content.parcel(FIRST);
                assert_eq!(widened(&first).as_ref(), Ok(&second));
                assert_eq!(narrowed(&second).as_ref(), Ok(&first));
                assert_eq!(narrowed(&widened(&first).unwrap()), Ok(first));
                assert_eq!(widened(&narrowed(&second).unwrap()), Ok(second));
                converted += 1;
                fell += usize::from(!content.edges.chunks(2).is_sorted_by(|one, two| one < two));
            }
            Some(k) => {
                let fault = Fault { refusal: Refusal::EdgeTooWide, place: Some(Place::Edge(k)) };
                assert_eq!(narrowed(&second), Err(fault));
                refused += 1;
            }
        }
    }
    println!("converted: {converted}, of these with edges that do not rise: {fell}; refused: {refused}");
    assert!(converted > 10_000 && fell > 10_000 && refused > 5_000);
}

/// Without edges a parcel is the same bytes in both editions; with edges it may be read in the other edition as something else.
#[test]
fn bytes_do_not_say_their_edition() {
    let without_edges = Content { memory: vec![u64::MAX, 42], n: 1, edges: vec![] }.parcel(FIRST);
    assert_eq!(widened(&without_edges).as_ref(), Ok(&without_edges));
    assert_eq!(narrowed(&without_edges).as_ref(), Ok(&without_edges));

    // two edges of 4 bytes, the count 1 and the data word 42 are 20 bytes: as many as two edges of 8 and the count 0
    let parcel = Content { memory: vec![u64::MAX, 42], n: 1, edges: vec![5, 9, 6, 8] }.parcel(FIRST);
    let taken_for_wide = WideProgram::from_parcel(&parcel).unwrap();
    let edges = vec![5 + 9 * 65_536, 6 + 8 * 65_536, 1, 42];
    assert_eq!(taken_for_wide, WideProgram { memory: vec![u64::MAX], code_words: 1, edges });
}

/// A parcel that cannot be read has the same number for reader and converter, and no place.
#[test]
fn converters_refuse_what_the_readers_refuse() {
    let mut r = Random::new(71);
    let mut seen = [0; 20];
    for _ in 0..60_000 {
        let content = Content::small(&mut r);
        let (first, second) = (content.damaged_parcel(&mut r, FIRST), content.damaged_parcel(&mut r, SECOND));
        let read = post_guard::Program::from_parcel(&first).err();
        assert_eq!(widened(&first).err(), read);
        seen[read.map_or(0, Refusal::number) as usize] += 1;
        let read = WideProgram::from_parcel(&second);
        match narrowed(&second) {
            Ok(_) => assert!(read.is_ok()),
            Err(Fault { refusal: Refusal::EdgeTooWide, .. }) => assert!(read.is_ok()),
            Err(fault) => assert_eq!(fault, Fault::from(read.unwrap_err())),
        }
    }
    assert_given(&seen, &[0, 1, 2, 3, 4], 500);
}

/// What is written is read back; what is read is written back where its edges rise. Elsewhere it is 18, at the first edge that does
/// not, until the edges are sorted.
#[test]
fn wide_programs_give_back_their_parcels() {
    let mut r = Random::new(72);
    let (mut rising, mut falls) = (0, 0);
    for _ in 0..30_000 {
        let (code, pairs, data) = (1 + r.below(10), r.below(8), r.below(10));
        let mut edges = rising_wide_edges(&mut r, pairs);
        damage_sequence(&mut r, &mut edges);
        edges.truncate(edges.len() / 2 * 2);
        let content = Content { edges, ..Content::near(&mut r, code, 0, data) };
        let parcel = content.parcel(SECOND);
        let mut program = WideProgram::from_parcel(&parcel).unwrap();
        let expected = WideProgram { memory: content.memory, code_words: code, edges: content.edges.clone() };
        assert_eq!(program, expected);
        let listed: Vec<&[u32]> = content.edges.chunks(2).collect();
        match (1..listed.len()).find(|&k| listed[k] <= listed[k - 1]) {
            None => {
                rising += 1;
                assert_eq!(program.to_parcel(), Ok(parcel));
            }
            Some(k) => {
                falls += 1;
                let fault = Fault { refusal: Refusal::EdgeNotRising, place: Some(Place::Edge(k)) };
                assert_eq!(program.to_parcel(), Err(fault));
                program.sort_edges();
                let sorted: BTreeSet<&[u32]> = listed.into_iter().collect();
                assert_eq!(program.edges, sorted.into_iter().collect::<Vec<_>>().concat());
                assert_eq!(WideProgram::from_parcel(&program.to_parcel().unwrap()), Ok(program));
            }
        }
    }
    assert!(rising > 10_000 && falls > 2_000, "{rising}, {falls}");
}

const MARK: u64 = 0x5ca1_ab1e_0ddb_a115;

/// the answer of the check on edges of 32 bits, which is that of both references
fn compare_check(technique: Technique, number: u8, c: &Content) -> Answer {
    let expected = checkers::check(technique, &c.memory, c.n, &c.edges);
    let mut place = [MARK; 4];
    let answer = raw::check_wide(number, &c.memory, c.n, &c.edges, &mut place[..2]);
    assert_eq!((answer, place[0], place[1]), expected, "{technique:?} {}", told(c));
    assert_eq!(place[2..], [MARK; 2]);
    assert_eq!(checkers::check_flat(technique, &c.memory, c.n, &c.edges), expected, "flat, {technique:?} {}", told(c));
    expected
}

fn told(c: &Content) -> String {
    if c.memory.len() < 80 {
        return format!("{c:x?}");
    }
    format!("n {}, {} words, {} edge numbers", c.n, c.memory.len(), c.edges.len())
}

/// accepted by the technique, or damaged in up to three places
fn some_program(r: &mut Random, technique: Technique, round: usize) -> common::Program {
    let n = if r.chance(60) { 1 + r.below(300) } else { 1 + r.below(48) };
    let d = r.below(6);
    let mut p = accepted(r, technique, n, d);
    for _ in 0..round % 4 {
        damage(r, &mut p);
    }
    p
}

/// On edges that both editions have the two checks give the same answer and the same place.
#[test]
fn checks_agree_between_the_editions() {
    for (technique, seed) in TECHNIQUES.into_iter().zip([73, 74]) {
        let mut r = Random::new(seed);
        let mut seen = [0; 20];
        for round in 0..60_000 {
            let p = some_program(&mut r, technique, round);
            for by in TECHNIQUES {
                let answer = compare_check(by, number_of(by), &Content::of(&p));
                let mut place = [MARK; 2];
                let narrow = raw::check(number_of(by), &p.memory, p.n, &p.edges, &mut place);
                assert_eq!((narrow, place[0], place[1]), answer);
                if by == technique {
                    seen[answer.0 as usize] += 1;
                }
            }
        }
        let mut numbers = vec![0, 6, 7, 8, 9, 10, 11, 12, 14, 15, 18];
        if technique == Technique::MemoryGuards {
            numbers.push(13);
        }
        assert_given(&seen, &numbers, 100);
    }
}

#[test]
fn full_size() {
    let mut r = Random::new(75);
    let mut accepted_ones = 0;
    for round in 0..1000usize {
        let technique = TECHNIQUES[round % 2];
        let n = r.pick(&[2047, 2048, 2048, 2048]);
        let d = r.pick(&[0, 1, 2047, 2048, 2049]);
        let mut p = accepted(&mut r, technique, n, d);
        for _ in 0..round / 2 % 3 {
            damage(&mut r, &mut p);
        }
        let mut content = Content::of(&p);
        accepted_ones += usize::from(compare_check(technique, number_of(technique), &content).0 == 0);
        put_far(&mut r, &mut content.edges);
        compare_check(technique, number_of(technique), &content);
    }
    println!("accepted: {accepted_ones}");
    assert!(accepted_ones > 20, "{accepted_ones}");
}

/// A number that has the low 16 bits of a claimed one, and more, is outside code: 7 for a jump, 8 for a target, at that edge.
#[test]
fn numbers_past_16_bits_are_outside_code() {
    let mut r = Random::new(76);
    let mut seen = [0; 20];
    for round in 0..60_000usize {
        let technique = TECHNIQUES[round % 2];
        let n = 12 + r.below(40);
        let d = r.below(6);
        let mut content = Content::of(&accepted(&mut r, technique, n, d));
        let pairs = content.edges.len() / 2;
        if pairs == 0 {
            continue;
        }
        let (k, side) = (r.below(pairs), r.below(2));
        content.edges[2 * k + side] += if r.chance(2) { 65_536 } else { past_16_bits(&mut r) };
        let expected = (if side == 0 { 7 } else { 8 }, 1, k as u64);
        for by in TECHNIQUES {
            assert_eq!(compare_check(by, number_of(by), &content), expected);
        }
        seen[expected.0 as usize] += 1;
        // more of them, the sequence mended or not, and other damage besides
        put_far(&mut r, &mut content.edges);
        if r.chance(2) {
            sort_edges(&mut content.edges);
        }
        let at = r.below(content.n);
        content.memory[at] = r.instruction_word();
        compare_check(technique, number_of(technique), &content);
    }
    assert_given(&seen, &[7, 8], 10_000);
}

/// Where a parcel converts, both editions get the same verdict; what is 19 the check refuses with 7 or 8, by both techniques.
#[test]
fn verdicts_where_it_converts_and_where_it_does_not() {
    let mut r = Random::new(77);
    let (mut accepted_ones, mut refused, mut seen) = (0, 0, [0; 20]);
    for round in 0..60_000usize {
        let p = some_program(&mut r, TECHNIQUES[round / 4 % 2], round);
        let mut content = Content::of(&p);
        if r.chance(2) {
            put_far(&mut r, &mut content.edges);
        }
        if common::parcel_of(&p).is_none() {
            continue;
        }
        let wide = content.parcel(SECOND);
        let program = WideProgram::from_parcel(&wide).unwrap();
        for technique in TECHNIQUES.map(library) {
            let verdict = program.check(technique);
            match narrowed(&wide) {
                Ok(parcel) => {
                    assert_eq!(Some(&parcel), common::parcel_of(&p).as_ref());
                    assert_eq!(post_guard::Program::from_parcel(&parcel).unwrap().check(technique), verdict);
                    match verdict {
                        Verdict::Accepted => accepted_ones += 1,
                        Verdict::Refused(..) => refused += 1,
                    }
                }
                Err(fault) => {
                    assert_eq!(fault.refusal, Refusal::EdgeTooWide);
                    let Verdict::Refused(refusal, Some(Place::Edge(_))) = verdict else { panic!("{verdict}") };
                    assert!([Refusal::EdgeFromNoJump, Refusal::TargetOutsideCode].contains(&refusal), "{verdict}");
                    seen[refusal.number() as usize] += 1;
                }
            }
        }
    }
    println!("converted and accepted: {accepted_ones}, converted and refused: {refused}");
    assert!(accepted_ones > 5_000 && refused > 5_000);
    assert_given(&seen, &[7, 8], 2_000);
}

#[test]
fn shapes() {
    let mut r = Random::new(78);
    let mut seen = [0; 20];
    for code in [0usize, 1, 2, 2048, 2049] {
        for data in [0usize, 1, 2048, 2049] {
            for numbers in [0usize, 1, 2, 3, 4095, 4096, 4097, 4098] {
                let mut edges: Vec<u32> = (0..numbers).map(|_| near(&mut r)).collect();
                if r.chance(2) {
                    put_far(&mut r, &mut edges);
                }
                let mut content = Content { memory: vec![u64::MAX; code + data], n: 0, edges };
                for n in [0, 1, code, code + 1, 2048, 2049, code + data, code + data + 1, usize::MAX] {
                    content.n = n;
                    for technique in TECHNIQUES {
                        seen[compare_check(technique, number_of(technique), &content).0 as usize] += 1;
                    }
                }
            }
        }
    }
    assert_given(&seen, &[0, 6, 7], 50);
}

#[test]
fn short_places_and_other_technique_numbers() {
    let mut r = Random::new(79);
    for _ in 0..200 {
        let mut p = accepted(&mut r, Technique::MemoryGuards, 30, 3);
        damage(&mut r, &mut p);
        let content = Content::of(&p);
        for number in [1, 2, 77, 255] {
            compare_check(Technique::MemoryGuards, number, &content);
        }
        for lent in 0..2 {
            let mut place = [MARK; 4];
            assert_eq!(raw::check_wide(0, &content.memory, content.n, &content.edges, &mut place[..lent]), 5);
            assert_eq!(place, [MARK; 4]);
        }
    }
}

//! The reader and the writer against the reference: whole parcels, damaged ones, and places of any length.
#[path = "../reference/mod.rs"]
mod reference;
mod common;

use common::{damage_bytes, damage_sequence, padded, rising_edges, Random};
use post_guard::raw;

fn compare_read(r: &mut Random, parcel: &[u8], memory_len: usize, edges_len: usize, counts_len: usize) -> u32 {
    let mut memory = padded(0, memory_len, 3, || r.word());
    let mut edges = padded(0, edges_len, 3, || r.word() as u16);
    let mut counts = [7u64, 8, 9, 10, 11];
    let (mut expected_memory, mut expected_edges, mut expected_counts) = (memory.clone(), edges.clone(), counts);
    let expected = if counts_len < 3 {
        // 1 to 4 come first, and then this place is too short
        let (mut m, mut e) = (vec![0; 4096], vec![0; 4096]);
        reference::read_parcel(parcel, &mut m, &mut e).err().unwrap_or(5)
    } else {
        match reference::read_parcel(parcel, &mut expected_memory[..memory_len], &mut expected_edges[..edges_len]) {
            Ok((code, pairs, data)) => {
                expected_counts[..3].copy_from_slice(&[code as u64, pairs as u64, data as u64]);
                0
            }
            Err(number) => number,
        }
    };
    let answer = raw::read_parcel(
        parcel,
        &mut memory[..memory_len],
        &mut edges[..edges_len],
        &mut counts[..counts_len],
    );
    assert_eq!(answer, expected, "{} bytes, {memory_len}, {edges_len}, {counts_len}", parcel.len());
    assert!(memory == expected_memory, "memory");
    assert!(edges == expected_edges, "edges");
    assert_eq!(counts, expected_counts);
    answer
}

fn compare_write(r: &mut Random, memory: &[u64], n: usize, edges: &[u16], parcel_len: usize, count_len: usize) -> u32 {
    let parcel = padded(0, parcel_len, 3, || r.word() as u8);
    let count = [7u64, 8, 9];
    // what is left, and the answer, where the place of a refusal has so many numbers, or is not asked for
    let expected = |place_len: Option<usize>| {
        let (mut parcel, mut count, mut place) = (parcel.clone(), count, [4u64, 5, 6]);
        let short = count_len < 1 || place_len.is_some_and(|len| len < 2);
        let (number, kind, at) = match reference::write_parcel(memory, n, edges, &mut parcel[..if short { 0 } else { parcel_len }]) {
            Ok(size) => {
                count[0] = size as u64;
                (0, 0, 0)
            }
            Err(answer) => answer,
        };
        if place_len.is_some_and(|len| len >= 2) {
            place[..2].copy_from_slice(&[kind, at]);
        }
        (number, parcel, count, place)
    };
    let told = || format!("{} words, n {n}, {} numbers, {parcel_len} bytes", memory.len(), edges.len());
    let (mut left, mut left_count) = (parcel.clone(), count);
    let answer = raw::write_parcel(memory, n, edges, &mut left[..parcel_len], &mut left_count[..count_len]);
    assert!((answer, left, left_count, [4, 5, 6]) == expected(None), "{answer}, {}", told());
    for place_len in [r.below(2), 2 + r.below(2)] {
        let (mut left, mut left_count, mut place) = (parcel.clone(), count, [4u64, 5, 6]);
        let answer = raw::write_parcel_placed(
            memory,
            n,
            edges,
            &mut left[..parcel_len],
            &mut left_count[..count_len],
            &mut place[..place_len],
        );
        assert!((answer, left, left_count, place) == expected(Some(place_len)), "{answer}, {place_len}, {}", told());
    }
    answer
}

fn parcel_of(r: &mut Random, code: usize, pairs: usize, data: usize) -> Vec<u8> {
    let mut parcel = Vec::new();
    parcel.extend((code as u32).to_le_bytes());
    parcel.extend((0..code * 8).map(|_| r.word() as u8));
    parcel.extend((pairs as u32).to_le_bytes());
    parcel.extend((0..pairs * 4).map(|_| r.word() as u8));
    parcel.extend((data as u32).to_le_bytes());
    parcel.extend((0..data * 8).map(|_| r.word() as u8));
    parcel
}

#[test]
fn parcels_read_as_the_reference_says() {
    let mut r = Random::new(31);
    let mut seen = [0usize; 6];
    for _ in 0..110_000 {
        let (code, pairs, data) = (1 + r.below(20), r.below(12), r.below(12));
        let mut parcel = parcel_of(&mut r, code, pairs, data);
        damage_bytes(&mut r, &mut parcel, [0, 4 + code * 8, 8 + code * 8 + pairs * 4]);
        let memory_len = if r.chance(6) { r.below(code + data + 1) } else { code + data + r.below(3) };
        let edges_len = if r.chance(6) { r.below(pairs * 2 + 1) } else { pairs * 2 + r.below(3) };
        let counts_len = if r.chance(8) { r.below(4) } else { 3 + r.below(3) };
        seen[compare_read(&mut r, &parcel, memory_len, edges_len, counts_len) as usize] += 1;
    }
    println!("how often each number was given: {seen:?}");
    assert!(seen.iter().all(|&times| times > 0));
}

#[test]
fn every_length_of_a_small_parcel() {
    let mut r = Random::new(32);
    for (code, pairs, data) in [(1, 0, 0), (9, 1, 0), (2, 2, 2), (1, 3, 5)] {
        let parcel = parcel_of(&mut r, code, pairs, data);
        for length in 0..=parcel.len() {
            for counts_len in [0, 2, 3, 4] {
                compare_read(&mut r, &parcel[..length], code + data, pairs * 2, counts_len);
            }
        }
        for memory_len in 0..=code + data + 1 {
            for edges_len in 0..=pairs * 2 + 1 {
                compare_read(&mut r, &parcel, memory_len, edges_len, 3);
            }
        }
    }
}

#[test]
fn limits() {
    let mut r = Random::new(33);
    for code in [0usize, 1, 2048, 2049] {
        for pairs in [0usize, 1, 2048, 2049] {
            for data in [0usize, 1, 2048, 2049] {
                let parcel = parcel_of(&mut r, code, pairs, data);
                let answer = compare_read(&mut r, &parcel, code + data, pairs * 2, 3);
                let fine = (1..=2048).contains(&code) && pairs <= 2048 && data <= 2048;
                assert_eq!(answer, if fine { 0 } else { 2 });
            }
        }
    }
}

#[test]
fn parcels_are_written_as_the_reference_says() {
    let mut r = Random::new(34);
    let mut seen = [0usize; 19];
    for _ in 0..110_000 {
        let (code, data) = (1 + r.below(20), r.below(12));
        let memory: Vec<u64> = (0..code + data).map(|_| r.word()).collect();
        let pairs = r.below(12);
        let mut edges = rising_edges(&mut r, pairs);
        damage_sequence(&mut r, &mut edges);
        let numbers = edges.len();
        let n = if r.chance(10) { r.pick(&[0, code + data + 1, usize::MAX, 2049]) } else { code };
        let size = 12 + (code + data) * 8 + numbers * 2;
        let parcel_len = if r.chance(6) { r.below(size) } else { size + r.below(4) };
        let count_len = if r.chance(12) { 0 } else { 1 + r.below(3) };
        seen[compare_write(&mut r, &memory, n, &edges, parcel_len, count_len) as usize] += 1;
    }
    println!("how often each number was given: {seen:?}");
    assert!([0, 5, 6, 18].iter().all(|&number| seen[number] > 1000), "{seen:?}");
}

#[test]
fn writing_at_the_limits() {
    let mut r = Random::new(35);
    for code in [0usize, 1, 2048, 2049] {
        for data in [0usize, 1, 2048, 2049] {
            for numbers in [0usize, 1, 2, 4095, 4096, 4097, 4098] {
                let memory: Vec<u64> = (0..code + data).map(|_| r.word()).collect();
                let mut edges = rising_edges(&mut r, numbers / 2);
                edges.extend((edges.len()..numbers).map(|_| 7));
                if r.chance(3) {
                    edges.reverse();
                }
                let size = 12 + memory.len() * 8 + numbers * 2;
                for parcel_len in [0, size - 1, size, size + 1] {
                    compare_write(&mut r, &memory, code, &edges, parcel_len, 1);
                    compare_write(&mut r, &memory, code, &edges, parcel_len, 0);
                }
            }
        }
    }
}

#[test]
fn what_is_written_is_read_back() {
    let mut r = Random::new(36);
    for _ in 0..20_000 {
        let (code, pairs, data) = (1 + r.below(30), r.below(20), r.below(30));
        let program = post_guard::Program {
            memory: (0..code + data).map(|_| r.word()).collect(),
            code_words: code,
            edges: rising_edges(&mut r, pairs),
        };
        let parcel = program.to_parcel().unwrap();
        assert_eq!(program.to_parcel_placed().as_ref(), Ok(&parcel));
        let back = post_guard::Program::from_parcel(&parcel).unwrap();
        assert_eq!(back, program);
        assert_eq!(back.to_parcel().unwrap(), parcel);
    }
}

/// What is read is written back exactly where its edges rise; elsewhere it is 18, at the first edge that does not, until the edges are
/// sorted.
#[test]
fn what_is_read_is_written_back_where_the_edges_rise() {
    let mut r = Random::new(37);
    let mut falls = 0;
    for _ in 0..20_000 {
        let (code, pairs, data) = (1 + r.below(10), r.below(8), r.below(10));
        let mut edges = rising_edges(&mut r, pairs);
        damage_sequence(&mut r, &mut edges);
        edges.truncate(edges.len() / 2 * 2);
        let memory = (0..code + data).map(|_| r.word()).collect();
        let parcel = common::parcel_of(&common::Program { memory, n: code, edges: edges.clone() }).unwrap();
        let mut program = post_guard::Program::from_parcel(&parcel).unwrap();
        assert_eq!(program.edges, edges);
        let listed: Vec<&[u16]> = edges.chunks(2).collect();
        match (1..listed.len()).find(|&k| listed[k] <= listed[k - 1]) {
            None => assert_eq!(program.to_parcel_placed(), Ok(parcel)),
            Some(k) => {
                falls += 1;
                let place = Some(post_guard::Place::Edge(k));
                let fault = post_guard::Fault { refusal: post_guard::Refusal::EdgeNotRising, place };
                assert_eq!(program.to_parcel_placed(), Err(fault));
                assert_eq!(program.to_parcel(), Err(post_guard::Refusal::EdgeNotRising));
                program.sort_edges();
                let sorted: std::collections::BTreeSet<&[u16]> = listed.into_iter().collect();
                assert_eq!(program.edges, sorted.into_iter().collect::<Vec<_>>().concat());
                let back = post_guard::Program::from_parcel(&program.to_parcel().unwrap()).unwrap();
                assert_eq!(back, program);
            }
        }
    }
    assert!(falls > 1000, "{falls}");
}

//! Shortest paths, from document 02, K9: two searches for the tests, one of them through every path of a small program; and, for
//! the benchmarks, one with flat arrays.
use super::{checkers, checkers::Answer, decode, is_successor, Op, Technique};
use std::collections::VecDeque;

/// A shortest path where there is one, or the number with its place. That a lent place is too short is the caller's to tell, after
/// these.
pub type Found = Result<Option<Vec<u16>>, Answer>;

/// the successors of an address, from the lowest: those that `is_successor` says
pub fn successors(code: &[u64], edges: &[u16], from: u16) -> Vec<u16> {
    let listed = |edge: &[u16]| (edge[0] == from).then_some(edge[1]);
    let mut next: Vec<u16> = match decode(code[usize::from(from)]) {
        Op::Jmp(_) => edges.chunks(2).filter_map(listed).collect(),
        Op::Ret => (0..code.len() as u16).filter(|&to| is_successor(code, edges, from.into(), to.into())).collect(),
        Op::Bgt(_, _, w) | Op::Jd(w) | Op::Call(w) => vec![from + 1, w as u16],
        _ => vec![from + 1],
    };
    next.retain(|&to| is_successor(code, edges, from.into(), to.into()));
    next.sort_unstable();
    next.dedup();
    next
}

/// What is found for each of the addresses. A breadth-first search back from an address tells how many steps each other is away.
/// The path then goes from 0 to the lowest successor that is one step nearer, again and again.
pub fn shortest_paths(technique: Technique, memory: &[u64], n: usize, edges: &[u16], addresses: &[u64]) -> Vec<Found> {
    let verdict = checkers::check(technique, memory, n, edges);
    if verdict.0 != 0 {
        return vec![Err(verdict); addresses.len()];
    }
    let after: Vec<Vec<u16>> = (0..n as u16).map(|from| successors(&memory[..n], edges, from)).collect();
    let mut before: Vec<Vec<u16>> = vec![Vec::new(); n];
    for from in 0..n {
        after[from].iter().for_each(|&to| before[usize::from(to)].push(from as u16));
    }
    let in_code = |address: u64| if address < n as u64 { Ok(address as u16) } else { Err((23, 0, 0)) };
    addresses.iter().map(|&address| Ok(path_along(&after, &before, in_code(address)?))).collect()
}

pub fn shortest_path(technique: Technique, memory: &[u64], n: usize, edges: &[u16], address: u64) -> Found {
    shortest_paths(technique, memory, n, edges, &[address]).remove(0)
}

fn path_along(after: &[Vec<u16>], before: &[Vec<u16>], address: u16) -> Option<Vec<u16>> {
    let mut away: Vec<Option<usize>> = vec![None; after.len()];
    away[usize::from(address)] = Some(0);
    let mut queue = VecDeque::from([address]);
    while let Some(to) = queue.pop_front() {
        let steps = away[usize::from(to)].unwrap() + 1;
        for &from in &before[usize::from(to)] {
            if away[usize::from(from)].is_none() {
                away[usize::from(from)] = Some(steps);
                queue.push_back(from);
            }
        }
    }
    let mut path = vec![0];
    for steps in (0..away[0]?).rev() {
        let last = usize::from(*path.last().unwrap());
        path.push(after[last].iter().copied().find(|&to| away[usize::from(to)] == Some(steps)).unwrap());
    }
    Some(path)
}

/// Every path from 0 to the address that passes no address twice, in any sequence: for small programs.
pub fn every_path(code: &[u64], edges: &[u16], address: u16) -> Vec<Vec<u16>> {
    let mut found = Vec::new();
    let mut open = vec![vec![0]];
    while let Some(path) = open.pop() {
        let last = *path.last().unwrap();
        if last == address {
            found.push(path);
            continue;
        }
        for to in (0..code.len() as u16).filter(|to| !path.contains(to)) {
            if is_successor(code, edges, last.into(), to.into()) {
                open.push([&path[..], &[to]].concat());
            }
        }
    }
    found
}

/// "The fewest graph steps; among equals, the one with the lower address where they first part."
pub fn comes_first(one: &[u16], two: &[u16]) -> bool {
    if one.len() != two.len() {
        return one.len() < two.len();
    }
    match one.iter().zip(two).find(|(a, b)| a != b) {
        Some((a, b)) => a < b,
        None => false,
    }
}

const NONE: u16 = u16::MAX;

/// The addresses that were found, in their sequence, and which one each of the code was found from.
struct Search {
    found: Vec<u16>,
    from: Vec<u16>,
}

impl Search {
    /// successors outside code are left out
    #[inline(always)]
    fn find(&mut self, to: usize, from: u16) {
        if let Some(known) = self.from.get_mut(to) {
            if *known == NONE {
                *known = from;
                self.found.push(to as u16);
            }
        }
    }
}

/// The same forward from 0, with flat arrays of n numbers, in time that follows words plus edges. It puts the path at the front of
/// the place, and gives how many addresses it has.
///
/// Successors are looked at from the lowest, so an address is found first from the one whose own path comes first: the way back is
/// the path. All rets have the same successors, and the first ret that is found finds them.
#[inline(never)]
pub fn shortest_path_flat(
    technique: Technique,
    memory: &[u64],
    n: usize,
    edges: &[u16],
    address: u64,
    path: &mut [u16],
) -> Result<Option<usize>, Answer> {
    let verdict = checkers::check_flat(technique, memory, n, edges);
    if verdict.0 != 0 {
        return Err(verdict);
    }
    if address >= n as u64 {
        return Err((23, 0, 0));
    }
    let (words, address) = (&memory[..n], address as usize);
    let (pairs, _) = edges.as_chunks::<2>();
    let first = first_edges(n, pairs);
    let mut search = Search { found: Vec::with_capacity(n), from: vec![NONE; n] };
    search.find(0, 0);
    let (mut next, mut returned) = (0, false);
    while search.from[address] == NONE {
        let Some(&from) = search.found.get(next) else { return Ok(None) };
        next += 1;
        let after = usize::from(from) + 1;
        match decode(words[usize::from(from)]) {
            Op::Bgt(_, _, w) => {
                let w = w as usize;
                search.find(after.min(w), from);
                search.find(after.max(w), from);
            }
            Op::Jd(w) | Op::Call(w) => search.find(w as usize, from),
            Op::Jmp(_) => {
                let listed = pairs[usize::from(first[usize::from(from)])..].iter();
                listed.take_while(|edge| edge[0] == from).for_each(|edge| search.find(edge[1].into(), from));
            }
            Op::Ret if !returned => {
                returned = true;
                let calls = words.iter().enumerate().filter(|(_, &word)| matches!(decode(word), Op::Call(_)));
                calls.for_each(|(call, _)| search.find(call + 1, from));
            }
            Op::Ret | Op::Illegal => {}
            _ => search.find(after, from),
        }
    }
    put_way_back(&search.from, address, path).map(Some)
}

/// Of each jump, which of the edges is its first: they rise, so those of one jump follow each other.
fn first_edges(n: usize, pairs: &[[u16; 2]]) -> Vec<u16> {
    let mut first = vec![0; n];
    for (k, &[jump, _]) in pairs.iter().enumerate().rev() {
        first[usize::from(jump)] = k as u16;
    }
    first
}

/// puts the way back from the address to 0, in the other direction
fn put_way_back(from: &[u16], address: usize, path: &mut [u16]) -> Result<usize, Answer> {
    let (mut count, mut back) = (1, address);
    while back != 0 {
        back = usize::from(from[back]);
        count += 1;
    }
    let path = path.get_mut(..count).ok_or((5, 0, 0))?;
    back = address;
    for to in path.iter_mut().rev() {
        *to = back as u16;
        back = usize::from(from[back]);
    }
    Ok(count)
}

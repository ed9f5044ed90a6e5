//! Three checkers: the papers' words read naively, for the tests; and, for the benchmarks, one with sets and one with flat arrays.
//! The first and the last take edge numbers of either edition.
use super::{decode, shaped, Op, Technique};
use std::collections::{BTreeSet, HashMap, HashSet};

/// A number of an edge: 16 bits, or 32 in the second edition.
pub trait EdgeNumber: Copy + Ord {
    fn address(self) -> usize;
}

impl EdgeNumber for u16 {
    #[inline(always)]
    fn address(self) -> usize {
        self as usize
    }
}

impl EdgeNumber for u32 {
    #[inline(always)]
    fn address(self) -> usize {
        self as usize
    }
}

/// A verdict: its number, the kind of its place (0 none, 1 an edge, 2 an address), and the place.
pub type Answer = (u32, u64, u64);

const ACCEPTED: Answer = (0, 0, 0);

fn at_edge(number: u32, k: usize) -> Answer {
    (number, 1, k as u64)
}

fn at_address(number: u32, a: usize) -> Answer {
    (number, 2, a as u64)
}

fn is_jump(op: Op) -> bool {
    matches!(op, Op::Jmp(_))
}

/// the words before the jmp at `a` and the jmp itself, for a target set with this ID; the register of the addi is free
fn jump_sequence(technique: Technique, n: usize, id: usize, rs: u8) -> Vec<Op> {
    let halt = (n - 1) as u32;
    let mut words = vec![Op::Addi(0, rs, 0)];
    if technique == Technique::MemoryGuards {
        words.extend([Op::Movi(1, halt), Op::Movi(2, 0), Op::Bgt(0, 1, halt), Op::Bgt(2, 0, halt)]);
    }
    words.extend([Op::Ld(1, 0, 0), Op::Movi(2, id as u32), Op::Bgt(1, 2, halt), Op::Bgt(2, 1, halt), Op::Jmp(0)]);
    words
}

fn jump_guarded(technique: Technique, ops: &[Op], a: usize, id: usize) -> bool {
    let n = ops.len();
    let length = if technique == Technique::Plain { 6 } else { 10 };
    if a + 1 < length {
        return false;
    }
    let first = a + 1 - length;
    match ops[first] {
        Op::Addi(0, rs, 0) => ops[first..=a] == jump_sequence(technique, n, id, rs)[..],
        _ => false,
    }
}

fn store_guarded(ops: &[Op], len: usize, a: usize) -> bool {
    let n = ops.len();
    let halt = (n - 1) as u32;
    if len == n || a < 5 {
        return false;
    }
    matches!(ops[a - 5], Op::Addi(0, _, _))
        && ops[a - 4] == Op::Movi(1, (len - 1) as u32)
        && ops[a - 3] == Op::Movi(2, n as u32)
        && ops[a - 2] == Op::Bgt(0, 1, halt)
        && ops[a - 1] == Op::Bgt(2, 0, halt)
        && matches!(ops[a], Op::St(0, _, 0))
}

/// Every rule in its words, with sets that are compared pair by pair.
pub fn check<E: EdgeNumber>(technique: Technique, memory: &[u64], n: usize, edges: &[E]) -> Answer {
    if !shaped(memory.len(), n) || edges.len() % 2 != 0 || edges.len() > 4096 {
        return (6, 0, 0);
    }
    let ops: Vec<Op> = memory[..n].iter().map(|&word| decode(word)).collect();
    let pairs: Vec<(usize, usize)> = edges.chunks(2).map(|e| (e[0].address(), e[1].address())).collect();
    for (k, &(jump, _)) in pairs.iter().enumerate() {
        if jump >= n || !is_jump(ops[jump]) {
            return at_edge(7, k);
        }
    }
    for (k, &(_, target)) in pairs.iter().enumerate() {
        if target >= n {
            return at_edge(8, k);
        }
    }
    for k in 1..pairs.len() {
        if pairs[k] <= pairs[k - 1] {
            return at_edge(18, k);
        }
    }
    let jumps: Vec<usize> = (0..n).filter(|&a| is_jump(ops[a])).collect();
    let mut sets: HashMap<usize, BTreeSet<usize>> = HashMap::new();
    for &(jump, target) in &pairs {
        sets.entry(jump).or_default().insert(target);
    }
    for &a in &jumps {
        if !sets.contains_key(&a) {
            return at_address(9, a);
        }
    }
    for &a in &jumps {
        for &b in &jumps {
            if !sets[&a].is_disjoint(&sets[&b]) && sets[&a] != sets[&b] {
                return at_address(10, a);
            }
        }
    }
    if ops[n - 1] != Op::Illegal {
        return at_address(11, n - 1);
    }
    let id = |jump: usize| *sets[&jump].first().unwrap();
    let mut ids: HashMap<usize, usize> = HashMap::new();
    for &(jump, target) in &pairs {
        ids.insert(target, id(jump));
    }
    for a in 0..n {
        let fine = match ids.get(&a) {
            Some(&id) => ops[a] == Op::Label(id as u32),
            None => !matches!(ops[a], Op::Label(_)),
        };
        if !fine {
            return at_address(12, a);
        }
    }
    let guards = technique == Technique::MemoryGuards;
    for a in 0..n {
        if guards && matches!(ops[a], Op::St(..)) && !store_guarded(&ops, memory.len(), a) {
            return at_address(13, a);
        }
    }
    for a in 0..n {
        if is_jump(ops[a]) && !jump_guarded(technique, &ops, a, id(a)) {
            return at_address(14, a);
        }
    }
    let mut inside: HashSet<usize> = HashSet::new();
    for a in 0..n {
        if is_jump(ops[a]) {
            let length = if guards { 10 } else { 6 };
            inside.extend(a + 2 - length..=a);
        }
        if guards && matches!(ops[a], Op::St(..)) {
            inside.extend(a - 4..=a);
        }
    }
    for a in 0..n {
        if let Op::Bgt(_, _, w) | Op::Jd(w) | Op::Call(w) = ops[a] {
            if w as usize >= n || inside.contains(&(w as usize)) {
                return at_address(15, a);
            }
        }
    }
    ACCEPTED
}

/// The same with sets and maps, as one would write it without care for time: sets are compared once for each class.
#[inline(never)]
pub fn check_with_sets(technique: Technique, memory: &[u64], n: usize, edges: &[u16]) -> Answer {
    if !shaped(memory.len(), n) || edges.len() % 2 != 0 || edges.len() > 4096 {
        return (6, 0, 0);
    }
    let ops: Vec<Op> = memory[..n].iter().map(|&word| decode(word)).collect();
    let mut sets: HashMap<u16, BTreeSet<u16>> = HashMap::new();
    for (k, e) in edges.chunks_exact(2).enumerate() {
        if e[0] as usize >= n || !is_jump(ops[e[0] as usize]) {
            return at_edge(7, k);
        }
        sets.entry(e[0]).or_default().insert(e[1]);
    }
    if let Some(k) = edges.chunks_exact(2).position(|e| e[1] as usize >= n) {
        return at_edge(8, k);
    }
    if let Some(k) = edges.chunks_exact(2).zip(edges[2.min(edges.len())..].chunks_exact(2)).position(|(a, b)| a >= b) {
        return at_edge(18, k + 1);
    }
    if let Some(a) = (0..n).find(|&a| is_jump(ops[a]) && !sets.contains_key(&(a as u16))) {
        return at_address(9, a);
    }
    let mut classes: HashMap<&BTreeSet<u16>, usize> = HashMap::new();
    let mut class_of_target: HashMap<u16, HashSet<usize>> = HashMap::new();
    for set in sets.values() {
        let fresh = classes.len();
        classes.entry(set).or_insert(fresh);
    }
    for (set, &class) in &classes {
        for &target in *set {
            class_of_target.entry(target).or_default().insert(class);
        }
    }
    for a in 0..n {
        if is_jump(ops[a]) && sets[&(a as u16)].iter().any(|target| class_of_target[target].len() > 1) {
            return at_address(10, a);
        }
    }
    if ops[n - 1] != Op::Illegal {
        return at_address(11, n - 1);
    }
    let mut ids: HashMap<u16, u16> = HashMap::new();
    for set in classes.keys() {
        for &target in *set {
            ids.insert(target, *set.first().unwrap());
        }
    }
    for a in 0..n {
        let fine = match ids.get(&(a as u16)) {
            Some(&id) => ops[a] == Op::Label(u32::from(id)),
            None => !matches!(ops[a], Op::Label(_)),
        };
        if !fine {
            return at_address(12, a);
        }
    }
    let guards = technique == Technique::MemoryGuards;
    let mut inside: HashSet<u32> = HashSet::new();
    for a in 0..n {
        if guards && matches!(ops[a], Op::St(..)) {
            if !store_guarded(&ops, memory.len(), a) {
                return at_address(13, a);
            }
            inside.extend(a as u32 - 4..=a as u32);
        }
    }
    for a in 0..n {
        if is_jump(ops[a]) {
            if !jump_guarded(technique, &ops, a, *sets[&(a as u16)].first().unwrap() as usize) {
                return at_address(14, a);
            }
            let length = if guards { 10 } else { 6 };
            inside.extend(a as u32 + 2 - length..=a as u32);
        }
    }
    for a in 0..n {
        if let Op::Bgt(_, _, w) | Op::Jd(w) | Op::Call(w) = ops[a] {
            if w as usize >= n || inside.contains(&w) {
                return at_address(15, a);
            }
        }
    }
    ACCEPTED
}

/// The same with flat arrays of n numbers, in time that follows words plus edges.
#[inline(never)]
pub fn check_flat<E: EdgeNumber>(technique: Technique, memory: &[u64], n: usize, edges: &[E]) -> Answer {
    if !shaped(memory.len(), n) || edges.len() % 2 != 0 || edges.len() > 4096 {
        return (6, 0, 0);
    }
    const NONE: u16 = u16::MAX;
    let ops: Vec<Op> = memory[..n].iter().map(|&word| decode(word)).collect();
    for (k, e) in edges.chunks_exact(2).enumerate() {
        let jump = e[0].address();
        if jump >= n || !is_jump(ops[jump]) {
            return at_edge(7, k);
        }
    }
    let mut lowest = vec![NONE; n];
    for (k, e) in edges.chunks_exact(2).enumerate() {
        if e[1].address() >= n {
            return at_edge(8, k);
        }
        let low = &mut lowest[e[0].address()];
        *low = (*low).min(e[1].address() as u16);
    }
    if let Some(k) = edges.windows(4).step_by(2).position(|e| (e[0], e[1]) >= (e[2], e[3])) {
        return at_edge(18, k + 1);
    }
    for a in 0..n {
        if is_jump(ops[a]) && lowest[a] == NONE {
            return at_address(9, a);
        }
    }
    // each jump's edges as a list, to count its targets without repeats
    let mut owner = vec![NONE; n];
    let mut head = vec![NONE; n];
    let mut link = vec![NONE; edges.len() / 2];
    for (k, e) in edges.chunks_exact(2).enumerate() {
        owner[e[1].address()] = lowest[e[0].address()];
        link[k] = head[e[0].address()];
        head[e[0].address()] = k as u16;
    }
    let mut size = vec![0u16; n];
    for a in 0..n {
        if owner[a] != NONE {
            size[owner[a] as usize] += 1;
        }
    }
    let mut seen = vec![NONE; n];
    let mut uneven = false;
    let mut tainted = vec![false; n];
    for a in 0..n {
        let mut k = head[a];
        let mut count = 0;
        let mut good = true;
        while k != NONE {
            let target = edges[k as usize * 2 + 1].address();
            if seen[target] != a as u16 {
                seen[target] = a as u16;
                count += 1;
                good &= owner[target] == lowest[a];
            }
            k = link[k as usize];
        }
        if head[a] != NONE && !(good && count == size[lowest[a] as usize]) {
            uneven = true;
            let mut k = head[a];
            while k != NONE {
                tainted[edges[k as usize * 2 + 1].address()] = true;
                k = link[k as usize];
            }
        }
    }
    if uneven {
        for a in 0..n {
            let mut k = head[a];
            while k != NONE {
                if tainted[edges[k as usize * 2 + 1].address()] {
                    return at_address(10, a);
                }
                k = link[k as usize];
            }
        }
    }
    if ops[n - 1] != Op::Illegal {
        return at_address(11, n - 1);
    }
    for a in 0..n {
        let fine = match ops[a] {
            Op::Label(w) => owner[a] != NONE && w == u32::from(owner[a]),
            _ => owner[a] == NONE,
        };
        if !fine {
            return at_address(12, a);
        }
    }
    let guards = technique == Technique::MemoryGuards;
    let halt = (n - 1) as u32;
    if guards {
        for a in 0..n {
            if matches!(ops[a], Op::St(..)) && !store_guarded(&ops, memory.len(), a) {
                return at_address(13, a);
            }
        }
    }
    let length = if guards { 10 } else { 6 };
    for a in 0..n {
        if is_jump(ops[a]) {
            let id = u32::from(lowest[a]);
            let fine = ops[a] == Op::Jmp(0)
                && a + 1 >= length
                && ops[a - 1] == Op::Bgt(2, 1, halt)
                && ops[a - 2] == Op::Bgt(1, 2, halt)
                && ops[a - 3] == Op::Movi(2, id)
                && ops[a - 4] == Op::Ld(1, 0, 0)
                && matches!(ops[a + 1 - length], Op::Addi(0, _, 0))
                && (!guards
                    || (ops[a - 5] == Op::Bgt(2, 0, halt)
                        && ops[a - 6] == Op::Bgt(0, 1, halt)
                        && ops[a - 7] == Op::Movi(2, 0)
                        && ops[a - 8] == Op::Movi(1, halt)));
            if !fine {
                return at_address(14, a);
            }
        }
    }
    let mut inside = vec![false; n];
    for a in 0..n {
        if is_jump(ops[a]) {
            inside[a + 2 - length..=a].fill(true);
        }
        if guards && matches!(ops[a], Op::St(..)) {
            inside[a - 4..=a].fill(true);
        }
    }
    for a in 0..n {
        if let Op::Bgt(_, _, w) | Op::Jd(w) | Op::Call(w) = ops[a] {
            if inside.get(w as usize) != Some(&false) {
                return at_address(15, a);
            }
        }
    }
    ACCEPTED
}

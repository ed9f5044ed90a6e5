//! The second edition of the parcel, from document 02, K6, and the converters: apart from the first edition's reader and writer.
use super::{checkers::Answer, shaped};

/// how many bytes an edge has in each edition
const EDGE: usize = 4;
const WIDE_EDGE: usize = 8;

/// The items of one section as bytes, and what follows them, or 1 to 3.
#[inline(always)]
fn section(rest: &[u8], least: u32, item: usize) -> Result<(&[u8], &[u8]), u32> {
    let (count, rest) = rest.split_first_chunk().ok_or(1u32)?;
    let count = u32::from_le_bytes(*count);
    if !(least..=2048).contains(&count) {
        return Err(2);
    }
    rest.split_at_checked(count as usize * item).ok_or(3)
}

/// Code words, edges and data words of a whole parcel as bytes, or 1 to 4.
#[inline(always)]
fn sections(parcel: &[u8], edge: usize) -> Result<[&[u8]; 3], u32> {
    let (code, rest) = section(parcel, 1, 8)?;
    let (edges, rest) = section(rest, 0, edge)?;
    let (data, rest) = section(rest, 0, 8)?;
    if rest.is_empty() {
        Ok([code, edges, data])
    } else {
        Err(4)
    }
}

#[inline(always)]
fn words(from: &[u8], to: &mut [u64]) {
    for (to, from) in to.iter_mut().zip(from.chunks_exact(8)) {
        *to = u64::from_le_bytes(from.try_into().unwrap());
    }
}

#[inline(always)]
fn number(bytes: &[u8]) -> u32 {
    u32::from_le_bytes(bytes.try_into().unwrap())
}

/// the counts of code words, edges and data words, or the number
#[inline(never)]
pub fn read_wide(parcel: &[u8], memory: &mut [u64], edges: &mut [u32]) -> Result<(usize, usize, usize), u32> {
    let [code, pairs, data] = sections(parcel, WIDE_EDGE)?;
    let (n, e, d) = (code.len() / 8, pairs.len() / WIDE_EDGE, data.len() / 8);
    if memory.len() < n + d || edges.len() < 2 * e {
        return Err(5);
    }
    let (to_code, to_data) = memory.split_at_mut(n);
    words(code, to_code);
    words(data, to_data);
    for (to, from) in edges.iter_mut().zip(pairs.chunks_exact(4)) {
        *to = number(from);
    }
    Ok((n, e, d))
}

/// the number of bytes, or the number with its place
#[inline(never)]
pub fn write_wide(memory: &[u64], n: usize, edges: &[u32], parcel: &mut [u8]) -> Result<usize, Answer> {
    if !shaped(memory.len(), n) || edges.len() % 2 == 1 || edges.len() > 4096 {
        return Err((6, 0, 0));
    }
    for (k, e) in edges.windows(4).step_by(2).enumerate() {
        if e[2] < e[0] || e[2] == e[0] && e[3] <= e[1] {
            return Err((18, 1, k as u64 + 1));
        }
    }
    let size = 12 + memory.len() * 8 + edges.len() * 4;
    let Some(parcel) = parcel.get_mut(..size) else { return Err((5, 0, 0)) };
    let (code, data) = memory.split_at(n);
    let (to_code, rest) = parcel.split_at_mut(4 + code.len() * 8);
    let (to_edges, to_data) = rest.split_at_mut(4 + edges.len() * 4);
    put_words(code, to_code);
    to_edges[..4].copy_from_slice(&(edges.len() as u32 / 2).to_le_bytes());
    for (to, x) in to_edges[4..].chunks_exact_mut(4).zip(edges) {
        to.copy_from_slice(&x.to_le_bytes());
    }
    put_words(data, to_data);
    Ok(size)
}

/// a section of words, its count before it
#[inline(always)]
fn put_words(words: &[u64], to: &mut [u8]) {
    let (count, items) = to.split_at_mut(4);
    count.copy_from_slice(&(words.len() as u32).to_le_bytes());
    for (to, x) in items.chunks_exact_mut(8).zip(words) {
        to.copy_from_slice(&x.to_le_bytes());
    }
}

/// the number of bytes, or the number with its place
#[inline(never)]
pub fn widen(parcel: &[u8], wide: &mut [u8]) -> Result<usize, Answer> {
    let [code, edges, data] = sections(parcel, EDGE).map_err(|number| (number, 0, 0))?;
    let size = parcel.len() + edges.len();
    let Some(wide) = wide.get_mut(..size) else { return Err((5, 0, 0)) };
    // the bytes before the edges, those of the edges, and those after them, each with its counts
    let before = 8 + code.len();
    let (to_before, rest) = wide.split_at_mut(before);
    let (to_edges, to_after) = rest.split_at_mut(edges.len() * 2);
    to_before.copy_from_slice(&parcel[..before]);
    for (to, from) in to_edges.chunks_exact_mut(4).zip(edges.chunks_exact(2)) {
        let number = u16::from_le_bytes(from.try_into().unwrap());
        to.copy_from_slice(&u32::from(number).to_le_bytes());
    }
    to_after.copy_from_slice(&parcel[parcel.len() - 4 - data.len()..]);
    Ok(size)
}

/// the number of bytes, or the number with its place
#[inline(never)]
pub fn narrow(wide: &[u8], parcel: &mut [u8]) -> Result<usize, Answer> {
    let [code, edges, data] = sections(wide, WIDE_EDGE).map_err(|number| (number, 0, 0))?;
    let far = |edge: &[u8]| number(&edge[..4]) > 65_535 || number(&edge[4..]) > 65_535;
    if let Some(k) = edges.chunks_exact(WIDE_EDGE).position(far) {
        return Err((19, 1, k as u64));
    }
    let size = wide.len() - edges.len() / 2;
    let Some(parcel) = parcel.get_mut(..size) else { return Err((5, 0, 0)) };
    let before = 8 + code.len();
    let (to_before, rest) = parcel.split_at_mut(before);
    let (to_edges, to_after) = rest.split_at_mut(edges.len() / 2);
    to_before.copy_from_slice(&wide[..before]);
    for (to, from) in to_edges.chunks_exact_mut(2).zip(edges.chunks_exact(4)) {
        to.copy_from_slice(&(number(from) as u16).to_le_bytes());
    }
    to_after.copy_from_slice(&wide[wide.len() - 4 - data.len()..]);
    Ok(size)
}

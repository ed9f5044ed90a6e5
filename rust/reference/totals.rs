//! Totals over parcels: sums and cross products of 128 bits.
use super::figures::Report;

pub const MOST_PARCELS: u64 = 65_535;

/// The largest freedom: the parcel's place, counted from 0, its distinct edges and its possible ones.
pub type Largest = (u64, u64, u64);

#[derive(Clone, Copy, PartialEq, Eq, Debug, Default)]
pub struct Totals {
    pub parcels: u64,
    pub edges: u64,
    pub possible: u64,
    pub largest: Option<Largest>,
}

/// What became of a parcel, with a refusal's number and place.
#[derive(Clone, Copy, PartialEq, Eq, Debug)]
pub enum Added {
    Counted,
    WithoutJumps,
    Refused(u32, u64, u64),
    Unchanged,
}

/// Adds a report to totals.
pub fn add(totals: &mut Totals, report: &Report) -> Added {
    if totals.parcels >= MOST_PARCELS {
        return Added::Unchanged;
    }
    let place = totals.parcels;
    let (c, d) = match *report {
        Ok(figures) => match figures.freedom {
            Some((c, d)) => (u64::from(c), u64::from(d)),
            None => {
                totals.parcels += 1;
                return Added::WithoutJumps;
            }
        },
        Err((number, kind, at)) => {
            totals.parcels += 1;
            return Added::Refused(number, kind, at);
        }
    };
    let edges = u128::from(totals.edges) + u128::from(c);
    let possible = u128::from(totals.possible) + u128::from(d);
    if edges > u128::from(u64::MAX) || possible > u128::from(u64::MAX) {
        return Added::Unchanged;
    }
    *totals = Totals {
        parcels: place + 1,
        edges: edges as u64,
        possible: possible as u64,
        largest: match totals.largest {
            Some(kept) if !passes((c, d), (kept.1, kept.2)) => Some(kept),
            _ => Some((place, c, d)),
        },
    };
    Added::Counted
}

/// c of d is a larger part than a of b
fn passes((c, d): (u64, u64), (a, b): (u64, u64)) -> bool {
    u128::from(c) * u128::from(b) > u128::from(a) * u128::from(d)
}

/// The totals in six numbers, or none where a number is outside its range. The last three say nothing where the last is 0.
pub fn read(numbers: [u64; 6]) -> Option<Totals> {
    let [parcels, edges, possible, place, a, b] = numbers;
    if parcels > MOST_PARCELS || place > MOST_PARCELS || a >= 1 << 32 || b >= 1 << 32 {
        return None;
    }
    Some(Totals { parcels, edges, possible, largest: if b == 0 { None } else { Some((place, a, b)) } })
}

pub fn written(totals: Totals) -> [u64; 6] {
    let (place, a, b) = totals.largest.unwrap_or((0, 0, 0));
    [totals.parcels, totals.edges, totals.possible, place, a, b]
}

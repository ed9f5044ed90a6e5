//! Times of two sides in turns, and the table of their ratios.
use std::fmt::Debug;
use std::hint::black_box;
use std::time::Instant;

pub const ROUNDS: usize = 201;

/// Nanoseconds for each item.
#[derive(Clone, Copy)]
pub struct Times {
    pub ours: f64,
    pub theirs: f64,
}

/// Medians over rounds: each times a batch of one side and a batch of the other, and every second one begins with the other.
///
/// Times depend on where places stand to each other. So both sides are lent the same places, and rounds go down a page of the
/// stack. Both sides give the same answer, a number: with a larger one, the time to copy it would count.
pub fn measure<L, A: PartialEq + Debug>(
    items: usize,
    lent: &mut L,
    ours: impl Fn(&mut L) -> A,
    theirs: impl Fn(&mut L) -> A,
) -> Times {
    assert_eq!(ours(lent), theirs(lent));
    let (our_calls, their_calls) = (calls_in_a_batch(lent, &ours), calls_in_a_batch(lent, &theirs));
    let (mut our_times, mut their_times) = (Vec::new(), Vec::new());
    for round in 0..ROUNDS {
        let mut times = || {
            if round % 2 == 0 {
                our_times.push(nanoseconds(our_calls, lent, &ours));
            }
            their_times.push(nanoseconds(their_calls, lent, &theirs));
            if round % 2 == 1 {
                our_times.push(nanoseconds(our_calls, lent, &ours));
            }
        };
        deeper(round / 2 % 16, &mut times);
    }
    Times {
        ours: median(our_times) / (our_calls * items) as f64,
        theirs: median(their_times) / (their_calls * items) as f64,
    }
}

/// does it so many times some 270 bytes further down the stack
#[inline(never)]
fn deeper(times: usize, what: &mut impl FnMut()) {
    let room = [0u8; 208];
    black_box(&room);
    if times == 0 {
        what();
    } else {
        deeper(times - 1, what);
    }
    black_box(&room);
}

/// how many calls take a tenth of a millisecond or more
fn calls_in_a_batch<L, A>(lent: &mut L, call: &impl Fn(&mut L) -> A) -> usize {
    let mut calls = 1;
    while nanoseconds(calls, lent, call) < 100_000.0 {
        calls *= 2;
    }
    calls
}

/// How long so many calls take. It is out of line, so that the loop of one side does not take registers from the other's, and
/// what is lent comes out of `black_box`, so that neither side is compiled for the numbers of this benchmark.
#[inline(never)]
fn nanoseconds<L, A>(calls: usize, lent: &mut L, call: &impl Fn(&mut L) -> A) -> f64 {
    let begun = Instant::now();
    for _ in 0..calls {
        black_box(call(black_box(lent)));
    }
    begun.elapsed().as_nanos() as f64
}

fn median(mut xs: Vec<f64>) -> f64 {
    xs.sort_by(f64::total_cmp);
    xs[xs.len() / 2]
}

/// The table of ratios, printed row by row. It remembers the rows that are over their goal.
#[derive(Default)]
pub struct Table {
    over: Vec<String>,
}

impl Table {
    pub fn head() -> Table {
        println!("| what | Post guard | plain Rust | ratio | goal |");
        println!("|---|---|---|---|---|");
        Table::default()
    }

    pub fn row(&mut self, what: &str, times: Times, goal: f64) {
        let Times { ours, theirs } = times;
        let ratio = ours / theirs;
        println!("| {what} | {ours:.2} | {theirs:.2} | {ratio:.2} | {goal:.1} |");
        if ratio > goal {
            self.over.push(format!("{what} ({ratio:.2})"));
        }
    }

    /// what the last line says: no test, since times depend on what else the machine does
    pub fn told(&self) -> String {
        if self.over.is_empty() {
            return "Every row within its goal.".to_string();
        }
        format!("Over their goal: {}.", self.over.join("; "))
    }
}

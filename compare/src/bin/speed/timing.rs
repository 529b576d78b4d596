//! The times of calls, taken in turn.

use std::hint::black_box;
use std::time::{Duration, Instant};

const BATCHES: usize = 9;

/// A call, or several; their codes' sum, so that none is left out.
pub type Turn<'a> = &'a dyn Fn() -> u64;

fn batch(turn: Turn, turns: u32) -> Duration {
    let begun = Instant::now();
    for _ in 0..turns {
        black_box(turn());
    }
    begun.elapsed()
}

/// So many turns as take the least time of a batch.
fn turns(turn: Turn, least: Duration) -> u32 {
    let mut turns = 1;
    while turns < 1 << 20 && batch(turn, turns) < least {
        turns *= 2;
    }
    turns
}

/// The best nanoseconds of a turn, of each.
pub fn best<const N: usize>(each: [Turn; N], least: Duration) -> [f64; N] {
    let counts = each.map(|turn| turns(turn, least));
    let mut best = [f64::INFINITY; N];
    for _ in 0..BATCHES {
        for which in 0..N {
            let taken = batch(each[which], counts[which]).as_nanos() as f64 / f64::from(counts[which]);
            best[which] = best[which].min(taken);
        }
    }
    best
}

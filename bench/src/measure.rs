//! Median times of calls that take turns.

use crate::clock::nanoseconds_run;
use crate::families::Case;
use crate::operations::{Call, Results};
use std::hint::black_box;

/// How long to measure: nanoseconds of a batch of calls and of all turns, and the number of turns.
pub struct Effort {
    pub batch: f64,
    pub budget: f64,
    pub fewest_turns: usize,
    pub most_turns: usize,
}

/// The median time of each call in nanoseconds. In every turn each call has one batch, in the order
/// given. The tables lent are the same for all and are not cleared between calls.
pub fn medians(calls: &[Call], case: &Case, lent: &mut Results, effort: &Effort) -> Vec<f64> {
    let batches: Vec<u32> = calls
        .iter()
        .map(|&call| calls_in_batch(call, case, lent, effort.batch))
        .collect();
    let mut times = vec![vec![]; calls.len()];
    let began = nanoseconds_run();
    for turn in 0..effort.most_turns {
        if turn >= effort.fewest_turns && nanoseconds_run() - began > effort.budget {
            break;
        }
        for (place, &call) in calls.iter().enumerate() {
            times[place].push(time_per_call(call, case, lent, batches[place]));
        }
    }
    times.into_iter().map(median).collect()
}

/// How many calls fill the time of a batch, after a first call that is not counted.
fn calls_in_batch(call: Call, case: &Case, lent: &mut Results, batch: f64) -> u32 {
    black_box(call(black_box(case), lent));
    let one = time_per_call(call, case, lent, 1);
    (batch / one).clamp(1.0, 10_000.0) as u32
}

/// The time of one call in nanoseconds, over a batch of calls.
fn time_per_call(call: Call, case: &Case, lent: &mut Results, calls: u32) -> f64 {
    let began = nanoseconds_run();
    for _ in 0..calls {
        black_box(call(black_box(case), black_box(lent)));
    }
    (nanoseconds_run() - began) / f64::from(calls)
}

/// The middle of some times.
fn median(mut times: Vec<f64>) -> f64 {
    times.sort_by(f64::total_cmp);
    times[times.len() / 2]
}

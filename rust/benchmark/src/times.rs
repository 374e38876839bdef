//! Measures the times of calls. The time of a call is the least of many runs. The engine and the
//! peer take turns, so that other work of the machine slows both.

use crate::rows::{Lent, Row, Work};
use std::hint::black_box;
use std::time::{Duration, Instant};

/// The length of a run. It has as many calls as fit into this time, but at least one.
const RUN: Duration = Duration::from_micros(100);

/// How long a row is measured, and the least number of runs.
const ROW: Duration = Duration::from_millis(900);
const LEAST_RUNS: usize = 15;

/// The time of a call by the engine and by the peer, in microseconds.
pub fn time(row: &Row) -> [f64; 2] {
    let lent = &mut Lent::new();
    let counts = row.works.each_ref().map(|work| calls_in_run(work, lent));
    let mut least = [f64::INFINITY; 2];
    let start = Instant::now();
    let mut runs = 0;
    while runs < LEAST_RUNS || start.elapsed() < ROW {
        for (worker, work) in row.works.iter().enumerate() {
            let time = run(work, lent, counts[worker]);
            least[worker] = least[worker].min(time);
        }
        runs += 1;
    }
    least
}

/// The time of a call, in microseconds: the mean of `count` calls in a row.
fn run(work: &Work, lent: &mut Lent, count: u32) -> f64 {
    let start = Instant::now();
    for _ in 0..count {
        black_box(work(black_box(lent)));
    }
    start.elapsed().as_secs_f64() * 1e6 / f64::from(count)
}

/// How many calls a run has.
fn calls_in_run(work: &Work, lent: &mut Lent) -> u32 {
    run(work, lent, 3);
    let time = run(work, lent, 3);
    (RUN.as_secs_f64() * 1e6 / time).max(1.0) as u32
}

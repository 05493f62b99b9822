//! Batches, timed: what all measurements share.

use std::time::{Duration, Instant};

/// Batches of each side for a measurement, in one pass.
pub const BATCHES: usize = ROUNDS * HOMES;
/// Tickets in a row of which each has another home.
pub const HOMES: usize = reference::keeper::TABLE_SIZE;
/// How often a measurement meets each home, in one pass.
pub const ROUNDS: usize = 24;

/// What a batch without calls takes.
pub fn clock() -> Duration {
    let readings = (0..10_000).map(|_| Instant::now().elapsed());
    readings.min().unwrap_or_default()
}

pub fn time(batch: impl FnOnce()) -> Duration {
    let start = Instant::now();
    batch();
    start.elapsed()
}

/// What one of a batch's calls takes, in nanoseconds.
pub fn one_call(batch: Duration, clock: Duration, calls: usize) -> f64 {
    batch.saturating_sub(clock).as_nanos() as f64 / calls as f64
}

/// Keeps the best of each figure.
pub fn improve(best: &mut [f64], figures: &[f64]) {
    for (best, figure) in best.iter_mut().zip(figures) {
        *best = best.min(*figure);
    }
}

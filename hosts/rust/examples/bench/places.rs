//! The library's time for a whole exchange, by where in memory the gateway lies.

use crate::calls::{exchange, moving};
use crate::sides::{Inputs, Library};
use crate::timing::{clock, one_call, time};
use std::time::Duration;

/// Gateways side by side: as their size is an odd number of 16 bytes, so many lie at all the places
/// that memory from an allocator can have in a page of 4,096 bytes.
pub const COUNT: usize = 256;
pub const DEPTH: usize = 64;
/// Exchanges in a batch, on one gateway.
const EXCHANGES: usize = 16;
const ROUNDS: usize = 100;

/// The median and the worst place's time.
pub fn run() -> [f64; 2] {
    let inputs = &mut Inputs::new();
    let gateway: Library = moving(DEPTH, inputs);
    let mut gateways = vec![gateway; COUNT];
    let mut best = vec![Duration::MAX; COUNT];
    for _ in 0..ROUNDS {
        for (gateway, best) in gateways.iter_mut().zip(&mut best) {
            let batch = time(|| (0..EXCHANGES).for_each(|_| exchange(gateway, DEPTH, inputs)));
            *best = batch.min(*best);
        }
    }
    best.sort_unstable();
    [best[COUNT / 2], best[COUNT - 1]].map(|batch| one_call(batch, clock(), EXCHANGES))
}

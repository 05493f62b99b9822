//! Lookups alone, with a full table, each ticket asked once.

use crate::sides::{black_box, Inputs, Library, Reference, Side, Tuned};
use crate::timing::{clock, improve, one_call, time, BATCHES};
use reference::keeper::TABLE_SIZE;
use std::time::Duration;

/// Which tickets are pending.
pub struct Kind {
    pub name: &'static str,
    /// From each ticket to the next.
    apart: u64,
}

pub const KINDS: [Kind; 2] = [
    Kind {
        name: "each its own home",
        apart: 1,
    },
    Kind {
        name: "all one home",
        apart: TABLE_SIZE as u64,
    },
];

/// The library's time for a lookup by the walk and by the home, the reference's, and the tuned one's.
pub fn run(kind: &Kind) -> [f64; 4] {
    let inputs = &mut Inputs::new();
    let (mut library, tickets): (Library, _) = full(kind, inputs);
    let (mut reference, _): (Reference, _) = full(kind, inputs);
    let (mut tuned, _): (Tuned, _) = full(kind, inputs);
    check(&mut library, &tickets);
    let mut best = [f64::INFINITY; 4];
    let clock = clock();
    for _ in 0..BATCHES {
        let times = [
            each(&tickets, |ticket| library.place_by_walk(ticket)),
            each(&tickets, |ticket| library.place_by_home(ticket)),
            each(&tickets, |ticket| reference.find(ticket)),
            each(&tickets, |ticket| tuned.find(ticket)),
        ];
        let times = times.map(|time| one_call(time, clock, TABLE_SIZE));
        improve(&mut best, &times);
    }
    best
}

/// A gateway with 128 pending, and their tickets. Those between them were abandoned.
fn full<S: Side>(kind: &Kind, inputs: &mut Inputs) -> (S, Vec<u64>) {
    let mut gateway = S::setup(inputs);
    let mut tickets = Vec::with_capacity(TABLE_SIZE);
    while tickets.len() < TABLE_SIZE {
        let ticket = gateway.admit(inputs);
        if (ticket - 1) % kind.apart == 0 {
            tickets.push(ticket);
        } else {
            gateway.abandon(ticket);
        }
    }
    (gateway, tickets)
}

/// Both searches give each ticket the same place and no two tickets one; others have none.
fn check(library: &mut Library, tickets: &[u64]) {
    let mut places: Vec<usize> = tickets.iter().map(|t| library.place_by_walk(*t)).collect();
    let by_home = tickets.iter().map(|t| library.place_by_home(*t));
    assert!(by_home.eq(places.iter().copied()));
    places.sort_unstable();
    assert!(places.into_iter().eq(0..TABLE_SIZE));
    for ticket in [0, tickets[TABLE_SIZE - 1] + 1, u64::MAX] {
        assert_eq!(library.place_by_walk(ticket), TABLE_SIZE);
        assert_eq!(library.place_by_home(ticket), TABLE_SIZE);
    }
}

fn each<T>(tickets: &[u64], mut lookup: impl FnMut(u64) -> T) -> Duration {
    time(|| {
        for ticket in tickets {
            black_box(lookup(black_box(*ticket)));
        }
    })
}

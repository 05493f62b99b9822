//! Each call, and whole exchanges, timed on all sides in turn.

use crate::sides::{Inputs, Library, Reference, Side, State, Tuned};
use crate::timing::{clock, improve, one_call, time, BATCHES, HOMES};
use reference::keeper::TABLE_SIZE;
use reference::random::Random;
use std::time::Duration;

/// Other exchanges that are pending at each call.
const DEPTHS: [usize; 3] = [0, 64, 127];
/// Gateways that a batch calls once each, so that the depth is the same for every call.
pub const GATEWAYS: usize = 32;

#[derive(Clone, Copy, PartialEq, Eq)]
pub enum Call {
    Admit,
    Open,
    Respond,
    Abandon,
    Retire,
    Report,
    /// A whole exchange; the others that are pending stay.
    Staying,
    /// A whole exchange, in which the response is the oldest one's: the others move on.
    Moving,
}

const CALLS: [Call; 8] = [
    Call::Admit,
    Call::Open,
    Call::Respond,
    Call::Abandon,
    Call::Retire,
    Call::Report,
    Call::Moving,
    Call::Staying,
];

impl Call {
    pub fn name(self) -> &'static str {
        match self {
            Call::Admit => "admit",
            Call::Open => "open",
            Call::Respond => "respond",
            Call::Abandon => "abandon",
            Call::Retire => "retire",
            Call::Report => "report",
            Call::Staying => "exchange, staying",
            Call::Moving => "exchange, moving",
        }
    }
}

/// A line of the table: a call at a depth.
pub struct Line {
    pub call: Call,
    pub depth: usize,
}

impl Line {
    /// With none pending, none stays.
    pub fn all() -> Vec<Line> {
        let at_each_depth = |call| DEPTHS.map(|depth| Line { call, depth });
        let lines = CALLS.into_iter().flat_map(at_each_depth);
        let is_measured = |line: &Line| line.call != Call::Staying || line.depth > 0;
        lines.filter(is_measured).collect()
    }

    pub fn is_exchange(&self) -> bool {
        matches!(self.call, Call::Staying | Call::Moving)
    }

    /// Every call was accepted, and the depth is what it was.
    fn check(&self, [library, reference, tuned]: [State; 3]) {
        let name = self.call.name();
        assert_eq!(library, reference, "{name}");
        assert_eq!(library, tuned, "{name}");
        let (_, pending, retired) = library;
        let expected = (self.depth, self.call == Call::Retire);
        assert_eq!((pending, retired), expected, "{name}");
    }

    /// The library's, the reference's and the tuned gateway's time for a call. The sides take turns,
    /// batch by batch. A side's time is the mean over all homes, each at its best batch: the best
    /// batch alone would be one whose home is free.
    pub fn run(&self) -> [f64; 3] {
        let inputs = &mut Inputs::new();
        let mut library: Gateways<Library> = Gateways::new(self, inputs);
        let mut reference: Gateways<Reference> = Gateways::new(self, inputs);
        let mut tuned: Gateways<Tuned> = Gateways::new(self, inputs);
        let mut best = [[f64::INFINITY; 3]; HOMES];
        let clock = clock();
        for batch in 0..BATCHES {
            let times = [
                library.batch(self, inputs),
                reference.batch(self, inputs),
                tuned.batch(self, inputs),
            ];
            let times = times.map(|time| one_call(time, clock, GATEWAYS));
            improve(&mut best[batch % HOMES], &times);
        }
        self.check([library.state(), reference.state(), tuned.state()]);
        [0, 1, 2].map(|side| best.iter().map(|times| times[side]).sum::<f64>() / HOMES as f64)
    }
}

/// So many pending, with tickets in a row, opened.
pub fn moving<S: Side>(depth: usize, inputs: &mut Inputs) -> S {
    let mut gateway = S::setup(inputs);
    for _ in 0..depth {
        let ticket = gateway.admit(inputs);
        gateway.open(ticket);
    }
    gateway
}

/// So many pending, drawn by a seed from a full table: any home may be taken, and any place free.
fn staying<S: Side>(depth: usize, seed: u64, inputs: &mut Inputs) -> S {
    let mut gateway = S::setup(inputs);
    let mut tickets: Vec<u64> = (0..TABLE_SIZE).map(|_| gateway.admit(inputs)).collect();
    let mut random = Random::new(seed);
    while tickets.len() > depth {
        let place = random.below(tickets.len());
        gateway.abandon(tickets.swap_remove(place));
    }
    gateway
}

/// The calls of a whole exchange: a new one is admitted and opened, and the one that is so many
/// tickets older gets its response; 0 for the new one itself.
pub fn exchange<S: Side>(gateway: &mut S, older: usize, inputs: &mut Inputs) {
    let ticket = gateway.admit(inputs);
    gateway.open(ticket);
    gateway.respond(ticket - older as u64, inputs);
}

/// Gateways of one side with the same number pending, each with the ticket of its newest exchange.
struct Gateways<S> {
    fresh: Vec<(S, u64)>,
    all: Vec<(S, u64)>,
}

impl<S: Side> Gateways<S> {
    fn new(line: &Line, inputs: &mut Inputs) -> Gateways<S> {
        let gateway = |seed| match line.call {
            Call::Moving => (moving(line.depth, inputs), 0),
            _ => (staying(line.depth, seed, inputs), 0),
        };
        let fresh: Vec<(S, u64)> = (0..GATEWAYS as u64).map(gateway).collect();
        Gateways {
            all: fresh.clone(),
            fresh,
        }
    }

    fn state(&self) -> State {
        let first = self.all[0].0.state();
        assert!(self.all.iter().all(|(gateway, _)| gateway.state() == first));
        first
    }

    fn each(&mut self, mut step: impl FnMut(&mut S, &mut u64)) {
        for (gateway, ticket) in &mut self.all {
            step(gateway, ticket);
        }
    }

    fn time(&mut self, step: impl FnMut(&mut S, &mut u64)) -> Duration {
        time(|| self.each(step))
    }

    /// Times the call alone; what brings the gateways to it and back is not timed.
    fn batch(&mut self, line: &Line, inputs: &mut Inputs) -> Duration {
        match line.call {
            Call::Admit => {
                let time = self.time(|gateway, ticket| *ticket = gateway.admit(inputs));
                self.each(|gateway, ticket| gateway.abandon(*ticket));
                time
            }
            Call::Open => {
                self.each(|gateway, ticket| *ticket = gateway.admit(inputs));
                let time = self.time(|gateway, ticket| gateway.open(*ticket));
                self.each(|gateway, ticket| gateway.abandon(*ticket));
                time
            }
            Call::Respond => {
                self.each(|gateway, ticket| {
                    *ticket = gateway.admit(inputs);
                    gateway.open(*ticket);
                });
                self.time(|gateway, ticket| gateway.respond(*ticket, inputs))
            }
            Call::Abandon => {
                self.each(|gateway, ticket| *ticket = gateway.admit(inputs));
                self.time(|gateway, ticket| gateway.abandon(*ticket))
            }
            Call::Retire => {
                self.all.clone_from(&self.fresh);
                self.time(|gateway, _| gateway.retire())
            }
            Call::Report => self.time(|gateway, _| gateway.report()),
            Call::Staying => self.time(|gateway, _| exchange(gateway, 0, inputs)),
            Call::Moving => self.time(|gateway, _| exchange(gateway, line.depth, inputs)),
        }
    }
}

//! The three sides: the library's C functions, and two gateways in plain Rust, the reference's and a
//! tuned one.

use crate::{raw, tuned};
use reference::gateway;
use reference::keeper::{Keeper, Report, TABLE_SIZE};
use reference::list_writer::{encode, Fields};
use std::arch::asm;

const KEY_ID: u8 = 3;
const CAP: u64 = 1_000_000_000;
const REQUEST_LENGTH: usize = 200;
const ENC_END: usize = 7 + 32;
const OPENED_LENGTH: u64 = (REQUEST_LENGTH - ENC_END - 16) as u64;
const PLAIN_LENGTH: u64 = 1_000;

/// Hides a value from the compiler; `std::hint::black_box` is not in Rust 1.63 yet.
pub fn black_box<T>(mut value: T) -> T {
    // SAFETY: nothing is executed; the compiler has to believe that the value is read and written.
    unsafe { asm!("/* {0} */", in(reg) &mut value, options(nostack, preserves_flags)) };
    value
}

/// What all sides are given: X25519, HKDF-SHA256, AES-128-GCM.
pub struct Inputs {
    list: Vec<u8>,
    request: Vec<u8>,
    nonce: [u8; 16],
    info: [u8; 29],
    salt: [u8; 48],
}

impl Inputs {
    /// Three keys with two pairs each; the request names the last key and its second pair.
    pub fn new() -> Inputs {
        let key = |id| Fields {
            id,
            kem: 0x0020,
            public_key: vec![0x11; 32],
            pairs: vec![2, 2, 1, 1],
        };
        let mut request = vec![KEY_ID, 0x00, 0x20, 0x00, 0x01, 0x00, 0x01];
        request.resize(REQUEST_LENGTH, 0x33);
        Inputs {
            list: (1..=KEY_ID).flat_map(|id| encode(&key(id))).collect(),
            request,
            nonce: [0x55; 16],
            info: [0; 29],
            salt: [0; 48],
        }
    }
}

/// A gateway's state, the same on all sides: last ticket, number pending, the key's retirement.
pub type State = (u64, usize, bool);

/// A gateway of one side. Answers are only made; what they were shows in the state.
pub trait Side: Clone {
    fn setup(inputs: &Inputs) -> Self;
    fn admit(&mut self, inputs: &mut Inputs) -> u64;
    fn open(&mut self, ticket: u64);
    fn respond(&mut self, ticket: u64, inputs: &mut Inputs);
    fn abandon(&mut self, ticket: u64);
    fn retire(&mut self);
    fn report(&self);
    /// A lookup alone: whether the ticket is pending.
    fn find(&mut self, ticket: u64) -> bool;
    fn state(&self) -> State;
}

pub use crate::raw::Gateway as Library;

impl Library {
    /// The ticket's place, or the table's size, by the walk.
    pub fn place_by_walk(&mut self, ticket: u64) -> usize {
        // SAFETY: raw::setup made the gateway.
        unsafe { raw::sealwax_plain_find(self, ticket) }
    }

    /// The same by the ticket's home, as the calls find it.
    pub fn place_by_home(&mut self, ticket: u64) -> usize {
        // SAFETY: raw::setup made the gateway.
        unsafe { raw::sealwax_find(self, ticket, ticket) }
    }
}

impl Side for Library {
    fn setup(inputs: &Inputs) -> Library {
        *raw::setup(&inputs.list, CAP).0
    }

    fn admit(&mut self, inputs: &mut Inputs) -> u64 {
        let request = black_box(&inputs.request[..]);
        let info = &mut inputs.info;
        // SAFETY: raw::setup made the gateway; pointers and lengths are those of slices.
        let result = unsafe {
            raw::sealwax_admit(
                self,
                request.as_ptr(),
                request.len(),
                info.as_mut_ptr(),
                info.len(),
            )
        };
        black_box(&result).ticket
    }

    fn open(&mut self, ticket: u64) {
        // SAFETY: raw::setup made the gateway.
        let result = unsafe { raw::sealwax_open(self, ticket, 1, OPENED_LENGTH) };
        black_box(&result);
    }

    fn respond(&mut self, ticket: u64, inputs: &mut Inputs) {
        let enc = black_box(&inputs.request[7..ENC_END]);
        let nonce = black_box(&inputs.nonce[..]);
        let salt = &mut inputs.salt;
        // SAFETY: raw::setup made the gateway; pointers and lengths are those of slices.
        let result = unsafe {
            raw::sealwax_respond(
                self,
                ticket,
                enc.as_ptr(),
                enc.len(),
                nonce.as_ptr(),
                nonce.len(),
                PLAIN_LENGTH,
                salt.as_mut_ptr(),
                salt.len(),
            )
        };
        black_box(&result);
    }

    fn abandon(&mut self, ticket: u64) {
        // SAFETY: raw::setup made the gateway.
        let result = unsafe { raw::sealwax_abandon(self, ticket) };
        black_box(&result);
    }

    fn retire(&mut self) {
        // SAFETY: raw::setup made the gateway.
        let result = unsafe { raw::sealwax_retire(self, black_box(KEY_ID)) };
        black_box(&result);
    }

    fn report(&self) {
        // SAFETY: raw::setup made the gateway.
        let result = unsafe { raw::sealwax_report(self) };
        black_box(&result);
    }

    fn find(&mut self, ticket: u64) -> bool {
        self.place_by_home(ticket) < TABLE_SIZE
    }

    fn state(&self) -> State {
        let report = raw::report(self);
        let key = report.keys[report.key_count - 1];
        (report.last_ticket, report.pending, key.retired != 0)
    }
}

/// What the gateways in plain Rust have each in its own form.
pub trait Plain: Keeper + Clone {
    type Report;
    fn own_report(&self) -> Self::Report;
    fn is_pending(&self, ticket: u64) -> bool;
}

impl Plain for gateway::Gateway {
    type Report = Report;

    fn own_report(&self) -> Report {
        self.report()
    }

    fn is_pending(&self, ticket: u64) -> bool {
        self.pending.get(&ticket).is_some()
    }
}

impl Plain for tuned::Gateway {
    type Report = tuned::Snapshot;

    fn own_report(&self) -> tuned::Snapshot {
        self.snapshot()
    }

    fn is_pending(&self, ticket: u64) -> bool {
        self.find(ticket).is_ok()
    }
}

#[derive(Clone)]
pub struct PlainRust<K>(K);

pub type Reference = PlainRust<gateway::Gateway>;
pub type Tuned = PlainRust<tuned::Gateway>;

impl<K: Plain> Side for PlainRust<K> {
    fn setup(inputs: &Inputs) -> PlainRust<K> {
        PlainRust(K::setup(CAP, &inputs.list).0)
    }

    fn admit(&mut self, inputs: &mut Inputs) -> u64 {
        let request = black_box(&inputs.request[..]);
        let result = self.0.admit(request, &mut inputs.info);
        match black_box(&result) {
            Ok(admitted) => admitted.ticket,
            Err(_) => 0,
        }
    }

    fn open(&mut self, ticket: u64) {
        let result = self.0.open(ticket, true, OPENED_LENGTH);
        black_box(&result);
    }

    fn respond(&mut self, ticket: u64, inputs: &mut Inputs) {
        let enc = black_box(&inputs.request[7..ENC_END]);
        let nonce = black_box(&inputs.nonce[..]);
        let salt = &mut inputs.salt;
        let result = self.0.respond(ticket, enc, nonce, PLAIN_LENGTH, salt);
        black_box(&result);
    }

    fn abandon(&mut self, ticket: u64) {
        let result = self.0.abandon(ticket);
        black_box(&result);
    }

    fn retire(&mut self) {
        let result = self.0.retire(black_box(KEY_ID));
        black_box(&result);
    }

    fn report(&self) {
        let result = self.0.own_report();
        black_box(&result);
    }

    fn find(&mut self, ticket: u64) -> bool {
        self.0.is_pending(ticket)
    }

    fn state(&self) -> State {
        let report = self.0.report();
        let key = report.keys[report.keys.len() - 1];
        (report.last_ticket, report.pending, key.retired)
    }
}

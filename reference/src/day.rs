//! An ordinary day, for timing: one setup, then exchanges that are answered in any order.

use crate::algorithms::{nenc, npk, response_nonce_length, shortest_request, HEAD_LENGTH};
use crate::answer::hex;
use crate::generate::encode_all;
use crate::list_writer::Fields;
use crate::random::Random;
use std::io::{self, Write};

const MOST_PENDING: usize = 100;
const CAP: u64 = 1_000_000_000;

/// A key's id, KEM and AEAD; the KDF is 0x0001 for all.
const KEYS: [(u8, u16, u16); 3] = [(1, 0x0020, 1), (2, 0x0020, 3), (3, 0x0010, 2)];

struct Exchange {
    ticket: u64,
    /// The key's place above.
    key: usize,
    opened_length: usize,
    opened: bool,
}

struct Day {
    random: Random,
    last_ticket: u64,
    pending: Vec<Exchange>,
}

pub fn day(seed: u64, calls: u64, output: &mut impl Write) -> io::Result<()> {
    let mut day = Day {
        random: Random::new(seed),
        last_ticket: 0,
        pending: Vec::new(),
    };
    for call in 0..calls {
        let line = if call == 0 { day.setup() } else { day.call() };
        writeln!(output, "{line}")?;
    }
    output.flush()
}

impl Day {
    fn setup(&mut self) -> String {
        let mut configurations = Vec::new();
        for (id, kem, aead) in KEYS {
            configurations.push(Fields {
                id,
                kem,
                public_key: self.random.bytes(npk(kem).unwrap_or(0)),
                pairs: vec![2, 2, 1, aead],
            });
        }
        format!("setup {CAP} {}", hex(&encode_all(&configurations)))
    }

    fn call(&mut self) -> String {
        if self.random.one_in(2_000) {
            return "report".to_string();
        }
        if self.random.one_in(500) {
            return self.refused();
        }
        let pending = self.pending.len();
        // Two of three calls answer, once some are pending.
        if pending == 0 || (pending < MOST_PENDING && self.random.below(100) < 36) {
            return self.admit();
        }
        let place = self.random.below(pending);
        self.answer(place)
    }

    /// A ticket that was never given, or a request cut short.
    fn refused(&mut self) -> String {
        if self.random.one_in(2) {
            format!("abandon {}", self.last_ticket + 7)
        } else {
            format!("admit {} 29", hex(&self.random.bytes(6)))
        }
    }

    fn admit(&mut self) -> String {
        let key = self.random.below(KEYS.len());
        let (id, kem, aead) = KEYS[key];
        let shortest = shortest_request(kem).unwrap_or(0);
        let length = self.random.between(shortest, shortest.max(400));
        let mut request = vec![id];
        for number in [kem, 1, aead] {
            request.extend(number.to_be_bytes());
        }
        request.extend(self.random.bytes(length - HEAD_LENGTH));
        self.last_ticket += 1;
        self.pending.push(Exchange {
            ticket: self.last_ticket,
            key,
            opened_length: length - shortest,
            opened: false,
        });
        format!("admit {} 29", hex(&request))
    }

    /// The next call of a pending exchange: one of 20 fails, one of 40 is abandoned.
    fn answer(&mut self, place: usize) -> String {
        let ticket = self.pending[place].ticket;
        if self.random.one_in(40) {
            self.pending.swap_remove(place);
            return format!("abandon {ticket}");
        }
        if self.pending[place].opened {
            return self.respond(place);
        }
        if self.random.one_in(20) {
            self.pending.swap_remove(place);
            return format!("open {ticket} failed 0");
        }
        self.pending[place].opened = true;
        format!("open {ticket} ok {}", self.pending[place].opened_length)
    }

    fn respond(&mut self, place: usize) -> String {
        let Exchange { ticket, key, .. } = self.pending.swap_remove(place);
        let (_, kem, aead) = KEYS[key];
        let enc = nenc(kem).unwrap_or(0);
        let nonce = response_nonce_length(aead).unwrap_or(0);
        format!(
            "respond {ticket} {} {} {} {}",
            hex(&self.random.bytes(enc)),
            hex(&self.random.bytes(nonce)),
            self.random.below(4_000),
            enc + nonce
        )
    }
}

#[cfg(test)]
mod tests {
    use super::*;
    use crate::replay::replay;

    #[test]
    fn nearly_every_call_is_accepted() {
        let mut calls = Vec::new();
        day(1, 20_000, &mut calls).unwrap();
        let mut answers = Vec::new();
        replay(calls.as_slice(), &mut answers).unwrap();
        let answers = String::from_utf8(answers).unwrap();
        assert_eq!(answers.lines().count(), 20_000);
        let refused = answers.lines().filter(|a| a.starts_with("refused")).count();
        assert!(refused > 0 && refused < 100, "{refused}");
        assert!(!answers.contains("bad line"));
    }
}

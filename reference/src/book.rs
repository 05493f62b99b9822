//! The book of demand 3: 01, "The list and the book of demand 3", second paragraph.

use crate::algorithms::{nenc, response_nonce_length, Pair, TAG_LENGTH};
use crate::gateway::{Gateway, State};
use crate::keeper::{
    Admitted, Keeper, KeyReport, Opening, Report, LARGEST_CAP, LONGEST_PLAIN, TABLE_SIZE,
};
use crate::key_list::{read_list, Configuration};
use crate::refusal::{refusal, Refusal};
use crate::request::{info, read_request, INFO_LENGTH};

/// "the keys in list order, each with id, KEM, pairs, count and retirement"
struct BookKey {
    id: u8,
    kem: u16,
    pairs: Vec<Pair>,
    count: u64,
    retired: bool,
}

/// "each with ticket, key id, KEM, pair, ciphertext length and asked or opened"
#[derive(Clone, Debug, PartialEq, Eq)]
pub struct Pending {
    pub ticket: u64,
    pub key_id: u8,
    pub kem: u16,
    pub pair: Pair,
    pub ciphertext_length: usize,
    pub opened: bool,
}

/// "the cap, the last ticket, the keys in list order ... and the set of pending exchanges"
pub struct Book {
    cap: u64,
    last_ticket: u64,
    keys: Vec<BookKey>,
    pending: Vec<Pending>,
}

impl Book {
    /// "after a refused setup it has no keys and cap 1"
    pub fn after_refused_setup() -> Book {
        Book {
            cap: 1,
            last_ticket: 0,
            keys: Vec::new(),
            pending: Vec::new(),
        }
    }

    /// "11 no such ticket in it": the exchange's place in the set.
    fn place(&self, ticket: u64) -> Result<usize, Refusal> {
        self.pending
            .iter()
            .position(|exchange| exchange.ticket == ticket)
            .ok_or_else(|| refusal(11))
    }

    fn key_place(&self, id: u8) -> Result<usize, Refusal> {
        self.keys
            .iter()
            .position(|key| key.id == id)
            .ok_or_else(|| refusal(4))
    }

    /// How the gateway differs at the end, in words; none where all is the same.
    pub fn difference(&self, gateway: &Gateway) -> Option<String> {
        let keys = |report: Report| report.keys;
        if self.last_ticket != gateway.last_ticket {
            return Some(format!(
                "last ticket: book {}, gateway {}",
                self.last_ticket, gateway.last_ticket
            ));
        }
        if keys(self.report()) != keys(gateway.report()) {
            return Some("count or retirement of a key".to_string());
        }
        let mut book = self.pending.clone();
        book.sort_by_key(|exchange| exchange.ticket);
        if book != pending_of(gateway) {
            return Some("set of pending exchanges".to_string());
        }
        None
    }
}

/// The gateway's pending exchanges in the book's fields, by ticket.
fn pending_of(gateway: &Gateway) -> Vec<Pending> {
    let fields = gateway.pending.iter().map(|(ticket, exchange)| Pending {
        ticket: *ticket,
        key_id: exchange.key_id,
        kem: exchange.kem,
        pair: exchange.pair,
        ciphertext_length: exchange.ciphertext_length,
        opened: exchange.state == State::Opened,
    });
    fields.collect()
}

/// "At first counts and last ticket are 0, no key is retired, the set is empty"
fn fresh_key(configuration: &Configuration) -> BookKey {
    BookKey {
        id: configuration.id,
        kem: configuration.kem,
        pairs: configuration.pairs.clone(),
        count: 0,
        retired: false,
    }
}

impl Keeper for Book {
    fn setup(cap: u64, list: &[u8]) -> (Book, Result<usize, Refusal>) {
        let mut book = Book::after_refused_setup();
        let configurations = match read_list(list) {
            Err(refusal) => return (book, Err(refusal)),
            Ok(read) => read.configurations,
        };
        if !(1..=LARGEST_CAP).contains(&cap) {
            return (book, Err(refusal(17)));
        }
        book.cap = cap;
        book.keys = configurations.iter().map(fresh_key).collect();
        (book, Ok(configurations.len()))
    }

    /// "An accepted admit adds one to its key's count and to the last ticket, which is then its
    /// ticket, and puts the exchange in as asked."
    fn admit(&mut self, request: &[u8], buffer: &mut [u8]) -> Result<Admitted, Refusal> {
        let read = read_request(request)?;
        let place = self.key_place(read.key_id)?;
        let key = &self.keys[place];
        let offered = key.pairs.contains(&read.pair);
        let tests = [
            (5, key.kem != read.kem),
            (6, !offered || !read.pair.is_known()),
            (7, key.retired),
            (8, key.count == self.cap),
            // "9 means 128 in the set"
            (9, self.pending.len() == TABLE_SIZE),
            (14, buffer.len() < INFO_LENGTH),
        ];
        first_refusal(&tests)?;
        self.keys[place].count += 1;
        self.last_ticket += 1;
        self.pending.push(Pending {
            ticket: self.last_ticket,
            key_id: read.key_id,
            kem: read.kem,
            pair: read.pair,
            ciphertext_length: read.ciphertext.len(),
            opened: false,
        });
        buffer[..INFO_LENGTH].copy_from_slice(&info(request));
        Ok(Admitted {
            ticket: self.last_ticket,
            key_id: read.key_id,
            pair: read.pair,
            enc: read.enc,
            ciphertext: read.ciphertext,
        })
    }

    /// "Open result makes it opened, or on failure takes it out."
    fn open(&mut self, ticket: u64, success: bool, n: u64) -> Result<Opening, Refusal> {
        let place = self.place(ticket)?;
        let exchange = &mut self.pending[place];
        let expected = exchange.ciphertext_length - TAG_LENGTH;
        let tests = [(12, exchange.opened), (13, success && n != expected as u64)];
        first_refusal(&tests)?;
        if success {
            exchange.opened = true;
            Ok(Opening::Opened)
        } else {
            self.pending.remove(place);
            Ok(Opening::Failed)
        }
    }

    /// "Respond and abandon take it out."
    fn respond(
        &mut self,
        ticket: u64,
        enc: &[u8],
        nonce: &[u8],
        plain: u64,
        buffer: &mut [u8],
    ) -> Result<u64, Refusal> {
        let place = self.place(ticket)?;
        let exchange = &self.pending[place];
        let nonce_length = response_nonce_length(exchange.pair.aead);
        let salt_length = enc.len() + nonce.len();
        let tests = [
            (12, !exchange.opened),
            (13, Some(enc.len()) != nenc(exchange.kem)),
            (13, Some(nonce.len()) != nonce_length),
            (13, plain > LONGEST_PLAIN),
            (14, buffer.len() < salt_length),
        ];
        first_refusal(&tests)?;
        self.pending.remove(place);
        buffer[..enc.len()].copy_from_slice(enc);
        buffer[enc.len()..salt_length].copy_from_slice(nonce);
        Ok(nonce.len() as u64 + plain + TAG_LENGTH as u64)
    }

    fn abandon(&mut self, ticket: u64) -> Result<(), Refusal> {
        let place = self.place(ticket)?;
        self.pending.remove(place);
        Ok(())
    }

    /// "Retire marks the key."
    fn retire(&mut self, key_id: u8) -> Result<(), Refusal> {
        let place = self.key_place(key_id)?;
        first_refusal(&[(7, self.keys[place].retired)])?;
        self.keys[place].retired = true;
        Ok(())
    }

    fn report(&self) -> Report {
        let keys = self.keys.iter().map(|key| KeyReport {
            id: key.id,
            count: key.count,
            retired: key.retired,
        });
        Report {
            last_ticket: self.last_ticket,
            pending: self.pending.len(),
            keys: keys.collect(),
        }
    }
}

/// "Each call is tested by its refusals in their order": the first that holds.
fn first_refusal(tests: &[(u8, bool)]) -> Result<(), Refusal> {
    match tests.iter().find(|test| test.1) {
        Some(test) => Err(refusal(test.0)),
        None => Ok(()),
    }
}

#[cfg(test)]
mod tests {
    use super::*;
    use crate::call::{read_line, Line};
    use crate::generate::generate;
    use crate::key_list::tests::{edge_list, unknown};
    use crate::perform::perform;

    /// Calls in the order given, refused ones and reports too.
    #[test]
    fn book_and_gateway_answer_alike() {
        let mut calls = Vec::new();
        generate(3, 20_000, &mut calls).unwrap();
        let mut gateway = Gateway::without_keys();
        let mut book = Book::after_refused_setup();
        for line in calls.split(|byte| *byte == b'\n') {
            if let Line::Call(call) = read_line(line) {
                assert_eq!(perform(&mut gateway, &call), perform(&mut book, &call));
                assert_eq!(book.difference(&gateway), None);
            }
        }
    }
    /// Book and gateway have the cap that was given, where all are skipped too, and 1 where the
    /// setup was refused.
    #[test]
    fn caps() {
        let skipped = unknown(7, 0x0022, 3);
        let lists = [
            edge_list(),
            skipped.clone(),
            [edge_list(), skipped].concat(),
        ];
        for list in lists {
            for (cap, kept) in [(2, 2), (LARGEST_CAP, LARGEST_CAP), (0, 1), (u64::MAX, 1)] {
                assert_eq!(Book::setup(cap, &list).0.cap, kept);
                assert_eq!(Gateway::setup(cap, &list).0.cap, kept);
            }
        }
    }
}

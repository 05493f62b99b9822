//! The gateway: setup, admissions, the calls by ticket, retirement and report.

use crate::bytes::Bytes;
use crate::exchange::{Admission, Asked, Sealed};
use crate::raw;
use crate::refusal::{Refusal, Unprotected};
use std::fmt;

/// What an exchange is known by: 1, 2, 3 and on, in the order of admission, never given twice. It is
/// a number of its own kind, so it cannot be taken for a key id.
#[derive(Clone, Copy, Debug, PartialEq, Eq, PartialOrd, Ord, Hash)]
pub struct Ticket(pub u64);

impl fmt::Display for Ticket {
    fn fmt(&self, f: &mut fmt::Formatter<'_>) -> fmt::Result {
        self.0.fmt(f)
    }
}

/// What a gateway has done so far.
#[derive(Clone, Debug, PartialEq, Eq)]
pub struct Report {
    /// The last ticket that was given, `Ticket(0)` before the first.
    pub last_ticket: Ticket,
    /// How many exchanges are pending.
    pub pending: usize,
    /// The keys, in the order of the list.
    pub keys: Vec<KeyReport>,
}

/// What a key has been used for.
#[derive(Clone, Copy, Debug, PartialEq, Eq)]
pub struct KeyReport {
    /// The key's id.
    pub id: u8,
    /// How many requests it was admitted for.
    pub count: u32,
    /// Whether it is retired.
    pub retired: bool,
}

/// A gateway: its keys with their counts, and up to 128 pending exchanges.
///
/// It lies in a box of 4,304 bytes, so moving a `Gateway` moves a pointer. It is neither `Clone` nor
/// `Copy`: a second gateway would count the uses of the same keys apart from the first, and give the
/// same tickets again. It may be sent to another thread but not shared without a lock:
///
/// ```
/// use sealwax::Gateway;
/// use std::sync::Mutex;
///
/// let gateway = Mutex::new(Gateway::without_keys());
/// std::thread::scope(|scope| {
///     scope.spawn(|| gateway.lock().unwrap().report());
/// });
/// ```
///
/// ```compile_fail,E0277
/// use sealwax::Gateway;
///
/// let gateway = Gateway::without_keys();
/// std::thread::scope(|scope| {
///     scope.spawn(|| gateway.report());
/// });
/// ```
pub struct Gateway {
    memory: Box<raw::Gateway>,
}

impl Gateway {
    /// Makes a fresh gateway of a key list and a cap, the uses allowed per key, 1 to 1,000,000,000.
    /// A skipped configuration ([`crate::KeyList::check`] says how many there are) makes no key;
    /// where all are skipped the gateway has none and refuses every request.
    /// Refusals: 18 to 22, 17.
    pub fn setup(list: &[u8], cap: u64) -> Result<Gateway, Refusal> {
        let (memory, result) = raw::setup(list, cap);
        Refusal::or_in_list(result.outcome, list, Gateway { memory })
    }

    /// A gateway without keys, which refuses every request: for a host that serves before it has a
    /// key list, or after it was given a bad one.
    pub fn without_keys() -> Gateway {
        // The library hands back such a gateway on every refused setup.
        let (memory, _) = raw::setup(&[], 0);
        Gateway { memory }
    }

    /// Admits a request: counts the use and gives the next ticket. Refusals: 2, 1, 3, 1, 4, 5, 6, 7,
    /// 8, 9, in this order; each has a status, and 4 to 8 have the problem type ohttp-key. The use
    /// is never given back.
    pub fn admit<'r>(&mut self, request: &'r [u8]) -> Result<Asked<'r>, Refusal> {
        let mut info = [0; raw::INFO_LENGTH];
        let result = raw::admit(&mut self.memory, request, &mut info);
        Refusal::or(result.outcome, ())?;
        let admission = Admission {
            ticket: Ticket(result.ticket),
            key_id: result.key_id,
            kdf: result.kdf,
            aead: result.aead,
        };
        let enc = &request[result.enc_start..result.enc_end];
        let ciphertext = &request[result.ciphertext_start..result.ciphertext_end];
        Ok(Asked::new(admission, enc, ciphertext, info))
    }

    /// Says that a ticket's request was opened to `n` bytes. Refusals: 11, 12, 13.
    ///
    /// The calls by ticket are for hosts that keep tickets in a table of their own. They are the
    /// steps of [`Asked`] and [`Opened`](crate::Opened), but what is allowed when is not known to
    /// the compiler: a step out of turn is refused.
    pub fn open_ticket(&mut self, ticket: Ticket, n: usize) -> Result<(), Refusal> {
        let result = raw::open(&mut self.memory, ticket.0, 1, n as u64);
        Refusal::or(result.outcome, ())
    }

    /// Says that a ticket's request could not be opened, closes its exchange, and answers what is to
    /// be sent: status 422. Refusals: 11, 12.
    pub fn fail_ticket(&mut self, ticket: Ticket) -> Result<Unprotected, Refusal> {
        let result = raw::open(&mut self.memory, ticket.0, 0, 0);
        Refusal::or(result.outcome, Unprotected::said(result.outcome))
    }

    /// Closes a ticket's exchange with a response of `plain_length` bytes, to be sealed. That `enc`
    /// is the request's is the host's duty here; only its length is checked. Refusals: 11, 12, 13.
    pub fn respond_ticket(
        &mut self,
        ticket: Ticket,
        enc: &[u8],
        nonce: &[u8],
        plain_length: usize,
    ) -> Result<Sealed, Refusal> {
        let mut salt = [0; raw::LONGEST_SALT];
        let result = raw::respond(
            &mut self.memory,
            ticket.0,
            enc,
            nonce,
            plain_length as u64,
            &mut salt,
        );
        Refusal::or(result.outcome, ())?;
        Ok(Sealed {
            status: result.outcome.status,
            length: result.length as usize,
            salt: Bytes::front(salt, enc.len() + nonce.len()),
        })
    }

    /// Closes a ticket's exchange with no reply. Refusal: 11.
    pub fn abandon_ticket(&mut self, ticket: Ticket) -> Result<(), Refusal> {
        Refusal::or(raw::abandon(&mut self.memory, ticket.0), ())
    }

    /// Retires a key: later admissions refuse it, pending exchanges go on. Refusals: 4, 7.
    pub fn retire(&mut self, key_id: u8) -> Result<(), Refusal> {
        Refusal::or(raw::retire(&mut self.memory, key_id), ())
    }

    /// Last ticket, number pending, and each key's count and retirement. Changes nothing.
    pub fn report(&self) -> Report {
        let result = raw::report(&self.memory);
        let key_report = |key: &raw::KeyReport| KeyReport {
            id: key.id,
            count: key.count,
            retired: key.retired != 0,
        };
        Report {
            last_ticket: Ticket(result.last_ticket),
            pending: result.pending,
            keys: result.keys[..result.key_count]
                .iter()
                .map(key_report)
                .collect(),
        }
    }
}

/// Shows the report: the memory itself is the library's.
impl fmt::Debug for Gateway {
    fn fmt(&self, f: &mut fmt::Formatter<'_>) -> fmt::Result {
        f.debug_tuple("Gateway").field(&self.report()).finish()
    }
}

#[cfg(test)]
mod tests {
    use super::*;
    use crate::key_list::tests::edge_list;

    /// A request of the edge list's key with a ciphertext of so many bytes.
    fn request(ciphertext: usize) -> Vec<u8> {
        let mut request = vec![7, 0x00, 0x20, 0x00, 0x01, 0x00, 0x03];
        request.resize(7 + 32 + ciphertext, 0x33);
        request
    }

    fn number<T>(answer: Result<T, Refusal>) -> u8 {
        answer.err().map_or(0, Refusal::number)
    }

    #[test]
    fn setup_of_skipped_configurations() {
        let unknown = [0x00, 0x03, 0x07, 0x00, 0x30];
        let list = [&edge_list()[..], &unknown].concat();
        assert_eq!(Gateway::setup(&list, 1).unwrap().report().keys.len(), 1);
        let mut without = Gateway::setup(&unknown, 1).unwrap();
        assert_eq!(without.report().keys, []);
        assert_eq!(number(without.admit(&request(16))), 4);
    }

    #[test]
    fn setup_refuses() {
        assert_eq!(number(Gateway::setup(&[], 1)), 18);
        assert_eq!(number(Gateway::setup(&edge_list(), 0)), 17);
        assert_eq!(number(Gateway::setup(&edge_list(), 1_000_000_001)), 17);
        assert_eq!(number(Gateway::setup(&edge_list(), 1_000_000_000)), 0);
    }

    #[test]
    fn without_keys_every_request_is_refused() {
        let mut gateway = Gateway::without_keys();
        let nothing = Report {
            last_ticket: Ticket(0),
            pending: 0,
            keys: Vec::new(),
        };
        assert_eq!(gateway.report(), nothing);
        assert_eq!(number(gateway.admit(&request(16))), 4);
        assert_eq!(number(gateway.retire(7)), 4);
        assert_eq!(gateway.report(), nothing);
    }

    #[test]
    fn the_steps_by_ticket() {
        let mut gateway = Gateway::setup(&edge_list(), 3).unwrap();
        let request = request(20);
        let ticket = gateway.admit(&request).unwrap().into_ticket();
        assert_eq!(ticket, Ticket(1));
        let respond = |gateway: &mut Gateway| gateway.respond_ticket(ticket, &[1; 32], &[2; 32], 9);
        assert_eq!(number(respond(&mut gateway)), 12);
        assert_eq!(number(gateway.open_ticket(ticket, 5)), 13);
        assert_eq!(number(gateway.open_ticket(ticket, 4)), 0);
        assert_eq!(number(gateway.fail_ticket(ticket)), 12);
        let sealed = respond(&mut gateway).unwrap();
        assert_eq!((sealed.status, sealed.length), (200, 57));
        assert_eq!(sealed.salt[..], [[1; 32], [2; 32]].concat());
        assert_eq!(number(gateway.abandon_ticket(ticket)), 11);
    }

    #[test]
    fn a_failure_is_unprotected() {
        let mut gateway = Gateway::setup(&edge_list(), 3).unwrap();
        let request = request(16);
        let ticket = gateway.admit(&request).unwrap().into_ticket();
        let unprotected = gateway.fail_ticket(ticket).unwrap();
        assert_eq!(unprotected.status(), 422);
        assert_eq!(unprotected.problem_type(), None);
        assert_eq!(number(gateway.fail_ticket(ticket)), 11);
    }

    #[test]
    fn the_report_counts() {
        let mut gateway = Gateway::setup(&edge_list(), 3).unwrap();
        let request = request(16);
        for _ in 0..3 {
            gateway.admit(&request).unwrap().into_ticket();
        }
        let refusal = gateway.admit(&request).unwrap_err();
        assert_eq!((refusal.number(), refusal.status()), (8, Some(400)));
        gateway.abandon_ticket(Ticket(2)).unwrap();
        gateway.retire(7).unwrap();
        assert_eq!(number(gateway.retire(7)), 7);
        assert_eq!(number(gateway.retire(8)), 4);
        let key = KeyReport {
            id: 7,
            count: 3,
            retired: true,
        };
        let report = Report {
            last_ticket: Ticket(3),
            pending: 2,
            keys: vec![key],
        };
        assert_eq!(gateway.report(), report);
        assert_eq!(format!("{gateway:?}"), format!("Gateway({report:?})"));
    }
}

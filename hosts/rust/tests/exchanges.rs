//! The crate's own calls held against the reference: one gateway steps by values, another by
//! tickets, and both get what the reference gets. What types rule out is left to `c_interface`:
//! buffers that are too small, odd numbers of pair numbers, and another enc than the request's.

mod common;
#[path = "common/request.rs"]
mod request;

use common::{edges, generated, OnFailure, SEEDS};
use reference::algorithms;
use reference::call::Call;
use reference::client::Chosen;
use reference::gateway;
use reference::keeper::{Keeper, Opening};
use reference::list_writer::Fields;
use reference::refusal::{is_key_problem, status};
use request::compare_request;
use sealwax::{
    Asked, Checked, Configuration, Field, Gateway, KeyList, Opened, Pair, Refusal, Ticket,
    OHTTP_KEY,
};
use std::collections::BTreeMap;

/// A lent buffer is too small: types rule this out, so such a call is made to the reference alone.
const NO_ROOM: u8 = 14;

type Expected<T> = Result<T, reference::refusal::Refusal>;

/// The number and the place of a refusal.
fn number_and_place(refusal: Refusal) -> (u8, Option<usize>) {
    (refusal.number(), refusal.field().map(Field::place))
}

/// Compares an answer that sends nothing where it is refused.
fn same<T: PartialEq + std::fmt::Debug>(given: Result<T, Refusal>, expected: Expected<T>) {
    if let Err(refusal) = &given {
        assert_eq!((refusal.status(), refusal.problem_type()), (None, None));
    }
    assert_eq!(
        given.map_err(number_and_place),
        expected.map_err(|refusal| (refusal.number, refusal.place))
    );
}

fn pair_of(pair: algorithms::Pair) -> Pair {
    Pair {
        kdf: pair.kdf,
        aead: pair.aead,
    }
}

/// Numbers by turns as pairs; none where one is left over.
fn pairs_of(numbers: &[u16]) -> Option<Vec<Pair>> {
    let pairs = numbers.chunks(2).map(|two| match two {
        [kdf, aead] => Some(Pair {
            kdf: *kdf,
            aead: *aead,
        }),
        _ => None,
    });
    pairs.collect()
}

/// An exchange as a value.
enum Held<'c> {
    Asked(Asked<'c>),
    Opened(Opened),
}

struct Three<'c> {
    reference: gateway::Gateway,
    by_ticket: Gateway,
    by_value: Gateway,
    /// The pending exchanges of `by_value`.
    held: BTreeMap<u64, Held<'c>>,
    /// How often a value took a step, and was handed back.
    steps: u64,
    handed_back: u64,
}

impl<'c> Three<'c> {
    fn new() -> Three<'c> {
        Three {
            reference: gateway::Gateway::without_keys(),
            by_ticket: Gateway::without_keys(),
            by_value: Gateway::without_keys(),
            held: BTreeMap::new(),
            steps: 0,
            handed_back: 0,
        }
    }

    fn perform(&mut self, call: &'c Call) {
        match call {
            Call::Setup { cap, list } => self.setup(*cap, list),
            Call::Admit { request, room } => self.admit(request, *room),
            Call::Open { ticket, success, n } => self.open(*ticket, *success, *n),
            Call::Respond {
                ticket,
                enc,
                nonce,
                plain,
                room,
            } => self.respond(*ticket, enc, nonce, *plain, *room),
            Call::Abandon { ticket } => self.abandon(*ticket),
            Call::Retire { key_id } => {
                let expected = self.reference.retire(*key_id);
                same(self.by_ticket.retire(*key_id), expected);
                same(self.by_value.retire(*key_id), expected);
            }
            Call::Report => {}
            _ => without_gateway(call),
        }
        self.same_reports();
    }

    fn same_reports(&self) {
        let expected = self.reference.report();
        assert_eq!(self.held.len(), expected.pending);
        for gateway in [&self.by_ticket, &self.by_value] {
            let given = gateway.report();
            assert_eq!(given.last_ticket, Ticket(expected.last_ticket));
            assert_eq!(given.pending, expected.pending);
            let given = given.keys.iter();
            let given: Vec<_> = given
                .map(|key| (key.id, u64::from(key.count), key.retired))
                .collect();
            let expected = expected.keys.iter();
            let expected: Vec<_> = expected
                .map(|key| (key.id, key.count, key.retired))
                .collect();
            assert_eq!(given, expected);
        }
    }

    fn setup(&mut self, cap: u64, list: &[u8]) {
        let (reference, expected) = gateway::Gateway::setup(cap, list);
        self.reference = reference;
        self.held.clear();
        for gateway in [&mut self.by_ticket, &mut self.by_value] {
            let (fresh, given) = match Gateway::setup(list, cap) {
                Ok(fresh) => {
                    let keys = fresh.report().keys.len();
                    (fresh, Ok(keys))
                }
                Err(refusal) => (Gateway::without_keys(), Err(refusal)),
            };
            *gateway = fresh;
            same(given, expected);
        }
    }

    fn admit(&mut self, request: &'c [u8], room: usize) {
        let mut info = vec![0; room];
        match self.reference.admit(request, &mut info) {
            Ok(expected) => {
                let by_ticket = self.by_ticket.admit(request).expect("admitted by ticket");
                let by_value = self.by_value.admit(request).expect("admitted by value");
                for asked in [&by_ticket, &by_value] {
                    assert_eq!(asked.ticket(), Ticket(expected.ticket));
                    assert_eq!(asked.key_id(), expected.key_id);
                    let pair = (asked.kdf(), asked.aead());
                    assert_eq!(pair, (expected.pair.kdf, expected.pair.aead));
                    assert_eq!(asked.enc(), &request[expected.enc.clone()]);
                    assert_eq!(asked.ciphertext(), &request[expected.ciphertext.clone()]);
                    assert_eq!(asked.info()[..], info[..29]);
                }
                by_ticket.into_ticket();
                self.held.insert(expected.ticket, Held::Asked(by_value));
            }
            Err(expected) if expected.number == NO_ROOM => {}
            Err(expected) => {
                let problem = is_key_problem(expected.number);
                for gateway in [&mut self.by_ticket, &mut self.by_value] {
                    let given = gateway.admit(request).expect_err("refused");
                    assert_eq!(given.number(), expected.number);
                    assert_eq!(given.status(), Some(status(expected.number)));
                    assert_eq!(given.problem_type(), Some(OHTTP_KEY).filter(|_| problem));
                }
            }
        }
    }

    fn open(&mut self, ticket: u64, success: bool, n: u64) {
        let expected = self.reference.open(ticket, success, n);
        let n = n as usize;
        same(open(&mut self.by_ticket, ticket, success, n), expected);
        let asked = match self.held.remove(&ticket) {
            Some(Held::Asked(asked)) => asked,
            other => {
                // A value that is opened has no such step.
                self.held.extend(other.map(|held| (ticket, held)));
                return same(open(&mut self.by_value, ticket, success, n), expected);
            }
        };
        self.steps += 1;
        let gateway = &mut self.by_value;
        let (given, left) = if success {
            match asked.opened(gateway, n) {
                Ok(opened) => (Ok(Opening::Opened), Some(Held::Opened(opened))),
                Err(refused) => (Err(refused.refusal), Some(Held::Asked(refused.exchange))),
            }
        } else {
            match asked.failed(gateway) {
                Ok(unprotected) => {
                    let sent = (unprotected.status(), unprotected.problem_type());
                    assert_eq!(sent, (422, None));
                    (Ok(Opening::Failed), None)
                }
                Err(refused) => (Err(refused.refusal), Some(Held::Asked(refused.exchange))),
            }
        };
        self.handed_back += u64::from(given.is_err());
        self.held.extend(left.map(|held| (ticket, held)));
        same(given, expected);
    }

    fn respond(&mut self, ticket: u64, enc: &[u8], nonce: &[u8], plain: u64, room: usize) {
        let mut salt = vec![0; room];
        let expected = self.reference.respond(ticket, enc, nonce, plain, &mut salt);
        if matches!(expected, Err(refusal) if refusal.number == NO_ROOM) {
            return;
        }
        let written = enc.len() + nonce.len();
        let plain = plain as usize;
        let by_ticket = |gateway: &mut Gateway| {
            let given = gateway.respond_ticket(Ticket(ticket), enc, nonce, plain);
            given.map(|sealed| {
                assert_eq!(sealed.status, 200);
                assert_eq!(sealed.salt[..], salt[..written]);
                sealed.length as u64
            })
        };
        same(by_ticket(&mut self.by_ticket), expected);
        let opened = match self.held.remove(&ticket) {
            Some(Held::Opened(opened)) if opened.enc().len() == enc.len() => opened,
            Some(opened @ Held::Opened(_)) => {
                // A value has its own enc, whose length is right.
                self.held.insert(ticket, opened);
                return;
            }
            other => {
                self.held.extend(other.map(|held| (ticket, held)));
                return same(by_ticket(&mut self.by_value), expected);
            }
        };
        self.steps += 1;
        let own_salt = [opened.enc(), nonce].concat();
        let given = match opened.respond(&mut self.by_value, nonce, plain) {
            Ok(sealed) => {
                assert_eq!(sealed.status, 200);
                assert_eq!(sealed.salt[..], own_salt);
                Ok(sealed.length as u64)
            }
            Err(refused) => {
                self.handed_back += 1;
                self.held.insert(ticket, Held::Opened(refused.exchange));
                Err(refused.refusal)
            }
        };
        same(given, expected);
    }

    fn abandon(&mut self, ticket: u64) {
        let expected = self.reference.abandon(ticket);
        same(self.by_ticket.abandon_ticket(Ticket(ticket)), expected);
        let gateway = &mut self.by_value;
        let given = match self.held.remove(&ticket) {
            Some(Held::Asked(asked)) => asked.abandon(gateway).map_err(|refused| refused.refusal),
            Some(Held::Opened(opened)) => {
                opened.abandon(gateway).map_err(|refused| refused.refusal)
            }
            None => gateway.abandon_ticket(Ticket(ticket)),
        };
        same(given, expected);
    }
}

/// An open result by ticket.
fn open(gateway: &mut Gateway, ticket: u64, success: bool, n: usize) -> Result<Opening, Refusal> {
    if success {
        let given = gateway.open_ticket(Ticket(ticket), n);
        return given.map(|()| Opening::Opened);
    }
    let given = gateway.fail_ticket(Ticket(ticket));
    given.map(|unprotected| {
        assert_eq!(unprotected.status(), 422);
        Opening::Failed
    })
}

/// The calls on key lists, on messages and on the client's side.
fn without_gateway(call: &Call) {
    match call {
        Call::Check { list } => {
            let expected = reference::key_list::read_list(list).map(|read| Checked {
                configurations: read.configurations.len(),
                skipped: read.skipped,
            });
            same(KeyList::new(list).check(), expected);
        }
        Call::Key { list, key_id } => {
            let expected = reference::key_list::public_key(list, *key_id);
            same(KeyList::new(list).key(*key_id), expected);
        }
        Call::Choose { list, kems, pairs } => {
            let expected = reference::client::choose(list, kems, pairs);
            if let Some(pairs) = pairs_of(pairs) {
                compare_choice(list, kems, &pairs, expected);
            }
        }
        Call::Head {
            key_id,
            kem,
            pair,
            enc,
            ..
        } => {
            let (mut head, mut info) = ([0; 140], [0; 29]);
            let expected = reference::client::head(*key_id, *kem, *pair, enc, &mut head, &mut info);
            let given = sealwax::head(*key_id, *kem, pair_of(*pair), enc);
            same(
                given.map(|given| (given.bytes.to_vec(), given.info)),
                expected.map(|length| (head[..length].to_vec(), info)),
            );
        }
        Call::Split { aead, response } => {
            let expected = reference::client::split(*aead, response);
            same(sealwax::split(*aead, response), expected);
        }
        Call::Write {
            room,
            configurations,
        } => compare_write(*room, configurations),
        Call::Exporter { aead, .. } => {
            let mut context = [0; 22];
            let expected = reference::client::exporter(*aead, &mut context);
            let given = sealwax::exporter(*aead);
            same(
                given.map(|exporter| (exporter.context, exporter.secret_length)),
                expected.map(|secret| (context, secret)),
            );
        }
        Call::Request { message } => {
            compare_request(message);
        }
        _ => unreachable!("the other calls are the gateway's"),
    }
}

fn compare_choice(list: &[u8], kems: &[u16], pairs: &[Pair], expected: Expected<Chosen>) {
    let given = KeyList::new(list).choose(kems, pairs);
    if let (Ok(choice), Ok(chosen)) = (&given, &expected) {
        let (mut head, mut info) = ([0; 140], [0; 29]);
        let enc = vec![0x44; choice.public_key.len()];
        let (key_id, kem, pair) = (chosen.key_id, chosen.kem, chosen.pair);
        let length = reference::client::head(key_id, kem, pair, &enc, &mut head, &mut info);
        let length = length.expect("what was chosen is known");
        assert_eq!(choice.info(), Ok(info));
        let given = choice.head(&enc).expect("what was chosen is known");
        assert_eq!(given.bytes[..], head[..length]);
    }
    same(
        given.map(|choice| (choice.key_id, choice.kem, choice.pair, choice.public_key)),
        expected.map(|chosen| {
            let public_key = &list[chosen.public_key];
            (chosen.key_id, chosen.kem, pair_of(chosen.pair), public_key)
        }),
    );
}

fn compare_write(room: usize, configurations: &[Fields]) {
    let pairs = configurations.iter().map(|fields| pairs_of(&fields.pairs));
    let pairs: Vec<Vec<Pair>> = match pairs.collect() {
        Some(pairs) => pairs,
        None => return,
    };
    let given: Vec<Configuration> = configurations
        .iter()
        .zip(&pairs)
        .map(|(fields, pairs)| Configuration {
            key_id: fields.id,
            kem: fields.kem,
            public_key: &fields.public_key,
            pairs,
        })
        .collect();
    let (mut buffer, mut expected_buffer) = (vec![0xa5; room], vec![0xa5; room]);
    let expected = reference::list_writer::write_list(configurations, &mut expected_buffer);
    same(KeyList::write_into(&given, &mut buffer), expected);
    assert_eq!(buffer, expected_buffer);
    let mut longest = vec![0; sealwax::LONGEST_LIST];
    let expected = reference::list_writer::write_list(configurations, &mut longest);
    same(
        KeyList::write(&given),
        expected.map(|length| longest[..length].to_vec()),
    );
}

#[test]
fn generated_calls() {
    let (mut steps, mut handed_back) = (0, 0);
    for seed in SEEDS {
        let calls = generated(seed);
        let mut three = Three::new();
        for (place, call) in calls.iter().enumerate() {
            let _shown = OnFailure { seed, place, call };
            three.perform(call);
        }
        steps += three.steps;
        handed_back += three.handed_back;
    }
    // The values were used, and often enough refused.
    assert!(steps > 50_000, "{steps}");
    assert!(handed_back > 5_000, "{handed_back}");
}

#[test]
fn the_edges() {
    let calls = edges();
    let mut three = Three::new();
    for call in &calls {
        three.perform(call);
    }
}

//! The C interface held against the reference: the same calls to both, every answer compared in all
//! its fields, every buffer whole, and the report after each call. That a refused call changes no
//! gateway shows in the answers to the calls that follow.

mod common;
#[path = "common/message_calls.rs"]
mod message_calls;
#[path = "../src/raw.rs"]
#[allow(dead_code)]
mod raw;

use common::{edges, generated, OnFailure, SEEDS};
use message_calls::compare_message;
use raw::Outcome;
use reference::call::Call;
use reference::client::{choose, exporter, head, split, EXPORTER_CONTEXT};
use reference::gateway::Gateway;
use reference::keeper::{Keeper, Opening};
use reference::key_list::{public_key, read_list};
use reference::list_writer::{write_list, Fields};
use reference::refusal::{is_key_problem, status, Refusal};
use reference::table::{name, POSSIBLE};
use sealwax as _;
use std::collections::{BTreeMap, BTreeSet};
use std::mem::size_of;

/// The places of a gateway's table.
const PLACES: usize = 128;

/// A buffer that is lent, with bytes around it that nobody may write.
struct Lent {
    memory: Vec<u8>,
}

impl Lent {
    const AROUND: usize = 32;

    /// No two neighbours are equal, so that bytes in the wrong place show.
    fn new(room: usize) -> Lent {
        let memory = (0..room + 2 * Lent::AROUND).map(|place| (7 * place + 3) as u8);
        Lent {
            memory: memory.collect(),
        }
    }

    fn buffer(&mut self) -> &mut [u8] {
        let end = self.memory.len() - Lent::AROUND;
        &mut self.memory[Lent::AROUND..end]
    }
}

/// Two equal buffers, for the library and for the reference.
fn lend(room: usize) -> (Lent, Lent) {
    (Lent::new(room), Lent::new(room))
}

fn same_memory(given: &Lent, expected: &Lent) {
    assert!(given.memory == expected.memory, "the buffers differ");
}

/// An accepted call that sends this status, 0 for none.
fn accepted(status: u16) -> Outcome {
    Outcome {
        number: 0,
        has_place: false,
        place: 0,
        status,
        problem: 0,
    }
}

/// A refusal that sends nothing.
fn refused(refusal: Refusal) -> Outcome {
    Outcome {
        number: refusal.number,
        has_place: refusal.place.is_some(),
        place: refusal.place.unwrap_or(0),
        ..accepted(0)
    }
}

/// A refusal of admit.
fn not_admitted(refusal: Refusal) -> Outcome {
    Outcome {
        status: status(refusal.number),
        problem: u8::from(is_key_problem(refusal.number)),
        ..refused(refusal)
    }
}

/// What is expected of a call that sends nothing, and its value; 0 where it is refused.
fn expect<T: Default>(answer: Result<T, Refusal>) -> (Outcome, T) {
    match answer {
        Ok(value) => (accepted(0), value),
        Err(refusal) => (refused(refusal), T::default()),
    }
}

/// The library's gateway and the reference's, which get the same calls.
struct Both {
    library: Box<raw::Gateway>,
    reference: Gateway,
}

impl Both {
    /// Both without keys.
    fn new() -> Both {
        Both {
            library: raw::setup(&[], 0).0,
            reference: Gateway::without_keys(),
        }
    }

    /// Does a call on both sides, compares, and gives the refusal's number.
    fn perform(&mut self, call: &Call) -> u8 {
        let outcome = match call {
            Call::Setup { cap, list } => self.setup(*cap, list),
            Call::Admit { request, room } => self.admit(request, *room),
            Call::Open { ticket, success, n } => self.open(*ticket, *success, *n),
            Call::Respond { .. } => self.respond(call),
            Call::Abandon { ticket } => {
                let given = raw::abandon(&mut self.library, *ticket);
                assert_eq!(given, expect(self.reference.abandon(*ticket)).0);
                given
            }
            Call::Retire { key_id } => {
                let given = raw::retire(&mut self.library, *key_id);
                assert_eq!(given, expect(self.reference.retire(*key_id)).0);
                given
            }
            Call::Report => accepted(0),
            _ => without_gateway(call),
        };
        self.same_report();
        self.same_places();
        outcome.number
    }

    fn setup(&mut self, cap: u64, list: &[u8]) -> Outcome {
        let (library, given) = raw::setup(list, cap);
        let (reference, answer) = Gateway::setup(cap, list);
        *self = Both { library, reference };
        let (outcome, keys) = expect(answer);
        assert_eq!(given, raw::SetupResult { outcome, keys });
        outcome
    }

    fn admit(&mut self, request: &[u8], room: usize) -> Outcome {
        let (mut info, mut expected_info) = lend(room);
        let given = raw::admit(&mut self.library, request, info.buffer());
        let expected = match self.reference.admit(request, expected_info.buffer()) {
            Ok(admitted) => raw::AdmitResult {
                outcome: accepted(0),
                ticket: admitted.ticket,
                enc_start: admitted.enc.start,
                enc_end: admitted.enc.end,
                ciphertext_start: admitted.ciphertext.start,
                ciphertext_end: admitted.ciphertext.end,
                kdf: admitted.pair.kdf,
                aead: admitted.pair.aead,
                key_id: admitted.key_id,
            },
            Err(refusal) => raw::AdmitResult {
                outcome: not_admitted(refusal),
                ticket: 0,
                enc_start: 0,
                enc_end: 0,
                ciphertext_start: 0,
                ciphertext_end: 0,
                kdf: 0,
                aead: 0,
                key_id: 0,
            },
        };
        assert_eq!(given, expected);
        same_memory(&info, &expected_info);
        given.outcome
    }

    fn open(&mut self, ticket: u64, success: bool, n: u64) -> Outcome {
        // Any number but 0 is a success.
        let success_number = if success { (ticket % 255) as u8 + 1 } else { 0 };
        let given = raw::open(&mut self.library, ticket, success_number, n);
        let (outcome, opened) = match self.reference.open(ticket, success, n) {
            Ok(Opening::Opened) => (accepted(0), 1),
            Ok(Opening::Failed) => (accepted(422), 0),
            Err(refusal) => (refused(refusal), 0),
        };
        assert_eq!(given, raw::OpenResult { outcome, opened });
        outcome
    }

    fn respond(&mut self, call: &Call) -> Outcome {
        let (ticket, enc, nonce, plain, room) = match call {
            Call::Respond {
                ticket,
                enc,
                nonce,
                plain,
                room,
            } => (*ticket, enc, nonce, *plain, *room),
            _ => unreachable!("a respond"),
        };
        let (mut salt, mut expected_salt) = lend(room);
        let given = raw::respond(&mut self.library, ticket, enc, nonce, plain, salt.buffer());
        let answer = self
            .reference
            .respond(ticket, enc, nonce, plain, expected_salt.buffer());
        let (outcome, length) = match answer {
            Ok(length) => (accepted(200), length),
            Err(refusal) => (refused(refusal), 0),
        };
        assert_eq!(given, raw::RespondResult { outcome, length });
        same_memory(&salt, &expected_salt);
        outcome
    }

    fn same_report(&self) {
        let given = raw::report(&self.library);
        let expected = self.reference.report();
        assert_eq!(given.outcome, accepted(0));
        assert_eq!(given.last_ticket, expected.last_ticket);
        assert_eq!(given.pending, expected.pending);
        assert_eq!(given.key_count, expected.keys.len());
        let nothing = raw::KeyReport {
            id: 0,
            count: 0,
            retired: 0,
        };
        for (place, key) in given.keys.iter().enumerate() {
            let expected = expected
                .keys
                .get(place)
                .map_or(nothing, |key| raw::KeyReport {
                    id: key.id,
                    count: key.count as u32,
                    retired: u8::from(key.retired),
                });
            assert_eq!(*key, expected, "key {place} of the report");
        }
    }
}

impl Both {
    /// Both searches find each pending ticket at one place, at most 128 in all, and no other ticket.
    fn same_places(&mut self) {
        let last = self.reference.report().last_ticket;
        let mut taken = BTreeSet::new();
        for ticket in self.reference.pending.keys() {
            let place = raw::find(&mut self.library, *ticket, *ticket);
            assert_eq!(raw::plain_find(&mut self.library, *ticket), place);
            assert!(place < PLACES && taken.insert(place), "ticket {ticket}");
        }
        for ticket in [last + 1, u64::MAX] {
            assert_eq!(raw::find(&mut self.library, ticket, ticket), PLACES);
            assert_eq!(raw::plain_find(&mut self.library, ticket), PLACES);
        }
    }
}

/// The calls on key lists, on messages and on the client's side.
fn without_gateway(call: &Call) -> Outcome {
    match call {
        Call::Check { list } => {
            let read = read_list(list).map(|read| (read.configurations.len(), read.skipped));
            let (outcome, (configurations, skipped)) = expect(read);
            let expected = raw::CheckResult {
                outcome,
                configurations,
                skipped,
            };
            assert_eq!(raw::check(list), expected);
            outcome
        }
        Call::Key { list, key_id } => {
            let answer = public_key(list, *key_id);
            // The reference hands the part back: its offsets are counted from the list's start.
            let (outcome, (start, end)) = expect(answer.map(|key| {
                let start = key.as_ptr() as usize - list.as_ptr() as usize;
                (start, start + key.len())
            }));
            let expected = raw::KeyResult {
                outcome,
                start,
                end,
            };
            assert_eq!(raw::key(list, *key_id), expected);
            outcome
        }
        Call::Choose { list, kems, pairs } => compare_choose(list, kems, pairs),
        Call::Head { .. } => compare_head(call),
        Call::Split { aead, response } => {
            let answer = split(*aead, response);
            let (outcome, (nonce_length, ciphertext_length)) =
                expect(answer.map(|(nonce, ciphertext)| (nonce.len(), ciphertext.len())));
            let expected = raw::SplitResult {
                outcome,
                nonce_length,
                ciphertext_length,
            };
            assert_eq!(raw::split(*aead, response), expected);
            outcome
        }
        Call::Write {
            room,
            configurations,
        } => compare_write(*room, configurations),
        Call::Exporter { aead, room } => compare_exporter(*aead, *room),
        Call::Request { message } => compare_message(message),
        _ => unreachable!("the other calls are the gateway's"),
    }
}

fn compare_choose(list: &[u8], kems: &[u16], pairs: &[u16]) -> Outcome {
    let expected = match choose(list, kems, pairs) {
        Ok(chosen) => raw::ChooseResult {
            outcome: accepted(0),
            key_start: chosen.public_key.start,
            key_end: chosen.public_key.end,
            kem: chosen.kem,
            kdf: chosen.pair.kdf,
            aead: chosen.pair.aead,
            key_id: chosen.key_id,
        },
        Err(refusal) => raw::ChooseResult {
            outcome: refused(refusal),
            key_start: 0,
            key_end: 0,
            kem: 0,
            kdf: 0,
            aead: 0,
            key_id: 0,
        },
    };
    assert_eq!(raw::choose(list, kems, pairs), expected);
    expected.outcome
}

fn compare_head(call: &Call) -> Outcome {
    let (key_id, kem, pair, enc, room, info_room) = match call {
        Call::Head {
            key_id,
            kem,
            pair,
            enc,
            room,
            info_room,
        } => (*key_id, *kem, *pair, enc, *room, *info_room),
        _ => unreachable!("a head"),
    };
    let (mut buffer, mut expected_buffer) = lend(room);
    let (mut info, mut expected_info) = lend(info_room);
    let numbers = (pair.kdf, pair.aead);
    let given = raw::head(key_id, kem, numbers, enc, buffer.buffer(), info.buffer());
    let (outcome, length) = expect(head(
        key_id,
        kem,
        pair,
        enc,
        expected_buffer.buffer(),
        expected_info.buffer(),
    ));
    assert_eq!(given, raw::HeadResult { outcome, length });
    same_memory(&buffer, &expected_buffer);
    same_memory(&info, &expected_info);
    outcome
}

fn compare_write(room: usize, configurations: &[Fields]) -> Outcome {
    let mut fields = raw::Fields::default();
    for configuration in configurations {
        fields.key_ids.push(configuration.id);
        fields.kems.push(configuration.kem);
        fields.key_lengths.push(configuration.public_key.len());
        fields.keys.extend_from_slice(&configuration.public_key);
        fields.pair_counts.push(configuration.pairs.len());
        fields.pairs.extend_from_slice(&configuration.pairs);
    }
    let (mut buffer, mut expected_buffer) = lend(room);
    let given = raw::write(&fields, buffer.buffer());
    let (outcome, length) = expect(write_list(configurations, expected_buffer.buffer()));
    assert_eq!(given, raw::WriteResult { outcome, length });
    same_memory(&buffer, &expected_buffer);
    outcome
}

fn compare_exporter(aead: u16, room: usize) -> Outcome {
    let (mut context, mut expected_context) = lend(room);
    let given = raw::exporter(aead, context.buffer());
    let answer = exporter(aead, expected_context.buffer());
    let (outcome, (context_length, secret_length)) =
        expect(answer.map(|secret| (EXPORTER_CONTEXT.len(), secret)));
    let expected = raw::ExporterResult {
        outcome,
        context_length,
        secret_length,
    };
    assert_eq!(given, expected);
    same_memory(&context, &expected_context);
    outcome
}

/// Each call and the numbers that 01 makes possible for it, 0 for accepted.
fn possible() -> BTreeSet<(&'static str, u8)> {
    let exported = POSSIBLE.iter().filter(|(call, _)| *call != "bad line");
    exported
        .flat_map(|(call, answers)| {
            let numbers = answers.iter().map(|answer| answer.parse().unwrap_or(0));
            numbers.map(|number| (*call, number))
        })
        .collect()
}

/// Each answer is reached at least so often, so that none goes without comparison.
const LEAST: u64 = 20;

#[test]
fn generated_calls() {
    let mut reached = BTreeMap::new();
    for seed in SEEDS {
        let mut both = Both::new();
        for (place, call) in generated(seed).iter().enumerate() {
            let _shown = OnFailure { seed, place, call };
            let number = both.perform(call);
            *reached.entry((name(call), number)).or_insert(0) += 1;
        }
    }
    for (call, number) in possible() {
        let times = reached.remove(&(call, number)).unwrap_or(0);
        assert!(times >= LEAST, "{call} answered {number} {times} times");
    }
    assert!(reached.is_empty(), "answers that 01 rules out: {reached:?}");
}

#[test]
fn the_edges() {
    let mut both = Both::new();
    for call in edges() {
        both.perform(&call);
    }
}

/// A count or a ticket of 16 bits would begin again at 65,536.
#[test]
fn counts_go_past_sixteen_bits() {
    let mut both = Both::new();
    both.perform(&Call::Setup {
        cap: 65_538,
        list: list_of_two(),
    });
    let admit = Call::Admit {
        request: edge_request(),
        room: 29,
    };
    for ticket in 1..=65_538 {
        assert_eq!(both.perform(&admit), 0);
        assert_eq!(both.perform(&Call::Abandon { ticket }), 0);
    }
    assert_eq!(both.perform(&admit), 8);
}

/// Two configurations of different KEMs.
fn list_of_two() -> Vec<u8> {
    let fields = |id, kem, npk, pairs: &[u16]| Fields {
        id,
        kem,
        public_key: vec![0x11; npk],
        pairs: pairs.to_vec(),
    };
    let given = [
        fields(7, 0x0020, 32, &[1, 3, 2, 1]),
        fields(8, 0x0010, 65, &[1, 1]),
    ];
    let mut list = vec![0; 200];
    let length = write_list(&given, &mut list).expect("a good list");
    list.truncate(length);
    list
}

/// Every call that takes a list, with this one.
fn compare_list(list: &[u8]) {
    let list = list.to_vec();
    let calls = [
        Call::Check { list: list.clone() },
        Call::Key {
            list: list.clone(),
            key_id: 8,
        },
        Call::Choose {
            list: list.clone(),
            kems: vec![0x10, 0x20],
            pairs: vec![1, 1],
        },
        Call::Setup { cap: 5, list },
        Call::Retire { key_id: 8 },
    ];
    let mut both = Both::new();
    for call in calls {
        both.perform(&call);
    }
}

#[test]
fn a_list_with_one_byte_changed() {
    let list = list_of_two();
    for place in 0..list.len() {
        for byte in 0..=u8::MAX {
            let mut changed = list.clone();
            changed[place] = byte;
            compare_list(&changed);
        }
    }
}

#[test]
fn a_list_cut_anywhere() {
    let list = [list_of_two(), vec![0; 3]].concat();
    for end in 0..=list.len() {
        compare_list(&list[..end]);
    }
}

/// A request to the first key of the list of two.
fn edge_request() -> Vec<u8> {
    let mut request = vec![7, 0x00, 0x20, 0x00, 0x01, 0x00, 0x03];
    request.resize(100, 0x33);
    request
}

/// Admits a request, as it is or with a part changed, with too little room, enough and too much.
fn compare_request(request: &[u8]) {
    let mut both = Both::new();
    let list = list_of_two();
    both.perform(&Call::Setup { cap: 5, list });
    for room in [0, 28, 29, 30] {
        let request = request.to_vec();
        both.perform(&Call::Admit { request, room });
    }
}

#[test]
fn a_request_with_one_byte_changed() {
    for place in 0..7 {
        for byte in 0..=u8::MAX {
            let mut changed = edge_request();
            changed[place] = byte;
            compare_request(&changed);
        }
    }
}

#[test]
fn requests_of_every_length() {
    for kem in [0x10, 0x11, 0x12, 0x20, 0x21, 0x22] {
        for length in (0..200).chain(65_534..65_540) {
            let mut request = vec![7, 0x00, kem, 0x00, 0x01, 0x00, 0x03];
            request.resize(length, 0x33);
            compare_request(&request);
        }
    }
}

#[test]
fn every_aead_to_the_exporter() {
    for aead in 0..=u16::MAX {
        compare_exporter(aead, 22);
    }
    for aead in 0..6 {
        for room in 0..60 {
            compare_exporter(aead, room);
        }
    }
}

/// Fields that are missing or left over break the layout too; the reference takes whole
/// configurations alone, so what is expected stands here.
#[test]
fn written_fields_that_do_not_belong_together() {
    let good = raw::Fields {
        key_ids: vec![7],
        kems: vec![0x0020],
        key_lengths: vec![32],
        keys: vec![0x11; 32],
        pair_counts: vec![2],
        pairs: vec![1, 3],
    };
    let mut buffer = [0; 50];
    assert_eq!(raw::write(&good, &mut buffer).length, 43);
    type Change = fn(&mut raw::Fields);
    let changes: [(Change, u8, usize); 12] = [
        (|fields| fields.kems.clear(), 3, 3),
        (|fields| fields.key_lengths.clear(), 19, 0),
        (|fields| fields.pair_counts.clear(), 20, 37),
        (|fields| fields.keys.truncate(31), 19, 0),
        (|fields| fields.pairs.truncate(1), 20, 37),
        (|fields| fields.pair_counts[0] = usize::MAX, 20, 37),
        (|fields| fields.kems.push(0x0020), 19, 43),
        (|fields| fields.key_lengths.push(0), 19, 43),
        (|fields| fields.keys.push(0), 19, 43),
        (|fields| fields.pair_counts.push(0), 19, 43),
        (|fields| fields.pairs.push(0), 19, 43),
        (|fields| fields.key_lengths[0] = usize::MAX, 19, 0),
    ];
    for (change, number, place) in changes {
        let mut fields = good.clone();
        change(&mut fields);
        let mut buffer = [0xa5; 50];
        let given = raw::write(&fields, &mut buffer);
        let outcome = Outcome {
            number,
            has_place: true,
            place,
            ..accepted(0)
        };
        assert_eq!(given.outcome, outcome);
        assert_eq!(buffer, [0xa5; 50]);
    }
}

#[test]
fn sizes_are_the_librarys() {
    let expected = raw::SizesResult {
        gateway: size_of::<raw::Gateway>(),
        outcome: size_of::<raw::Outcome>(),
        setup: size_of::<raw::SetupResult>(),
        admit: size_of::<raw::AdmitResult>(),
        open: size_of::<raw::OpenResult>(),
        respond: size_of::<raw::RespondResult>(),
        report: size_of::<raw::ReportResult>(),
        check: size_of::<raw::CheckResult>(),
        key: size_of::<raw::KeyResult>(),
        write: size_of::<raw::WriteResult>(),
        choose: size_of::<raw::ChooseResult>(),
        head: size_of::<raw::HeadResult>(),
        split: size_of::<raw::SplitResult>(),
        exporter: size_of::<raw::ExporterResult>(),
    };
    assert_eq!(raw::sizes(), expected);
}

#[test]
fn message_sizes_are_the_librarys() {
    let expected = raw::MessageSizesResult {
        request: size_of::<raw::RequestResult>(),
        request_part: size_of::<raw::RequestPartResult>(),
        next_field: size_of::<raw::NextFieldResult>(),
    };
    assert_eq!(raw::message_sizes(), expected);
}

/// The first length that a call does not refuse with `wrong`: 0 where the call is refused all the same.
fn taken(wrong: u8, call: impl Fn(usize) -> u8) -> usize {
    let mut answers = (0..2048).map(|length| (length, call(length)));
    let is_other = |answer: &(usize, u8)| answer.1 != wrong;
    match answers.find(is_other).expect("some length is right") {
        (length, 0) => length,
        _ => 0,
    }
}

/// 02, A4: the library has its sizes from one table, and the longest lengths are those of this table,
/// over every KEM and AEAD number.
#[test]
fn longest_lengths_are_the_librarys() {
    let bytes = [0; 2048];
    let enc = |kem| {
        taken(13, |length| {
            let (mut head, mut info) = ([0; 2100], [0; 29]);
            let given = raw::head(7, kem, (1, 3), &bytes[..length], &mut head, &mut info);
            given.outcome.number
        })
    };
    let key = |kem| {
        taken(19, |length| {
            let fields = raw::Fields {
                key_ids: vec![7],
                kems: vec![kem],
                key_lengths: vec![length],
                keys: vec![0; length],
                pair_counts: vec![2],
                pairs: vec![1, 3],
            };
            raw::write(&fields, &mut [0; 2100]).outcome.number
        })
    };
    let nonce = |aead| match raw::exporter(aead, &mut [0; 22]) {
        answer if answer.outcome.number == 0 => answer.secret_length,
        _ => 0,
    };
    let longest_enc = (0..=u16::MAX).map(enc).max().unwrap();
    let longest_key = (0..=u16::MAX).map(key).max().unwrap();
    let longest_nonce = (0..=u16::MAX).map(nonce).max().unwrap();
    assert_eq!(raw::LONGEST_HEAD, 7 + longest_enc);
    assert_eq!(raw::LONGEST_SALT, longest_enc + longest_nonce);
    assert_eq!(raw::LONGEST_LIST, 16 * (2 + 5 + longest_key + 16 * 4));
}

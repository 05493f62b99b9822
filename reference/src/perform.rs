//! A call, done by a keeper (gateway or book), and its answer line.

use crate::answer::{self, hex, refused, refused_with};
use crate::call::Call;
use crate::client::{choose, exporter, head, split};
use crate::keeper::Keeper;
use crate::key_list::{public_key, read_list};
use crate::list_writer::write_list;
use crate::message::read_message;
use crate::refusal::{refusal_at, Refusal};

/// "It fills it with `a5` before the call".
fn lend(room: usize) -> Vec<u8> {
    vec![0xa5; room]
}

/// Does the call and gives its answer line, without a newline.
pub fn perform<K: Keeper>(keeper: &mut K, call: &Call) -> String {
    match call {
        Call::Setup { cap, list } => {
            let (fresh, answer) = K::setup(*cap, list);
            *keeper = fresh;
            line(answer, |keys| format!("ready keys={keys}"))
        }
        Call::Admit { request, room } => {
            let mut buffer = lend(*room);
            match keeper.admit(request, &mut buffer) {
                Ok(admitted) => answer::admitted(&admitted, &buffer),
                Err(refusal) => answer::admission_refused(refusal, &buffer),
            }
        }
        Call::Open { ticket, success, n } => {
            line(keeper.open(*ticket, *success, *n), answer::opening)
        }
        Call::Respond {
            ticket,
            enc,
            nonce,
            plain,
            room,
        } => {
            let mut buffer = lend(*room);
            match keeper.respond(*ticket, enc, nonce, *plain, &mut buffer) {
                Ok(length) => answer::sealed(length, &buffer),
                Err(refusal) => refused_with(refusal, &buffer),
            }
        }
        Call::Abandon { ticket } => line(keeper.abandon(*ticket), |()| "abandoned".to_string()),
        Call::Retire { key_id } => line(keeper.retire(*key_id), |()| "retired".to_string()),
        Call::Report => answer::report(&keeper.report()),
        _ => perform_without_keeper(call),
    }
}

/// The calls on the client side, on lists and on messages alone.
fn perform_without_keeper(call: &Call) -> String {
    match call {
        Call::Check { list } => line(read_list(list), |read| answer::good(&read)),
        Call::Key { list, key_id } => {
            line(public_key(list, *key_id), |key| format!("key {}", hex(key)))
        }
        Call::Choose { list, kems, pairs } => {
            line(choose(list, kems, pairs), |chosen| answer::chosen(&chosen))
        }
        Call::Split { aead, response } => line(split(*aead, response), |(nonce, ciphertext)| {
            format!("split nonce={} ciphertext={}", hex(nonce), hex(ciphertext))
        }),
        Call::Request { message } => {
            let read = read_message(message).map_err(|place| refusal_at(23, place));
            line(read, |message| answer::request(&message))
        }
        _ => perform_with_buffers(call),
    }
}

/// Those of them that lend buffers.
fn perform_with_buffers(call: &Call) -> String {
    match call {
        Call::Head {
            key_id,
            kem,
            pair,
            enc,
            room,
            info_room,
        } => {
            let (mut buffer, mut info) = (lend(*room), lend(*info_room));
            let answer = head(*key_id, *kem, *pair, enc, &mut buffer, &mut info);
            let start = line(answer, |length| format!("head length={length}"));
            format!("{} buffer={} info={}", start, hex(&buffer), hex(&info))
        }
        Call::Exporter { aead, room } => {
            let mut buffer = lend(*room);
            match exporter(*aead, &mut buffer) {
                Ok(secret) => format!("exporter secret={} buffer={}", secret, hex(&buffer)),
                Err(refusal) => refused_with(refusal, &buffer),
            }
        }
        Call::Write {
            room,
            configurations,
        } => {
            let mut buffer = lend(*room);
            match write_list(configurations, &mut buffer) {
                Ok(length) => format!("written length={} buffer={}", length, hex(&buffer)),
                Err(refusal) => refused_with(refusal, &buffer),
            }
        }
        _ => unreachable!("the other calls are the keeper's"),
    }
}

/// The answer's own line, or its refusal where no buffer is lent.
fn line<A>(answer: Result<A, Refusal>, accepted: impl Fn(A) -> String) -> String {
    match answer {
        Ok(answer) => accepted(answer),
        Err(refusal) => refused(refusal),
    }
}

//! Open results, responds, abandons and retirements.

use super::key_lists::{kem, known_number};
use crate::algorithms::{kems, nenc, npk, response_nonce_length, NN, TAG_LENGTH};
use crate::answer::hex;
use crate::call::LARGEST_ROOM;
use crate::gateway::{Exchange, Gateway, State};
use crate::random::Random;
use crate::skipped::Skipped;

pub fn open(random: &mut Random, gateway: &Gateway) -> String {
    let ticket = ticket(random, gateway, |exchange| exchange.state == State::Asked);
    let right = gateway.pending.get(&ticket).map(Exchange::opened_length);
    let right = right.unwrap_or(0);
    let n = match random.below(16) {
        0 => right + 1,
        1 => right.wrapping_sub(1),
        2 => right + TAG_LENGTH as u64,
        3 => random.pick(&[0, 65_536, right + 65_536, right + (1 << 32), u64::MAX]),
        _ => right,
    };
    let result = if random.one_in(6) { "failed" } else { "ok" };
    format!("open {} {result} {n}", decimal(random, ticket))
}

pub fn respond(random: &mut Random, gateway: &Gateway) -> String {
    let ticket = ticket(random, gateway, |exchange| exchange.state == State::Opened);
    let (enc, nonce) = match gateway.pending.get(&ticket) {
        Some(exchange) => exchange.reply_lengths(),
        None => any_lengths(random),
    };
    let enc_length = match random.below(12) {
        0 => random.one_off(enc),
        1 => any_enc_length(random),
        _ => enc,
    };
    let nonce_length = match random.below(12) {
        0 => random.one_off(nonce),
        1 => any_nonce_length(random),
        _ => nonce,
    };
    let room = respond_room(random, enc_length + nonce_length);
    format!(
        "respond {} {} {} {} {room}",
        decimal(random, ticket),
        hex(&random.bytes(enc_length)),
        hex(&random.bytes(nonce_length)),
        plain(random)
    )
}

/// 0 or a size of any KEM, Npk too, which is no length of enc where Nenc is another.
pub fn any_enc_length(random: &mut Random) -> usize {
    let sizes = kems().flat_map(|kem| [nenc(kem), npk(kem)]);
    let mut lengths: Vec<usize> = sizes.flatten().chain([0]).collect();
    lengths.sort_unstable();
    lengths.dedup();
    random.pick(&lengths)
}

/// 0, Nn, which is no nonce's length, or that of any AEAD.
fn any_nonce_length(random: &mut Random) -> usize {
    let nonce = |aead| response_nonce_length(aead).unwrap_or(0);
    random.pick(&[0, NN, NN, nonce(1), nonce(2)])
}

fn any_lengths(random: &mut Random) -> (usize, usize) {
    let enc = nenc(kem(random)).unwrap_or(0);
    let nonce = response_nonce_length(known_number(random)).unwrap_or(0);
    (enc, nonce)
}

fn respond_room(random: &mut Random, enough: usize) -> usize {
    let room = match random.below(12) {
        0 => enough.saturating_sub(1),
        1 => enough + 1,
        2 => random.pick(&[0, 256]),
        3 => random.below(257),
        _ => enough,
    };
    room.min(LARGEST_ROOM)
}

fn plain(random: &mut Random) -> u64 {
    match random.below(12) {
        0 => random.pick(&[65_537, 131_072, 1 << 32, u64::MAX]),
        1 | 2 => random.pick(&[65_535, 65_536]),
        3 => 0,
        _ => random.below(2_000) as u64,
    }
}

pub fn abandon(random: &mut Random, gateway: &Gateway) -> String {
    let ticket = ticket(random, gateway, |_| true);
    format!("abandon {}", decimal(random, ticket))
}

/// Closes a ticket whose exchange is asked.
pub fn close(random: &mut Random, ticket: u64) -> String {
    if random.one_in(2) {
        format!("abandon {ticket}")
    } else {
        format!("open {ticket} failed 0")
    }
}

/// Live keys are retired seldom, the last one most seldom, so that lists go deep.
pub fn retire(random: &mut Random, gateway: &Gateway, skipped: &[Skipped]) -> String {
    let ids = |retired: bool| -> Vec<u8> {
        let keys = gateway.keys.iter().filter(|key| key.retired == retired);
        keys.map(|key| key.id).collect()
    };
    let (live, retired) = (ids(false), ids(true));
    let id = match random.below(8) {
        0 if live.len() > 1 || (live.len() == 1 && random.one_in(6)) => random.pick(&live),
        1..=3 if !retired.is_empty() => random.pick(&retired),
        // Now and then a live key has the same id.
        4 | 5 if !skipped.is_empty() => random.pick(skipped).id,
        _ => random.byte(),
    };
    format!("retire {id}")
}

/// A pending ticket whose exchange passes, most of the time, else one of any other kind.
fn ticket(random: &mut Random, gateway: &Gateway, passes: impl Fn(&Exchange) -> bool) -> u64 {
    let pending = gateway.pending.iter();
    let passing: Vec<u64> = pending.filter(|p| passes(p.1)).map(|p| *p.0).collect();
    if !passing.is_empty() && !random.one_in(6) {
        return random.pick(&passing);
    }
    let last = gateway.last_ticket;
    let pending: Vec<u64> = gateway.pending.keys().copied().collect();
    let given = 1 + random.below(last as usize + 1) as u64;
    match random.below(11) {
        0 => 0,
        1 => last,
        2 => last + 1,
        3 => u64::MAX,
        // Closed, most of the time.
        4 | 5 => given,
        6 if !pending.is_empty() => random.pick(&pending),
        // The same in its low bits alone.
        7 if !pending.is_empty() => random.pick(&pending) + random.pick(&[256, 65_536, 1 << 32]),
        // The same place in a table of 128 places that goes by the ticket.
        8 | 9 if !pending.is_empty() => {
            let ticket = random.pick(&pending);
            random.pick(&[ticket + 128, ticket.saturating_sub(128)])
        }
        _ => random.next(),
    }
}

/// Leading zeros are allowed.
fn decimal(random: &mut Random, value: u64) -> String {
    if random.one_in(60) {
        format!("000{value}")
    } else {
        value.to_string()
    }
}

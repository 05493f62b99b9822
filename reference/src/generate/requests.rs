//! Admissions: right requests and requests with one fault or more.

use super::key_lists::{known_number, unknown_kem, unknown_number, KEMS, X25519};
use crate::algorithms::{shortest_request, Pair, HEAD_LENGTH};
use crate::answer::hex;
use crate::gateway::{Gateway, Key};
use crate::random::Random;
use crate::skipped::Skipped;

/// A request in the making.
struct Draft {
    id: u8,
    kem: u16,
    pair: Pair,
    length: usize,
}

/// A request that is admitted wherever a key is left, with room for its info.
pub fn right_admit(random: &mut Random, gateway: &Gateway) -> String {
    let draft = right_draft(random, gateway);
    line(random, &draft, 29)
}

pub fn admit(random: &mut Random, gateway: &Gateway, skipped: &[Skipped]) -> String {
    let mut draft = right_draft(random, gateway);
    if !skipped.is_empty() && random.one_in(12) {
        to_skipped(random, skipped, &mut draft);
    } else if random.one_in(2) {
        spoil(random, gateway, &mut draft);
        while random.one_in(4) {
            spoil(random, gateway, &mut draft);
        }
    }
    if random.one_in(360) {
        draft.length = random.pick(&[65_535, 65_536, 65_537, 65_537, 65_537, 70_000]);
    }
    let room = match random.below(16) {
        0 => 28,
        1 => 30,
        2 => 0,
        3 => 256,
        4 => random.below(257),
        _ => 29,
    };
    line(random, &draft, room)
}

fn right_draft(random: &mut Random, gateway: &Gateway) -> Draft {
    let has_use = |key: &Key| !key.retired && key.count < gateway.cap;
    draft_of(random, gateway, |key| {
        has_use(key) && key.pairs.iter().any(|pair| pair.is_known())
    })
}

/// A request to one of the keys that pass, else to any key.
fn draft_of(random: &mut Random, gateway: &Gateway, passes: impl Fn(&Key) -> bool) -> Draft {
    let mut keys: Vec<&Key> = gateway.keys.iter().filter(|key| passes(key)).collect();
    if keys.is_empty() {
        keys = gateway.keys.iter().collect();
    }
    if keys.is_empty() {
        return free_draft(random);
    }
    let key = random.pick(&keys);
    let known: Vec<Pair> = key.pairs.iter().copied().filter(|p| p.is_known()).collect();
    let pairs = if known.is_empty() { &key.pairs } else { &known };
    Draft {
        id: key.id,
        kem: key.kem,
        pair: random.pick(pairs),
        length: long_enough(random, key.kem),
    }
}

/// A request to a gateway without keys.
fn free_draft(random: &mut Random) -> Draft {
    let kem = random.pick(&KEMS);
    Draft {
        id: random.byte(),
        kem,
        pair: known_pair(random),
        length: long_enough(random, kem),
    }
}

fn known_pair(random: &mut Random) -> Pair {
    Pair {
        kdf: known_number(random),
        aead: known_number(random),
    }
}

/// The KEM's shortest request; for an unknown KEM that of X25519.
fn shortest(kem: u16) -> usize {
    let shortest = shortest_request(kem).or_else(|| shortest_request(X25519));
    shortest.unwrap_or(HEAD_LENGTH)
}

/// The shortest, or somewhat longer.
fn long_enough(random: &mut Random, kem: u16) -> usize {
    let shortest = shortest(kem);
    match random.below(10) {
        0..=4 => shortest,
        5..=8 => shortest + random.below(20),
        _ => shortest + random.below(200),
    }
}

fn spoil(random: &mut Random, gateway: &Gateway, draft: &mut Draft) {
    match random.below(15) {
        0 => draft.id = absent_id(random, gateway),
        1 => draft.kem = unknown_kem(random),
        2 => draft.kem = random.pick(&KEMS),
        3 => {
            draft.kem = random.pick(&KEMS);
            draft.length = long_enough(random, draft.kem);
        }
        4 => mix_halves(random, gateway, draft),
        5 => draft.pair = known_pair(random),
        6 => draft.pair.kdf = unknown_number(random),
        7 => draft.pair.aead = unknown_number(random),
        8 => unknown_but_listed(random, gateway, draft),
        9 => *draft = draft_of(random, gateway, |key| key.retired),
        10 => *draft = draft_of(random, gateway, |key| key.count == gateway.cap),
        11 => draft.length = shortest(draft.kem) - 1,
        12 => draft.length = random.pick(&[0, 1, 6, 6, 7, 7, 8]),
        13 => {
            draft.kem = unknown_kem(random);
            draft.length = random.pick(&[6, 7, shortest(draft.kem) - 1]);
        }
        _ => draft.id = any_key_id(random, gateway),
    }
}

/// A request that names the key id of a skipped configuration, its KEM, or both.
fn to_skipped(random: &mut Random, skipped: &[Skipped], draft: &mut Draft) {
    let Skipped { id, kem } = random.pick(skipped);
    let names = random.below(3);
    if names != 0 {
        draft.id = id;
    }
    if names != 1 {
        draft.kem = kem;
    }
}

fn absent_id(random: &mut Random, gateway: &Gateway) -> u8 {
    loop {
        let id = random.byte();
        if gateway.keys.iter().all(|key| key.id != id) {
            return id;
        }
    }
}

fn any_key_id(random: &mut Random, gateway: &Gateway) -> u8 {
    if gateway.keys.is_empty() {
        return random.byte();
    }
    let place = random.below(gateway.keys.len());
    gateway.keys[place].id
}

/// KDF and AEAD of two pairs of the same key.
fn mix_halves(random: &mut Random, gateway: &Gateway, draft: &mut Draft) {
    let key = gateway.keys.iter().find(|key| key.id == draft.id);
    if let Some(key) = key {
        draft.pair.kdf = random.pick(&key.pairs).kdf;
        draft.pair.aead = random.pick(&key.pairs).aead;
    }
}

/// A pair that the key lists and the tables do not know.
fn unknown_but_listed(random: &mut Random, gateway: &Gateway, draft: &mut Draft) {
    let lists_unknown = |key: &Key| key.pairs.iter().any(|pair| !pair.is_known());
    *draft = draft_of(random, gateway, lists_unknown);
    let key = gateway.keys.iter().find(|key| key.id == draft.id);
    let unknown = key.and_then(|key| key.pairs.iter().find(|pair| !pair.is_known()));
    if let Some(pair) = unknown {
        draft.pair = *pair;
    }
}

fn line(random: &mut Random, draft: &Draft, room: usize) -> String {
    let mut request = vec![draft.id];
    for number in [draft.kem, draft.pair.kdf, draft.pair.aead] {
        request.extend(number.to_be_bytes());
    }
    request.extend(random.bytes(draft.length.saturating_sub(HEAD_LENGTH)));
    request.truncate(draft.length);
    format!("admit {} {room}", hex(&request))
}

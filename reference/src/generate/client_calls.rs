//! The calls of the client side and on key lists.

use super::key_lists::{
    configurations, kem, known_number, long, nearly_right, number, small, small_count, unknown_kem,
    unknown_number, KEMS, X25519,
};
use super::ticket_calls::any_enc_length;
use crate::algorithms::{nenc, npk, response_nonce_length, HEAD_LENGTH, NN, TAG_LENGTH};
use crate::answer::hex;
use crate::call::LARGEST_ROOM;
use crate::client::EXPORTER_CONTEXT;
use crate::key_list::{read_list, Configuration, MOST_CONFIGURATIONS};
use crate::list_writer::{encode, Fields};
use crate::random::Random;
use crate::skipped::skipped;

/// A longer list of the last setup is used seldom, so that lines stay short.
const SHORT_LIST: usize = 150;

pub fn check(random: &mut Random, last: &[u8]) -> String {
    format!("check {}", hex(&some_list(random, last)))
}

pub fn key(random: &mut Random, last: &[u8]) -> String {
    let list = some_list(random, last);
    let read = read_list(&list).unwrap_or_default().configurations;
    let skipped = skipped(&list);
    let id = if !skipped.is_empty() && random.one_in(3) {
        random.pick(&skipped).id
    } else if read.is_empty() || random.one_in(4) {
        random.byte()
    } else {
        read[random.below(read.len())].id
    };
    format!("key {} {id}", hex(&list))
}

pub fn choose(random: &mut Random, last: &[u8]) -> String {
    let list = some_list(random, last);
    let read = read_list(&list).unwrap_or_default().configurations;
    let mut kems = client_kems(random, &read);
    // The client may know a KEM that is unknown here.
    if random.one_in(2) {
        kems.splice(0..0, skipped(&list).iter().map(|one| one.kem));
    }
    let pairs = client_pairs(random, &read);
    format!(
        "choose {} {} {}",
        hex(&list),
        numbers(&kems),
        numbers(&pairs)
    )
}

/// The last setup's list, a good one or a nearly right one; seldom one that is very long.
fn some_list(random: &mut Random, last: &[u8]) -> Vec<u8> {
    if random.one_in(400) {
        return long(random);
    }
    let use_last = last.len() <= SHORT_LIST || random.one_in(20);
    match random.below(11) {
        0..=3 if use_last => last.to_vec(),
        4..=7 => nearly_right(random),
        _ => small(random),
    }
}

fn client_kems(random: &mut Random, read: &[Configuration]) -> Vec<u16> {
    let mut kems = Vec::new();
    for configuration in read {
        if !random.one_in(3) {
            kems.push(configuration.kem);
        }
    }
    if random.one_in(4) {
        kems.push(unknown_kem(random));
    }
    if random.one_in(4) {
        kems.insert(0, random.pick(&KEMS));
    }
    kems
}

/// KDF and AEAD by turns, some of them the list's; now and then one number too few.
fn client_pairs(random: &mut Random, read: &[Configuration]) -> Vec<u16> {
    let mut pairs = Vec::new();
    for pair in read.iter().flat_map(|configuration| &configuration.pairs) {
        match random.below(4) {
            0 => pairs.extend([pair.kdf, pair.aead]),
            1 => pairs.extend([pair.aead, pair.kdf]),
            _ => {}
        }
    }
    if random.one_in(3) {
        pairs.extend([known_number(random), known_number(random)]);
    }
    if random.one_in(5) {
        pairs.extend([known_number(random), unknown_number(random)]);
    }
    if random.one_in(6) {
        pairs.push(known_number(random));
    }
    pairs
}

/// Numbers of four hex digits, run together.
fn numbers(numbers: &[u16]) -> String {
    let bytes: Vec<u8> = numbers.iter().flat_map(|n| n.to_be_bytes()).collect();
    hex(&bytes)
}

pub fn head(random: &mut Random) -> String {
    let named = kem(random);
    let right = nenc(named).unwrap_or(0);
    let enc = match random.below(8) {
        0 => random.one_off(right),
        1 => any_enc_length(random),
        _ => right,
    };
    let named = if random.one_in(8) {
        unknown_kem(random)
    } else {
        named
    };
    format!(
        "head {} {:04x} {:04x} {:04x} {} {} {}",
        random.byte(),
        named,
        number(random),
        number(random),
        hex(&random.bytes(enc)),
        room_around(random, HEAD_LENGTH + right),
        room_around(random, 29)
    )
}

/// Just enough room most of the time.
fn room_around(random: &mut Random, enough: usize) -> usize {
    let room = match random.below(12) {
        0 => enough - 1,
        1 => enough + 1,
        2 => random.pick(&[0, 256]),
        3 => random.below(257),
        _ => enough,
    };
    room.min(LARGEST_ROOM)
}

pub fn exporter(random: &mut Random) -> String {
    let room = room_around(random, EXPORTER_CONTEXT.len());
    format!("exporter {:04x} {room}", number(random))
}

pub fn split(random: &mut Random) -> String {
    let aead = number(random);
    // An unknown AEAD gets the nonce of a known one.
    let nonce = response_nonce_length(aead).or_else(|| response_nonce_length(3));
    let nonce = nonce.unwrap_or(0);
    let length = match random.below(8) {
        0 => nonce + TAG_LENGTH - 1,
        1 | 2 => nonce + TAG_LENGTH,
        3 => NN + random.between(TAG_LENGTH - 1, TAG_LENGTH),
        4 => random.pick(&[0, 1, nonce, nonce + 1]),
        _ => nonce + random.between(TAG_LENGTH, 100),
    };
    let long = [nonce + 65_552, nonce + 65_553, nonce + 65_553, 70_000];
    let length = if random.one_in(65) {
        random.pick(&long)
    } else {
        length
    };
    format!("split {:04x} {}", aead, hex(&random.bytes(length)))
}

pub fn write(random: &mut Random, last: &[u8]) -> String {
    let mut given = given_configurations(random, last);
    match random.below(20) {
        0 => given.clear(),
        _ if given.len() > MOST_CONFIGURATIONS => spoil(random, &mut given),
        1..=7 => spoil(random, &mut given),
        8 => {
            let twin = given[random.below(given.len())].clone();
            given.push(twin);
        }
        _ => {}
    }
    let length: usize = given.iter().map(|fields| encode(fields).len()).sum();
    let room = match random.below(8) {
        0 | 1 => length.saturating_sub(1),
        2 => length + random.below(20),
        3 => random.pick(&[0, 4_096]),
        _ => length,
    };
    let mut line = format!("write {}", room.min(4_096));
    for fields in &given {
        line.push_str(&format!(
            " {} {:04x} {} {}",
            fields.id,
            fields.kem,
            hex(&fields.public_key),
            numbers(&fields.pairs)
        ));
    }
    line
}

/// What the last setup's list holds, or new configurations.
fn given_configurations(random: &mut Random, last: &[u8]) -> Vec<Fields> {
    let use_last = last.len() <= SHORT_LIST || random.one_in(20);
    let read = read_list(last).unwrap_or_default().configurations;
    if use_last && !read.is_empty() && random.one_in(3) {
        return read.into_iter().map(|c| read_fields(last, c)).collect();
    }
    let count = match random.below(40) {
        0..=4 => random.pick(&[16, 17, 17, 17]),
        _ => small_count(random),
    };
    configurations(random, count)
}

fn read_fields(list: &[u8], read: Configuration) -> Fields {
    let pairs = read.pairs.iter().flat_map(|pair| [pair.kdf, pair.aead]);
    Fields {
        id: read.id,
        kem: read.kem,
        public_key: list[read.public_key].to_vec(),
        pairs: pairs.collect(),
    }
}

/// Breaks one rule of the layout or two in one configuration, which is often the last.
fn spoil(random: &mut Random, given: &mut [Fields]) {
    let place = if random.one_in(2) {
        given.len() - 1
    } else {
        random.below(given.len())
    };
    let first_id = given[0].id;
    for _ in 0..random.pick(&[1, 2, 2]) {
        spoil_fields(random, &mut given[place], first_id);
    }
}

fn spoil_fields(random: &mut Random, fields: &mut Fields, first_id: u8) {
    match random.below(12) {
        0 | 1 => {
            let length = fields.public_key.len();
            fields.public_key.resize(random.one_off(length), 0);
        }
        2 => {
            let npk = npk(X25519).unwrap_or(0);
            fields.public_key.resize(random.pick(&[0, 1, npk, 255]), 0);
        }
        3 | 4 => fields.kem = unknown_kem(random),
        5 => fields.kem = random.pick(&KEMS),
        6 => fields.pairs.clear(),
        7 => fields.pairs.resize(random.pick(&[32, 33, 34, 40]), 2),
        8 => {
            fields.pairs.pop();
        }
        _ => fields.id = first_id,
    }
}

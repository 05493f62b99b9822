//! Key lists: good ones and nearly right ones, with skipped configurations in some of them.

use crate::algorithms::npk;
use crate::key_list::MOST_CONFIGURATIONS;
use crate::list_writer::{encode, Fields};
use crate::random::Random;

pub const X25519: u16 = 0x0020;
pub const KEMS: [u16; 5] = [0x0010, 0x0011, 0x0012, X25519, 0x0021];
const UNKNOWN_KEMS: [u16; 9] = [0, 1, 0x000f, 0x0013, 0x0022, 0x0030, 0x0120, 0x2000, 0xffff];
const UNKNOWN_NUMBERS: [u16; 7] = [0, 4, 0x0100, 0x0101, 0x0010, 0xfffe, 0xffff];

pub fn kem(random: &mut Random) -> u16 {
    if random.one_in(2) {
        X25519
    } else {
        random.pick(&KEMS)
    }
}

pub fn unknown_kem(random: &mut Random) -> u16 {
    random.pick(&UNKNOWN_KEMS)
}

/// A known KDF or AEAD.
pub fn known_number(random: &mut Random) -> u16 {
    random.between(1, 3) as u16
}

/// Neither a known KDF nor a known AEAD.
pub fn unknown_number(random: &mut Random) -> u16 {
    random.pick(&UNKNOWN_NUMBERS)
}

/// A number that is known most of the time.
pub fn number(random: &mut Random) -> u16 {
    if random.one_in(8) {
        unknown_number(random)
    } else {
        known_number(random)
    }
}

/// Pairs as KDF and AEAD by turns; some unknown, some repeated.
fn pairs(random: &mut Random) -> Vec<u16> {
    let count = match random.below(10) {
        0..=3 => 1,
        4..=6 => 2,
        7 | 8 => random.between(3, 6),
        _ => random.between(15, 16),
    };
    let mut pairs = Vec::new();
    for _ in 0..count {
        if !pairs.is_empty() && random.one_in(6) {
            pairs.extend_from_within(..2);
        } else {
            pairs.push(number(random));
            pairs.push(number(random));
        }
    }
    pairs
}

fn configuration(random: &mut Random, id: u8) -> Fields {
    let kem = kem(random);
    Fields {
        id,
        kem,
        public_key: random.bytes(npk(kem).unwrap_or(0)),
        pairs: pairs(random),
    }
}

/// So many configurations, each with an id of its own.
pub fn configurations(random: &mut Random, count: usize) -> Vec<Fields> {
    let first = random.pick(&[0, 1, 7, 128, 255]);
    let step = random.pick(&[1, 3, 15, 85]);
    let mut id: u8 = first;
    let mut all = Vec::new();
    for _ in 0..count {
        all.push(configuration(random, id));
        id = id.wrapping_add(step);
    }
    // Most lists have a pair to go on with.
    if !random.one_in(15) {
        all[0].pairs[0] = known_number(random);
        all[0].pairs[1] = known_number(random);
    }
    all
}

/// Few most of the time, so that lines stay short.
pub fn small_count(random: &mut Random) -> usize {
    match random.below(20) {
        0..=9 => 1,
        10..=14 => 2,
        15..=18 => 3,
        _ => random.between(4, 16),
    }
}

fn setup_count(random: &mut Random) -> usize {
    match random.below(20) {
        0..=5 => 1,
        6..=9 => 2,
        10..=15 => random.between(3, 6),
        16 | 17 => random.between(7, 15),
        _ => 16,
    }
}

pub fn encode_all(configurations: &[Fields]) -> Vec<u8> {
    configurations.iter().flat_map(encode).collect()
}

/// What is skipped of a good list.
#[derive(Clone, Copy, PartialEq, Eq)]
pub enum Skip {
    None,
    Some,
    All,
}

/// A good list for a setup.
pub fn good(random: &mut Random, skip: Skip) -> Vec<u8> {
    let count = setup_count(random);
    list(random, count, skip)
}

/// A good list for the client's calls.
pub fn small(random: &mut Random) -> Vec<u8> {
    let count = small_count(random);
    let skip = random.pick(&[Skip::None, Skip::None, Skip::Some, Skip::Some, Skip::All]);
    list(random, count, skip)
}

/// A good list: so many configurations, and with some skipped those on top.
fn list(random: &mut Random, count: usize, skip: Skip) -> Vec<u8> {
    match skip {
        Skip::None => encode_all(&configurations(random, count)),
        Skip::Some => {
            // Room for one at least.
            let count = count.min(MOST_CONFIGURATIONS - 1);
            let all = configurations(random, count);
            with_skipped(random, all.iter().map(encode).collect(), &ids(&all))
        }
        Skip::All => {
            // Two ids for all of them, so that they come again.
            let ids = [random.byte(), random.byte()];
            (0..count).flat_map(|_| skipped(random, &ids)).collect()
        }
    }
}

fn ids(configurations: &[Fields]) -> Vec<u8> {
    configurations.iter().map(|fields| fields.id).collect()
}

/// Skipped configurations put in at any places between those given, sixteen in all at most.
fn with_skipped(random: &mut Random, mut all: Vec<Vec<u8>>, ids: &[u8]) -> Vec<u8> {
    let room = MOST_CONFIGURATIONS.saturating_sub(all.len());
    let count = match random.below(8) {
        0 => room,
        1 => random.between(1, 16).min(room),
        _ => random.between(1, 3).min(room),
    };
    for _ in 0..count {
        let place = random.below(all.len() + 1);
        all.insert(place, skipped(random, ids));
    }
    all.concat()
}

/// A configuration of an unknown KEM: its key id is often that of another one, its inside is any.
fn skipped(random: &mut Random, ids: &[u8]) -> Vec<u8> {
    let id = if random.one_in(2) {
        random.pick(ids)
    } else {
        random.byte()
    };
    let behind_kem = match random.below(10) {
        // 3 bytes in all, or a few more
        0..=3 => Vec::new(),
        4 => random.bytes(1),
        5 => random.bytes(2),
        // as if its KEM were known
        6 | 7 => encode(&configuration(random, id))[5..].to_vec(),
        // a configuration that a reader finds where it does not step over all
        8 => encode(&configuration(random, id)),
        _ => {
            let length = random.below(120);
            random.bytes(length)
        }
    };
    of_unknown_kem(random, id, &behind_kem)
}

/// Key id, unknown KEM and what stands behind it, with their length.
fn of_unknown_kem(random: &mut Random, id: u8, behind_kem: &[u8]) -> Vec<u8> {
    let mut bytes = ((3 + behind_kem.len()) as u16).to_be_bytes().to_vec();
    bytes.push(id);
    bytes.extend(unknown_kem(random).to_be_bytes());
    bytes.extend_from_slice(behind_kem);
    bytes
}

/// A skipped configuration of the largest length and one to be read, in either order; maybe cut.
pub fn long(random: &mut Random) -> Vec<u8> {
    let longest = of_unknown_kem(random, 7, &[0x77; 65_535 - 3]);
    let other = encode(&configuration(random, 7));
    let mut list = if random.one_in(2) {
        [longest, other].concat()
    } else {
        [other, longest].concat()
    };
    if random.one_in(3) {
        list.pop();
    }
    list
}

/// A list with one fault or two; now and then the faults leave it good.
pub fn nearly_right(random: &mut Random) -> Vec<u8> {
    match random.below(30) {
        0 => Vec::new(),
        1..=5 => too_many(random),
        6 => {
            let list = small(random);
            truncated(random, list)
        }
        7 | 8 => {
            let mut list = small(random);
            let extra = random.pick(&[1, 1, 1, 2, 3, 4]);
            list.extend(random.bytes(extra));
            list
        }
        9 | 10 => cut(random),
        11..=14 => id_twice(random),
        _ => one_spoilt(random),
    }
}

/// A list whose last configuration has an unknown KEM and does not lie whole in the list: it is
/// cut, most of the time behind its KEM, or its length runs past the end.
fn cut(random: &mut Random) -> Vec<u8> {
    let mut list = if random.one_in(2) {
        small(random)
    } else {
        Vec::new()
    };
    let id = random.byte();
    let mut last = skipped(random, &[id]);
    match random.below(4) {
        0 => {
            last.pop();
        }
        1 => last.truncate(random.between(1, last.len() - 1)),
        2 => last[0] = random.pick(&[0x80, 0xff]),
        _ => last = length_off(random, last, 0),
    }
    list.extend(last);
    list
}

/// Seventeen configurations, some of them skipped or the last one bad, or sixteen and a byte.
fn too_many(random: &mut Random) -> Vec<u8> {
    let configurations = configurations(random, 17);
    let ids = ids(&configurations);
    let mut all: Vec<Vec<u8>> = configurations.iter().map(encode).collect();
    let skipped_places = match random.below(8) {
        0 | 1 => 16..17,
        2 | 3 => 0..16,
        4 => 0..17,
        5 => {
            let first = random.below(17);
            first..random.between(first, 17)
        }
        _ => 0..0,
    };
    for place in skipped_places {
        all[place] = skipped(random, &ids);
    }
    match random.below(12) {
        0..=6 => all[16][2] = random.pick(&ids[..16]),
        7 => all[16].truncate(1),
        8 => {
            all[16].pop();
        }
        9 => all[16] = short(random),
        10 => all[16] = spoilt(random, configurations[16].clone()),
        _ => {}
    }
    all.concat()
}

/// A configuration of less than 3 bytes.
fn short(random: &mut Random) -> Vec<u8> {
    let length = random.pick(&[0, 1, 2, 2]);
    let mut bytes = vec![0, length];
    bytes.extend(random.bytes(usize::from(length)));
    bytes
}

fn truncated(random: &mut Random, mut list: Vec<u8>) -> Vec<u8> {
    let length = if random.one_in(2) {
        list.len() - 1
    } else {
        random.below(list.len())
    };
    list.truncate(length);
    list
}

/// A key id twice, which may be the whole configuration twice; the twins stand anywhere.
fn id_twice(random: &mut Random) -> Vec<u8> {
    let count = small_count(random).min(MOST_CONFIGURATIONS - 1);
    let mut all = configurations(random, count);
    let ids = ids(&all);
    let mut twin = all[random.below(count)].clone();
    if random.one_in(2) {
        twin = configuration(random, twin.id);
    }
    all.insert(random.below(count + 1), twin);
    let all = all.iter().map(encode).collect();
    maybe_with_skipped(random, all, &ids)
}

/// One configuration of the list breaks a rule, and maybe a later one another. It may have the key
/// id of the first, too.
fn one_spoilt(random: &mut Random) -> Vec<u8> {
    let count = random.pick(&[1, 1, 2, 2, 3, 4, 7]);
    let all = configurations(random, count);
    let ids = ids(&all);
    let place = random.below(count);
    let mut list = Vec::new();
    for (at, mut fields) in all.into_iter().enumerate() {
        list.push(if at == place || (at > place && random.one_in(4)) {
            if random.one_in(2) {
                fields.id = ids[0];
            }
            spoilt(random, fields)
        } else {
            encode(&fields)
        });
    }
    maybe_with_skipped(random, list, &ids)
}

fn maybe_with_skipped(random: &mut Random, all: Vec<Vec<u8>>, ids: &[u8]) -> Vec<u8> {
    if random.one_in(2) {
        with_skipped(random, all, ids)
    } else {
        all.concat()
    }
}

/// A configuration that breaks a rule of the layout.
fn spoilt(random: &mut Random, mut fields: Fields) -> Vec<u8> {
    let npk = fields.public_key.len();
    match random.below(18) {
        0 => return length_off(random, encode(&fields), 0),
        1 => return length_off(random, encode(&fields), 5 + npk),
        2 => return uneven(random, fields),
        3 | 4 => fields.pairs.clear(),
        5 | 6 => fields.pairs.resize(random.pick(&[34, 36, 64, 130]), 1),
        7 => fields.pairs.push(1),
        8 | 9 => return bad_pairs_length(random, encode(&fields), 5 + npk),
        10 | 11 => return short(random),
        12 | 13 => return ends_early(random, encode(&fields), npk),
        14 | 15 => return disagrees(random, encode(&fields), npk),
        16 => fields.kem = random.pick(&KEMS),
        _ => fields.public_key.resize(random.one_off(npk), 0),
    }
    encode(&fields)
}

/// The configuration with so many bytes behind its length, which says so.
fn of_length(random: &mut Random, mut bytes: Vec<u8>, length: usize) -> Vec<u8> {
    let more = random.bytes(length);
    bytes.extend(more);
    bytes.truncate(2 + length);
    bytes[..2].copy_from_slice(&(length as u16).to_be_bytes());
    bytes
}

/// It ends before its pair length does: behind its KEM, about its key's end, or anywhere.
fn ends_early(random: &mut Random, bytes: Vec<u8>, npk: usize) -> Vec<u8> {
    let anywhere = random.between(3, 4 + npk);
    let length = random.pick(&[3, 2 + npk, 3 + npk, 4 + npk, anywhere]);
    of_length(random, bytes, length)
}

/// Its pair length is good, and there are fewer bytes than that, or more.
fn disagrees(random: &mut Random, bytes: Vec<u8>, npk: usize) -> Vec<u8> {
    let right = bytes.len() - 2;
    let length = random.pick(&[
        5 + npk,
        right - 4,
        right - 1,
        right + 1,
        right + 1,
        right + 4,
    ]);
    of_length(random, bytes, length)
}

/// A bad pair length at a place, and nothing else changed.
fn bad_pairs_length(random: &mut Random, mut bytes: Vec<u8>, place: usize) -> Vec<u8> {
    let lengths = [0, 1, 2, 3, 5, 6, 63, 65, 66, 68, 256, 260, 1_024, u16::MAX];
    let length = random.pick(&lengths);
    bytes[place..place + 2].copy_from_slice(&length.to_be_bytes());
    bytes
}

/// The length at a place off by 1, 4 or 256.
fn length_off(random: &mut Random, mut bytes: Vec<u8>, place: usize) -> Vec<u8> {
    let length = u16::from_be_bytes([bytes[place], bytes[place + 1]]);
    let off = match random.below(5) {
        0 => length.wrapping_sub(4),
        1 => length.wrapping_sub(1),
        2 => length.wrapping_add(1),
        3 => length.wrapping_add(4),
        _ => length.wrapping_add(256),
    };
    bytes[place..place + 2].copy_from_slice(&off.to_be_bytes());
    bytes
}

/// S one more than a multiple of 4, with L to match.
fn uneven(random: &mut Random, fields: Fields) -> Vec<u8> {
    let npk = fields.public_key.len();
    let mut bytes = encode(&fields);
    bytes[1] = bytes[1].wrapping_add(1);
    bytes[6 + npk] = bytes[6 + npk].wrapping_add(1);
    bytes.push(random.byte());
    bytes
}

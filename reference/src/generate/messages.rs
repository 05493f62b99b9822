//! Requests inside (02, A3): right ones of all shapes, and ones with a fault or two.

use crate::answer::hex;
use crate::integer::{integer_bytes, integer_fits, INTEGER_SIZES, LARGEST_INTEGER};
use crate::random::Random;

const NAME_BYTES: &[u8] = b"abcdefghijklmnopqrstuvwxyz0123456789!#$%&'*+-.^_`|~";
const SEPARATORS: &[u8] = b"\"(),/:;<=>?@[\\]{}";
const METHODS: [&[u8]; 4] = [b"GET", b"POST", b"PUT", b""];
const SCHEMES: [&[u8]; 3] = [b"https", b"http", b""];
const AUTHORITIES: [&[u8]; 3] = [b"example.com", b"m.example:8443", b""];
const PATHS: [&[u8]; 4] = [b"/", b"/reading", b"/r?vacuum=42", b""];

pub fn request(random: &mut Random) -> String {
    format!("request {}", hex(&message(random)))
}

/// A message of any kind.
pub fn message(random: &mut Random) -> Vec<u8> {
    match random.below(26) {
        0..=4 => right(random),
        5 => cut(random),
        6..=11 => bytes_missing(random),
        12 => framing_wrong(random),
        13 => padding_wrong(random),
        14..=22 => section_wrong(random),
        23 => flipped(random),
        24 => random_bytes(random),
        _ => long(random),
    }
}

/// A message in pieces: the framing, then up to seven parts with their lengths, then the padding.
type Pieces = Vec<Vec<u8>>;

/// The sections' places among the pieces.
const HEADERS: usize = 5;
const TRAILERS: usize = 7;

/// An integer of any size that is enough for it, the shortest in every second.
fn integer(random: &mut Random, value: u64) -> Vec<u8> {
    let mut sizes = INTEGER_SIZES.iter().copied();
    let shortest = sizes.find(|size| integer_fits(value, *size)).unwrap_or(8);
    let size = if random.one_in(2) {
        shortest
    } else {
        random.pick(&INTEGER_SIZES).max(shortest)
    };
    integer_bytes(value, size)
}

/// Bytes behind their length.
fn part(random: &mut Random, bytes: &[u8]) -> Vec<u8> {
    [integer(random, bytes.len() as u64), bytes.to_vec()].concat()
}

/// The pieces of a right message, which may end behind the path or any later one.
fn pieces(random: &mut Random) -> Pieces {
    let mut pieces = vec![integer(random, 0)];
    for words in [&METHODS[..], &SCHEMES, &AUTHORITIES, &PATHS] {
        let bytes = if random.one_in(12) {
            some_bytes(random, 9)
        } else {
            random.pick(words).to_vec()
        };
        pieces.push(part(random, &bytes));
    }
    let end = random.pick(&[5, 6, 7, 8, 8, 9, 9, 9]);
    while pieces.len() < end {
        let bytes = match pieces.len() {
            HEADERS => section(random, 12).concat(),
            TRAILERS => section(random, 4).concat(),
            8 => {
                pieces.push(vec![0; random.between(1, 12)]);
                break;
            }
            _ if random.one_in(6) => Vec::new(),
            _ => some_bytes(random, 30),
        };
        pieces.push(part(random, &bytes));
    }
    pieces
}

/// The pieces of one that has both sections.
fn whole_pieces(random: &mut Random) -> Pieces {
    loop {
        let pieces = pieces(random);
        if pieces.len() > TRAILERS {
            return pieces;
        }
    }
}

fn right(random: &mut Random) -> Vec<u8> {
    pieces(random).concat()
}

fn some_bytes(random: &mut Random, most: usize) -> Vec<u8> {
    let length = random.below(most + 1);
    random.bytes(length)
}

/// Fields, each a name and a value with their lengths; often none, seldom so many or one less.
fn section(random: &mut Random, most: usize) -> Vec<Vec<u8>> {
    let count = match random.below(12) {
        0..=2 => 0,
        3..=8 => random.between(1, 2),
        9 | 10 => random.between(3, 4),
        _ => random.between(most - 1, most),
    };
    (0..count).map(|_| field(random)).collect()
}

fn field(random: &mut Random) -> Vec<u8> {
    let (name, value) = (name(random), value(random));
    [part(random, &name), part(random, &value)].concat()
}

fn name(random: &mut Random) -> Vec<u8> {
    let length = match random.below(30) {
        0 => random.between(63, 66),
        _ => random.between(1, 6),
    };
    (0..length).map(|_| random.pick(NAME_BYTES)).collect()
}

/// Most bytes may stand in a value, blanks within.
fn value(random: &mut Random) -> Vec<u8> {
    let length = match random.below(30) {
        0 => random.between(62, 66),
        1..=6 => 0,
        _ => random.between(1, 9),
    };
    let kind = random.below(4);
    let byte = |random: &mut Random| match kind {
        0 => random.pick(b"\x01\x08\x0b\x0c\x0e\x1f\x7f"),
        1 => random.between(0x80, 0xff) as u8,
        _ => random.between(0x21, 0x7e) as u8,
    };
    let mut value: Vec<u8> = (0..length).map(|_| byte(random)).collect();
    if length > 2 && random.one_in(3) {
        value[random.between(1, length - 2)] = random.pick(b" \t");
    }
    value
}

/// Ends anywhere, which may be an end that is right.
fn cut(random: &mut Random) -> Vec<u8> {
    let mut message = right(random);
    message.truncate(random.below(message.len() + 1));
    message
}

/// Ends in the framing or in any part: in front of its length, in its length or in its bytes.
fn bytes_missing(random: &mut Random) -> Vec<u8> {
    let mut pieces = whole_pieces(random);
    let place = random.below(TRAILERS + 1);
    pieces.truncate(place);
    match random.below(5) {
        0 if place < HEADERS => {}
        0 | 1 => pieces.push(integer_cut(random)),
        _ if place == 0 => pieces.push(integer_cut(random)),
        kind => {
            let is_section = place == HEADERS || place == TRAILERS;
            let bytes = if is_section && kind < 4 {
                wrong_section(random)
            } else if is_section {
                section(random, 4).concat()
            } else {
                some_bytes(random, 9)
            };
            pieces.push(too_long(random, bytes.len()));
            pieces.push(bytes);
        }
    }
    pieces.concat()
}

/// An integer's first bytes.
fn integer_cut(random: &mut Random) -> Vec<u8> {
    let size = random.pick(&[2, 4, 8]);
    let value = random.pick(&[0, 0, 1, 5, 16_383]);
    let mut bytes = integer_bytes(value, size);
    bytes[0] |= random.pick(&[0, 0, 1, 0x3f]);
    bytes.truncate(random.between(1, size - 1));
    bytes
}

/// A length that announces more than so many bytes: a few more, many, or as many in its low bits.
fn too_long(random: &mut Random, right: usize) -> Vec<u8> {
    let right = right as u64;
    let length = match random.below(10) {
        0 | 1 => right + 1,
        2 => right + random.between(2, 70) as u64,
        3 => right + random.pick(&[1 << 8, 1 << 16]),
        4 | 5 => right + random.pick(&[1 << 32, 1 << 33, 1 << 61]),
        6 => LARGEST_INTEGER - random.below(20) as u64,
        7 | 8 => LARGEST_INTEGER,
        _ => right + 1 + (random.next() >> random.between(3, 50)),
    };
    integer(random, length.min(LARGEST_INTEGER))
}

fn framing_wrong(random: &mut Random) -> Vec<u8> {
    let mut pieces = pieces(random);
    let size = random.pick(&INTEGER_SIZES);
    let framing = random.pick(&[1, 1, 2, 3, 63, 64, 256, 1 << 32, 1 << 61, LARGEST_INTEGER]);
    let framing = if integer_fits(framing, size) {
        framing
    } else {
        1
    };
    pieces[0] = integer_bytes(framing, size);
    if random.one_in(4) {
        pieces.truncate(random.between(1, pieces.len()));
    }
    pieces.concat()
}

fn padding_wrong(random: &mut Random) -> Vec<u8> {
    let mut pieces = whole_pieces(random);
    pieces.truncate(TRAILERS + 1);
    let mut padding = vec![0; random.below(6)];
    padding.push(random.pick(&[1, 0x20, 0x40, 0x80, 0xff]));
    padding.extend(vec![0; random.below(3)]);
    pieces.push(padding);
    pieces.concat()
}

/// A field of the headers or the trailers is bad, and maybe something behind it.
fn section_wrong(random: &mut Random) -> Vec<u8> {
    let mut pieces = whole_pieces(random);
    let place = if random.below(9) < 4 {
        HEADERS
    } else {
        TRAILERS
    };
    let bytes = wrong_section(random);
    pieces[place] = part(random, &bytes);
    match random.below(8) {
        0 => pieces.push(vec![random.byte()]),
        1 => {
            let bytes = wrong_section(random);
            pieces[TRAILERS] = part(random, &bytes);
        }
        2 => pieces.truncate(place + 1),
        3 => {
            pieces.truncate(TRAILERS);
            pieces.push(too_long(random, 0));
        }
        _ => {}
    }
    pieces.concat()
}

/// A section with a bad field, and maybe good ones in front of it and behind.
fn wrong_section(random: &mut Random) -> Vec<u8> {
    let mut fields = Vec::new();
    if random.one_in(2) {
        fields.push(field(random));
    }
    if random.one_in(3) {
        fields.push(past_end(random));
        return fields.concat();
    }
    fields.push(wrong_field(random));
    if random.one_in(3) {
        fields.push(field(random));
    }
    if random.one_in(8) {
        fields.push(wrong_field(random));
    }
    fields.concat()
}

/// The start of a field that runs past its section's end.
fn past_end(random: &mut Random) -> Vec<u8> {
    let (name, value) = (name(random), value(random));
    let front = part(random, &name);
    match random.below(5) {
        0 => integer_cut(random),
        1 => [too_long(random, name.len()), name].concat(),
        2 => front,
        3 => [front, integer_cut(random)].concat(),
        _ => [front, too_long(random, value.len()), value].concat(),
    }
}

/// A field whose name or value is bad, or both.
fn wrong_field(random: &mut Random) -> Vec<u8> {
    let (mut name, mut value) = (name(random), value(random));
    match random.below(12) {
        0 => name.clear(),
        1..=4 => wrong_name(random, &mut name),
        5 => {
            wrong_name(random, &mut name);
            wrong_value(random, &mut value);
        }
        _ => wrong_value(random, &mut value),
    }
    [part(random, &name), part(random, &value)].concat()
}

/// One of a few places in so many bytes: the first, the last or any.
fn some_place(random: &mut Random, length: usize) -> usize {
    let any = random.below(length);
    random.pick(&[0, length - 1, any, any])
}

fn wrong_name(random: &mut Random, name: &mut Vec<u8>) {
    if random.one_in(8) {
        name.truncate(1);
    }
    let place = some_place(random, name.len());
    name[place] = match random.below(4) {
        0 => random.between(0x41, 0x5a) as u8,
        1 => random.pick(SEPARATORS),
        2 => random.pick(b"\x00\x01\x09\x0a\x0d\x1f \x7f"),
        _ => random.between(0x80, 0xff) as u8,
    };
}

fn wrong_value(random: &mut Random, value: &mut Vec<u8>) {
    if value.is_empty() || random.one_in(3) {
        value.resize(1, b'v');
    }
    for _ in 0..random.pick(&[1, 1, 2]) {
        let place = some_place(random, value.len());
        match random.below(7) {
            0 | 1 => value[0] = random.pick(b" \t"),
            2 | 3 => {
                let blank = random.pick(b" \t");
                value.push(blank);
                if random.one_in(3) {
                    value.push(b' ');
                }
            }
            _ => value[place] = random.pick(b"\0\r\n"),
        }
    }
}

/// A right message with bytes changed, put in or taken out.
fn flipped(random: &mut Random) -> Vec<u8> {
    let mut message = right(random);
    for _ in 0..random.between(1, 3) {
        let place = random.below(message.len());
        let byte = random.byte();
        match random.below(5) {
            0 => message[place] = byte,
            1 => message[place] = message[place].wrapping_add(random.pick(&[1, 0xff])),
            2 => message[place] ^= 1 << random.below(8),
            3 => message.insert(place, byte),
            _ if message.len() > 1 => {
                message.remove(place);
            }
            _ => {}
        }
    }
    message
}

/// Any bytes, most of them small, behind a framing of 0 in every second.
fn random_bytes(random: &mut Random) -> Vec<u8> {
    let mut message = some_bytes(random, 30);
    if random.one_in(2) {
        message.iter_mut().for_each(|byte| *byte %= 5);
    }
    if !message.is_empty() && random.one_in(2) {
        message[0] = 0;
    }
    message
}

/// A message with content whose length needs 2 bytes or, seldom, 4; it may be cut.
fn long(random: &mut Random) -> Vec<u8> {
    let mut pieces = whole_pieces(random);
    let length = if random.one_in(5) {
        random.between(16_384, 16_500)
    } else {
        random.between(64, 300)
    };
    let content = random.bytes(length);
    pieces[HEADERS + 1] = part(random, &content);
    let mut message = pieces.concat();
    if random.one_in(20) {
        message.truncate(random.below(message.len()));
    }
    message
}

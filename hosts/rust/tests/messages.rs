//! The request inside, by the crate and by the C interface: what 02, A3 says, written out, and every
//! change of a small message held against the reference.

#[path = "common/message_calls.rs"]
mod message_calls;
#[path = "../src/raw.rs"]
#[allow(dead_code)]
mod raw;
#[path = "common/request.rs"]
mod request;

use message_calls::{bad, compare_field, compare_message, ACCEPTED};
use raw::Span;
use reference::generate;
use reference::integer::{integer_bytes, INTEGER_SIZES, LARGEST_INTEGER};
use reference::random::Random;
use request::compare_request;
use sealwax::{Fields, Request};

/// RFC 9458, Appendix A.
const APPENDIX_A: [u8; 25] = [
    0x00, 0x03, 0x47, 0x45, 0x54, 0x05, 0x68, 0x74, 0x74, 0x70, 0x73, 0x0b, 0x65, 0x78, 0x61, 0x6d,
    0x70, 0x6c, 0x65, 0x2e, 0x63, 0x6f, 0x6d, 0x01, 0x2f,
];

/// Each part, two header fields, a trailer field, and padding of two bytes.
const WHOLE: &[u8] = b"\0\x01m\x01s\x01a\x01p\x09\x01b\x03c d\x01a\0\x02de\x05\x02f-\x01~\0\0";

/// A method of 1 byte, and all the other parts in front of the header section empty.
const FRONT: &[u8] = b"\0\x01m\0\0\0";

/// By both interfaces; the place of the refusal, or none.
fn compare(message: &[u8]) -> Option<usize> {
    let outcome = compare_message(message);
    let place = Some(outcome.place).filter(|_| outcome.has_place);
    assert_eq!(compare_request(message), place);
    place
}

/// Bytes behind their length, which is written in so many bytes.
fn part(bytes: &[u8], size: usize) -> Vec<u8> {
    [&integer_bytes(bytes.len() as u64, size)[..], bytes].concat()
}

fn words<'m>(fields: Fields<'m>) -> Vec<(&'m [u8], &'m [u8])> {
    fields.collect()
}

#[test]
fn rfc_9458_appendix_a() {
    let request = Request::read(&APPENDIX_A).unwrap();
    assert_eq!(
        (request.method(), request.scheme()),
        (&b"GET"[..], &b"https"[..])
    );
    assert_eq!(
        (request.authority(), request.path()),
        (&b"example.com"[..], &b"/"[..])
    );
    assert_eq!((request.headers().len(), request.trailers().len()), (0, 0));
    assert_eq!((request.content(), request.padding()), (&b""[..], 0));
    assert_eq!(compare(&APPENDIX_A), None);
}

/// A message may end behind its path and behind each later part, and in its padding.
#[test]
fn every_end() {
    for end in 0..=WHOLE.len() {
        let expected = match end {
            9 | 19 | 22 | 28..=30 => None,
            _ => Some(end),
        };
        assert_eq!(compare(&WHOLE[..end]), expected, "{end}");
    }
    let request = Request::read(WHOLE).unwrap();
    assert_eq!(
        words(request.headers()),
        [(&b"b"[..], &b"c d"[..]), (&b"a"[..], &b""[..])]
    );
    assert_eq!(request.content(), b"de");
    assert_eq!(words(request.trailers()), [(&b"f-"[..], &b"~"[..])]);
    assert_eq!(request.padding(), 2);
    for (end, headers, content, trailers) in
        [(28, 2, 2, 1), (22, 2, 2, 0), (19, 2, 0, 0), (9, 0, 0, 0)]
    {
        let request = Request::read(&WHOLE[..end]).unwrap();
        let given = (
            request.headers().len(),
            request.content().len(),
            request.trailers().len(),
        );
        assert_eq!(
            (given, request.padding()),
            ((headers, content, trailers), 0)
        );
    }
}

#[test]
fn integers_of_every_size() {
    for size in INTEGER_SIZES {
        let field = |name| [part(name, size), part(b"v", size)].concat();
        let (headers, trailers) = ([field(b"h"), field(b"i")].concat(), field(b"t"));
        let mut message = integer_bytes(0, size);
        for bytes in [b"GET", &b"s"[..], b"a", b"p", &headers, b"c", &trailers] {
            message.extend(part(bytes, size));
        }
        let request = Request::read(&message).unwrap();
        assert_eq!(
            (request.method(), request.content()),
            (&b"GET"[..], &b"c"[..])
        );
        assert_eq!(
            words(request.headers()),
            [(&b"h"[..], &b"v"[..]), (&b"i"[..], &b"v"[..])]
        );
        assert_eq!(words(request.trailers()), [(&b"t"[..], &b"v"[..])]);
        for end in 0..=message.len() {
            compare(&message[..end]);
        }
    }
}

/// What follows [`FRONT`], of 6 bytes, and the place of its fault.
#[test]
fn faults_in_a_section() {
    let faults: [(&[u8], usize); 23] = [
        // An empty name; a name's length that is cut, or that runs past the section's end.
        (b"\x01\0", 7),
        (b"\x03\x40\0\0", 7),
        (b"\x04\x01a\0\0", 10),
        (b"\x01\x40\0", 7),
        (b"\x02\x02a\0", 7),
        (b"\x05\x01a\0\x02b\0", 10),
        // A value's length: none, cut, past the end.
        (b"\x02\x01a\0", 9),
        (b"\x03\x01a\x40\x01b", 9),
        (b"\x04\x01a\x02b\0", 9),
        // A name's byte, judged before its value's length is read.
        (b"\x03\x01A\0", 8),
        (b"\x02\x01A", 8),
        (b"\x04\x02a:\0", 9),
        (b"\x04\x02a \0", 9),
        (b"\x03\x01\x80\0", 8),
        // A value's byte, its first blank, the last of those at its end.
        (b"\x04\x01a\x01\0", 10),
        (b"\x05\x01a\x02b\r", 11),
        (b"\x06\x01a\x03b\nc", 11),
        (b"\x05\x01a\x02 b", 10),
        (b"\x06\x01a\x03b \t", 12),
        (b"\x05\x01a\x02\t\0", 10),
        // A section that is longer than the message, before its fields are read.
        (b"\x04\x01A\0", 10),
        (b"\x40", 7),
        (b"\x80\0\0\x04\x01A\0", 13),
    ];
    for (rest, place) in faults {
        let message = [FRONT, rest].concat();
        assert_eq!(compare(&message), Some(place), "{message:?}");
        // The same in the trailer section, two bytes further on.
        let message = [FRONT, b"\0\0", rest].concat();
        assert_eq!(compare(&message), Some(place + 2), "{message:?}");
    }
}

#[test]
fn faults_outside_of_a_section() {
    let faults: [(&[u8], usize); 15] = [
        (b"", 0),
        // The framing: another one, in each size; cut.
        (b"\x01\0\0\0\0", 0),
        (b"\x03", 0),
        (b"\x40\x01\0\0\0\0", 0),
        (b"\x80\0\0\x02\0\0\0\0", 0),
        (b"\xc0\0\0\x01\0\0\0\0\0\0\0\0", 0),
        (b"\x41", 1),
        // Bytes that are missing: of an integer, of a part.
        (b"\0\x03GE", 4),
        (b"\0\0\xc0\0\0", 5),
        (b"\0\0\0\0", 4),
        (b"\0\0\0\0\0\0\x03co", 9),
        // Padding's first byte that is not zero; the first of two faults counts.
        (b"\0\0\0\0\0\0\0\0\x01", 8),
        (b"\0\0\0\0\0\0\0\0\0\0\x40\x01", 10),
        (b"\0\0\0\0\0\x03\x01A\0\0\0\x01", 7),
        (b"\x02\xff", 0),
    ];
    for (message, place) in faults {
        assert_eq!(compare(message), Some(place), "{message:?}");
    }
}

/// A length of 2^62 - 1 in place of each, and others that would wrap around to what is there.
#[test]
fn the_largest_lengths() {
    let places = [1, 3, 5, 7, 9, 10, 12, 16, 18, 19, 22, 23, 26];
    for length in [LARGEST_INTEGER, LARGEST_INTEGER - 40, 1 << 32, 1 << 61] {
        for place in places {
            let large = integer_bytes(length, 8);
            let message = [&WHOLE[..place], &large, &WHOLE[place + 1..]].concat();
            // In a section the integer is at fault: what follows it runs past the section's end.
            let at_integer = matches!(place, 10 | 12 | 16 | 18 | 23 | 26);
            let fault = if at_integer { place } else { message.len() };
            assert_eq!(compare(&message), Some(fault), "{place}");
        }
    }
    assert_eq!(compare(&[0xff; 8]), Some(0));
}

#[test]
fn a_message_with_one_byte_changed() {
    for message in [&APPENDIX_A[..], WHOLE] {
        for place in 0..message.len() {
            for byte in 0..=u8::MAX {
                let mut changed = message.to_vec();
                changed[place] = byte;
                compare(&changed);
            }
        }
    }
}

#[test]
fn a_message_cut_anywhere_and_made_longer() {
    for message in [&APPENDIX_A[..], WHOLE] {
        for end in 0..=message.len() {
            compare(&message[..end]);
            for byte in 0..=u8::MAX {
                compare(&[&message[..end], &[byte]].concat());
            }
        }
    }
}

/// Right ones and damaged ones; both often enough.
#[test]
fn generated_messages() {
    let mut random = Random::new(3);
    let (mut good, mut refused) = (0, 0);
    for _ in 0..60_000 {
        match compare(&generate::message(&mut random)) {
            None => good += 1,
            Some(_) => refused += 1,
        }
    }
    assert!(good > 5_000 && refused > 5_000, "{good} {refused}");
}

/// A message is read whatever its length, and so is a section of many fields.
#[test]
fn a_long_message() {
    let fields = part(b"name", 1).into_iter().chain(part(b"value", 1));
    let section = fields.collect::<Vec<u8>>().repeat(20_000);
    let message = [
        FRONT,
        &part(&section, 4),
        &part(&[0; 70_000], 8),
        &part(&section, 8),
    ]
    .concat();
    let request = Request::read(&message).unwrap();
    assert_eq!(
        (request.headers().len(), request.trailers().len()),
        (20_000, 20_000)
    );
    assert!(request
        .headers()
        .chain(request.trailers())
        .all(|field| field == (b"name", b"value")));
    assert_eq!(request.content().len(), 70_000);
    assert_eq!(compare(&message), None);
}

#[test]
fn a_part_by_any_number() {
    let spans = [
        (2, 3),
        (4, 5),
        (6, 7),
        (8, 9),
        (10, 19),
        (20, 22),
        (23, 28),
        (28, 30),
    ];
    for number in 0..=u8::MAX {
        let expected = spans.get(usize::from(number)).copied().unwrap_or_default();
        let given = raw::request_part(WHOLE, number);
        let (start, end) = expected;
        assert_eq!((given.outcome, given.span), (ACCEPTED, Span { start, end }));
        // The whole message is checked, whatever part is asked for.
        let damaged = [WHOLE, b"\x01"].concat();
        let given = raw::request_part(&damaged, number);
        assert_eq!(
            (given.outcome, given.span),
            (bad(30), Span { start: 0, end: 0 })
        );
    }
}

/// The reader takes any bytes and any place, and each place lies behind the last, so that a walk ends.
#[test]
fn the_next_field_at_any_place_of_any_bytes() {
    let mut random = Random::new(4);
    for _ in 0..20_000 {
        let length = random.below(40);
        // Small numbers often, so that many lengths fit.
        let byte = |random: &mut Random| random.byte() & random.pick(&[0x03, 0x43, 0x0f, 0xff]);
        let bytes: Vec<u8> = (0..length).map(|_| byte(&mut random)).collect();
        for place in (0..=length + 9).chain([usize::MAX - 8, usize::MAX - 1, usize::MAX]) {
            let given = compare_field(&bytes, place);
            if given.outcome == ACCEPTED {
                assert!(place < given.name.start && given.name.end < given.value.start);
                assert!(given.value.end == given.next && given.next <= length);
            }
        }
    }
}

//! The three calls on a message inside by the C interface, held against the reference.

use crate::raw::{self, Outcome, Section, Span};
use reference::integer::{integer_at, part_at};
use reference::message::read_message;

/// The parts that have a number, and the last one's.
const PARTS: usize = 8;
const PADDING: usize = 7;

const NOWHERE: Span = Span { start: 0, end: 0 };

pub const ACCEPTED: Outcome = Outcome {
    number: 0,
    has_place: false,
    place: 0,
    status: 0,
    problem: 0,
};

pub fn bad(place: usize) -> Outcome {
    Outcome {
        number: 23,
        has_place: true,
        place,
        ..ACCEPTED
    }
}

/// Where the parts of a good message lie, by number. One that is missing is empty at the end.
fn spans(message: &[u8]) -> [Span; PARTS] {
    let (_, mut behind) = integer_at(message, 0).expect("a framing");
    let mut spans = [NOWHERE; PARTS];
    for span in &mut spans[..PADDING] {
        let part = if behind == message.len() {
            behind..behind
        } else {
            part_at(message, behind).expect("a good message")
        };
        behind = part.end;
        *span = Span {
            start: part.start,
            end: part.end,
        };
    }
    spans[PADDING] = Span {
        start: behind,
        end: message.len(),
    };
    spans
}

/// What is expected of [`raw::request`].
fn expected_request(message: &[u8]) -> raw::RequestResult {
    let (outcome, spans, headers, trailers) = match read_message(message) {
        Ok(read) => {
            let (headers, trailers) = (read.headers.fields(), read.trailers.fields());
            (ACCEPTED, spans(message), headers.count(), trailers.count())
        }
        Err(place) => (bad(place), [NOWHERE; PARTS], 0, 0),
    };
    let section = |span, fields| Section { span, fields };
    raw::RequestResult {
        outcome,
        method: spans[0],
        scheme: spans[1],
        authority: spans[2],
        path: spans[3],
        headers: section(spans[4], headers),
        content: spans[5],
        trailers: section(spans[6], trailers),
        padding: spans[PADDING],
    }
}

/// The check, each part by its number, and both sections walked. Gives the check's outcome.
pub fn compare_message(message: &[u8]) -> Outcome {
    let given = raw::request(message);
    assert_eq!(given, expected_request(message));
    let outcome = given.outcome;
    let spans = match outcome.number {
        0 => spans(message),
        _ => [NOWHERE; PARTS],
    };
    for part in (0..=9).chain([63, 64, 128, 255]) {
        let span = spans.get(usize::from(part)).copied().unwrap_or(NOWHERE);
        let expected = raw::RequestPartResult { outcome, span };
        assert_eq!(raw::request_part(message, part), expected, "part {part}");
    }
    for section in [given.headers, given.trailers] {
        walk(message, section);
    }
    outcome
}

/// A judged section has exactly its fields, and ends behind the last.
fn walk(message: &[u8], section: Section) {
    let up_to_end = &message[..section.span.end];
    let mut place = section.span.start;
    for _ in 0..section.fields {
        let given = compare_field(up_to_end, place);
        assert_eq!(given.outcome, ACCEPTED);
        place = given.next;
    }
    assert_eq!(place, section.span.end);
}

/// The field at any place of any bytes, by its lengths alone.
pub fn compare_field(bytes: &[u8], place: usize) -> raw::NextFieldResult {
    let name = part_at(bytes, place).ok_or(place);
    let both = name.and_then(|name| match part_at(bytes, name.end) {
        Some(value) => Ok((name, value)),
        None => Err(name.end),
    });
    let span = |start, end| Span { start, end };
    let expected = match both {
        Ok((name, value)) => raw::NextFieldResult {
            outcome: ACCEPTED,
            name: span(name.start, name.end),
            value: span(value.start, value.end),
            next: value.end,
        },
        Err(place) => raw::NextFieldResult {
            outcome: bad(place),
            name: NOWHERE,
            value: NOWHERE,
            next: 0,
        },
    };
    let given = raw::next_field(bytes, place);
    assert_eq!(given, expected, "place {place} of {bytes:?}");
    given
}

//! The request inside: read and walked by the crate, and by the reference.

use crate::sides::black_box;
use crate::timing::{clock, improve, one_call, time};
use reference::integer::{integer_bytes, integer_fits, INTEGER_SIZES};
use reference::message::read_message;
use sealwax::Request;
use std::time::Duration;

/// The message's bytes.
pub const LENGTH: usize = 2_048;
/// What is timed: [`run`] has two figures for each.
pub const KINDS: [&str; 2] = ["read and walked", "read"];
/// Readings in a batch, all of one message.
const READINGS: usize = 16;
const BATCHES: usize = 400;

/// The header section: what a browser's and a device's requests have.
pub const FIELDS: [(&str, &str); 30] = [
    ("accept", "application/json, text/plain;q=0.9, */*;q=0.5"),
    ("accept-encoding", "gzip, deflate, br"),
    ("accept-language", "en-GB,en;q=0.9,de;q=0.7"),
    (
        "authorization",
        "Bearer mF_9.B5f-4.1JqM.YXNkZmtqaHF3ZWxrcmpoYXNka2Zq",
    ),
    ("cache-control", "no-cache"),
    ("content-language", "en"),
    ("content-type", "application/senml+json"),
    (
        "cookie",
        "session=8f14e45fceea167a5a36dedd4bea2543; theme=dark",
    ),
    ("date", "Tue, 17 Nov 2026 08:49:37 GMT"),
    ("device-memory", "8"),
    (
        "digest",
        "sha-256=4REjxQ4yrqUVicfSKYNO/cF9zNj5ANbzgDZt3/h3Qxo=",
    ),
    ("dnt", "1"),
    ("expect-ct", "max-age=86400"),
    ("idempotency-key", "9b1deb4d-3b7d-4bad-9bdd-2b0d7b3dcb6d"),
    ("if-none-match", "\"33a64df551425fcc55e4d42a148795d9\""),
    ("origin", "https://console.example.com"),
    ("pragma", "no-cache"),
    ("priority", "u=1, i"),
    ("referer", "https://console.example.com/pumps/17"),
    (
        "sec-ch-ua",
        "\"Chromium\";v=\"130\", \"Not?A_Brand\";v=\"99\"",
    ),
    ("sec-ch-ua-mobile", "?0"),
    ("sec-ch-ua-platform", "\"Linux\""),
    ("sec-fetch-dest", "empty"),
    ("sec-fetch-mode", "cors"),
    ("sec-fetch-site", "same-origin"),
    ("te", "trailers"),
    (
        "traceparent",
        "00-4bf92f3577b34da6a3ce929d0e0e4736-00f067aa0ba902b7-01",
    ),
    (
        "user-agent",
        "Mozilla/5.0 (X11; Linux x86_64) Chrome/130.0.0.0 Safari/537.36",
    ),
    ("x-device-id", "pump-0017"),
    ("x-request-id", "f058ebd6-02f7-4d3f-942e-904344e8cde5"),
];

/// Bytes behind their length in its shortest form.
fn part(bytes: &[u8]) -> Vec<u8> {
    let length = bytes.len() as u64;
    let mut sizes = INTEGER_SIZES.into_iter();
    let shortest = sizes.find(|size| integer_fits(length, *size));
    [&integer_bytes(length, shortest.unwrap_or(8))[..], bytes].concat()
}

/// A POST with all the fields; the rest of it is content.
fn message() -> Vec<u8> {
    let fields = FIELDS.iter().flat_map(|(name, value)| [name, value]);
    let section: Vec<u8> = fields.flat_map(|word| part(word.as_bytes())).collect();
    let mut message = vec![0];
    for bytes in [
        b"POST",
        &b"https"[..],
        b"example.com",
        b"/pumps/17/readings",
        &section,
    ] {
        message.extend(part(bytes));
    }
    // The content's length has two bytes.
    let content = vec![b'7'; LENGTH - message.len() - 2];
    message.extend(part(&content));
    assert_eq!(message.len(), LENGTH);
    message
}

/// The library's and the reference's time for each of [`KINDS`].
pub fn run() -> [f64; 2 * KINDS.len()] {
    let message = &message();
    check(message);
    let mut best = [f64::INFINITY; 2 * KINDS.len()];
    let clock = clock();
    for _ in 0..BATCHES {
        let times = [
            each(message, |message| {
                walk(Request::read(message).ok().map(|read| read.headers()))
            }),
            each(message, |message| {
                walk(read_message(message).ok().map(|read| read.headers.fields()))
            }),
            each(message, |message| {
                black_box(&Request::read(message));
            }),
            each(message, |message| {
                black_box(&read_message(message));
            }),
        ];
        let times = times.map(|time| one_call(time, clock, READINGS));
        improve(&mut best, &times);
    }
    best
}

fn each(message: &[u8], mut reading: impl FnMut(&[u8])) -> Duration {
    time(|| (0..READINGS).for_each(|_| reading(black_box(message))))
}

/// Each field once.
fn walk<'m>(fields: Option<impl Iterator<Item = (&'m [u8], &'m [u8])>>) {
    for field in fields.into_iter().flatten() {
        black_box(&field);
    }
}

/// Both sides read all the fields.
fn check(message: &[u8]) {
    let expected = FIELDS.map(|(name, value)| (name.as_bytes(), value.as_bytes()));
    let library = Request::read(message).expect("a good message");
    assert!(library.headers().eq(expected));
    let reference = read_message(message).expect("a good message");
    assert!(reference.headers.fields().eq(expected));
}

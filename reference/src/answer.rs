//! Answer lines, written: the answers of REPLAY.md and REQUESTS.md.

use crate::client::Chosen;
use crate::keeper::{Admitted, KeyReport, Opening, Report};
use crate::key_list::KeyList;
use crate::message::Message;
use crate::pending::Engine;
use crate::refusal::{is_key_problem, status, Refusal};
use crate::section::Section;

/// Bytes in lower-case hex, `-` for none.
pub fn hex(bytes: &[u8]) -> String {
    const DIGITS: &[u8; 16] = b"0123456789abcdef";
    if bytes.is_empty() {
        return "-".to_string();
    }
    let mut text = String::with_capacity(2 * bytes.len());
    for byte in bytes {
        text.push(char::from(DIGITS[usize::from(byte >> 4)]));
        text.push(char::from(DIGITS[usize::from(byte & 15)]));
    }
    text
}

/// A refusal of a call that lends no buffer.
pub fn refused(refusal: Refusal) -> String {
    match refusal.place {
        Some(place) => format!("refused {} at {}", refusal.number, place),
        None => format!("refused {}", refusal.number),
    }
}

/// A refusal and the buffer that was lent.
pub fn refused_with(refusal: Refusal, buffer: &[u8]) -> String {
    format!("{} buffer={}", refused(refusal), hex(buffer))
}

pub fn admitted(admitted: &Admitted, buffer: &[u8]) -> String {
    format!(
        "admitted ticket={} key={} kdf={:04x} aead={:04x} enc={}..{} ciphertext={}..{} buffer={}",
        admitted.ticket,
        admitted.key_id,
        admitted.pair.kdf,
        admitted.pair.aead,
        admitted.enc.start,
        admitted.enc.end,
        admitted.ciphertext.start,
        admitted.ciphertext.end,
        hex(buffer)
    )
}

/// "for admit ` status=S` and, for key problems, ` ohttp-key`, and then the buffer"
pub fn admission_refused(refusal: Refusal, buffer: &[u8]) -> String {
    let problem = if is_key_problem(refusal.number) {
        " ohttp-key"
    } else {
        ""
    };
    format!(
        "{} status={}{} buffer={}",
        refused(refusal),
        status(refusal.number),
        problem,
        hex(buffer)
    )
}

pub fn opening(opening: Opening) -> String {
    match opening {
        Opening::Opened => "opened".to_string(),
        Opening::Failed => "failed status=422".to_string(),
    }
}

pub fn sealed(length: u64, buffer: &[u8]) -> String {
    format!("sealed status=200 length={} buffer={}", length, hex(buffer))
}

pub fn report(report: &Report) -> String {
    let keys: Vec<String> = report.keys.iter().map(key_report).collect();
    format!(
        "report last={} pending={} keys={}",
        report.last_ticket,
        report.pending,
        joined(&keys)
    )
}

/// Joined by commas, `-` for none.
fn joined(words: &[String]) -> String {
    if words.is_empty() {
        return "-".to_string();
    }
    words.join(",")
}

fn key_report(key: &KeyReport) -> String {
    let state = if key.retired { "retired" } else { "live" };
    format!("{}:{}:{}", key.id, key.count, state)
}

pub fn good(read: &KeyList) -> String {
    format!(
        "good configurations={} skipped={}",
        read.configurations.len(),
        read.skipped
    )
}

pub fn chosen(chosen: &Chosen) -> String {
    format!(
        "chosen key={} kem={:04x} kdf={:04x} aead={:04x} public={}..{}",
        chosen.key_id,
        chosen.kem,
        chosen.pair.kdf,
        chosen.pair.aead,
        chosen.public_key.start,
        chosen.public_key.end
    )
}

pub fn request(message: &Message) -> String {
    format!(
        "request method={} scheme={} authority={} path={} headers={} content={} trailers={} padding={}",
        hex(message.method),
        hex(message.scheme),
        hex(message.authority),
        hex(message.path),
        fields(message.headers),
        hex(message.content),
        fields(message.trailers),
        message.padding
    )
}

/// "`-` for none, or `NAME:VALUE` joined by commas, each in hex"
fn fields(section: Section) -> String {
    let fields = section.fields();
    let words = fields.map(|(name, value)| format!("{}:{}", hex(name), hex(value)));
    joined(&words.collect::<Vec<String>>())
}

pub fn engine(engine: Engine) -> String {
    format!("engine {}", engine.name())
}

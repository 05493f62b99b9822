//! Call lines, read: the words and calls of REPLAY.md.

use crate::algorithms::Pair;
use crate::list_writer::Fields;
use crate::pending::Engine;

/// A longer line is no call (its newline is not counted).
pub const LONGEST_LINE: usize = 140_100;
/// A request, list, response, enc, nonce or message.
pub const LONGEST_BYTES: usize = 70_000;
pub const LARGEST_ROOM: usize = 256;
const LARGEST_WRITE_ROOM: usize = 4_096;
const MOST_WRITTEN: usize = 17;
const LONGEST_WRITTEN_KEY: usize = 255;
const MOST_WRITTEN_NUMBERS: usize = 40;

#[derive(Clone, Debug, PartialEq, Eq)]
pub enum Call {
    Setup {
        cap: u64,
        list: Vec<u8>,
    },
    Admit {
        request: Vec<u8>,
        room: usize,
    },
    Open {
        ticket: u64,
        success: bool,
        n: u64,
    },
    Respond {
        ticket: u64,
        enc: Vec<u8>,
        nonce: Vec<u8>,
        plain: u64,
        room: usize,
    },
    Abandon {
        ticket: u64,
    },
    Retire {
        key_id: u8,
    },
    Report,
    Check {
        list: Vec<u8>,
    },
    Key {
        list: Vec<u8>,
        key_id: u8,
    },
    Choose {
        list: Vec<u8>,
        kems: Vec<u16>,
        pairs: Vec<u16>,
    },
    Head {
        key_id: u8,
        kem: u16,
        pair: Pair,
        enc: Vec<u8>,
        room: usize,
        info_room: usize,
    },
    Split {
        aead: u16,
        response: Vec<u8>,
    },
    Exporter {
        aead: u16,
        room: usize,
    },
    Write {
        room: usize,
        configurations: Vec<Fields>,
    },
    /// The request inside.
    Request {
        message: Vec<u8>,
    },
}

/// What a line is.
#[derive(Clone, Debug, PartialEq, Eq)]
pub enum Line {
    /// "A line that begins with `#` and an empty line are passed over".
    PassedOver,
    /// "A line that is no call".
    Bad,
    /// The calls after it go by that engine. It is no call of the gateway.
    Engine(Engine),
    Call(Call),
}

/// Reads a line of `replay`.
pub fn read_line(line: &[u8]) -> Line {
    if line.is_empty() || line[0] == b'#' {
        return Line::PassedOver;
    }
    if line.len() > LONGEST_LINE {
        return Line::Bad;
    }
    if let Some(engine) = read_engine(line) {
        return Line::Engine(engine);
    }
    match read_call(line) {
        Some(call) => Line::Call(call),
        None => Line::Bad,
    }
}

/// The engine that a line names, where it is such a line.
pub fn read_engine(line: &[u8]) -> Option<Engine> {
    line.strip_prefix(b"engine ").and_then(Engine::read)
}

fn read_call(line: &[u8]) -> Option<Call> {
    // An empty word is read as no word of any kind below.
    let words: Vec<&[u8]> = line.split(|byte| *byte == b' ').collect();
    read_gateway_call(&words).or_else(|| read_client_call(&words))
}

/// Setup and the calls to the gateway.
fn read_gateway_call(words: &[&[u8]]) -> Option<Call> {
    let call = match words {
        [b"setup", cap, list] => Call::Setup {
            cap: read_decimal(cap)?,
            list: read_long_bytes(list)?,
        },
        [b"admit", request, room] => Call::Admit {
            request: read_long_bytes(request)?,
            room: read_room(room, LARGEST_ROOM)?,
        },
        [b"open", ticket, result, n] => Call::Open {
            ticket: read_decimal(ticket)?,
            success: read_result(result)?,
            n: read_decimal(n)?,
        },
        [b"respond", ticket, enc, nonce, plain, room] => Call::Respond {
            ticket: read_decimal(ticket)?,
            enc: read_long_bytes(enc)?,
            nonce: read_long_bytes(nonce)?,
            plain: read_decimal(plain)?,
            room: read_room(room, LARGEST_ROOM)?,
        },
        [b"abandon", ticket] => Call::Abandon {
            ticket: read_decimal(ticket)?,
        },
        [b"retire", id] => Call::Retire {
            key_id: read_id(id)?,
        },
        [b"report"] => Call::Report,
        _ => return None,
    };
    Some(call)
}

/// The calls on the client side, on lists and on messages alone.
fn read_client_call(words: &[&[u8]]) -> Option<Call> {
    let call = match words {
        [b"check", list] => Call::Check {
            list: read_long_bytes(list)?,
        },
        [b"key", list, id] => Call::Key {
            list: read_long_bytes(list)?,
            key_id: read_id(id)?,
        },
        [b"choose", list, kems, pairs] => Call::Choose {
            list: read_long_bytes(list)?,
            kems: read_numbers(kems)?,
            pairs: read_numbers(pairs)?,
        },
        [b"head", rest @ ..] => return read_head(rest),
        [b"split", aead, response] => Call::Split {
            aead: read_number(aead)?,
            response: read_long_bytes(response)?,
        },
        [b"exporter", aead, room] => Call::Exporter {
            aead: read_number(aead)?,
            room: read_room(room, LARGEST_ROOM)?,
        },
        [b"write", room, fields @ ..] => Call::Write {
            room: read_room(room, LARGEST_WRITE_ROOM)?,
            configurations: read_configurations(fields)?,
        },
        [b"request", message] => Call::Request {
            message: read_long_bytes(message)?,
        },
        _ => return None,
    };
    Some(call)
}

fn read_head(words: &[&[u8]]) -> Option<Call> {
    let [id, kem, kdf, aead, enc, room, info_room] = <[&[u8]; 7]>::try_from(words).ok()?;
    Some(Call::Head {
        key_id: read_id(id)?,
        kem: read_number(kem)?,
        pair: Pair {
            kdf: read_number(kdf)?,
            aead: read_number(aead)?,
        },
        enc: read_long_bytes(enc)?,
        room: read_room(room, LARGEST_ROOM)?,
        info_room: read_room(info_room, LARGEST_ROOM)?,
    })
}

/// Four words for each configuration, 17 at most.
fn read_configurations(words: &[&[u8]]) -> Option<Vec<Fields>> {
    if words.len() % 4 != 0 || words.len() / 4 > MOST_WRITTEN {
        return None;
    }
    words.chunks(4).map(read_fields).collect()
}

fn read_fields(words: &[&[u8]]) -> Option<Fields> {
    let pairs = read_numbers(words[3])?;
    if pairs.len() > MOST_WRITTEN_NUMBERS {
        return None;
    }
    Some(Fields {
        id: read_id(words[0])?,
        kem: read_number(words[1])?,
        public_key: read_bytes(words[2], LONGEST_WRITTEN_KEY)?,
        pairs,
    })
}

fn read_result(word: &[u8]) -> Option<bool> {
    match word {
        b"ok" => Some(true),
        b"failed" => Some(false),
        _ => None,
    }
}

/// A decimal of at most 2^64 - 1; leading zeros are allowed.
pub fn read_decimal(word: &[u8]) -> Option<u64> {
    if word.is_empty() {
        return None;
    }
    let mut value: u64 = 0;
    for byte in word {
        if !byte.is_ascii_digit() {
            return None;
        }
        let digit = u64::from(byte - b'0');
        value = value.checked_mul(10)?.checked_add(digit)?;
    }
    Some(value)
}

fn read_id(word: &[u8]) -> Option<u8> {
    u8::try_from(read_decimal(word)?).ok()
}

fn read_room(word: &[u8], largest: usize) -> Option<usize> {
    let room = usize::try_from(read_decimal(word)?).ok()?;
    if room > largest {
        return None;
    }
    Some(room)
}

fn read_long_bytes(word: &[u8]) -> Option<Vec<u8>> {
    read_bytes(word, LONGEST_BYTES)
}

/// Bytes in lower-case hex, `-` for none.
pub fn read_bytes(word: &[u8], longest: usize) -> Option<Vec<u8>> {
    if word == b"-" {
        return Some(Vec::new());
    }
    if word.is_empty() || word.len() % 2 != 0 || word.len() / 2 > longest {
        return None;
    }
    let mut bytes = Vec::with_capacity(word.len() / 2);
    for two in word.chunks_exact(2) {
        bytes.push(16 * read_digit(two[0])? + read_digit(two[1])?);
    }
    Some(bytes)
}

/// Numbers of four hex digits, run together, `-` for none.
fn read_numbers(word: &[u8]) -> Option<Vec<u16>> {
    if word == b"-" {
        return Some(Vec::new());
    }
    if word.is_empty() || word.len() % 4 != 0 {
        return None;
    }
    word.chunks_exact(4).map(read_number).collect()
}

/// A KEM, KDF or AEAD number: exactly four hex digits.
pub fn read_number(word: &[u8]) -> Option<u16> {
    if word.len() != 4 {
        return None;
    }
    let mut number = 0;
    for byte in word {
        number = 16 * number + u16::from(read_digit(*byte)?);
    }
    Some(number)
}

/// The value of each byte as a hex digit; 16 for a byte that is none.
const DIGIT_VALUES: [u8; 256] = digit_values();

const fn digit_values() -> [u8; 256] {
    let mut values = [16; 256];
    let digits = b"0123456789abcdef";
    let mut value = 0;
    while value < 16 {
        values[digits[value] as usize] = value as u8;
        value += 1;
    }
    values
}

fn read_digit(byte: u8) -> Option<u8> {
    let value = DIGIT_VALUES[usize::from(byte)];
    if value < 16 {
        Some(value)
    } else {
        None
    }
}

#[cfg(test)]
mod tests {
    use super::*;

    fn is_call(line: &str) -> bool {
        match read_line(line.as_bytes()) {
            Line::Call(_) | Line::Engine(_) => true,
            Line::Bad => false,
            Line::PassedOver => panic!("passed over: {line}"),
        }
    }

    #[test]
    fn every_call() {
        let calls = [
            "setup 1 -",
            "admit 00 29",
            "open 1 ok 0",
            "open 1 failed 0",
            "respond 1 - - 0 0",
            "abandon 0",
            "retire 255",
            "report",
            "check -",
            "key - 0",
            "choose - - -",
            "choose 00 00100020 000100010001",
            "head 1 0020 0001 ffff - 0 256",
            "split 0001 -",
            "exporter 0001 22",
            "exporter ffff 0",
            "exporter 0003 0256",
            "write 4096",
            "write 0 0 0020 - -",
            "write 0 0 0020 00 0001 255 0010 11 00010001",
            "abandon 18446744073709551615",
            "abandon 000000000000000000000000000000001",
            "retire 0255",
            "engine plain",
            "engine fast",
            "request -",
        ];
        for call in calls {
            assert!(is_call(call), "{call}");
            assert!(!is_call(&format!("{call} ")), "{call}");
            assert!(!is_call(&format!(" {call}")), "{call}");
            assert!(!is_call(&format!("{call}\r")), "{call}");
            assert!(!is_call(&format!("{call} 0")), "{call}");
            if call != "report" {
                assert!(!is_call(&call.replacen(' ', "  ", 1)), "{call}");
                assert!(!is_call(&call.replacen(' ', "\t", 1)), "{call}");
            }
        }
    }

    #[test]
    fn bad_lines() {
        let lines = [
            " ",
            "\r",
            " # no comment",
            "Report",
            "admit 0 29",
            "admit 0A 29",
            "admit 0g 29",
            "admit 00 257",
            "admit 00 -1",
            "admit 00 +1",
            "admit 00 -",
            "admit 00",
            "admit -- 29",
            "abandon 18446744073709551616",
            "abandon 99999999999999999999",
            "abandon 1x",
            "retire 256",
            "key - 256",
            "head 256 0020 0001 0001 - 0 0",
            "open 1 OK 0",
            "open 1 ok",
            "split 001 -",
            "split 00001 -",
            "split 000A -",
            "choose - 001 -",
            "choose - - 000100",
            "write 4097",
            "write 0 0 0020 -",
            "write 0 256 0020 - -",
        ];
        for line in lines {
            assert!(!is_call(line), "{line}");
        }
    }

    #[test]
    fn lines_of_exporter() {
        let call = Call::Exporter { aead: 3, room: 22 };
        assert_eq!(read_line(b"exporter 0003 22"), Line::Call(call));
        let bad = ["", " 0001", " 0001 257", " 0001 -", " 001 22", " 000A 22"];
        for words in bad {
            assert!(!is_call(&format!("exporter{words}")), "{words}");
        }
    }

    #[test]
    fn lines_of_request() {
        let message = vec![0, 0xff];
        let call = Call::Request { message };
        assert_eq!(read_line(b"request 00ff"), Line::Call(call));
        let bad = ["", " ", " 0", " 00f", " 00FF", " 0x00", " --", " 00 00"];
        for words in bad {
            assert!(!is_call(&format!("request{words}")), "{words}");
        }
        assert!(!is_call("requests 00"));
        assert!(is_call(&format!("request {}", "00".repeat(70_000))));
        assert!(!is_call(&format!("request {}", "00".repeat(70_001))));
    }

    #[test]
    fn lines_of_engine() {
        assert_eq!(read_line(b"engine plain"), Line::Engine(Engine::Plain));
        assert_eq!(read_line(b"engine fast"), Line::Engine(Engine::Fast));
        let bad = [
            "engine",
            "engine -",
            "engine 0",
            "engine plai",
            "engine plainer",
            "engine Fast",
            "engine fast plain",
            "engineplain",
            "engines fast",
            "Engine fast",
            "plain",
            "fast engine",
        ];
        for line in bad {
            assert_eq!(read_line(line.as_bytes()), Line::Bad, "{line}");
        }
    }

    #[test]
    fn limits_of_write() {
        let configuration = |key: usize, numbers: usize| {
            let (key, pairs) = ("00".repeat(key), "0001".repeat(numbers));
            format!(" 1 0020 {key} {pairs}")
        };
        assert!(is_call(&format!("write 0{}", configuration(255, 40))));
        assert!(!is_call(&format!("write 0{}", configuration(256, 40))));
        assert!(!is_call(&format!("write 0{}", configuration(255, 41))));
        let some = configuration(1, 1);
        assert!(is_call(&format!("write 0{}", some.repeat(17))));
        assert!(!is_call(&format!("write 0{}", some.repeat(18))));
    }

    #[test]
    fn limits_of_length() {
        assert!(is_call(&format!("admit {} 0", "00".repeat(70_000))));
        assert!(!is_call(&format!("admit {} 0", "00".repeat(70_001))));
        // "choose - " and " -" leave 140,089 digits; leading zeros fill a line up.
        let longest = format!("choose - {} -", "0".repeat(140_088));
        assert!(is_call(&longest));
        assert!(is_call(&format!("abandon {}", "0".repeat(140_092))));
        assert!(!is_call(&format!("abandon {}", "0".repeat(140_093))));
        let comment = format!("#{}", "0".repeat(150_000));
        assert_eq!(read_line(comment.as_bytes()), Line::PassedOver);
        assert_eq!(read_line(b""), Line::PassedOver);
    }
}

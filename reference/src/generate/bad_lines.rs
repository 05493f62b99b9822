//! Lines that are no calls, or nearly; comments and empty lines.

use super::key_lists::X25519;
use crate::algorithms::npk;
use crate::random::Random;

/// Lines at the edges of the words; those at the end are calls.
const FIXED: &[&str] = &[
    "abandon 18446744073709551616",
    "abandon 18446744073709551625",
    "abandon 20000000000000000000",
    "abandon 99999999999999999999",
    "abandon 118446744073709551615",
    "abandon -1",
    "abandon +1",
    "abandon 0x1",
    "abandon",
    "abandon ",
    "abandon 1 1",
    "setup 18446744073709551616 -",
    "setup - -",
    "setup 1",
    "setup",
    "open 1 ok 18446744073709551616",
    "open 1 OK 0",
    "open 1 fail 0",
    "open 1 ok",
    "respond 1 - - 0 257",
    "respond 1 - - 18446744073709551616 0",
    "retire 256",
    "retire 65543",
    "retire 4294967297",
    "admit - 4294967325",
    "report 0",
    "Report",
    "reports",
    "engine",
    "engine ",
    "engine -",
    "engine slow",
    "engine Plain",
    "engine plainly",
    "engine fas",
    "engine fast fast",
    "engine plain fast",
    "engine  plain",
    "engines plain",
    "exporter 0001",
    "exporter 0001 257",
    "exporter 1 22",
    "admit - 257",
    "admit - 18446744073709551616",
    "key - 256",
    "head 256 0020 0001 0001 - 0 0",
    "head 1 020 0001 0001 - 0 0",
    "head 1 0020 0001 0001 - 257 0",
    "head 1 0020 0001 0001 - 0 257",
    "write 4097",
    "write 0 256 0020 - -",
    "write 0 1 0020 -",
    "choose - 00200 -",
    "choose - - 00010003000",
    "request",
    "request ",
    "request 0",
    "request 00 00",
    "request - -",
    "request 0000000A",
    "requests -",
    " ",
    "abandon 18446744073709551615",
    "setup 00000000000000000000000000 -",
    "write 04096",
    "retire 00000000000000000000255",
];

/// A call made into a line that is none, most of the time.
pub fn bad_line(random: &mut Random, call: &[u8]) -> Vec<u8> {
    if random.one_in(120) {
        return too_long(random);
    }
    let mut line = call.to_vec();
    let place = random.below(line.len());
    match random.below(16) {
        0 => line[place] = any_byte(random),
        1 => line.insert(place, any_byte(random)),
        2 => {
            line.remove(place);
        }
        3 => line.insert(0, b' '),
        4 => line.push(b' '),
        5 => line.push(b'\r'),
        6 => line.extend(b" 0"),
        7 => line.truncate(place),
        8 => line.make_ascii_uppercase(),
        9 => double_space(&mut line),
        10 => drop_last_word(&mut line),
        11 => return limits_of_write(random).into_bytes(),
        _ => return random.pick(FIXED).as_bytes().to_vec(),
    }
    line
}

/// Any byte but a newline.
fn any_byte(random: &mut Random) -> u8 {
    let byte = match random.below(3) {
        0 => random.byte(),
        1 => random.pick(b" -0aAfFgG#\r\t"),
        _ => random.between(0x20, 0x7e) as u8,
    };
    if byte == b'\n' {
        0
    } else {
        byte
    }
}

fn double_space(line: &mut Vec<u8>) {
    match line.iter().position(|byte| *byte == b' ') {
        Some(space) => line.insert(space, b' '),
        None => line.push(b' '),
    }
}

fn drop_last_word(line: &mut Vec<u8>) {
    match line.iter().rposition(|byte| *byte == b' ') {
        Some(space) => line.truncate(space),
        None => line.clear(),
    }
}

/// One more than `write` takes, or just as many.
fn limits_of_write(random: &mut Random) -> String {
    let configuration = |key: usize, numbers: usize| {
        let (key, pairs) = ("5a".repeat(key), "0001".repeat(numbers));
        format!(" 3 {X25519:04x} {key} {pairs}")
    };
    let npk = npk(X25519).unwrap_or(0);
    match random.below(4) {
        0 => format!("write 0{}", configuration(random.between(255, 256), 2)),
        1 => format!("write 0{}", configuration(npk, random.between(40, 41))),
        2 => format!(
            "write 0{}",
            configuration(1, 1).repeat(random.between(17, 18))
        ),
        _ => format!("write {}", random.between(4_096, 4_097)),
    }
}

/// Around the limits of 70,000 bytes in a word and of 140,100 in a line, and lines far longer.
fn too_long(random: &mut Random) -> Vec<u8> {
    let line = match random.below(6) {
        0 => format!("admit {} 29", "07".repeat(random.between(70_000, 70_001))),
        1 => format!("check {}", "00".repeat(random.between(70_000, 70_001))),
        2 => format!("abandon {}", "0".repeat(random.between(140_092, 140_093))),
        3 => format!(
            "choose - {} -",
            "0020".repeat(random.between(35_022, 35_023))
        ),
        4 => {
            let front = "00".repeat(random.between(69_999, 70_000));
            format!("request {front}{}", random.pick(&["00", "01"]))
        }
        _ => format!("report{}", " ".repeat(random.between(140_094, 600_000))),
    };
    line.into_bytes()
}

pub fn comment(random: &mut Random) -> Vec<u8> {
    match random.below(1_000) {
        0 => format!("#{}", "0".repeat(random.between(140_099, 600_000))).into_bytes(),
        1..=300 => Vec::new(),
        301..=400 => b"#report".to_vec(),
        401..=500 => b"# setup 1 -".to_vec(),
        501..=600 => b"#".to_vec(),
        601..=700 => {
            let mut line = b"#".to_vec();
            line.push(any_byte(random));
            line
        }
        _ => b"# a comment".to_vec(),
    }
}

//! The program of REPLAY.md: a call list in, an answer for each call out.

use crate::answer;
use crate::call::{read_engine, read_line, Call, Line, LONGEST_LINE};
use crate::gateway::Gateway;
use crate::lines::Lines;
use crate::moved::{is_gateway_call, moved_order, Answered};
use crate::pending::Engine;
use crate::perform::perform;
use std::io::{self, BufRead, Write};

/// The gateway that is held and the number of lines seen.
pub struct Replay {
    pub gateway: Gateway,
    line_number: u64,
}

impl Replay {
    pub fn new() -> Replay {
        Replay {
            gateway: Gateway::without_keys(),
            line_number: 0,
        }
    }

    /// The answer to the next line; none where it is passed over.
    pub fn answer(&mut self, line: &Line) -> Option<String> {
        self.line_number += 1;
        match line {
            Line::PassedOver => None,
            Line::Bad => Some(format!("bad line {}", self.line_number)),
            Line::Engine(engine) => {
                self.gateway.pending.engine = *engine;
                Some(answer::engine(*engine))
            }
            Line::Call(call) => {
                let engine = self.engine();
                let answer = perform(&mut self.gateway, call);
                // A setup makes the gateway anew, not the engine.
                self.gateway.pending.engine = engine;
                Some(answer)
            }
        }
    }

    /// The engine by which the next call goes; at first the fast one.
    pub fn engine(&self) -> Engine {
        self.gateway.pending.engine
    }
}

/// Answers all lines of the input.
pub fn replay(input: impl BufRead, output: &mut impl Write) -> io::Result<()> {
    let mut lines = Lines::new(input, LONGEST_LINE);
    let mut replay = Replay::new();
    while let Some(line) = lines.read()? {
        if let Some(mut answer) = replay.answer(&read_line(line)) {
            answer.push('\n');
            output.write_all(answer.as_bytes())?;
        }
    }
    output.flush()
}

/// Writes the lines so that all calls go by one engine: each line of an engine names it, and one
/// stands in front. The answers to the lines are written so too, since such a line is its answer.
pub fn write_by(
    engine: Engine,
    mut input: impl BufRead,
    output: &mut impl Write,
) -> io::Result<()> {
    let engine = answer::engine(engine);
    let mut line = Vec::new();
    let mut in_front = true;
    while input.read_until(b'\n', &mut line)? > 0 {
        let text = line.strip_suffix(b"\n").unwrap_or(&line);
        let names_engine = read_engine(text).is_some();
        if in_front || names_engine {
            writeln!(output, "{engine}")?;
        }
        if !names_engine {
            output.write_all(&line)?;
        }
        in_front = false;
        line.clear();
    }
    output.flush()
}

/// Writes one list, setup first, moved as demand 3 says.
pub fn write_moved(input: impl BufRead, output: &mut impl Write) -> io::Result<()> {
    let mut lines = Lines::new(input, LONGEST_LINE);
    let mut replay = Replay::new();
    let (mut list, mut texts) = (Vec::new(), Vec::new());
    while let Some(line) = lines.read()? {
        let read = read_line(line);
        let answer = replay.answer(&read);
        match (read, answer) {
            (Line::Call(Call::Setup { .. }), _) => writeln!(output, "{}", text(line))?,
            (Line::Call(call), Some(answer)) if is_gateway_call(&call) => {
                texts.push(text(line));
                list.push(Answered { call, answer });
            }
            _ => {}
        }
    }
    let order = moved_order(&list).map_err(|error| io::Error::new(io::ErrorKind::Other, error))?;
    for place in order {
        writeln!(output, "{}", texts[place])?;
    }
    output.flush()
}

fn text(line: &[u8]) -> String {
    String::from_utf8_lossy(line).to_string()
}

#[cfg(test)]
mod tests {
    use super::*;

    fn answers(input: &str) -> String {
        let mut output = Vec::new();
        replay(input.as_bytes(), &mut output).unwrap();
        String::from_utf8(output).unwrap()
    }

    fn edge_list() -> String {
        format!("0029070020{}000400010003", "11".repeat(32))
    }

    #[test]
    fn a_small_day() {
        let calls = [
            "# a comment, then an empty line".to_string(),
            String::new(),
            "report".to_string(),
            format!("setup 1 {}", edge_list()),
            format!("admit 07002000010003{} 30", "00".repeat(48)),
            "open 1 ok 0".to_string(),
            format!("respond 1 {} {} 3 65", "01".repeat(32), "02".repeat(32)),
            "abandon 1".to_string(),
            "retire 7".to_string(),
            format!("admit 07002000010003{} 1", "00".repeat(48)),
            "no call".to_string(),
            "report".to_string(),
            format!("setup 0 {}", edge_list()),
            "report".to_string(),
        ];
        let info = "6d6573736167652f626874747020726571756573740007002000010003";
        let (enc, nonce) = ("01".repeat(32), "02".repeat(32));
        let expected = [
            "report last=0 pending=0 keys=-".to_string(),
            "ready keys=1".to_string(),
            format!(
                "admitted ticket=1 key=7 kdf=0001 aead=0003 enc=7..39 ciphertext=39..55 \
                 buffer={info}a5"
            ),
            "opened".to_string(),
            format!("sealed status=200 length=51 buffer={enc}{nonce}a5"),
            "refused 11".to_string(),
            "retired".to_string(),
            "refused 7 status=400 ohttp-key buffer=a5".to_string(),
            "bad line 11".to_string(),
            "report last=1 pending=0 keys=7:1:retired".to_string(),
            "refused 17".to_string(),
            "report last=0 pending=0 keys=-".to_string(),
        ];
        // The last line needs no newline.
        let output = answers(&calls.join("\n"));
        assert_eq!(output, expected.join("\n") + "\n");
    }

    #[test]
    fn the_engine_line() {
        let admit = format!("admit 07002000010003{} 29", "00".repeat(48));
        let setup = format!("setup 9 {}", edge_list());
        let calls = [
            "engine plain",
            &setup,
            &admit,
            "engine fast",
            &admit,
            "open 1 ok 0",
            "engine plain",
            "abandon 2",
            "abandon 2",
            &admit,
            "engine",
            "engine slow",
            "engine fast plain",
            "engine fast",
            "engine fast",
            "abandon 3",
            "report",
        ];
        let info = "6d6573736167652f626874747020726571756573740007002000010003";
        let admitted = |ticket: u64| {
            format!(
                "admitted ticket={ticket} key=7 kdf=0001 aead=0003 enc=7..39 ciphertext=39..55 \
                 buffer={info}"
            )
        };
        let expected = [
            "engine plain",
            "ready keys=1",
            &admitted(1),
            "engine fast",
            &admitted(2),
            "opened",
            "engine plain",
            "abandoned",
            "refused 11",
            &admitted(3),
            "bad line 11",
            "bad line 12",
            "bad line 13",
            "engine fast",
            "engine fast",
            "abandoned",
            "report last=3 pending=1 keys=7:3:live",
            "",
        ];
        assert_eq!(answers(&calls.join("\n")), expected.join("\n"));
    }

    #[test]
    fn setups_and_bad_lines_leave_the_engine() {
        let mut replay = Replay::new();
        assert_eq!(replay.engine(), Engine::Fast);
        let setup = format!("setup 9 {}", edge_list());
        for (line, engine) in [
            ("report", Engine::Fast),
            ("engine plain", Engine::Plain),
            (&setup, Engine::Plain),
            ("setup 0 -", Engine::Plain),
            ("engine", Engine::Plain),
            ("engine fast plain", Engine::Plain),
            ("# engine fast", Engine::Plain),
            ("engine fast", Engine::Fast),
            (&setup, Engine::Fast),
        ] {
            replay.answer(&read_line(line.as_bytes()));
            assert_eq!(replay.engine(), engine, "{line}");
        }
    }

    #[test]
    fn all_by_one_engine() {
        let by = |engine: Engine, lines: &str| {
            let mut output = Vec::new();
            write_by(engine, lines.as_bytes(), &mut output).unwrap();
            String::from_utf8(output).unwrap()
        };
        let (calls, plain) = (
            "# a\nreport\nengine fast\n\nengine plain\nengine\nreport",
            "# a\nreport\nengine plain\n\nengine plain\nengine\nreport",
        );
        assert_eq!(by(Engine::Plain, calls), format!("engine plain\n{plain}"));
        let calls = "engine plain\nreport\n";
        assert_eq!(by(Engine::Fast, calls), "engine fast\nreport\n");
        assert_eq!(by(Engine::Plain, calls), calls);
    }

    /// Each engine alone gives the answers that both give by turns.
    #[test]
    fn engines_answer_alike() {
        let mut mixed = Vec::new();
        crate::generate::generate(7, 30_000, &mut mixed).unwrap();
        let mut answers = Vec::new();
        replay(mixed.as_slice(), &mut answers).unwrap();
        for engine in [Engine::Plain, Engine::Fast] {
            let (mut calls, mut output, mut expected) = (Vec::new(), Vec::new(), Vec::new());
            write_by(engine, mixed.as_slice(), &mut calls).unwrap();
            replay(calls.as_slice(), &mut output).unwrap();
            write_by(engine, answers.as_slice(), &mut expected).unwrap();
            assert!(output == expected);
        }
    }

    #[test]
    fn a_moved_list() {
        let admit = format!("admit 07002000010003{} 29", "00".repeat(48));
        let setup = format!("setup 9 {}", edge_list());
        let calls = [
            &setup[..],
            "# two exchanges",
            &admit,
            &admit,
            "report",
            "open 2 ok 0",
            "abandon 9",
            "abandon 1",
            "retire 7",
            "check -",
            "engine plain",
            "exporter 0001 22",
        ];
        let mut output = Vec::new();
        write_moved(calls.join("\n").as_bytes(), &mut output).unwrap();
        let moved = [
            &setup[..],
            &admit,
            "abandon 1",
            &admit,
            "open 2 ok 0",
            "retire 7",
            "",
        ];
        assert_eq!(String::from_utf8(output).unwrap(), moved.join("\n"));
    }

    #[test]
    fn statuses_of_admit() {
        let long =
            |kem: &str, bytes: usize| format!("admit 07{kem}00010003{} 0", "00".repeat(bytes));
        let calls = [
            format!("setup 1 {}", edge_list()),
            "admit - 0".to_string(),
            long("0022", 65_530),
            long("0022", 48),
            long("0010", 88),
            long("0020", 48),
        ];
        let expected = [
            "ready keys=1",
            "refused 1 status=400 buffer=-",
            "refused 2 status=413 buffer=-",
            "refused 3 status=400 buffer=-",
            "refused 5 status=400 ohttp-key buffer=-",
            "refused 14 status=500 buffer=-",
            "",
        ];
        assert_eq!(answers(&calls.join("\n")), expected.join("\n"));
    }

    #[test]
    fn client_calls() {
        let list = edge_list();
        let key = "11".repeat(32);
        let calls = [
            format!("check {list}"),
            format!("check {list}{list}"),
            format!("key {list} 7"),
            format!("key {list} 8"),
            format!("choose {list} 00100020 00010003"),
            format!("choose {list} - 0001"),
            format!("head 7 0020 0001 0003 {key} 40 28"),
            format!("split 0001 {}", "22".repeat(32)),
            format!("write 44 7 0020 {key} 00010003"),
            format!("write 42 7 0020 {key} 00010003"),
            "write 1".to_string(),
        ];
        let buffer = "a5".repeat(40);
        let nonce = "22".repeat(16);
        let expected = [
            "good configurations=1 skipped=0".to_string(),
            "refused 21 at 45".to_string(),
            format!("key {key}"),
            "refused 4".to_string(),
            "chosen key=7 kem=0020 kdf=0001 aead=0003 public=5..37".to_string(),
            "refused 13".to_string(),
            format!("refused 14 buffer={buffer} info={}", "a5".repeat(28)),
            format!("split nonce={nonce} ciphertext={nonce}"),
            format!("written length=43 buffer={list}a5"),
            format!("refused 14 buffer={}", "a5".repeat(42)),
            "refused 18 at 0 buffer=a5".to_string(),
            String::new(),
        ];
        assert_eq!(answers(&calls.join("\n")), expected.join("\n"));
    }

    /// "`refused N at PLACE` for 18 to 22 ..., and for 3 in write. Admit's and head's 3 have no
    /// place."
    #[test]
    fn lines_with_a_place() {
        let (good, key) = (edge_list(), "11".repeat(32));
        let mut sixteen = String::new();
        for id in 0..16 {
            sixteen.push_str(&good.replacen("07", &format!("{id:02x}"), 1));
        }
        let lists = [
            ("00".to_string(), "refused 18 at 0"),
            (format!("{good}000107"), "refused 19 at 43"),
            (good.replace("0004", "0006"), "refused 20 at 37"),
            (format!("{good}{good}"), "refused 21 at 45"),
            (format!("{sixteen}00"), "refused 22 at 688"),
        ];
        for (list, refused) in lists {
            let calls = [
                format!("check {list}"),
                format!("setup 0 {list}"),
                format!("key {list} 8"),
                format!("choose {list} 0020 0001"),
            ];
            assert_eq!(answers(&calls.join("\n")), format!("{refused}\n").repeat(4));
        }
        let calls = [
            "write 1".to_string(),
            format!("write 1 7 0022 {key} 00010003"),
            "write 1 7 0020 - 00010003".to_string(),
            format!("write 1 7 0020 {key} -"),
            format!("write 1 7 0020 {key} 00010003 7 0020 {key} 00010003"),
            format!("write 1 7 0020 {key} 00010003"),
            format!("head 7 0022 0001 0003 {key} 1 1"),
            format!("admit 07002200010003{key} 1"),
        ];
        let expected = [
            "refused 18 at 0 buffer=a5",
            "refused 3 at 3 buffer=a5",
            "refused 19 at 0 buffer=a5",
            "refused 20 at 37 buffer=a5",
            "refused 21 at 45 buffer=a5",
            "refused 14 buffer=a5",
            "refused 3 buffer=a5 info=a5",
            "refused 3 status=400 buffer=a5",
            "",
        ];
        assert_eq!(answers(&calls.join("\n")), expected.join("\n"));
    }

    #[test]
    fn calls_with_skipped_configurations() {
        let (good, skipped) = (edge_list(), "0003090022");
        let admit = |head: &str| format!("admit {head}00010003{} 0", "00".repeat(48));
        let calls = [
            format!("check {skipped}{good}{skipped}"),
            format!("setup 9 {skipped}{good}{skipped}"),
            format!("key {skipped}{good}{skipped} 9"),
            format!("choose {skipped}{good}{skipped} 00220020 00010003"),
            admit("090022"),
            admit("090020"),
            "report".to_string(),
            format!("check {skipped}{skipped}"),
            format!("setup 9 {skipped}{skipped}"),
            "report".to_string(),
            admit("070020"),
            format!("key {skipped}{skipped} 9"),
            format!("choose {skipped}{skipped} 00220020 00010003"),
            "check 00020900".to_string(),
            "check 0004090022".to_string(),
            format!("check {}", skipped.repeat(17)),
        ];
        let expected = [
            "good configurations=1 skipped=2",
            "ready keys=1",
            "refused 4",
            "chosen key=7 kem=0020 kdf=0001 aead=0003 public=10..42",
            "refused 3 status=400 buffer=-",
            "refused 4 status=400 ohttp-key buffer=-",
            "report last=0 pending=0 keys=7:0:live",
            "good configurations=0 skipped=2",
            "ready keys=0",
            "report last=0 pending=0 keys=-",
            "refused 4 status=400 ohttp-key buffer=-",
            "refused 4",
            "refused 16",
            "refused 19 at 0",
            "refused 18 at 0",
            "refused 22 at 80",
            "",
        ];
        assert_eq!(answers(&calls.join("\n")), expected.join("\n"));
    }

    #[test]
    fn the_request_call() {
        let calls = [
            "request 00034745540568747470730b6578616d706c652e636f6d012f",
            "request 000147000000080161016201640002636403016500000000",
            "request 0000000000",
            "request -",
            "request 000000000003014100",
            "request",
            "request 00 00",
        ];
        let expected = [
            "request method=474554 scheme=6874747073 authority=6578616d706c652e636f6d path=2f headers=- content=- trailers=- padding=0",
            "refused 23 at 14",
            "request method=- scheme=- authority=- path=- headers=- content=- trailers=- padding=0",
            "refused 23 at 0",
            "refused 23 at 7",
            "bad line 6",
            "bad line 7",
            "",
        ];
        assert_eq!(answers(&calls.join("\n")), expected.join("\n"));
        let whole = "request 000147000000070161016201640002636403016500000000";
        let expected = "request method=47 scheme=- authority=- path=- headers=61:62,64:- content=6364 trailers=65:- padding=3\n";
        assert_eq!(answers(whole), expected);
    }

    /// It touches no gateway, and demand 3 strikes it out.
    #[test]
    fn requests_inside_are_struck_out() {
        let moved = |calls: &[&str]| {
            let mut output = Vec::new();
            write_moved(calls.join("\n").as_bytes(), &mut output).unwrap();
            String::from_utf8(output).unwrap()
        };
        let setup = format!("setup 1 {}", edge_list());
        let admit = format!("admit 07002000010003{} 29", "00".repeat(48));
        let calls = [setup.as_str(), "request 00", &admit, "request 0000000000"];
        assert_eq!(moved(&calls), format!("{setup}\n{admit}\n"));
        let report = "report last=1 pending=1 keys=7:1:live\n";
        assert!(answers(&[&calls[..], &["report"]].concat().join("\n")).ends_with(report));
    }

    #[test]
    fn the_exporter_call() {
        let calls = [
            "exporter 0001 22",
            "exporter 0002 24",
            "exporter 0003 22",
            "exporter 0003 21",
            "exporter ffff 22",
            "exporter 0000 0",
            "exporter 0001 0",
            "exporter 0001",
            "exporter (00*1) 22",
        ];
        let context = "6d6573736167652f626874747020726573706f6e7365";
        let expected = [
            format!("exporter secret=16 buffer={context}"),
            format!("exporter secret=32 buffer={context}a5a5"),
            format!("exporter secret=32 buffer={context}"),
            format!("refused 14 buffer={}", "a5".repeat(21)),
            format!("refused 6 buffer={}", "a5".repeat(22)),
            "refused 6 buffer=-".to_string(),
            "refused 14 buffer=-".to_string(),
            "bad line 8".to_string(),
            "bad line 9".to_string(),
            String::new(),
        ];
        assert_eq!(answers(&calls.join("\n")), expected.join("\n"));
    }
}

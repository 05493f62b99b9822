//! Another program's answers held against the reference's, and demand 3 on each list.

use crate::answer;
use crate::call::{read_line, Call, Line, LONGEST_LINE};
use crate::lines::Lines;
use crate::moved::{check, is_gateway_call, Answered};
use crate::pending::Engine;
use crate::replay::Replay;
use crate::table::Table;
use std::io::{self, BufRead};

/// No answer is longer: the longest shows a message of 70,000 bytes.
const LONGEST_ANSWER: usize = 200_000;
/// A longer word is shown cut in the middle.
const LONGEST_SHOWN_WORD: usize = 200;

/// What was compared, where nothing differs.
pub struct Summary {
    pub calls: u64,
    pub lists: u64,
    pub table: Table,
}

/// The first difference: the shortest run of lines that shows it, and what differs.
#[derive(Debug)]
pub struct Difference {
    pub lines: Vec<Vec<u8>>,
    pub message: String,
}

/// A setup and what follows up to the next; every setup starts the state anew.
#[derive(Default)]
struct List {
    lines: Vec<Vec<u8>>,
    setup: Option<(u64, Vec<u8>)>,
    answered: Vec<Answered>,
}

struct Comparison {
    name: String,
    replay: Replay,
    list: List,
    line_number: u64,
    summary: Summary,
}

/// Compares line by line; `name` is how the other program is called in messages.
pub fn compare(
    calls: impl BufRead,
    answers: impl BufRead,
    name: &str,
) -> io::Result<Result<Summary, Difference>> {
    let mut calls = Lines::new(calls, LONGEST_LINE);
    let mut answers = Lines::new(answers, LONGEST_ANSWER);
    let mut comparison = Comparison::new(name);
    while let Some(line) = calls.read()? {
        if let Err(difference) = comparison.line(line, &mut answers)? {
            return Ok(Err(difference));
        }
    }
    let extra = answers.read()?;
    Ok(comparison.end(extra))
}

impl Comparison {
    fn new(name: &str) -> Comparison {
        Comparison {
            name: name.to_string(),
            replay: Replay::new(),
            list: List::default(),
            line_number: 0,
            summary: Summary {
                calls: 0,
                lists: 0,
                table: Table::new(),
            },
        }
    }

    /// Answers a line of the calls and holds the next given answer against it.
    fn line(
        &mut self,
        line: &[u8],
        answers: &mut Lines<impl BufRead>,
    ) -> io::Result<Result<(), Difference>> {
        self.line_number += 1;
        let read = read_line(line);
        if let Line::Call(Call::Setup { cap, list }) = &read {
            if let Err(difference) = self.end_list() {
                return Ok(Err(difference));
            }
            self.list.setup = Some((*cap, list.clone()));
            // A setup leaves the engine, and a program begins with the fast one.
            if self.replay.engine() == Engine::Plain {
                let engine = answer::engine(Engine::Plain);
                self.list.lines.push(engine.into_bytes());
            }
        }
        self.list.lines.push(line.to_vec());
        let reference = match self.replay.answer(&read) {
            Some(answer) => answer,
            None => return Ok(Ok(())),
        };
        let given = answers.read()?;
        if given != Some(reference.as_bytes()) {
            return Ok(Err(self.answers_differ(Some(reference.as_bytes()), given)));
        }
        self.summary.calls += 1;
        self.summary.table.count_answer(&read, &reference);
        match read {
            Line::Call(call) if is_gateway_call(&call) => self.list.answered.push(Answered {
                call,
                answer: reference,
            }),
            _ => {}
        }
        Ok(Ok(()))
    }

    /// Checks demand 3 on the list and starts the next.
    fn end_list(&mut self) -> Result<(), Difference> {
        let list = std::mem::take(&mut self.list);
        // What stands before the first setup is a list where it has a call of the gateway.
        if list.setup.is_none() && list.answered.is_empty() {
            return Ok(());
        }
        self.summary.lists += 1;
        let setup = list.setup.as_ref().map(|(cap, list)| (*cap, &list[..]));
        match check(setup, &list.answered, &self.replay.gateway) {
            Ok(()) => Ok(()),
            Err(message) => Err(Difference {
                lines: list.lines,
                message: format!(
                    "demand 3 does not hold on this list: {}",
                    cut(message.as_bytes())
                ),
            }),
        }
    }

    fn end(mut self, extra: Option<&[u8]>) -> Result<Summary, Difference> {
        if extra.is_some() {
            return Err(self.answers_differ(None, extra));
        }
        self.end_list()?;
        Ok(self.summary)
    }

    fn answers_differ(&mut self, reference: Option<&[u8]>, given: Option<&[u8]>) -> Difference {
        let shown = |answer: Option<&[u8]>| match answer {
            Some(answer) => cut(answer),
            None => "(no line)".to_string(),
        };
        let same = match (reference, given) {
            (Some(one), Some(other)) => one.iter().zip(other).take_while(|b| b.0 == b.1).count(),
            _ => 0,
        };
        Difference {
            lines: std::mem::take(&mut self.list.lines),
            message: format!(
                "the answers to line {} of the calls differ, from their byte {} on\n{}: {}\n{}: {}",
                self.line_number,
                same + 1,
                "reference",
                shown(reference),
                self.name,
                shown(given)
            ),
        }
    }
}

/// A line with its long words cut in the middle, each with its length.
pub fn cut(line: &[u8]) -> String {
    let words = line.split(|byte| *byte == b' ').map(|word| {
        let shown = String::from_utf8_lossy(word);
        if word.len() <= LONGEST_SHOWN_WORD {
            return shown.to_string();
        }
        let start = String::from_utf8_lossy(&word[..80]);
        let end = String::from_utf8_lossy(&word[word.len() - 80..]);
        format!("{start}...({} characters)...{end}", word.len())
    });
    let words: Vec<String> = words.collect();
    words.join(" ")
}

#[cfg(test)]
mod tests {
    use super::*;
    use crate::generate::generate;
    use crate::replay::replay;

    /// Generated calls and the reference's own answers to them.
    fn calls_and_answers() -> (Vec<u8>, Vec<String>) {
        let (mut calls, mut answers) = (Vec::new(), Vec::new());
        generate(4, 5_000, &mut calls).unwrap();
        replay(calls.as_slice(), &mut answers).unwrap();
        let answers = String::from_utf8(answers).unwrap();
        (calls, answers.lines().map(str::to_string).collect())
    }

    fn compare_with(calls: &[u8], answers: &[String]) -> Result<Summary, Difference> {
        let text = answers.join("\n");
        compare(calls, text.as_bytes(), "other").unwrap()
    }

    #[test]
    fn its_own_answers_are_equal() {
        let (calls, answers) = calls_and_answers();
        let summary = compare_with(&calls, &answers).unwrap();
        assert_eq!(summary.calls, 5_000);
        assert!(summary.lists > 5);
    }

    #[test]
    fn a_changed_answer_is_caught() {
        let (calls, answers) = calls_and_answers();
        for place in (0..5_000).step_by(499) {
            let mut changed = answers.clone();
            let last = if changed[place].ends_with('0') {
                '1'
            } else {
                '0'
            };
            changed[place].pop();
            changed[place].push(last);
            assert!(compare_with(&calls, &changed).is_err());
        }
    }

    #[test]
    fn swapped_answers_are_caught() {
        let (calls, mut answers) = calls_and_answers();
        let place = (0..4_999).find(|p| answers[*p] != answers[*p + 1]).unwrap();
        answers.swap(place, place + 1);
        assert!(compare_with(&calls, &answers).is_err());
    }

    #[test]
    fn a_missing_and_an_extra_answer_are_caught() {
        let (calls, mut answers) = calls_and_answers();
        answers.push("opened".to_string());
        let difference = compare_with(&calls, &answers).err().unwrap();
        assert!(difference
            .message
            .contains("reference: (no line)\nother: opened"));
        answers.truncate(4_999);
        let difference = compare_with(&calls, &answers).err().unwrap();
        assert!(difference.message.ends_with("other: (no line)"));
    }

    #[test]
    fn the_prefix_starts_at_its_setup() {
        let calls = b"setup 1 -\nreport\n# comment\nsetup 0 -\nreport\n\nabandon 1\nreport\n";
        let report = "report last=0 pending=0 keys=-";
        let list = "refused 18 at 0";
        let answers = [list, report, list, report, "abandoned", report].map(str::to_string);
        let difference = compare_with(calls, &answers).err().unwrap();
        let lines: Vec<&[u8]> = vec![b"setup 0 -", b"report", b"", b"abandon 1"];
        assert_eq!(difference.lines, lines);
        let expected = "reference: refused 11\nother: abandoned";
        assert!(difference.message.ends_with(expected));
    }

    #[test]
    fn the_prefix_starts_with_its_engine() {
        let calls = b"engine plain\nsetup 1 -\nengine fast\nengine plain\nsetup 0 -\nabandon 1\n";
        let list = "refused 18 at 0";
        let (plain, fast) = ("engine plain", "engine fast");
        let answers = [plain, list, fast, plain, list, "abandoned"].map(str::to_string);
        let difference = compare_with(calls, &answers).err().unwrap();
        let lines: Vec<&[u8]> = vec![b"engine plain", b"setup 0 -", b"abandon 1"];
        assert_eq!(difference.lines, lines);
        let difference = compare_with(calls, &[plain, list, plain].map(str::to_string));
        let difference = difference.err().unwrap();
        let lines: Vec<&[u8]> = vec![b"engine plain", b"setup 1 -", b"engine fast"];
        assert_eq!(difference.lines, lines);
        let expected = "reference: engine fast\nother: engine plain";
        assert!(difference.message.ends_with(expected));
    }

    #[test]
    fn lines_before_the_first_setup() {
        let lists = |calls: &[u8]| {
            let mut answers = Vec::new();
            replay(calls, &mut answers).unwrap();
            let summary = compare(calls, answers.as_slice(), "other").unwrap();
            summary.unwrap().lists
        };
        assert_eq!(lists(b"engine plain\n# comment\nsetup 1 -\nreport\n"), 1);
        assert_eq!(lists(b"engine plain\nreport\nsetup 1 -\nreport\n"), 2);
    }

    #[test]
    fn long_words_are_cut() {
        let long = "ab".repeat(101);
        let shown = cut(format!("admit {long} 29").as_bytes());
        assert!(shown.contains("...(202 characters)..."));
        assert_eq!(cut(b"admit 00 29"), "admit 00 29");
    }
}

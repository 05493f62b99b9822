//! How often each answer was reached, call by call.

use crate::algorithms::{kems, npk};
use crate::call::{Call, Line};
use crate::key_list::{
    inside_at, kem_of, number_at, pairs_length_is_good, read_list, KeyList, KEM_PLACE, LENGTH_SIZE,
};
use crate::list_writer::{write_list, Fields};
use crate::request_cases;
use crate::skipped::{skipped, Skipped};

/// Each call and the answers that 01 and 02 make possible for it. An abandon is never refused with 12,
/// since it is allowed from asked and from opened.
pub const POSSIBLE: [(&str, &[&str]); 16] = [
    ("setup", &["ready", "18", "19", "20", "21", "22", "17"]),
    (
        "admit",
        &[
            "admitted", "1", "2", "3", "4", "5", "6", "7", "8", "9", "14",
        ],
    ),
    ("open", &["opened", "failed", "11", "12", "13"]),
    ("respond", &["sealed", "11", "12", "13", "14"]),
    ("abandon", &["abandoned", "11"]),
    ("retire", &["retired", "4", "7"]),
    ("report", &["report"]),
    ("check", &["good", "18", "19", "20", "21", "22"]),
    ("key", &["key", "18", "19", "20", "21", "22", "4"]),
    (
        "choose",
        &["chosen", "18", "19", "20", "21", "22", "13", "16"],
    ),
    ("head", &["head", "3", "6", "13", "14"]),
    ("split", &["split", "6", "1", "2"]),
    ("exporter", &["exporter", "6", "14"]),
    (
        "write",
        &["written", "18", "22", "3", "19", "20", "21", "14"],
    ),
    ("request", &["request", "23"]),
    ("bad line", &["bad"]),
];

/// The line that is no call of the gateway, and its answers.
pub const ENGINE: (&str, &[&str]) = ("engine", &["plain", "fast"]);

/// What was skipped of the call's list; of a bad one, in front of what is bad.
const NONE: &str = "none skipped";
const SOME: &str = "some skipped";
/// For the calls to the gateway, the list is that of its setup.
const ALL: &str = "all skipped";
/// The call names the key id, or the KEM, of a skipped configuration.
const ID: &str = "id of a skipped one";
const KEM: &str = "KEM of a skipped one";
/// What is bad is the list's first configuration, or a later one.
const FIRST: &str = "first configuration";
const LATER: &str = "later configuration";
/// How it runs past the list's end.
const EMPTY: &str = "no configuration";
const ONE_BYTE: &str = "one length byte";
const CUT: &str = "unknown KEM, cut";
const KNOWN_CUT: &str = "known KEM, cut";
/// How its length and its contents disagree; to be written, how many key bytes are given.
const SHORT: &str = "below 3 bytes";
const NO_PAIRS: &str = "no pair length";
const LESS: &str = "less than announced";
const MORE: &str = "more than announced";
/// What is bad with its pair bytes, and whether its length and its contents disagree too.
const ZERO: &str = "no pair bytes";
const UNEVEN: &str = "not a multiple of 4";
const ABOVE: &str = "above 64";
const AGREES: &str = "length agrees";
const DISAGREES: &str = "length disagrees too";
/// Its key id is there twice.
const TWIN: &str = "key id twice";
/// It is a seventeenth and would be skipped; to be written, it has an unknown KEM.
const UNKNOWN: &str = "unknown KEM";
/// To be written, its public key has no KEM's length, or its pair bytes are bad.
const BAD_KEY: &str = "bad key length";
const BAD_PAIRS: &str = "bad pair bytes";

const WAYS_18: &[&str] = &[NONE, SOME, FIRST, LATER, EMPTY, ONE_BYTE, CUT, KNOWN_CUT];
const WAYS_19: &[&str] = &[NONE, SOME, FIRST, LATER, SHORT, NO_PAIRS, LESS, MORE, TWIN];
const WAYS_20: &[&str] = &[
    NONE, SOME, FIRST, LATER, ZERO, UNEVEN, ABOVE, AGREES, DISAGREES, TWIN,
];
const WAYS_21: &[&str] = &[NONE, SOME];
const WAYS_22: &[&str] = &[NONE, SOME, UNKNOWN, TWIN];

/// Answers that are counted once more, case by case: what 02, A1 and A2 add.
pub const BY_CASE: [(&str, &str, &[&str]); 38] = [
    ("setup", "ready", &[NONE, SOME, ALL]),
    ("setup", "18", &[LATER]),
    ("setup", "19", &[LATER]),
    ("setup", "20", &[LATER]),
    ("setup", "17", &[NONE, SOME, ALL]),
    ("admit", "1", &[ALL]),
    ("admit", "3", &[ALL, KEM]),
    ("admit", "4", &[ALL, ID]),
    ("open", "11", &[ALL]),
    ("respond", "11", &[ALL]),
    ("abandon", "11", &[ALL]),
    ("retire", "4", &[ALL, ID]),
    ("report", "report", &[ALL]),
    ("check", "good", &[NONE, SOME, ALL]),
    ("check", "18", WAYS_18),
    ("check", "19", WAYS_19),
    ("check", "20", WAYS_20),
    ("check", "21", WAYS_21),
    ("check", "22", WAYS_22),
    ("key", "key", &[NONE, SOME]),
    ("key", "18", WAYS_18),
    ("key", "19", WAYS_19),
    ("key", "20", WAYS_20),
    ("key", "21", WAYS_21),
    ("key", "22", WAYS_22),
    ("key", "4", &[NONE, SOME, ALL, ID]),
    ("choose", "chosen", &[NONE, SOME]),
    ("choose", "18", WAYS_18),
    ("choose", "19", WAYS_19),
    ("choose", "20", WAYS_20),
    ("choose", "21", WAYS_21),
    ("choose", "22", WAYS_22),
    ("choose", "13", &[NONE, SOME, ALL]),
    ("choose", "16", &[NONE, SOME, ALL]),
    ("write", "3", &[FIRST, LATER, BAD_KEY, BAD_PAIRS, TWIN]),
    ("write", "19", &[FIRST, LATER, LESS, MORE, BAD_PAIRS, TWIN]),
    ("write", "20", &[FIRST, LATER, ZERO, UNEVEN, ABOVE, TWIN]),
    ("write", "22", &[UNKNOWN, BAD_KEY, BAD_PAIRS, TWIN]),
];

/// The requests inside, case by case: what 02, A3 adds.
const REQUEST_CASES: [(&str, &[&[&str]]); 2] =
    [("request", request_cases::GOOD), ("23", request_cases::BAD)];

struct Row {
    call: &'static str,
    answer: String,
    /// Empty where all such answers are counted.
    case: &'static str,
    times: u64,
}

pub struct Table {
    rows: Vec<Row>,
    last_setup: LastSetup,
}

/// What was skipped of the last setup's list; nothing where it was refused.
#[derive(Default)]
struct LastSetup {
    skipped: Vec<Skipped>,
    all_skipped: bool,
}

impl Table {
    /// Every possible answer, none reached.
    pub fn new() -> Table {
        let mut table = Table {
            rows: Vec::new(),
            last_setup: LastSetup::default(),
        };
        for (call, answers) in POSSIBLE.into_iter().chain([ENGINE]) {
            for answer in answers {
                table.count(call, answer, 0);
            }
        }
        for (call, answer, cases) in BY_CASE {
            table.add_cases(call, answer, cases);
        }
        for (answer, groups) in REQUEST_CASES {
            for cases in groups {
                table.add_cases("request", answer, cases);
            }
        }
        table
    }

    fn add_cases(&mut self, call: &'static str, answer: &str, cases: &[&'static str]) {
        self.rows.extend(cases.iter().map(|case| Row {
            call,
            answer: answer.to_string(),
            case,
            times: 0,
        }));
    }

    fn count(&mut self, call: &'static str, answer: &str, times: u64) {
        let mut rows = self.rows.iter_mut();
        match rows.find(|row| row.call == call && row.answer == answer && row.case.is_empty()) {
            Some(row) => row.times += times,
            None => self.rows.push(Row {
                call,
                answer: answer.to_string(),
                case: "",
                times,
            }),
        }
    }

    /// Counts the answer to a line.
    pub fn count_answer(&mut self, line: &Line, answer: &str) {
        let answer = answer_name(answer);
        match line {
            Line::Call(call) => {
                self.count(name(call), answer, 1);
                self.count_cases(call, answer);
            }
            Line::Engine(engine) => self.count(ENGINE.0, engine.name(), 1),
            _ => self.count("bad line", answer, 1),
        }
    }

    fn count_cases(&mut self, call: &Call, answer: &str) {
        if let Call::Setup { list, .. } = call {
            self.last_setup = match answer {
                "ready" => LastSetup::of(list),
                _ => LastSetup::default(),
            };
        }
        let cases = self.last_setup.cases_of(call);
        if cases.is_empty() {
            return;
        }
        for row in &mut self.rows {
            let is_answer = row.call == name(call) && row.answer == answer;
            if is_answer && cases.contains(&row.case) {
                row.times += 1;
            }
        }
    }

    /// The rows that were reached fewer times than that.
    pub fn below(&self, least: u64) -> Vec<String> {
        let few = self.rows.iter().filter(|row| row.times < least);
        few.map(text).collect()
    }

    pub fn text(&self) -> String {
        let rows: Vec<String> = self.rows.iter().map(text).collect();
        rows.join("\n")
    }
}

impl LastSetup {
    fn of(list: &[u8]) -> LastSetup {
        LastSetup {
            skipped: skipped(list),
            all_skipped: list_cases(list).contains(&ALL),
        }
    }

    /// The cases that hold for a call after the setup.
    fn cases_of(&self, call: &Call) -> Vec<&'static str> {
        let mut cases = Vec::new();
        match call {
            Call::Setup { list, .. } | Call::Check { list } | Call::Choose { list, .. } => {
                return list_cases(list);
            }
            Call::Key { list, key_id } => {
                cases = list_cases(list);
                note(&mut cases, ID, has_id(&skipped(list), *key_id));
                return cases;
            }
            Call::Write { configurations, .. } => return given_cases(configurations),
            Call::Request { message } => return request_cases::cases_of(message).cases,
            Call::Admit { request, .. } => {
                // The KEM stands in a request where it stands in a configuration.
                let (id, kem) = (request.first(), kem_of(request));
                let has_kem = self.skipped.iter().any(|one| Some(one.kem) == kem);
                note(&mut cases, KEM, has_kem);
                let has_id = id.map_or(false, |id| has_id(&self.skipped, *id));
                note(&mut cases, ID, has_id);
            }
            Call::Retire { key_id } => note(&mut cases, ID, has_id(&self.skipped, *key_id)),
            _ => {}
        }
        note(&mut cases, ALL, self.all_skipped);
        cases
    }
}

fn note(cases: &mut Vec<&'static str>, case: &'static str, holds: bool) {
    if holds {
        cases.push(case);
    }
}

fn has_id(all: &[Skipped], id: u8) -> bool {
    all.iter().any(|one| one.id == id)
}

fn is_unknown(kem: u16) -> bool {
    npk(kem).is_none()
}

/// The cases that hold for a key list.
fn list_cases(list: &[u8]) -> Vec<&'static str> {
    let start = first_bad(list);
    let front = read_list(&list[..start]).unwrap_or_default();
    let is_good = start == list.len() && !list.is_empty();
    let none_read = front.configurations.is_empty();
    let mut cases = vec![match front.skipped {
        0 => NONE,
        _ if is_good && none_read => ALL,
        _ => SOME,
    }];
    if is_good {
        return cases;
    }
    cases.push(if start == 0 { FIRST } else { LATER });
    match inside_at(list, start) {
        None => cases.push(cut_case(list, start)),
        Some(inside) => cases.extend(inside_cases(inside, &front)),
    }
    cases
}

/// The case of a configuration that does not lie whole in the list.
fn cut_case(list: &[u8], start: usize) -> &'static str {
    match (list.len() - start, number_at(list, start + KEM_PLACE)) {
        (0, _) => EMPTY,
        (1, _) => ONE_BYTE,
        (_, Some(kem)) if is_unknown(kem) => CUT,
        _ => KNOWN_CUT,
    }
}

/// The cases of a bad configuration that does.
fn inside_cases(inside: &[u8], front: &KeyList) -> Vec<&'static str> {
    let npk = match kem_of(inside).map(npk) {
        None => return vec![SHORT],
        Some(None) => return vec![UNKNOWN],
        Some(Some(npk)) => npk,
    };
    let mut cases = Vec::new();
    note(&mut cases, TWIN, front.with_id(inside[0]).is_some());
    let announced = match number_at(inside, 3 + npk) {
        Some(announced) => usize::from(announced),
        None => {
            cases.push(NO_PAIRS);
            return cases;
        }
    };
    let there = inside.len() - 5 - npk;
    cases.extend(length_cases(announced, there));
    cases.extend(pair_cases(announced));
    let is_bad = !pairs_length_is_good(announced);
    note(&mut cases, AGREES, is_bad && there == announced);
    note(&mut cases, DISAGREES, is_bad && there != announced);
    cases
}

fn length_cases(announced: usize, there: usize) -> Vec<&'static str> {
    let mut cases = Vec::new();
    note(&mut cases, LESS, there < announced);
    note(&mut cases, MORE, there > announced);
    cases
}

fn pair_cases(length: usize) -> Vec<&'static str> {
    let mut cases = Vec::new();
    note(&mut cases, ZERO, length == 0);
    note(&mut cases, UNEVEN, length % 4 != 0);
    note(&mut cases, ABOVE, length % 4 == 0 && length > 64);
    cases
}

/// The cases of the first bad configuration of those to be written.
fn given_cases(configurations: &[Fields]) -> Vec<&'static str> {
    let mut room = vec![0; 10_000];
    let is_bad = |place: &usize| write_list(&configurations[..=*place], &mut room).is_err();
    let place = match (0..configurations.len()).find(is_bad) {
        Some(place) => place,
        None => return Vec::new(),
    };
    let (before, bad) = (&configurations[..place], &configurations[place]);
    let mut cases = vec![if place == 0 { FIRST } else { LATER }];
    let is_twin = before.iter().any(|other| other.id == bad.id);
    note(&mut cases, TWIN, is_twin);
    note(&mut cases, UNKNOWN, is_unknown(bad.kem));
    let key = bad.public_key.len();
    let is_good = kems().any(|kem| npk(kem) == Some(key));
    note(&mut cases, BAD_KEY, !is_good);
    if let Some(npk) = npk(bad.kem) {
        cases.extend(length_cases(npk, key));
    }
    let pairs_length = 2 * bad.pairs.len();
    note(&mut cases, BAD_PAIRS, !pairs_length_is_good(pairs_length));
    cases.extend(pair_cases(pairs_length));
    cases
}

/// Where the first bad configuration starts; a good list's end. What stands in front of it is a
/// good list, or nothing.
pub fn first_bad(list: &[u8]) -> usize {
    let mut start = 0;
    while let Some(inside) = inside_at(list, start) {
        let end = start + LENGTH_SIZE + inside.len();
        if read_list(&list[..end]).is_err() {
            break;
        }
        start = end;
    }
    start
}

fn text(row: &Row) -> String {
    let answer = if row.answer.parse::<u8>().is_ok() {
        format!("refused {}", row.answer)
    } else {
        row.answer.clone()
    };
    let Row {
        call, case, times, ..
    } = row;
    format!("{call:<9} {answer:<10} {case:<31} {times:>8}")
}

/// The refusal's number, else the answer's first word.
fn answer_name(answer: &str) -> &str {
    let rest = answer.strip_prefix("refused ").unwrap_or(answer);
    rest.split(' ').next().unwrap_or("")
}

/// The call's name, as in [`POSSIBLE`].
pub fn name(call: &Call) -> &'static str {
    match call {
        Call::Setup { .. } => "setup",
        Call::Admit { .. } => "admit",
        Call::Open { .. } => "open",
        Call::Respond { .. } => "respond",
        Call::Abandon { .. } => "abandon",
        Call::Retire { .. } => "retire",
        Call::Report => "report",
        Call::Check { .. } => "check",
        Call::Key { .. } => "key",
        Call::Choose { .. } => "choose",
        Call::Head { .. } => "head",
        Call::Split { .. } => "split",
        Call::Exporter { .. } => "exporter",
        Call::Write { .. } => "write",
        Call::Request { .. } => "request",
    }
}

#[cfg(test)]
mod tests {
    use super::*;
    use crate::answer::hex;
    use crate::key_list::tests::{edge_list, unknown};
    use crate::replay::Replay;

    /// The rows with a case that these calls reach, each once.
    fn cases(calls: &[String]) -> Vec<(&'static str, String, &'static str)> {
        let (mut table, mut replay) = (Table::new(), Replay::new());
        for call in calls {
            let line = crate::call::read_line(call.as_bytes());
            let answer = replay.answer(&line).unwrap();
            table.count_answer(&line, &answer);
        }
        let reached = table.rows.into_iter().filter(|row| row.times > 0);
        let with_case = reached.filter(|row| !row.case.is_empty());
        with_case
            .map(|row| (row.call, row.answer, row.case))
            .collect()
    }

    fn case(
        call: &'static str,
        answer: &str,
        case: &'static str,
    ) -> (&'static str, String, &'static str) {
        (call, answer.to_string(), case)
    }

    #[test]
    fn cases_of_lists() {
        let (good, skipped) = (edge_list(), unknown(9, 0x22, 3));
        let check = |list: Vec<u8>| cases(&[format!("check {}", hex(&list))]);
        let good_case = |name| [case("check", "good", name)];
        assert_eq!(check(good.clone()), good_case(NONE));
        assert_eq!(check([&good[..], &skipped].concat()), good_case(SOME));
        assert_eq!(check([&skipped[..], &skipped].concat()), good_case(ALL));
    }

    /// The cases of a bad list, which are counted with its number.
    #[test]
    fn cases_of_bad_lists() {
        let (good, skipped) = (edge_list(), unknown(9, 0x22, 3));
        let bad = |list: &[u8], number: &str, names: &[&'static str]| {
            let expected: Vec<_> = names.iter().map(|name| case("key", number, name)).collect();
            assert_eq!(cases(&[format!("key {} 1", hex(list))]), expected);
        };
        bad(&[], "18", &[NONE, FIRST, EMPTY]);
        bad(&[0], "18", &[NONE, FIRST, ONE_BYTE]);
        bad(&unknown(9, 0x22, 4)[..5], "18", &[NONE, FIRST, CUT]);
        bad(&good[..42], "18", &[NONE, FIRST, KNOWN_CUT]);
        let list = [&skipped[..], &good[..42]].concat();
        bad(&list, "18", &[SOME, LATER, KNOWN_CUT]);
        let list = [&skipped[..], &[0, 2, 9, 9]].concat();
        bad(&list, "19", &[SOME, LATER, SHORT]);
        bad(&[0, 3, 7, 0, 0x20], "19", &[NONE, FIRST, NO_PAIRS]);
        let with = |length: u8, pairs_length: u8, size: usize| {
            let mut list = good.clone();
            list[1] = length;
            list[38] = pairs_length;
            list.resize(size, 0);
            list
        };
        bad(&with(40, 4, 42), "19", &[NONE, FIRST, LESS]);
        bad(&with(42, 4, 44), "19", &[NONE, FIRST, MORE]);
        bad(&with(37, 0, 39), "20", &[NONE, FIRST, ZERO, AGREES]);
        bad(&with(41, 5, 43), "20", &[NONE, FIRST, UNEVEN, DISAGREES]);
        bad(&with(42, 5, 44), "20", &[NONE, FIRST, UNEVEN, AGREES]);
        let list = [&good[..], &with(41, 68, 43)].concat();
        bad(&list, "20", &[NONE, LATER, ABOVE, DISAGREES, TWIN]);
        let list = [&good[..], &with(41, 8, 43)].concat();
        bad(&list, "19", &[NONE, LATER, LESS, TWIN]);
        bad(&[&good[..], &good].concat(), "21", &[NONE]);
        bad(&[&good[..], &skipped, &good].concat(), "21", &[SOME]);
        bad(&skipped.repeat(17), "22", &[SOME, UNKNOWN]);
        bad(&[skipped.repeat(16), good].concat(), "22", &[SOME]);
    }

    #[test]
    fn cases_of_write() {
        let (key, good) = (
            "11".repeat(32),
            format!("1 0020 {} 00010003", "11".repeat(32)),
        );
        let bad = |given: &str, number: &str, names: &[&'static str]| {
            let expected: Vec<_> = names
                .iter()
                .map(|name| case("write", number, name))
                .collect();
            assert_eq!(cases(&[format!("write 9 {given}")]), expected);
        };
        bad(&format!("1 0022 {key} 00010003"), "3", &[FIRST]);
        bad(
            &format!("{good} 1 0022 - -"),
            "3",
            &[LATER, BAD_KEY, BAD_PAIRS, TWIN],
        );
        bad(
            &format!("1 0020 {key}11 0001"),
            "19",
            &[FIRST, MORE, BAD_PAIRS],
        );
        bad(
            &format!("{good} 1 0020 11 0001"),
            "19",
            &[LATER, LESS, BAD_PAIRS, TWIN],
        );
        bad(&format!("1 0020 {key} -"), "20", &[FIRST, ZERO]);
        bad(
            &format!("1 0020 {key} {}", "0001".repeat(34)),
            "20",
            &[FIRST, ABOVE],
        );
        bad(
            &format!("{good} 1 0020 {key} 0001"),
            "20",
            &[LATER, UNEVEN, TWIN],
        );
        bad(&format!("{good} {good}"), "21", &[]);
        bad(&good, "14", &[]);
        let sixteen: Vec<String> = (0..16)
            .map(|id| format!("{id} 0020 {key} 00010003"))
            .collect();
        let sixteen = sixteen.join(" ");
        bad(
            &format!("{sixteen} 1 0022 - -"),
            "22",
            &[UNKNOWN, BAD_KEY, BAD_PAIRS, TWIN],
        );
        bad(&format!("{sixteen} 99 0020 {key} 00010003"), "22", &[]);
    }

    #[test]
    fn cases_of_ids_and_kems() {
        let list = [edge_list(), unknown(9, 0x22, 3)].concat();
        let admit = |head: &str| format!("admit {head}00010003{} 29", "00".repeat(48));
        let calls = |cap: u64| {
            [
                format!("setup {cap} {}", hex(&list)),
                admit("090020"),
                admit("080022"),
                "retire 9".to_string(),
                format!("key {} 9", hex(&list)),
            ]
        };
        let key = [case("key", "4", SOME), case("key", "4", ID)];
        let mut expected = vec![
            case("setup", "ready", SOME),
            case("admit", "3", KEM),
            case("admit", "4", ID),
            case("retire", "4", ID),
        ];
        expected.extend(key.clone());
        assert_eq!(cases(&calls(1)), expected);
        // After a refused setup the gateway has nothing to do with the list.
        let mut expected = vec![case("setup", "17", SOME)];
        expected.extend(key);
        assert_eq!(cases(&calls(0)), expected);
    }

    #[test]
    fn calls_to_a_gateway_of_skipped_configurations() {
        let calls = [
            format!("setup 1 {}", hex(&unknown(9, 0x22, 3))),
            "admit - 29".to_string(),
            "open 1 ok 0".to_string(),
            "report".to_string(),
        ];
        let expected = [
            case("setup", "ready", ALL),
            case("admit", "1", ALL),
            case("open", "11", ALL),
            case("report", "report", ALL),
        ];
        assert_eq!(cases(&calls), expected);
        let mut refused = calls;
        refused[0] = refused[0].replace("setup 1", "setup 0");
        assert_eq!(cases(&refused), [case("setup", "17", ALL)]);
    }

    #[test]
    fn cases_of_requests_inside() {
        let reached = |message: &str| cases(&[format!("request {message}")]);
        assert_eq!(reached("-"), [case("request", "23", "empty message")]);
        let padding = case("request", "23", "padding's first byte");
        assert_eq!(reached("000000000000000001"), [padding]);
        let good = reached("000000000000000000");
        assert!(good.contains(&case("request", "request", "whole, padding")));
        assert!(good.contains(&case("request", "request", "framing of 1")));
    }

    #[test]
    fn every_case_belongs_to_a_possible_answer() {
        for (call, answer, _) in BY_CASE {
            let mut possible = POSSIBLE.iter();
            assert!(possible.any(|row| row.0 == call && row.1.contains(&answer)));
        }
    }
}

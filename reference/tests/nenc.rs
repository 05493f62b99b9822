//! The program's option `--nenc`: 02, A4, "a test build with only one row's Nenc changed answers
//! the new size".

use std::fs;
use std::io::Write;
use std::path::Path;
use std::process::{Command, Output, Stdio};
use std::sync::atomic::{AtomicUsize, Ordering};

/// Each KEM, and Nenc = Npk: 01, "Algorithm sizes".
const KEMS: [(u16, usize); 5] = [
    (0x0010, 65),
    (0x0011, 97),
    (0x0012, 133),
    (0x0020, 32),
    (0x0021, 56),
];

/// How often `compare` was run.
static COMPARED: AtomicUsize = AtomicUsize::new(0);

fn run(words: &[&str], input: &[u8]) -> Output {
    let mut program = Command::new(env!("CARGO_BIN_EXE_reference"))
        .args(words)
        .current_dir(env!("CARGO_TARGET_TMPDIR"))
        .stdin(Stdio::piped())
        .stdout(Stdio::piped())
        .stderr(Stdio::piped())
        .spawn()
        .unwrap();
    let mut stdin = program.stdin.take().unwrap();
    let input = input.to_vec();
    // A program that ends with a message reads nothing.
    let writer = std::thread::spawn(move || stdin.write_all(&input).ok());
    let output = program.wait_with_output().unwrap();
    writer.join().unwrap();
    output
}

/// What a successful run writes, with `--nenc` where a change is given.
fn output(change: &str, words: &[&str], input: &[u8]) -> Vec<u8> {
    let option = ["--nenc", change];
    let option = if change.is_empty() { &[] } else { &option[..] };
    let output = run(&[option, words].concat(), input);
    assert!(output.status.success(), "{change} {words:?}");
    output.stdout
}

fn lines(text: &[u8]) -> Vec<String> {
    let text = String::from_utf8_lossy(text);
    text.lines().map(str::to_string).collect()
}

fn answers(change: &str, calls: &[String]) -> Vec<String> {
    let calls = calls.join("\n");
    lines(&output(change, &["replay"], calls.as_bytes()))
}

fn bytes(count: usize) -> String {
    "11".repeat(count)
}

/// One key of that KEM, id 7, pair (1, 3).
fn key_list(kem: u16, npk: usize) -> String {
    format!("{:04x}07{kem:04x}{}000400010003", 9 + npk, bytes(npk))
}

fn admit(kem: u16, length: usize) -> String {
    format!("admit 07{kem:04x}00010003{} 29", bytes(length - 7))
}

fn respond(enc: usize) -> String {
    format!("respond 1 {} {} 0 255", bytes(enc), bytes(32))
}

fn head(kem: u16, enc: usize) -> String {
    format!("head 7 {kem:04x} 0001 0003 {} 255 29", bytes(enc))
}

fn start(text: &str) -> String {
    text.to_string()
}

/// Calls that go by Nenc, at its bounds, each with its answer's start.
fn by_nenc(kem: u16, nenc: usize, npk: usize) -> Vec<(String, String)> {
    let (end, shortest, nonce) = (7 + nenc, 7 + nenc + 16, bytes(32));
    let setup = format!("setup 1 {}", key_list(kem, npk));
    vec![
        (setup, start("ready keys=1")),
        (admit(kem, shortest - 1), start("refused 1 ")),
        (
            admit(kem, shortest),
            format!("admitted ticket=1 key=7 kdf=0001 aead=0003 enc=7..{end} ciphertext={end}..{shortest} "),
        ),
        (start("open 1 ok 1"), start("refused 13")),
        (start("open 1 ok 0"), start("opened")),
        (respond(nenc - 1), start("refused 13 ")),
        (respond(nenc + 1), start("refused 13 ")),
        (
            respond(nenc),
            format!(
                "sealed status=200 length=48 buffer={}{nonce}a5",
                bytes(nenc)
            ),
        ),
        (head(kem, nenc - 1), start("refused 13 ")),
        (head(kem, nenc + 1), start("refused 13 ")),
        (
            head(kem, nenc),
            format!(
                "head length={end} buffer=07{kem:04x}00010003{}a5",
                bytes(nenc)
            ),
        ),
    ]
}

/// Calls that go by Npk, likewise.
fn by_npk(kem: u16, npk: usize) -> Vec<(String, String)> {
    let (list, key) = (key_list(kem, npk), bytes(npk));
    let write = |key: String| format!("write 255 7 {kem:04x} {key} 00010003");
    vec![
        (
            format!("check {list}"),
            start("good configurations=1 skipped=0"),
        ),
        (format!("key {list} 7"), format!("key {key}")),
        (
            format!("choose {list} {kem:04x} 00010003"),
            format!(
                "chosen key=7 kem={kem:04x} kdf=0001 aead=0003 public=5..{}",
                5 + npk
            ),
        ),
        (
            write(key),
            format!("written length={} buffer={list}a5", 11 + npk),
        ),
        (write(bytes(npk - 1)), start("refused 19 at 0 ")),
        (
            format!("check {}", key_list(kem, npk + 1)),
            format!("refused 20 at {}", 5 + npk),
        ),
    ]
}

/// Every KEM without a change, then with each KEM changed, by one and by many.
#[test]
fn only_the_changed_row_answers_the_new_size() {
    let mut changes = vec![(String::new(), 0, 0)];
    for (kem, nenc) in KEMS {
        let sizes = [2, nenc - 1, nenc + 1, 200];
        changes.extend(sizes.map(|size| (format!("{kem:04x}={size}"), kem, size)));
    }
    for (change, changed, size) in changes {
        let mut all = Vec::new();
        for (kem, npk) in KEMS {
            let nenc = if kem == changed { size } else { npk };
            all.extend(by_nenc(kem, nenc, npk));
            all.extend(by_npk(kem, npk));
        }
        for kem in [0, 0x000f, 0x0013, 0x001f, 0x0022, 0xffff] {
            for call in [admit(kem, 7), admit(kem, 300), head(kem, 32)] {
                all.push((call, "refused 3 ".to_string()));
            }
        }
        let (calls, starts): (Vec<_>, Vec<_>) = all.into_iter().unzip();
        let answers = answers(&change, &calls);
        assert_eq!(answers.len(), starts.len());
        for ((call, answer), start) in calls.iter().zip(answers).zip(starts) {
            assert!(answer.starts_with(&start), "{change}\n{call}\n{answer}");
        }
    }
}

/// What `compare` answers by a change.
fn compared(change: &str, calls: &[u8], answers: &[u8]) -> Output {
    let directory = Path::new(env!("CARGO_TARGET_TMPDIR"));
    // Tests run side by side.
    let number = COMPARED.fetch_add(1, Ordering::Relaxed);
    let files = [format!("{number}.calls"), format!("{number}.answers")];
    for (file, text) in files.iter().zip([calls, answers]) {
        fs::write(directory.join(file), text).unwrap();
    }
    let output = run(&["--nenc", change, "compare", &files[0], &files[1]], b"");
    for file in files {
        fs::remove_file(directory.join(file)).unwrap();
    }
    output
}

/// Calls from a seed with their answers, and whether `compare` finds these equal and demand 3 to
/// hold. All goes by the change but the answers, which go by another one.
fn generated(change: &str, other: &str, calls: &str) -> (Vec<(String, String)>, bool) {
    let calls = output(change, &["generate", "1", calls], b"");
    let answers = output(other, &["replay"], &calls);
    let is_equal = compared(change, &calls, &answers).status.success();
    let mut calls = lines(&calls);
    // The others are passed over.
    calls.retain(|line| !line.is_empty() && !line.starts_with('#'));
    let both = calls.into_iter().zip(lines(&answers)).collect();
    (both, is_equal)
}

/// They are answered, and counted, as without the change.
#[test]
fn key_lists_do_not_go_by_the_change() {
    let mut calls = lines(&output("", &["generate", "2", "20000"], b""));
    let names = ["setup ", "check ", "key ", "choose ", "write "];
    calls.retain(|line| names.iter().any(|name| line.starts_with(name)));
    let calls = calls.join("\n").into_bytes();
    let answers = output("", &["replay"], &calls);
    let expected = compared("0020=32", &calls, &answers).stdout;
    for (kem, nenc) in KEMS {
        for change in [format!("{kem:04x}={}", nenc - 1), format!("{kem:04x}=200")] {
            let found = compared(&change, &calls, &answers).stdout;
            assert!(found == expected, "{change}");
        }
    }
}

/// The length of the request, where the call admits one that names the KEM.
fn request_length(call: &str, kem: &str) -> Option<usize> {
    let request = call.strip_prefix("admit ")?.split(' ').next()?;
    let is_named = request.get(2..6) == Some(kem);
    is_named.then_some(request.len() / 2)
}

#[test]
fn generate_and_compare_go_by_the_change() {
    for (kem, size) in [("0020", 31), ("0020", 34), ("0010", 67)] {
        let change = &format!("{kem}={size}");
        assert!(!generated(change, "", "6000").1, "{change}");
        let (both, is_equal) = generated(change, change, "6000");
        assert!(is_equal, "{change}");
        let count = |is_meant: &dyn Fn(&str) -> bool, answer: &str| {
            let meant = both.iter().filter(|(call, _)| is_meant(call));
            meant.filter(|both| both.1.starts_with(answer)).count()
        };
        // Requests reach the new bound,
        let shortest = 7 + size + 16;
        let is_shortest = |call: &str| request_length(call, kem) == Some(shortest);
        assert!(count(&is_shortest, "admitted ") > 15, "{change}");
        let is_shorter = |call: &str| request_length(call, kem) == Some(shortest - 1);
        assert!(count(&is_shorter, "refused 1 ") > 5, "{change}");
        // and enc has the new length most of the time.
        let is_head = |call: &str| call.starts_with("head ") && call.contains(&format!(" {kem} "));
        let is_respond = |call: &str| call.starts_with("respond ");
        let heads = (count(&is_head, "head "), count(&is_head, "refused 13 "));
        assert!(heads.0 > heads.1 && heads.1 > 0, "{change} {heads:?}");
        let replies = (
            count(&is_respond, "sealed "),
            count(&is_respond, "refused 13 "),
        );
        assert!(
            replies.0 > replies.1 && replies.1 > 0,
            "{change} {replies:?}"
        );
    }
}

/// The smallest and the largest sizes: a line has no room for such an enc, and the longest request
/// may be too short.
#[test]
fn sizes_at_the_ends() {
    for change in ["0020=1", "0020=300", "0020=65513", "0020=65535"] {
        assert!(generated(change, change, "100").1, "{change}");
        output(change, &["day", "1", "50"], b"");
    }
    let calls = [
        format!("setup 9 {}", key_list(0x0020, 32)),
        admit(0x0020, 65_536),
        admit(0x0020, 65_535),
    ];
    let longest = answers("0020=65513", &calls);
    assert!(longest[1].contains(" enc=7..65520 ciphertext=65520..65536 "));
    assert!(longest[2].starts_with("refused 1 "));
    let too_long = answers("0020=65514", &calls);
    assert!(too_long[1].starts_with("refused 1 "));
}

#[test]
fn the_day_goes_by_the_change() {
    let refused = |calls: &[String], change: &str| {
        let answers = answers(change, calls);
        let bad = |answer: &&String| answer.starts_with("refused ") || answer.starts_with("bad ");
        answers.iter().filter(bad).count()
    };
    for change in ["", "0020=31", "0010=66", "0012=3"] {
        let calls = lines(&output(change, &["day", "1", "5000"], b""));
        assert!(refused(&calls, change) < 30, "{change}");
        assert!(refused(&calls, "0020=30") > 1_000, "{change}");
    }
}

#[test]
fn moved_goes_by_the_change() {
    let calls = [
        format!("setup 1 {}", key_list(0x0020, 32)),
        admit(0x0020, 54),
        "open 1 ok 0".to_string(),
        respond(31),
    ];
    let moved = |change: &str| lines(&output(change, &["moved"], calls.join("\n").as_bytes()));
    assert_eq!(moved("0020=31"), calls);
    // Refused calls are struck out.
    assert_eq!(moved(""), calls[..1]);
}

#[test]
fn wrong_words() {
    let wrong: [&[&str]; 12] = [
        &["--nenc"],
        &["--nenc", "0020=31"],
        &["--nenc", "0020", "replay"],
        &["--nenc", "20=31", "replay"],
        &["--nenc", "0022=31", "replay"],
        &["--nenc", "0020=0", "replay"],
        &["--nenc", "0020=65536", "replay"],
        &["--nenc", "0020=", "replay"],
        &["--nenc", "replay"],
        &["--nenc", "0020=31", "--nenc", "0010=64", "replay"],
        &["replay", "--nenc", "0020=31"],
        &["--nenc", "0020=31", "nothing"],
    ];
    for words in wrong {
        let output = run(words, b"report\n");
        assert_eq!(output.status.code(), Some(2), "{words:?}");
        assert!(output.stdout.is_empty(), "{words:?}");
        assert!(!output.stderr.is_empty(), "{words:?}");
    }
    let output = run(&["--nenc", "0022=31", "replay"], b"");
    let message = b"reference: --nenc: the table has no KEM 0022: 0022=31\n";
    assert_eq!(output.stderr, message);
}

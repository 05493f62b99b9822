//! The reference: an independent implementation of the gateway's bookkeeping (document 01),
//! which `sealwax` is held against.

use reference::algorithms::NencChange;
use reference::compare::{self, cut, Difference, Summary};
use reference::pending::Engine;
use reference::{day, generate, replay};
use std::fs::{self, File};
use std::io::{self, BufReader, BufWriter};
use std::process::exit;

const USAGE: &str = "usage: reference [--nenc KEM=SIZE] replay | moved | by ENGINE
       reference [--nenc KEM=SIZE] generate SEED CALLS
       reference [--nenc KEM=SIZE] day SEED CALLS
       reference [--nenc KEM=SIZE] compare CALLS-FILE ANSWERS-FILE [NAME] [--least N]
       --nenc: as if this KEM, four hex digits, had this Nenc, from 1 to 65535";

/// The uncut prefix that shows a difference.
const DIFFERENCE_FILE: &str = "difference.calls";

fn main() {
    let words: Vec<String> = std::env::args().skip(1).collect();
    let words: Vec<&str> = words.iter().map(String::as_str).collect();
    match run(&words) {
        Ok(status) => exit(status),
        Err(error) => {
            eprintln!("reference: {error}");
            exit(2);
        }
    }
}

/// Runs a subcommand, with the change of Nenc that stands before it, and gives the exit status.
fn run(words: &[&str]) -> io::Result<i32> {
    let subcommand = match words {
        ["--nenc", change, subcommand @ ..] => {
            let error = |text| invalid(format!("--nenc: {text}"));
            NencChange::read(change).map_err(error)?.make();
            subcommand
        }
        _ => words,
    };
    run_subcommand(subcommand)
}

fn run_subcommand(words: &[&str]) -> io::Result<i32> {
    let input = BufReader::with_capacity(1 << 16, io::stdin());
    let mut output = BufWriter::with_capacity(1 << 16, io::stdout());
    match words {
        ["replay"] => replay::replay(input, &mut output)?,
        ["generate", seed, calls] => {
            generate::generate(number(seed)?, number(calls)?, &mut output)?;
        }
        ["day", seed, calls] => day::day(number(seed)?, number(calls)?, &mut output)?,
        ["moved"] => replay::write_moved(input, &mut output)?,
        ["by", name] => match Engine::read(name.as_bytes()) {
            Some(engine) => replay::write_by(engine, input, &mut output)?,
            None => return usage(),
        },
        ["compare", rest @ ..] => return run_compare(rest),
        _ => return usage(),
    }
    Ok(0)
}

fn usage() -> io::Result<i32> {
    eprintln!("{USAGE}");
    Ok(2)
}

fn invalid(text: String) -> io::Error {
    io::Error::new(io::ErrorKind::InvalidInput, text)
}

fn number(word: &str) -> io::Result<u64> {
    let error = || invalid(format!("no number: {word}"));
    word.parse().map_err(|_| error())
}

/// Takes `--least N` out of the words, wherever it stands; 0 without it.
fn take_least<'a>(words: &[&'a str]) -> io::Result<(u64, Vec<&'a str>)> {
    let mut rest = words.to_vec();
    let place = match rest.iter().position(|word| *word == "--least") {
        Some(place) => place,
        None => return Ok((0, rest)),
    };
    rest.remove(place);
    let least = if place < rest.len() {
        rest.remove(place)
    } else {
        ""
    };
    Ok((number(least)?, rest))
}

fn run_compare(words: &[&str]) -> io::Result<i32> {
    let (least, files) = take_least(words)?;
    let (calls, answers, name) = match files.as_slice() {
        [calls, answers] => (calls, answers, "sealwax"),
        [calls, answers, name] => (calls, answers, *name),
        _ => return usage(),
    };
    let read = |path: &str| File::open(path).map(|file| BufReader::with_capacity(1 << 16, file));
    match compare::compare(read(calls)?, read(answers)?, name)? {
        Ok(summary) => Ok(print_summary(&summary, least)),
        Err(difference) => print_difference(&difference),
    }
}

fn print_summary(summary: &Summary, least: u64) -> i32 {
    println!("{}", summary.table.text());
    println!(
        "{} calls in {} lists: all answers equal; demand 3 holds on each list",
        summary.calls, summary.lists
    );
    let few = summary.table.below(least);
    if few.is_empty() {
        return 0;
    }
    println!("reached fewer than {least} times:\n{}", few.join("\n"));
    1
}

fn print_difference(difference: &Difference) -> io::Result<i32> {
    for line in &difference.lines {
        println!("{}", cut(line));
    }
    println!("{}", difference.message);
    let mut uncut = difference.lines.join(&b'\n');
    uncut.push(b'\n');
    fs::write(DIFFERENCE_FILE, uncut)?;
    println!("the calls above stand uncut in {DIFFERENCE_FILE}");
    Ok(1)
}

//! What the exported calls cost, beside the same work in plain Rust and beside an HPKE opening.
//! `./bench` at the repository's root builds and runs it.

mod bars;
mod calls;
mod lookups;
mod messages;
mod places;
#[path = "../../src/raw.rs"]
#[allow(dead_code)]
mod raw;
mod sides;
mod table;
mod timing;
mod tuned;

use bars::Bar;
use std::process::{exit, Command};
use table::Table;
use timing::improve;

/// How often an opening is timed, and then all calls.
const PASSES: usize = 20;

const USAGE: &str = "usage: bench OPENING-PROGRAM [--check]";

fn main() {
    let words: Vec<String> = std::env::args().skip(1).collect();
    let words: Vec<&str> = words.iter().map(String::as_str).collect();
    let status = match words.as_slice() {
        ["--pass"] => {
            print_pass();
            Ok(0)
        }
        [program] => run(program).map(|_| 0),
        [program, "--check"] => run(program).map(|all_met| i32::from(!all_met)),
        _ => Err(USAGE.to_string()),
    };
    exit(status.unwrap_or_else(|error| {
        eprintln!("{error}");
        2
    }));
}

/// Prints the table, the bars and the goals, and says whether the bars are met.
fn run(program: &str) -> Result<bool, String> {
    let table = measure(program)?;
    println!("{table}");
    let bars = bars::bars(&table);
    for bar in &bars {
        println!("bar: {bar}");
    }
    for goal in bars::goals(&table) {
        println!("goal: {goal}");
    }
    Ok(bars.iter().all(Bar::is_met))
}

/// Openings and calls take turns, so that a slow time of the machine slows both. Where memory lies
/// changes what a call takes, and it lies elsewhere in every process: each pass is one of its own.
fn measure(program: &str) -> Result<Table, String> {
    let bench = std::env::current_exe().map_err(|error| error.to_string())?;
    let bench = bench.to_string_lossy();
    let mut opening = f64::INFINITY;
    let mut best = Vec::new();
    for _ in 0..PASSES {
        opening = opening.min(number(&output(program, &[])?)?);
        let pass = output(&bench, &["--pass"])?;
        let figures: Vec<f64> = pass.lines().map(number).collect::<Result<_, _>>()?;
        best.resize(figures.len(), f64::INFINITY);
        improve(&mut best, &figures);
    }
    Ok(Table::new(&best, opening))
}

/// A pass: the figures that [`Table::new`] takes, each on a line.
fn print_pass() {
    let lines = calls::Line::all();
    let calls = lines.iter().flat_map(calls::Line::run);
    let lookups = lookups::KINDS.iter().flat_map(lookups::run);
    let others = places::run().into_iter().chain(messages::run());
    for figure in calls.chain(lookups).chain(others) {
        println!("{figure}");
    }
}

fn number(text: &str) -> Result<f64, String> {
    let text = text.trim();
    text.parse().map_err(|_| format!("no number: {text}"))
}

fn output(program: &str, words: &[&str]) -> Result<String, String> {
    let output = Command::new(program).args(words).output();
    let output = output.map_err(|error| format!("{program}: {error}"))?;
    if !output.status.success() {
        let text = String::from_utf8_lossy(&output.stderr);
        return Err(format!("{program}: {}\n{text}", output.status));
    }
    Ok(String::from_utf8_lossy(&output.stdout).to_string())
}

//! Call lists for both tests: the reference's generated ones, and the edges.

use reference::call::{read_line, Call, Line};
use reference::generate::generate;

/// The same calls in every run.
pub const SEEDS: [u64; 6] = [1, 2, 3, 4, 5, 6];
/// Calls of each seed.
pub const CALLS: u64 = 100_000;

/// Generated call lists, damaged inputs among them, each list with its setup first.
pub fn generated(seed: u64) -> Vec<Call> {
    let mut text = Vec::new();
    generate(seed, CALLS, &mut text).expect("a Vec takes every byte");
    read(&text)
}

/// The edges of 01 and the example of RFC 9458, Appendix A.
pub fn edges() -> Vec<Call> {
    read(include_bytes!("../../../../crates/sealwax/stdin"))
}

/// Lines that are no calls have no counterpart in a library.
fn read(text: &[u8]) -> Vec<Call> {
    let lines = text.split(|byte| *byte == b'\n');
    lines
        .filter_map(|line| match read_line(line) {
            Line::Call(call) => Some(call),
            Line::Bad | Line::PassedOver | Line::Engine(_) => None,
        })
        .collect()
}

/// Says which call it was, where a comparison fails.
pub struct OnFailure<'c> {
    pub seed: u64,
    pub place: usize,
    pub call: &'c Call,
}

impl Drop for OnFailure<'_> {
    fn drop(&mut self) {
        if std::thread::panicking() {
            let shown: String = format!("{:?}", self.call).chars().take(2_000).collect();
            eprintln!("at call {} of seed {}: {shown}", self.place, self.seed);
        }
    }
}

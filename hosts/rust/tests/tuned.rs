//! The bench's tuned gateway held against the reference: the same calls to both, every answer line
//! compared with its buffer, and the report after each call.

mod common;
#[path = "../examples/bench/tuned.rs"]
#[allow(dead_code)]
mod tuned;

use common::{edges, generated, OnFailure, SEEDS};
use reference::call::Call;
use reference::gateway::Gateway;
use reference::keeper::Keeper;
use reference::perform::perform;

fn compare(seed: u64, calls: &[Call]) {
    let mut expected = Gateway::without_keys();
    let mut given = tuned::Gateway::setup(0, &[]).0;
    for (place, call) in calls.iter().enumerate() {
        let _on_failure = OnFailure { seed, place, call };
        assert_eq!(perform(&mut given, call), perform(&mut expected, call));
        assert_eq!(given.report(), expected.report());
    }
}

#[test]
fn generated_calls() {
    for seed in SEEDS {
        compare(seed, &generated(seed));
    }
}

#[test]
fn the_edges() {
    compare(0, &edges());
}

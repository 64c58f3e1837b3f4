//! The random files catch every planted mistake, whatever the seed.

use second::compare::{compare_planted, Plan};

/// Two seeds, each with a bounded number of files.
#[test]
fn every_planted_mistake_is_caught() {
    for seed in [1, 2] {
        let cases = Some(5_000);
        assert!(compare_planted(&Plan { seed, cases }));
    }
}

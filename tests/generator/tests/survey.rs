//! The cases must lead to every outcome.

use generator::tally::Tally;
use generator::{case, case_out_of_range};
use reference::Answer;
use std::collections::BTreeSet;

#[test]
fn every_outcome_occurs() {
    let mut tally = Tally::default();
    for seed in 0..5_000 {
        tally.add(&case(seed).answer());
    }
    for (outcome, least) in [
        ("drawn", 400),
        ("well formed", 100),
        ("10", 300),
        ("20", 300),
        ("30", 50),
        ("40", 20),
        ("50", 50),
        ("60", 30),
        ("70", 30),
        ("72", 50),
        ("73", 10),
        ("74", 10),
        ("75", 30),
        ("76", 100),
        ("77", 50),
        ("78", 50),
        ("79", 200),
        ("80", 30),
        ("81", 100),
    ] {
        let count = tally.of(outcome);
        assert!(count >= least, "{outcome}: {count} of at least {least}");
    }
    // 81 comes with few calls granted and with all of them.
    let granted: BTreeSet<u64> = (0..5_000)
        .map(case)
        .filter(|case| matches!(case.answer(), Answer::Number { number: 81, .. }))
        .map(|case| case.grants.calls)
        .collect();
    assert!(granted.len() >= 12, "{granted:?}");
    assert!(
        [1, 2, 3, 64].iter().all(|calls| granted.contains(calls)),
        "{granted:?}"
    );
    // 71 comes only from counts out of their ranges.
    assert_eq!(tally.of("71"), 0);
    let mut refused = Tally::default();
    for seed in 0..100 {
        refused.add(&case_out_of_range(seed).answer());
    }
    assert_eq!(refused.of("71"), 100);
}

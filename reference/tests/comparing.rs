//! The comparison finds an engine that is right, and one that is not.

use reference::compare::{compare_with, Failure, Judge, Plan};
use reference::engine::key_of;

const SHORT: Plan = Plan {
    from: 0,
    seeds: 3,
    records: 500,
    judge: Judge::SecondEngineAndLaws,
};

/// Loses its last record.
fn forgetful(input: &[u8]) -> Vec<u8> {
    let mut output = key_of(input);
    output.truncate(output.len().saturating_sub(40));
    output
}

#[test]
fn the_second_engine_agrees_with_itself() {
    let summary = compare_with(key_of, SHORT).unwrap();
    assert!(summary.records > 1_000_000);
    assert!(summary.coverage.unforeseen().is_empty());
}

#[test]
fn a_lost_record_is_found() {
    let failed = compare_with(forgetful, SHORT).unwrap_err();
    let Failure::Differs(difference) = &failed.failure else {
        panic!("it was not found as a difference");
    };
    assert_eq!(difference.found, "nothing");
}

#[test]
fn a_lost_record_is_found_by_the_laws_alone() {
    let by_laws = Plan {
        judge: Judge::LawsAlone,
        ..SHORT
    };
    let failed = compare_with(forgetful, by_laws).unwrap_err();
    assert!(matches!(failed.failure, Failure::LawBroken(_)));
}

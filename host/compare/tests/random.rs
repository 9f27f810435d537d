//! Random sequences with every party that there is: SEQUENCES of them (3,000 if not set), each of 60 calls.
#![cfg(any(feature = "reference", feature = "library"))]

mod common;

use common::sequences;
use compare::coverage::{Coverage, OTHER_EVENTS, SINGLE_EVENTS};
use compare::generate::{self, Limits};

/// All agree, and each of these events is met.
fn agree(limits: Limits, events: &[&[&str]]) {
    let mut coverage = Coverage::default();
    for seed in 1..=sequences() {
        if let Err(text) = generate::sequence(seed, 60, limits, &mut coverage) {
            panic!("\n{text}");
        }
    }
    println!("{}", coverage.summary());
    for event in events.concat() {
        let met = coverage.of(event);
        assert!(met >= sequences() / 10, "{event}: {met}");
    }
}

#[cfg(feature = "reference")]
#[test]
fn every_party_agrees() {
    agree(Limits::CRATE, &[SINGLE_EVENTS, OTHER_EVENTS]);
}

/// Also on cursors as keys, which the crate cannot be given.
#[cfg(feature = "library")]
#[test]
fn model_and_library_agree() {
    agree(Limits::ALL, &[SINGLE_EVENTS, OTHER_EVENTS]);
}

#[test]
fn every_party_agrees_on_single_calls() {
    agree(Limits::SINGLE, &[SINGLE_EVENTS, &["cause 3"]]);
}

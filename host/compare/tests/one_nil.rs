//! The crate is given every call with its nulls spelled `_`, as it would see them, and answers what the others answer but for the spelling.
#![cfg(feature = "reference")]

use calls::{Answer, Refusal};
use compare::coverage::Coverage;
use compare::generate::{Limits, Sequence};
use compare::one_nil;
use compare::party::{Party, followers_of_all};
use reference::Reference;

const SEQUENCES: u64 = 500;

#[test]
fn the_crate_sees_one_nil() {
    let mut coverage = Coverage::default();
    for seed in 1..=SEQUENCES {
        let mut sequence = Sequence::begin(seed, Limits::AMPLE, followers_of_all);
        let mut reference = Reference::setup(sequence.setup(), false);
        for _ in 0..60 {
            let (at, call) = sequence.next_call();
            let answer = sequence
                .make(at, call.clone(), &mut coverage)
                .unwrap_or_else(|text| panic!("\n{text}"));
            // What is no call to the crate, and buffers that are short by lengths which the spelling changes.
            if let Answer::Refused(Refusal {
                cause: 1 | 2 | 3 | 5 | 6 | 8,
                ..
            }) = answer
            {
                continue;
            }
            let theirs = reference.call(at, &one_nil::call(&call));
            assert_eq!(theirs, Some(one_nil::answer(answer)), "{call:?}");
            let state = one_nil::state(sequence.leader().state().clone());
            assert_eq!(reference.state(), state, "{call:?}");
        }
    }
    assert_eq!(
        (coverage.of("cause 11"), coverage.of("refused stores")),
        (0, 0)
    );
    for event in [
        "hit with RESP2's null",
        "push of RESP2's null",
        "replies with RESP2's null",
    ] {
        let met = coverage.of(event);
        assert!(met >= SEQUENCES / 10, "{event}: {met}");
    }
}

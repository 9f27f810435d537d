//! Arena and plan as bytes: written and read back on random states and plans; damaged bytes are refused or are another image.

use calls::Answer;
use compare::coverage::Coverage;
use compare::generate::{Limits, Sequence};
use compare::rng::Rng;
use model::layout::{arena, plan};
use model::{book, config};

const SEQUENCES: u64 = 200;

fn each(mut check: impl FnMut(&Sequence, &Answer)) {
    for seed in 1..=SEQUENCES {
        let mut sequence = Sequence::begin(seed, Limits::ALL, |_| Vec::new());
        for _ in 0..40 {
            let (at, call) = sequence.next_call();
            let answer = sequence
                .make(at, call, &mut Coverage::default())
                .expect("nobody follows");
            check(&sequence, &answer);
        }
    }
}

/// An arena of the sequence's rows, as short as they let it be.
fn image(sequence: &Sequence) -> Vec<u8> {
    let shards = &sequence.leader().state().shards;
    let longest = shards
        .iter()
        .map(|row| book::size(row))
        .max()
        .expect("a shard");
    let each = (longest as usize + 16).max(64);
    arena::encode(shards, each * shards.len() + (shards.len() - 1) / 2)
}

#[test]
fn an_arena_is_read_back() {
    each(|sequence, _| {
        let state = sequence.leader().state();
        let image = image(sequence);
        assert_eq!(
            arena::decode(&image, sequence.setup().size).as_ref(),
            Some(&state.shards)
        );
        let (shards, _) = config::shards(sequence.setup().size);
        let each = image.len() / shards as usize;
        for (row, shard) in state.shards.iter().zip(image.chunks_exact(each)) {
            let used = u32::from_le_bytes(shard[4..8].try_into().expect("4 bytes"));
            assert_eq!(u64::from(used), book::size(row));
        }
    });
}

#[test]
fn a_fresh_arena_is_all_zero() {
    for size in [1, 31, 32, 65_536] {
        let (shards, _) = config::shards(size);
        let rows = vec![Vec::new(); shards as usize];
        assert_eq!(arena::decode(&[0; 4096], size), Some(rows.clone()));
        assert_eq!(arena::encode(&rows, 4096), [0; 4096]);
    }
}

#[test]
fn a_damaged_arena_is_refused_or_another_image() {
    let mut rng = Rng::new(1);
    let (mut refused, mut other) = (0, 0);
    each(|sequence, _| {
        let mut image = image(sequence);
        let length = image.len();
        let place = rng.below(length);
        image[place] ^= 1 << rng.below(8);
        match arena::decode(&image, sequence.setup().size) {
            None => refused += 1,
            Some(rows) => {
                assert_eq!(arena::encode(&rows, length), image);
                other += 1;
            }
        }
    });
    assert!(
        refused > 1000 && other > 100,
        "{refused} refused, {other} other images"
    );
}

#[test]
fn a_plan_is_read_back_and_a_damaged_one_refused_or_another() {
    let mut rng = Rng::new(2);
    let (mut refused, mut other) = (0, 0);
    each(|_, answer| {
        let Answer::Planned {
            outcomes,
            responses,
            ..
        } = answer
        else {
            return;
        };
        let transaction = responses.0 > 0;
        let bytes = plan::encode(transaction, outcomes);
        let read = plan::decode(&bytes).expect("a plan that planning wrote");
        assert_eq!(plan::encode(read.transaction, &read.outcomes), bytes);
        let mut damaged = bytes.clone();
        let place = rng.below(bytes.len());
        damaged[place] ^= 1 << rng.below(8);
        match plan::decode(&damaged) {
            None => refused += 1,
            Some(read) => {
                assert_eq!(plan::encode(read.transaction, &read.outcomes), damaged);
                other += 1;
            }
        }
        assert_eq!(plan::decode(&bytes[..place]), None);
        assert_eq!(plan::decode(&[&bytes[..], b"\0"].concat()), None);
    });
    assert!(
        refused > 500 && other > 50,
        "{refused} refused, {other} others"
    );
}

//! Single calls at the limits: empty, one short of each size, exactly full, one over. Every party that there is must agree
//! with the model.

mod common;

use calls::{Answer, At, Call, Setup};
use common::{agreed, at, refused, setup};

/// A store whose parts have these lengths; a value has 3 bytes at least.
fn store(name: u8, key: usize, command: usize, value: usize) -> Call {
    let value = [b"+".as_slice(), &vec![b'v'; value - 3], b"\r\n"].concat();
    Call::Store {
        key: vec![name; key],
        command: vec![b'c'; command],
        value,
        expiry: 9,
    }
}

fn lookup(name: u8, key: usize, command: usize) -> Call {
    Call::Lookup {
        key: vec![name; key],
        command: vec![b'c'; command],
    }
}

/// An item of one entry takes 32 + 16 bytes and its three parts.
#[test]
fn one_item_fills_a_shard_exactly_and_not_one_byte_over() {
    for arena in [67, 68, 80, 127, 128, 129, 200, 1000] {
        let space = arena - 16;
        for (key, command) in [(0, 0), (1, 0), (0, 1), (3, 6)] {
            let rest = (space as usize).saturating_sub(48 + key + command);
            let with = |value| {
                let calls = [store(b'k', key, command, value), lookup(b'k', key, command)];
                agreed(
                    &Setup { arena, ..setup(1) },
                    calls.map(|call| (at(0), call)),
                )
            };
            if rest > 3 {
                assert_eq!(with(rest - 1)[0], Answer::Done);
            }
            if rest >= 3 {
                assert_eq!(with(rest)[0], Answer::Done);
                assert_eq!(with(rest + 1), [refused(11), Answer::Miss]);
            }
        }
    }
}

/// Two items of 48 + 1 + 1 + 10 bytes fill the shard; then each way to store something more.
#[test]
fn a_full_shard_takes_what_fits_in_place_of_what_goes() {
    let item = 48 + 1 + 1 + 10;
    let full = |keys| Setup {
        arena: 16 + 2 * item,
        ..setup(keys)
    };
    let later = At { epoch: 1, ..at(0) };
    let fill = [b'a', b'b'].map(|name| (at(0), store(name, 1, 1, 10)));
    let then = |keys, at: At, call: Call| {
        let calls = fill.iter().cloned().chain([(at, call)]);
        agreed(&full(keys), calls)[2].clone()
    };
    for name in [b'a', b'b'] {
        // Updated in place, replaced under another epoch.
        for now in [at(0), later] {
            let with = |value| then(3, now, store(name, 1, 1, value));
            assert_eq!([with(9), with(10)], [Answer::Done, Answer::Done]);
            assert_eq!(with(11), refused(11));
        }
        // An entry more.
        assert_eq!(then(3, at(0), store(name, 1, 0, 3)), refused(11));
    }
    // A key more: with room for three keys there is no space, with room for two the oldest goes.
    assert_eq!(then(3, at(0), store(b'c', 1, 1, 10)), refused(11));
    assert_eq!(then(2, at(0), store(b'c', 1, 1, 10)), Answer::Done);
    assert_eq!(then(2, at(0), store(b'c', 1, 1, 11)), refused(11));
}

#[test]
fn limits_of_keys_commands_and_values() {
    let large = Setup {
        arena: 1 << 26,
        ..setup(1)
    };
    let most = 16 << 20;
    let calls = [
        (store(b'k', 65_535, 1, 3), Answer::Done),
        (store(b'k', 65_536, 1, 3), refused(3)),
        (lookup(b'k', 65_536, 1), refused(3)),
        (lookup(b'k', 65_535, most + 1), refused(3)),
        (
            Call::Invalidate {
                key: vec![b'k'; 65_536],
            },
            refused(3),
        ),
        (store(b'k', 1, most, 3), Answer::Done),
        (store(b'k', 1, most + 1, 3), refused(3)),
        (lookup(b'k', 1, most), Answer::Hit(b"+\r\n".to_vec())),
        (store(b'k', 2, 1, most), Answer::Done),
        (store(b'k', 2, 1, most + 1), refused(3)),
    ];
    let answers = agreed(&large, calls.iter().map(|(call, _)| (at(0), call.clone())));
    for (answer, (_, expected)) in answers.iter().zip(&calls) {
        assert!(answer == expected);
    }
}

/// Where a value is too long and no value, or too long for the shard too, the first cause counts.
#[test]
fn checks_run_in_their_order() {
    let stored = |key: usize, value: &[u8]| Call::Store {
        key: vec![b'k'; key],
        command: vec![],
        value: value.to_vec(),
        expiry: 9,
    };
    let wrong_mode = At { mode: 2, ..at(0) };
    let long = vec![b'x'; (16 << 20) + 1];
    let calls = [
        (at(0), stored(1, b""), refused(6)),
        (at(0), stored(65_536, b""), refused(3)),
        (at(0), stored(1, &long), refused(3)),
        (at(0), stored(100, b"+\r"), refused(6)),
        (at(0), stored(100, b"+\r\n"), refused(11)),
        (wrong_mode, stored(65_536, b""), refused(1)),
        (wrong_mode, lookup(b'k', 65_536, 1), refused(1)),
        (wrong_mode, Call::Invalidate { key: vec![] }, refused(1)),
    ];
    let small = Setup {
        arena: 64,
        ..setup(1)
    };
    let answers = agreed(
        &small,
        calls.iter().map(|(at, call, _)| (*at, call.clone())),
    );
    for (answer, (_, _, expected)) in answers.iter().zip(&calls) {
        assert_eq!(answer, expected);
    }
}

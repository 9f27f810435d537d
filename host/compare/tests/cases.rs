//! The worked cases of document 01, and of document 02's requests, for every party that there is.

mod common;

use calls::{Answer, Call, Outcome, Refusal, resp};
use common::*;
use compare::party::Party;

#[test]
fn shards_of_sizes_31_32_63_64() {
    for (size, shape) in [(31, (1, 31)), (32, (32, 1)), (63, (32, 1)), (64, (32, 2))] {
        let (shards, keys) = model::config::shards(size);
        assert_eq!((shards as usize, keys as usize), shape);
        #[cfg(feature = "reference")]
        assert_eq!(
            reference::Reference::setup(&setup(size), false).shape(),
            shape
        );
    }
}

#[test]
fn served_at_its_expiry_and_dropped_one_later() {
    for mut party in parties(&setup(4)) {
        answer(&mut *party, at(0), &store("k", "GETk", "$1\r\nx\r\n", 50));
        let found = answer(&mut *party, at(50), &lookup("k", "GETk"));
        assert_eq!(found, Answer::Hit(b"$1\r\nx\r\n".to_vec()));
        assert_eq!(
            answer(&mut *party, at(51), &lookup("k", "GETk")),
            Answer::Miss
        );
        let state = party.state();
        assert!(state.shards[0].is_empty());
        assert_eq!(
            (state.counts.hit, state.counts.miss, state.counts.invalidate),
            (1, 1, 1)
        );
    }
}

#[test]
fn several_keys_that_are_none_go_to_the_server() {
    for line in [
        "JSON.MGET k",
        "JSON.MGET",
        "MGET",
        "JSON.MGET @ k",
        "MGET @",
    ] {
        for mut party in parties(&setup(4)) {
            let Answer::Planned {
                responses,
                outcomes,
                ..
            } = answer(&mut *party, at(0), &plan(&[line]))
            else {
                panic!("planned");
            };
            assert_eq!((responses, outcomes), ((0, 1), vec![Outcome::NotCacheable]));
            assert_eq!(
                result(answer(
                    &mut *party,
                    at(0),
                    &resolve(0, "*1\r\n-ERR few\r\n")
                )),
                "*1\r\n-ERR few\r\n"
            );
            let counts = party.state().counts;
            assert_eq!((counts.hit, counts.miss, counts.invalidate), (0, 0, 0));
        }
    }
}

#[test]
fn get_with_an_empty_key_is_cacheable_and_get_in_small_letters_is_not() {
    for mut party in parties(&setup(4)) {
        let Answer::Planned { outcomes, .. } =
            answer(&mut *party, at(0), &plan(&["GET \"\"", "get a"]))
        else {
            panic!("planned");
        };
        assert!(matches!(&outcomes[0], Outcome::Single(missing) if missing.key.is_empty()));
        assert_eq!(outcomes[1], Outcome::NotCacheable);
    }
}

#[test]
fn expiry_is_the_smaller_of_server_and_client() {
    for (pttl, expiry) in [
        ("1", 11),
        ("0", 500),
        ("-1", 500),
        ("1000", 500),
        ("9223372036854775807", 500),
    ] {
        for mut party in parties(&setup(4)) {
            let now = calls::At {
                default_ttl: 490,
                ..at(10)
            };
            answer(&mut *party, now, &plan(&["GET k"]));
            let replies = format!("*2\r\n:{pttl}\r\n$1\r\nx\r\n");
            assert_eq!(
                result(answer(&mut *party, now, &resolve(0, &replies))),
                "*1\r\n$1\r\nx\r\n"
            );
            assert_eq!(only_item(&*party).expiry, expiry, "PTTL {pttl}");
        }
    }
}

#[test]
fn two_waiting_keys_and_three_elements_take_three_pttls() {
    for mut party in parties(&setup(4)) {
        answer(&mut *party, at(0), &plan(&["MGET a b", "PING"]));
        let replies = "*5\r\n*3\r\n:1\r\n:2\r\n:3\r\n:10\r\n:20\r\n:30\r\n+PONG\r\n";
        let resolved = answer(&mut *party, at(0), &resolve(0, replies));
        assert_eq!(result(resolved), "*2\r\n*2\r\n:1\r\n:2\r\n+PONG\r\n");
    }
}

#[test]
fn three_keys_and_two_elements_leave_the_third_place() {
    for mut party in parties(&setup(4)) {
        answer(&mut *party, at(0), &plan(&["MGET a b c"]));
        let replies = "*4\r\n*2\r\n:1\r\n:2\r\n:10\r\n:20\r\n:30\r\n";
        let resolved = answer(&mut *party, at(0), &resolve(0, replies));
        assert_eq!(result(resolved), "*1\r\n*3\r\n:1\r\n:2\r\n_\r\n");
    }
}

#[cfg(feature = "reference")]
#[test]
fn digits_of_9999_and_10000() {
    assert_eq!(
        (reference::countdigits(9999), reference::countdigits(10_000)),
        (4, 5)
    );
    assert_eq!(
        (
            reference::countdigits(0),
            reference::countdigits(usize::MAX)
        ),
        (1, 20)
    );
}

#[test]
fn key_3_command_6_value_7_bytes_take_64() {
    let tight = |bytes: u64| calls::Setup {
        arena: 16 + bytes,
        ..setup(1)
    };
    let stored = store("key", "GETkey", "$1\r\nx\r\n", 9);
    for mut party in parties(&tight(64)) {
        assert_eq!(answer(&mut *party, at(0), &stored), Answer::Done);
    }
    for mut party in parties(&tight(63)) {
        assert_eq!(
            answer(&mut *party, at(0), &stored),
            Answer::Refused(Refusal::number(11))
        );
        assert!(party.state().shards[0].is_empty());
    }
}

#[test]
fn depth_16_is_read_and_17_refused() {
    let nested = |times| "*1\r\n".repeat(times) + "_\r\n";
    assert!(resp::parse(nested(15).as_bytes()).is_some());
    let mut model = model::Model::setup(&setup(4)).expect("a setup");
    assert_eq!(
        model.call(at(0), &store("k", "c", &nested(15), 9)),
        Answer::Done
    );
    let refused = model.call(at(0), &store("k", "c", &nested(16), 9));
    assert_eq!(refused, Answer::Refused(Refusal::number(6)));
}

#[test]
fn the_bytes_to_send_for_get_a() {
    for mut party in parties(&setup(4)) {
        let now = calls::At {
            default_ttl: 1_800_000,
            ..at(0)
        };
        let planned = answer(&mut *party, now, &plan(&["GET a"]));
        assert_eq!(
            sent(&planned),
            "*2\r\n$4\r\nPTTL\r\n$1\r\na\r\n*2\r\n$3\r\nGET\r\n$1\r\na\r\n"
        );
    }
}

/// RESP2's nulls.
const OLD_NULLS: [&str; 2] = ["$-1\r\n", "*-1\r\n"];

#[test]
fn a_null_of_resp2_is_stored_and_served_as_it_came() {
    for null in OLD_NULLS {
        for mut party in parties(&setup(4)) {
            answer(&mut *party, at(0), &plan(&["GET k"]));
            let replies = format!("*2\r\n:-1\r\n{null}");
            let resolved = answer(&mut *party, at(0), &resolve(0, &replies));
            assert_eq!(result(resolved), format!("*1\r\n{null}"));
            assert_eq!(only_item(&*party).entries[0].value, null.as_bytes());
            let found = answer(&mut *party, at(1), &lookup("k", "GETk"));
            assert_eq!(found, Answer::Hit(null.into()));
            let planned = answer(&mut *party, at(1), &plan(&["MGET k k", "GET k"]));
            let all = vec![null.into(); 2];
            let outcomes = vec![Outcome::CachedAll(all), Outcome::Cached(null.into())];
            assert_eq!(planned, all_served(outcomes));
            let resolved = answer(&mut *party, at(1), &resolve(1, "*0\r\n"));
            let expected = format!("*2\r\n*2\r\n{null}{null}{null}");
            assert_eq!(result(resolved), expected);
        }
    }
}

#[test]
fn nulls_of_resp2_inside_other_values_stay_as_they_came() {
    for value in [
        "*3\r\n$-1\r\n*-1\r\n_\r\n",
        "%1\r\n$-1\r\n*1\r\n*-1\r\n",
        "|1\r\n*-1\r\n$-1\r\n*-1\r\n",
    ] {
        for mut party in parties(&setup(4)) {
            let stored = answer(&mut *party, at(0), &store("k", "GETk", value, 9));
            assert_eq!(stored, Answer::Done);
            let found = answer(&mut *party, at(1), &lookup("k", "GETk"));
            assert_eq!(found, Answer::Hit(value.into()));
        }
    }
}

/// Exactly two spellings were added.
#[test]
fn other_counts_below_zero_are_no_values() {
    for value in [
        "~-1\r\n", "%-1\r\n", "!-1\r\n", "=-1\r\n", ">-1\r\n", "$-2\r\n", "*-0\r\n", "$-01\r\n",
        "*-10\r\n",
    ] {
        for mut party in parties(&setup(4)) {
            let stored = party.call(at(0), &store("k", "GETk", value, 9));
            let refused = stored.is_none_or(|answer| answer == refused(6));
            assert!(refused, "{} takes {value:?}", party.name());
        }
    }
}

#[test]
fn a_null_of_resp2_is_no_array() {
    for null in OLD_NULLS {
        for mut party in parties(&setup(4)) {
            let mut refuses = |call: &Call, replies: &str, number: usize| {
                answer(&mut *party, at(0), call);
                let resolved = answer(&mut *party, at(0), &resolve(number, replies));
                assert_eq!(resolved, refused(7), "{} on {replies:?}", party.name());
                assert!(party.state().shards[0].is_empty());
            };
            refuses(&plan(&["MGET a"]), &format!("*2\r\n{null}:1\r\n"), 0);
            refuses(&plan(&["GET a"]), null, 1);
            let exec = plan_record(&calls::Record {
                transaction: true,
                commands: vec![command("GET a")],
            });
            refuses(&exec, &format!("*1\r\n{null}"), 2);
        }
    }
}

#[test]
fn an_element_that_is_a_null_of_resp2_fills_its_place() {
    for null in OLD_NULLS {
        for mut party in parties(&setup(4)) {
            answer(&mut *party, at(0), &plan(&["MGET a b c"]));
            let replies = format!("*4\r\n*2\r\n{null}:2\r\n:10\r\n:20\r\n:30\r\n");
            let resolved = answer(&mut *party, at(0), &resolve(0, &replies));
            let expected = format!("*1\r\n*3\r\n{null}:2\r\n_\r\n");
            assert_eq!(result(resolved), expected);
            let found = answer(&mut *party, at(1), &lookup("a", "GETa"));
            assert_eq!(found, Answer::Hit(null.into()));
        }
    }
}

#[test]
fn a_null_of_resp2_is_no_pttl() {
    for null in OLD_NULLS {
        for mut party in parties(&setup(4)) {
            answer(&mut *party, at(10), &plan(&["GET k"]));
            let replies = format!("*2\r\n{null}$1\r\nx\r\n");
            let resolved = answer(&mut *party, at(10), &resolve(0, &replies));
            assert_eq!(result(resolved), "*1\r\n$1\r\nx\r\n");
            assert_eq!(only_item(&*party).expiry, 110, "the client's alone");
        }
    }
}

/// A push of this second element, on a cache that holds `a` and `b`: the keys that are left.
fn left_by(party: &mut dyn Party, what: &str) -> Vec<Vec<u8>> {
    for key in ["a", "b"] {
        answer(party, at(0), &store(key, "GET", ":1\r\n", 50));
    }
    let bytes = format!(">2\r\n$10\r\ninvalidate\r\n{what}").into_bytes();
    assert_eq!(answer(party, at(1), &Call::Push { bytes }), Answer::Done);
    let shards = party.state().shards;
    shards.concat().into_iter().map(|item| item.key).collect()
}

#[test]
fn a_push_of_a_null_of_resp2_drops_everything() {
    for null in OLD_NULLS {
        for mut party in parties(&setup(4)) {
            assert!(left_by(&mut *party, null).is_empty(), "{}", party.name());
        }
        for mut party in parties(&setup(4)) {
            let left = left_by(&mut *party, &format!("|0\r\n{null}"));
            assert_eq!(left.len(), 2, "under an attribute it is no null");
        }
    }
}

#[test]
fn a_null_of_resp2_among_the_keys_of_a_push_is_skipped() {
    for mut party in parties(&setup(4)) {
        let left = left_by(&mut *party, "*3\r\n$-1\r\n$1\r\na\r\n*-1\r\n");
        assert_eq!(left, [b"b"], "{}", party.name());
    }
}

/// Its five bytes are what it takes.
#[test]
fn a_null_of_resp2_is_measured_as_it_came() {
    let tight = |bytes: u64| calls::Setup {
        arena: 16 + bytes,
        ..setup(1)
    };
    for null in OLD_NULLS {
        let stored = store("key", "GETkey", null, 9);
        for mut party in parties(&tight(62)) {
            assert_eq!(answer(&mut *party, at(0), &stored), Answer::Done);
        }
        for mut party in parties(&tight(61)) {
            assert_eq!(answer(&mut *party, at(0), &stored), refused(11));
        }
    }
}

/// Beyond the worked cases: a result is not read back, so it may nest deeper than 16.
#[test]
fn a_result_may_nest_18_deep() {
    let deep = "*1\r\n".repeat(15) + "_\r\n";
    for mut party in parties(&setup(4)) {
        answer(&mut *party, at(0), &store("k", "GETk", &deep, 9));
        let planned = answer(&mut *party, at(0), &plan(&["MGET k k"]));
        let served = deep.as_bytes().to_vec();
        let outcomes = vec![Outcome::CachedAll(vec![served.clone(), served])];
        assert_eq!(planned, all_served(outcomes));
        let resolved = answer(&mut *party, at(0), &resolve(0, "*0\r\n"));
        assert_eq!(result(resolved), format!("*1\r\n*2\r\n{deep}{deep}"));
    }
}

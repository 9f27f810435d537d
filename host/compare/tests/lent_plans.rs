//! Plans that planning did not write: changed, cut short, made longer, or of any nodes. The library must resolve what the layout
//! reads as the model does, and refuse as 10 exactly what is no plan.
#![cfg(feature = "library")]

mod common;

use calls::Answer;
use common::damage::{cut_or_longer, one_changed, several_changed};
use common::judged::{Tally, cache, judged, now, plan_of, records, resolving};
use common::refused;
use compare::rng::Rng;

#[test]
fn a_changed_plan_is_refused_as_10_or_is_another_plan() {
    let cache = cache();
    let mut tally = Tally::default();
    for (record, replies) in records() {
        let plan = plan_of(&cache.1, &record);
        let call = resolving(replies.as_bytes(), 500);
        let answer = judged(&cache, &plan, now(0), &call);
        assert!(matches!(answer, Answer::Resolved { .. }));
        for plan in one_changed(&plan).chain(cut_or_longer(&plan)) {
            tally.count(10, &judged(&cache, &plan, now(0), &call));
        }
    }
    tally.assert(3000, 500);
    let mut rng = Rng::new(5);
    let (record, replies) = &records()[0];
    for _ in 0..5000 {
        let mut plan = plan_of(&cache.1, record);
        several_changed(&mut rng, &mut plan);
        tally.count(
            10,
            &judged(&cache, &plan, now(0), &resolving(replies.as_bytes(), 500)),
        );
    }
}

/// Nodes of any kinds in any order, under counts that are mostly right.
fn any_plan(rng: &mut Rng) -> Vec<u8> {
    let mut plan = vec![rng.of(&[0, 0, 0, 1, 1, 2])];
    plan.extend(b"_\r\n");
    let commands = rng.of(&[0, 1, 1, 2, 2, 3]);
    plan.extend(u32::to_le_bytes(commands));
    for _ in 0..commands {
        let kind = rng.of(&[0, 1, 2, 3, 4, 4]);
        let places = rng.of(&[0, 0, 1, 2, 3]);
        let inner: &[u32] = match kind {
            2 => &[1],
            4 => &[1, 5, 5],
            _ => &[],
        };
        node(rng, &mut plan, kind, places);
        if !inner.is_empty() {
            for _ in 0..places + u64::from(rng.chance(3)) {
                let kind = rng.of(inner);
                node(rng, &mut plan, kind, 0);
            }
        }
        if kind == 4 {
            node(rng, &mut plan, 6, 0);
        }
    }
    plan
}

fn node(rng: &mut Rng, plan: &mut Vec<u8>, kind: u32, number: u64) {
    let any: &[u8] = rng.pick::<[u8]>(&[b"", b"a", b"b", b"key"]);
    let value: &[u8] = rng.pick::<[u8]>(&[b"_\r\n", b"$1\r\nv\r\n", b"-e\r\n", b"*1\r\n:1\r\n"]);
    let (a, b, number): (&[u8], &[u8], u64) = match kind {
        1 => (value, b"", 0),
        2 | 4 => (b"", b"", number),
        3 | 5 => (
            any,
            rng.pick::<[u8]>(&[b"GETa", b"GETb", b""]),
            rng.of(&[0, 9, u64::MAX]),
        ),
        _ => (b"", b"", 0),
    };
    plan.extend(kind.to_le_bytes());
    for part in [a, b] {
        plan.extend((part.len() as u32).to_le_bytes());
    }
    plan.extend(number.to_le_bytes());
    plan.extend(a);
    plan.extend(b);
}

/// Replies of any kinds, in a transaction mostly inside an array of one.
fn any_replies(rng: &mut Rng, transaction: bool) -> Vec<u8> {
    let count = rng.below(9);
    let mut list = format!("*{count}\r\n").into_bytes();
    for _ in 0..count {
        list.extend(rng.pick::<[u8]>(&[
            b":5\r\n",
            b":-1\r\n",
            b"+OK\r\n",
            b"-ERR e\r\n",
            b"!1\r\ne\r\n",
            b"*0\r\n",
            b"*1\r\n$1\r\nx\r\n",
            b"*2\r\n:1\r\n-E\r\n",
            b"*3\r\n_\r\n:2\r\n*0\r\n",
            b"|1\r\n+a\r\n+b\r\n*1\r\n:1\r\n",
        ]));
    }
    match transaction && rng.chance(95) {
        true => [b"*1\r\n", list.as_slice()].concat(),
        false => list,
    }
}

#[test]
fn plans_from_elsewhere_are_resolved_by_their_nodes() {
    let cache = cache();
    let (mut tally, mut shapes) = (Tally::default(), 0);
    let mut rng = Rng::new(6);
    for _ in 0..20_000 {
        let plan = any_plan(&mut rng);
        let replies = any_replies(&mut rng, plan[0] == 1);
        let room = rng.of(&[0, 4, 20, 200, 200, 200]);
        let mode = u8::from(rng.chance(40));
        let answer = judged(&cache, &plan, now(mode), &resolving(&replies, room));
        shapes += usize::from(answer == refused(7));
        tally.count(10, &answer);
    }
    tally.assert(1000, 3000);
    assert!(shapes > 3000, "{shapes} of another shape");
}

/// Where several causes would refuse a resolving, the first of 10, 6, 7, 8 does.
#[test]
fn checks_of_resolving_run_in_their_order() {
    let cache = cache();
    let plan = plan_of(&cache.1, &records()[1].0);
    let right = records()[1].1.as_bytes();
    let cases: [(&[u8], &[u8], u8); 4] = [
        (&plan[1..], b"*1", 10),
        (&plan, b"*1", 6),
        (&plan, b"*0\r\n", 7),
        (&plan, right, 8),
    ];
    for (plan, replies, cause) in cases {
        let answer = judged(&cache, plan, now(0), &resolving(replies, 0));
        assert_eq!(answer, refused(cause));
    }
}

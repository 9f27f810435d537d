//! Replies, pushes and call records, each byte of them changed, cut short or made longer. The library must answer and leave what the model
//! does with what they are, and refuse as 6 or 2 exactly what is none.
#![cfg(feature = "library")]

mod common;

use calls::{Call, Record, record};
use common::damage::{cut_or_longer, one_changed};
use common::judged::{Tally, cache, judged, now, plan_of, records, resolving};

#[test]
fn changed_replies_are_refused_as_6_or_are_others() {
    let cache = cache();
    let mut tally = Tally::default();
    for (record, replies) in records() {
        let plan = plan_of(&cache.1, &record);
        let replies = replies.as_bytes();
        for replies in one_changed(replies).chain(cut_or_longer(replies)) {
            let answer = judged(&cache, &plan, now(0), &resolving(&replies, 500));
            tally.count(6, &answer);
        }
    }
    tally.assert(500, 100);
}

#[test]
fn changed_pushes_are_refused_as_6_or_are_others() {
    let cache = cache();
    let plan = plan_of(&cache.1, &Record::default());
    let mut tally = Tally::default();
    for push in [
        ">2\r\n$10\r\ninvalidate\r\n*4\r\n$1\r\na\r\n+b\r\n*1\r\n$1\r\nb\r\n$0\r\n\r\n",
        ">2\r\n$10\r\ninvalidate\r\n_\r\n",
        ">2\r\n$10\r\ninvalidate\r\n$-1\r\n",
        ">2\r\n$10\r\ninvalidate\r\n*-1\r\n",
        ">2\r\n$10\r\ninvalidate\r\n*3\r\n$-1\r\n$1\r\na\r\n*-1\r\n",
        ">3\r\n$10\r\ninvalidate\r\n*1\r\n$1\r\nb\r\n_\r\n",
        ">0\r\n",
        "|1\r\n+a\r\n+b\r\n>2\r\n$10\r\ninvalidate\r\n_\r\n",
    ] {
        let push = push.as_bytes();
        for bytes in one_changed(push).chain(cut_or_longer(push)) {
            tally.count(6, &judged(&cache, &plan, now(1), &Call::Push { bytes }));
        }
    }
    tally.assert(1000, 300);
}

#[test]
fn changed_records_are_refused_as_2_or_are_others() {
    let cache = cache();
    let plan = plan_of(&cache.1, &Record::default());
    let mut tally = Tally::default();
    for (record, _) in records() {
        let bytes = record::encode(&record);
        for record in one_changed(&bytes).chain(cut_or_longer(&bytes)) {
            let call = Call::Plan {
                record,
                send_room: 500,
                plan_room: 500,
            };
            for mode in [0, 1] {
                tally.count(2, &judged(&cache, &plan, now(mode), &call));
            }
        }
    }
    tally.assert(1500, 500);
}

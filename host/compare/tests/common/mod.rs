//! What the tests share: the parties that there are, and short ways to write calls.
#![allow(dead_code)]

pub mod damage;
#[cfg(feature = "library")]
pub mod judged;

use calls::{Answer, Arg, At, Call, Command, Counts, Outcome, Record, Refusal, Setup, record};
use compare::coverage::Coverage;
use compare::party::{Party, followers};
use compare::sequence::Run;

/// A buffer that is not short.
pub const AMPLE: usize = 1 << 14;

/// How many random sequences to try: SEQUENCES of them, 3,000 if not set.
pub fn sequences() -> u64 {
    let given = std::env::var("SEQUENCES").ok();
    given.map_or(3000, |text| text.parse().expect("SEQUENCES is a number"))
}

/// A setup with ample space.
pub fn setup(size: u64) -> Setup {
    Setup {
        size,
        arena: 1 << 20,
        mode: 0,
        default_ttl: 100,
        counts: Counts::default(),
    }
}

/// Every party that there is, freshly set up.
pub fn parties(setup: &Setup) -> Vec<Box<dyn Party>> {
    let model = model::Model::setup(setup).expect("a setup that is not refused");
    let mut parties: Vec<Box<dyn Party>> = vec![Box::new(model)];
    parties.extend(followers(setup));
    parties
}

/// Makes calls to every party; all must agree.
pub fn agreed(setup: &Setup, calls: impl IntoIterator<Item = (At, Call)>) -> Vec<Answer> {
    let mut run = Run::begin(setup, followers(setup));
    let answers = calls.into_iter().map(|(at, call)| {
        let answer = run.call(at, call, &mut Coverage::default());
        answer.unwrap_or_else(|text| panic!("\n{text}"))
    });
    answers.collect()
}

/// A refusal for a cause that returns its number alone.
pub fn refused(cause: u8) -> Answer {
    Answer::Refused(Refusal::number(cause))
}

/// A call's clock, under epoch 0, mode All and default TTL 100.
pub fn at(clock: u64) -> At {
    At {
        clock,
        epoch: 0,
        mode: 0,
        default_ttl: 100,
    }
}

/// A command of the words of a line; `""` is an empty argument and `@` a cursor.
pub fn command(line: &str) -> Command {
    let arg = |word: &str| match word {
        "@" => Arg::Cursor,
        "\"\"" => Arg::Simple(Vec::new()),
        _ => Arg::Simple(word.into()),
    };
    Command {
        args: line.split_whitespace().map(arg).collect(),
        ..Command::default()
    }
}

/// Planning of these lines.
pub fn plan(lines: &[&str]) -> Call {
    let commands = lines.iter().map(|line| command(line)).collect();
    plan_record(&Record {
        transaction: false,
        commands,
    })
}

/// Planning of a record.
pub fn plan_record(record: &Record) -> Call {
    Call::Plan {
        record: record::encode(record),
        send_room: AMPLE,
        plan_room: AMPLE,
    }
}

/// Resolving of a plan.
pub fn resolve(plan: usize, replies: &str) -> Call {
    Call::Resolve {
        plan,
        replies: replies.into(),
        room: AMPLE,
    }
}

/// A single store.
pub fn store(key: &str, command: &str, value: &str, expiry: u64) -> Call {
    Call::Store {
        key: key.into(),
        command: command.into(),
        value: value.into(),
        expiry,
    }
}

/// A single lookup.
pub fn lookup(key: &str, command: &str) -> Call {
    Call::Lookup {
        key: key.into(),
        command: command.into(),
    }
}

/// What the party answers; it must be one that takes the call.
pub fn answer(party: &mut dyn Party, at: At, call: &Call) -> Answer {
    party
        .call(at, call)
        .expect("a call that the party can be given")
}

/// The result of a resolving that is not refused, as text.
pub fn result(answer: Answer) -> String {
    match answer {
        Answer::Resolved { result, refused: 0 } => String::from_utf8(result).expect("text"),
        other => panic!("{other:?}"),
    }
}

/// A planning that sends nothing.
pub fn all_served(outcomes: Vec<Outcome>) -> Answer {
    Answer::Planned {
        sent: vec![],
        responses: (0, 0),
        outcomes,
    }
}

/// The bytes that a planning sends, as text.
pub fn sent(answer: &Answer) -> String {
    match answer {
        Answer::Planned { sent, .. } => String::from_utf8(sent.clone()).expect("text"),
        other => panic!("{other:?}"),
    }
}

/// The one item of the cache's only shard.
pub fn only_item(party: &dyn Party) -> calls::Item {
    let shards = party.state().shards;
    assert_eq!((shards.len(), shards[0].len()), (1, 1));
    shards[0][0].clone()
}

//! What the sequences came to, so that one sees that hits, evictions, epochs, expiries and updates were common.

use calls::{Answer, Arg, Call, Command, Outcome, Place, State, record};
use model::commands::{NEVER, SOLE_KEY};
use std::collections::BTreeMap;

/// Counts of events by name.
#[derive(Default)]
pub struct Coverage(BTreeMap<&'static str, u64>);

/// What single calls come to.
pub const SINGLE_EVENTS: &[&str] = &[
    "lookup",
    "store",
    "invalidate",
    "hit",
    "hit with RESP2's null",
    "miss",
    "dropped entries",
    "evicted or replaced",
    "updated in place",
    "items with several entries",
    "cause 1",
    "cause 6",
    "cause 11",
];

/// What the other calls come to beside it.
pub const OTHER_EVENTS: &[&str] = &[
    "plan",
    "resolve",
    "push",
    "new epoch",
    "refused stores",
    "push of RESP2's null",
    "replies with RESP2's null",
    "cause 2",
    "cause 4",
    "cause 5",
    "cause 7",
    "cause 7 with stores",
    "cause 8",
    "transaction planned",
    "opt-in planned",
    "ignored",
    "not cacheable",
    "several keys that are none",
    "several sets",
    "one set",
    "cached",
    "cached array",
    "one key missing",
    "several missing",
    "partly served",
];

impl Coverage {
    /// Counts one call by its answer and the states around it.
    pub fn count(&mut self, call: &Call, answer: &Answer, before: &State, after: &State) {
        self.add("calls", 1);
        self.add(kind(call), 1);
        self.old_nulls(call, answer);
        match answer {
            Answer::Refused(refusal) => self.add(cause(refusal.cause), 1),
            Answer::Resolved { refused, .. } => self.add("refused stores", *refused),
            Answer::Planned {
                sent,
                responses,
                outcomes,
            } => {
                let opt_in = sent.windows(7).any(|part| part == b"CACHING");
                self.add("transaction planned", u64::from(responses.0 > 0));
                self.add("opt-in planned", u64::from(opt_in));
                outcomes.iter().for_each(|told| self.add(outcome(told), 1));
            }
            _ => {}
        }
        if let (Call::Plan { record, .. }, Answer::Planned { .. }) = (call, answer) {
            let commands = record::parse(record).map_or(Vec::new(), |record| record.commands);
            for command in commands {
                self.add("several keys that are none", without_keys(&command).into());
                self.add("several sets", several_sets(&command).into());
                self.add("one set", one_set(&command).into());
            }
        }
        if *answer == Answer::Refused(calls::Refusal::number(7)) && before != after {
            self.add("cause 7 with stores", 1);
        }
        self.add("hit", after.counts.hit.wrapping_sub(before.counts.hit));
        self.add("miss", after.counts.miss.wrapping_sub(before.counts.miss));
        self.add(
            "dropped entries",
            after
                .counts
                .invalidate
                .wrapping_sub(before.counts.invalidate),
        );
        if matches!(call, Call::Store { .. } | Call::Resolve { .. }) {
            self.stores(before, after);
        }
    }

    /// RESP2's nulls, where they are served, taken or heard.
    fn old_nulls(&mut self, call: &Call, answer: &Answer) {
        let event = match (call, answer) {
            (_, Answer::Hit(value)) if old_null(value) => "hit with RESP2's null",
            (_, Answer::Planned { outcomes, .. }) if outcomes.iter().any(serves_old_null) => {
                "hit with RESP2's null"
            }
            (Call::Push { bytes }, Answer::Done) if old_null(bytes) => "push of RESP2's null",
            (Call::Resolve { replies, .. }, Answer::Resolved { .. }) if old_null(replies) => {
                "replies with RESP2's null"
            }
            _ => return,
        };
        self.add(event, 1);
    }

    fn stores(&mut self, before: &State, after: &State) {
        for (old, new) in before.shards.iter().zip(&after.shards) {
            for item in old {
                match new
                    .iter()
                    .find(|other| other.key == item.key && other.epoch == item.epoch)
                {
                    None => self.add("evicted or replaced", 1),
                    Some(other) if other != item => self.add("updated in place", 1),
                    Some(_) => {}
                }
            }
            let several = new.iter().filter(|item| item.entries.len() > 1).count();
            self.add("items with several entries", several as u64);
        }
    }

    fn add(&mut self, event: &'static str, times: u64) {
        *self.0.entry(event).or_default() += times;
    }

    /// How often an event was met.
    pub fn of(&self, event: &str) -> u64 {
        self.0.get(event).copied().unwrap_or(0)
    }

    /// One line of what was met.
    pub fn summary(&self) -> String {
        let parts: Vec<String> = self
            .0
            .iter()
            .map(|(event, times)| format!("{event} {times}"))
            .collect();
        parts.join(", ")
    }
}

/// Whether a command is of several keys and has none (request 4); `JSON.MGET` has its path behind them.
pub fn without_keys(command: &Command) -> bool {
    let needed = match command.args.first() {
        Some(Arg::Simple(name)) if name == b"MGET" => 1,
        Some(Arg::Simple(name)) if name == b"JSON.MGET" => 2,
        _ => return false,
    };
    let behind = command.args.iter().skip(1);
    !command.ignored && behind.filter(|&arg| *arg != Arg::Cursor).count() < needed
}

/// Whether a command has keys that nobody watches, which request 5 lets go uncached: they are behind argument 1.
pub fn several_sets(command: &Command) -> bool {
    let [Arg::Simple(name), Arg::Simple(_), more @ ..] = command.args.as_slice() else {
        return false;
    };
    !command.ignored && (among(NEVER, name) || among(SOLE_KEY, name) && !more.is_empty())
}

/// Whether a command of a name whose arguments are all keys has one.
fn one_set(command: &Command) -> bool {
    let args = command.args.as_slice();
    let alone = matches!(args, [Arg::Simple(name), Arg::Simple(_)] if among(SOLE_KEY, name));
    !command.ignored && alone
}

fn among(names: &[&str], name: &[u8]) -> bool {
    names.iter().any(|known| known.as_bytes() == name)
}

/// Whether one of RESP2's nulls stands there.
fn old_null(bytes: &[u8]) -> bool {
    let mut parts = bytes.windows(5);
    parts.any(|part| matches!(part, b"$-1\r\n" | b"*-1\r\n"))
}

fn serves_old_null(told: &Outcome) -> bool {
    match told {
        Outcome::Cached(value) => old_null(value),
        Outcome::CachedAll(values) => values.iter().any(|value| old_null(value)),
        Outcome::Multiple(places) => places
            .iter()
            .any(|place| matches!(place, Place::Served(value) if old_null(value))),
        _ => false,
    }
}

fn kind(call: &Call) -> &'static str {
    match call {
        Call::Plan { .. } => "plan",
        Call::Resolve { .. } => "resolve",
        Call::Push { .. } => "push",
        Call::Lookup { .. } => "lookup",
        Call::Store { .. } => "store",
        Call::Invalidate { .. } => "invalidate",
        Call::NewEpoch => "new epoch",
    }
}

fn outcome(told: &Outcome) -> &'static str {
    match told {
        Outcome::Ignored => "ignored",
        Outcome::NotCacheable => "not cacheable",
        Outcome::Cached(_) => "cached",
        Outcome::CachedAll(_) => "cached array",
        Outcome::Single(_) => "one key missing",
        Outcome::Multiple(places) => {
            match places.iter().any(|place| matches!(place, Place::Served(_))) {
                true => "partly served",
                false => "several missing",
            }
        }
    }
}

fn cause(number: u8) -> &'static str {
    match number {
        1 => "cause 1",
        2 => "cause 2",
        3 => "cause 3",
        4 => "cause 4",
        5 => "cause 5",
        6 => "cause 6",
        7 => "cause 7",
        8 => "cause 8",
        9 => "cause 9",
        10 => "cause 10",
        _ => "cause 11",
    }
}

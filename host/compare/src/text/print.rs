//! Setups, calls, answers and states as lines of text.

use calls::{Answer, Arg, At, Call, Command, Item, Missing, Outcome, Place, Setup, State, record};
use std::fmt::Write;

/// Bytes in quotes, those that do not print escaped.
pub fn bytes(bytes: &[u8]) -> String {
    let mut out = String::from("\"");
    for &byte in bytes {
        match byte {
            b'"' | b'\\' => {
                out.push('\\');
                out.push(byte.into());
            }
            b'\r' => out += "\\r",
            b'\n' => out += "\\n",
            b' '..=b'~' => out.push(byte.into()),
            _ => write!(out, "\\x{byte:02x}").expect("writing to a string"),
        }
    }
    out + "\""
}

/// A setup's line.
pub fn setup(setup: &Setup) -> String {
    let Setup {
        size,
        arena,
        mode,
        default_ttl,
        counts,
    } = setup;
    let calls::Counts {
        hit,
        miss,
        invalidate,
    } = counts;
    format!(
        "> setup size={size} arena={arena} mode={mode} ttl={default_ttl} hit={hit} miss={miss} invalidate={invalidate}\n"
    )
}

/// A call's lines. A record that is not valid is shown as its bytes.
pub fn call(at: At, call: &Call) -> String {
    let (name, rest) = match call {
        Call::NewEpoch => return "> new-epoch\n".to_string(),
        Call::Plan {
            record,
            send_room,
            plan_room,
        } => (
            "plan",
            format!("send={send_room} plan={plan_room} {}", plan(record)),
        ),
        Call::Resolve {
            plan,
            replies,
            room,
        } => (
            "resolve",
            format!("plan={plan} room={room} replies={}\n", bytes(replies)),
        ),
        Call::Push { bytes: push } => ("push", format!("bytes={}\n", bytes(push))),
        Call::Lookup { key, command } => (
            "lookup",
            format!("key={} command={}\n", bytes(key), bytes(command)),
        ),
        Call::Store {
            key,
            command,
            value,
            expiry,
        } => (
            "store",
            format!(
                "key={} command={} value={} expiry={expiry}\n",
                bytes(key),
                bytes(command),
                bytes(value)
            ),
        ),
        Call::Invalidate { key } => ("invalidate", format!("key={}\n", bytes(key))),
    };
    let At {
        clock,
        epoch,
        mode,
        default_ttl,
    } = at;
    format!("> {name} clock={clock} epoch={epoch} mode={mode} ttl={default_ttl} {rest}")
}

fn plan(bytes_of_record: &[u8]) -> String {
    let Ok(record) = record::parse(bytes_of_record) else {
        return format!("record={}\n", bytes(bytes_of_record));
    };
    let transaction = u8::from(record.transaction);
    let mut out = format!("transaction={transaction}\n");
    record.commands.iter().for_each(|one| out += &command(one));
    out
}

fn command(command: &Command) -> String {
    let mut out = String::from("> command");
    if command.ignored {
        out += " ignored";
    }
    if let Some(settings) = command.cache {
        out += " settings";
        if settings.enable_cache {
            out += " enable";
        }
        if let Some(ttl) = settings.client_ttl {
            write!(out, " ttl={ttl}").expect("writing to a string");
        }
    }
    if command.cursor != 0 {
        write!(out, " cursor={}", command.cursor).expect("writing to a string");
    }
    for arg in &command.args {
        match arg {
            Arg::Simple(simple) => out += &format!(" {}", bytes(simple)),
            Arg::Cursor => out += " @",
        }
    }
    out + "\n"
}

/// An answer's lines.
pub fn answer(answer: &Answer) -> String {
    match answer {
        Answer::Planned {
            sent,
            responses: (skip, take),
            outcomes,
        } => {
            let mut out = format!("< sent {} skip {skip} take {take}\n", bytes(sent));
            outcomes.iter().for_each(|one| out += &outcome(one));
            out
        }
        Answer::Resolved { result, refused } => {
            format!("< result {} refused stores {refused}\n", bytes(result))
        }
        Answer::Hit(value) => format!("< hit {}\n", bytes(value)),
        Answer::Miss => "< miss\n".to_string(),
        Answer::Epoch(epoch) => format!("< epoch {epoch}\n"),
        Answer::Done => "< done\n".to_string(),
        Answer::Refused(refusal) => match refusal.offset {
            Some(offset) => format!("< refused {} at {offset}\n", refusal.cause),
            None => format!("< refused {}\n", refusal.cause),
        },
    }
}

fn outcome(outcome: &Outcome) -> String {
    match outcome {
        Outcome::Ignored => "< ignored\n".to_string(),
        Outcome::NotCacheable => "< not cacheable\n".to_string(),
        Outcome::Cached(value) => format!("< cached {}\n", bytes(value)),
        Outcome::CachedAll(values) => {
            let mut out = format!("< cached, places {}\n", values.len());
            values
                .iter()
                .for_each(|value| out += &format!("<   served {}\n", bytes(value)));
            out
        }
        Outcome::Single(one) => format!("< missing {}\n", missing(one)),
        Outcome::Multiple(places) => {
            let mut out = format!("< several {}\n", places.len());
            for place in places {
                out += &match place {
                    Place::Served(value) => format!("<   served {}\n", bytes(value)),
                    Place::Waiting(one) => format!("<   missing {}\n", missing(one)),
                };
            }
            out
        }
    }
}

fn missing(missing: &Missing) -> String {
    format!(
        "{} command {} until {}",
        bytes(&missing.key),
        bytes(&missing.command),
        missing.client_expiry
    )
}

/// A state's lines: counts and next number, then the shards that hold items.
pub fn state(state: &State) -> String {
    let calls::Counts {
        hit,
        miss,
        invalidate,
    } = state.counts;
    let mut out = format!(
        "= shards {} next epoch {} hit {hit} miss {miss} invalidate {invalidate}\n",
        state.shards.len(),
        state.next_epoch
    );
    for (number, row) in state.shards.iter().enumerate() {
        row.iter().for_each(|one| out += &item(number, one));
    }
    out
}

fn item(shard: usize, item: &Item) -> String {
    let mut out = format!(
        "= {shard}: {} epoch {} until {}:",
        bytes(&item.key),
        item.epoch,
        item.expiry
    );
    for entry in &item.entries {
        out += &format!(" {} {}", bytes(&entry.command), bytes(&entry.value));
    }
    out + "\n"
}

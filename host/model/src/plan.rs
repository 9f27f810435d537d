//! Planning: what of a record is served, what is sent, and what a later resolving must know.

use crate::book::Book;
use crate::commands;
use crate::pack::Sent;
use calls::{Arg, At, Command, Missing, Outcome, Place, Record, Refusal};

/// A plan.
#[derive(Clone, Debug, PartialEq, Eq)]
pub struct Plan {
    /// Whether the record was a transaction.
    pub transaction: bool,
    /// The outcome of each command.
    pub outcomes: Vec<Outcome>,
}

/// Plans a record: the lookups are made in the book. Cause 4 where a client expiry is past 64 bits; the book is then of no
/// more use.
pub fn plan(book: &mut Book, at: At, record: &Record) -> Result<(Plan, Sent), Refusal> {
    let mut sent = Sent::default();
    let mut outcomes = Vec::new();
    for command in &record.commands {
        let outcome = outcome(book, at, command)?;
        send(&mut sent, at, command, &outcome);
        outcomes.push(outcome);
    }
    Ok((
        Plan {
            transaction: record.transaction,
            outcomes,
        },
        sent,
    ))
}

fn outcome(book: &mut Book, at: At, command: &Command) -> Result<Outcome, Refusal> {
    if command.ignored {
        return Ok(Outcome::Ignored);
    }
    let settings = command.cache.unwrap_or_default();
    if at.mode == 1 && !settings.enable_cache {
        return Ok(Outcome::NotCacheable);
    }
    let name = match command.args.first() {
        Some(Arg::Simple(name)) if !name.is_empty() => name,
        _ => return Ok(Outcome::NotCacheable),
    };
    let ttl = settings.client_ttl.unwrap_or(at.default_ttl);
    let client_expiry = at.clock.checked_add(ttl).ok_or(Refusal::number(4))?;
    let missing = |key: &[u8], command: Vec<u8>| Missing {
        key: key.to_vec(),
        command,
        client_expiry,
    };
    if let Some((single, has_path)) = commands::multi_key(name) {
        if keys_and_path(command, has_path).0.is_empty() {
            return Ok(Outcome::NotCacheable);
        }
        return Ok(several(book, at, command, single, has_path, missing));
    }
    let key = match command.args.get(1) {
        Some(Arg::Simple(key))
            if commands::cacheable(name) && commands::may_have(name, command.args.len() - 1) =>
        {
            key
        }
        _ => return Ok(Outcome::NotCacheable),
    };
    let command_key = simple(&command.args).concat();
    Ok(match book.lookup(at.clock, at.epoch, key, &command_key) {
        Some(value) => Outcome::Cached(value),
        None => Outcome::Single(missing(key, command_key)),
    })
}

/// The simple arguments.
fn simple(args: &[Arg]) -> Vec<&[u8]> {
    args.iter()
        .filter_map(|arg| match arg {
            Arg::Simple(bytes) => Some(bytes.as_slice()),
            Arg::Cursor => None,
        })
        .collect()
}

/// The keys of a several-key command, and its path.
fn keys_and_path(command: &Command, has_path: bool) -> (Vec<&[u8]>, Option<&[u8]>) {
    let mut keys = simple(&command.args[1..]);
    let path = if has_path { keys.pop() } else { None };
    (keys, path)
}

fn several(
    book: &mut Book,
    at: At,
    command: &Command,
    single: &[u8],
    has_path: bool,
    missing: impl Fn(&[u8], Vec<u8>) -> Missing,
) -> Outcome {
    let (keys, path) = keys_and_path(command, has_path);
    let mut places = Vec::new();
    for key in keys {
        let command_key = [single, key, path.unwrap_or(b"")].concat();
        places.push(match book.lookup(at.clock, at.epoch, key, &command_key) {
            Some(value) => Place::Served(value),
            None => Place::Waiting(missing(key, command_key)),
        });
    }
    let served = places.iter().map(|place| match place {
        Place::Served(value) => Some(value.clone()),
        Place::Waiting(_) => None,
    });
    match served.collect::<Option<_>>() {
        Some(values) => Outcome::CachedAll(values),
        None => Outcome::Multiple(places),
    }
}

fn send(sent: &mut Sent, at: At, command: &Command, outcome: &Outcome) {
    let opt_in = at.mode == 1;
    match outcome {
        Outcome::Cached(_) | Outcome::CachedAll(_) => {}
        Outcome::Ignored | Outcome::NotCacheable => sent.add_command(command),
        Outcome::Single(missing) => {
            if opt_in {
                sent.add(&["CLIENT", "CACHING", "YES"]);
            }
            sent.add(&[b"PTTL", missing.key.as_slice()]);
            sent.add_command(command);
        }
        Outcome::Multiple(places) => {
            if opt_in {
                sent.add(&["CLIENT", "CACHING", "YES"]);
            }
            send_several(sent, command, places);
        }
    }
}

fn send_several(sent: &mut Sent, command: &Command, places: &[Place]) {
    let Some(Arg::Simple(name)) = command.args.first() else {
        unreachable!("a several-key command has a name")
    };
    let (_, has_path) = commands::multi_key(name).expect("a several-key command");
    let (_, path) = keys_and_path(command, has_path);
    let waiting: Vec<&[u8]> = places
        .iter()
        .filter_map(|place| match place {
            Place::Waiting(missing) => Some(missing.key.as_slice()),
            Place::Served(_) => None,
        })
        .collect();
    let mut args = vec![name.as_slice()];
    args.extend(&waiting);
    args.extend(path);
    sent.add(&args);
    for key in waiting {
        sent.add(&[b"PTTL", key]);
    }
}

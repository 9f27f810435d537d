//! Resolving: the replies put into the plan's places, and the stores that they bring.

use crate::pack;
use crate::plan::Plan;
use calls::{At, Entry, Missing, Outcome, Place, Refusal, Value, resp};
use std::vec::IntoIter;

/// A store that a resolving makes.
pub struct Store {
    /// The key.
    pub key: Vec<u8>,
    /// The command key and the value.
    pub entry: Entry,
    /// The expiry.
    pub expiry: u64,
}

/// What a resolving comes to: its stores in order, and its result, or cause 7, where the stores are those of the commands
/// before the one that failed.
pub struct Resolved {
    /// The stores.
    pub stores: Vec<Store>,
    /// The result's bytes.
    pub result: Result<Vec<u8>, Refusal>,
}

/// Resolves a plan with the replies, under the clock and mode of this call. Changes nothing.
pub fn resolve(plan: &Plan, at: At, replies: Value) -> Resolved {
    let mut stores = Vec::new();
    let result = answers(plan, at, replies, &mut stores).ok_or(Refusal::number(7));
    Resolved { stores, result }
}

fn answers(plan: &Plan, at: At, replies: Value, stores: &mut Vec<Store>) -> Option<Vec<u8>> {
    let mut replies = list(plan.transaction, replies)?.into_iter();
    let mut answers = Vec::new();
    for outcome in &plan.outcomes {
        let (answer, stored) = answer(outcome, at, &mut replies)?;
        answers.push(answer);
        stores.extend(stored);
    }
    let answers = pack::array(&answers);
    Some(if plan.transaction {
        pack::array(&[answers])
    } else {
        answers
    })
}

/// The list of replies: an array, in a transaction the one array in it.
fn list(transaction: bool, replies: Value) -> Option<Vec<Value>> {
    let mut list = array(replies)?;
    if !transaction {
        return Some(list);
    }
    let only = list.pop()?;
    if list.is_empty() { array(only) } else { None }
}

fn array(value: Value) -> Option<Vec<Value>> {
    match value {
        Value::Array(list) => Some(list),
        _ => None,
    }
}

fn answer(
    outcome: &Outcome,
    at: At,
    replies: &mut IntoIter<Value>,
) -> Option<(Vec<u8>, Vec<Store>)> {
    let missing = matches!(outcome, Outcome::Single(_) | Outcome::Multiple(_));
    if missing && at.mode == 1 {
        replies.next()?;
    }
    match outcome {
        Outcome::Ignored | Outcome::NotCacheable => {
            Some((resp::encode(&replies.next()?), Vec::new()))
        }
        Outcome::Cached(value) => Some((value.clone(), Vec::new())),
        Outcome::CachedAll(values) => Some((pack::array(values), Vec::new())),
        Outcome::Single(missing) => {
            let (pttl, reply) = (replies.next()?, replies.next()?);
            let stored = store(missing, at.clock, &pttl, &reply);
            Some((resp::encode(&reply), stored.into_iter().collect()))
        }
        Outcome::Multiple(places) => {
            let elements = array(replies.next()?)?;
            Some(several(places, at.clock, elements, replies))
        }
    }
}

fn several(
    places: &[Place],
    clock: u64,
    elements: Vec<Value>,
    replies: &mut IntoIter<Value>,
) -> (Vec<u8>, Vec<Store>) {
    let mut answer: Vec<Vec<u8>> = places
        .iter()
        .map(|place| match place {
            Place::Served(value) => value.clone(),
            Place::Waiting(_) => b"_\r\n".to_vec(),
        })
        .collect();
    let mut waiting = places
        .iter()
        .enumerate()
        .filter_map(|(place, kind)| match kind {
            Place::Waiting(missing) => Some((place, missing)),
            Place::Served(_) => None,
        });
    let mut stores = Vec::new();
    for element in elements {
        let Some(pttl) = replies.next() else { break };
        let Some((place, missing)) = waiting.next() else {
            break;
        };
        stores.extend(store(missing, clock, &pttl, &element));
        answer[place] = resp::encode(&element);
    }
    (pack::array(&answer), stores)
}

/// The store of a reply, unless it is a server error.
fn store(missing: &Missing, clock: u64, pttl: &Value, reply: &Value) -> Option<Store> {
    if matches!(reply, Value::Error(_) | Value::BlobError(_)) {
        return None;
    }
    let expiry = match pttl {
        Value::Integer(pttl) if *pttl > 0 => clock
            .saturating_add(pttl.unsigned_abs())
            .min(missing.client_expiry),
        _ => missing.client_expiry,
    };
    let entry = Entry {
        command: missing.command.clone(),
        value: resp::encode(reply),
    };
    Some(Store {
        key: missing.key.clone(),
        entry,
        expiry,
    })
}

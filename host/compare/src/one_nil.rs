//! To the crate all nulls are one Nil (request 1): calls, answers and states with every null in them spelled `_`. This is the one place that passes over a spelling;
//! everywhere else bytes are compared as they are.

use calls::resp::{self, Spelling, Value};
use calls::{Answer, Call, Outcome, Place, State};

/// A call that says the same. Its buffers hold whatever is written, for that is shorter or longer by the spelling.
pub fn call(call: &Call) -> Call {
    let mut call = call.clone();
    match &mut call {
        Call::Plan {
            send_room,
            plan_room,
            ..
        } => (*send_room, *plan_room) = (usize::MAX, usize::MAX),
        Call::Resolve { replies, room, .. } => (*replies, *room) = (bytes(replies), usize::MAX),
        Call::Push { bytes: push } => *push = bytes(push),
        Call::Store { value, .. } => *value = bytes(value),
        Call::Lookup { .. } | Call::Invalidate { .. } | Call::NewEpoch => {}
    }
    call
}

/// An answer that says the same.
pub fn answer(mut answer: Answer) -> Answer {
    match &mut answer {
        Answer::Planned { outcomes, .. } => outcomes.iter_mut().for_each(outcome),
        Answer::Resolved { result, .. } => *result = bytes(result),
        Answer::Hit(value) => *value = bytes(value),
        Answer::Miss | Answer::Epoch(_) | Answer::Done | Answer::Refused(_) => {}
    }
    answer
}

/// A state in which the same is kept.
pub fn state(mut state: State) -> State {
    let items = state.shards.iter_mut().flatten();
    for entry in items.flat_map(|item| &mut item.entries) {
        entry.value = bytes(&entry.value);
    }
    state
}

fn outcome(outcome: &mut Outcome) {
    match outcome {
        Outcome::Cached(value) => *value = bytes(value),
        Outcome::CachedAll(values) => values.iter_mut().for_each(|value| *value = bytes(value)),
        Outcome::Multiple(places) => {
            for place in places {
                if let Place::Served(value) = place {
                    *value = bytes(value);
                }
            }
        }
        Outcome::Ignored | Outcome::NotCacheable | Outcome::Single(_) => {}
    }
}

/// Bytes that are no value stay.
fn bytes(bytes: &[u8]) -> Vec<u8> {
    resp::parse(bytes).map_or(bytes.to_vec(), |read| resp::encode(&value(read)))
}

fn value(read: Value) -> Value {
    let all = |list: Vec<Value>| list.into_iter().map(value).collect();
    let both = |list: Vec<(Value, Value)>| {
        let pairs = list.into_iter();
        pairs.map(|(k, v)| (value(k), value(v))).collect()
    };
    match read {
        Value::Null(_) => Value::Null(Spelling::Underscore),
        Value::Array(list) => Value::Array(all(list)),
        Value::Set(list) => Value::Set(all(list)),
        Value::Push(list) => Value::Push(all(list)),
        Value::Map(list) => Value::Map(both(list)),
        Value::Attribute(list, of) => Value::Attribute(both(list), Box::new(value(*of))),
        other => other,
    }
}

#[cfg(test)]
mod tests {
    use super::*;

    #[test]
    fn nulls_at_any_place_become_one() {
        for (spelled, one) in [
            ("$-1\r\n", "_\r\n"),
            ("*3\r\n$-1\r\n_\r\n*-1\r\n", "*3\r\n_\r\n_\r\n_\r\n"),
            ("%1\r\n*-1\r\n~1\r\n$-1\r\n", "%1\r\n_\r\n~1\r\n_\r\n"),
            ("|1\r\n$-1\r\n_\r\n*-1\r\n", "|1\r\n_\r\n_\r\n_\r\n"),
            (">2\r\n+a\r\n*-1\r\n", ">2\r\n+a\r\n_\r\n"),
            ("$5\r\n$-1\r\n\r\n", "$5\r\n$-1\r\n\r\n"),
            ("*2\r\n:-1\r\n*0\r\n", "*2\r\n:-1\r\n*0\r\n"),
            ("$-2\r\n", "$-2\r\n"),
        ] {
            assert_eq!(bytes(spelled.as_bytes()), one.as_bytes(), "{spelled:?}");
        }
    }
}

//! The crate's own sources as a party.

use super::Party;
use calls::{Answer, At, Call, Refusal, State, record, resp};
use model::layout::plan;
use reference::Reference;

/// The crate takes values, not bytes, and has no causes of its own but 7 and, by the space rule's hook, 11. Causes 4, 5
/// and 8 are judged on its own sums and lengths, and then what it did is undone.
impl Party for Reference {
    fn name(&self) -> &'static str {
        "reference"
    }

    fn call(&mut self, at: At, call: &Call) -> Option<Answer> {
        if (at.mode > 1 && *call != Call::NewEpoch) || too_long(call) {
            return None;
        }
        Some(match call {
            Call::Plan {
                record,
                send_room,
                plan_room,
            } => {
                let record = record::parse(record).ok()?;
                judged(self, |r| match r.plan(at, &record) {
                    None => Err(4),
                    Some(Answer::Planned { sent, outcomes, .. })
                        if sent.len() > *send_room
                            || plan::encode(false, &outcomes).len() > *plan_room =>
                    {
                        Err(5)
                    }
                    Some(answer) => Ok(answer),
                })
            }
            Call::Resolve {
                plan,
                replies,
                room,
            } => {
                let replies = resp::parse(replies)?;
                judged(self, |r| match r.resolve(at, *plan, replies) {
                    Answer::Resolved { result, .. } if result.len() > *room => Err(8),
                    answer => Ok(answer),
                })
            }
            Call::Push { bytes } => self.push(at, resp::parse(bytes)?),
            Call::Lookup { key, command } => self.lookup(at, key, command),
            Call::Store {
                key,
                command,
                value,
                expiry,
            } => self.store(at, key, command, resp::parse(value)?, *expiry),
            Call::Invalidate { key } => self.invalidate(at, key),
            Call::NewEpoch => self.new_epoch(),
        })
    }

    fn state(&self) -> State {
        Reference::state(self)
    }
}

/// Makes a call, and undoes it where it is then refused for this cause.
fn judged(
    reference: &mut Reference,
    call: impl FnOnce(&mut Reference) -> Result<Answer, u8>,
) -> Answer {
    let before = reference.copy();
    call(reference).unwrap_or_else(|cause| {
        *reference = before;
        Answer::Refused(Refusal::number(cause))
    })
}

/// A call past the limits, of which the crate has none.
fn too_long(call: &Call) -> bool {
    let longest = |key: &[u8], rest: usize| key.len() > 65_535 || rest > 16 << 20;
    match call {
        Call::Plan { record, .. } => longest(b"", record.len()),
        Call::Lookup { key, command } => longest(key, command.len()),
        Call::Store {
            key,
            command,
            value,
            ..
        } => longest(key, command.len().max(value.len())),
        Call::Invalidate { key } => longest(key, 0),
        _ => false,
    }
}

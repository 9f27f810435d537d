//! Planning and resolving by the library. Output buffers hold known bytes before the call: all of them must still stand after a
//! refusal, but for cause 7, which zeroes the answer buffer, and those behind what was written after a success.

use super::{Library, now, refusal};
use crate::output::Output;
use calls::{Answer, At, Outcome, Refusal, record};
use model::layout;
use redis_cache::{Cause, lent};

impl Library {
    pub(super) fn plan(
        &mut self,
        at: At,
        record: &[u8],
        (plan_room, send_room): (usize, usize),
    ) -> Result<Answer, Refusal> {
        let mut plan = Output::of(plan_room, self.side);
        let mut send = Output::of(send_room, self.side);
        let (mut cache, counts) = self.with_counts(at);
        let planned = cache.plan(now(at), record, counts, plan.bytes_mut(), send.bytes_mut());
        let planned = planned.map(|written| {
            let lengths = (written.plan.len(), written.send.len());
            (lengths, written.responses)
        });
        let ((plan_length, send_length), responses) = planned.map_err(|refused| {
            plan.assert_unchanged();
            send.assert_unchanged();
            let offset = refused.offset.map(|offset| offset as usize);
            Refusal {
                offset,
                ..refusal(refused.cause)
            }
        })?;
        let plan = plan.written(plan_length);
        self.lend_plan(plan);
        Ok(Answer::Planned {
            sent: send.written(send_length).to_vec(),
            responses: (responses.offset, responses.count),
            outcomes: outcomes(record, plan),
        })
    }

    pub(super) fn resolve(
        &mut self,
        at: At,
        plan: &[u8],
        replies: &[u8],
        room: usize,
    ) -> Result<Answer, Refusal> {
        let served = self.served(plan, room);
        let mut answer = Output::of(room, self.side);
        let mut cache = self.cache(at);
        let resolved = cache.resolve(now(at), plan, replies, answer.bytes_mut());
        let resolved = resolved.map(|written| (written.answer.len(), written.refused));
        let (length, refused) = resolved.map_err(|cause| {
            match cause {
                Cause::BadShape => answer.assert_zeroed(),
                _ => answer.assert_unchanged(),
            }
            refusal(cause)
        })?;
        let result = answer.written(length).to_vec();
        if let Some(served) = served {
            assert_eq!(served, result, "answered without replies");
        }
        Ok(Answer::Resolved { result, refused })
    }

    /// The answer without arena and replies, where the plan needs none and the answer has room.
    ///
    /// # Panics
    /// Where the library answers or refuses otherwise than the plan's bytes say.
    fn served(&self, plan: &[u8], room: usize) -> Option<Vec<u8>> {
        let mut answer = Output::of(room, self.side);
        let served = lent::served(plan, answer.bytes_mut()).map(|bytes| bytes.map(<[u8]>::len));
        let is_served =
            |outcome: &Outcome| matches!(outcome, Outcome::Cached(_) | Outcome::CachedAll(_));
        let whole = layout::plan::decode(plan).map(|read| read.outcomes.iter().all(is_served));
        match (whole, served) {
            (Some(true), Ok(Some(length))) => return Some(answer.written(length).to_vec()),
            (None, Err(Cause::BadPlan))
            | (Some(false), Ok(None))
            | (Some(true), Err(Cause::ShortAnswer)) => answer.assert_unchanged(),
            (whole, served) => panic!("served whole: {whole:?}, and the library: {served:?}"),
        }
        None
    }
}

/// The outcomes that a plan's bytes tell. They do not tell an ignored command from one that is not cacheable: the record does.
///
/// # Panics
/// Where the bytes are not exactly those of a plan of these outcomes for this record.
fn outcomes(record: &[u8], plan: &[u8]) -> Vec<Outcome> {
    let record = record::parse(record).expect("a record that planning took");
    let read = layout::plan::decode(plan).expect("a plan under the layout");
    let again = layout::plan::encode(record.transaction, &read.outcomes);
    assert_eq!(plan, again, "the plan's bytes");
    assert_eq!(read.outcomes.len(), record.commands.len(), "commands");
    let told = read.outcomes.into_iter().zip(&record.commands);
    told.map(|(outcome, command)| match outcome {
        Outcome::NotCacheable if command.ignored => Outcome::Ignored,
        other => other,
    })
    .collect()
}

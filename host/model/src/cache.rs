//! The calls: checks in their order, then what the book does. A refused call does nothing, but the stores that cause 7
//! leaves remain.

use crate::book::Book;
use crate::plan::{self, Plan};
use crate::push::{self, Invalidated};
use crate::{config, layout, resolve};
use calls::{Answer, At, Call, Entry, Item, Refusal, Setup, State, Value, record, resp};

/// The longest key of a single call.
const MOST_KEY: usize = 65_535;

/// The most bytes of a single call's command key and value.
const MOST_BYTES: usize = 16 << 20;

/// One cache with its plans.
#[derive(Clone)]
pub struct Model {
    setup: Setup,
    book: Book,
    plans: Vec<Plan>,
}

impl Model {
    /// Sets a cache up, or refuses as cause 1.
    pub fn setup(setup: &Setup) -> Result<Self, Refusal> {
        config::check(setup)?;
        Ok(Model {
            setup: setup.clone(),
            book: Book::new(setup),
            plans: Vec::new(),
        })
    }

    /// The cache of an arena that holds these rows, which are none that cause 9 refuses; the counts are the setup's.
    pub fn of(setup: &Setup, shards: Vec<Vec<Item>>) -> Self {
        let mut model = Model::setup(setup).expect("a setup that is not refused");
        model.book.state.shards = shards;
        model
    }

    /// Makes a call.
    ///
    /// # Panics
    /// On resolving a plan that was never written.
    pub fn call(&mut self, at: At, call: &Call) -> Answer {
        self.answer(at, call).unwrap_or_else(Answer::Refused)
    }

    /// The state after the calls so far.
    pub fn state(&self) -> &State {
        &self.book.state
    }

    /// Takes a plan that its own planning did not write, to be resolved by the next number.
    pub fn lend_plan(&mut self, plan: Plan) {
        self.plans.push(plan);
    }

    /// Sets the number that the next new epoch takes.
    pub fn set_next_epoch(&mut self, next: u64) {
        self.book.state.next_epoch = next;
    }

    fn answer(&mut self, at: At, call: &Call) -> Result<Answer, Refusal> {
        if *call == Call::NewEpoch {
            return Ok(Answer::Epoch(self.book.new_epoch()));
        }
        config::check_call(&self.setup, at)?;
        match call {
            Call::Plan {
                record,
                send_room,
                plan_room,
            } => self.plan(at, record, (*send_room, *plan_room)),
            Call::Resolve {
                plan,
                replies,
                room,
            } => self.resolve(at, *plan, replies, *room),
            Call::Push { bytes } => self.push(bytes),
            Call::Lookup { key, command } => {
                limits(key, command, b"")?;
                let served = self.book.lookup(at.clock, at.epoch, key, command);
                Ok(served.map_or(Answer::Miss, Answer::Hit))
            }
            Call::Store {
                key,
                command,
                value,
                expiry,
            } => {
                limits(key, command, value)?;
                resp::parse(value).ok_or(Refusal::number(6))?;
                let entry = Entry {
                    command: command.clone(),
                    value: value.clone(),
                };
                self.book.store(at.epoch, key, entry, *expiry)?;
                Ok(Answer::Done)
            }
            Call::Invalidate { key } => {
                limits(key, b"", b"")?;
                self.book.invalidate(key);
                Ok(Answer::Done)
            }
            Call::NewEpoch => unreachable!("answered above"),
        }
    }

    fn plan(
        &mut self,
        at: At,
        bytes: &[u8],
        (send_room, plan_room): (usize, usize),
    ) -> Result<Answer, Refusal> {
        if bytes.len() > record::MOST_BYTES {
            return Err(Refusal::number(3));
        }
        let record = record::parse(bytes).map_err(|offset| Refusal {
            cause: 2,
            offset: Some(offset),
        })?;
        let mut book = self.book.clone();
        let (plan, sent) = plan::plan(&mut book, at, &record)?;
        let (sent, responses) = sent.finish(record.transaction);
        let bytes = layout::plan::encode(plan.transaction, &plan.outcomes);
        if sent.len() > send_room || bytes.len() > plan_room {
            return Err(Refusal::number(5));
        }
        self.book = book;
        let outcomes = plan.outcomes.clone();
        self.plans.push(plan);
        Ok(Answer::Planned {
            sent,
            responses,
            outcomes,
        })
    }

    fn resolve(
        &mut self,
        at: At,
        plan: usize,
        replies: &[u8],
        room: usize,
    ) -> Result<Answer, Refusal> {
        let replies = resp::parse(replies).ok_or(Refusal::number(6))?;
        let resolved = resolve::resolve(&self.plans[plan], at, replies);
        if resolved
            .result
            .as_ref()
            .is_ok_and(|result| result.len() > room)
        {
            return Err(Refusal::number(8));
        }
        let mut refused = 0;
        for store in resolved.stores {
            let stored = self
                .book
                .store(at.epoch, &store.key, store.entry, store.expiry);
            refused += u64::from(stored.is_err());
        }
        Ok(Answer::Resolved {
            result: resolved.result?,
            refused,
        })
    }

    fn push(&mut self, bytes: &[u8]) -> Result<Answer, Refusal> {
        let value: Value = resp::parse(bytes).ok_or(Refusal::number(6))?;
        match push::invalidated(&value) {
            Invalidated::Keys(keys) => keys.iter().for_each(|key| self.book.invalidate(key)),
            Invalidated::All => self.book.invalidate_all(),
        }
        Ok(Answer::Done)
    }
}

/// Cause 3 in a single call.
fn limits(key: &[u8], command: &[u8], value: &[u8]) -> Result<(), Refusal> {
    if key.len() > MOST_KEY || command.len() > MOST_BYTES || value.len() > MOST_BYTES {
        return Err(Refusal::number(3));
    }
    Ok(())
}

//! The proved library as a party, through the safe wrapper. Everything that it is lent has guards, which must stay intact; what
//! it is lent to read must stay as it was, and a value that it hands out must be a part of the arena. A breach is a panic.
//!
//! Items are read off the arena's bytes by the model's layout, and outcomes off the plan's.

mod pipeline;

use super::Party;
use crate::guarded::{Guarded, Side};
use calls::{Answer, At, Call, Refusal, Setup, State};
use model::layout;
use redis_cache::Cause;
use redis_cache::lent::{Cache, Counts, Epochs, Looked, Now, Settings, new_epoch, read_counts};

/// What stands around the counts.
const BESIDE: Counts = Counts {
    hit: 0x5a5a,
    miss: 0x5a5b,
    invalidate: 0x5a5c,
};

/// The library's cache.
pub struct Library {
    arena: Guarded,
    size: u64,
    /// The counts, and known numbers before and behind them.
    counts: [Counts; 3],
    next_epoch: u64,
    /// The plans that it wrote or was given.
    plans: Vec<Vec<u8>>,
    side: Side,
}

impl Library {
    /// Sets a cache up in a guarded arena that held other bytes.
    ///
    /// # Errors
    /// Cause 1.
    pub fn setup(setup: &Setup) -> Result<Self, Refusal> {
        let side = match setup.size % 2 {
            0 => Side::Before,
            _ => Side::Behind,
        };
        let mut arena = Guarded::zeros(setup.arena as usize, side);
        arena.bytes_mut().fill(0x77);
        let at = At {
            mode: setup.mode,
            default_ttl: setup.default_ttl,
            ..At::default()
        };
        let mut library = Library::of(setup, arena);
        let epochs = library.cache(at).setup();
        library.check_guards();
        let epochs = epochs.map_err(|cause| {
            let untouched = library.arena.bytes().iter().all(|&byte| byte == 0x77);
            assert!(untouched, "a refused setup leaves the arena");
            refusal(cause)
        })?;
        assert_eq!(epochs.epoch, 0, "the first epoch");
        library.next_epoch = epochs.next;
        Ok(library)
    }

    /// The library over an arena as it is lent, with the setup's counts.
    pub fn of(setup: &Setup, arena: Guarded) -> Self {
        let counts = Counts {
            hit: setup.counts.hit,
            miss: setup.counts.miss,
            invalidate: setup.counts.invalidate,
        };
        Library {
            arena,
            size: setup.size,
            counts: [BESIDE, counts, BESIDE],
            next_epoch: 1,
            plans: Vec::new(),
            side: Side::Before,
        }
    }

    /// The arena's bytes.
    pub fn arena(&self) -> &[u8] {
        self.arena.bytes()
    }

    /// Takes a plan from elsewhere, to be resolved by the next number.
    pub fn lend_plan(&mut self, bytes: &[u8]) {
        self.plans.push(bytes.to_vec());
    }

    fn cache(&mut self, at: At) -> Cache<'_> {
        self.with_counts(at).0
    }

    /// The cache, and the counts beside it.
    fn with_counts(&mut self, at: At) -> (Cache<'_>, &mut Counts) {
        let settings = Settings {
            size: self.size,
            mode: at.mode.into(),
            default_ttl: at.default_ttl,
        };
        let arena = self.arena.bytes_mut();
        (Cache { arena, settings }, &mut self.counts[1])
    }

    fn lookup(&mut self, at: At, key: &[u8], command: &[u8]) -> Result<Answer, Refusal> {
        let range = self.arena.bytes().as_ptr_range();
        let (mut cache, counts) = self.with_counts(at);
        let looked = cache.lookup(now(at), key, command, counts);
        Ok(match looked.map_err(refusal)? {
            Looked::Miss => Answer::Miss,
            Looked::Hit(value) => {
                let part = value.as_ptr_range();
                let inside = range.start <= part.start && part.end <= range.end;
                assert!(inside, "a value is a part of the arena");
                Answer::Hit(value.to_vec())
            }
        })
    }

    /// Makes a call with guarded copies of what it only reads.
    fn guarded(
        &mut self,
        read: &[&[u8]],
        call: impl FnOnce(&mut Self, &[&[u8]]) -> Result<Answer, Refusal>,
    ) -> Answer {
        self.side = match self.side {
            Side::Before => Side::Behind,
            Side::Behind => Side::Before,
        };
        let lent: Vec<Guarded> = read
            .iter()
            .map(|bytes| Guarded::copy(bytes, self.side))
            .collect();
        let parts: Vec<&[u8]> = lent.iter().map(Guarded::bytes).collect();
        let answer = call(self, &parts).unwrap_or_else(Answer::Refused);
        self.check_guards();
        assert!(
            lent.iter().all(Guarded::intact),
            "wrote beside what it reads"
        );
        assert_eq!(parts, read, "wrote to what it reads");
        answer
    }

    fn check_guards(&self) {
        assert!(self.arena.intact(), "wrote beside the arena");
        let [before, _, behind] = self.counts;
        assert_eq!([before, behind], [BESIDE; 2], "wrote beside the counts");
    }
}

fn now(at: At) -> Now {
    Now {
        clock: at.clock,
        epoch: at.epoch,
    }
}

fn refusal(cause: Cause) -> Refusal {
    Refusal::number(cause.number())
}

fn done(made: Result<(), Cause>) -> Result<Answer, Refusal> {
    made.map(|()| Answer::Done).map_err(refusal)
}

impl Party for Library {
    fn name(&self) -> &'static str {
        "library"
    }

    fn call(&mut self, at: At, call: &Call) -> Option<Answer> {
        Some(match call {
            Call::Plan {
                record,
                send_room,
                plan_room,
            } => self.guarded(&[record], |library, parts| {
                library.plan(at, parts[0], (*plan_room, *send_room))
            }),
            Call::Resolve {
                plan,
                replies,
                room,
            } => {
                let plan = self.plans[*plan].clone();
                self.guarded(&[&plan, replies], |library, parts| {
                    library.resolve(at, parts[0], parts[1], *room)
                })
            }
            Call::Push { bytes } => self.guarded(&[bytes], |library, parts| {
                let (mut cache, counts) = library.with_counts(at);
                done(cache.push(parts[0], counts))
            }),
            Call::Lookup { key, command } => self.guarded(&[key, command], |library, parts| {
                library.lookup(at, parts[0], parts[1])
            }),
            Call::Store {
                key,
                command,
                value,
                expiry,
            } => self.guarded(&[key, command, value], |library, parts| {
                let mut cache = library.cache(at);
                done(cache.store(at.epoch, parts[0], parts[1], parts[2], *expiry))
            }),
            Call::Invalidate { key } => self.guarded(&[key], |library, parts| {
                let (mut cache, counts) = library.with_counts(at);
                done(cache.invalidate(parts[0], counts))
            }),
            Call::NewEpoch => {
                let Epochs { epoch, next } = new_epoch(self.next_epoch);
                self.next_epoch = next;
                Answer::Epoch(epoch)
            }
        })
    }

    fn state(&self) -> State {
        let shards = layout::arena::decode(self.arena.bytes(), self.size);
        let counts = read_counts(&self.counts[1]);
        State {
            shards: shards.expect("the library leaves an image"),
            counts: calls::Counts {
                hit: counts.hit,
                miss: counts.miss,
                invalidate: counts.invalidate,
            },
            next_epoch: self.next_epoch,
        }
    }
}

//! Planning a call record, resolving its plan with the replies, and pushes.

use super::{Cache, Counts, Now};
use crate::{Cause, foreign};

/// What planning wrote.
///
/// ```
/// # use redis_cache::lent::{Cache, Counts, MODE_ALL, Now, PlanRefusal, Responses, Settings};
/// # use redis_cache::{Call, cmd};
/// # let settings = Settings { size: 4, mode: MODE_ALL, default_ttl: 1000 };
/// # let (mut arena, mut counts) = (vec![0; 4096], Counts::default());
/// # let (mut plan, mut send, mut answer) = (vec![0; 500], vec![0; 500], vec![0; 500]);
/// let mut cache = Cache { arena: &mut arena, settings };
/// cache.setup()?;
/// let now = Now { clock: 0, epoch: 0 };
/// let record = cmd("PING").get_record()?;
/// let planned = cache.plan(now, &record, &mut counts, &mut plan, &mut send).expect("a plan");
/// assert_eq!(planned.send, b"*1\r\n$4\r\nPING\r\n");
/// # Ok::<(), Box<dyn std::error::Error>>(())
/// ```
#[derive(Clone, Copy, Debug, PartialEq, Eq)]
pub struct Planned<'a> {
    /// The plan, which resolving is given: the front of the plan buffer.
    pub plan: &'a [u8],
    /// The bytes to send: the front of the send buffer.
    pub send: &'a [u8],
    /// Which of the responses to them are the replies.
    pub responses: Responses,
}

/// Which responses are the replies: the first `offset` are skipped, the next `count` taken. `MULTI` and `EXEC` are always sent
/// for a transaction; the reply to `EXEC` is then the one that is taken.
///
/// ```
/// # use redis_cache::lent::{Cache, Counts, MODE_ALL, Now, PlanRefusal, Responses, Settings};
/// # use redis_cache::{Call, cmd};
/// # let settings = Settings { size: 4, mode: MODE_ALL, default_ttl: 1000 };
/// # let (mut arena, mut counts) = (vec![0; 4096], Counts::default());
/// # let (mut plan, mut send, mut answer) = (vec![0; 500], vec![0; 500], vec![0; 500]);
/// let mut cache = Cache { arena: &mut arena, settings };
/// cache.setup()?;
/// let now = Now { clock: 0, epoch: 0 };
/// let record = cmd("PING").get_record()?;
/// let planned = cache.plan(now, &record, &mut counts, &mut plan, &mut send).expect("a plan");
/// assert_eq!(planned.responses, Responses { offset: 0, count: 1 });
/// # Ok::<(), Box<dyn std::error::Error>>(())
/// ```
#[derive(Clone, Copy, Debug, PartialEq, Eq)]
pub struct Responses {
    /// How many to skip.
    pub offset: u64,
    /// How many to take.
    pub count: u64,
}

/// Why a planning was refused.
///
/// ```
/// # use redis_cache::lent::{Cache, Counts, MODE_ALL, Now, PlanRefusal, Responses, Settings};
/// # use redis_cache::{Call, cmd};
/// # let settings = Settings { size: 4, mode: MODE_ALL, default_ttl: 1000 };
/// # let (mut arena, mut counts) = (vec![0; 4096], Counts::default());
/// # let (mut plan, mut send, mut answer) = (vec![0; 500], vec![0; 500], vec![0; 500]);
/// let mut cache = Cache { arena: &mut arena, settings };
/// cache.setup()?;
/// let now = Now { clock: 0, epoch: 0 };
/// let refused = cache.plan(now, b"TRX", &mut counts, &mut plan, &mut send);
/// let wrong = PlanRefusal { cause: redis_cache::Cause::BadRecord, offset: Some(2) };
/// assert_eq!(refused, Err(wrong));
/// # Ok::<(), Box<dyn std::error::Error>>(())
/// ```
#[derive(Clone, Copy, Debug, PartialEq, Eq)]
pub struct PlanRefusal {
    /// The cause.
    pub cause: Cause,
    /// With [`Cause::BadRecord`], the first byte at which no valid record goes on as this one does, or the record's length where it
    /// ends early.
    pub offset: Option<u64>,
}

/// What resolving wrote.
///
/// ```
/// # use redis_cache::lent::{Cache, Counts, MODE_ALL, Now, PlanRefusal, Responses, Settings};
/// # use redis_cache::{Call, cmd};
/// # let settings = Settings { size: 4, mode: MODE_ALL, default_ttl: 1000 };
/// # let (mut arena, mut counts) = (vec![0; 4096], Counts::default());
/// # let (mut plan, mut send, mut answer) = (vec![0; 500], vec![0; 500], vec![0; 500]);
/// let mut cache = Cache { arena: &mut arena, settings };
/// cache.setup()?;
/// let now = Now { clock: 0, epoch: 0 };
/// let record = cmd("PING").get_record()?;
/// let planned = cache.plan(now, &record, &mut counts, &mut plan, &mut send).expect("a plan");
/// let resolved = cache.resolve(now, planned.plan, b"*1\r\n+PONG\r\n", &mut answer)?;
/// assert_eq!((resolved.answer, resolved.refused), (&b"*1\r\n+PONG\r\n"[..], 0));
/// # Ok::<(), Box<dyn std::error::Error>>(())
/// ```
#[derive(Clone, Copy, Debug, PartialEq, Eq)]
pub struct Resolved<'a> {
    /// One RESP3 array with an answer for each command, in a transaction inside an array of one: the front of the answer buffer.
    pub answer: &'a [u8],
    /// How many stores found no space.
    pub refused: u64,
}

impl Cache<'_> {
    /// `get_cached_pipeline`: looks up what the record's commands ask for, and writes the plan and the bytes to send. Bytes of the
    /// buffers behind what is written stay as they were.
    ///
    /// # Errors
    /// [`Cause::BadConfig`], [`Cause::BadArena`], [`Cause::TooLong`], [`Cause::BadRecord`], [`Cause::LateExpiry`],
    /// [`Cause::ShortBuffer`]; arena, counts and buffers are then as they were.
    ///
    /// ```
    /// # use redis_cache::lent::{Cache, Counts, MODE_ALL, Now, PlanRefusal, Responses, Settings};
    /// # use redis_cache::{Call, cmd};
    /// # let settings = Settings { size: 4, mode: MODE_ALL, default_ttl: 1000 };
    /// # let (mut arena, mut counts) = (vec![0; 4096], Counts::default());
    /// # let (mut plan, mut send, mut answer) = (vec![0; 500], vec![0; 500], vec![0; 500]);
    /// let mut cache = Cache { arena: &mut arena, settings };
    /// cache.setup()?;
    /// let now = Now { clock: 0, epoch: 0 };
    /// let record = cmd("PING").get_record()?;
    /// let planned = cache.plan(now, &record, &mut counts, &mut plan, &mut send).expect("a plan");
    /// assert_eq!(planned.send, b"*1\r\n$4\r\nPING\r\n");
    /// # Ok::<(), Box<dyn std::error::Error>>(())
    /// ```
    pub fn plan<'a>(
        &mut self,
        now: Now,
        record: &[u8],
        counts: &mut Counts,
        plan: &'a mut [u8],
        send: &'a mut [u8],
    ) -> Result<Planned<'a>, PlanRefusal> {
        foreign::plan(self.arena, self.settings, now, record, counts, (plan, send))
    }

    /// `CacheablePipeline::resolve`: puts the replies into the plan's places, stores what was fetched, and writes the result.
    /// The replies are one RESP3 array of the responses that planning's counts take. Bytes of the answer buffer behind the
    /// result stay as they were.
    ///
    /// # Errors
    /// [`Cause::BadConfig`], [`Cause::BadArena`], [`Cause::BadPlan`], [`Cause::BadReply`], [`Cause::ShortAnswer`]: arena and answer
    /// buffer are then as they were. [`Cause::BadShape`]: stores of earlier commands remain, and the answer buffer is zeroed.
    ///
    /// ```
    /// # use redis_cache::lent::{Cache, Counts, MODE_ALL, Now, PlanRefusal, Responses, Settings};
    /// # use redis_cache::{Call, cmd};
    /// # let settings = Settings { size: 4, mode: MODE_ALL, default_ttl: 1000 };
    /// # let (mut arena, mut counts) = (vec![0; 4096], Counts::default());
    /// # let (mut plan, mut send, mut answer) = (vec![0; 500], vec![0; 500], vec![0; 500]);
    /// let mut cache = Cache { arena: &mut arena, settings };
    /// cache.setup()?;
    /// let now = Now { clock: 0, epoch: 0 };
    /// let record = cmd("PING").get_record()?;
    /// let planned = cache.plan(now, &record, &mut counts, &mut plan, &mut send).expect("a plan");
    /// let resolved = cache.resolve(now, planned.plan, b"*1\r\n+PONG\r\n", &mut answer)?;
    /// assert_eq!(resolved.answer, b"*1\r\n+PONG\r\n");
    /// # Ok::<(), Box<dyn std::error::Error>>(())
    /// ```
    pub fn resolve<'a>(
        &mut self,
        now: Now,
        plan: &[u8],
        replies: &[u8],
        answer: &'a mut [u8],
    ) -> Result<Resolved<'a>, Cause> {
        let given = foreign::Replies { plan, replies };
        foreign::resolve(self.arena, self.settings, now, given, answer)
    }

    /// Does what a push asks for: drops the keys that an `invalidate` names, or all, and adds their entries to `invalidate`.
    /// Any other push, and any other value, is ignored.
    ///
    /// # Errors
    /// [`Cause::BadConfig`], [`Cause::BadArena`], [`Cause::BadReply`]; arena and counts are then as they were.
    ///
    /// ```
    /// # use redis_cache::lent::{Cache, Counts, MODE_ALL, Now, PlanRefusal, Responses, Settings};
    /// # use redis_cache::{Call, cmd};
    /// # let settings = Settings { size: 4, mode: MODE_ALL, default_ttl: 1000 };
    /// # let (mut arena, mut counts) = (vec![0; 4096], Counts::default());
    /// # let (mut plan, mut send, mut answer) = (vec![0; 500], vec![0; 500], vec![0; 500]);
    /// let mut cache = Cache { arena: &mut arena, settings };
    /// cache.setup()?;
    /// let now = Now { clock: 0, epoch: 0 };
    /// cache.store(0, b"trap7", b"GETtrap7", b":12\r\n", 500)?;
    /// cache.push(b">2\r\n$10\r\ninvalidate\r\n_\r\n", &mut counts)?;
    /// assert_eq!(counts.invalidate, 1);
    /// # Ok::<(), Box<dyn std::error::Error>>(())
    /// ```
    pub fn push(&mut self, push: &[u8], counts: &mut Counts) -> Result<(), Cause> {
        foreign::push(self.arena, self.settings, push, counts)
    }
}

/// Answers a plan whose commands are all served, without arena and replies: what [`Cache::resolve`] answers to it with any list of replies. `None` where
/// some command needs replies. A transaction's `MULTI` and `EXEC` are to be sent even where all is served, by a host that watches keys or wants to be
/// told that `EXEC` was refused: send them and resolve then. Bytes of the answer buffer behind the result stay as they were.
///
/// # Errors
/// [`Cause::BadPlan`], [`Cause::ShortAnswer`]; the answer buffer is then as it was.
///
/// ```
/// # use redis_cache::lent::{Cache, Counts, MODE_ALL, Now, Settings, served};
/// # use redis_cache::{Call, cmd};
/// # let settings = Settings { size: 4, mode: MODE_ALL, default_ttl: 1000 };
/// # let (mut arena, mut counts) = (vec![0; 4096], Counts::default());
/// # let (mut plan, mut send, mut answer) = (vec![0; 500], vec![0; 500], vec![0; 500]);
/// let mut cache = Cache { arena: &mut arena, settings };
/// cache.setup()?;
/// cache.store(0, b"trap7", b"GETtrap7", b":12\r\n", 500)?;
/// let (now, record) = (Now { clock: 0, epoch: 0 }, cmd("GET").arg("trap7").get_record()?);
/// let planned = cache.plan(now, &record, &mut counts, &mut plan, &mut send).expect("a plan");
/// assert_eq!(served(planned.plan, &mut answer)?, Some(&b"*1\r\n:12\r\n"[..]));
/// # Ok::<(), Box<dyn std::error::Error>>(())
/// ```
pub fn served<'a>(plan: &[u8], answer: &'a mut [u8]) -> Result<Option<&'a [u8]>, Cause> {
    foreign::served(plan, answer)
}

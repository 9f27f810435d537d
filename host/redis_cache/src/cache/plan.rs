//! A plan in the host's hands, and the replies to what it sends.

use crate::lent::{Planned, Responses};
use crate::record::Parts;
use crate::{Cause, Error, ServerError, Value};

/// How an answer is put together.
#[derive(Clone, Debug, PartialEq, Eq)]
pub(crate) struct Shape {
    pub ignored: Vec<bool>,
    pub transaction: bool,
    pub single: bool,
}

impl Shape {
    pub fn of(parts: &Parts<'_>) -> Self {
        Shape {
            ignored: parts.ignored.to_vec(),
            transaction: parts.transaction,
            single: parts.single,
        }
    }
}

/// What planning wrote: the bytes to send, and what resolving needs when the replies are there.
///
/// ```
/// use redis_cache::{Cache, CacheConfig, cmd};
///
/// let mut cache = Cache::new(CacheConfig::new())?;
/// let plan = cache.plan(0, cmd("GET").arg("trap7"))?;
/// assert!(!plan.is_served());
/// # Ok::<(), redis_cache::Error>(())
/// ```
#[derive(Clone, Debug)]
pub struct Plan {
    plan: Vec<u8>,
    send: Vec<u8>,
    responses: Responses,
    epoch: u64,
    shape: Shape,
}

impl Plan {
    pub(crate) fn of(planned: Planned<'_>, epoch: u64, shape: Shape) -> Self {
        Plan {
            plan: planned.plan.to_vec(),
            send: planned.send.to_vec(),
            responses: planned.responses,
            epoch,
            shape,
        }
    }

    /// The bytes to send. Send them in one piece: what stands between `CLIENT CACHING YES` and the command behind it would use
    /// the flag up.
    ///
    /// ```
    /// # use redis_cache::{Cache, CacheConfig, cmd};
    /// let mut cache = Cache::new(CacheConfig::new())?;
    /// assert_eq!(cache.plan(0, &cmd("PING"))?.send(), b"*1\r\n$4\r\nPING\r\n");
    /// # Ok::<(), redis_cache::Error>(())
    /// ```
    pub fn send(&self) -> &[u8] {
        &self.send
    }

    /// Whether nothing has to be sent. A transaction always sends `MULTI` and `EXEC`.
    ///
    /// ```
    /// # use redis_cache::{Cache, CacheConfig, pipe};
    /// let mut cache = Cache::new(CacheConfig::new())?;
    /// assert!(cache.plan(0, &pipe())?.is_served());
    /// assert!(!cache.plan(0, pipe().atomic())?.is_served());
    /// # Ok::<(), redis_cache::Error>(())
    /// ```
    pub fn is_served(&self) -> bool {
        self.send.is_empty()
    }

    /// Which of the responses to what is sent are the replies.
    ///
    /// ```
    /// # use redis_cache::{Cache, CacheConfig, pipe};
    /// let mut cache = Cache::new(CacheConfig::new())?;
    /// let plan = cache.plan(0, pipe().atomic().cmd("PING"))?;
    /// assert_eq!((plan.responses().offset, plan.responses().count), (2, 1));
    /// # Ok::<(), redis_cache::Error>(())
    /// ```
    pub fn responses(&self) -> Responses {
        self.responses
    }

    /// The epoch that it was planned under.
    ///
    /// ```
    /// # use redis_cache::{Cache, CacheConfig, cmd};
    /// let mut cache = Cache::new(CacheConfig::new())?;
    /// assert_eq!(cache.plan(0, &cmd("PING"))?.epoch(), 0);
    /// # Ok::<(), redis_cache::Error>(())
    /// ```
    pub fn epoch(&self) -> u64 {
        self.epoch
    }

    /// A collector for the responses.
    ///
    /// ```
    /// # use redis_cache::{Cache, CacheConfig, cmd};
    /// let mut cache = Cache::new(CacheConfig::new())?;
    /// let mut replies = cache.plan(0, &cmd("PING"))?.replies();
    /// replies.add(b"+PONG\r\n");
    /// assert!(replies.is_complete());
    /// # Ok::<(), redis_cache::Error>(())
    /// ```
    pub fn replies(&self) -> Replies {
        let Responses { offset, count } = self.responses;
        Replies {
            skip: offset,
            wanted: count,
            bytes: format!("*{count}\r\n").into_bytes(),
            transaction: self.shape.transaction,
            queued: None,
            error: None,
            null: false,
        }
    }

    pub(crate) fn bytes(&self) -> &[u8] {
        &self.plan
    }

    pub(crate) fn shape(&self) -> &Shape {
        &self.shape
    }
}

/// The replies to one plan, collected in the order in which they come. Pushes are no replies: give them to
/// [`Cache::on_push`](crate::Cache::on_push).
///
/// ```
/// use redis_cache::{Cache, CacheConfig, pipe};
///
/// let mut cache = Cache::new(CacheConfig::new())?;
/// let plan = cache.plan(0, pipe().atomic().cmd("SET").arg("trap7").arg(12))?;
/// let mut replies = plan.replies();
/// for response in ["+OK\r\n", "+QUEUED\r\n", "*1\r\n+OK\r\n"] {
///     assert!(!replies.is_complete());
///     replies.add(response.as_bytes());
/// }
/// assert!(replies.is_complete());
/// # Ok::<(), redis_cache::Error>(())
/// ```
#[derive(Clone, Debug)]
pub struct Replies {
    skip: u64,
    wanted: u64,
    bytes: Vec<u8>,
    transaction: bool,
    /// The first error among the responses that are skipped: why a command was not queued.
    queued: Option<ServerError>,
    /// The first error among the replies.
    error: Option<ServerError>,
    /// A reply was null.
    null: bool,
}

impl Replies {
    /// Takes the next response, one value as the server wrote it. One that comes after the last is left out.
    ///
    /// ```
    /// # use redis_cache::{Cache, CacheConfig, cmd};
    /// let mut cache = Cache::new(CacheConfig::new())?;
    /// let plan = cache.plan(0, &cmd("PING"))?;
    /// let mut replies = plan.replies();
    /// replies.add(b"+PONG\r\n");
    /// let pong: String = cache.resolve(0, &plan, &replies)?.query()?;
    /// assert_eq!(pong, "PONG");
    /// # Ok::<(), Box<dyn std::error::Error>>(())
    /// ```
    pub fn add(&mut self, response: &[u8]) {
        if self.skip > 0 {
            self.skip -= 1;
            self.queued = self.queued.take().or_else(|| server_error(response));
        } else if self.wanted > 0 {
            self.wanted -= 1;
            self.error = self.error.take().or_else(|| server_error(response));
            self.null |= is_null(response);
            self.bytes.extend_from_slice(response);
        }
    }

    /// Whether the last response was taken.
    ///
    /// ```
    /// # use redis_cache::{Cache, CacheConfig, cmd};
    /// let mut cache = Cache::new(CacheConfig::new())?;
    /// assert!(!cache.plan(0, &cmd("PING"))?.replies().is_complete());
    /// # Ok::<(), redis_cache::Error>(())
    /// ```
    pub fn is_complete(&self) -> bool {
        self.skip == 0 && self.wanted == 0
    }

    pub(crate) fn bytes(&self) -> &[u8] {
        &self.bytes
    }

    /// A refusal, with what the server said where that is behind it.
    pub(crate) fn explain(&self, cause: Cause) -> Error {
        match &self.error {
            Some(error) if cause == Cause::BadShape => {
                Error::server(cause, error.clone(), self.queued.clone())
            }
            None if cause == Cause::BadShape && self.transaction && self.null => {
                Error::null_exec(cause)
            }
            _ => Error::of(cause),
        }
    }
}

/// Whether a response is null, in RESP3's spelling or in one of RESP2's: a server that speaks RESP2 answers a discarded `EXEC` by `*-1`.
fn is_null(response: &[u8]) -> bool {
    matches!(response, b"_\r\n" | b"$-1\r\n" | b"*-1\r\n")
}

/// The error that a response is.
fn server_error(response: &[u8]) -> Option<ServerError> {
    if !matches!(response.first(), Some(b'-' | b'!')) {
        return None;
    }
    match Value::parse(response) {
        Some(Value::ServerError(error)) => Some(error),
        _ => None,
    }
}

//! Why a call was refused, in words.

use crate::{Cause, ServerError};
use std::fmt;

/// Why a call was refused: the cause, and what is known beyond its number.
///
/// ```
/// use redis_cache::{Call, Cause, cmd};
///
/// let refused = cmd("MGET").arg(vec!["trap7"; 2000]).get_record().expect_err("too many keys");
/// assert_eq!(refused.cause(), Cause::BadRecord);
/// assert_eq!(refused.number(), 2);
/// let said = refused.to_string();
/// assert!(said.starts_with("cause 2: the call record is wrong: command 0 has 2001 arguments"));
/// ```
#[derive(Clone, Debug, PartialEq, Eq)]
pub struct Error {
    cause: Cause,
    detail: Option<Detail>,
}

#[derive(Clone, Debug, PartialEq, Eq)]
enum Detail {
    Offset(u64),
    Limit(Limit),
    /// The server's error, and the one before it for which a transaction was discarded.
    Server(ServerError, Option<ServerError>),
    NullExec,
}

/// Which limit of a call record was passed. Commands are counted from 0.
///
/// ```
/// use redis_cache::{Call, Limit, cmd};
///
/// let refused = cmd("GET").arg(vec![b'k'; 70_000]).get_record().expect_err("a long key");
/// assert_eq!(refused.limit(), Some(Limit::Argument(0, 70_000)));
/// ```
#[derive(Clone, Copy, Debug, PartialEq, Eq)]
pub enum Limit {
    /// So many commands: over 1,024.
    Commands(usize),
    /// A command, and how many arguments it has, its name among them: over 1,024.
    Arguments(usize, usize),
    /// A command, and how many bytes an argument of it has: over 65,535.
    Argument(usize, usize),
}

impl fmt::Display for Limit {
    fn fmt(&self, f: &mut fmt::Formatter<'_>) -> fmt::Result {
        match self {
            Limit::Commands(n) => write!(f, "it has {n} commands, and 1024 is the most"),
            Limit::Arguments(command, n) => {
                write!(
                    f,
                    "command {command} has {n} arguments, and 1024 is the most"
                )
            }
            Limit::Argument(command, n) => {
                write!(
                    f,
                    "an argument of command {command} has {n} bytes, and 65535 is the most"
                )
            }
        }
    }
}

impl Error {
    /// A refusal with nothing to add to its cause.
    pub(crate) fn of(cause: Cause) -> Self {
        Error {
            cause,
            detail: None,
        }
    }

    pub(crate) fn at(cause: Cause, offset: Option<u64>) -> Self {
        Error {
            cause,
            detail: offset.map(Detail::Offset),
        }
    }

    /// A refusal that a server error explains.
    pub(crate) fn server(cause: Cause, error: ServerError, queued: Option<ServerError>) -> Self {
        Error {
            cause,
            detail: Some(Detail::Server(error, queued)),
        }
    }

    /// A transaction that `EXEC` answered with null.
    pub(crate) fn null_exec(cause: Cause) -> Self {
        Error {
            cause,
            detail: Some(Detail::NullExec),
        }
    }

    /// The cause.
    ///
    /// ```
    /// # use redis_cache::{Call, Cause, cmd};
    /// let refused = cmd("GET").arg(vec![b'k'; 70_000]).get_record().expect_err("a long key");
    /// assert_eq!(refused.cause(), Cause::BadRecord);
    /// ```
    pub fn cause(&self) -> Cause {
        self.cause
    }

    /// The cause's number, 1 to 11.
    ///
    /// ```
    /// # use redis_cache::{Call, cmd};
    /// let refused = cmd("GET").arg(vec![b'k'; 70_000]).get_record().expect_err("a long key");
    /// assert_eq!(refused.number(), 2);
    /// ```
    pub fn number(&self) -> u8 {
        self.cause.number()
    }

    /// The limit of a call record that was passed.
    ///
    /// ```
    /// # use redis_cache::{Call, Limit, cmd};
    /// let refused = cmd("GET").arg(vec![b'k'; 70_000]).get_record().expect_err("a long key");
    /// assert_eq!(refused.limit(), Some(Limit::Argument(0, 70_000)));
    /// ```
    pub fn limit(&self) -> Option<Limit> {
        match self.detail {
            Some(Detail::Limit(limit)) => Some(limit),
            _ => None,
        }
    }

    /// What the server said, where an error of its own is behind the refusal: a transaction that it discarded.
    ///
    /// ```
    /// use redis_cache::{Cache, CacheConfig, pipe};
    ///
    /// let mut cache = Cache::new(CacheConfig::new())?;
    /// let plan = cache.plan(0, pipe().atomic().cmd("GET").arg("trap7"))?;
    /// let mut replies = plan.replies();
    /// for reply in ["+OK\r\n", "+QUEUED\r\n", "+QUEUED\r\n", "-EXECABORT discarded\r\n"] {
    ///     replies.add(reply.as_bytes());
    /// }
    /// let refused = cache.resolve(0, &plan, &replies).expect_err("discarded");
    /// assert_eq!(refused.number(), 7);
    /// assert_eq!(refused.server_error().map(|e| e.code()), Some("EXECABORT"));
    /// # Ok::<(), redis_cache::Error>(())
    /// ```
    pub fn server_error(&self) -> Option<&ServerError> {
        match &self.detail {
            Some(Detail::Server(error, _)) => Some(error),
            _ => None,
        }
    }

    /// What the server said to the first command that it did not queue, for which it discarded the transaction.
    ///
    /// ```
    /// use redis_cache::{Cache, CacheConfig, pipe};
    ///
    /// let mut cache = Cache::new(CacheConfig::new())?;
    /// let plan = cache.plan(0, pipe().atomic().cmd("FETCH"))?;
    /// let mut replies = plan.replies();
    /// for reply in ["+OK\r\n", "-ERR unknown command 'FETCH'\r\n", "-EXECABORT discarded\r\n"] {
    ///     replies.add(reply.as_bytes());
    /// }
    /// let refused = cache.resolve(0, &plan, &replies).expect_err("discarded");
    /// let error = refused.queued_error().expect("why it was discarded");
    /// assert_eq!(error.details(), Some("unknown command 'FETCH'"));
    /// # Ok::<(), redis_cache::Error>(())
    /// ```
    pub fn queued_error(&self) -> Option<&ServerError> {
        match &self.detail {
            Some(Detail::Server(_, queued)) => queued.as_ref(),
            _ => None,
        }
    }
}

impl From<Limit> for Error {
    fn from(limit: Limit) -> Self {
        Error {
            cause: Cause::BadRecord,
            detail: Some(Detail::Limit(limit)),
        }
    }
}

impl From<Cause> for Error {
    fn from(cause: Cause) -> Self {
        Error::of(cause)
    }
}

impl fmt::Display for Error {
    /// The cause's number, what went wrong, and what to do.
    fn fmt(&self, f: &mut fmt::Formatter<'_>) -> fmt::Result {
        let Error { cause, detail } = self;
        write!(f, "cause {}: {}", cause.number(), cause.what())?;
        match detail {
            None => {}
            Some(Detail::Offset(offset)) => write!(f, ": at byte {offset}")?,
            Some(Detail::Limit(limit)) => write!(f, ": {limit}")?,
            Some(Detail::Server(error, None)) => write!(f, ": the server said '{error}'")?,
            Some(Detail::Server(error, Some(queued))) => {
                write!(f, ": the server said '{error}', and before that '{queued}'")?;
            }
            Some(Detail::NullExec) => {
                write!(f, ": EXEC was answered by null, so nothing of it was done")?
            }
        }
        write!(f, ". {}.", cause.what_to_do())
    }
}

impl std::error::Error for Error {}

#[cfg(test)]
mod tests {
    use super::*;

    #[test]
    fn errors_say_number_reason_and_what_to_do() {
        let said = |error: Error| error.to_string();
        assert_eq!(
            said(Error::of(Cause::NoSpace)),
            "cause 11: the key's shard has no space for the value. Give the cache a longer arena (arena_for) or fewer keys (set_size)."
        );
        assert_eq!(
            said(Error::at(Cause::BadRecord, Some(9))),
            "cause 2: the call record is wrong: at byte 9. Give at most 1024 commands, each of at most 1024 arguments of at most 65535 bytes."
        );
        assert!(said(Error::null_exec(Cause::BadShape)).contains(": EXEC was answered by null"));
        let discarded = ServerError::of(b"EXECABORT discarded");
        let error = Error::server(Cause::BadShape, discarded, Some(ServerError::of(b"ERR no")));
        assert!(
            said(error).contains("the server said 'EXECABORT discarded', and before that 'ERR no'")
        );
    }
}

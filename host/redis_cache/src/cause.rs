//! Why a call was refused.

use std::fmt;

/// A cause, with the number that the library gives it.
///
/// ```
/// use redis_cache::Cause;
///
/// assert_eq!(Cause::NoSpace.number(), 11);
/// assert!(Cause::NoSpace.to_string().starts_with("cause 11: the key's shard has no space"));
/// ```
#[derive(Clone, Copy, Debug, PartialEq, Eq)]
#[repr(u8)]
pub enum Cause {
    /// The size is not from 1 to 65,536, the mode neither 0 nor 1, or the arena longer than 2^31 bytes or shorter than 64
    /// for each shard.
    BadConfig = 1,
    /// The call record is wrong.
    BadRecord,
    /// A call record over 16 MiB; in a single call a key over 65,535 bytes, a command key or value over 16 MiB.
    TooLong,
    /// A client expiry past 2^64 - 1.
    LateExpiry,
    /// The plan or send buffer is short.
    ShortBuffer,
    /// Replies, a push or a value to be stored that are not exactly one RESP3 value.
    BadReply,
    /// A list or reply of the wrong shape, or absent.
    BadShape,
    /// The answer buffer is short.
    ShortAnswer,
    /// No run of calls could have left this arena.
    BadArena,
    /// The plan breaks a rule of the layout.
    BadPlan,
    /// The shard has no space for what is to be stored.
    NoSpace,
}

impl Cause {
    const ALL: [Cause; 11] = [
        Cause::BadConfig,
        Cause::BadRecord,
        Cause::TooLong,
        Cause::LateExpiry,
        Cause::ShortBuffer,
        Cause::BadReply,
        Cause::BadShape,
        Cause::ShortAnswer,
        Cause::BadArena,
        Cause::BadPlan,
        Cause::NoSpace,
    ];

    /// The cause's number, 1 to 11.
    ///
    /// ```
    /// assert_eq!(redis_cache::Cause::BadConfig.number(), 1);
    /// ```
    pub fn number(self) -> u8 {
        self as u8
    }

    /// What went wrong.
    ///
    /// ```
    /// assert_eq!(redis_cache::Cause::BadPlan.what(), "the plan is none");
    /// ```
    pub fn what(self) -> &'static str {
        match self {
            Cause::BadConfig => "the settings or the arena's length are not allowed",
            Cause::BadRecord => "the call record is wrong",
            Cause::TooLong => "the call record, or what a single call was given, is too long",
            Cause::LateExpiry => "the clock and a command's TTL add up to more than 64 bits hold",
            Cause::ShortBuffer => "the plan buffer or the send buffer is short",
            Cause::BadReply => {
                "the bytes are not exactly one RESP3 value of at most 16 MiB, nested at most 16 deep"
            }
            Cause::BadShape => {
                "a reply is absent, or is not the list or the integer that the plan needs"
            }
            Cause::ShortAnswer => "the answer buffer is short",
            Cause::BadArena => "the arena does not hold a cache of this size",
            Cause::BadPlan => "the plan is none",
            Cause::NoSpace => "the key's shard has no space for the value",
        }
    }

    /// What to do about it.
    ///
    /// ```
    /// let advice = redis_cache::Cause::BadArena.what_to_do();
    /// assert!(advice.starts_with("Set the cache up again"));
    /// ```
    pub fn what_to_do(self) -> &'static str {
        match self {
            Cause::BadConfig => {
                "Give 1 to 65536 keys, mode 0 or 1, and an arena of at least 64 bytes a shard and at most 2^31 bytes"
            }
            Cause::BadRecord => {
                "Give at most 1024 commands, each of at most 1024 arguments of at most 65535 bytes"
            }
            Cause::TooLong => {
                "Keep a call record, a command key and a value within 16 MiB and a key within 65535 bytes"
            }
            Cause::LateExpiry => "Give a shorter TTL",
            Cause::ShortBuffer => "Lend longer buffers and call again: nothing was changed",
            Cause::BadReply => {
                "Take the connection as lost where the bytes came from it, and ask for less in one call where they are too long"
            }
            Cause::BadShape => {
                "Look at what the server said, and plan again: what was fetched before the refusal is kept"
            }
            Cause::ShortAnswer => "Lend a longer buffer and call again: nothing was changed",
            Cause::BadArena => "Set the cache up again, and let nobody else write to its arena",
            Cause::BadPlan => "Resolve exactly the bytes that planning wrote",
            Cause::NoSpace => "Give the cache a longer arena (arena_for) or fewer keys (set_size)",
        }
    }

    /// What a number of the library says: 0 is no refusal.
    pub(crate) fn refuses(number: u64) -> Result<(), Cause> {
        let named = Cause::ALL.into_iter();
        match named
            .into_iter()
            .find(|cause| u64::from(cause.number()) == number)
        {
            Some(cause) => Err(cause),
            None => {
                assert_eq!(number, 0, "the library answers 0 or a cause's number");
                Ok(())
            }
        }
    }
}

impl fmt::Display for Cause {
    /// The number, what went wrong, and what to do.
    fn fmt(&self, f: &mut fmt::Formatter<'_>) -> fmt::Result {
        write!(
            f,
            "cause {}: {}. {}.",
            self.number(),
            self.what(),
            self.what_to_do()
        )
    }
}

impl std::error::Error for Cause {}

#[cfg(test)]
mod tests {
    use super::Cause;

    #[test]
    fn numbers_are_1_to_11() {
        let numbers = Cause::ALL.map(Cause::number);
        assert_eq!(numbers, [1, 2, 3, 4, 5, 6, 7, 8, 9, 10, 11]);
        for cause in Cause::ALL {
            assert_eq!(Cause::refuses(cause.number().into()), Err(cause));
        }
        assert_eq!(Cause::refuses(0), Ok(()));
    }
}

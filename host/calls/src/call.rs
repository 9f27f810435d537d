//! The calls and their answers, as every party takes and gives them.

/// What a cache is set up with.
#[derive(Clone, Debug, PartialEq, Eq)]
pub struct Setup {
    /// Number of keys asked for.
    pub size: u64,
    /// Length of the arena in bytes.
    pub arena: u64,
    /// 0 All, 1 opt-in.
    pub mode: u8,
    /// Default TTL in ms.
    pub default_ttl: u64,
    /// Hit, miss and invalidate as first lent.
    pub counts: crate::Counts,
}

/// What every call is given beside its own arguments; size and arena length are the setup's.
#[derive(Clone, Copy, Debug, Default, PartialEq, Eq)]
pub struct At {
    /// The clock in ms.
    pub clock: u64,
    /// The caller's epoch.
    pub epoch: u64,
    /// 0 All, 1 opt-in.
    pub mode: u8,
    /// Default TTL in ms.
    pub default_ttl: u64,
}

/// One call after setup.
#[derive(Clone, Debug, PartialEq, Eq)]
pub enum Call {
    /// Planning: a call record, and how many bytes the buffers hold.
    Plan {
        /// The record's bytes.
        record: Vec<u8>,
        /// Length of the send buffer.
        send_room: usize,
        /// Length of the plan buffer.
        plan_room: usize,
    },
    /// Resolving an earlier plan: the number of the plan among those written, the replies, the answer buffer's length.
    Resolve {
        /// Which plan, counted from 0 over the plannings that were not refused.
        plan: usize,
        /// The replies' bytes.
        replies: Vec<u8>,
        /// Length of the answer buffer.
        room: usize,
    },
    /// A push's bytes.
    Push {
        /// One RESP3 value.
        bytes: Vec<u8>,
    },
    /// A single lookup.
    Lookup {
        /// The key.
        key: Vec<u8>,
        /// The command key.
        command: Vec<u8>,
    },
    /// A single store.
    Store {
        /// The key.
        key: Vec<u8>,
        /// The command key.
        command: Vec<u8>,
        /// The value's bytes.
        value: Vec<u8>,
        /// The item's expiry from now on.
        expiry: u64,
    },
    /// A single invalidation.
    Invalidate {
        /// The key.
        key: Vec<u8>,
    },
    /// A new epoch.
    NewEpoch,
}

/// What a call answers.
#[derive(Clone, Debug, PartialEq, Eq)]
pub enum Answer {
    /// A plan was written.
    Planned {
        /// The bytes to send.
        sent: Vec<u8>,
        /// How many responses to skip and to take.
        responses: (u64, u64),
        /// The outcome of each command.
        outcomes: Vec<Outcome>,
    },
    /// The replies were resolved.
    Resolved {
        /// The result's bytes.
        result: Vec<u8>,
        /// How many stores were refused for want of space.
        refused: u64,
    },
    /// A lookup's value.
    Hit(Vec<u8>),
    /// A lookup without a value.
    Miss,
    /// The number that a new epoch took.
    Epoch(u64),
    /// Done, with nothing to hand out (push, store, invalidate).
    Done,
    /// Refused.
    Refused(Refusal),
}

/// A cause, by its number.
#[derive(Clone, Copy, Debug, PartialEq, Eq)]
pub struct Refusal {
    /// The cause's number, 1 to 11.
    pub cause: u8,
    /// With cause 2, the offset at which the record goes wrong.
    pub offset: Option<usize>,
}

impl Refusal {
    /// A refusal that returns its number alone.
    pub fn number(cause: u8) -> Self {
        Refusal {
            cause,
            offset: None,
        }
    }
}

/// The outcome of planning one command.
#[derive(Clone, Debug, PartialEq, Eq)]
pub enum Outcome {
    /// An ignored command.
    Ignored,
    /// Not cacheable.
    NotCacheable,
    /// Cached, one key: the value's bytes.
    Cached(Vec<u8>),
    /// Cached, several keys (or none): each place's bytes.
    CachedAll(Vec<Vec<u8>>),
    /// One missing key.
    Single(Missing),
    /// Several keys, at least one of them missing.
    Multiple(Vec<Place>),
}

/// A place of a several-key command.
#[derive(Clone, Debug, PartialEq, Eq)]
pub enum Place {
    /// Served: the value's bytes.
    Served(Vec<u8>),
    /// Waiting for its reply.
    Waiting(Missing),
}

/// A missing key, with what its store will need.
#[derive(Clone, Debug, PartialEq, Eq)]
pub struct Missing {
    /// The key.
    pub key: Vec<u8>,
    /// The command key.
    pub command: Vec<u8>,
    /// The client expiry.
    pub client_expiry: u64,
}

//! The library's calls with all memory lent by the caller: slices in, enums out.
//!
//! This passes slices and numbers through and gives answers names. It keeps nothing: the arena, the counts and the next epoch
//! number are the caller's, and every call is given what the call before left or returned. [`Cache`](crate::Cache) of the crate's root
//! owns all of them.
//!
//! An arena that was changed by anybody else is judged at every call, and refused as [`Cause::BadArena`] unless some run of
//! calls could have left it.
//!
//! ```
//! use redis_cache::lent::{Cache, Counts, Looked, MODE_ALL, Now, Settings};
//!
//! let settings = Settings { size: 1024, mode: MODE_ALL, default_ttl: 1_800_000 };
//! let mut arena = vec![0; 1 << 20];
//! let mut counts = Counts::default();
//! let mut cache = Cache { arena: &mut arena, settings };
//! let epochs = cache.setup()?;
//! cache.store(epochs.epoch, b"trap7", b"GETtrap7", b"$2\r\n12\r\n", 500)?;
//! let now = Now { clock: 0, epoch: epochs.epoch };
//! match cache.lookup(now, b"trap7", b"GETtrap7", &mut counts)? {
//!     Looked::Hit(value) => assert_eq!(value, b"$2\r\n12\r\n"),
//!     Looked::Miss => panic!("it was just stored"),
//! }
//! # Ok::<(), redis_cache::Cause>(())
//! ```

mod pipeline;

pub use crate::frame::{ValueEnd, value_end};
pub use pipeline::{PlanRefusal, Planned, Resolved, Responses, served};

use crate::{Cause, foreign};

/// Every command that can be cached is.
///
/// ```
/// assert_eq!(redis_cache::lent::MODE_ALL, 0);
/// ```
pub const MODE_ALL: u64 = 0;

/// Those commands alone that ask for it.
///
/// ```
/// assert_eq!(redis_cache::lent::MODE_OPT_IN, 1);
/// ```
pub const MODE_OPT_IN: u64 = 1;

/// The settings, given with every call. Any numbers may be given; those that are none are [`Cause::BadConfig`].
///
/// ```
/// use redis_cache::lent::{MODE_ALL, Settings};
///
/// let settings = Settings { size: 1024, mode: MODE_ALL, default_ttl: 1_800_000 };
/// assert_eq!(settings.mode, 0);
/// ```
#[derive(Clone, Copy, Debug, PartialEq, Eq)]
pub struct Settings {
    /// How many keys the cache holds at most: 1 to 65,536, in one shard below 32, else in 32.
    pub size: u64,
    /// [`MODE_ALL`] or [`MODE_OPT_IN`].
    pub mode: u64,
    /// How long an answer is kept where its command does not say, in ms.
    pub default_ttl: u64,
}

/// When a call is made, and under which epoch.
///
/// ```
/// let now = redis_cache::lent::Now { clock: 12, epoch: 0 };
/// assert_eq!(now.clock, 12);
/// ```
#[derive(Clone, Copy, Debug, PartialEq, Eq)]
pub struct Now {
    /// The clock in ms; one that goes back is judged as given.
    pub clock: u64,
    /// The epoch of the connection.
    pub epoch: u64,
}

/// The counts record. It is the caller's, and each call adds to it; sums wrap at 64 bits.
///
/// ```
/// assert_eq!(redis_cache::lent::Counts::default().hit, 0);
/// ```
#[repr(C)]
#[derive(Clone, Copy, Debug, Default, PartialEq, Eq)]
pub struct Counts {
    /// Lookups that served a value.
    pub hit: u64,
    /// All other lookups.
    pub miss: u64,
    /// Entries dropped by lookups and invalidations.
    pub invalidate: u64,
}

/// The epoch that setup or a new epoch takes, and the number that is left.
///
/// ```
/// use redis_cache::lent::{Epochs, new_epoch};
///
/// assert_eq!(new_epoch(1), Epochs { epoch: 1, next: 2 });
/// ```
#[derive(Clone, Copy, Debug, PartialEq, Eq)]
pub struct Epochs {
    /// The epoch taken: the connection's from now on.
    pub epoch: u64,
    /// The number that the next new epoch takes.
    pub next: u64,
}

/// What a lookup finds.
///
/// ```
/// # use redis_cache::lent::{Cache, Counts, Looked, MODE_ALL, Now, Settings};
/// # let settings = Settings { size: 4, mode: MODE_ALL, default_ttl: 1000 };
/// # let (mut arena, mut counts) = (vec![0; 4096], Counts::default());
/// let mut cache = Cache { arena: &mut arena, settings };
/// cache.setup()?;
/// let now = Now { clock: 0, epoch: 0 };
/// assert_eq!(cache.lookup(now, b"trap7", b"GETtrap7", &mut counts)?, Looked::Miss);
/// # Ok::<(), redis_cache::Cause>(())
/// ```
#[derive(Clone, Copy, Debug, PartialEq, Eq)]
pub enum Looked<'a> {
    /// The value's bytes, as a part of the arena.
    Hit(&'a [u8]),
    /// No value is served.
    Miss,
}

/// A cache in lent memory, and the settings of the calls to come.
///
/// ```
/// # use redis_cache::lent::{Cache, Counts, Looked, MODE_ALL, Now, Settings};
/// # let settings = Settings { size: 4, mode: MODE_ALL, default_ttl: 1000 };
/// # let (mut arena, mut counts) = (vec![0; 4096], Counts::default());
/// let mut cache = Cache { arena: &mut arena, settings };
/// assert_eq!(cache.setup().map(|epochs| epochs.epoch), Ok(0));
/// ```
#[derive(Debug)]
pub struct Cache<'a> {
    /// The arena: 64 bytes a shard at least, 2^31 bytes at most.
    pub arena: &'a mut [u8],
    /// The settings; size and the arena's length are the same in every call on one cache.
    pub settings: Settings,
}

impl<'a> Cache<'a> {
    /// [`Cache::lookup`], for as long as the arena is lent.
    pub(crate) fn into_lookup(
        self,
        now: Now,
        key: &[u8],
        command: &[u8],
        counts: &mut Counts,
    ) -> Result<Looked<'a>, Cause> {
        foreign::lookup(self.arena, self.settings, now, (key, command), counts)
    }
}

impl Cache<'_> {
    /// Sets a cache up, whatever the arena held.
    ///
    /// # Errors
    /// [`Cause::BadConfig`]; the arena is then as it was.
    ///
    /// ```
    /// # use redis_cache::lent::{Cache, Counts, Looked, MODE_ALL, Now, Settings};
    /// # let settings = Settings { size: 4, mode: MODE_ALL, default_ttl: 1000 };
    /// # let (mut arena, mut counts) = (vec![0; 4096], Counts::default());
    /// let mut cache = Cache { arena: &mut arena, settings };
    /// let epochs = cache.setup()?;
    /// assert_eq!((epochs.epoch, epochs.next), (0, 1));
    /// # Ok::<(), redis_cache::Cause>(())
    /// ```
    pub fn setup(&mut self) -> Result<Epochs, Cause> {
        foreign::setup(self.arena, self.settings)
    }

    /// `ShardedLRU::get`: the value stored for the key and the command, if it is served at this clock under this epoch. Adds
    /// a hit or a miss, and what it drops to `invalidate`.
    ///
    /// # Errors
    /// [`Cause::BadConfig`], [`Cause::BadArena`], [`Cause::TooLong`]; arena and counts are then as they were.
    ///
    /// ```
    /// # use redis_cache::lent::{Cache, Counts, Looked, MODE_ALL, Now, Settings};
    /// # let settings = Settings { size: 4, mode: MODE_ALL, default_ttl: 1000 };
    /// # let (mut arena, mut counts) = (vec![0; 4096], Counts::default());
    /// # let mut cache = Cache { arena: &mut arena, settings };
    /// cache.setup()?;
    /// cache.store(0, b"trap7", b"GETtrap7", b":12\r\n", 500)?;
    /// let now = Now { clock: 500, epoch: 0 };
    /// assert_eq!(cache.lookup(now, b"trap7", b"GETtrap7", &mut counts)?, Looked::Hit(b":12\r\n"));
    /// # Ok::<(), redis_cache::Cause>(())
    /// ```
    pub fn lookup(
        &mut self,
        now: Now,
        key: &[u8],
        command: &[u8],
        counts: &mut Counts,
    ) -> Result<Looked<'_>, Cause> {
        foreign::lookup(self.arena, self.settings, now, (key, command), counts)
    }

    /// `ShardedLRU::insert`: keeps a value, one RESP3 value, for the key and the command, until this expiry.
    ///
    /// # Errors
    /// [`Cause::BadConfig`], [`Cause::BadArena`], [`Cause::TooLong`], [`Cause::BadReply`], [`Cause::NoSpace`]; the arena is then
    /// as it was.
    ///
    /// ```
    /// # use redis_cache::lent::{Cache, Counts, Looked, MODE_ALL, Now, Settings};
    /// # let settings = Settings { size: 4, mode: MODE_ALL, default_ttl: 1000 };
    /// # let (mut arena, mut counts) = (vec![0; 4096], Counts::default());
    /// # let mut cache = Cache { arena: &mut arena, settings };
    /// cache.setup()?;
    /// cache.store(0, b"trap7", b"GETtrap7", b":12\r\n", 500)?;
    /// let long = cache.store(0, &[0; 65_536], b"", b":12\r\n", 500);
    /// assert_eq!(long, Err(redis_cache::Cause::TooLong));
    /// # Ok::<(), redis_cache::Cause>(())
    /// ```
    pub fn store(
        &mut self,
        epoch: u64,
        key: &[u8],
        command: &[u8],
        value: &[u8],
        expiry: u64,
    ) -> Result<(), Cause> {
        let entry = foreign::Entry {
            key,
            command,
            value,
            expiry,
        };
        foreign::store(self.arena, self.settings, epoch, entry)
    }

    /// `ShardedLRU::invalidate`: drops what is kept for the key, and adds its entries to `invalidate`.
    ///
    /// # Errors
    /// [`Cause::BadConfig`], [`Cause::BadArena`], [`Cause::TooLong`]; arena and counts are then as they were.
    ///
    /// ```
    /// # use redis_cache::lent::{Cache, Counts, Looked, MODE_ALL, Now, Settings};
    /// # let settings = Settings { size: 4, mode: MODE_ALL, default_ttl: 1000 };
    /// # let (mut arena, mut counts) = (vec![0; 4096], Counts::default());
    /// # let mut cache = Cache { arena: &mut arena, settings };
    /// cache.setup()?;
    /// cache.store(0, b"trap7", b"GETtrap7", b":12\r\n", 500)?;
    /// cache.invalidate(b"trap7", &mut counts)?;
    /// assert_eq!(counts.invalidate, 1);
    /// # Ok::<(), redis_cache::Cause>(())
    /// ```
    pub fn invalidate(&mut self, key: &[u8], counts: &mut Counts) -> Result<(), Cause> {
        foreign::invalidate(self.arena, self.settings, key, counts)
    }
}

/// `ShardedLRU::increase_epoch`: takes the next number, which setup or the new epoch before left, as the epoch of a new
/// connection. What is kept under another epoch is not served under it. Numbers wrap at 64 bits; nothing refuses it.
///
/// ```
/// use redis_cache::lent::new_epoch;
///
/// let taken = new_epoch(u64::MAX);
/// assert_eq!((taken.epoch, taken.next), (u64::MAX, 0));
/// ```
pub fn new_epoch(next: u64) -> Epochs {
    foreign::new_epoch(next)
}

/// Reads the counts through the library.
///
/// ```
/// use redis_cache::lent::{Counts, read_counts};
///
/// let counts = Counts { hit: 1, miss: 2, invalidate: 3 };
/// assert_eq!(read_counts(&counts), counts);
/// ```
pub fn read_counts(counts: &Counts) -> Counts {
    foreign::counts(counts)
}

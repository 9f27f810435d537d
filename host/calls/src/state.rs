//! The state that a party shows after every call: items by shard, newest first, the counts and the next epoch number.

/// Everything that the next call depends on, but the plans.
#[derive(Clone, Debug, Default, PartialEq, Eq)]
pub struct State {
    /// The shards' items, newest first.
    pub shards: Vec<Vec<Item>>,
    /// The counts.
    pub counts: Counts,
    /// The number that the next new epoch takes.
    pub next_epoch: u64,
}

/// One key's item.
#[derive(Clone, Debug, PartialEq, Eq)]
pub struct Item {
    /// The key.
    pub key: Vec<u8>,
    /// The epoch under which it was stored.
    pub epoch: u64,
    /// The last clock at which it is served.
    pub expiry: u64,
    /// Its entries, in the order in which they were first stored.
    pub entries: Vec<Entry>,
}

/// One command's value in an item.
#[derive(Clone, Debug, PartialEq, Eq)]
pub struct Entry {
    /// The command key.
    pub command: Vec<u8>,
    /// The value's bytes.
    pub value: Vec<u8>,
}

/// Hit, miss and invalidate.
#[derive(Clone, Copy, Debug, Default, PartialEq, Eq)]
pub struct Counts {
    /// Lookups that served a value.
    pub hit: u64,
    /// All other lookups.
    pub miss: u64,
    /// Entries dropped by lookups and invalidations.
    pub invalidate: u64,
}

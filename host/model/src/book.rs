//! The book: each shard a row of items, newest to oldest, with the counts and the next epoch number.

use crate::config;
use crate::siphash;
use calls::{Entry, Item, Refusal, Setup, State};

/// The book of one cache.
#[derive(Clone)]
pub struct Book {
    /// Rows, counts, next number.
    pub state: State,
    keys: usize,
    space: u64,
}

impl Book {
    /// The book of a fresh cache: no items, the counts as first lent, next epoch number 1.
    pub fn new(setup: &Setup) -> Self {
        let (shards, keys) = config::shards(setup.size);
        let state = State {
            shards: vec![Vec::new(); shards as usize],
            counts: setup.counts,
            next_epoch: 1,
        };
        Book {
            state,
            keys: keys as usize,
            space: setup.arena / shards - 16,
        }
    }

    fn row(&mut self, key: &[u8]) -> &mut Vec<Item> {
        let shards = self.state.shards.len() as u64;
        &mut self.state.shards[(siphash::hash(key) % shards) as usize]
    }

    fn count_dropped(&mut self, item: &Item) {
        let entries = item.entries.len() as u64;
        self.state.counts.invalidate = self.state.counts.invalidate.wrapping_add(entries);
    }

    /// Lookup: an item under another epoch, or with clock > expiry, is dropped; otherwise it becomes newest and serves its
    /// value for the command, if it has one.
    pub fn lookup(
        &mut self,
        clock: u64,
        epoch: u64,
        key: &[u8],
        command: &[u8],
    ) -> Option<Vec<u8>> {
        let served = self.touch(clock, epoch, key, command);
        let counts = &mut self.state.counts;
        let count = if served.is_some() {
            &mut counts.hit
        } else {
            &mut counts.miss
        };
        *count = count.wrapping_add(1);
        served
    }

    fn touch(&mut self, clock: u64, epoch: u64, key: &[u8], command: &[u8]) -> Option<Vec<u8>> {
        let item = take(self.row(key), key)?;
        if item.epoch != epoch || clock > item.expiry {
            self.count_dropped(&item);
            return None;
        }
        let served = item.entries.iter().find(|entry| entry.command == command);
        let served = served.map(|entry| entry.value.clone());
        self.row(key).insert(0, item);
        served
    }

    /// Store (rules B7 to B9 of docs/BEHAVIOUR.md): an item of this epoch is changed in its place; one of another epoch, or
    /// the oldest of a full shard, makes way for a new item in front. Cause 11 where the row then takes too many bytes.
    pub fn store(
        &mut self,
        epoch: u64,
        key: &[u8],
        entry: Entry,
        expiry: u64,
    ) -> Result<(), Refusal> {
        let (keys, space) = (self.keys, self.space);
        let row = self.row(key);
        let stored = stored(row.clone(), keys, epoch, key, entry, expiry);
        if size(&stored) > space {
            return Err(Refusal::number(11));
        }
        *row = stored;
        Ok(())
    }

    /// Invalidation of one key.
    pub fn invalidate(&mut self, key: &[u8]) {
        if let Some(item) = take(self.row(key), key) {
            self.count_dropped(&item);
        }
    }

    /// Invalidation of all keys.
    pub fn invalidate_all(&mut self) {
        for shard in 0..self.state.shards.len() {
            for item in std::mem::take(&mut self.state.shards[shard]) {
                self.count_dropped(&item);
            }
        }
    }

    /// A new epoch: the next number, which grows by one and wraps.
    pub fn new_epoch(&mut self) -> u64 {
        let epoch = self.state.next_epoch;
        self.state.next_epoch = epoch.wrapping_add(1);
        epoch
    }
}

fn take(row: &mut Vec<Item>, key: &[u8]) -> Option<Item> {
    let place = row.iter().position(|item| item.key == key)?;
    Some(row.remove(place))
}

fn stored(
    mut row: Vec<Item>,
    keys: usize,
    epoch: u64,
    key: &[u8],
    entry: Entry,
    expiry: u64,
) -> Vec<Item> {
    if let Some(item) = row
        .iter_mut()
        .find(|item| item.key == key && item.epoch == epoch)
    {
        item.expiry = expiry;
        match item
            .entries
            .iter_mut()
            .find(|old| old.command == entry.command)
        {
            Some(old) => old.value = entry.value,
            None => item.entries.push(entry),
        }
        return row;
    }
    if take(&mut row, key).is_none() && row.len() == keys {
        row.pop();
    }
    row.insert(
        0,
        Item {
            key: key.to_vec(),
            epoch,
            expiry,
            entries: vec![entry],
        },
    );
    row
}

/// The bytes that a row takes: an item 32 and its key, an entry 16, its command key and its value.
pub fn size(row: &[Item]) -> u64 {
    let entry = |entry: &Entry| 16 + entry.command.len() + entry.value.len();
    let item = |item: &Item| 32 + item.key.len() + item.entries.iter().map(entry).sum::<usize>();
    row.iter().map(item).sum::<usize>() as u64
}

//! The arena: for each shard its row of items, newest first, packed, and then zeros.
//!
//! ```text
//! shard:  count of items u32 | bytes used after this header u32 | 8 zero bytes | items, newest first | zeros to the end
//! item:   key length u32 | count of entries u32 | epoch u64 | expiry u64 | bytes of its entries u32 | 4 zero bytes | key | entries
//! entry:  command key length u32 | value length u32 | 8 zero bytes | command key | value
//! ```

use super::{Reader, field};
use crate::{config, siphash};
use calls::{Entry, Item, resp};
use std::collections::HashSet;

const MOST_KEY: usize = 65_535;
const MOST_COMMAND: usize = 16 << 20;

/// The arena of these rows.
///
/// # Panics
/// Where a row does not fit its shard.
pub fn encode(shards: &[Vec<Item>], length: usize) -> Vec<u8> {
    let each = length / shards.len();
    let mut out = Vec::with_capacity(length);
    for (number, row) in shards.iter().enumerate() {
        let items: Vec<u8> = row.iter().flat_map(item).collect();
        out.extend(field(row.len()));
        out.extend(field(items.len()));
        out.extend([0; 8]);
        out.extend(items);
        let end = (number + 1) * each;
        assert!(out.len() <= end, "a row fits its shard");
        out.resize(end, 0);
    }
    out.resize(length, 0);
    out
}

fn item(item: &Item) -> Vec<u8> {
    let entries: Vec<u8> = item.entries.iter().flat_map(entry).collect();
    let mut out = Vec::new();
    out.extend(field(item.key.len()));
    out.extend(field(item.entries.len()));
    out.extend(item.epoch.to_le_bytes());
    out.extend(item.expiry.to_le_bytes());
    out.extend(field(entries.len()));
    out.extend([0; 4]);
    out.extend(&item.key);
    out.extend(entries);
    out
}

fn entry(entry: &Entry) -> Vec<u8> {
    let mut out = Vec::new();
    out.extend(field(entry.command.len()));
    out.extend(field(entry.value.len()));
    out.extend([0; 8]);
    out.extend(&entry.command);
    out.extend(&entry.value);
    out
}

/// The rows of an arena of a cache of this size; `None` where no run of calls could leave these bytes (cause 9).
pub fn decode(bytes: &[u8], size: u64) -> Option<Vec<Vec<Item>>> {
    let (shards, keys) = config::shards(size);
    let each = bytes.len() / shards as usize;
    let (images, left_over) = bytes.split_at(each * shards as usize);
    Reader { rest: left_over }.zeros(left_over.len())?;
    let images = images.chunks_exact(each).enumerate();
    images
        .map(|(number, image)| row(image, number as u64, shards, keys))
        .collect()
}

fn row(image: &[u8], number: u64, shards: u64, keys: u64) -> Option<Vec<Item>> {
    let mut reader = Reader { rest: image };
    let (count, used) = (reader.u32()?, reader.length()?);
    reader.zeros(8)?;
    let mut items = Reader {
        rest: reader.part(used)?,
    };
    reader.zeros(reader.rest.len())?;
    if u64::from(count) > keys {
        return None;
    }
    let row = (0..count)
        .map(|_| read_item(&mut items))
        .collect::<Option<Vec<Item>>>()?;
    let distinct: HashSet<&[u8]> = row.iter().map(|item| item.key.as_slice()).collect();
    let at_home = |item: &Item| siphash::hash(&item.key) % shards == number;
    (items.rest.is_empty() && distinct.len() == row.len() && row.iter().all(at_home)).then_some(row)
}

fn read_item(reader: &mut Reader<'_>) -> Option<Item> {
    let (key, count) = (reader.length()?, reader.u32()?);
    let (epoch, expiry) = (reader.u64()?, reader.u64()?);
    let used = reader.length()?;
    reader.zeros(4)?;
    let key = reader
        .part(key)
        .filter(|key| key.len() <= MOST_KEY)?
        .to_vec();
    let mut rest = Reader {
        rest: reader.part(used)?,
    };
    let entries = (0..count)
        .map(|_| read_entry(&mut rest))
        .collect::<Option<Vec<Entry>>>()?;
    let distinct: HashSet<&[u8]> = entries
        .iter()
        .map(|entry| entry.command.as_slice())
        .collect();
    let right = rest.rest.is_empty() && !entries.is_empty() && distinct.len() == entries.len();
    right.then_some(Item {
        key,
        epoch,
        expiry,
        entries,
    })
}

fn read_entry(reader: &mut Reader<'_>) -> Option<Entry> {
    let (command, value) = (reader.length()?, reader.length()?);
    reader.zeros(8)?;
    let command = reader
        .part(command)
        .filter(|command| command.len() <= MOST_COMMAND)?
        .to_vec();
    let value = reader.part(value)?.to_vec();
    resp::parse(&value)?;
    Some(Entry { command, value })
}

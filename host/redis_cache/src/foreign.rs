//! The exported functions as `include/redis_cache.h` declares them, each called in one place. A slice is lent as pointer and
//! length. What holds for every call here: a pointer and its length come from a Rust slice or reference that lives through
//! the call (so that it is not null and aligned, also where it is empty), what is lent to be changed is lent by `&mut` and so
//! to nobody else, and the library is proved to read and write nothing else, on any bytes and numbers. It keeps no pointer
//! but those that it hands out.

mod pipeline;

pub(crate) use pipeline::{Replies, plan, push, resolve, served};

use crate::Cause;
use crate::lent::{Counts, Epochs, Looked, Now, Settings, ValueEnd};

/// `redis_cache_bytes` of the header: a slice as the library hands one out.
#[repr(C)]
struct Part {
    pointer: *const u8,
    length: usize,
}

/// `redis_cache_setup_return` of the header.
#[repr(C)]
struct NewCache {
    cause: u64,
    epoch: u64,
    next: u64,
}

/// `redis_cache_epoch_return` of the header.
#[repr(C)]
struct NewEpoch {
    epoch: u64,
    next: u64,
}

/// `redis_cache_value_end_return` of the header.
#[repr(C)]
struct ValueEndReturn {
    verdict: u64,
    bytes: u64,
}

/// `redis_cache_lookup_return` of the header.
#[repr(C)]
struct Found {
    cause: u64,
    hit: u64,
}

unsafe extern "C" {
    fn redis_cache_setup(
        arena: *mut u8,
        arena_length: usize,
        size: u64,
        mode: u64,
        ttl: u64,
    ) -> NewCache;

    fn redis_cache_lookup(
        arena: *mut u8,
        arena_length: usize,
        size: u64,
        mode: u64,
        ttl: u64,
        clock: u64,
        epoch: u64,
        key: *const u8,
        key_length: usize,
        command: *const u8,
        command_length: usize,
        counts: *mut Counts,
        value: *mut Part,
        whole: *mut Part,
    ) -> Found;

    fn redis_cache_store(
        arena: *mut u8,
        arena_length: usize,
        size: u64,
        mode: u64,
        ttl: u64,
        epoch: u64,
        key: *const u8,
        key_length: usize,
        command: *const u8,
        command_length: usize,
        value: *const u8,
        value_length: usize,
        expiry: u64,
    ) -> u64;

    fn redis_cache_invalidate(
        arena: *mut u8,
        arena_length: usize,
        size: u64,
        mode: u64,
        ttl: u64,
        key: *const u8,
        key_length: usize,
        counts: *mut Counts,
    ) -> u64;

    fn redis_cache_new_epoch(next: u64) -> NewEpoch;

    fn redis_cache_value_end(received: *const u8, received_length: usize) -> ValueEndReturn;

    fn redis_cache_counts(counts: *const Counts) -> Counts;
}

/// What a store is given beside the arena, the settings and the epoch.
pub(crate) struct Entry<'a> {
    pub key: &'a [u8],
    pub command: &'a [u8],
    pub value: &'a [u8],
    pub expiry: u64,
}

pub(crate) fn setup(arena: &mut [u8], settings: Settings) -> Result<Epochs, Cause> {
    let Settings {
        size,
        mode,
        default_ttl,
    } = settings;
    // SAFETY: the arena is lent as above; numbers may be any.
    let new =
        unsafe { redis_cache_setup(arena.as_mut_ptr(), arena.len(), size, mode, default_ttl) };
    Cause::refuses(new.cause)?;
    Ok(Epochs {
        epoch: new.epoch,
        next: new.next,
    })
}

pub(crate) fn lookup<'a>(
    arena: &'a mut [u8],
    settings: Settings,
    now: Now,
    (key, command): (&[u8], &[u8]),
    counts: &mut Counts,
) -> Result<Looked<'a>, Cause> {
    // On entry the two parts must be valid slices: the empty front of the arena.
    let (pointer, length) = (arena.as_mut_ptr(), arena.len());
    let empty = || Part { pointer, length: 0 };
    let (mut value, mut whole) = (empty(), empty());
    // SAFETY: arena, key, command and counts are lent as above. The two parts are written during the call alone.
    let found = unsafe {
        redis_cache_lookup(
            pointer,
            length,
            settings.size,
            settings.mode,
            settings.default_ttl,
            now.clock,
            now.epoch,
            key.as_ptr(),
            key.len(),
            command.as_ptr(),
            command.len(),
            counts,
            &mut value,
            &mut whole,
        )
    };
    Cause::refuses(found.cause)?;
    if found.hit == 0 {
        return Ok(Looked::Miss);
    }
    // SAFETY: the contract says that `value` is a part of the arena that was lent for 'a. The arena is not used again before
    // 'a ends: it came in by `&'a mut`, and only this part goes out.
    Ok(Looked::Hit(unsafe {
        std::slice::from_raw_parts(value.pointer, value.length)
    }))
}

pub(crate) fn store(
    arena: &mut [u8],
    settings: Settings,
    epoch: u64,
    entry: Entry<'_>,
) -> Result<(), Cause> {
    // SAFETY: the arena and the three slices are lent as above.
    Cause::refuses(unsafe {
        redis_cache_store(
            arena.as_mut_ptr(),
            arena.len(),
            settings.size,
            settings.mode,
            settings.default_ttl,
            epoch,
            entry.key.as_ptr(),
            entry.key.len(),
            entry.command.as_ptr(),
            entry.command.len(),
            entry.value.as_ptr(),
            entry.value.len(),
            entry.expiry,
        )
    })
}

pub(crate) fn invalidate(
    arena: &mut [u8],
    settings: Settings,
    key: &[u8],
    counts: &mut Counts,
) -> Result<(), Cause> {
    // SAFETY: arena, key and counts are lent as above.
    Cause::refuses(unsafe {
        redis_cache_invalidate(
            arena.as_mut_ptr(),
            arena.len(),
            settings.size,
            settings.mode,
            settings.default_ttl,
            key.as_ptr(),
            key.len(),
            counts,
        )
    })
}

pub(crate) fn new_epoch(next: u64) -> Epochs {
    // SAFETY: the number may be any.
    let new = unsafe { redis_cache_new_epoch(next) };
    Epochs {
        epoch: new.epoch,
        next: new.next,
    }
}

pub(crate) fn value_end(received: &[u8]) -> ValueEnd {
    // SAFETY: the bytes are lent as above, and only read.
    let end = unsafe { redis_cache_value_end(received.as_ptr(), received.len()) };
    match end.verdict {
        0 => ValueEnd::Complete(end.bytes as usize),
        1 => ValueEnd::More(end.bytes as usize),
        _ => ValueEnd::Wrong,
    }
}

pub(crate) fn counts(counts: &Counts) -> Counts {
    // SAFETY: the counts are lent as above.
    unsafe { redis_cache_counts(counts) }
}

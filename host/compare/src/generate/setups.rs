//! Setups, and keys that meet in few shards.

use crate::rng::Rng;
use calls::{Counts, Setup};
use model::{config, siphash};

/// A time to live: mostly short.
pub fn ttl(rng: &mut Rng) -> u64 {
    match rng.below(100) {
        0..90 => rng.of(&[0, 1, 5, 10, 50, 50, 200, 1000]),
        90..97 => 1_800_000,
        _ => u64::MAX - rng.of(&[0, 5, 20]),
    }
}

/// A setup that is not refused: small caches, arenas ample or tight.
pub fn setup(rng: &mut Rng) -> Setup {
    let size = rng.of(&[1, 2, 2, 3, 3, 4, 31, 32, 32, 33, 63, 64, 96, 128]);
    let (shards, _) = config::shards(size);
    let arena = match rng.below(10) {
        0..6 => shards * 2048,
        6..8 => shards * (64 + rng.below(200) as u64) + rng.below(32) as u64,
        _ => shards * (200 + rng.below(600) as u64),
    };
    let count = |rng: &mut Rng| {
        if rng.chance(10) {
            u64::MAX - rng.below(4) as u64
        } else {
            0
        }
    };
    let counts = Counts {
        hit: count(rng),
        miss: count(rng),
        invalidate: count(rng),
    };
    Setup {
        size,
        arena,
        mode: u8::from(rng.chance(40)),
        default_ttl: ttl(rng),
        counts,
    }
}

/// Makes the arena long enough for all that a sequence stores.
pub fn widen(setup: &mut Setup) {
    let (shards, _) = config::shards(setup.size);
    setup.arena = shards * 32_768;
}

/// Keys of which several fall into one shard.
pub fn keys(rng: &mut Rng, size: u64) -> Vec<Vec<u8>> {
    let (shards, keys) = config::shards(size);
    let mut list: Vec<Vec<u8>> = [b"".as_slice(), b"a", b"b"].map(<[u8]>::to_vec).to_vec();
    let mut number = rng.below(1000);
    let shard = |key: &[u8]| siphash::hash(key) % shards;
    let wanted = shard(b"a");
    while list.len() < 4 + keys.min(3) as usize {
        let key = format!("k{number}").into_bytes();
        number += 1;
        if shard(&key) == wanted {
            list.push(key);
        }
    }
    list
}

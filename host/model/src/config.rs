//! Settings: cause 1, the number of shards and of keys in each.

use calls::{At, Refusal, Setup};

/// Cause 1: size, mode, arena length.
pub fn check(setup: &Setup) -> Result<(), Refusal> {
    let size_fits = (1..=65_536).contains(&setup.size);
    if !size_fits || setup.mode > 1 {
        return Err(Refusal::number(1));
    }
    let (shards, _) = shards(setup.size);
    if setup.arena > 1 << 31 || setup.arena < 64 * shards {
        return Err(Refusal::number(1));
    }
    Ok(())
}

/// Cause 1 in a later call, whose size and arena length are the setup's.
pub fn check_call(setup: &Setup, at: At) -> Result<(), Refusal> {
    check(&Setup {
        mode: at.mode,
        ..setup.clone()
    })
}

/// Number of shards, and keys of each.
pub fn shards(size: u64) -> (u64, u64) {
    if size < 32 {
        (1, size)
    } else {
        (32, size / 32)
    }
}

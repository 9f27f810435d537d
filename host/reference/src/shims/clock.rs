//! `Instant` as the number of milliseconds that the call gives.
//!
//! It is wider than 64 bits, so that no sum of the sources overflows: neither does `std::time::Instant` on Linux, which
//! counts seconds in 64 bits signed.

use std::cell::Cell;
use std::ops::Add;
use std::time::Duration;

thread_local! {
    static CLOCK: Cell<u64> = const { Cell::new(0) };
    static PAST: Cell<bool> = const { Cell::new(false) };
}

/// Sets the clock of this thread, and forgets sums past 64 bits.
pub(crate) fn set(clock: u64) {
    CLOCK.set(clock);
    PAST.set(false);
}

/// Whether a sum went past 64 bits since [`set`].
pub(crate) fn past() -> bool {
    PAST.get()
}

/// A time in ms.
#[derive(Clone, Copy, Debug, PartialEq, Eq, PartialOrd, Ord)]
pub struct Instant(pub(crate) u128);

impl Instant {
    /// The clock as set.
    pub(crate) fn now() -> Self {
        Instant(CLOCK.get().into())
    }
}

impl Add<Duration> for Instant {
    type Output = Instant;

    fn add(self, duration: Duration) -> Instant {
        let sum = self.0 + duration.as_millis();
        PAST.set(PAST.get() || sum > u64::MAX.into());
        Instant(sum)
    }
}

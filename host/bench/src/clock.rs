//! The time that this thread itself has run, so that other programs on the machine do not count; and the time on the clock, for what is done elsewhere.

use std::ffi::{c_int, c_long};

/// C's `struct timespec` on 64-bit Linux.
#[repr(C)]
struct Timespec {
    seconds: i64,
    nanoseconds: c_long,
}

/// Linux's number of the clock that runs with time, from some start on.
const CLOCK_MONOTONIC: c_int = 1;

/// Linux's number of the clock of a thread's own time.
const THREAD_TIME: c_int = 3;

unsafe extern "C" {
    fn clock_gettime(clock: c_int, time: *mut Timespec) -> c_int;
}

fn read(clock: c_int) -> f64 {
    let mut time = Timespec {
        seconds: 0,
        nanoseconds: 0,
    };
    // SAFETY: the time is written during the call alone.
    let told = unsafe { clock_gettime(clock, &mut time) };
    assert_eq!(told, 0, "the system has such a clock");
    time.seconds as f64 * 1e9 + time.nanoseconds as f64
}

/// Nanoseconds that this thread has run.
pub fn ran() -> f64 {
    read(THREAD_TIME)
}

/// Nanoseconds on the clock.
pub fn passed() -> f64 {
    read(CLOCK_MONOTONIC)
}

/// The nanoseconds that a piece of work runs, with about one reading of the clock among them.
pub fn of<T>(work: impl FnOnce() -> T) -> f64 {
    let start = ran();
    std::hint::black_box(work());
    ran() - start
}

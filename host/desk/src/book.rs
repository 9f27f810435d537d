//! What was seen in a run.

use crate::cached::{Heard, Source};
use crate::traps::TRAPS;
use redis_cache::CacheStatistics;
use std::time::Duration;

/// A catch as it was read through the cache, and what the direct read right behind it said.
#[derive(Clone, Copy, Debug)]
pub struct Reading {
    pub at: Duration,
    pub trap: usize,
    pub catch: Option<u32>,
    pub source: Source,
    pub direct: Option<u32>,
    pub counts: CacheStatistics,
}

impl Reading {
    pub fn agrees(&self) -> bool {
        self.catch == self.direct
    }
}

/// What is known of one trap.
#[derive(Clone, Debug, Default)]
pub struct Trap {
    pub last: Option<Reading>,
    /// Each catch once, with the time when it was first read.
    pub catches: Vec<(Duration, Option<u32>)>,
    pub biofix: Option<Duration>,
    /// It has posted since it was last read, as far as the server has said.
    posted: bool,
    behind_since: Option<Duration>,
}

#[derive(Debug, Default)]
pub struct Book {
    pub traps: Vec<Trap>,
    pub readings: Vec<Reading>,
    pub pushes: Vec<(Duration, usize)>,
    /// Readings that the direct read was ahead of.
    pub overtaken: usize,
    /// The longest time until such a trap was read again and agreed.
    pub longest_behind: Duration,
    pub reconnected: usize,
}

impl Book {
    pub fn new() -> Self {
        let fresh = Trap {
            posted: true,
            ..Trap::default()
        };
        Book {
            traps: vec![fresh; TRAPS.len()],
            ..Book::default()
        }
    }

    pub fn heard(&mut self, at: Duration, heard: &Heard) {
        match heard {
            Heard::Push(trap) => {
                self.traps[*trap].posted = true;
                self.pushes.push((at, *trap));
            }
            Heard::Reconnected => self.reconnected += 1,
        }
    }

    pub fn read(&mut self, reading: Reading) {
        let trap = &mut self.traps[reading.trap];
        let new = trap.last.is_none_or(|last| last.catch != reading.catch);
        if trap.posted || new {
            trap.posted = false;
            trap.catches.push((reading.at, reading.catch));
            trap.biofix = trap.biofix.or(biofix(&trap.catches));
        }
        trap.last = Some(reading);
        if reading.agrees() {
            if let Some(since) = trap.behind_since.take() {
                self.longest_behind = self.longest_behind.max(reading.at.saturating_sub(since));
            }
        } else {
            self.overtaken += 1;
            trap.behind_since.get_or_insert(reading.at);
        }
        self.readings.push(reading);
    }

    /// The traps whose last reading the direct read was ahead of.
    pub fn behind(&self) -> Vec<usize> {
        let behind = |trap: &Trap| trap.last.is_some_and(|reading| !reading.agrees());
        (0..TRAPS.len())
            .filter(|&trap| behind(&self.traps[trap]))
            .collect()
    }

    pub fn counts(&self) -> CacheStatistics {
        self.readings.last().map(|r| r.counts).unwrap_or_default()
    }
}

/// When the first of two catches in a row above zero was read.
fn biofix(catches: &[(Duration, Option<u32>)]) -> Option<Duration> {
    let caught = |catch: &Option<u32>| catch.is_some_and(|n| n > 0);
    catches
        .windows(2)
        .find(|pair| caught(&pair[0].1) && caught(&pair[1].1))
        .map(|pair| pair[0].0)
}

#[cfg(test)]
mod tests {
    use super::*;

    fn at(catches: &[Option<u32>]) -> Option<u64> {
        let catches: Vec<_> = (0..)
            .map(Duration::from_secs)
            .zip(catches.iter().copied())
            .collect();
        biofix(&catches).map(|at| at.as_secs())
    }

    #[test]
    fn biofix_is_the_first_lasting_catch() {
        assert_eq!(at(&[Some(0), Some(1), Some(0), Some(2), Some(3)]), Some(3));
        assert_eq!(at(&[Some(1), None, Some(1), Some(0)]), None);
        assert_eq!(at(&[None]), None);
    }

    /// The same catch served again is no second catch; one that the trap posted again is.
    #[test]
    fn a_catch_counts_once() {
        let mut book = Book::new();
        let reading = |seconds, source| Reading {
            at: Duration::from_secs(seconds),
            trap: 0,
            catch: Some(2),
            source,
            direct: Some(2),
            counts: CacheStatistics::default(),
        };
        book.read(reading(1, Source::Server));
        book.read(reading(2, Source::Cache));
        assert_eq!(book.traps[0].biofix, None);
        book.heard(Duration::from_secs(3), &Heard::Push(0));
        book.read(reading(4, Source::Server));
        assert_eq!(book.traps[0].biofix, Some(Duration::from_secs(1)));
    }

    #[test]
    fn an_overtaken_reading_has_to_agree_later() {
        let mut book = Book::new();
        let reading = |ms, catch| Reading {
            at: Duration::from_millis(ms),
            trap: 1,
            catch: Some(catch),
            source: Source::Server,
            direct: Some(2),
            counts: CacheStatistics::default(),
        };
        book.read(reading(10, 1));
        assert_eq!(book.behind(), [1]);
        book.read(reading(25, 2));
        assert!(book.behind().is_empty());
        assert_eq!(book.overtaken, 1);
        assert_eq!(book.longest_behind, Duration::from_millis(15));
    }
}

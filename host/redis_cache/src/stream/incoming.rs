//! Bytes as they arrive on a connection, cut anywhere, and the values that they are.

use crate::lent::{ValueEnd, value_end};

/// Received, and not yet handed on as values.
#[derive(Debug, Default)]
pub(super) struct Incoming {
    bytes: Vec<u8>,
    /// How many of them were handed on.
    taken: usize,
    /// How many are to be there before they are read again: as many as a value can be whole with, or twice as many as there were.
    needed: usize,
}

/// What the bytes begin with.
pub(super) enum Next<'a> {
    Value(&'a [u8]),
    /// A part of a value, or nothing.
    More,
    /// No value of at most 16 MiB and 16 deep.
    Wrong,
}

impl Incoming {
    pub fn add(&mut self, bytes: &[u8]) {
        self.bytes.drain(..self.taken);
        self.taken = 0;
        self.bytes.extend_from_slice(bytes);
    }

    /// Hands on the next value. A long list that comes in small pieces is not read again for each of them.
    pub fn next(&mut self) -> Next<'_> {
        let rest = &self.bytes[self.taken..];
        if rest.len() < self.needed {
            return Next::More;
        }
        match value_end(rest) {
            ValueEnd::Complete(length) => {
                self.taken += length;
                self.needed = 0;
                Next::Value(&rest[..length])
            }
            ValueEnd::More(lacking) => {
                self.needed = (rest.len() + lacking).min(2 * rest.len());
                Next::More
            }
            ValueEnd::Wrong => Next::Wrong,
        }
    }
}

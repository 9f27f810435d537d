//! A lent output buffer: guarded, and full of known bytes, so that one sees what was written to it.

use crate::guarded::{Guarded, Side};

/// The buffer.
pub struct Output(Guarded);

/// What stands at a place before the call.
fn before(place: usize) -> u8 {
    (place % 251) as u8 ^ 0xa7
}

impl Output {
    /// A buffer of that many bytes.
    pub fn of(room: usize, side: Side) -> Self {
        let mut lent = Guarded::zeros(room, side);
        for (place, byte) in lent.bytes_mut().iter_mut().enumerate() {
            *byte = before(place);
        }
        Output(lent)
    }

    /// The bytes to be lent.
    pub fn bytes_mut(&mut self) -> &mut [u8] {
        self.0.bytes_mut()
    }

    /// The first so many bytes, which were written.
    ///
    /// # Panics
    /// Where one behind them was written too, or one beside the buffer.
    pub fn written(&self, length: usize) -> &[u8] {
        let (written, end) = self.bytes().split_at(length);
        let mut end = (length..).zip(end);
        assert!(
            end.all(|(place, &byte)| byte == before(place)),
            "the unwritten end stays"
        );
        written
    }

    /// # Panics
    /// Where a byte was written.
    pub fn assert_unchanged(&self) {
        self.written(0);
    }

    /// # Panics
    /// Where a byte is not zero, or one beside the buffer was written.
    pub fn assert_zeroed(&self) {
        assert!(self.bytes().iter().all(|&byte| byte == 0), "zeroed");
    }

    fn bytes(&self) -> &[u8] {
        assert!(self.0.intact(), "wrote beside an output buffer");
        self.0.bytes()
    }
}

#[cfg(test)]
mod tests {
    use super::*;
    use std::panic::{AssertUnwindSafe, catch_unwind};

    fn panics(check: impl FnOnce()) -> bool {
        catch_unwind(AssertUnwindSafe(check)).is_err()
    }

    #[test]
    fn what_was_written_is_seen() {
        let mut output = Output::of(600, Side::Behind);
        output.assert_unchanged();
        assert!(panics(|| output.assert_zeroed()));
        output.bytes_mut()[..2].copy_from_slice(b"ab");
        assert_eq!(output.written(2), b"ab");
        assert!(panics(|| output.assert_unchanged()));
        for place in [2, 3, 599] {
            let mut output = Output::of(600, Side::Before);
            output.bytes_mut()[place] ^= 1;
            assert!(panics(|| {
                output.written(2);
            }));
            output.bytes_mut().fill(0);
            output.assert_zeroed();
        }
    }
}

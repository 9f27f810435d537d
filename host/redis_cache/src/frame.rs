//! Where the first value ends in the bytes received so far: the verdict of `redis_cache_value_end`, which is proved to be exact.

use crate::foreign;

/// What bytes begin with.
///
/// ```
/// use redis_cache::lent::{ValueEnd, value_end};
///
/// assert_eq!(value_end(b"?"), ValueEnd::Wrong);
/// ```
#[derive(Clone, Copy, Debug, PartialEq, Eq)]
pub enum ValueEnd {
    /// A value of so many bytes.
    Complete(usize),
    /// A part of a value, which lacks so many bytes at least.
    More(usize),
    /// No value of at most 16 MiB and 16 deep.
    Wrong,
}

/// Where the first value ends in the bytes received so far. It reads them from their start and keeps nothing, so that a caller does well to wait for the
/// bytes that are lacking before it asks again. More bytes change neither [`ValueEnd::Complete`] nor [`ValueEnd::Wrong`].
///
/// ```
/// use redis_cache::lent::{ValueEnd, value_end};
///
/// assert_eq!(value_end(b"$2\r\n12\r\n+OK"), ValueEnd::Complete(8));
/// assert_eq!(value_end(b"$2\r\n1"), ValueEnd::More(3));
/// ```
pub fn value_end(received: &[u8]) -> ValueEnd {
    foreign::value_end(received)
}

#[cfg(test)]
mod tests {
    use super::*;
    use crate::testing::{NULLS, RIGHT, WRONG, nested, old_nulls};
    use crate::value::MOST_BYTES;

    /// A value is complete where it ends, whatever follows; every cut of it needs more.
    #[test]
    fn right_values() {
        let old = old_nulls().map(|(text, _)| text);
        for text in old.chain(RIGHT.iter().map(|text| text.to_string())) {
            let bytes = text.as_bytes();
            assert_eq!(
                value_end(bytes),
                ValueEnd::Complete(bytes.len()),
                "{text:?}"
            );
            let longer = [bytes, b"+"].concat();
            assert_eq!(
                value_end(&longer),
                ValueEnd::Complete(bytes.len()),
                "{text:?}"
            );
            for end in 0..bytes.len() {
                let ValueEnd::More(lacking) = value_end(&bytes[..end]) else {
                    panic!("{text:?}, {end}")
                };
                assert!(
                    (1..=bytes.len() - end).contains(&lacking),
                    "{text:?}, {end}"
                );
            }
        }
    }

    #[test]
    fn wrong_values_stay_wrong() {
        for text in WRONG {
            assert_eq!(value_end(text.as_bytes()), ValueEnd::Wrong, "{text:?}");
            let longer = format!("{text}:1\r\n");
            assert_eq!(value_end(longer.as_bytes()), ValueEnd::Wrong, "{text:?}");
        }
    }

    #[test]
    fn depths() {
        for head in ["*1\r\n", "|0\r\n", "~1\r\n", ">1\r\n", "%1\r\n_\r\n"] {
            for null in NULLS {
                let deepest = nested(head, 15, null);
                assert_eq!(value_end(&deepest), ValueEnd::Complete(deepest.len()));
                let deeper = nested(head, 16, null);
                assert_eq!(value_end(&deeper), ValueEnd::Wrong, "{head:?}");
            }
        }
    }

    #[test]
    fn the_longest_value_and_one_byte_more() {
        let blob = |n: usize| [format!("${n}\r\n").as_bytes(), &vec![b'x'; n], b"\r\n"].concat();
        let head = blob(10_000_000).len() - 10_000_000;
        let longest = blob(MOST_BYTES - head);
        assert_eq!(value_end(&longest), ValueEnd::Complete(MOST_BYTES));
        assert_eq!(value_end(&longest[..MOST_BYTES - 1]), ValueEnd::More(1));
        assert_eq!(value_end(&blob(MOST_BYTES - head + 1)), ValueEnd::Wrong);
        let line = [b"+".as_slice(), &vec![b'x'; MOST_BYTES]].concat();
        assert_eq!(value_end(&line[..MOST_BYTES - 2]), ValueEnd::More(2));
        assert_eq!(value_end(&line[..MOST_BYTES - 1]), ValueEnd::Wrong);
    }
}

//! The reader. What it is given was checked before, by the library or by framing, or is refused here as a whole.

use super::{Bytes, ServerError, Value};
use std::borrow::Cow;

/// The most bytes of one value.
pub(crate) const MOST_BYTES: usize = 16 << 20;

/// The deepest nesting, the outermost value counting 1.
pub(crate) const MOST_DEEP: usize = 16;

/// The value that these bytes are.
pub(super) fn value(bytes: &[u8]) -> Option<Value<'_>> {
    if bytes.len() > MOST_BYTES {
        return None;
    }
    whole(bytes, MOST_DEEP)
}

/// The value that a resolving wrote: its answers stand inside one array or two, and are together of any length.
pub(crate) fn result(bytes: &[u8]) -> Option<Value<'_>> {
    whole(bytes, MOST_DEEP + 2)
}

fn whole(bytes: &[u8], depth: usize) -> Option<Value<'_>> {
    let mut reader = Reader { rest: bytes };
    let value = reader.value(depth)?;
    reader.rest.is_empty().then_some(value)
}

struct Reader<'a> {
    rest: &'a [u8],
}

impl<'a> Reader<'a> {
    fn value(&mut self, depth: usize) -> Option<Value<'a>> {
        let below = depth.checked_sub(1)?;
        let (&kind, rest) = self.rest.split_first()?;
        self.rest = rest;
        Some(match kind {
            b'$' | b'*' if self.absent() => Value::Nil,
            b'$' => Value::BulkString(self.blob()?.into()),
            b'!' => Value::ServerError(ServerError::of(self.blob()?)),
            b'=' => verbatim(self.blob()?)?,
            b'+' => Value::SimpleString(self.line()?.into()),
            b'-' => Value::ServerError(ServerError::of(self.line()?)),
            b',' => Value::Double(self.line()?.into()),
            b'(' => Value::BigNumber(self.line()?.into()),
            b':' => Value::Int(integer(self.line()?)?),
            b'_' => self.line()?.is_empty().then_some(Value::Nil)?,
            b'#' => match self.line()? {
                b"t" => Value::Boolean(true),
                b"f" => Value::Boolean(false),
                _ => return None,
            },
            b'*' => Value::Array(self.values(below)?),
            b'~' => Value::Set(self.values(below)?),
            b'>' => Value::Push(self.values(below)?),
            b'%' => Value::Map(self.pairs(below)?),
            b'|' => Value::Attribute {
                attributes: self.pairs(below)?,
                data: Box::new(self.value(below)?),
            },
            _ => return None,
        })
    }

    /// Whether RESP2's mark of what is absent comes next; it is then read.
    fn absent(&mut self) -> bool {
        let rest = self.rest.strip_prefix(b"-1\r\n");
        self.rest = rest.unwrap_or(self.rest);
        rest.is_some()
    }

    /// The bytes up to the next CR LF, which hold neither CR nor LF.
    fn line(&mut self) -> Option<&'a [u8]> {
        let end = self.rest.iter().position(|b| matches!(b, b'\r' | b'\n'))?;
        let (line, rest) = self.rest.split_at(end);
        self.rest = rest.strip_prefix(b"\r\n")?;
        Some(line)
    }

    fn blob(&mut self) -> Option<&'a [u8]> {
        let length = usize::try_from(digits(self.line()?)?).ok()?;
        let body = self.rest.get(..length)?;
        self.rest = self.rest[length..].strip_prefix(b"\r\n")?;
        Some(body)
    }

    fn values(&mut self, depth: usize) -> Option<Vec<Value<'a>>> {
        let count = digits(self.line()?)?;
        (0..count).map(|_| self.value(depth)).collect()
    }

    fn pairs(&mut self, depth: usize) -> Option<Vec<(Value<'a>, Value<'a>)>> {
        let count = digits(self.line()?)?;
        let pair = |_| Some((self.value(depth)?, self.value(depth)?));
        (0..count).map(pair).collect()
    }
}

fn verbatim(body: &[u8]) -> Option<Value<'_>> {
    let (format, text) = body.split_first_chunk::<3>()?;
    let text: Bytes<'_> = Cow::Borrowed(text.strip_prefix(b":")?);
    Some(Value::VerbatimString {
        format: *format,
        text,
    })
}

/// A number below 2^64 in decimal digits without sign or leading zeros.
fn digits(line: &[u8]) -> Option<u64> {
    if line.is_empty() || (line.len() > 1 && line[0] == b'0') {
        return None;
    }
    line.iter().try_fold(0u64, |number, &byte| {
        let digit = byte.is_ascii_digit().then(|| u64::from(byte - b'0'))?;
        number.checked_mul(10)?.checked_add(digit)
    })
}

/// An integer of 64 bits signed without plus sign or leading zeros, and not -0.
fn integer(line: &[u8]) -> Option<i64> {
    match line.strip_prefix(b"-") {
        Some(rest) => match digits(rest)? {
            0 => None,
            n => 0i64.checked_sub_unsigned(n),
        },
        None => i64::try_from(digits(line)?).ok(),
    }
}

#[cfg(test)]
mod tests {
    use super::*;
    use crate::testing::{NULLS, RIGHT, WRONG, nested, old_nulls};
    use calls::resp::Spelling;

    /// The bytes of a value.
    fn encode(value: &Value<'_>) -> Vec<u8> {
        calls::resp::encode(&other(value))
    }

    fn other(value: &Value<'_>) -> calls::Value {
        let list = |values: &[Value<'_>]| values.iter().map(other).collect();
        let pairs = |pairs: &[(Value<'_>, Value<'_>)]| {
            pairs.iter().map(|(k, v)| (other(k), other(v))).collect()
        };
        match value {
            Value::Nil => calls::Value::Null(Spelling::Underscore),
            Value::Int(n) => calls::Value::Integer(*n),
            Value::BulkString(b) => calls::Value::Blob(b.to_vec()),
            Value::SimpleString(b) => calls::Value::Simple(b.to_vec()),
            Value::Double(b) => calls::Value::Double(b.to_vec()),
            Value::BigNumber(b) => calls::Value::BigNumber(b.to_vec()),
            Value::Boolean(b) => calls::Value::Boolean(*b),
            Value::VerbatimString { format, text } => {
                calls::Value::Verbatim([&format[..], b":", text].concat())
            }
            Value::Array(values) => calls::Value::Array(list(values)),
            Value::Set(values) => calls::Value::Set(list(values)),
            Value::Push(values) => calls::Value::Push(list(values)),
            Value::Map(map) => calls::Value::Map(pairs(map)),
            Value::Attribute { data, attributes } => {
                calls::Value::Attribute(pairs(attributes), Box::new(other(data)))
            }
            Value::ServerError(error) => calls::Value::Error(error.to_string().into_bytes()),
        }
    }

    #[test]
    fn right_values_are_read_whole() {
        for text in RIGHT {
            let read = value(text.as_bytes()).unwrap_or_else(|| panic!("{text:?}"));
            let owned = read.clone().into_owned();
            assert_eq!(read, owned);
            // Both kinds of error are read as one.
            if !text.contains('!') {
                assert_eq!(encode(&owned), text.as_bytes(), "{text:?}");
            }
        }
    }

    /// RESP2's nulls are null wherever RESP3's is.
    #[test]
    fn old_nulls_are_null() {
        for (text, new) in old_nulls() {
            let read = value(text.as_bytes()).unwrap_or_else(|| panic!("{text:?}"));
            assert_eq!(Some(read), value(new.as_bytes()), "{text:?}");
        }
    }

    #[test]
    fn wrong_values_and_every_cut_are_refused() {
        for text in WRONG {
            assert_eq!(value(text.as_bytes()), None, "{text:?}");
        }
        let old = old_nulls().map(|(text, _)| text);
        for text in old.chain(RIGHT.iter().map(|text| text.to_string())) {
            for end in 0..text.len() {
                assert_eq!(value(&text.as_bytes()[..end]), None, "{text:?}, {end}");
            }
        }
    }

    #[test]
    fn depths() {
        for head in ["*1\r\n", "|0\r\n", "~1\r\n", ">1\r\n", "%1\r\n_\r\n"] {
            for null in NULLS {
                assert!(value(&nested(head, 15, null)).is_some(), "{head:?}");
                assert!(value(&nested(head, 16, null)).is_none(), "{head:?}");
                assert!(result(&nested(head, 17, null)).is_some(), "{head:?}");
                assert!(result(&nested(head, 18, null)).is_none(), "{head:?}");
            }
        }
    }
}

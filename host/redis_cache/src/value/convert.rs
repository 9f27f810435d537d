//! What a host reads from a value, under the names of the crate redis.

use super::{OwnedValue, ServerError, Value};
use std::collections::HashMap;
use std::fmt;
use std::hash::Hash;

/// What can be read from a value. Attributes are passed over; an error of the server's is an error here, but for [`OwnedValue`]
/// and [`Result`].
///
/// | read as | from |
/// |---|---|
/// | whole numbers | an integer, or a string of digits |
/// | `f64` | a double, an integer, or a string that is one |
/// | `bool` | a boolean; 0 and 1; null is `false`, `OK` is `true` |
/// | `String` | a string of UTF-8, a number as it was written |
/// | `Vec<u8>` | a string |
/// | `Vec<T>` | an array, a set; null is empty |
/// | `HashMap<K, V>` | a map, or an array of keys and values in turn; null is empty |
/// | `Option<T>` | null is `None` |
/// | `()` | anything |
/// | tuples | an array of that length |
/// | `Result<T, ServerError>` | an error of the server's is `Err` |
///
/// ```
/// use redis_cache::{Value, from_redis_value};
///
/// let value = Value::parse(b"*3\r\n$2\r\n12\r\n_\r\n:7\r\n").expect("a value");
/// let catches: Vec<Option<i64>> = from_redis_value(&value)?;
/// assert_eq!(catches, [Some(12), None, Some(7)]);
/// # Ok::<(), redis_cache::ParsingError>(())
/// ```
pub trait FromRedisValue: Sized {
    /// Reads it.
    ///
    /// # Errors
    /// Where the value is of another kind.
    fn from_redis_value(value: &Value<'_>) -> Result<Self, ParsingError>;

    /// Reads a list of these from a string, which bytes alone can be.
    #[doc(hidden)]
    fn from_string(_bytes: &[u8]) -> Option<Vec<Self>> {
        None
    }
}

/// Reads a value as what is wanted.
///
/// # Errors
/// Where the value is of another kind.
///
/// ```
/// use redis_cache::{Value, from_redis_value};
///
/// let catch: u32 = from_redis_value(&Value::Int(12))?;
/// assert_eq!(catch, 12);
/// # Ok::<(), redis_cache::ParsingError>(())
/// ```
pub fn from_redis_value<T: FromRedisValue>(value: &Value<'_>) -> Result<T, ParsingError> {
    T::from_redis_value(value)
}

/// A value of another kind than was wanted, or an error of the server's where a value was.
///
/// ```
/// use redis_cache::{Value, from_redis_value};
///
/// let wrong = from_redis_value::<i64>(&Value::Nil).expect_err("no number");
/// assert_eq!(wrong.to_string(), "a whole number was wanted and null was there. Ask for an Option where the key may be absent.");
/// ```
#[derive(Clone, Debug, PartialEq, Eq)]
pub struct ParsingError {
    wanted: &'static str,
    got: Got,
}

#[derive(Clone, Debug, PartialEq, Eq)]
enum Got {
    Value(OwnedValue),
    Server(ServerError),
}

impl ParsingError {
    fn new(wanted: &'static str, value: &Value<'_>) -> Self {
        let got = match value {
            Value::ServerError(error) => Got::Server(error.clone()),
            other => Got::Value(other.clone().into_owned()),
        };
        ParsingError { wanted, got }
    }

    /// The server's error, where one was in the value's place.
    ///
    /// ```
    /// use redis_cache::{Value, from_redis_value};
    ///
    /// let value = Value::parse(b"-WRONGTYPE a hash\r\n").expect("a value");
    /// let wrong = from_redis_value::<String>(&value).expect_err("an error");
    /// assert_eq!(wrong.server_error().map(|error| error.code()), Some("WRONGTYPE"));
    /// ```
    pub fn server_error(&self) -> Option<&ServerError> {
        match &self.got {
            Got::Server(error) => Some(error),
            Got::Value(_) => None,
        }
    }
}

impl fmt::Display for ParsingError {
    fn fmt(&self, f: &mut fmt::Formatter<'_>) -> fmt::Result {
        let wanted = self.wanted;
        match &self.got {
            Got::Server(error) => write!(
                f,
                "{wanted} was wanted and the server said '{error}'. Ask for a Result where the command may fail."
            ),
            Got::Value(Value::Nil) => write!(
                f,
                "{wanted} was wanted and null was there. Ask for an Option where the key may be absent."
            ),
            Got::Value(value) => write!(
                f,
                "{wanted} was wanted and {value:?} was there. Ask for what the command answers."
            ),
        }
    }
}

impl std::error::Error for ParsingError {}

/// The value behind its attributes.
fn inner<'v, 'a>(value: &'v Value<'a>) -> &'v Value<'a> {
    match value {
        Value::Attribute { data, .. } => inner(data),
        other => other,
    }
}

/// A number or a string as text.
fn text<'v>(value: &'v Value<'_>) -> Option<&'v str> {
    let bytes = match value {
        Value::Double(bytes) | Value::BigNumber(bytes) => bytes,
        other => other.as_bytes()?,
    };
    std::str::from_utf8(bytes).ok()
}

macro_rules! whole_numbers {
    ($($number:ty)*) => {
        $(impl FromRedisValue for $number {
            fn from_redis_value(value: &Value<'_>) -> Result<Self, ParsingError> {
                whole_number(value)
            }
        })*
    };
}

whole_numbers!(u16 u32 u64 u128 usize i8 i16 i32 i64 i128 isize);

impl FromRedisValue for u8 {
    fn from_redis_value(value: &Value<'_>) -> Result<Self, ParsingError> {
        whole_number(value)
    }

    fn from_string(bytes: &[u8]) -> Option<Vec<u8>> {
        Some(bytes.to_vec())
    }
}

fn whole_number<T>(value: &Value<'_>) -> Result<T, ParsingError>
where
    T: TryFrom<i64> + std::str::FromStr,
{
    let read = match inner(value) {
        Value::Int(n) => T::try_from(*n).ok(),
        other => text(other).and_then(|text| text.parse().ok()),
    };
    read.ok_or_else(|| ParsingError::new("a whole number", inner(value)))
}

impl FromRedisValue for f64 {
    fn from_redis_value(value: &Value<'_>) -> Result<Self, ParsingError> {
        let read = match inner(value) {
            Value::Int(n) => Some(*n as f64),
            other => text(other).and_then(|text| text.parse().ok()),
        };
        read.ok_or_else(|| ParsingError::new("a number", inner(value)))
    }
}

impl FromRedisValue for bool {
    fn from_redis_value(value: &Value<'_>) -> Result<Self, ParsingError> {
        match inner(value) {
            Value::Boolean(b) => Ok(*b),
            Value::Nil => Ok(false),
            Value::Int(n) => Ok(*n != 0),
            other => match other.as_bytes() {
                Some(b"1" | b"OK") => Ok(true),
                Some(b"0") => Ok(false),
                _ => Err(ParsingError::new("a boolean", other)),
            },
        }
    }
}

impl FromRedisValue for String {
    fn from_redis_value(value: &Value<'_>) -> Result<Self, ParsingError> {
        match inner(value) {
            Value::Int(n) => Ok(n.to_string()),
            other => text(other)
                .map(str::to_owned)
                .ok_or_else(|| ParsingError::new("a string of UTF-8", other)),
        }
    }
}

impl<T: FromRedisValue> FromRedisValue for Vec<T> {
    fn from_redis_value(value: &Value<'_>) -> Result<Self, ParsingError> {
        let value = inner(value);
        if let Some(values) = value.as_list() {
            return values.iter().map(T::from_redis_value).collect();
        }
        match (value, value.as_bytes().and_then(T::from_string)) {
            (_, Some(list)) => Ok(list),
            (Value::Nil, None) => Ok(Vec::new()),
            (other, None) => Err(ParsingError::new("a list", other)),
        }
    }
}

impl<K: FromRedisValue + Eq + Hash, V: FromRedisValue> FromRedisValue for HashMap<K, V> {
    fn from_redis_value(value: &Value<'_>) -> Result<Self, ParsingError> {
        let pair = |key, value| Ok((from_redis_value(key)?, from_redis_value(value)?));
        match inner(value) {
            Value::Map(pairs) => pairs.iter().map(|(key, value)| pair(key, value)).collect(),
            Value::Array(list) if list.len() % 2 == 0 => list
                .chunks_exact(2)
                .map(|both| pair(&both[0], &both[1]))
                .collect(),
            Value::Nil => Ok(HashMap::new()),
            other => Err(ParsingError::new("a map", other)),
        }
    }
}

impl<T: FromRedisValue> FromRedisValue for Option<T> {
    fn from_redis_value(value: &Value<'_>) -> Result<Self, ParsingError> {
        match inner(value) {
            Value::Nil => Ok(None),
            other => T::from_redis_value(other).map(Some),
        }
    }
}

impl<T: FromRedisValue> FromRedisValue for Result<T, ServerError> {
    fn from_redis_value(value: &Value<'_>) -> Result<Self, ParsingError> {
        match inner(value) {
            Value::ServerError(error) => Ok(Err(error.clone())),
            other => T::from_redis_value(other).map(Ok),
        }
    }
}

impl FromRedisValue for OwnedValue {
    fn from_redis_value(value: &Value<'_>) -> Result<Self, ParsingError> {
        Ok(value.clone().into_owned())
    }
}

impl FromRedisValue for () {
    fn from_redis_value(value: &Value<'_>) -> Result<Self, ParsingError> {
        match inner(value) {
            error @ Value::ServerError(_) => Err(ParsingError::new("any value", error)),
            _ => Ok(()),
        }
    }
}

macro_rules! tuples {
    ($($($name:ident)+;)*) => {
        $(impl<$($name: FromRedisValue),+> FromRedisValue for ($($name,)+) {
            #[allow(non_snake_case, reason = "each element is read as the type of its name")]
            fn from_redis_value(value: &Value<'_>) -> Result<Self, ParsingError> {
                match inner(value).as_list() {
                    Some([$($name),+]) => Ok(($(from_redis_value($name)?,)+)),
                    _ => Err(ParsingError::new("a list of another length", inner(value))),
                }
            }
        })*
    };
}

tuples! {
    A;
    A B;
    A B C;
    A B C D;
    A B C D E;
    A B C D E F;
    A B C D E F G;
    A B C D E F G H;
}

#[cfg(test)]
mod tests {
    use super::*;

    fn read<T: FromRedisValue>(text: &str) -> Result<T, String> {
        let value = Value::parse(text.as_bytes()).expect("a value");
        from_redis_value(&value).map_err(|wrong| wrong.to_string())
    }

    #[test]
    fn numbers_and_strings() {
        assert_eq!(read(":12\r\n"), Ok(12u8));
        assert_eq!(read("$2\r\n12\r\n"), Ok(12i64));
        assert_eq!(read("|1\r\n+ttl\r\n:3\r\n:12\r\n"), Ok(12usize));
        assert!(read::<u8>(":256\r\n").is_err());
        assert!(read::<u64>(":-1\r\n").is_err());
        assert_eq!(read(",1.5\r\n"), Ok(1.5));
        assert_eq!(read("$3\r\n1.5\r\n"), Ok(1.5));
        assert_eq!(read(":-3\r\n"), Ok(-3.0));
        assert_eq!(read("+OK\r\n"), Ok(true));
        assert_eq!(
            [read("_\r\n"), read("#f\r\n"), read(":0\r\n")],
            [Ok(false), Ok(false), Ok(false)]
        );
        assert_eq!(read("=5\r\ntxt:a\r\n"), Ok("a".to_string()));
        assert_eq!(read(":7\r\n"), Ok("7".to_string()));
        assert_eq!(read("$2\r\n\u{1}\u{2}\r\n"), Ok(vec![1u8, 2]));
        assert_eq!(read("*2\r\n:1\r\n:2\r\n"), Ok(vec![1u8, 2]));
    }

    #[test]
    fn lists_maps_nulls_and_errors() {
        assert_eq!(read("*2\r\n_\r\n:1\r\n"), Ok((None::<i64>, 1)));
        assert!(read::<(i64, i64, i64)>("*2\r\n:1\r\n:2\r\n").is_err());
        assert_eq!(read("_\r\n"), Ok(Vec::<i64>::new()));
        let map = HashMap::from([("trap7".to_string(), 12)]);
        assert_eq!(read("%1\r\n$5\r\ntrap7\r\n:12\r\n"), Ok(map.clone()));
        assert_eq!(read("*2\r\n$5\r\ntrap7\r\n:12\r\n"), Ok(map));
        let failed: Result<i64, ServerError> = Err(ServerError::of(b"ERR no"));
        assert_eq!(read("-ERR no\r\n"), Ok(failed));
        assert_eq!(
            read("!6\r\nERR no\r\n"),
            Ok(Err::<i64, _>(ServerError::of(b"ERR no")))
        );
        let said = read::<i64>("-ERR no\r\n").expect_err("an error");
        assert_eq!(
            said,
            "a whole number was wanted and the server said 'ERR no'. Ask for a Result where the command may fail."
        );
        assert!(read::<()>("-ERR no\r\n").is_err());
        assert_eq!(read("*0\r\n"), Ok(()));
    }
}

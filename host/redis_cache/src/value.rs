//! RESP3 values, and RESP2's two nulls, read from bytes that the library or the server wrote.

mod convert;
mod read;

pub use convert::{FromRedisValue, ParsingError, from_redis_value};
#[cfg(test)]
pub(crate) use read::MOST_BYTES;
pub(crate) use read::result;

use std::borrow::Cow;
use std::fmt;

/// Bytes of a value: a part of what was read, or its own.
type Bytes<'a> = Cow<'a, [u8]>;

/// A RESP3 value. One that was just read borrows its bytes; [`Value::into_owned`] makes one that keeps them. What a server says in RESP2 is read too, since
/// all but its nulls is the same: those are `$-1` and `*-1`, and are read as null.
///
/// ```
/// use redis_cache::Value;
///
/// let value = Value::parse(b"*2\r\n:12\r\n_\r\n").expect("a value");
/// assert_eq!(value, Value::Array(vec![Value::Int(12), Value::Nil]));
/// assert_eq!(Value::parse(b"$-1\r\n"), Some(Value::Nil));
/// ```
#[derive(Clone, Debug, PartialEq, Eq)]
pub enum Value<'a> {
    /// `_`, or RESP2's `$-1` or `*-1`: null.
    Nil,
    /// `:`: an integer.
    Int(i64),
    /// `$`: a blob string.
    BulkString(Bytes<'a>),
    /// `*`: an array.
    Array(Vec<Value<'a>>),
    /// `+`: a simple string.
    SimpleString(Bytes<'a>),
    /// `%`: a map, in the order in which it was sent.
    Map(Vec<(Value<'a>, Value<'a>)>),
    /// `|`: attributes, and the value that they stand before.
    Attribute {
        /// The value.
        data: Box<Value<'a>>,
        /// Its attributes.
        attributes: Vec<(Value<'a>, Value<'a>)>,
    },
    /// `~`: a set.
    Set(Vec<Value<'a>>),
    /// `,`: a double, as it was written.
    Double(Bytes<'a>),
    /// `#`: a boolean.
    Boolean(bool),
    /// `=`: text in a format.
    VerbatimString {
        /// Three bytes of format: `txt`, `mkd`.
        format: [u8; 3],
        /// The text.
        text: Bytes<'a>,
    },
    /// `(`: a big number, as it was written.
    BigNumber(Bytes<'a>),
    /// `>`: a push, its kind the first element.
    Push(Vec<Value<'a>>),
    /// `-` or `!`: an error of the server's.
    ServerError(ServerError),
}

/// A value that keeps its bytes.
///
/// ```
/// use redis_cache::{OwnedValue, Value};
///
/// fn read() -> OwnedValue {
///     let received = b"$2\r\n12\r\n".to_vec();
///     Value::parse(&received).expect("a value").into_owned()
/// }
/// assert_eq!(read().as_bytes(), Some(&b"12"[..]));
/// ```
pub type OwnedValue = Value<'static>;

impl<'a> Value<'a> {
    /// Reads bytes that are exactly one value, of at most 16 MiB and nested at most 16 deep; `None` for all others.
    ///
    /// ```
    /// use redis_cache::Value;
    ///
    /// assert_eq!(Value::parse(b":12\r\n"), Some(Value::Int(12)));
    /// assert_eq!(Value::parse(b":12\r\n:13\r\n"), None);
    /// assert_eq!(Value::parse(b":12"), None);
    /// ```
    pub fn parse(bytes: &'a [u8]) -> Option<Self> {
        read::value(bytes)
    }

    /// The same value with bytes of its own.
    ///
    /// ```
    /// use redis_cache::Value;
    ///
    /// let owned: Value<'static> = Value::parse(b"+OK\r\n").expect("a value").into_owned();
    /// assert_eq!(owned, Value::SimpleString(b"OK".into()));
    /// ```
    pub fn into_owned(self) -> OwnedValue {
        let owned = |bytes: Bytes<'_>| Cow::Owned(bytes.into_owned());
        let list = |values: Vec<Value<'_>>| values.into_iter().map(Value::into_owned).collect();
        let pairs = |pairs: Vec<(Value<'_>, Value<'_>)>| {
            let both =
                |(key, value): (Value<'_>, Value<'_>)| (key.into_owned(), value.into_owned());
            pairs.into_iter().map(both).collect()
        };
        match self {
            Value::Nil => Value::Nil,
            Value::Int(n) => Value::Int(n),
            Value::BulkString(b) => Value::BulkString(owned(b)),
            Value::Array(values) => Value::Array(list(values)),
            Value::SimpleString(b) => Value::SimpleString(owned(b)),
            Value::Map(map) => Value::Map(pairs(map)),
            Value::Attribute { data, attributes } => Value::Attribute {
                data: Box::new(data.into_owned()),
                attributes: pairs(attributes),
            },
            Value::Set(values) => Value::Set(list(values)),
            Value::Double(b) => Value::Double(owned(b)),
            Value::Boolean(b) => Value::Boolean(b),
            Value::VerbatimString { format, text } => Value::VerbatimString {
                format,
                text: owned(text),
            },
            Value::BigNumber(b) => Value::BigNumber(owned(b)),
            Value::Push(values) => Value::Push(list(values)),
            Value::ServerError(error) => Value::ServerError(error),
        }
    }

    /// The bytes of a string: `$`, `+` or `=`.
    ///
    /// ```
    /// use redis_cache::Value;
    ///
    /// let value = Value::parse(b"$2\r\n12\r\n").expect("a value");
    /// assert_eq!(value.as_bytes(), Some(&b"12"[..]));
    /// assert_eq!(Value::Nil.as_bytes(), None);
    /// ```
    pub fn as_bytes(&self) -> Option<&[u8]> {
        match self {
            Value::BulkString(bytes)
            | Value::SimpleString(bytes)
            | Value::VerbatimString { text: bytes, .. } => Some(bytes),
            _ => None,
        }
    }

    /// The elements of an array or a set.
    ///
    /// ```
    /// use redis_cache::Value;
    ///
    /// let value = Value::parse(b"*1\r\n:12\r\n").expect("a value");
    /// assert_eq!(value.as_list(), Some(&[Value::Int(12)][..]));
    /// ```
    pub fn as_list(&self) -> Option<&[Value<'a>]> {
        match self {
            Value::Array(values) | Value::Set(values) => Some(values),
            _ => None,
        }
    }

    /// Whether it is null.
    ///
    /// ```
    /// assert!(redis_cache::Value::Nil.is_nil());
    /// ```
    pub fn is_nil(&self) -> bool {
        *self == Value::Nil
    }
}

/// An error of the server's, as its text says it: a code and the rest.
///
/// ```
/// use redis_cache::Value;
///
/// let Some(Value::ServerError(error)) = Value::parse(b"-WRONGTYPE not a string\r\n") else {
///     panic!("an error")
/// };
/// assert_eq!((error.code(), error.details()), ("WRONGTYPE", Some("not a string")));
/// ```
#[derive(Clone, Debug, PartialEq, Eq)]
pub struct ServerError {
    text: String,
}

impl ServerError {
    /// An error of this text; bytes that are no UTF-8 are replaced.
    pub(crate) fn of(text: &[u8]) -> Self {
        ServerError {
            text: String::from_utf8_lossy(text).into_owned(),
        }
    }

    /// The first word: `ERR`, `WRONGTYPE`, `EXECABORT`.
    ///
    /// ```
    /// # use redis_cache::Value;
    /// # let Some(Value::ServerError(error)) = Value::parse(b"-ERR no such key\r\n") else { panic!() };
    /// assert_eq!(error.code(), "ERR");
    /// ```
    pub fn code(&self) -> &str {
        self.text.split(' ').next().unwrap_or("")
    }

    /// What follows it.
    ///
    /// ```
    /// # use redis_cache::Value;
    /// # let Some(Value::ServerError(error)) = Value::parse(b"-ERR no such key\r\n") else { panic!() };
    /// assert_eq!(error.details(), Some("no such key"));
    /// ```
    pub fn details(&self) -> Option<&str> {
        self.text.split_once(' ').map(|(_, details)| details)
    }
}

impl fmt::Display for ServerError {
    fn fmt(&self, f: &mut fmt::Formatter<'_>) -> fmt::Result {
        f.write_str(&self.text)
    }
}

impl std::error::Error for ServerError {}

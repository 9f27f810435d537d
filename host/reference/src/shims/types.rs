//! Values, conversions and arguments. The conversions are those of rules S1 and V9 of docs/BEHAVIOUR.md, narrower than the
//! crate's own: arrays become lists, integers PTTLs and blobs keys, and nothing else does.

use super::errors::{ParsingError, RedisError, ServerError};
use calls::resp::{self, Spelling};
use std::fmt;
use std::io::Write;

pub(crate) use std::collections::HashSet;

/// The crate's result.
pub type RedisResult<T> = Result<T, RedisError>;

/// A reply. The kinds that the sources tell apart have cases of their own.
#[derive(Clone, Debug, PartialEq)]
pub enum Value {
    /// `_`
    Nil,
    /// `:`
    Int(i64),
    /// `$`
    BulkString(Vec<u8>),
    /// `*`
    Array(Vec<Value>),
    /// `-` and `!`
    ServerError(ServerError),
    /// Every other kind, what stands under `|`, and RESP2's nulls (see [`Value::seen`]).
    Other(resp::Value),
}

impl Value {
    /// The value as the sources are to see it where they ask for a null. The crate has one Nil, in which the spelling would be lost, while a null is stored,
    /// handed out and measured for the space rule as it came. So RESP2's two go through the sources as values of which nothing is asked, which
    /// is all that a null is to them everywhere but in a push: there, and only there, this makes Nil of them.
    pub(crate) fn seen(self) -> Self {
        match self {
            Value::Other(resp::Value::Null(_)) => Value::Nil,
            other => other,
        }
    }

    /// The value with a server error turned into an error.
    pub(crate) fn extract_error(self) -> RedisResult<Self> {
        match self {
            Value::ServerError(_) => Err(RedisError),
            other => Ok(other),
        }
    }

    /// Whether an iterator may read a cursor from it. The cache has no iterators.
    pub(crate) fn looks_like_cursor(&self) -> bool {
        false
    }
}

impl From<resp::Value> for Value {
    fn from(value: resp::Value) -> Self {
        match value {
            resp::Value::Null(Spelling::Underscore) => Value::Nil,
            resp::Value::Integer(n) => Value::Int(n),
            resp::Value::Blob(bytes) => Value::BulkString(bytes),
            resp::Value::Array(list) => Value::Array(list.into_iter().map(Value::from).collect()),
            error @ (resp::Value::Error(_) | resp::Value::BlobError(_)) => {
                Value::ServerError(ServerError(error))
            }
            other => Value::Other(other),
        }
    }
}

impl From<&Value> for resp::Value {
    fn from(value: &Value) -> Self {
        match value {
            Value::Nil => resp::Value::Null(Spelling::Underscore),
            Value::Int(n) => resp::Value::Integer(*n),
            Value::BulkString(bytes) => resp::Value::Blob(bytes.clone()),
            Value::Array(list) => resp::Value::Array(list.iter().map(resp::Value::from).collect()),
            Value::ServerError(error) => error.0.clone(),
            Value::Other(other) => other.clone(),
        }
    }
}

/// The bytes of a value.
pub(crate) fn bytes(value: &Value) -> Vec<u8> {
    resp::encode(&value.into())
}

/// What a push is about.
#[derive(Clone, Debug, PartialEq, Eq)]
pub enum PushKind {
    /// Invalidated keys.
    Invalidate,
    /// Anything else.
    Other,
}

/// A conversion from a reply.
pub trait FromRedisValue: Sized {
    /// Converts a reply that is kept.
    fn from_redis_value_ref(value: &Value) -> Result<Self, ParsingError>;

    /// Converts each of several replies.
    fn from_each_redis_values(values: Vec<Value>) -> Vec<Result<Self, ParsingError>> {
        values.iter().map(Self::from_redis_value_ref).collect()
    }
}

/// Converts a reply.
pub(crate) fn from_redis_value<T: FromRedisValue>(value: Value) -> Result<T, ParsingError> {
    T::from_redis_value_ref(&value)
}

impl FromRedisValue for i64 {
    fn from_redis_value_ref(value: &Value) -> Result<Self, ParsingError> {
        match value {
            Value::Int(n) => Ok(*n),
            _ => Err(ParsingError),
        }
    }
}

impl FromRedisValue for Vec<u8> {
    fn from_redis_value_ref(value: &Value) -> Result<Self, ParsingError> {
        match value {
            Value::BulkString(bytes) => Ok(bytes.clone()),
            _ => Err(ParsingError),
        }
    }
}

impl FromRedisValue for Vec<Value> {
    fn from_redis_value_ref(value: &Value) -> Result<Self, ParsingError> {
        match value {
            Value::Array(list) => Ok(list.clone()),
            _ => Err(ParsingError),
        }
    }
}

impl FromRedisValue for (Vec<Value>,) {
    fn from_redis_value_ref(value: &Value) -> Result<Self, ParsingError> {
        match value {
            Value::Array(list) if list.len() == 1 => Ok((Vec::from_redis_value_ref(&list[0])?,)),
            _ => Err(ParsingError),
        }
    }
}

/// Named by the iterators, which the cache does not use.
impl FromRedisValue for (u64, Vec<Value>) {
    fn from_redis_value_ref(_: &Value) -> Result<Self, ParsingError> {
        Err(ParsingError)
    }
}

/// Named by `exec`, which the cache does not use.
impl FromRedisValue for () {
    fn from_redis_value_ref(_: &Value) -> Result<Self, ParsingError> {
        Ok(())
    }
}

/// What arguments are written to; the sources implement all of it.
#[allow(dead_code)]
pub trait RedisWrite {
    /// Writes one argument.
    fn write_arg(&mut self, arg: &[u8]);
    /// Writes one argument as it prints.
    fn write_arg_fmt(&mut self, arg: impl fmt::Display);
    /// A writer of the next argument.
    fn writer_for_next_arg(&mut self) -> impl Write + '_;
    /// Makes room for arguments of these lengths.
    fn reserve_space_for_args(&mut self, additional: impl IntoIterator<Item = usize>);
}

/// What can be an argument: here one string of bytes.
pub trait ToRedisArgs {
    /// Writes it.
    fn write_redis_args<W: RedisWrite>(&self, out: &mut W);
}

impl ToRedisArgs for [u8] {
    fn write_redis_args<W: RedisWrite>(&self, out: &mut W) {
        out.write_arg(self);
    }
}

impl ToRedisArgs for str {
    fn write_redis_args<W: RedisWrite>(&self, out: &mut W) {
        out.write_arg(self.as_bytes());
    }
}

impl<T: ToRedisArgs + ?Sized> ToRedisArgs for &T {
    fn write_redis_args<W: RedisWrite>(&self, out: &mut W) {
        (**self).write_redis_args(out);
    }
}

impl crate::Cmd {
    /// The builder of `PTTL`, made by a macro in the crate.
    pub(crate) fn pttl(key: &[u8]) -> Self {
        crate::cmd::cmd("PTTL").arg(key).take()
    }
}

#[cfg(test)]
mod tests {
    use super::*;

    fn read<T: FromRedisValue>(text: &str) -> Option<T> {
        let value = resp::parse(text.as_bytes()).expect("a value");
        from_redis_value(value.into()).ok()
    }

    #[test]
    fn conversions_are_those_of_document_01() {
        let array = Some(vec![Value::Int(1)]);
        assert_eq!(read::<Vec<Value>>("*1\r\n:1\r\n"), array);
        assert_eq!(
            read::<(Vec<Value>,)>("*1\r\n*1\r\n:1\r\n"),
            array.map(|list| (list,))
        );
        for other in [
            "_\r\n",
            "$-1\r\n",
            "*-1\r\n",
            "~1\r\n:1\r\n",
            ">1\r\n:1\r\n",
            "%0\r\n",
            "$0\r\n\r\n",
            "|0\r\n*0\r\n",
        ] {
            assert_eq!(read::<Vec<Value>>(other), None, "{other:?}");
            assert_eq!(
                read::<(Vec<Value>,)>(&format!("*1\r\n{other}")),
                None,
                "{other:?}"
            );
        }
        assert_eq!(read::<(Vec<Value>,)>("*0\r\n"), None);
        assert_eq!(read::<(Vec<Value>,)>("*2\r\n*0\r\n*0\r\n"), None);
        assert_eq!(read::<i64>(":-5\r\n"), Some(-5));
        assert_eq!(read::<Vec<u8>>("$1\r\na\r\n"), Some(b"a".to_vec()));
        for other in [
            "$-1\r\n",
            "*-1\r\n",
            "+5\r\n",
            ",5\r\n",
            "(5\r\n",
            "|0\r\n:5\r\n",
            "=5\r\ntxt:5\r\n",
        ] {
            assert_eq!(read::<i64>(other), None, "{other:?}");
            assert_eq!(read::<Vec<u8>>(other), None, "{other:?}");
        }
    }

    #[test]
    fn values_keep_their_bytes() {
        for text in [
            "*2\r\n_\r\n!1\r\nx\r\n",
            "*3\r\n$-1\r\n*-1\r\n_\r\n",
            "$-1\r\n",
            "*-1\r\n",
            "-ERR\r\n",
            "%1\r\n:1\r\n#t\r\n",
            "|0\r\n$1\r\na\r\n",
        ] {
            let value = resp::parse(text.as_bytes()).expect("a value");
            assert_eq!(bytes(&value.into()), text.as_bytes());
        }
    }

    #[test]
    fn every_null_is_seen_as_one() {
        let seen = |text: &str| {
            let value = resp::parse(text.as_bytes()).expect("a value");
            Value::from(value).seen()
        };
        for null in ["_\r\n", "$-1\r\n", "*-1\r\n"] {
            assert_eq!(seen(null), Value::Nil, "{null:?}");
            let under = seen(&format!("|0\r\n{null}"));
            assert!(matches!(under, Value::Other(_)), "{null:?}");
        }
        assert_eq!(seen("*0\r\n"), Value::Array(Vec::new()));
    }
}

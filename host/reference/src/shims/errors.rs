//! Errors, of which the comparison needs only that there is one (cause 7) and a server error's own bytes.

/// The kinds that the sources name.
#[derive(Clone, Copy, Debug, PartialEq, Eq)]
pub enum ErrorKind {
    /// A reply of another shape.
    UnexpectedReturnType,
    /// A wrong use of the client.
    Client,
}

/// A value that could not be converted.
#[derive(Clone, Debug)]
pub struct ParsingError;

/// An error of the crate.
#[derive(Clone, Debug)]
pub struct RedisError;

impl RedisError {
    /// The error of a pipeline with server errors.
    pub(crate) fn pipeline(_errors: Vec<(usize, ServerError)>) -> Self {
        RedisError
    }
}

impl From<(ErrorKind, &'static str)> for RedisError {
    fn from(_: (ErrorKind, &'static str)) -> Self {
        RedisError
    }
}

impl From<ParsingError> for RedisError {
    fn from(_: ParsingError) -> Self {
        RedisError
    }
}

/// An error that the server sent, in the spelling in which it came.
#[derive(Clone, Debug, PartialEq)]
pub struct ServerError(pub(crate) calls::Value);

//! What the sources need from the rest of their crate, as far as they need it, and what this port adds: a settable clock,
//! the space rule and document 02's requests.

/// The crate's early return with an error.
macro_rules! fail {
    ($error:expr) => {
        return Err(::std::convert::From::from($error))
    };
}

pub(crate) mod clock;
pub(crate) mod connection;
pub(crate) mod errors;
pub(crate) mod requests;
pub(crate) mod space;
pub(crate) mod types;

//! The crate redis's own cache, compiled from its sources (copied at build time and edited as `edits.rs` lists) behind
//! the comparison's calls. [`Reference`] is the driver.
//!
//! What the sources need from the rest of their crate stands in [`shims`], with document 01's conversions.

// The size of an LruCache is usize before lru 0.8 and NonZeroUsize from there on.
#![allow(clippy::useless_conversion)]

#[macro_use]
mod shims;
mod alone;
mod contents;
mod driver;
mod plan;
mod request;

include!(concat!(env!("OUT_DIR"), "/tree.rs"));

pub use alone::{Asked, Open, Replies};
pub use contents::{commands_path, countdigits, is_cachable_cmd};
pub use driver::Reference;
pub use request::Request;

// The names under which the sources find the rest of their crate.
pub(crate) use cmd::Cmd;
pub(crate) use pipeline::Pipeline;
pub(crate) use shims::errors::{ErrorKind, ParsingError, RedisError};
pub(crate) use shims::types::{FromRedisValue, PushKind, RedisResult, Value};
pub(crate) use shims::{connection, errors, types};

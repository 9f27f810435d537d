//! A client-side cache for Redis, in memory that a host owns, over a library whose every function is proved.
//!
//! What is cached, served, sent and stored is decided by Rattle code that is proved to do what its contracts say, on every input;
//! `include/redis_cache.h` declares what it exports. This crate gives it memory, names and types. Commands, settings and answers
//! are those of the crate redis, whose cache the library was rebuilt from.
//!
//! | for | use |
//! |---|---|
//! | a cached connection over a socket of the host's | [`Stream`] |
//! | the same with a server that speaks RESP2 | [`Stream::resp2`] |
//! | a cache without a connection | [`Cache`] |
//! | commands and pipelines | [`cmd()`], [`pipe`] |
//! | answers | [`Answer::query`], [`Value`] |
//! | the library's calls on lent memory | [`lent`] |
//!
//! ```
//! use redis_cache::{Cache, CacheConfig, Event, Stream, cmd};
//!
//! let mut stream = Stream::new(Cache::new(CacheConfig::new())?);
//! let mut get = cmd("GET");
//! get.arg("trap7");
//!
//! // The first time the server is asked. What it would say stands here in place of a socket.
//! stream.send(0, &get)?;
//! let _to_the_server = stream.take_to_send();
//! stream.received(1, b"%0\r\n+OK\r\n:-1\r\n$2\r\n12\r\n");
//! let Some(Event::Answer(_, answer)) = stream.next_event() else { panic!("an answer") };
//! assert_eq!(answer.query::<i64>()?, 12);
//!
//! // The second time it is not.
//! stream.send(2, &get)?;
//! assert!(stream.to_send().is_empty());
//! let Some(Event::Answer(_, answer)) = stream.next_event() else { panic!("an answer") };
//! assert_eq!(answer.query::<i64>()?, 12);
//! # Ok::<(), Box<dyn std::error::Error>>(())
//! ```
//!
//! Every refusal has a number, 1 to 11, a sentence on what went wrong and one on what to do: [`Error`], [`Cause`].

#![deny(missing_docs, rustdoc::broken_intra_doc_links)]

mod cache;
mod cause;
mod cmd;
mod config;
mod error;
mod foreign;
mod frame;
pub mod lent;
mod pipeline;
mod record;
mod statistics;
mod stream;
#[cfg(test)]
mod testing;
mod value;

pub use cache::{Answer, Cache, Clock, OwnedAnswer, Plan, Replies, SpaceWarning, arena_for};
pub use cause::Cause;
pub use cmd::{Arg, Cmd, CommandCacheConfig, ToRedisArgs, cmd};
pub use config::{CacheConfig, CacheMode};
pub use error::{Error, Limit};
pub use pipeline::{Pipeline, pipe};
pub use record::Call;
pub use statistics::CacheStatistics;
pub use stream::{Event, Lost, NoAnswer, Stream, Ticket, tracking_on};
pub use value::{FromRedisValue, OwnedValue, ParsingError, ServerError, Value, from_redis_value};

/// The examples of the README, run as tests.
#[cfg(doctest)]
#[doc = include_str!("../README.md")]
pub struct Readme;

/// The examples of docs/USING.md, run as tests.
#[cfg(doctest)]
#[doc = include_str!("../../../docs/USING.md")]
pub struct Using;

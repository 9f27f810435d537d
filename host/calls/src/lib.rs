//! What every party of the comparison speaks: RESP3 values and call records as bytes (read and written by code of this
//! crate's own), the calls, the answers and the state that a party shows after each call.
//!
//! Nothing here decides what the cache does.

pub mod call;
pub mod record;
pub mod resp;
pub mod state;

pub use call::{Answer, At, Call, Missing, Outcome, Place, Refusal, Setup};
pub use record::{Arg, CacheSettings, Command, Record};
pub use resp::Value;
pub use state::{Counts, Entry, Item, State};

//! Transcripts: setups and calls as text that is read back, answers and states as text to look at and to compare.
//!
//! Lines with `>` are what is given, `<` what is answered, `=` the state after it, `#` a comment.

pub mod print;
pub mod read;

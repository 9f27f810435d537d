//! The comparison: the same calls made to every party, every answer and the whole state after each call compared.
//!
//! The model leads; the parties that follow it are the crate's own sources (feature `reference`) and the proved library
//! (feature `library`). Sequences come from a seeded generator, from the stored answers, or from a transcript.

pub mod coverage;
pub mod generate;
pub mod guarded;
pub mod one_nil;
pub mod output;
pub mod party;
pub mod rng;
pub mod sequence;
pub mod shrink;
pub mod stored;
pub mod text;

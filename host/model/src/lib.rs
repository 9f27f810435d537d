//! Document 01's cache, written from its text alone: the book as plain lists, the space rule, planning, resolving, pushes,
//! single calls, and the causes with what each leaves.
//!
//! The book has no arena and no plan bytes, so causes 9 and 10 are not among its answers; [`layout`] judges such bytes.

pub mod book;
pub mod commands;
pub mod config;
pub mod layout;
pub mod offset;
pub mod pack;
pub mod plan;
pub mod program;
pub mod push;
pub mod resolve;
pub mod siphash;

mod cache;

pub use cache::Model;

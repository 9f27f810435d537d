//! The sources' own functions with nothing around them, for the benchmark: what they are given is made ready beforehand, and nothing is copied or
//! shown afterwards.

use crate::caching::cmd::CacheablePipeline;
use crate::driver::Reference;
use crate::request::pipeline;
use crate::{Pipeline, Value};
use calls::{At, Record, resp};

/// A pipeline as the crate has it.
pub struct Asked(Pipeline);

impl Asked {
    /// The pipeline of a record.
    pub fn new(record: &Record) -> Self {
        Asked(pipeline(record))
    }
}

/// Replies as the crate's connection hands them on: read already.
#[derive(Clone)]
pub struct Replies(Value);

impl Replies {
    /// The replies as a list.
    pub fn new(replies: resp::Value) -> Self {
        Replies(replies.into())
    }
}

/// A plan of the sources', and what they send for it.
pub struct Open<'a> {
    plan: CacheablePipeline<'a>,
    sent: Pipeline,
}

impl Open<'_> {
    /// `get_packed_pipeline` of what is to be sent.
    pub fn packed(&self) -> Vec<u8> {
        self.sent.get_packed_pipeline()
    }
}

impl Reference {
    /// `get_cached_pipeline`.
    pub fn open<'a>(&self, at: At, asked: &'a Asked) -> Open<'a> {
        let (plan, sent, _) = self.manager(at).get_cached_pipeline(&asked.0);
        Open { plan, sent }
    }

    /// `CacheablePipeline::resolve`, of a plan that may have been made over another cache; how many values it answers with.
    ///
    /// # Panics
    /// Where it is refused.
    pub fn finish(&self, at: At, open: Open<'_>, replies: Replies) -> usize {
        match open.plan.resolve(&self.manager(at), replies.0) {
            Ok(values) => values.len(),
            Err(_) => panic!("the replies fit the plan"),
        }
    }
    /// `ShardedLRU::invalidate`.
    pub fn drop_key(&self, key: &Vec<u8>) {
        self.lru.invalidate(key);
    }
}

//! A plan that outlives its planning: the sources' plan borrows its pipeline and is used up by one resolve, this one owns
//! what it needs and makes a borrowed one for each resolve.

use crate::caching::CachingResult;
use crate::caching::cache_manager::PrepCacheItem;
use crate::caching::cmd::{
    CacheableCommand, CacheablePipeline, MultipleCachedCommandPart, SingleCachedCommand,
};
use crate::shims::clock::Instant;
use crate::shims::types::bytes;
use crate::{Cmd, Pipeline, Value};
use calls::{Missing, Outcome, Place};

/// A plan with its pipeline.
pub(crate) struct Plan {
    pipeline: Pipeline,
    commands: Vec<Planned>,
    transaction_mode: bool,
}

enum Planned {
    Ignored,
    NotCacheable,
    Cached(Value),
    Single {
        key: Vec<u8>,
        command: Vec<u8>,
        expire: Instant,
    },
    Multiple {
        name: String,
        waiting: Vec<(usize, Vec<u8>, Vec<u8>)>,
        response: Vec<Value>,
        expire: Instant,
        tail: Vec<Vec<u8>>,
    },
}

/// What planning decided, without its borrows.
pub(crate) struct Decided {
    commands: Vec<Planned>,
    transaction_mode: bool,
}

impl Decided {
    /// Copies what the sources' planning decided.
    pub(crate) fn of(plan: &CacheablePipeline<'_>) -> Self {
        let commands = plan.commands.iter().map(planned).collect();
        Decided {
            commands,
            transaction_mode: plan.transaction_mode,
        }
    }

    /// Joins it with the pipeline that was planned.
    pub(crate) fn with(self, pipeline: Pipeline) -> Plan {
        Plan {
            pipeline,
            commands: self.commands,
            transaction_mode: self.transaction_mode,
        }
    }
}

fn planned(result: &CachingResult<'_>) -> Planned {
    let item = match result {
        CachingResult::Ignored => return Planned::Ignored,
        CachingResult::Item(item) => item,
    };
    match item {
        PrepCacheItem::NotCacheable => Planned::NotCacheable,
        PrepCacheItem::Cached(value) => Planned::Cached(value.clone()),
        PrepCacheItem::NotCached(CacheableCommand::Single(single)) => Planned::Single {
            key: single.redis_key.to_vec(),
            command: single.cmd_key.to_vec(),
            expire: single.client_side_expire,
        },
        PrepCacheItem::NotCached(CacheableCommand::Multiple {
            command_name,
            commands,
            response,
            client_side_expire,
            tail_args,
        }) => Planned::Multiple {
            name: command_name.to_string(),
            waiting: commands
                .iter()
                .map(|(place, part)| (*place, part.redis_key.to_vec(), part.cmd_key.clone()))
                .collect(),
            response: response.clone(),
            expire: *client_side_expire,
            tail: tail_args.iter().map(|arg| arg.to_vec()).collect(),
        },
    }
}

impl Plan {
    /// The sources' plan, as planning left it.
    pub(crate) fn lent(&self) -> CacheablePipeline<'_> {
        let commands = self
            .commands
            .iter()
            .zip(&self.pipeline.commands)
            .map(|(planned, cmd)| {
                CachingResult::Item(match planned {
                    Planned::Ignored => return CachingResult::Ignored,
                    Planned::NotCacheable => PrepCacheItem::NotCacheable,
                    Planned::Cached(value) => PrepCacheItem::Cached(value.clone()),
                    Planned::Single {
                        key,
                        command,
                        expire,
                    } => PrepCacheItem::NotCached(CacheableCommand::Single(SingleCachedCommand {
                        redis_key: key,
                        cmd_key: command,
                        cmd,
                        client_side_expire: *expire,
                    })),
                    Planned::Multiple {
                        name,
                        waiting,
                        response,
                        expire,
                        tail,
                    } => PrepCacheItem::NotCached(CacheableCommand::Multiple {
                        command_name: name,
                        commands: waiting
                            .iter()
                            .map(|(place, key, command)| (*place, part(key, command)))
                            .collect(),
                        response: response.clone(),
                        client_side_expire: *expire,
                        tail_args: tail.iter().map(Vec::as_slice).collect(),
                    }),
                })
            });
        CacheablePipeline {
            commands: commands.collect(),
            transaction_mode: self.transaction_mode,
        }
    }

    /// The outcome of each command, as the comparison shows it.
    pub(crate) fn outcomes(&self) -> Vec<Outcome> {
        let commands = self.commands.iter().zip(&self.pipeline.commands);
        commands
            .map(|(planned, cmd)| outcome(planned, cmd))
            .collect()
    }
}

fn part<'a>(key: &'a [u8], command: &[u8]) -> MultipleCachedCommandPart<'a> {
    MultipleCachedCommandPart {
        redis_key: key,
        cmd_key: command.to_vec(),
    }
}

fn missing(key: &[u8], command: &[u8], expire: Instant) -> Missing {
    let client_expiry = u64::try_from(expire.0).expect("a client expiry within 64 bits");
    Missing {
        key: key.to_vec(),
        command: command.to_vec(),
        client_expiry,
    }
}

fn outcome(planned: &Planned, cmd: &Cmd) -> Outcome {
    let several = matches!(cmd.arg_idx(0), Some(b"MGET" | b"JSON.MGET"));
    match planned {
        Planned::Cached(Value::Array(values)) if several => {
            Outcome::CachedAll(values.iter().map(bytes).collect())
        }
        Planned::Ignored => Outcome::Ignored,
        Planned::NotCacheable => Outcome::NotCacheable,
        Planned::Cached(value) => Outcome::Cached(bytes(value)),
        Planned::Single {
            key,
            command,
            expire,
        } => Outcome::Single(missing(key, command, *expire)),
        Planned::Multiple {
            waiting,
            response,
            expire,
            ..
        } => {
            let mut places: Vec<Place> = response
                .iter()
                .map(|value| Place::Served(bytes(value)))
                .collect();
            for (place, key, command) in waiting {
                places[*place] = Place::Waiting(missing(key, command, *expire));
            }
            Outcome::Multiple(places)
        }
    }
}

//! Arenas with contents, the crate's cache with the same, and calls on both.

use crate::clock;
use crate::measure::{Way, readied, used, way};
use calls::{Arg, At, Command, Counts, Entry, Item, Record, Setup, Value, record, resp};
use model::{config, layout, siphash};
use redis_cache::lent::{self, Looked, MODE_ALL, Now, Settings};
use reference::{Asked, Reference, Replies};
use std::cell::{OnceCell, RefCell};
use std::hint::black_box;

/// Keys of a cache of many shards: as many as there may be, so that the arena's length is what bounds it.
const SIZE: u64 = 65_536;

/// Keys of a cache of one shard.
const SMALL: u64 = 16;

/// Until when everything is kept, the clock of every call, and how long it keeps what it stores.
const EXPIRY: u64 = 1000;
const CLOCK: u64 = 1;
const TTL: u64 = 500;

/// The bytes of a value of the usual length.
pub const VALUE: usize = 100;

/// What the calls of the crate are given.
const AT: At = At {
    clock: CLOCK,
    epoch: 0,
    mode: 0,
    default_ttl: TTL,
};

/// An arena and the crate's cache, with the same items.
pub struct Filled {
    pub rows: Vec<Vec<Item>>,
    arena: RefCell<Vec<u8>>,
    fresh: Vec<u8>,
    size: u64,
    reference: Reference,
}

impl Filled {
    /// Values of this length in so many hundredths of the bytes of each shard.
    pub fn with(length: usize, percent: usize, value: usize) -> Self {
        Self::of(SIZE, length, rows("trap", length, percent, value))
    }

    /// One key with so many fields, of which each has an answer of its own, in one shard.
    pub fn fields(length: usize, entries: usize) -> Self {
        let key = b"trap:hash".to_vec();
        let entries = (0..entries).map(|number| Entry {
            command: [b"HGET", &key[..], field(number).as_bytes()].concat(),
            value: b"$2\r\n12\r\n".to_vec(),
        });
        let item = Item {
            key: key.clone(),
            epoch: 0,
            expiry: EXPIRY,
            entries: entries.collect(),
        };
        Self::of(SMALL, length, vec![vec![item]])
    }

    fn of(size: u64, length: usize, rows: Vec<Vec<Item>>) -> Self {
        let fresh = layout::arena::encode(&rows, length);
        let setup = Setup {
            size,
            arena: length as u64,
            mode: 0,
            default_ttl: TTL,
            counts: Counts::default(),
        };
        let mut reference = Reference::setup(&setup, false);
        for item in rows.iter().flat_map(|row| row.iter().rev()) {
            for entry in &item.entries {
                let value = resp::parse(&entry.value).expect("a value");
                reference.store(AT, &item.key, &entry.command, value, EXPIRY);
            }
        }
        Filled {
            rows,
            arena: fresh.clone().into(),
            fresh,
            size,
            reference,
        }
    }

    pub fn items(&self) -> usize {
        self.rows.iter().map(Vec::len).sum()
    }

    fn lent<T>(&self, call: impl FnOnce(lent::Cache<'_>) -> T) -> T {
        call(lent::Cache {
            arena: &mut self.arena.borrow_mut(),
            settings: Settings {
                size: self.size,
                mode: MODE_ALL,
                default_ttl: TTL,
            },
        })
    }

    /// Single lookups of what is there: of every key in turn, and of its last entry.
    pub fn lookups(&self) -> Way<'_> {
        let mut names = self.names().into_iter().cycle();
        let mut counts = lent::Counts::default();
        way(move || {
            let (key, command) = names.next().expect("a key");
            let hit = self.lent(|mut cache| {
                let looked = cache.lookup(NOW, black_box(key), command, &mut counts);
                matches!(looked, Ok(Looked::Hit(_)))
            });
            assert!(hit);
        })
    }

    /// The crate's `get` of the same.
    pub fn gets(&self) -> Way<'_> {
        let mut names = self.names().into_iter().cycle();
        way(move || {
            let (key, command) = names.next().expect("a key");
            assert!(self.reference.get(black_box(key), command, 0));
        })
    }

    /// Lookups of a key that is not there.
    pub fn absent(&self) -> Way<'_> {
        let mut counts = lent::Counts::default();
        way(move || {
            let missed = self.lent(|mut cache| {
                let looked = cache.lookup(NOW, black_box(b"none"), b"GETnone", &mut counts);
                matches!(looked, Ok(Looked::Miss))
            });
            assert!(missed);
        })
    }

    /// The crate's `get` of a key that is not there.
    pub fn absent_gets(&self) -> Way<'_> {
        way(|| assert!(!self.reference.get(black_box(b"none"), b"GETnone", 0)))
    }

    /// One pass over as many bytes as the arena has.
    pub fn pass(&self) -> Way<'static> {
        let pass = vec![1; self.fresh.len()];
        way(move || used(all_bits(black_box(&pass))))
    }

    /// What any check of the items comes down to, without proof: each item's head read, its key hashed and its value's ends looked at.
    pub fn walk(&self) -> Way<'_> {
        way(|| {
            let arena = self.arena.borrow();
            let shards = self.rows.len();
            let found = arena.chunks_exact(arena.len() / shards).enumerate();
            let items: usize = found
                .map(|(shard, bytes)| walked(black_box(bytes), shard, shards))
                .sum();
            assert_eq!(items, self.items());
        })
    }

    /// Planning of these commands.
    pub fn plannings<'a>(&'a self, call: &'a Call) -> Way<'a> {
        let mut buffers = call.buffers();
        let mut counts = lent::Counts::default();
        way(move || {
            let Buffers { plan, send, .. } = &mut buffers;
            let planned = self.lent(|mut cache| {
                let planned = cache.plan(NOW, black_box(&call.bytes), &mut counts, plan, send);
                planned.expect("a plan").plan.len()
            });
            used(planned);
        })
    }

    /// The crate's `get_cached_pipeline` of the same, and the packing of what it sends.
    pub fn crate_plannings<'a>(&'a self, call: &'a Call) -> Way<'a> {
        way(|| used(self.reference.open(AT, black_box(&call.asked)).packed()))
    }

    /// Both send the same.
    pub fn agree(&self, call: &Call) {
        let Buffers {
            mut plan, mut send, ..
        } = call.buffers();
        let mut counts = lent::Counts::default();
        let theirs = self.reference.open(AT, &call.asked).packed();
        let ours = self.lent(|mut cache| {
            let planned = cache.plan(NOW, &call.bytes, &mut counts, &mut plan, &mut send);
            planned.expect("a plan").send.to_vec()
        });
        assert_eq!(ours, theirs);
    }

    /// Resolving of these commands, all of them missing when they were planned, on the arena as it was filled.
    pub fn resolvings<'a>(&'a self, call: &'a Call) -> Way<'a> {
        let Buffers { mut answer, .. } = call.buffers();
        readied(move || {
            self.arena.borrow_mut().copy_from_slice(&self.fresh);
            let (plan, replies) = (call.plan(), &call.replies);
            clock::of(|| {
                self.lent(|mut cache| {
                    let resolved = cache.resolve(NOW, black_box(plan), replies, &mut answer);
                    assert_eq!(resolved.expect("an answer").refused, 0);
                })
            })
        })
    }

    /// The crate's `resolve` of the same. Keys that it adds are dropped again, without being timed.
    pub fn crate_resolvings<'a>(&'a self, call: &'a Call) -> Way<'a> {
        let empty = Reference::setup(&self.setup(), false);
        let present = self
            .rows
            .iter()
            .flatten()
            .any(|item| item.key == call.keys[0]);
        readied(move || {
            let (open, replies) = (empty.open(AT, &call.asked), call.read.clone());
            let taken = clock::of(|| self.reference.finish(AT, open, replies));
            if !present {
                for key in &call.keys {
                    self.reference.drop_key(key);
                }
            }
            taken
        })
    }

    fn setup(&self) -> Setup {
        Setup {
            size: self.size,
            arena: self.fresh.len() as u64,
            mode: 0,
            default_ttl: TTL,
            counts: Counts::default(),
        }
    }

    /// Keys that are not there, and for which there is space.
    pub fn new_keys(&self) -> Vec<Vec<u8>> {
        keys(&rows("none", self.fresh.len(), 40, VALUE))
    }

    /// The keys that are there, one of each shard in turn.
    pub fn keys(&self) -> Vec<Vec<u8>> {
        keys(&self.rows)
    }

    fn names(&self) -> Vec<(&[u8], &[u8])> {
        let last = |item: &'_ Item| item.entries.len() - 1;
        in_turn(&self.rows)
            .map(|item| (&item.key[..], &item.entries[last(item)].command[..]))
            .collect()
    }
}

const NOW: Now = Now {
    clock: CLOCK,
    epoch: 0,
};

/// The items of a shard, all of one entry and with a blob as its value.
fn walked(shard: &[u8], number: usize, shards: usize) -> usize {
    let u32_at =
        |at: usize| u32::from_le_bytes(shard[at..at + 4].try_into().expect("4 bytes")) as usize;
    let (count, mut at) = (u32_at(0), 16);
    for _ in 0..count {
        let (key, used) = (u32_at(at), u32_at(at + 24));
        let home = siphash::hash(&shard[at + 32..at + 32 + key]) % shards as u64;
        let entry = at + 32 + key;
        let value = &shard[entry + 16 + u32_at(entry)..entry + used];
        assert!(home == number as u64 && value[0] == b'$' && value.ends_with(b"\r\n"));
        at = entry + used;
    }
    count
}

/// The bits that any byte has: one pass over all, which the compiler turns into wide steps.
pub fn all_bits(bytes: &[u8]) -> u8 {
    bytes.iter().fold(0, |all, byte| all | byte)
}

fn keys(rows: &[Vec<Item>]) -> Vec<Vec<u8>> {
    in_turn(rows).map(|item| item.key.clone()).collect()
}

/// The name of a field.
fn field(number: usize) -> String {
    format!("field{number:05}")
}

/// The crate's cache alone.
pub struct Crate(Reference);

impl Crate {
    /// Of so many keys, with the answer to a `GET` of each of these.
    pub fn new(size: u64, keys: impl Iterator<Item = String>, value: &[u8]) -> Self {
        let setup = Setup {
            size,
            arena: 1 << 30,
            mode: 0,
            default_ttl: TTL,
            counts: Counts::default(),
        };
        let mut reference = Reference::setup(&setup, false);
        for key in keys {
            let value = resp::parse(value).expect("a value");
            let command = format!("GET{key}");
            reference.store(AT, key.as_bytes(), command.as_bytes(), value, EXPIRY);
        }
        Crate(reference)
    }

    /// A pipeline of `GET`s.
    pub fn asked(&self, keys: &[String]) -> Asked {
        let commands = keys.iter().map(|key| command(&[b"GET", key.as_bytes()]));
        Asked::new(&Record {
            transaction: false,
            commands: commands.collect(),
        })
    }

    /// `get_cached_pipeline` and `resolve` of a pipeline that is served whole.
    pub fn served<'a>(&'a self, asked: &'a Asked) -> Way<'a> {
        let none = Replies::new(Value::Array(Vec::new()));
        assert!(self.0.open(AT, asked).packed().is_empty());
        way(move || {
            let open = self.0.open(AT, black_box(asked));
            used(self.0.finish(AT, open, none.clone()));
        })
    }
}

/// Commands, as both are given them, and the replies where all of them are missing.
pub struct Call {
    pub keys: Vec<Vec<u8>>,
    bytes: Vec<u8>,
    asked: Asked,
    plan: OnceCell<Vec<u8>>,
    replies: Vec<u8>,
    read: Replies,
}

struct Buffers {
    plan: Vec<u8>,
    send: Vec<u8>,
    answer: Vec<u8>,
}

impl Call {
    /// So many `GET`s, over these keys in turn.
    pub fn gets(keys: &[Vec<u8>], count: usize) -> Self {
        let keys: Vec<Vec<u8>> = keys.iter().cycle().take(count).cloned().collect();
        let commands = keys.iter().map(|key| command(&[b"GET", key]));
        let replies = keys.iter().flat_map(|_| [pttl(), value()]);
        Self::of(commands.collect(), replies.collect(), keys.clone())
    }

    /// One `MGET` of so many of these keys in turn.
    pub fn mget(keys: &[Vec<u8>], count: usize) -> Self {
        let keys: Vec<Vec<u8>> = keys.iter().cycle().take(count).cloned().collect();
        let name: &[u8] = b"MGET";
        let args: Vec<&[u8]> = [name]
            .into_iter()
            .chain(keys.iter().map(|key| &key[..]))
            .collect();
        let values = Value::Array(keys.iter().map(|_| value()).collect());
        let replies = [values].into_iter().chain(keys.iter().map(|_| pttl()));
        Self::of(vec![command(&args)], replies.collect(), keys.clone())
    }

    /// `HGET`s of so many fields of the one hash, in turn.
    pub fn hgets(fields: usize, count: usize) -> Self {
        let key = b"trap:hash";
        let commands = (0..fields).cycle().take(count);
        let commands = commands.map(|number| command(&[b"HGET", key, field(number).as_bytes()]));
        let short = || Value::Blob(b"12".to_vec());
        let replies = (0..count).flat_map(|_| [pttl(), short()]);
        Self::of(commands.collect(), replies.collect(), vec![key.to_vec()])
    }

    fn of(commands: Vec<Command>, replies: Vec<Value>, keys: Vec<Vec<u8>>) -> Self {
        let record = Record {
            transaction: false,
            commands,
        };
        let replies = Value::Array(replies);
        Call {
            keys,
            bytes: record::encode(&record),
            asked: Asked::new(&record),
            plan: OnceCell::new(),
            replies: resp::encode(&replies),
            read: Replies::new(replies),
        }
    }

    /// A plan in which all commands are missing.
    fn plan(&self) -> &[u8] {
        self.plan.get_or_init(|| {
            let empty = Filled::of(SIZE, 64 << 10, vec![Vec::new(); 32]);
            let Buffers {
                mut plan, mut send, ..
            } = self.buffers();
            let mut counts = lent::Counts::default();
            empty.lent(|mut cache| {
                let planned = cache.plan(NOW, &self.bytes, &mut counts, &mut plan, &mut send);
                planned.expect("a plan").plan.to_vec()
            })
        })
    }

    /// Buffers in which everything of this call has space.
    fn buffers(&self) -> Buffers {
        let room = || vec![0; 4096 + 4 * self.bytes.len() + 2 * self.replies.len()];
        Buffers {
            plan: room(),
            send: room(),
            answer: room(),
        }
    }
}

fn command(args: &[&[u8]]) -> Command {
    Command {
        args: args.iter().map(|arg| Arg::Simple(arg.to_vec())).collect(),
        ..Command::default()
    }
}

fn pttl() -> Value {
    Value::Integer(-1)
}

fn value() -> Value {
    Value::Blob(vec![b'w'; VALUE])
}

/// Rows that take so many hundredths of each shard's bytes, their keys of this kind.
fn rows(kind: &str, length: usize, percent: usize, value: usize) -> Vec<Vec<Item>> {
    let (shards, keys) = config::shards(SIZE);
    let space = (length / shards as usize - 16) * percent / 100;
    let value = resp::encode(&Value::Blob(vec![b'v'; value]));
    let mut rows: Vec<Vec<Item>> = vec![Vec::new(); shards as usize];
    let mut full = 0;
    for number in 0.. {
        let key = format!("{kind}:{number:06}").into_bytes();
        let entry = Entry {
            command: [b"GET", &key[..]].concat(),
            value: value.clone(),
        };
        let row = &mut rows[(siphash::hash(&key) % shards) as usize];
        let item = 48 + key.len() + entry.command.len() + value.len();
        if row.len() as u64 == keys || (row.len() + 1) * item > space {
            full += 1;
            if full > 100 * shards {
                break;
            }
            continue;
        }
        row.push(Item {
            key,
            epoch: 0,
            expiry: EXPIRY,
            entries: vec![entry],
        });
    }
    rows
}

/// The items, one of each shard in turn, as calls about unrelated keys come.
fn in_turn(rows: &[Vec<Item>]) -> impl Iterator<Item = &Item> {
    let most = rows.iter().map(Vec::len).max().unwrap_or(0);
    (0..most).flat_map(move |place| rows.iter().filter_map(move |row| row.get(place)))
}

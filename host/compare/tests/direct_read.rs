//! Reads through the library against direct reads, which crates/direct_read says of all of them: a server is played that has any value at
//! each key, some keys are cached, and what random `MGET`s and `GET`s are answered is held against the server's answer to the command.
#![cfg(feature = "library")]

mod common;

use calls::resp::{self, Spelling};
use calls::{
    Answer, Arg, At, CacheSettings, Call, Command, Outcome, Place, Record, Setup, Value, record,
};
use common::{AMPLE, answer, sequences, setup};
use compare::generate::{Sent, values};
use compare::party::Library;
use compare::rng::Rng;
use std::collections::BTreeMap;

const KEYS: [&[u8]; 9] = [
    b"", b"a", b"b", b"ab", b"GETa", b"k1", b"k2", b"\r\n", b"$-1\r\n",
];

/// A name and its arguments.
type Words = Vec<Vec<u8>>;

/// What stands at each key.
#[derive(Clone)]
struct Server(BTreeMap<&'static [u8], Value>);

impl Server {
    fn at(&self, key: &[u8]) -> Value {
        self.0[key].clone()
    }

    /// What it answers to a command that reads.
    fn read(&self, words: &[Vec<u8>]) -> Value {
        let (name, keys) = words.split_first().expect("a name");
        match (name.as_slice(), keys) {
            (b"GET", [key]) => self.at(key),
            (b"MGET", keys) => Value::Array(keys.iter().map(|key| self.at(key)).collect()),
            other => panic!("{other:?} is sent"),
        }
    }

    /// What it replies to a command that was sent. What that is does not matter for the two that read nothing.
    fn reply(&self, rng: &mut Rng, words: &[Vec<u8>]) -> Value {
        match words[0].as_slice() {
            b"PTTL" | b"CLIENT" if rng.chance(10) => values::value(rng, 2),
            b"PTTL" => Value::Integer(rng.of(&[-2, -1, 0, 1, 50, 1000])),
            b"CLIENT" => Value::Simple(b"OK".to_vec()),
            _ => self.read(words),
        }
    }
}

/// The value with each null in it written as it is told.
fn respelled(value: &Value, told: &mut dyn FnMut() -> Spelling) -> Value {
    let mut list = |values: &[Value]| values.iter().map(|v| respelled(v, told)).collect();
    match value {
        Value::Null(_) => Value::Null(told()),
        Value::Array(values) => Value::Array(list(values)),
        Value::Set(values) => Value::Set(list(values)),
        Value::Push(values) => Value::Push(list(values)),
        Value::Map(pairs) => Value::Map(respelled_pairs(pairs, told)),
        Value::Attribute(pairs, about) => {
            let pairs = respelled_pairs(pairs, told);
            Value::Attribute(pairs, Box::new(respelled(about, told)))
        }
        other => other.clone(),
    }
}

fn respelled_pairs(
    pairs: &[(Value, Value)],
    told: &mut dyn FnMut() -> Spelling,
) -> Vec<(Value, Value)> {
    let pair = |(key, value): &(Value, Value)| (respelled(key, told), respelled(value, told));
    pairs.iter().map(pair).collect()
}

/// Whether two values are the same, nulls being so in any spelling.
fn alike(one: &Value, other: &Value) -> bool {
    let plainly = |value| respelled(value, &mut || Spelling::Underscore);
    plainly(one) == plainly(other)
}

/// One read through the cache.
struct Read {
    words: Words,
    transaction: bool,
    mode: u8,
    /// The value that was served for each key, if one was; no places where the command took no part.
    served: Vec<Option<Value>>,
    result: Vec<u8>,
}

impl Read {
    /// The key and the value of each place that was served.
    fn served(&self) -> impl Iterator<Item = (&[u8], &Value)> {
        let places = self.words[1..].iter().zip(&self.served);
        places.filter_map(|(key, value)| Some((key.as_slice(), value.as_ref()?)))
    }

    /// The keys whose served value is not the server's.
    fn stale(&self, server: &Server) -> Vec<&[u8]> {
        let wrong = |(key, value): &(&[u8], &Value)| !alike(value, &server.at(key));
        self.served().filter(wrong).map(|(key, _)| key).collect()
    }

    /// The keys at whose places the answer is not the server's.
    fn differing(&self, server: &Server) -> Vec<&[u8]> {
        let mut answer = resp::parse(&self.result).expect("the result is a value");
        for _ in 0..=usize::from(self.transaction) {
            answer = match answer {
                Value::Array(mut list) if list.len() == 1 => list.remove(0),
                other => panic!("not one answer: {other:?}"),
            };
        }
        let answers = match answer {
            Value::Array(list) if self.words[0] == b"MGET" => list,
            other => vec![other],
        };
        let keys = &self.words[1..];
        assert_eq!(answers.len(), keys.len(), "a value for each key");
        let wrong = |(key, value): &(&Vec<u8>, &Value)| !alike(value, &server.at(key));
        let places = keys.iter().zip(&answers).filter(wrong);
        places.map(|(key, _)| key.as_slice()).collect()
    }

    /// Whether each served value is the server's to the byte.
    fn is_exact(&self, server: &Server) -> bool {
        self.served().all(|(key, value)| *value == server.at(key))
    }

    /// The result is the direct read: byte for byte if so is all that was served, and otherwise but for the spelling of nulls.
    fn judge(&self, server: &Server) -> Result<(), String> {
        let direct = Value::Array(vec![server.read(&self.words)]);
        let direct = match self.transaction {
            true => Value::Array(vec![direct]),
            false => direct,
        };
        let same = match self.is_exact(server) {
            true => self.result == resp::encode(&direct),
            false => resp::parse(&self.result).is_some_and(|result| alike(&result, &direct)),
        };
        match same {
            true => Ok(()),
            false => Err(format!(
                "{:?}\nthrough the cache: {:?}\ndirectly: {:?}",
                self.words.iter().map(|word| text(word)).collect::<Vec<_>>(),
                text(&self.result),
                text(&resp::encode(&direct)),
            )),
        }
    }
}

fn text(bytes: &[u8]) -> String {
    String::from_utf8_lossy(bytes).into_owned()
}

/// A server, and a cache of what it has.
struct Desk {
    rng: Rng,
    server: Server,
    library: Library,
    clock: u64,
    plans: usize,
}

impl Desk {
    fn open(seed: u64) -> Self {
        let mut rng = Rng::new(seed);
        let server = Server(KEYS.map(|key| (key, values::value(&mut rng, 3))).into());
        let setup = Setup {
            arena: rng.of(&[1 << 11, 1 << 12, 1 << 14]),
            ..setup(rng.of(&[1, 6, 20, 64]))
        };
        let library = Library::setup(&setup).expect("a setup that is not refused");
        let mut desk = Desk {
            rng,
            server,
            library,
            clock: 0,
            plans: 0,
        };
        for _ in 0..4 {
            desk.cache();
        }
        desk
    }

    fn key(&mut self) -> &'static [u8] {
        self.rng.pick(&KEYS)
    }

    fn at(&mut self, mode: u8) -> At {
        At {
            clock: self.clock,
            epoch: u64::from(self.rng.chance(3)),
            mode,
            default_ttl: self.rng.of(&[0, 20, 1000, 1000]),
        }
    }

    fn call(&mut self, mode: u8, call: &Call) -> Answer {
        let at = self.at(mode);
        answer(&mut self.library, at, call)
    }

    /// Stores what the server has at a key, now and then with other nulls.
    fn cache(&mut self) {
        let key = self.key();
        let mut value = self.server.at(key);
        if self.rng.chance(50) {
            value = respelled(&value, &mut || values::spelling(&mut self.rng));
        }
        let store = Call::Store {
            key: key.to_vec(),
            command: [b"GET", key].concat(),
            value: resp::encode(&value),
            expiry: self.clock + self.rng.of(&[0, 30, 1000]),
        };
        self.call(0, &store);
    }

    /// The server has another value at a key, of which the cache is told or not.
    fn change(&mut self, told: bool) {
        let key = self.key();
        let value = values::value(&mut self.rng, 3);
        self.server.0.insert(key, value);
        if told {
            let keys = Value::Array(vec![Value::Blob(key.to_vec())]);
            let push = Value::Push(vec![Value::Blob(b"invalidate".to_vec()), keys]);
            let bytes = resp::encode(&push);
            assert_eq!(self.call(0, &Call::Push { bytes }), Answer::Done);
        }
    }

    /// Any `GET` or `MGET`.
    fn words(&mut self) -> Words {
        let (name, count) = match self.rng.chance(20) {
            true => (b"GET".to_vec(), 1),
            false => (b"MGET".to_vec(), 1 + self.rng.below(20)),
        };
        let keys = (0..count).map(|_| self.key().to_vec());
        std::iter::once(name).chain(keys).collect()
    }

    /// Plans a read, has the server reply to what is sent, and resolves, in one mode; other calls may come between.
    fn read(&mut self) -> Read {
        let words = self.words();
        let transaction = self.rng.chance(40);
        let mode = u8::from(self.rng.chance(50));
        let planned = self.plan(&words, transaction, mode);
        let Answer::Planned {
            sent,
            responses,
            outcomes,
        } = planned
        else {
            panic!("{planned:?}")
        };
        let replies = self.replies(&sent, responses, transaction);
        self.clock += self.rng.of(&[0, 0, 1, 30]) as u64;
        if self.rng.chance(20) {
            let key = self.key().to_vec();
            self.call(0, &Call::Invalidate { key });
        }
        let resolve = Call::Resolve {
            plan: self.plans,
            replies,
            room: AMPLE,
        };
        self.plans += 1;
        let resolved = self.call(mode, &resolve);
        let Answer::Resolved { result, .. } = resolved else {
            panic!("{resolved:?}")
        };
        Read {
            words,
            transaction,
            mode,
            served: served(&outcomes),
            result,
        }
    }

    fn plan(&mut self, words: &[Vec<u8>], transaction: bool, mode: u8) -> Answer {
        let client_ttl = self.rng.of(&[None, None, Some(0), Some(40)]);
        let enable_cache = self.rng.chance(85);
        let settings = CacheSettings {
            enable_cache,
            client_ttl,
        };
        let command = Command {
            ignored: self.rng.chance(5),
            cache: self.rng.chance(90).then_some(settings),
            cursor: self.rng.number(),
            args: words.iter().cloned().map(Arg::Simple).collect(),
        };
        let record = Record {
            transaction,
            commands: vec![command],
        };
        let plan = Call::Plan {
            record: record::encode(&record),
            send_room: AMPLE,
            plan_room: AMPLE,
        };
        self.call(mode, &plan)
    }

    /// The server's replies, as resolving is given them.
    fn replies(&mut self, sent: &[u8], responses: (u64, u64), transaction: bool) -> Vec<u8> {
        let sent = Sent::read(sent, responses);
        let replies = sent.commands.iter();
        let replies = replies.map(|words| self.server.reply(&mut self.rng, words));
        let replies = Value::Array(replies.collect());
        resp::encode(&match transaction {
            true => Value::Array(vec![replies]),
            false => replies,
        })
    }
}

/// The values that a plan of one command serves, by place.
fn served(outcomes: &[Outcome]) -> Vec<Option<Value>> {
    let value = |bytes: &Vec<u8>| resp::parse(bytes).expect("a value is served");
    let place = |place: &Place| match place {
        Place::Served(bytes) => Some(value(bytes)),
        Place::Waiting(_) => None,
    };
    match outcomes {
        [Outcome::Cached(bytes)] => vec![Some(value(bytes))],
        [Outcome::CachedAll(list)] => list.iter().map(|bytes| Some(value(bytes))).collect(),
        [Outcome::Multiple(places)] => places.iter().map(place).collect(),
        [Outcome::Single(_) | Outcome::Ignored | Outcome::NotCacheable] => Vec::new(),
        other => panic!("one command has one outcome: {other:?}"),
    }
}

/// How often something was met.
#[derive(Default)]
struct Met(BTreeMap<&'static str, u64>);

const MET: [&str; 9] = [
    "all served",
    "some served",
    "none served",
    "a GET served",
    "a key twice, served",
    "served in a transaction",
    "served in opt-in mode",
    "an error served",
    "a null served in another spelling",
];

impl Met {
    fn count(&mut self, read: &Read, server: &Server) {
        let keys = &read.words[1..];
        let places: Vec<_> = read.served().collect();
        let (count, any) = (places.len(), !places.is_empty());
        let twice = |key: &[u8]| places.iter().filter(|(other, _)| *other == key).count() > 1;
        let error = |value: &Value| matches!(value, Value::Error(_) | Value::BlobError(_));
        let met = [
            any && count == keys.len() && keys.len() > 1,
            any && count < keys.len(),
            !any,
            any && read.words[0] == b"GET",
            places.iter().any(|(key, _)| twice(key)),
            any && read.transaction,
            any && read.mode == 1,
            places.iter().any(|(_, value)| error(value)),
            !read.is_exact(server),
        ];
        for (name, met) in MET.into_iter().zip(met) {
            *self.0.entry(name).or_default() += u64::from(met);
        }
    }
}

/// Where every change is pushed, all that is served is the server's, and each read is the direct one.
#[test]
fn a_read_through_the_cache_is_the_direct_read() {
    let mut met = Met::default();
    for seed in 1..=sequences() {
        let mut desk = Desk::open(seed);
        for _ in 0..20 {
            if desk.rng.chance(40) {
                desk.change(true);
            }
            if desk.rng.chance(40) {
                desk.cache();
            }
            let read = desk.read();
            assert!(read.stale(&desk.server).is_empty(), "seed {seed}");
            if let Err(text) = read.judge(&desk.server) {
                panic!("seed {seed}\n{text}");
            }
            met.count(&read, &desk.server);
        }
    }
    println!("{:?}", met.0);
    for (name, count) in met.0 {
        assert!(count >= sequences() / 10, "{name}: {count}");
    }
}

/// Where pushes are lost, a read is the direct one exactly if nothing that is served is stale, and differs at the stale places alone; so
/// what is asked of served values is needed, and the test above can fail.
#[test]
fn a_served_value_that_is_not_the_servers_is_noticed() {
    let (mut noticed, mut direct) = (0, 0);
    for seed in 1..=sequences() {
        let mut desk = Desk::open(seed);
        for _ in 0..10 {
            desk.change(false);
            let read = desk.read();
            let stale = read.stale(&desk.server);
            assert_eq!(read.differing(&desk.server), stale, "seed {seed}");
            let judged = read.judge(&desk.server);
            assert_eq!(judged.is_err(), !stale.is_empty(), "seed {seed}");
            match stale.is_empty() {
                true => direct += 1,
                false => noticed += 1,
            }
        }
    }
    println!("{noticed} noticed, {direct} direct");
    assert!(noticed.min(direct) >= sequences() / 2);
}

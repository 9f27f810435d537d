//! RESP2 against a server that is played: reads, writes and flushes in any order, and the bytes of both connections arriving in any order and in any pieces.
//! What the cache serves is either what the server holds, or the message that says otherwise has not arrived yet.

use redis_cache::{Cache, CacheConfig, CacheMode, CommandCacheConfig, Event, Stream, Ticket, cmd};
use std::collections::{HashMap, VecDeque};
use std::num::NonZero;

const KEYS: [&str; 3] = ["trap7", "trap8", "trap9"];

const SIZE: NonZero<usize> = NonZero::new(8).expect("not zero");

/// The server: it counts the writes of each key, and the count is the key's value.
#[derive(Default)]
struct Server {
    writes: HashMap<String, u64>,
    tracked: Vec<String>,
    /// The next command is one that `CLIENT CACHING YES` was said for.
    flagged: bool,
    opt_in: bool,
    /// On the way to it, and from it on either connection.
    asked: VecDeque<Vec<String>>,
    replies: VecDeque<u8>,
    messages: VecDeque<u8>,
    /// What is told by messages on the way, each with the place of its last byte among all bytes of messages; no key stands for all of them.
    under_way: VecDeque<(usize, Option<String>)>,
    told: usize,
}

impl Server {
    /// Takes in what was sent.
    fn ask(&mut self, bytes: &[u8]) {
        let text = std::str::from_utf8(bytes).expect("text");
        let mut lines = text.split_terminator("\r\n");
        while let Some(head) = lines.next() {
            let count: usize = head[1..].parse().expect("an array");
            let mut word = || lines.by_ref().nth(1).expect("a word").to_string();
            self.asked.push_back((0..count).map(|_| word()).collect());
        }
    }

    /// Answers the oldest command.
    fn answer(&mut self) {
        let Some(command) = self.asked.pop_front() else {
            return;
        };
        let words: Vec<&str> = command.iter().map(String::as_str).collect();
        let reply = match words[..] {
            ["CLIENT", "TRACKING", ..] => {
                self.opt_in = words.contains(&"OPTIN");
                "+OK\r\n".into()
            }
            ["CLIENT", "CACHING", _] => {
                self.flagged = true;
                self.replies.extend(b"+OK\r\n");
                return;
            }
            ["PTTL", key] => self.read(key, ":-1\r\n".into()),
            ["GET", key] => {
                let value = self.writes[key].to_string();
                self.read(key, format!("${}\r\n{value}\r\n", value.len()))
            }
            _ => panic!("{words:?}"),
        };
        self.flagged = false;
        self.replies.extend(reply.as_bytes());
    }

    fn read(&mut self, key: &str, reply: String) -> String {
        if (self.flagged || !self.opt_in) && !self.tracked.contains(&key.into()) {
            self.tracked.push(key.into());
        }
        reply
    }

    fn write(&mut self, key: &str) {
        *self.writes.get_mut(key).expect("a key") += 1;
        let before = self.tracked.len();
        self.tracked.retain(|tracked| tracked != key);
        if self.tracked.len() < before {
            let what = format!("*1\r\n${}\r\n{key}\r\n", key.len());
            self.tell(&what, Some(key.into()));
        }
    }

    fn flush(&mut self, null: &str) {
        self.writes.values_mut().for_each(|writes| *writes += 1);
        self.tracked.clear();
        self.tell(null, None);
    }

    fn tell(&mut self, what: &str, key: Option<String>) {
        let message = format!("*3\r\n$7\r\nmessage\r\n$20\r\n__redis__:invalidate\r\n{what}");
        self.messages.extend(message.as_bytes());
        self.under_way
            .push_back((self.told + self.messages.len(), key));
    }

    /// So many bytes of messages arrive.
    fn arrive(&mut self, count: usize) -> Vec<u8> {
        let bytes: Vec<u8> = self.messages.drain(..count).collect();
        self.told += count;
        while self
            .under_way
            .front()
            .is_some_and(|(end, _)| *end <= self.told)
        {
            self.under_way.pop_front();
        }
        bytes
    }

    /// Whether it is still to be told that the key was written.
    fn will_tell(&self, key: &str) -> bool {
        let about = |named: &Option<String>| named.as_ref().is_none_or(|named| named == key);
        self.under_way.iter().any(|(_, named)| about(named))
    }
}

/// Numbers in a fixed order for each seed.
struct Rng(u64);

impl Rng {
    fn below(&mut self, most: usize) -> usize {
        self.0 = self.0.wrapping_mul(6364136223846793005).wrapping_add(1);
        (self.0 >> 33) as usize % most
    }
}

struct Play {
    rng: Rng,
    server: Server,
    stream: Stream,
    asked: HashMap<Ticket, String>,
    served: usize,
    messages: usize,
}

impl Play {
    fn new(seed: u64, mode: CacheMode) -> Self {
        let config = CacheConfig::new().set_size(SIZE).set_mode(mode);
        let cache = Cache::new(config).expect("these settings");
        let mut stream = Stream::resp2(cache);
        stream
            .invalidations(b":1\r\n*3\r\n$9\r\nsubscribe\r\n$20\r\n__redis__:invalidate\r\n:1\r\n");
        let server = Server {
            writes: KEYS.map(|key| (key.to_string(), 0)).into(),
            ..Server::default()
        };
        Play {
            rng: Rng(seed),
            server,
            stream,
            asked: HashMap::new(),
            served: 0,
            messages: 0,
        }
    }

    fn step(&mut self) {
        let key = KEYS[self.rng.below(KEYS.len())];
        match self.rng.below(12) {
            0..3 => self.get(key),
            3..6 => self.server.answer(),
            6 => self.server.write(key),
            7 if self.rng.below(4) == 0 => {
                let null = ["$-1\r\n", "*-1\r\n"][self.rng.below(2)];
                self.server.flush(null);
            }
            8..10 => {
                let count = self.rng.below(self.server.replies.len() + 1);
                let bytes: Vec<u8> = self.server.replies.drain(..count).collect();
                self.stream.received(0, &bytes);
            }
            _ => {
                let count = self.rng.below(self.server.messages.len() + 1);
                let bytes = self.server.arrive(count);
                self.stream.invalidations(&bytes);
            }
        }
        self.events();
    }

    /// Asks for a key. What is served at once is fresh, or the server has yet to be heard.
    fn get(&mut self, key: &str) {
        let mut get = cmd("GET");
        get.arg(key).set_cache_config(CommandCacheConfig::new());
        let asked = self.stream.send(0, &get).expect("a call");
        self.asked.insert(asked, key.into());
        let sent = self.stream.take_to_send();
        self.server.ask(&sent);
        if !String::from_utf8_lossy(&sent).contains("GET") {
            let Some(Event::Answer(ticket, answer)) = self.stream.next_event() else {
                panic!("served")
            };
            assert_eq!(ticket, asked);
            let value: u64 = answer.query().expect("a count");
            let fresh = value == self.server.writes[key];
            assert!(fresh || self.server.will_tell(key), "{key} is stale");
            self.served += 1;
        }
    }

    fn events(&mut self) {
        while let Some(event) = self.stream.next_event() {
            match event {
                Event::Answer(ticket, _) => assert!(self.asked.contains_key(&ticket)),
                Event::Push(_) => self.messages += 1,
                other => panic!("{other:?}"),
            }
        }
    }
}

fn play(mode: CacheMode) {
    let (mut served, mut messages) = (0, 0);
    for seed in 0..1000 {
        let mut play = Play::new(seed, mode);
        (0..200).for_each(|_| play.step());
        served += play.served;
        messages += play.messages;
    }
    assert!(served > 2000 && messages > 5000, "{served}, {messages}");
}

#[test]
fn mode_all() {
    play(CacheMode::All);
}

#[test]
fn opt_in() {
    play(CacheMode::OptIn);
}

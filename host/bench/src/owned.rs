//! What a host does: a served call through the owning `Cache`, planned, resolved and read, against the crate's cached pipeline, which is all of redis-rs
//! that the reference has, and against asking a real server over loopback.

use crate::filled::Crate;
use crate::measure::{Case, Table, on_the_clock, thousands, way};
use crate::server::Server;
use redis_cache::{Cache, CacheConfig, Pipeline, arena_for, pipe};
use std::hint::black_box;
use std::io::{Read, Write};
use std::net::TcpStream;
use std::num::NonZeroUsize;

/// The bytes of a catch, as the server sends it.
const CATCH: &[u8] = b"$2\r\n12\r\n";

/// A served `GET` and a served pipeline of 32, in caches of some sizes, all of them full.
pub fn cache(table: &mut Table) {
    if !table.wants("Cache") {
        return;
    }
    let server = match Server::start() {
        Ok(server) => Some(server),
        Err(missing) => {
            eprintln!("no loopback round trip: {missing}");
            None
        }
    };
    let mut loopback = server
        .as_ref()
        .map(|server| Loopback::connect(&server.address));
    for keys in [32, 1000, 10_000] {
        for commands in [1, 32] {
            served(table, loopback.as_mut(), keys, commands);
        }
    }
}

fn key(number: usize) -> String {
    format!("trap:{number:06}")
}

fn served(table: &mut Table, loopback: Option<&mut Loopback>, keys: usize, commands: usize) {
    let config = CacheConfig::new().set_size(NonZeroUsize::new(keys).expect("some keys"));
    let mut cache = Cache::with_arena(config, arena_for(&config, 11, 2)).expect("these settings");
    let theirs = Crate::new(keys as u64, (0..keys).map(key), CATCH);
    let mut kept = Vec::new();
    for number in 0..keys {
        let (key, command) = (key(number), format!("GET{}", key(number)));
        cache
            .insert(key.as_bytes(), command.as_bytes(), CATCH, u64::MAX)
            .expect("space");
        kept.push(key);
    }
    // A cache drops the oldest key of a full shard: those that are still there.
    kept.retain(|key| {
        let command = format!("GET{key}");
        cache
            .get(0, key.as_bytes(), command.as_bytes())
            .expect("no refusal")
            .is_some()
    });
    let kept: Vec<String> = kept.into_iter().cycle().take(commands).collect();
    let mut call = pipe();
    for key in &kept {
        call.cmd("GET").arg(key);
    }
    assert!(cache.plan(0, &call).expect("a plan").is_served());
    let words = match commands {
        1 => format!("a served GET, {} keys", thousands(keys)),
        n => format!("a served pipeline of {n}, {} keys", thousands(keys)),
    };
    let asked = theirs.asked(&kept);
    let ours = way(|| read(&mut cache, &call));
    table.measure_all(
        Case::new("Cache", words.clone()),
        ours,
        vec![("redis 1.8.1", theirs.served(&asked))],
    );
    if let Some(loopback) = loopback {
        loopback.set(&kept);
        let request = request(&kept);
        let ours = on_the_clock(|| read(&mut cache, &call));
        let asking = on_the_clock(|| loopback.ask(black_box(&request), commands));
        table.measure_all(Case::new("Cache", words), ours, vec![("loopback", asking)]);
    }
}

/// What a host does with a served call.
fn read(cache: &mut Cache, call: &Pipeline) {
    let plan = cache.plan(0, black_box(call)).expect("a plan");
    let answer = cache.resolve(0, &plan, &plan.replies()).expect("an answer");
    let catches: Vec<i64> = answer.query().expect("numbers");
    assert_eq!(catches.first(), Some(&12));
}

/// The bytes of these `GET`s.
fn request(keys: &[String]) -> Vec<u8> {
    let get = |key: &String| format!("*2\r\n$3\r\nGET\r\n${}\r\n{key}\r\n", key.len());
    keys.iter().map(get).collect::<String>().into_bytes()
}

/// A connection without a cache.
struct Loopback(TcpStream);

impl Loopback {
    fn connect(address: &str) -> Self {
        let socket = TcpStream::connect(address).expect("the server is there");
        socket.set_nodelay(true).expect("a socket");
        Loopback(socket)
    }

    fn set(&mut self, keys: &[String]) {
        for key in keys {
            let set = format!("SET {key} 12\r\n");
            self.0.write_all(set.as_bytes()).expect("sent");
            let mut ok = [0; 5];
            self.0.read_exact(&mut ok).expect("received");
        }
    }

    /// Sends the request, and reads so many catches.
    fn ask(&mut self, request: &[u8], catches: usize) {
        self.0.write_all(request).expect("sent");
        let mut received = [0; 32 * CATCH.len()];
        let received = &mut received[..catches * CATCH.len()];
        self.0.read_exact(received).expect("received");
        assert!(received.ends_with(CATCH));
    }
}

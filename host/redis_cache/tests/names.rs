//! An outside judge of what is cached: of every command that redis-server knows, and of every number of arguments up to four, either nothing is
//! cached or all that the server takes for keys is watched. Where redis-server is not installed, the test says so and is left out.

mod common;

use common::Server;
use redis_cache::{Cache, CacheConfig, cmd};
use std::io::{BufRead, BufReader, Write};
use std::os::unix::net::UnixStream;

/// Names that are cached and that the server does not know, since a module has them. Nobody here says which of their arguments are keys.
const UNJUDGED: [&str; 9] = [
    "JSON.ARRINDEX",
    "JSON.ARRLEN",
    "JSON.GET",
    "JSON.MGET",
    "JSON.OBJKEYS",
    "JSON.OBJLEN",
    "JSON.RESP",
    "JSON.STRLEN",
    "JSON.TYPE",
];

/// The lines that answer a command.
fn lines(socket: &mut BufReader<UnixStream>, command: &str) -> Vec<String> {
    let sent = format!("{command}\r\nPING\r\n");
    socket.get_mut().write_all(sent.as_bytes()).expect("sent");
    let mut lines = Vec::new();
    loop {
        let mut line = String::new();
        assert_ne!(socket.read_line(&mut line).expect("received"), 0);
        match line.trim_end() {
            "+PONG" => return lines,
            line => lines.push(line.to_string()),
        }
    }
}

/// What the server says of a command: its flags, and where its first key, its last (from the end, if negative) and every so manieth is.
struct Known {
    flags: Vec<String>,
    keys: [i64; 3],
}

impl Known {
    fn of(socket: &mut BufReader<UnixStream>, name: &str) -> Option<Self> {
        let lines = lines(socket, &format!("COMMAND INFO {name}"));
        let number = |line: &String| line[1..].parse().expect("a number");
        // An array of one, its length, the name with its length, the arity; then flags, with their number, and places.
        let count = number(lines.get(5)?) as usize;
        let flags = lines[6..6 + count].iter().map(|flag| flag[1..].to_string());
        let keys = &lines[6 + count..];
        Some(Known {
            flags: flags.collect(),
            keys: [0, 1, 2].map(|place| number(&keys[place])),
        })
    }

    /// Which of so many arguments are keys, counted from 1.
    fn keys(&self, arguments: usize) -> Vec<usize> {
        let [first, last, step] = self.keys;
        let last = match last {
            last if last < 0 => arguments as i64 + 1 + last,
            last => last,
        };
        (1..=arguments)
            .filter(|&at| {
                let at = at as i64;
                (first..=last).contains(&at) && (at - first) % step == 0
            })
            .collect()
    }
}

/// Which arguments of such a command the cache asks to be told of.
fn watched(name: &str, arguments: usize) -> Vec<usize> {
    let mut cache = Cache::new(CacheConfig::new()).expect("a cache");
    let mut command = cmd(name);
    for at in 1..=arguments {
        command.arg(format!("k{at}"));
    }
    let plan = cache.plan(0, &command).expect("planned");
    // Alone, a command is sent as it stands: nothing is kept of it.
    if plan.responses().count == 1 {
        return Vec::new();
    }
    let sent = String::from_utf8_lossy(plan.send()).into_owned();
    (1..=arguments)
        .filter(|at| sent.contains(&format!("$4\r\nPTTL\r\n$2\r\nk{at}\r\n")))
        .collect()
}

#[test]
fn every_key_of_what_is_cached_is_watched() {
    let Some(server) = Server::start("names") else {
        return;
    };
    let mut socket = BufReader::new(server.connect());
    let listed = lines(&mut socket, "COMMAND LIST");
    let names = listed.iter().filter(|line| !line.starts_with(['*', '$']));
    let mut cached = Vec::new();
    for name in names {
        let known = Known::of(&mut socket, name).expect("a command that it listed");
        let name = name.to_uppercase();
        let shapes: Vec<_> = (0..=4).map(|arguments| watched(&name, arguments)).collect();
        for (arguments, watched) in shapes.iter().enumerate() {
            if !watched.is_empty() {
                assert_eq!(*watched, known.keys(arguments), "{name} of {arguments}");
                assert!(known.flags.iter().any(|flag| flag == "readonly"), "{name}");
                assert!(
                    !known.flags.iter().any(|flag| flag == "movablekeys"),
                    "{name}"
                );
            }
        }
        if shapes.iter().any(|watched| !watched.is_empty()) {
            cached.push(name);
        }
    }
    assert_eq!(cached.len(), 47, "{cached:?}");
    for name in UNJUDGED {
        assert!(
            Known::of(&mut socket, name).is_none(),
            "{name} is known here"
        );
        assert!(!watched(name, 2).is_empty(), "{name}");
    }
}

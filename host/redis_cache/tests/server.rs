//! The stream on a real Redis server, Debian's redis-server, over a Unix socket: after every invalidation the fresh catch is read. Where
//! the server is not installed, the tests say so and are left out.

mod common;
#[path = "common/host.rs"]
mod host;

use common::Server;
use host::{Desk, get};
use redis_cache::lent::{ValueEnd, value_end};
use redis_cache::{Cache, CacheConfig, CacheMode, ServerError, Stream, cmd, pipe, tracking_on};
use std::io::{Read, Write};
use std::os::unix::net::UnixStream;
use std::thread::sleep;
use std::time::Duration;

impl Desk {
    fn new(server: &Server, mode: CacheMode) -> Self {
        let cache = Cache::new(CacheConfig::new().set_mode(mode)).expect("these settings");
        Self::over(server, Stream::new(cache))
    }
}

/// A trap's own connection, without a cache.
struct Trap(UnixStream);

impl Trap {
    fn post(&mut self, command: &str) {
        self.0
            .write_all(format!("{command}\r\n").as_bytes())
            .expect("sent");
        let mut bytes = [0; 256];
        let n = self.0.read(&mut bytes).expect("received");
        assert!(
            bytes[..n].starts_with(b"+OK") || bytes[0] == b':',
            "{command}"
        );
    }
}

fn fresh_after_an_invalidation(name: &str, mode: CacheMode) {
    let Some(server) = Server::start(name) else {
        return;
    };
    let (mut desk, mut trap) = (Desk::new(&server, mode), Trap(server.connect()));
    let get = get("trap7", mode);
    trap.post("SET trap7 12");
    assert_eq!(desk.catch(&get), (Some(12), true));
    assert_eq!(desk.catch(&get), (Some(12), false));
    for (round, catch) in (1..).zip([13, 14, 15]) {
        trap.post(&format!("SET trap7 {catch}"));
        desk.hear(round);
        assert_eq!(desk.catch(&get), (Some(catch), true));
        assert_eq!(desk.catch(&get), (Some(catch), false));
    }
    trap.post("FLUSHALL");
    desk.hear(4);
    assert_eq!(desk.catch(&get), (None, true));
}

#[test]
fn mode_all() {
    fresh_after_an_invalidation("mode-all", CacheMode::All);
}

/// In opt-in mode the flag goes to the command behind it, which is `PTTL`: the key is tracked all the same.
#[test]
fn opt_in() {
    fresh_after_an_invalidation("opt-in", CacheMode::OptIn);
}

#[test]
fn transactions_and_several_keys() {
    let Some(server) = Server::start("several") else {
        return;
    };
    let mut desk = Desk::new(&server, CacheMode::All);
    let mut trap = Trap(server.connect());
    trap.post("SET trap7 12");
    let mut pipeline = pipe();
    pipeline.atomic().cmd("MGET").arg(["trap7", "trap8"]);
    pipeline.cmd("SET").arg("visits").arg(1).ignore();
    let read = |desk: &mut Desk| {
        let (catches,) = desk
            .ask(&pipeline)
            .0
            .query::<(Vec<Option<i64>>,)>()
            .expect("catches");
        catches
    };
    assert_eq!(read(&mut desk), [Some(12), None]);
    assert_eq!(read(&mut desk), [Some(12), None]);
    assert_eq!(desk.stream.cache().statistics().hit, 2);
    trap.post("SET trap8 3");
    desk.hear(1);
    assert_eq!(read(&mut desk), [Some(12), Some(3)]);
}

/// A key that expires on the server is not served past its time, whether its push is heard or not.
#[test]
fn expiry() {
    let Some(server) = Server::start("expiry") else {
        return;
    };
    let mut desk = Desk::new(&server, CacheMode::All);
    let mut trap = Trap(server.connect());
    trap.post("SET trap7 12 PX 300");
    let get = get("trap7", CacheMode::All);
    assert_eq!(desk.catch(&get), (Some(12), true));
    sleep(Duration::from_millis(400));
    assert_eq!(desk.catch(&get), (None, true));
}

/// The server is stopped and another one started: nothing of before is served.
#[test]
fn restart() {
    let Some(server) = Server::start("restart") else {
        return;
    };
    let mut desk = Desk::new(&server, CacheMode::All);
    Trap(server.connect()).post("SET trap7 12");
    let get = get("trap7", CacheMode::All);
    assert_eq!(desk.catch(&get), (Some(12), true));
    drop(server);
    let another = Server::start("restart").expect("installed");
    desk.socket = another.connect();
    desk.stream.reconnected();
    assert_eq!(desk.catch(&get), (None, true));
    assert_eq!(desk.stream.cache().epoch(), 1);
}

/// What the server refuses keeps its words: an error of one command, a transaction that is discarded, and one whose watched key was written.
#[test]
fn what_the_server_says() {
    let Some(server) = Server::start("words") else {
        return;
    };
    let mut desk = Desk::new(&server, CacheMode::All);
    let mut trap = Trap(server.connect());
    trap.post("HSET trap9 catch 3");
    let (answer, _) = desk.ask(cmd("GET").arg("trap9"));
    let wrong: Result<String, ServerError> = answer.query().expect("an error is an answer");
    assert_eq!(wrong.expect_err("a hash").code(), "WRONGTYPE");

    let mut unknown = pipe();
    unknown.atomic().cmd("GET").arg("trap7").cmd("FETCH").arg(1);
    let refused = desk.refused(&unknown);
    assert_eq!(
        refused.server_error().map(ServerError::code),
        Some("EXECABORT")
    );
    let queued = refused.queued_error().expect("why it was discarded");
    assert!(queued.to_string().contains("unknown command"), "{queued}");
    assert!(
        refused.to_string().contains(&queued.to_string()),
        "{refused}"
    );

    desk.ask(cmd("WATCH").arg("trap7"));
    trap.post("SET trap7 13");
    let mut watched = pipe();
    watched.atomic().cmd("SET").arg("trap7").arg(12);
    let refused = desk.refused(&watched);
    assert_eq!(refused.number(), 7);
    assert!(
        refused.to_string().contains("EXEC was answered by null"),
        "{refused}"
    );
    assert_eq!(desk.catch(&get("trap7", CacheMode::All)), (Some(13), true));
}

/// So many values, as they arrive on a connection.
fn values(socket: &mut UnixStream, count: usize) -> Vec<Vec<u8>> {
    let (mut received, mut values) = (Vec::new(), Vec::new());
    while values.len() < count {
        match value_end(&received) {
            ValueEnd::Complete(length) => values.push(received.drain(..length).collect()),
            ValueEnd::Wrong => panic!("{received:?}"),
            ValueEnd::More(_) => {
                let mut bytes = [0; 4096];
                let n = socket.read(&mut bytes).expect("received");
                assert_ne!(n, 0, "the server hung up");
                received.extend_from_slice(&bytes[..n]);
            }
        }
    }
    values
}

/// A hazard of hosts without a stream: the push stands behind the replies and is handled before they are stored. The old catch is served from then on.
#[test]
fn a_push_handled_before_the_replies_it_stands_behind() {
    let Some(server) = Server::start("overtaken") else {
        return;
    };
    let mut trap = Trap(server.connect());
    trap.post("SET trap7 0");
    let (mut socket, get) = (server.connect(), get("trap7", CacheMode::All));
    let mut cache = Cache::new(CacheConfig::new()).expect("these settings");
    let plan = cache.plan(0, &get).expect("a plan");
    socket
        .write_all(&tracking_on(CacheMode::All))
        .expect("sent");
    socket.write_all(plan.send()).expect("sent");
    let answers = values(&mut socket, 4);
    trap.post("SET trap7 5");
    let push = values(&mut socket, 1);

    cache.on_push(&push[0]).expect("a push");
    let mut replies = plan.replies();
    answers[2..].iter().for_each(|reply| replies.add(reply));
    cache.resolve(0, &plan, &replies).expect("an answer");
    let served = cache.plan(1, &get).expect("a plan");
    assert!(served.is_served());
    let answer = cache.resolve(1, &served, &served.replies());
    assert_eq!(answer.expect("an answer").query(), Ok(0), "the stale zero");
}

/// A hazard: what a call reads, writes and reads again is served as it was. The next call is not.
#[test]
fn a_call_that_reads_what_it_writes() {
    let Some(server) = Server::start("own-write") else {
        return;
    };
    let mut desk = Desk::new(&server, CacheMode::All);
    Trap(server.connect()).post("SET trap7 0");
    let get = get("trap7", CacheMode::All);
    assert_eq!(desk.catch(&get), (Some(0), true));
    let mut call = pipe();
    call.add_command(get.clone());
    call.cmd("SET").arg("trap7").arg(5).ignore();
    call.add_command(get.clone());
    assert_eq!(desk.ask(&call).0.query(), Ok((0, 0)));
    desk.hear(1);
    assert_eq!(desk.catch(&get), (Some(5), true));
}

/// A hazard: all replies of one call are over 16 MiB.
#[test]
fn replies_over_16_mib() {
    let Some(server) = Server::start("long") else {
        return;
    };
    let mut desk = Desk::new(&server, CacheMode::All);
    let mut trap = Trap(server.connect());
    let long = 9 << 20;
    for report in ["report1", "report2"] {
        trap.post(&format!("SETRANGE {report} {long} x"));
    }
    let mut both = pipe();
    both.cmd("GET").arg("report1").cmd("GET").arg("report2");
    assert_eq!(desk.refused(&both).number(), 6);
    let (answer, _) = desk.ask(cmd("GET").arg("report1"));
    assert_eq!(
        answer.query::<Vec<u8>>().map(|text| text.len()),
        Ok(long + 1)
    );
}

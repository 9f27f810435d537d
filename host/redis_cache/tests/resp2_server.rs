//! The stream in RESP2 on a real Redis server, Debian's redis-server, over two Unix sockets. Where the server is not installed, the tests say so and are
//! left out.

mod common;
#[path = "common/host.rs"]
mod host;

use common::Server;
use host::{Desk, get};
use redis_cache::{Cache, CacheConfig, CacheMode, Event, Lost, Stream, cmd, pipe};
use std::io::{BufRead, BufReader, ErrorKind, Read, Write};
use std::os::unix::net::UnixStream;
use std::time::Duration;

impl Desk {
    fn new(server: &Server, mode: CacheMode) -> Self {
        let cache = Cache::new(CacheConfig::new().set_mode(mode)).expect("these settings");
        Self::begun(server, Stream::resp2(cache))
    }

    fn begun(server: &Server, stream: Stream) -> Self {
        let mut desk = Self::over(server, stream);
        desk.begin(server);
        desk
    }

    /// There is a second connection, and it listens.
    fn begin(&mut self, server: &Server) {
        self.second = Some(server.connect());
        let subscribing = self.stream.subscribing();
        self.second().write_all(&subscribing).expect("sent");
        while self.stream.holds_back() {
            assert!(self.listen(), "the server hung up");
        }
    }

    fn second(&mut self) -> &mut UnixStream {
        self.second.as_mut().expect("it is made first")
    }
}

/// A connection without a cache.
struct Raw(BufReader<UnixStream>);

impl Raw {
    fn new(server: &Server) -> Self {
        Raw(BufReader::new(server.connect()))
    }

    /// The first line of the reply to a command.
    fn say(&mut self, command: &str) -> String {
        let line = format!("{command}\r\n");
        self.0.get_mut().write_all(line.as_bytes()).expect("sent");
        self.line()
    }

    fn line(&mut self) -> String {
        let mut line = String::new();
        assert_ne!(self.0.read_line(&mut line).expect("received"), 0);
        line.trim_end().to_string()
    }

    /// Whether nothing comes for a while.
    fn is_silent(&mut self) -> bool {
        let patience = Some(Duration::from_millis(200));
        self.0
            .get_ref()
            .set_read_timeout(patience)
            .expect("a timeout");
        let heard = self.0.fill_buf().map(<[u8]>::len);
        heard.is_err_and(|error| error.kind() == ErrorKind::WouldBlock)
    }
}

/// A key that is not there, as the server says it in RESP2, is kept as a null. Then another client writes it, and in the end all is flushed.
fn fresh_after_an_invalidation(name: &str, mode: CacheMode) {
    let Some(server) = Server::start(name) else {
        return;
    };
    let (mut desk, mut trap) = (Desk::new(&server, mode), Raw::new(&server));
    let get = get("trap7", mode);
    for asked in [true, false] {
        let (answer, sent) = desk.ask(&get);
        assert_eq!((answer.query(), sent), (Ok(None::<i64>), asked));
        assert_eq!(answer.bytes(), b"*1\r\n$-1\r\n", "as the server wrote it");
    }
    for (round, catch) in (1..).zip([12, 13, 14]) {
        assert_eq!(trap.say(&format!("SET trap7 {catch}")), "+OK");
        desk.hear(round);
        assert_eq!(desk.catch(&get), (Some(catch), true));
        assert_eq!(desk.catch(&get), (Some(catch), false));
    }
    assert_eq!(trap.say("FLUSHALL"), "+OK");
    desk.hear(4);
    assert_eq!(desk.catch(&get), (None, true));
    assert_eq!(desk.catch(&get), (None, false));
}

#[test]
fn mode_all() {
    fresh_after_an_invalidation("resp2-all", CacheMode::All);
}

#[test]
fn opt_in() {
    fresh_after_an_invalidation("resp2-opt-in", CacheMode::OptIn);
}

/// The message overtakes the replies: it is heard before they are read.
#[test]
fn a_message_that_overtakes_the_replies() {
    let Some(server) = Server::start("resp2-overtakes") else {
        return;
    };
    let (mut desk, mut trap) = (Desk::new(&server, CacheMode::All), Raw::new(&server));
    let get = get("trap7", CacheMode::All);
    trap.say("SET trap7 0");
    desk.ask(&cmd("PING"));
    desk.stream.send(0, &get).expect("a call");
    let to_send = desk.stream.take_to_send();
    desk.socket.write_all(&to_send).expect("sent");
    // The trap writes until the message is there: then the call was read before the last write but one at the latest.
    desk.second().set_nonblocking(true).expect("set");
    let mut bytes = [0; 4096];
    let heard = loop {
        trap.say("SET trap7 5");
        match desk.second().read(&mut bytes) {
            Err(error) if error.kind() == ErrorKind::WouldBlock => {}
            heard => break heard.expect("received"),
        }
    };
    desk.stream.invalidations(&bytes[..heard]);
    while desk.stream.next_answer().is_none() {
        desk.read();
    }
    assert_eq!(desk.catch(&get), (Some(5), true), "it was not kept");
}

#[test]
fn transactions_and_several_keys() {
    let Some(server) = Server::start("resp2-several") else {
        return;
    };
    let (mut desk, mut trap) = (Desk::new(&server, CacheMode::All), Raw::new(&server));
    trap.say("SET trap7 12");
    let mut both = pipe();
    both.atomic().cmd("MGET").arg(["trap7", "trap8"]);
    let read = |desk: &mut Desk| {
        let (catches,) = desk
            .ask(&both)
            .0
            .query::<(Vec<Option<i64>>,)>()
            .expect("catches");
        catches
    };
    assert_eq!(read(&mut desk), [Some(12), None]);
    assert_eq!(read(&mut desk), [Some(12), None]);
    assert_eq!(desk.stream.cache().statistics().hit, 2);
    trap.say("SET trap8 3");
    desk.hear(1);
    assert_eq!(read(&mut desk), [Some(12), Some(3)]);

    desk.ask(cmd("WATCH").arg("trap7"));
    trap.say("SET trap7 13");
    let refused = desk.refused(pipe().atomic().cmd("SET").arg("trap7").arg(12));
    let said = refused.to_string();
    assert!(said.contains("EXEC was answered by null"), "{said}");
}

/// A server on which nothing is done without a login.
#[test]
fn a_login() {
    let Some(server) = Server::start("resp2-login") else {
        return;
    };
    let mut trap = Raw::new(&server);
    for command in ["SETUSER desk on >secret ~* &* +@all", "SETUSER default off"] {
        assert_eq!(trap.say(&format!("ACL {command}")), "+OK");
    }
    let cache = || Cache::new(CacheConfig::new()).expect("these settings");
    let login = Stream::resp2_with_auth(cache(), "desk", "secret");
    let mut desk = Desk::begun(&server, login);
    let get = get("trap7", CacheMode::All);
    assert_eq!(desk.catch(&get), (None, true));
    trap.say("SET trap7 12");
    desk.hear(1);
    assert_eq!(desk.catch(&get), (Some(12), true));

    // Without it the second connection is refused, and nothing is ever sent on the first.
    let mut second = server.connect();
    let mut stream = Stream::resp2(cache());
    second.write_all(&stream.subscribing()).expect("sent");
    let mut bytes = [0; 4096];
    let n = second.read(&mut bytes).expect("received");
    stream.invalidations(&bytes[..n]);
    let lost = stream.next_event();
    assert!(
        matches!(lost, Some(Event::Lost(Lost::NotTracking(_)))),
        "{lost:?}"
    );
    assert!(stream.to_send().is_empty());
}

/// The server closes the second connection and says nothing of it on the first: with two new ones, nothing of before is served.
#[test]
fn the_second_connection_is_closed() {
    let Some(server) = Server::start("resp2-closed") else {
        return;
    };
    let (mut desk, mut trap) = (Desk::new(&server, CacheMode::All), Raw::new(&server));
    let get = get("trap7", CacheMode::All);
    trap.say("SET trap7 12");
    assert_eq!(desk.catch(&get), (Some(12), true));
    assert_eq!(trap.say("CLIENT KILL TYPE pubsub"), ":1");
    trap.say("SET trap7 13");
    while desk.listen() {}
    desk.stream.disconnected();
    desk.socket = server.connect();
    desk.stream.reconnected();
    desk.begin(&server);
    assert_eq!(desk.stream.cache().epoch(), 1);
    assert_eq!(desk.catch(&get), (Some(13), true));
    let invalidated = desk.stream.cache().statistics().invalidate;
    trap.say("SET trap7 14");
    desk.hear(invalidated + 1);
    assert_eq!(desk.catch(&get), (Some(14), true));
}

/// A connection that listens may be asked whether it is still there. The answer is passed over.
#[test]
fn a_ping_on_the_second_connection() {
    let Some(server) = Server::start("resp2-ping") else {
        return;
    };
    let (mut desk, mut trap) = (Desk::new(&server, CacheMode::All), Raw::new(&server));
    let get = get("trap7", CacheMode::All);
    trap.say("SET trap7 12");
    assert_eq!(desk.catch(&get), (Some(12), true));
    desk.second()
        .write_all(b"*1\r\n$4\r\nPING\r\n")
        .expect("sent");
    assert!(desk.listen());
    assert_eq!(desk.stream.next_event(), None);
    assert_eq!(desk.catch(&get), (Some(12), false));
}

/// A hazard: the message about an own write is on the other connection, and until it is heard the old value is served.
#[test]
fn an_own_write_is_answered_before_it_is_told() {
    let Some(server) = Server::start("resp2-own-write") else {
        return;
    };
    let mut desk = Desk::new(&server, CacheMode::All);
    let get = get("trap7", CacheMode::All);
    desk.ask(cmd("SET").arg("trap7").arg(0));
    assert_eq!(desk.catch(&get), (Some(0), true));
    desk.ask(cmd("SET").arg("trap7").arg(5));
    assert_eq!(desk.catch(&get), (Some(0), false), "the stale zero");
    desk.hear(1);
    assert_eq!(desk.catch(&get), (Some(5), true));
}

/// Why nothing is sent on the first connection before the second one listens: what was invalidated until then is never told.
#[test]
fn what_is_written_before_the_second_connection_listens_is_not_told() {
    let Some(server) = Server::start("resp2-silent") else {
        return;
    };
    let connect = || Raw::new(&server);
    let (mut first, mut second, mut trap) = (connect(), connect(), connect());
    let id = second.say("CLIENT ID")[1..].to_string();
    let tracking = first.say(&format!("CLIENT TRACKING ON REDIRECT {id}"));
    assert_eq!(tracking, "+OK");
    assert_eq!(first.say("GET trap7"), "$-1");
    trap.say("SET trap7 12");
    assert_eq!(second.say("SUBSCRIBE __redis__:invalidate"), "*3");
    (0..5).for_each(|_| drop(second.line()));
    assert!(second.is_silent() && first.is_silent());
}

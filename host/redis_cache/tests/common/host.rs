//! The host program of the tests on a real server: a stream and its socket, in RESP2 two.

use crate::common::Server;
use redis_cache::{
    CacheMode, Call, Clock, Cmd, CommandCacheConfig, Error, Event, NoAnswer, OwnedAnswer, Stream,
    cmd,
};
use std::io::{Read, Write};
use std::os::unix::net::UnixStream;

pub struct Desk {
    pub socket: UnixStream,
    /// In RESP2 what the server tells of writes comes here.
    pub second: Option<UnixStream>,
    pub stream: Stream,
    clock: Clock,
}

impl Desk {
    pub fn over(server: &Server, stream: Stream) -> Self {
        Desk {
            socket: server.connect(),
            second: None,
            stream,
            clock: Clock::new(),
        }
    }

    /// The answer, and whether the server was asked for it. Nothing is heard on a second connection meanwhile.
    pub fn ask(&mut self, call: &impl Call) -> (OwnedAnswer, bool) {
        let asked = self.stream.send(self.clock.now(), call).expect("a call");
        let sends = !self.stream.to_send().is_empty();
        loop {
            match self.stream.next_event() {
                Some(Event::Answer(ticket, answer)) if ticket == asked => return (answer, sends),
                Some(Event::Push(_)) => continue,
                Some(other) => panic!("{other:?}"),
                None => self.read(),
            }
        }
    }

    /// A trap's catch, and whether the server was asked for it.
    pub fn catch(&mut self, call: &impl Call) -> (Option<i64>, bool) {
        let (answer, sent) = self.ask(call);
        (answer.query().expect("a number or none"), sent)
    }

    /// Why a call is refused.
    pub fn refused(&mut self, call: &impl Call) -> Error {
        self.stream.send(self.clock.now(), call).expect("a call");
        loop {
            match self.stream.next_answer() {
                Some(Err(NoAnswer::Refused(error))) => return error,
                Some(other) => panic!("{other:?}"),
                None => self.read(),
            }
        }
    }

    /// Sends what there is to send, and takes in what arrives.
    pub fn read(&mut self) {
        let to_send = self.stream.take_to_send();
        self.socket.write_all(&to_send).expect("sent");
        let mut bytes = [0; 4096];
        let n = self.socket.read(&mut bytes).expect("received");
        assert_ne!(n, 0, "the server hung up");
        self.stream.received(self.clock.now(), &bytes[..n]);
    }

    /// Takes in what arrives where the server tells of writes; whether that connection is still there.
    pub fn listen(&mut self) -> bool {
        let Some(second) = &mut self.second else {
            self.read();
            return true;
        };
        let mut bytes = [0; 4096];
        let n = second.read(&mut bytes).expect("received");
        self.stream.invalidations(&bytes[..n]);
        n > 0
    }

    /// Listens until so many entries were invalidated in all.
    pub fn hear(&mut self, invalidated: u64) {
        while self.stream.cache().statistics().invalidate < invalidated {
            assert!(self.listen(), "the server hung up");
        }
    }
}

/// A read of a key, which is cached in this mode.
pub fn get(key: &str, mode: CacheMode) -> Cmd {
    let mut get = cmd("GET");
    get.arg(key);
    if mode == CacheMode::OptIn {
        get.set_cache_config(CommandCacheConfig::new());
    }
    get
}

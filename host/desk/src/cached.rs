//! What is read through the cache.

use crate::options::{By, Resp};
use crate::traps::{TRAPS, key, trap_of};
use crate::wire::{Arrived, Wire};
use redis_cache::{
    Cache, CacheConfig, CacheMode, CacheStatistics, Clock, CommandCacheConfig, Event, OwnedAnswer,
    OwnedValue, Pipeline, Stream, Value, pipe,
};
use std::time::{Duration, Instant};

/// How long the server may be silent before the program gives up.
const PATIENCE: Duration = Duration::from_secs(60);

/// What the server said on its own.
#[derive(Debug, PartialEq, Eq)]
pub enum Heard {
    /// What is kept of this trap is dropped.
    Push(usize),
    /// There is a new connection: nothing that was kept is served.
    Reconnected,
}

/// Where a catch came from.
#[derive(Clone, Copy, Debug, PartialEq, Eq)]
pub enum Source {
    Cache,
    Server,
}

pub struct Cached {
    address: String,
    wire: Wire,
    stream: Stream,
    clock: Clock,
    mode: CacheMode,
    by: By,
    heard: Vec<Heard>,
}

impl Cached {
    pub fn connect(address: &str, mode: CacheMode, by: By, resp: Resp) -> Result<Self, String> {
        let cache = Cache::new(CacheConfig::new().set_mode(mode)).map_err(|e| e.to_string())?;
        let stream = match resp {
            Resp::Two => Stream::resp2(cache),
            Resp::Three => Stream::new(cache),
        };
        Ok(Cached {
            address: address.into(),
            wire: Wire::open(address, &stream.subscribing())?,
            stream,
            clock: Clock::new(),
            mode,
            by,
            heard: Vec::new(),
        })
    }

    pub fn statistics(&self) -> CacheStatistics {
        self.stream.cache().statistics()
    }

    /// The traps that are asked for together.
    pub fn together(&self) -> Vec<Vec<usize>> {
        match self.by {
            By::Get => (0..TRAPS.len()).map(|trap| vec![trap]).collect(),
            By::Mget | By::Transaction => vec![(0..TRAPS.len()).collect()],
        }
    }

    /// The catches of these traps, and whether the server was asked for each.
    pub fn read(&mut self, traps: &[usize]) -> Result<Vec<(Option<u32>, Source)>, String> {
        let call = self.call(traps);
        let began = Instant::now();
        'ask: loop {
            self.ready()?;
            let now = self.clock.now();
            let asked = self.stream.send(now, &call).map_err(|e| e.to_string())?;
            let sends = String::from_utf8_lossy(self.stream.to_send()).into_owned();
            let source = |&trap: &usize| match sends.contains(&key(trap)) {
                true => Source::Server,
                false => Source::Cache,
            };
            loop {
                match self.stream.next_event() {
                    Some(Event::Answer(ticket, answer)) if ticket == asked => {
                        let catches = self.catches(&answer)?;
                        return Ok(catches.into_iter().zip(traps.iter().map(source)).collect());
                    }
                    Some(Event::Dropped(ticket)) if ticket == asked => continue 'ask,
                    Some(event) => self.event(event)?,
                    None if began.elapsed() > PATIENCE => {
                        return Err("the server does not answer".into());
                    }
                    None => self.receive(Duration::from_secs(1))?,
                }
            }
        }
    }

    /// Sends what there is to send, and waits as long as calls would be held back: it would not be seen what they ask the server for.
    fn ready(&mut self) -> Result<(), String> {
        let began = Instant::now();
        self.write()?;
        while self.stream.holds_back() {
            match self.stream.next_event() {
                Some(event) => self.event(event)?,
                None if began.elapsed() > PATIENCE => {
                    return Err("the server does not say that it will tell of changes".into());
                }
                None => self.receive(Duration::from_secs(1))?,
            }
        }
        Ok(())
    }

    /// What asks for these traps.
    fn call(&self, traps: &[usize]) -> Pipeline {
        let mut call = pipe();
        let keys: Vec<String> = traps.iter().map(|&trap| key(trap)).collect();
        if self.by == By::Mget {
            self.opted(call.cmd("MGET").arg(keys));
            return call;
        }
        if self.by == By::Transaction {
            call.atomic();
        }
        for key in keys {
            self.opted(call.cmd("GET").arg(key));
        }
        call
    }

    /// In opt-in mode, what was asked last is to be kept.
    fn opted(&self, call: &mut Pipeline) {
        if self.mode == CacheMode::OptIn {
            call.set_cache_config(CommandCacheConfig::new());
        }
    }

    /// What was answered, one for each trap that was asked for.
    fn catches(&self, answer: &OwnedAnswer) -> Result<Vec<Option<u32>>, String> {
        let catches = match self.by {
            By::Get | By::Transaction => answer.query(),
            By::Mget => answer.query().map(|(catches,)| catches),
        };
        catches.map_err(|e| e.to_string())
    }

    /// Takes in what arrives in this time.
    pub fn listen(&mut self, time: Duration) -> Result<(), String> {
        let began = Instant::now();
        loop {
            while let Some(event) = self.stream.next_event() {
                self.event(event)?;
            }
            let left = time.saturating_sub(began.elapsed());
            if left.is_zero() {
                return Ok(());
            }
            self.receive(left)?;
        }
    }

    /// What was heard since the last time, in its order.
    pub fn take_heard(&mut self) -> Vec<Heard> {
        std::mem::take(&mut self.heard)
    }

    fn event(&mut self, event: Event) -> Result<(), String> {
        match event {
            Event::Push(push) => self
                .heard
                .extend(pushed(&push).into_iter().map(Heard::Push)),
            Event::Lost(_) => self.reconnect()?,
            Event::Refused(_, error) => return Err(error.to_string()),
            Event::Answer(..) | Event::Dropped(_) => {}
        }
        Ok(())
    }

    /// Sends what there is to send, and takes in what arrives, waiting for it so long at most.
    fn receive(&mut self, time: Duration) -> Result<(), String> {
        self.write()?;
        match self.wire.arrived(time) {
            Some(Arrived::Replies(bytes)) => self.stream.received(self.clock.now(), &bytes),
            Some(Arrived::Invalidations(bytes)) => self.stream.invalidations(&bytes),
            Some(Arrived::End) => self.reconnect()?,
            None => {}
        }
        Ok(())
    }

    fn write(&mut self) -> Result<(), String> {
        let bytes = self.stream.take_to_send();
        match self.wire.write(&bytes) {
            Ok(()) => Ok(()),
            Err(_) => self.reconnect(),
        }
    }

    /// Connects anew; in RESP2 both connections, whichever was lost.
    fn reconnect(&mut self) -> Result<(), String> {
        self.stream.disconnected();
        self.wire = Wire::open(&self.address, &self.stream.subscribing())?;
        self.stream.reconnected();
        self.heard.push(Heard::Reconnected);
        Ok(())
    }
}

/// The traps that a push is about: those whose keys it names, or all of them where the server was flushed.
fn pushed(push: &OwnedValue) -> Vec<usize> {
    let Value::Push(parts) = push else {
        return Vec::new();
    };
    match &parts[..] {
        [kind, _] if kind.as_bytes() != Some(b"invalidate") => Vec::new(),
        [_, Value::Array(keys)] => keys
            .iter()
            .filter_map(|key| trap_of(key.as_bytes()?))
            .collect(),
        [_, Value::Nil] => (0..TRAPS.len()).collect(),
        _ => Vec::new(),
    }
}

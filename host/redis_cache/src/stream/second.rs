//! RESP2: the server has no pushes there, and sends invalidations to a second connection, as messages of a channel.

use super::incoming::Incoming;
use super::tracking::{redirected, subscribing};
use super::{Lost, Stream};
use crate::{Cache, ServerError, Value};

/// The channel of the invalidations.
pub(super) const CHANNEL: &str = "__redis__:invalidate";

/// How a message of that channel begins; what it is about stands behind.
const MESSAGE: &[u8] = b"*3\r\n$7\r\nmessage\r\n$20\r\n__redis__:invalidate\r\n";

/// How the push begins that says the same in RESP3.
const PUSH: &[u8] = b">2\r\n$10\r\ninvalidate\r\n";

/// The second connection.
#[derive(Debug)]
pub(super) struct Second {
    incoming: Incoming,
    /// The number by which the server knows it.
    id: Option<i64>,
    /// What calls are to send, as long as it does not listen.
    pub held: Option<Vec<u8>>,
}

impl Second {
    pub fn new() -> Self {
        Second {
            incoming: Incoming::default(),
            id: None,
            held: Some(Vec::new()),
        }
    }
}

/// What a value on it says.
enum Said {
    /// What a push of these bytes would.
    Invalidated(Vec<u8>),
    Id(i64),
    Subscribed,
    Refused(ServerError),
    /// Nothing that matters here: the answer to a login or to a `PING`, a message of another channel.
    Other,
}

impl Said {
    fn of(value: &[u8]) -> Self {
        if let Some(what) = value.strip_prefix(MESSAGE) {
            return Said::Invalidated([PUSH, what].concat());
        }
        match Value::parse(value) {
            Some(Value::Int(id)) => Said::Id(id),
            Some(Value::ServerError(error)) => Said::Refused(error),
            Some(Value::Array(parts)) if subscribed(&parts) => Said::Subscribed,
            _ => Said::Other,
        }
    }
}

/// Whether a value of these parts says that the connection listens from now on.
fn subscribed(parts: &[Value<'_>]) -> bool {
    let part = |place: usize| parts.get(place).and_then(Value::as_bytes);
    part(0) == Some(b"subscribe") && part(1) == Some(CHANNEL.as_bytes())
}

impl Stream {
    /// A stream for a server that speaks RESP2, over two connections just made. Invalidations come on the second one, on which
    /// [`Stream::subscribing`] is to be sent, and nothing else but a `PING` now and then; what arrives there goes to [`Stream::invalidations`]. Until the server
    /// says that it listens, nothing is to be sent on the first, since what is invalidated before then is told to nobody: calls may be made, and their bytes are
    /// held back.
    ///
    /// The two belong together: where either is lost, so are both ([`Stream::disconnected`], [`Stream::reconnected`]). The server says nothing on the first
    /// where the second is gone, so that the host has to read both at all times.
    ///
    /// ```
    /// use redis_cache::{Cache, CacheConfig, Event, Stream, cmd};
    ///
    /// let mut stream = Stream::resp2(Cache::new(CacheConfig::new())?);
    /// stream.send(0, cmd("GET").arg("trap7"))?;
    /// assert!(stream.to_send().is_empty());
    ///
    /// // The second connection: its number, and that it listens.
    /// let _to_the_server = stream.subscribing();
    /// stream.invalidations(b":9\r\n*3\r\n$9\r\nsubscribe\r\n$20\r\n__redis__:invalidate\r\n:1\r\n");
    ///
    /// // The first: tracking is on, and the call is answered.
    /// let to_the_server = String::from_utf8(stream.take_to_send())?;
    /// assert!(to_the_server.contains("REDIRECT\r\n$1\r\n9\r\n"));
    /// stream.received(1, b"+OK\r\n:-1\r\n$2\r\n12\r\n");
    /// let Some(Event::Answer(_, answer)) = stream.next_event() else { panic!("an answer") };
    /// assert_eq!(answer.query::<Option<i64>>()?, Some(12));
    /// # Ok::<(), Box<dyn std::error::Error>>(())
    /// ```
    pub fn resp2(cache: Cache) -> Self {
        Self::greeting(cache, None, Some(Second::new()))
    }

    /// The same for a server that asks for a login, on both connections.
    ///
    /// ```
    /// use redis_cache::{Cache, CacheConfig, Stream};
    ///
    /// let stream = Stream::resp2_with_auth(Cache::new(CacheConfig::new())?, "desk", "secret");
    /// assert!(stream.subscribing().starts_with(b"*3\r\n$4\r\nAUTH\r\n$4\r\ndesk\r\n"));
    /// # Ok::<(), redis_cache::Error>(())
    /// ```
    pub fn resp2_with_auth(cache: Cache, username: &str, password: &str) -> Self {
        let auth = Some((username.into(), password.into()));
        Self::greeting(cache, auth, Some(Second::new()))
    }

    /// What to send on the second connection as soon as it is made: its number is asked for, and it listens. A stream that speaks RESP3 has
    /// no second connection and nothing to send there.
    ///
    /// ```
    /// use redis_cache::{Cache, CacheConfig, Stream};
    ///
    /// let stream = Stream::resp2(Cache::new(CacheConfig::new())?);
    /// assert_eq!(
    ///     stream.subscribing(),
    ///     b"*2\r\n$6\r\nCLIENT\r\n$2\r\nID\r\n*2\r\n$9\r\nSUBSCRIBE\r\n$20\r\n__redis__:invalidate\r\n"
    /// );
    /// assert!(Stream::new(Cache::new(CacheConfig::new())?).subscribing().is_empty());
    /// # Ok::<(), redis_cache::Error>(())
    /// ```
    pub fn subscribing(&self) -> Vec<u8> {
        match self.second {
            Some(_) => subscribing(self.auth()),
            None => Vec::new(),
        }
    }

    /// Whether what calls send is held back, since the second connection does not listen yet. Never in RESP3.
    ///
    /// ```
    /// use redis_cache::{Cache, CacheConfig, Stream};
    ///
    /// let mut stream = Stream::resp2(Cache::new(CacheConfig::new())?);
    /// assert!(stream.holds_back());
    /// stream.invalidations(b":9\r\n*3\r\n$9\r\nsubscribe\r\n$20\r\n__redis__:invalidate\r\n:1\r\n");
    /// assert!(!stream.holds_back());
    /// # Ok::<(), redis_cache::Error>(())
    /// ```
    pub fn holds_back(&self) -> bool {
        self.second
            .as_ref()
            .is_some_and(|second| second.held.is_some())
    }

    /// Takes bytes that arrived on the second connection, cut anywhere, in their order. They may have overtaken replies that are under way on the first: what
    /// they invalidate is dropped at once, and once more behind each call that is open now. Each invalidation is an [`Event::Push`](super::Event::Push) too, as
    /// RESP3 would have it. A refusal by the server, or bytes that are no value, mean that nothing is told any more: the connections are to be taken as lost. So does
    /// the call on a stream that speaks RESP3.
    ///
    /// ```
    /// use redis_cache::{Cache, CacheConfig, Event, Lost, Stream};
    ///
    /// let mut stream = Stream::resp2(Cache::new(CacheConfig::new())?);
    /// stream.invalidations(b"-NOPERM this user has no permissions\r\n");
    /// assert!(matches!(stream.next_event(), Some(Event::Lost(Lost::NotTracking(_)))));
    /// # Ok::<(), redis_cache::Error>(())
    /// ```
    pub fn invalidations(&mut self, bytes: &[u8]) {
        if self.lost {
            return;
        }
        let Some(second) = &mut self.second else {
            return self.lose(Lost::Unasked);
        };
        let mut incoming = std::mem::take(&mut second.incoming);
        incoming.add(bytes);
        let rest = self.each(incoming, Stream::said);
        if let Some(second) = &mut self.second {
            second.incoming = rest;
        }
    }

    /// One value on the second connection.
    fn said(&mut self, value: &[u8]) {
        match Said::of(value) {
            // The newest open call may be answered by what was read before the write that this tells of.
            Said::Invalidated(push) => self.push(&push, self.open.back().map(|open| open.ticket)),
            Said::Id(id) => {
                if let Some(second) = &mut self.second {
                    second.id.get_or_insert(id);
                }
            }
            Said::Subscribed => self.listens(),
            Said::Refused(error) => self.lose(Lost::NotTracking(error)),
            Said::Other => {}
        }
    }

    /// The second connection listens: tracking is asked for on the first, and behind that goes what was held back.
    fn listens(&mut self) {
        let Some(second) = &mut self.second else {
            return;
        };
        let Some(id) = second.id else {
            return self.lose(Lost::Unasked);
        };
        if let Some(held) = second.held.take() {
            let (bytes, _) = redirected(self.cache.config().mode(), self.auth(), id);
            self.outgoing.extend(bytes);
            self.outgoing.extend(held);
        }
    }
}

//! A connection without input or output of its own.

mod incoming;
mod second;
mod tracking;

pub use tracking::tracking_on;

use crate::{
    Cache, Call, Cause, Error, OwnedAnswer, OwnedValue, Plan, Replies, ServerError, Value,
};
use incoming::{Incoming, Next};
use second::Second;
use std::collections::VecDeque;
use std::fmt;

/// A call that was sent, by which its answer is known.
///
/// ```
/// use redis_cache::{Cache, CacheConfig, Stream, cmd};
///
/// let mut stream = Stream::new(Cache::new(CacheConfig::new())?);
/// let first = stream.send(0, &cmd("PING"))?;
/// let second = stream.send(0, &cmd("PING"))?;
/// assert_ne!(first, second);
/// # Ok::<(), redis_cache::Error>(())
/// ```
#[derive(Clone, Copy, Debug, PartialEq, Eq, Hash, PartialOrd, Ord)]
pub struct Ticket(u64);

/// What came of the bytes received.
///
/// ```
/// use redis_cache::{Cache, CacheConfig, Event, Stream, cmd};
///
/// let mut stream = Stream::new(Cache::new(CacheConfig::new())?);
/// let ping = stream.send(0, &cmd("PING"))?;
/// stream.received(0, b"%0\r\n+OK\r\n+PONG\r\n");
/// let Some(Event::Answer(ticket, answer)) = stream.next_event() else { panic!("an answer") };
/// assert_eq!(ticket, ping);
/// assert_eq!(answer.query::<String>()?, "PONG");
/// # Ok::<(), Box<dyn std::error::Error>>(())
/// ```
#[derive(Clone, Debug, PartialEq, Eq)]
pub enum Event {
    /// A call's answer.
    Answer(Ticket, OwnedAnswer),
    /// A call's replies were refused.
    Refused(Ticket, Error),
    /// A call that was open when the connection was lost, or was made before the next one: it has no answer.
    Dropped(Ticket),
    /// A push; where it is an `invalidate`, its keys are dropped already. In RESP2 what the second connection says, as a push.
    Push(OwnedValue),
    /// The connection is to be taken as lost: close it, in RESP2 both of them, connect anew and call [`Stream::reconnected`].
    Lost(Lost),
}

/// Why a connection is to be taken as lost.
///
/// ```
/// use redis_cache::{Cache, CacheConfig, Event, Lost, Stream};
///
/// let mut stream = Stream::new(Cache::new(CacheConfig::new())?);
/// stream.received(0, b"-NOAUTH Authentication required.\r\n");
/// let Some(Event::Lost(Lost::NotTracking(error))) = stream.next_event() else { panic!("lost") };
/// assert_eq!(error.code(), "NOAUTH");
/// # Ok::<(), redis_cache::Error>(())
/// ```
#[derive(Clone, Debug, PartialEq, Eq)]
pub enum Lost {
    /// Bytes that are no value of at most 16 MiB and 16 deep, or a push that was refused. Invalidations may be among them.
    Refused(Error),
    /// The server refused `HELLO 3` or `CLIENT TRACKING`, or in RESP2 something on the second connection, so that no invalidations come.
    NotTracking(ServerError),
    /// A reply that nothing asked for.
    Unasked,
}

impl fmt::Display for Lost {
    fn fmt(&self, f: &mut fmt::Formatter<'_>) -> fmt::Result {
        match self {
            Lost::Refused(error) => write!(f, "bytes from the server were refused, {error}")?,
            Lost::NotTracking(error) => write!(f, "the server does not track: it said '{error}'.")?,
            Lost::Unasked => write!(f, "a reply came that nothing had asked for.")?,
        }
        write!(f, " Connect anew: what was kept is not served any more.")
    }
}

impl std::error::Error for Lost {}

/// Why the next call in turn has no answer.
///
/// ```
/// use redis_cache::{Cache, CacheConfig, NoAnswer, Stream, cmd};
///
/// let mut stream = Stream::new(Cache::new(CacheConfig::new())?);
/// stream.send(0, &cmd("PING"))?;
/// stream.disconnected();
/// let Some(Err(none)) = stream.next_answer() else { panic!("no answer") };
/// assert_eq!(none, NoAnswer::Dropped);
/// assert!(none.to_string().ends_with("Ask again on a new connection."));
/// # Ok::<(), redis_cache::Error>(())
/// ```
#[derive(Clone, Debug, PartialEq, Eq)]
pub enum NoAnswer {
    /// Its replies were refused.
    Refused(Error),
    /// It was open when the connection was lost, or was made before the next one.
    Dropped,
    /// The connection is to be taken as lost.
    Lost(Lost),
}

impl fmt::Display for NoAnswer {
    fn fmt(&self, f: &mut fmt::Formatter<'_>) -> fmt::Result {
        match self {
            NoAnswer::Refused(error) => error.fmt(f),
            NoAnswer::Dropped => write!(
                f,
                "the connection was lost before the call was answered. Ask again on a new connection."
            ),
            NoAnswer::Lost(lost) => lost.fmt(f),
        }
    }
}

impl std::error::Error for NoAnswer {}

/// A cache on one connection after another. The host has the socket: it hands in the bytes that arrived, in their order, sends
/// the bytes that are to be sent, and takes the events. Framing, the order of replies and pushes, and the collecting of replies
/// are seen to here:
///
/// - each reply is stored before a push behind it is handled, and after one before it;
/// - a push between the replies of one call drops its keys at once, and once more when that call is stored;
/// - in RESP2 ([`Stream::resp2`]) an invalidation, which may overtake replies, does so for each call that was open when it came;
/// - the bytes of one call stay in one piece;
/// - on a new connection nothing of the old one is served or stored.
///
/// ```
/// use redis_cache::{Cache, CacheConfig, Clock, Event, Stream, cmd};
/// use std::io::{Read, Write};
/// use std::net::TcpStream;
///
/// # fn main() -> Result<(), Box<dyn std::error::Error>> {
/// # let server = std::net::TcpListener::bind("127.0.0.1:0")?;
/// # let address = server.local_addr()?;
/// # let serving = std::thread::spawn(move || {
/// #     let (mut socket, _) = server.accept().expect("a client");
/// #     socket.write_all(b"%0\r\n+OK\r\n:-1\r\n$2\r\n12\r\n").expect("sent");
/// #     let mut rest = Vec::new();
/// #     let _ = socket.read_to_end(&mut rest);
/// # });
/// let mut socket = TcpStream::connect(address)?;
/// let mut stream = Stream::new(Cache::new(CacheConfig::new())?);
/// let clock = Clock::new();
/// let mut bytes = [0; 4096];
/// let asked = stream.send(clock.now(), cmd("GET").arg("trap7"))?;
/// let catch: i64 = loop {
///     match stream.next_event() {
///         Some(Event::Answer(ticket, answer)) if ticket == asked => break answer.query()?,
///         Some(Event::Push(_)) => continue,
///         Some(other) => return Err(format!("{other:?}").into()),
///         None => {}
///     }
///     socket.write_all(&stream.take_to_send())?;
///     match socket.read(&mut bytes)? {
///         0 => stream.disconnected(),
///         n => stream.received(clock.now(), &bytes[..n]),
///     }
/// };
/// assert_eq!(catch, 12);
/// # drop(socket);
/// # serving.join().expect("the server ends");
/// # Ok(())
/// # }
/// ```
#[derive(Debug)]
pub struct Stream {
    cache: Cache,
    auth: Option<(String, String)>,
    incoming: Incoming,
    outgoing: Vec<u8>,
    /// In RESP2, the connection on which invalidations come.
    second: Option<Second>,
    /// How many responses to what a connection begins with are still to come.
    greetings: usize,
    open: VecDeque<Open>,
    again: Vec<Again>,
    events: VecDeque<Event>,
    tickets: u64,
    lost: bool,
}

/// A call whose replies are still to come.
#[derive(Debug)]
struct Open {
    ticket: Ticket,
    plan: Plan,
    replies: Replies,
    /// A response to it has come.
    begun: bool,
}

/// A push that is to be done again behind each open call up to this one: what was read before it may be among their replies.
#[derive(Debug)]
struct Again {
    push: Vec<u8>,
    until: Ticket,
}

impl Stream {
    /// A stream for a connection just made. The first bytes to send are those of [`tracking_on`].
    ///
    /// ```
    /// use redis_cache::{Cache, CacheConfig, CacheMode, Stream, tracking_on};
    ///
    /// let mut stream = Stream::new(Cache::new(CacheConfig::new())?);
    /// assert_eq!(stream.take_to_send(), tracking_on(CacheMode::All));
    /// # Ok::<(), redis_cache::Error>(())
    /// ```
    pub fn new(cache: Cache) -> Self {
        Self::greeting(cache, None, None)
    }

    /// A stream that logs in on every connection.
    ///
    /// ```
    /// use redis_cache::{Cache, CacheConfig, Stream};
    ///
    /// let cache = Cache::new(CacheConfig::new())?;
    /// let mut stream = Stream::with_auth(cache, "desk", "secret");
    /// assert!(stream.take_to_send().starts_with(b"*5\r\n$5\r\nHELLO\r\n$1\r\n3\r\n$4\r\nAUTH\r\n"));
    /// # Ok::<(), redis_cache::Error>(())
    /// ```
    pub fn with_auth(cache: Cache, username: &str, password: &str) -> Self {
        Self::greeting(cache, Some((username.into(), password.into())), None)
    }

    fn greeting(cache: Cache, auth: Option<(String, String)>, second: Option<Second>) -> Self {
        let mut stream = Stream {
            cache,
            auth,
            incoming: Incoming::default(),
            outgoing: Vec::new(),
            second,
            greetings: 0,
            open: VecDeque::new(),
            again: Vec::new(),
            events: VecDeque::new(),
            tickets: 0,
            lost: false,
        };
        stream.greet();
        stream
    }

    /// Makes a call: plans it, and appends what it sends to the bytes to send. A call that is served whole is answered at once, as
    /// an event.
    ///
    /// # Errors
    /// Those of [`Cache::plan`]; nothing is sent then.
    ///
    /// ```
    /// use redis_cache::{Cache, CacheConfig, Event, Stream, pipe};
    ///
    /// let mut stream = Stream::new(Cache::new(CacheConfig::new())?);
    /// let nothing = stream.send(0, &pipe())?;
    /// assert!(matches!(stream.next_event(), Some(Event::Answer(ticket, _)) if ticket == nothing));
    /// # Ok::<(), redis_cache::Error>(())
    /// ```
    pub fn send(&mut self, clock: u64, call: &impl Call) -> Result<Ticket, Error> {
        let ticket = Ticket(self.tickets);
        if self.lost {
            self.tickets += 1;
            self.events.push_back(Event::Dropped(ticket));
            return Ok(ticket);
        }
        let plan = self.cache.plan(clock, call)?;
        self.tickets += 1;
        self.calls_out().extend_from_slice(plan.send());
        let replies = plan.replies();
        let open = Open {
            ticket,
            plan,
            replies,
            begun: false,
        };
        if open.replies.is_complete() {
            self.resolve(clock, &open);
        } else {
            self.open.push_back(open);
        }
        Ok(ticket)
    }

    /// The bytes to send: all of what was not yet said to be [`sent`](Stream::sent).
    ///
    /// ```
    /// use redis_cache::{Cache, CacheConfig, Stream};
    ///
    /// let stream = Stream::new(Cache::new(CacheConfig::new())?);
    /// assert!(stream.to_send().starts_with(b"*2\r\n$5\r\nHELLO\r\n"));
    /// # Ok::<(), redis_cache::Error>(())
    /// ```
    pub fn to_send(&self) -> &[u8] {
        &self.outgoing
    }

    /// So many of the bytes to send were sent.
    ///
    /// # Panics
    /// Where there are not so many.
    ///
    /// ```
    /// use redis_cache::{Cache, CacheConfig, Stream};
    ///
    /// let mut stream = Stream::new(Cache::new(CacheConfig::new())?);
    /// stream.sent(4);
    /// assert!(stream.to_send().starts_with(b"$5\r\nHELLO\r\n"));
    /// # Ok::<(), redis_cache::Error>(())
    /// ```
    pub fn sent(&mut self, bytes: usize) {
        self.outgoing.drain(..bytes);
    }

    /// Takes the bytes to send, for a host that sends them whole.
    ///
    /// ```
    /// use redis_cache::{Cache, CacheConfig, Stream};
    ///
    /// let mut stream = Stream::new(Cache::new(CacheConfig::new())?);
    /// assert!(!stream.take_to_send().is_empty());
    /// assert!(stream.take_to_send().is_empty());
    /// # Ok::<(), redis_cache::Error>(())
    /// ```
    pub fn take_to_send(&mut self) -> Vec<u8> {
        std::mem::take(&mut self.outgoing)
    }

    /// Takes bytes that arrived, cut anywhere, in their order. What came of them are the next events.
    ///
    /// ```
    /// use redis_cache::{Cache, CacheConfig, Event, Stream, Value};
    ///
    /// let mut stream = Stream::new(Cache::new(CacheConfig::new())?);
    /// stream.received(0, b"%0\r\n+OK\r\n>2\r\n+mes");
    /// assert_eq!(stream.next_event(), None);
    /// stream.received(0, b"sage\r\n:1\r\n");
    /// assert!(matches!(stream.next_event(), Some(Event::Push(Value::Push(_)))));
    /// # Ok::<(), redis_cache::Error>(())
    /// ```
    pub fn received(&mut self, clock: u64, bytes: &[u8]) {
        if self.lost {
            return;
        }
        let mut incoming = std::mem::take(&mut self.incoming);
        incoming.add(bytes);
        self.incoming = self.each(incoming, |stream, value| stream.value(clock, value));
    }

    /// The next event, in the order in which they came about.
    ///
    /// ```
    /// use redis_cache::{Cache, CacheConfig, Stream};
    ///
    /// let mut stream = Stream::new(Cache::new(CacheConfig::new())?);
    /// assert_eq!(stream.next_event(), None);
    /// # Ok::<(), redis_cache::Error>(())
    /// ```
    pub fn next_event(&mut self) -> Option<Event> {
        self.events.pop_front()
    }

    /// The next answer, for a host that makes one call after the other: pushes are passed over, and what else happens to a call is an error. `None` where
    /// more bytes have to arrive first.
    ///
    /// ```
    /// use redis_cache::{Cache, CacheConfig, Stream, cmd};
    ///
    /// let mut stream = Stream::new(Cache::new(CacheConfig::new())?);
    /// stream.send(0, &cmd("PING"))?;
    /// assert!(stream.next_answer().is_none());
    /// stream.received(0, b"%0\r\n+OK\r\n+PONG\r\n");
    /// let answer = stream.next_answer().expect("it is there")?;
    /// assert_eq!(answer.query::<String>()?, "PONG");
    /// # Ok::<(), Box<dyn std::error::Error>>(())
    /// ```
    pub fn next_answer(&mut self) -> Option<Result<OwnedAnswer, NoAnswer>> {
        loop {
            return Some(match self.next_event()? {
                Event::Push(_) => continue,
                Event::Answer(_, answer) => Ok(answer),
                Event::Refused(_, error) => Err(NoAnswer::Refused(error)),
                Event::Dropped(_) => Err(NoAnswer::Dropped),
                Event::Lost(lost) => Err(NoAnswer::Lost(lost)),
            });
        }
    }

    /// The connection is gone, or in RESP2 one of the two. Open calls are dropped, and until [`Stream::reconnected`] so is every call: what is kept may have
    /// been invalidated unheard.
    ///
    /// ```
    /// use redis_cache::{Cache, CacheConfig, Event, Stream, cmd};
    ///
    /// let mut stream = Stream::new(Cache::new(CacheConfig::new())?);
    /// let open = stream.send(0, &cmd("PING"))?;
    /// stream.disconnected();
    /// assert_eq!(stream.next_event(), Some(Event::Dropped(open)));
    /// # Ok::<(), redis_cache::Error>(())
    /// ```
    pub fn disconnected(&mut self) {
        self.lost = true;
        self.incoming = Incoming::default();
        self.outgoing.clear();
        self.second = self.second.is_some().then(Second::new);
        self.again.clear();
        self.greetings = 0;
        for open in self.open.drain(..) {
            self.events.push_back(Event::Dropped(open.ticket));
        }
    }

    /// There is a new connection, or in RESP2 two: open calls are dropped, a new epoch is taken, and tracking is asked for again.
    ///
    /// ```
    /// use redis_cache::{Cache, CacheConfig, Stream};
    ///
    /// let mut stream = Stream::new(Cache::new(CacheConfig::new())?);
    /// stream.reconnected();
    /// assert_eq!(stream.cache().epoch(), 1);
    /// # Ok::<(), redis_cache::Error>(())
    /// ```
    pub fn reconnected(&mut self) {
        self.disconnected();
        self.lost = false;
        self.cache.new_epoch();
        self.greet();
    }

    /// The cache, to be looked at: its counts and settings.
    ///
    /// ```
    /// use redis_cache::{Cache, CacheConfig, Stream};
    ///
    /// let stream = Stream::new(Cache::new(CacheConfig::new())?);
    /// assert_eq!(stream.cache().statistics().hit, 0);
    /// # Ok::<(), redis_cache::Error>(())
    /// ```
    pub fn cache(&self) -> &Cache {
        &self.cache
    }

    fn auth(&self) -> tracking::Auth<'_> {
        let auth = self.auth.as_ref();
        auth.map(|(username, password)| (username.as_str(), password.as_str()))
    }

    /// Asks for RESP3 and tracking; in RESP2 that has to wait until the second connection listens.
    fn greet(&mut self) {
        let mode = self.cache.config().mode();
        // How many responses there will be does not hang on the second connection's number, which is not known yet.
        (self.outgoing, self.greetings) = match self.second {
            None => tracking::greeting(mode, self.auth()),
            Some(_) => (Vec::new(), tracking::redirected(mode, self.auth(), 0).1),
        };
    }

    /// Where the bytes of calls go.
    fn calls_out(&mut self) -> &mut Vec<u8> {
        let held = self.second.as_mut().and_then(|second| second.held.as_mut());
        held.unwrap_or(&mut self.outgoing)
    }

    /// Hands on each value that is whole, as long as the connection is not lost; tells what is left of the bytes.
    fn each(&mut self, mut incoming: Incoming, take: impl Fn(&mut Self, &[u8])) -> Incoming {
        while !self.lost {
            match incoming.next() {
                Next::Value(value) => take(self, value),
                Next::More => return incoming,
                Next::Wrong => self.lose(Lost::Refused(Error::of(Cause::BadReply))),
            }
        }
        Incoming::default()
    }

    /// One value of the stream.
    fn value(&mut self, clock: u64, value: &[u8]) {
        if value.first() == Some(&b'>') {
            // Where the oldest call has some of its replies, they may be older than the push, and are stored only later.
            let begun = self.open.front().filter(|open| open.begun);
            self.push(value, begun.map(|open| open.ticket));
        } else if self.greetings > 0 {
            self.greetings -= 1;
            if let Some(Value::ServerError(error)) = Value::parse(value) {
                self.lose(Lost::NotTracking(error));
            }
        } else if let Some(open) = self.open.front_mut() {
            open.begun = true;
            open.replies.add(value);
            if open.replies.is_complete() {
                self.answered(clock);
            }
        } else {
            self.lose(Lost::Unasked);
        }
    }

    /// A push drops its keys. Where open calls, up to this one, may store what is older, it is kept, to be done again behind each of them.
    fn push(&mut self, push: &[u8], until: Option<Ticket>) {
        if let Err(error) = self.cache.on_push(push) {
            return self.lose(Lost::Refused(error));
        }
        let again = |until| Again {
            push: push.to_vec(),
            until,
        };
        self.again.extend(until.map(again));
        if let Some(value) = Value::parse(push) {
            self.events.push_back(Event::Push(value.into_owned()));
        }
    }

    /// The oldest call has all its replies.
    fn answered(&mut self, clock: u64) {
        let Some(open) = self.open.pop_front() else {
            return;
        };
        self.resolve(clock, &open);
        for again in &self.again {
            if let Err(error) = self.cache.on_push(&again.push) {
                return self.lose(Lost::Refused(error));
            }
        }
        self.again.retain(|again| again.until > open.ticket);
    }

    fn resolve(&mut self, clock: u64, open: &Open) {
        let event = match self.cache.resolve(clock, &open.plan, &open.replies) {
            Ok(answer) => Event::Answer(open.ticket, answer.into_owned()),
            Err(error) => Event::Refused(open.ticket, error),
        };
        self.events.push_back(event);
    }

    fn lose(&mut self, why: Lost) {
        self.events.push_back(Event::Lost(why));
        self.disconnected();
    }
}

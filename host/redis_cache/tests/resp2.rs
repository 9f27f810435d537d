//! The stream in RESP2: the second connection, and what it tells before, between and behind the replies on the first.

#[path = "common/asked.rs"]
mod asked;

use asked::{answers, get, served};
use redis_cache::{Cache, CacheConfig, CacheMode, Event, Lost, Stream, Value, pipe};

/// The responses to `CLIENT ID` and `SUBSCRIBE` on the second connection.
const LISTENS: &str = ":42\r\n*3\r\n$9\r\nsubscribe\r\n$20\r\n__redis__:invalidate\r\n:1\r\n";

const TRACKING: &str =
    "*5\r\n$6\r\nCLIENT\r\n$8\r\nTRACKING\r\n$2\r\nON\r\n$8\r\nREDIRECT\r\n$2\r\n42\r\n";

/// The first connection's response to `CLIENT TRACKING`.
const TRACKED: &str = "+OK\r\n";

const GET_7: &str = "*2\r\n$4\r\nPTTL\r\n$5\r\ntrap7\r\n*2\r\n$3\r\nGET\r\n$5\r\ntrap7\r\n";

fn config() -> CacheConfig {
    CacheConfig::new()
}

/// A stream over two connections just made.
fn fresh() -> Stream {
    Stream::resp2(Cache::new(config()).expect("these settings"))
}

/// A stream that tracks.
fn stream() -> Stream {
    let mut stream = fresh();
    stream.invalidations(LISTENS.as_bytes());
    stream.received(0, TRACKED.as_bytes());
    assert_eq!(stream.take_to_send(), TRACKING.as_bytes());
    stream
}

/// A message about this, as it stands on the second connection.
fn message(what: &str) -> Vec<u8> {
    format!("*3\r\n$7\r\nmessage\r\n$20\r\n__redis__:invalidate\r\n{what}").into_bytes()
}

fn written(key: &str) -> Vec<u8> {
    message(&format!("*1\r\n${}\r\n{key}\r\n", key.len()))
}

/// Nothing is sent on the first connection before the second one listens. What was asked until then goes behind the greeting.
#[test]
fn calls_wait_until_the_second_connection_listens() {
    for cut in 0..LISTENS.len() {
        let mut stream = fresh();
        let asked = stream.send(0, &get("trap7")).expect("a call");
        assert!(stream.to_send().is_empty());
        let (first, second) = LISTENS.as_bytes().split_at(cut);
        stream.invalidations(first);
        assert!(stream.to_send().is_empty(), "{cut}");
        stream.invalidations(second);
        let sent = String::from_utf8(stream.take_to_send()).expect("text");
        assert_eq!(sent, format!("{TRACKING}{GET_7}"), "{cut}");
        stream.received(0, format!("{TRACKED}:-1\r\n$2\r\n12\r\n").as_bytes());
        assert_eq!(answers(&mut stream), [(asked, Some("12".into()))]);
        assert!(served(&mut stream, "trap7"));
    }
}

#[test]
fn opt_in_and_a_login() {
    let cache = Cache::new(config().set_mode(CacheMode::OptIn)).expect("these settings");
    let mut stream = Stream::resp2_with_auth(cache, "desk", "secret");
    let login = "*3\r\n$4\r\nAUTH\r\n$4\r\ndesk\r\n$6\r\nsecret\r\n";
    assert!(stream.subscribing().starts_with(login.as_bytes()));
    stream.invalidations(format!("+OK\r\n{LISTENS}").as_bytes());
    let tracking = TRACKING.replace("*5", "*6") + "$5\r\nOPTIN\r\n";
    let sent = String::from_utf8(stream.take_to_send()).expect("text");
    assert_eq!(sent, format!("{login}{tracking}"));
    stream.received(0, b"+OK\r\n+OK\r\n");
    assert_eq!(stream.next_event(), None);
    stream.received(0, b"+OK\r\n");
    assert_eq!(stream.next_event(), Some(Event::Lost(Lost::Unasked)));
}

/// A call, with a message about its key before, between or behind its replies: in RESP2 nothing says which was first, so that only what is behind
/// them all was stored before, and nothing of the call is kept.
#[test]
fn a_message_while_the_call_is_open_drops_what_it_stores() {
    let replies = [":-1\r\n", "$2\r\n12\r\n"];
    for told in 0..=2 {
        let mut stream = stream();
        let asked = stream.send(0, &get("trap7")).expect("a call");
        for (n, reply) in replies.iter().enumerate() {
            if n == told {
                stream.invalidations(&written("trap7"));
            }
            stream.received(0, reply.as_bytes());
        }
        if told == 2 {
            stream.invalidations(&written("trap7"));
        }
        assert_eq!(answers(&mut stream), [(asked, Some("12".into()))]);
        assert!(!served(&mut stream, "trap7"), "{told}");
        assert!(served(&mut stream, "trap7"), "what is read later is kept");
    }
}

/// Several open calls: the message is done again behind each of them, and not behind one that was made later.
#[test]
fn a_message_counts_for_every_open_call_and_for_no_later_one() {
    let mut stream = stream();
    for key in ["trap7", "trap8", "trap7"] {
        stream.send(0, &get(key)).expect("a call");
    }
    stream.received(0, b":-1\r\n");
    stream.invalidations(&written("trap7"));
    stream.send(0, &get("trap9")).expect("a call");
    stream.send(0, &get("trap7")).expect("a call");
    stream.received(0, b"$1\r\n1\r\n");
    stream.received(0, b":-1\r\n$1\r\n2\r\n:-1\r\n");
    // Two of the three are stored. The first of trap7 must be gone by now.
    let early = stream.send(0, &get("trap7")).expect("a call");
    stream.received(0, b"$1\r\n3\r\n:-1\r\n$1\r\n4\r\n");
    assert!(
        !answers(&mut stream)
            .iter()
            .any(|(ticket, _)| *ticket == early)
    );
    stream.received(0, b":-1\r\n$1\r\n5\r\n");
    let late = stream.send(0, &get("trap7")).expect("a call");
    assert_eq!(answers(&mut stream).last(), Some(&(late, Some("5".into()))));
    stream.received(0, b":-1\r\n$1\r\n5\r\n");
    assert_eq!(answers(&mut stream), [(early, Some("5".into()))]);
    for key in ["trap8", "trap9"] {
        assert!(served(&mut stream, key), "{key} was not named");
    }
}

/// Every null says that all is gone, also what is still to be stored.
#[test]
fn a_flush() {
    for null in ["$-1\r\n", "*-1\r\n", "_\r\n"] {
        let mut stream = stream();
        assert!(!served(&mut stream, "trap7"));
        stream.send(0, &get("trap8")).expect("a call");
        stream.received(0, b":-1\r\n");
        stream.invalidations(&message(null));
        let Some(Event::Push(Value::Push(parts))) = stream.next_event() else {
            panic!("as a push")
        };
        assert_eq!(parts[0].as_bytes(), Some(&b"invalidate"[..]));
        assert!(parts[1].is_nil());
        stream.received(0, b"$2\r\n12\r\n");
        assert_eq!(answers(&mut stream).len(), 1);
        for key in ["trap7", "trap8"] {
            assert!(!served(&mut stream, key), "{key}, {null:?}");
        }
    }
}

/// A message that comes in pieces is heard at its last byte.
#[test]
fn a_message_in_pieces() {
    let bytes = written("trap7");
    for cut in 0..bytes.len() {
        let mut stream = stream();
        assert!(!served(&mut stream, "trap7"));
        stream.invalidations(&bytes[..cut]);
        assert!(served(&mut stream, "trap7"), "{cut}");
        stream.invalidations(&bytes[cut..]);
        assert!(!served(&mut stream, "trap7"), "{cut}");
    }
}

/// What is no invalidation is passed over: the answer to a `PING`, other channels, a number.
#[test]
fn other_values_on_the_second_connection() {
    let mut stream = stream();
    assert!(!served(&mut stream, "trap7"));
    stream.take_to_send();
    let other = "*3\r\n$7\r\nmessage\r\n$4\r\nnews\r\n*1\r\n$5\r\ntrap7\r\n";
    stream
        .invalidations(format!("*2\r\n$4\r\npong\r\n$0\r\n\r\n{other}:7\r\n{LISTENS}").as_bytes());
    assert_eq!(stream.next_event(), None);
    assert!(stream.to_send().is_empty());
    assert!(served(&mut stream, "trap7"));
}

/// The second connection says that it will tell nothing: both are lost, and nothing is served any more.
#[test]
fn the_second_connection_fails() {
    for (said, refused) in [
        ("-NOAUTH Authentication required.\r\n", true),
        ("*3\r\n$7\r\nmess?ge\r\n$2\r\nabc\r\n", false),
        ("$-2\r\n", false),
    ] {
        let mut stream = stream();
        assert!(!served(&mut stream, "trap7"));
        let open = stream.send(0, &get("trap8")).expect("a call");
        stream.invalidations(said.as_bytes());
        match stream.next_event() {
            Some(Event::Lost(Lost::NotTracking(_))) => assert!(refused, "{said}"),
            Some(Event::Lost(Lost::Refused(error))) => assert_eq!(error.number(), 6, "{said}"),
            other => panic!("{said}: {other:?}"),
        }
        assert_eq!(stream.next_event(), Some(Event::Dropped(open)));
        let unserved = stream.send(0, &get("trap7")).expect("a call");
        assert_eq!(stream.next_event(), Some(Event::Dropped(unserved)));
        stream.invalidations(LISTENS.as_bytes());
        assert!(stream.to_send().is_empty(), "it stays lost");
    }
}

/// The host sees that the second connection is gone: with two new ones a new epoch begins, and all is asked for again.
#[test]
fn two_new_connections() {
    let mut stream = stream();
    assert!(!served(&mut stream, "trap7"));
    stream.send(0, &get("trap8")).expect("a call");
    stream.received(0, b":-1\r\n");
    stream.invalidations(&written("trap8")[..10]);
    stream.disconnected();
    assert!(matches!(stream.next_event(), Some(Event::Dropped(_))));
    stream.reconnected();
    assert_eq!(stream.cache().epoch(), 1);
    let asked = stream.send(0, &get("trap7")).expect("a call");
    assert!(stream.to_send().is_empty());
    stream.invalidations(LISTENS.replace("42", "57").as_bytes());
    let sent = String::from_utf8(stream.take_to_send()).expect("text");
    assert_eq!(sent, format!("{}{GET_7}", TRACKING.replace("42", "57")));
    stream.received(0, b"+OK\r\n:-1\r\n$2\r\n13\r\n");
    assert_eq!(answers(&mut stream), [(asked, Some("13".into()))]);
}

/// The number is of a connection that has gone meanwhile.
#[test]
fn tracking_that_the_server_refuses() {
    let mut stream = fresh();
    stream.invalidations(LISTENS.as_bytes());
    stream.received(
        0,
        b"-ERR The client ID you want redirect to does not exist\r\n",
    );
    let lost = stream.next_event();
    assert!(matches!(lost, Some(Event::Lost(Lost::NotTracking(_)))));
}

#[test]
fn a_stream_that_speaks_resp3_has_no_second_connection() {
    let mut stream = Stream::new(Cache::new(config()).expect("these settings"));
    stream.invalidations(&written("trap7"));
    assert_eq!(stream.next_event(), Some(Event::Lost(Lost::Unasked)));
}

/// Nulls as the server writes them: a key that is not there is kept as that, and a transaction that was discarded says so.
#[test]
fn nulls() {
    let mut stream = stream();
    stream.send(0, &get("trap7")).expect("a call");
    stream.received(0, b":-2\r\n$-1\r\n");
    stream.send(0, &get("trap7")).expect("a call");
    let nothing: Vec<_> = answers(&mut stream).into_iter().map(|a| a.1).collect();
    assert_eq!(nothing, [None, None]);
    stream.take_to_send();
    stream
        .send(0, pipe().cmd("MGET").arg(["trap7", "trap8"]))
        .expect("a call");
    assert!(!String::from_utf8_lossy(stream.to_send()).contains("trap7"));
    stream.received(0, b"*1\r\n$1\r\n3\r\n:-1\r\n");
    let answer = stream.next_answer().expect("an answer").expect("it is one");
    assert_eq!(answer.query(), Ok((vec![None, Some(3)],)));

    stream
        .send(0, pipe().atomic().cmd("SET").arg("trap7").arg(1))
        .expect("a call");
    stream.received(0, b"+OK\r\n+QUEUED\r\n*-1\r\n");
    let Some(Event::Refused(_, error)) = stream.next_event() else {
        panic!("refused")
    };
    assert!(error.to_string().contains("EXEC was answered by null"));
}

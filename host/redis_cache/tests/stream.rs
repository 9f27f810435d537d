//! The stream: bytes in any pieces, replies and pushes in their order, connections lost and made anew.

#[path = "common/asked.rs"]
mod asked;

use asked::{answers, get, served};
use redis_cache::{
    Cache, CacheConfig, CacheMode, CommandCacheConfig, Event, Lost, Stream, Value, cmd, pipe,
    tracking_on,
};

/// The responses to `HELLO 3` and `CLIENT TRACKING ON`.
const GREETED: &str = "%1\r\n$5\r\nproto\r\n:3\r\n+OK\r\n";

const PUSH_7: &str = ">2\r\n$10\r\ninvalidate\r\n*1\r\n$5\r\ntrap7\r\n";

fn stream() -> Stream {
    Stream::new(Cache::new(CacheConfig::new()).expect("these settings"))
}

/// A call and the bytes that come for it, cut at every place: the same answer, and the same is kept.
fn after(bytes: &str, kept: bool) {
    let bytes = format!("{GREETED}{bytes}");
    for cut in 0..=bytes.len() {
        let (first, second) = bytes.as_bytes().split_at(cut);
        let mut stream = stream();
        let asked = stream.send(0, &get("trap7")).expect("a call");
        stream.received(0, first);
        stream.received(0, second);
        assert_eq!(answers(&mut stream), [(asked, Some("12".into()))], "{cut}");
        assert_eq!(served(&mut stream, "trap7"), kept, "{cut}");
    }
}

/// Bytes that come one by one, or in small pieces, of a list that is long: what is complete is told at its last byte and not later.
#[test]
fn bytes_in_pieces() {
    let elements: String = (0..2000)
        .map(|n| format!("${}\r\n{n}\r\n", n.to_string().len()))
        .collect();
    let bytes = format!("{GREETED}:-1\r\n*2000\r\n{elements}");
    for size in [1, 2, 7, 64, 4096] {
        let mut stream = stream();
        stream
            .send(0, cmd("LRANGE").arg(&["trap7", "0", "-1"]))
            .expect("a call");
        let pieces: Vec<&[u8]> = bytes.as_bytes().chunks(size).collect();
        for (n, piece) in pieces.iter().enumerate() {
            assert_eq!(stream.next_event(), None, "{size}, {n}");
            stream.received(0, piece);
        }
        let Some(Event::Answer(_, answer)) = stream.next_event() else {
            panic!("an answer, {size}")
        };
        assert_eq!(answer.query(), Ok((0..2000).collect::<Vec<u32>>()));
    }
}

#[test]
fn what_is_fetched_is_served() {
    after(":-1\r\n$2\r\n12\r\n", true);
}

#[test]
fn a_push_behind_a_reply_drops_it() {
    after(&format!(":-1\r\n$2\r\n12\r\n{PUSH_7}"), false);
}

#[test]
fn a_push_before_the_replies_does_not() {
    after(&format!("{PUSH_7}:-1\r\n$2\r\n12\r\n"), true);
}

#[test]
fn a_push_between_the_replies_drops_what_they_store() {
    after(&format!(":-1\r\n{PUSH_7}$2\r\n12\r\n"), false);
}

/// A push between the replies of a pipeline, behind the value that it is about.
#[test]
fn a_push_inside_a_pipeline_drops_the_older_value() {
    let mut stream = stream();
    let mut both = pipe();
    both.cmd("GET").arg("trap7").cmd("GET").arg("trap8");
    stream.send(0, &both).expect("a call");
    let bytes = format!("{GREETED}:-1\r\n$2\r\n12\r\n{PUSH_7}:-1\r\n$2\r\n34\r\n");
    stream.received(0, bytes.as_bytes());
    assert!(matches!(stream.next_event(), Some(Event::Push(_))));
    let Some(Event::Answer(_, answer)) = stream.next_event() else {
        panic!("an answer")
    };
    assert_eq!(answer.query(), Ok((12, 34)));
    assert!(!served(&mut stream, "trap7"));
    assert!(served(&mut stream, "trap8"));
    assert_eq!(stream.cache().statistics().invalidate, 1);
}

/// Several open calls are answered in their order, and what one stores the next calls are served.
#[test]
fn open_calls_are_answered_in_order() {
    let mut stream = stream();
    let mut asked = Vec::new();
    for key in ["trap7", "trap8", "trap7"] {
        asked.push(stream.send(0, &get(key)).expect("a call"));
    }
    stream.received(
        0,
        format!("{GREETED}:-1\r\n$1\r\n7\r\n:-1\r\n$1\r\n8\r\n").as_bytes(),
    );
    let late = stream.send(0, &get("trap8")).expect("a call");
    stream.received(0, b":-1\r\n$1\r\n7\r\n");
    let expected = [
        (asked[0], "7"),
        (asked[1], "8"),
        (late, "8"),
        (asked[2], "7"),
    ];
    let expected = expected.map(|(ticket, text)| (ticket, Some(text.to_string())));
    assert_eq!(answers(&mut stream), expected);
}

/// A new connection: open calls are dropped, nothing old is served, and tracking is asked for again.
#[test]
fn a_new_connection() {
    let mut stream = stream();
    stream.send(0, &get("trap7")).expect("a call");
    stream.received(0, format!("{GREETED}:-1\r\n$2\r\n12\r\n").as_bytes());
    answers(&mut stream);
    assert!(served(&mut stream, "trap7"));
    let open = stream.send(0, &get("trap8")).expect("a call");
    stream.received(0, b":-1\r\n$2\r\n3");

    stream.reconnected();
    assert_eq!(stream.next_event(), Some(Event::Dropped(open)));
    assert_eq!(stream.take_to_send(), tracking_on(CacheMode::All));
    assert_eq!(stream.cache().epoch(), 1);
    stream.received(0, GREETED.as_bytes());
    assert!(!served(&mut stream, "trap7"));
}

/// Bytes that are no value: the connection is lost, and until there is another nothing is served or taken in.
#[test]
fn a_lost_connection() {
    let mut stream = stream();
    stream.received(0, GREETED.as_bytes());
    assert!(!served(&mut stream, "trap7"));
    let open = stream.send(0, &get("trap8")).expect("a call");
    stream.received(0, b":-1\r\n$2\r\n12345");
    let Some(Event::Lost(Lost::Refused(error))) = stream.next_event() else {
        panic!("lost")
    };
    assert_eq!(error.number(), 6);
    assert_eq!(stream.next_event(), Some(Event::Dropped(open)));
    let unserved = stream.send(0, &get("trap7")).expect("a call");
    assert_eq!(stream.next_event(), Some(Event::Dropped(unserved)));
    assert!(stream.to_send().is_empty());
    stream.received(0, b":-1\r\n");
    assert_eq!(stream.next_event(), None);
}

#[test]
fn replies_that_nothing_asked_for() {
    let mut stream = stream();
    stream.received(0, format!("{GREETED}+OK\r\n").as_bytes());
    assert_eq!(stream.next_event(), Some(Event::Lost(Lost::Unasked)));
    assert!(Lost::Unasked.to_string().contains("Connect anew"));
}

#[test]
fn tracking_that_the_server_refuses() {
    let mut stream = stream();
    let open = stream.send(0, &get("trap7")).expect("a call");
    stream.received(0, b"%0\r\n-ERR unknown subcommand\r\n:-1\r\n$2\r\n12\r\n");
    let Some(Event::Lost(Lost::NotTracking(error))) = stream.next_event() else {
        panic!("lost")
    };
    assert_eq!(error.details(), Some("unknown subcommand"));
    assert_eq!(stream.next_event(), Some(Event::Dropped(open)));
}

/// A flush drops everything, also what is still to be stored of the oldest call.
#[test]
fn a_flush_between_the_replies() {
    after(":-1\r\n>2\r\n$10\r\ninvalidate\r\n_\r\n$2\r\n12\r\n", false);
}

/// Opt-in, in a transaction: the flag is set inside it, and all of its bytes are in one piece.
#[test]
fn an_opt_in_transaction() {
    let config = CacheConfig::new().set_mode(CacheMode::OptIn);
    let mut stream = Stream::new(Cache::new(config).expect("these settings"));
    assert_eq!(stream.take_to_send(), tracking_on(CacheMode::OptIn));
    let mut pipeline = pipe();
    pipeline
        .atomic()
        .cmd("GET")
        .arg("trap7")
        .set_cache_config(CommandCacheConfig::new());
    stream.send(0, &pipeline).expect("a call");
    let sent = "*1\r\n$5\r\nMULTI\r\n*3\r\n$6\r\nCLIENT\r\n$7\r\nCACHING\r\n$3\r\nYES\r\n\
        *2\r\n$4\r\nPTTL\r\n$5\r\ntrap7\r\n*2\r\n$3\r\nGET\r\n$5\r\ntrap7\r\n*1\r\n$4\r\nEXEC\r\n";
    assert_eq!(stream.take_to_send(), sent.as_bytes());
    let queued = "+OK\r\n+QUEUED\r\n+QUEUED\r\n+QUEUED\r\n*3\r\n+OK\r\n:-1\r\n$2\r\n12\r\n";
    stream.received(0, format!("{GREETED}{queued}").as_bytes());
    let Some(Event::Answer(_, answer)) = stream.next_event() else {
        panic!("an answer")
    };
    assert_eq!(answer.query(), Ok((12,)));
}

/// Other pushes are handed out and drop nothing.
#[test]
fn other_pushes() {
    let mut stream = stream();
    stream.received(
        0,
        format!("{GREETED}>2\r\n+message\r\n$2\r\nhi\r\n").as_bytes(),
    );
    let Some(Event::Push(Value::Push(parts))) = stream.next_event() else {
        panic!("a push")
    };
    assert_eq!(parts[1].as_bytes(), Some(&b"hi"[..]));
}

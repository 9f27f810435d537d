//! Planning and resolving at the limits: most commands, arguments and bytes, and one over. Every party that there is must agree with
//! the model.

mod common;

use calls::{Answer, Arg, At, Call, Record, Refusal, Setup, record};
use common::{agreed, at, command, plan, refused, resolve, setup, store};

const MOST: usize = 16 << 20;

fn wide() -> Setup {
    Setup {
        arena: 1 << 26,
        ..setup(2)
    }
}

/// Planning of a record with buffers of so many bytes.
fn planned(record: &Record, room: usize) -> Call {
    Call::Plan {
        record: record::encode(record),
        send_room: room,
        plan_room: room,
    }
}

fn resolved(replies: Vec<u8>) -> Call {
    Call::Resolve {
        plan: 0,
        replies,
        room: MOST + 100,
    }
}

/// A command of a name and so many arguments, all the same.
fn repeated(name: &str, count: usize, arg: &[u8]) -> Record {
    let mut command = command(name);
    let more = std::iter::repeat_n(Arg::Simple(arg.to_vec()), count);
    command.args.extend(more);
    Record {
        transaction: false,
        commands: vec![command],
    }
}

/// All were taken.
#[track_caller]
fn all_taken(answers: &[Answer]) {
    let taken = |answer: &&Answer| !matches!(answer, Answer::Refused(_));
    assert_eq!(answers.iter().filter(taken).count(), answers.len());
}

#[test]
fn most_commands_of_a_record() {
    let record = |count| Record {
        transaction: true,
        commands: (0..count)
            .map(|number| command(["GET a", "MGET a b", "PING"][number % 3]))
            .collect(),
    };
    let served = store("a", "GETa", "$1\r\nx\r\n", 50);
    let replies: String = (0..1024)
        .map(|number| ["", "*1\r\n:7\r\n:5\r\n", "+PONG\r\n"][number % 3])
        .collect();
    let replies = format!("*1\r\n*1023\r\n{replies}");
    let calls = [
        served,
        planned(&record(1024), 1 << 18),
        resolved(replies.into_bytes()),
    ];
    all_taken(&agreed(&setup(2), calls.map(|call| (at(0), call))));
    let wrong = agreed(&setup(2), [(at(0), planned(&record(1025), 1 << 18))]);
    let refusal = Refusal {
        cause: 2,
        offset: Some(7),
    };
    assert_eq!(wrong, [Answer::Refused(refusal)]);
}

/// 1,023 times the same key: looked up and sent so many times.
#[test]
fn most_arguments_of_a_command() {
    let record = repeated("MGET", 1023, b"a");
    let replies = [
        "*1024\r\n*1023\r\n",
        &"_\r\n".repeat(1023),
        &":-1\r\n".repeat(1023),
    ]
    .concat();
    let calls = [
        planned(&record, 1 << 18),
        resolved(replies.into_bytes()),
        planned(&record, 1 << 18),
        resolve(1, "*0\r\n"),
        planned(&repeated("MGET", 1024, b"a"), 1 << 18),
    ];
    let answers = agreed(&setup(2), calls.map(|call| (at(0), call)));
    all_taken(&answers[..4]);
    assert!(matches!(&answers[4], Answer::Refused(refusal) if refusal.cause == 2));
}

/// A record of exactly 16 MiB, whose command key is nearly as long, is planned, sent and stored; one byte more is too long.
#[test]
fn most_bytes_of_a_record() {
    let mut record = repeated("HMGET key", 255, &[b'f'; 65_535]);
    let empty = record::encode(&record).len() + 5;
    record.commands[0].args.push(Arg::Simple(Vec::new()));
    let mut with = |length: usize| {
        let bytes = vec![b'g'; length - empty];
        *record.commands[0].args.last_mut().expect("the last") = Arg::Simple(bytes);
        planned(&record, MOST + 10_000)
    };
    let calls = [
        with(MOST),
        resolved(b"*2\r\n:-1\r\n*1\r\n:5\r\n".to_vec()),
        with(MOST),
        with(MOST + 1),
    ];
    let answers = agreed(&wide(), calls.map(|call| (at(0), call)));
    all_taken(&answers[..3]);
    assert_eq!(answers[3], refused(3));
}

/// A reply with which the replies are 16 MiB long.
#[test]
fn most_bytes_of_replies() {
    let replies = |length: usize| {
        let head = format!("*2\r\n:-1\r\n${}\r\n", length - 22);
        let replies = [head.as_bytes(), &vec![b'v'; length - 22], b"\r\n"].concat();
        assert_eq!(replies.len(), length);
        resolved(replies)
    };
    let calls = [plan(&["GET k"]), replies(MOST + 1), replies(MOST)];
    let answers = agreed(&wide(), calls.map(|call| (at(0), call)));
    assert_eq!(answers[1], refused(6));
    assert!(matches!(answers[2], Answer::Resolved { refused: 0, .. }));
}

#[test]
fn the_last_client_expiry() {
    let with = |default_ttl, line: &str| {
        let late = At {
            clock: u64::MAX - 5,
            default_ttl,
            ..at(0)
        };
        agreed(&setup(2), [(late, plan(&[line]))]).remove(0)
    };
    for line in ["GET a", "MGET", "SET a b"] {
        assert!(matches!(with(5, line), Answer::Planned { .. }));
        assert_eq!(with(6, line), refused(4));
    }
    assert!(matches!(with(6, "\"\" a"), Answer::Planned { .. }));
}

/// Where several causes would refuse a planning, the first of 1, 3, 2, 4, 5 does.
#[test]
fn checks_of_planning_run_in_their_order() {
    let late = At {
        clock: u64::MAX,
        ..at(0)
    };
    let wrong_mode = At { mode: 2, ..late };
    let record = |length: usize| Call::Plan {
        record: vec![0; length],
        send_room: 0,
        plan_room: 0,
    };
    let get = Record {
        transaction: false,
        commands: vec![command("GET a")],
    };
    let first = Refusal {
        cause: 2,
        offset: Some(0),
    };
    let calls = [
        (wrong_mode, record(MOST + 1), refused(1)),
        (late, record(MOST + 1), refused(3)),
        (late, record(MOST), Answer::Refused(first)),
        (late, planned(&get, 0), refused(4)),
        (at(0), planned(&get, 0), refused(5)),
        (wrong_mode, resolve(0, ""), refused(1)),
    ];
    let before = [(at(0), plan(&["GET a"]))];
    let made = calls.iter().map(|(at, call, _)| (*at, call.clone()));
    let answers = agreed(&setup(2), before.into_iter().chain(made));
    for (answer, (_, _, expected)) in answers[1..].iter().zip(&calls) {
        assert_eq!(answer, expected);
    }
}

//! What a stream that is given bytes answers.

use redis_cache::{Cmd, Event, Stream, Ticket, cmd};

pub fn get(key: &str) -> Cmd {
    cmd("GET").arg(key).take()
}

/// The answers in the order in which they come, each as a string or none; pushes are passed over.
pub fn answers(stream: &mut Stream) -> Vec<(Ticket, Option<String>)> {
    let mut answers = Vec::new();
    while let Some(event) = stream.next_event() {
        match event {
            Event::Answer(ticket, answer) => {
                answers.push((ticket, answer.query().expect("a string")))
            }
            Event::Push(_) => {}
            other => panic!("{other:?}"),
        }
    }
    answers
}

/// Whether the key is served without asking the server; where it is not, its replies come.
pub fn served(stream: &mut Stream, key: &str) -> bool {
    stream.take_to_send();
    stream.send(0, &get(key)).expect("a call");
    let served = stream.to_send().is_empty();
    if !served {
        stream.received(0, b":-1\r\n$1\r\n0\r\n");
    }
    assert_eq!(answers(stream).len(), 1);
    served
}

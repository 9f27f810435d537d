//! A transcript gives back the calls that it shows.

use calls::{At, Call};
use compare::coverage::Coverage;
use compare::generate::{Limits, Sequence};
use compare::text::{print, read};

#[test]
fn calls_are_read_back() {
    let mut shown = 0;
    for seed in 1..=300 {
        let mut sequence = Sequence::begin(seed, Limits::ALL, |_| Vec::new());
        let mut made: Vec<(At, Call)> = Vec::new();
        let mut text = print::setup(sequence.setup());
        for _ in 0..40 {
            let (at, call) = sequence.next_call();
            text += &print::call(at, &call);
            let answer = sequence.make(at, call.clone(), &mut Coverage::default());
            text += &print::answer(&answer.expect("nobody follows"));
            text += &print::state(sequence.leader().state());
            made.push((at, call));
        }
        let read = read::sequence(&text).expect("a transcript");
        assert_eq!(read.setup, *sequence.setup());
        assert_eq!(read.calls.len(), made.len());
        for ((read_at, read_call), (at, call)) in read.calls.iter().zip(&made) {
            assert_eq!(read_call, call);
            assert!(*call == Call::NewEpoch || read_at == at);
            shown += 1;
        }
    }
    assert_eq!(shown, 300 * 40);
}

#[test]
fn bytes_of_all_kinds_are_read_back() {
    let all: Vec<u8> = (0..=255).collect();
    let call = Call::Invalidate { key: all };
    let at = At {
        clock: 1,
        epoch: 2,
        mode: 0,
        default_ttl: 3,
    };
    let setup = "> setup size=1 arena=64 mode=0 ttl=0 hit=0 miss=0 invalidate=0\n";
    let read =
        read::sequence(&(setup.to_string() + &print::call(at, &call))).expect("a transcript");
    assert_eq!(read.calls, [(at, call)]);
}

#[test]
fn wrong_lines_are_named() {
    let setup = "> setup size=1 arena=64 mode=0 ttl=0 hit=0 miss=0 invalidate=0\n";
    let error = |line: &str| read::sequence(&format!("{setup}> {line}\n")).err();
    for line in [
        "lookup clock=0",
        "push clock=0 epoch=0 mode=0 ttl=0 bytes=x",
        "leap",
    ] {
        assert_eq!(error(line).as_deref(), Some(line));
    }
    assert!(read::sequence("").is_err());
}

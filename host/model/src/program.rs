//! Document 01's program: a record planned on an empty cache, and the bytes to send.

use crate::Model;
use calls::{Answer, At, Call, Counts, Setup};

/// The most bytes of record and output.
const MOST_BYTES: usize = 65_536;

/// What the program writes for a record on its standard input: rule T1 of docs/BEHAVIOUR.md; nothing on
/// a refusal, or where record or output is longer than 65,536 bytes.
pub fn output(record: &[u8]) -> Vec<u8> {
    let default_ttl = 1_800_000;
    let setup = Setup {
        size: 4,
        arena: 256,
        mode: 0,
        default_ttl,
        counts: Counts::default(),
    };
    let mut model = Model::setup(&setup).expect("a setup that is not refused");
    let at = At {
        clock: 0,
        epoch: 0,
        mode: 0,
        default_ttl,
    };
    let call = Call::Plan {
        record: record.to_vec(),
        send_room: MOST_BYTES,
        plan_room: usize::MAX,
    };
    match model.call(at, &call) {
        Answer::Planned { sent, .. } if record.len() <= MOST_BYTES => sent,
        _ => Vec::new(),
    }
}

#[cfg(test)]
mod tests {
    use super::output;
    use calls::{Arg, Command, Record, record};

    fn with(args: Vec<Arg>) -> Vec<u8> {
        let commands = vec![Command {
            args,
            ..Command::default()
        }];
        output(&record::encode(&Record {
            transaction: false,
            commands,
        }))
    }

    fn simple(length: usize) -> Arg {
        Arg::Simple(vec![b'x'; length])
    }

    #[test]
    fn get_a_and_refusals() {
        let sent = with(vec![
            Arg::Simple(b"GET".to_vec()),
            Arg::Simple(b"a".to_vec()),
        ]);
        assert_eq!(
            sent,
            b"*2\r\n$4\r\nPTTL\r\n$1\r\na\r\n*2\r\n$3\r\nGET\r\n$1\r\na\r\n"
        );
        assert_eq!(output(b"TRP"), b"");
        assert_eq!(output(b""), b"");
    }

    #[test]
    fn output_and_record_of_65536_bytes() {
        // One argument of n bytes: a record of 32 + n, an output of 14 + n.
        assert_eq!(with(vec![simple(65_504)]).len(), 65_518);
        assert_eq!(with(vec![simple(65_505)]).len(), 0);
        // A key of n bytes is sent twice: 47 + 2 n, with five digits in each length.
        let get = |n| with(vec![Arg::Simple(b"GET".to_vec()), simple(n)]).len();
        assert_eq!([get(32_744), get(32_745)], [65_535, 0]);
    }
}

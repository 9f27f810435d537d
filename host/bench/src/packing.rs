//! Packing a command (`args_len` and `write_command`) against the crate's `write_packed_command`, which does the same.

use crate::leaves::Request;
use crate::measure::{Table, used};
use calls::{Arg, Command};
use std::hint::black_box;

/// Packing, by the command.
pub fn pack(table: &mut Table) {
    let simple = |bytes: &[u8]| Arg::Simple(bytes.to_vec());
    let keys = |count: usize| {
        let keys = (0..count).map(|i| Arg::Simple(format!("trap:{i:05}").into()));
        [simple(b"MGET")].into_iter().chain(keys).collect()
    };
    let cases: [(&str, Vec<Arg>); 5] = [
        (
            "GET and a key of 10 bytes",
            vec![simple(b"GET"), simple(b"trap:00007")],
        ),
        (
            "HSCAN, a key and a cursor",
            vec![simple(b"HSCAN"), simple(b"trap:00007"), Arg::Cursor],
        ),
        (
            "SET and a value of 4 KiB",
            vec![simple(b"SET"), simple(b"trap:00007"), simple(&[b'v'; 4096])],
        ),
        ("MGET and 10 keys", keys(10)),
        ("MGET and 1,000 keys", keys(1000)),
    ];
    for (case, args) in cases {
        let command = Command {
            args,
            cursor: 1234,
            ..Command::default()
        };
        let (ours, theirs) = (Request::new(&command), reference::Request::new(&command));
        let mut vec = Vec::new();
        theirs.write_packed_command(&mut vec);
        let mut lent = vec![0; vec.len()];
        assert_eq!(ours.pack(&mut lent), vec.len());
        assert_eq!(lent, vec);
        table.measure(
            "packing",
            case.into(),
            "redis 1.8.1",
            || used(ours.pack(black_box(&mut lent))),
            || {
                vec.clear();
                theirs.write_packed_command(black_box(&mut vec));
            },
        );
    }
}

//! The RESP3 check against hiredis's reader, on kinds that both know.

use crate::hiredis::Reader;
use crate::leaves;
use crate::measure::{Table, used};
use calls::{Value, resp};
use std::hint::black_box;

/// The check, by what is read.
pub fn check(table: &mut Table) {
    let blob = |length: usize| Value::Blob(vec![b'v'; length]);
    let nested = (0..6).fold(Value::Integer(7), |value, _| Value::Array(vec![value]));
    let cases = [
        ("an integer", Value::Integer(1234)),
        ("a simple string of 40 bytes", Value::Simple(vec![b's'; 40])),
        ("a blob of 10 bytes", blob(10)),
        ("a blob of 1 KiB", blob(1 << 10)),
        ("a blob of 1 MiB", blob(1 << 20)),
        ("six arrays in one another", nested),
        (
            "an array of 1,000 integers",
            Value::Array((0..1000).map(Value::Integer).collect()),
        ),
        (
            "an array of 1,000 blobs of 10",
            Value::Array((0..1000).map(|_| blob(10)).collect()),
        ),
    ];
    for (case, value) in cases {
        let bytes = resp::encode(&value);
        let mut reader = Reader::new();
        assert!(leaves::is_value(&bytes) && reader.reads(&bytes));
        table.measure(
            "RESP3 check",
            case.into(),
            "hiredis reader",
            || used(leaves::is_value(black_box(&bytes))),
            || used(reader.reads(black_box(&bytes))),
        );
    }
}

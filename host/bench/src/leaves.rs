//! The leaves of crate `bench_exports`, behind safe functions. A slice is lent as pointer and length; what holds for every call
//! here is that both come from a Rust slice that lives through the call, and what is lent to be changed is lent by `&mut`.

use crate::measure::Table;
use calls::{Command, Record, record};

/// The groups that measure leaves.
pub fn measure(table: &mut Table) {
    crate::bytes::hash(table);
    crate::bytes::ranges(table);
    crate::resp::check(table);
    crate::packing::pack(table);
}

unsafe extern "C" {
    fn bench_sip_hash_13(key: *const u8, key_length: usize) -> u64;
    fn bench_same(a: *const u8, a_length: usize, b: *const u8, b_length: usize) -> bool;
    fn bench_all_zero(s: *const u8, length: usize) -> bool;
    fn bench_copy(dst: *mut u8, dst_length: usize, src: *const u8, src_length: usize);
    fn bench_is_value(s: *const u8, length: usize) -> bool;
    fn bench_args_len(s: *const u8, length: usize, at: usize, left: usize, cursor: u64) -> usize;
    fn bench_write_command(
        s: *const u8,
        length: usize,
        at: usize,
        left: usize,
        cursor: u64,
        dst: *mut u8,
        dst_length: usize,
    ) -> usize;
}

/// The hash of a key's bytes.
pub fn sip_hash_13(key: &[u8]) -> u64 {
    // SAFETY: lent as above; nothing is required.
    unsafe { bench_sip_hash_13(key.as_ptr(), key.len()) }
}

/// Whether two slices have the same bytes.
pub fn same(a: &[u8], b: &[u8]) -> bool {
    // SAFETY: lent as above; nothing is required.
    unsafe { bench_same(a.as_ptr(), a.len(), b.as_ptr(), b.len()) }
}

/// Whether all bytes are zero.
pub fn all_zero(s: &[u8]) -> bool {
    // SAFETY: lent as above; nothing is required.
    unsafe { bench_all_zero(s.as_ptr(), s.len()) }
}

/// Copies to the front of `dst`.
pub fn copy(dst: &mut [u8], src: &[u8]) {
    assert!(src.len() <= dst.len());
    // SAFETY: lent as above; what is required was just tested.
    unsafe { bench_copy(dst.as_mut_ptr(), dst.len(), src.as_ptr(), src.len()) }
}

/// Whether the bytes are exactly one RESP3 value.
pub fn is_value(s: &[u8]) -> bool {
    // SAFETY: lent as above; nothing is required.
    unsafe { bench_is_value(s.as_ptr(), s.len()) }
}

/// One command in a call record, ready to be packed.
pub struct Request {
    record: Vec<u8>,
    arguments: usize,
    cursor: u64,
}

/// Where the arguments of a record's first command stand: behind the record's head of 8 bytes and the command's of 19.
const FIRST: usize = 8 + 19;

impl Request {
    /// The record of this one command.
    pub fn new(command: &Command) -> Self {
        let record = record::encode(&Record {
            transaction: false,
            commands: vec![command.clone()],
        });
        assert!(record::parse(&record).is_ok());
        Request {
            record,
            arguments: command.args.len(),
            cursor: command.cursor,
        }
    }

    /// Measures the packed command and writes it to the front of `dst`; answers its length.
    pub fn pack(&self, dst: &mut [u8]) -> usize {
        let Request {
            record,
            arguments,
            cursor,
        } = self;
        // SAFETY: the record is lent as above. `new` saw that it is one within the limits and that its first command has these
        // arguments, which is what is required of it.
        let length =
            unsafe { bench_args_len(record.as_ptr(), record.len(), FIRST, *arguments, *cursor) };
        assert!(length <= dst.len());
        // SAFETY: as above, and `dst` has the room that is required.
        unsafe {
            bench_write_command(
                record.as_ptr(),
                record.len(),
                FIRST,
                *arguments,
                *cursor,
                dst.as_mut_ptr(),
                dst.len(),
            )
        }
    }
}

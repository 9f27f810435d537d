//! SipHash against `DefaultHasher`; compare, copy and zero test against the standard library.

use crate::filled::all_bits;
use crate::leaves;
use crate::measure::{Table, bytes, used};
use std::hash::{DefaultHasher, Hasher};
use std::hint::black_box;

/// The hash of a key, as `ShardedLRU` takes it.
fn default_hash(key: &[u8]) -> u64 {
    let mut hasher = DefaultHasher::new();
    hasher.write(key);
    hasher.finish()
}

/// The hash, by the key's length.
pub fn hash(table: &mut Table) {
    for length in [4, 16, 64, 1024, 65_535] {
        let key: Vec<u8> = (0..length).map(|i| (31 * i + 7) as u8).collect();
        assert_eq!(leaves::sip_hash_13(&key), default_hash(&key));
        table.measure(
            "SipHash-1-3",
            bytes(length),
            "DefaultHasher",
            || used(leaves::sip_hash_13(black_box(&key))),
            || used(default_hash(black_box(&key))),
        );
    }
}

/// Compare, copy, zero test, by length.
pub fn ranges(table: &mut Table) {
    for length in [16, 256, 4096, 1 << 20] {
        let (a, b) = (vec![7; length], vec![7; length]);
        table.measure(
            "compare",
            bytes(length),
            "==",
            || used(leaves::same(black_box(&a), black_box(&b))),
            || used(black_box(&a[..]) == black_box(&b[..])),
        );
    }
    for length in [16, 256, 4096, 1 << 20] {
        let (src, mut one, mut other) = (vec![7; length], vec![0; length], vec![0; length]);
        leaves::copy(&mut one, &src);
        assert_eq!(one, src);
        table.measure(
            "copy",
            bytes(length),
            "copy_from_slice",
            || leaves::copy(black_box(&mut one), black_box(&src)),
            || black_box(&mut other[..]).copy_from_slice(black_box(&src)),
        );
    }
    for length in [16, 256, 4096, 1 << 20] {
        // Written, since untouched pages of zeros are all one page.
        let mut zeros = vec![1; length];
        zeros.fill(0);
        let ours = || used(leaves::all_zero(black_box(&zeros)));
        table.measure("zero test", bytes(length), "iter().all", ours, || {
            used(black_box(&zeros[..]).iter().all(|&byte| byte == 0));
        });
        table.measure("zero test", bytes(length), "iter().fold", ours, || {
            used(all_bits(black_box(&zeros)) == 0);
        });
    }
}

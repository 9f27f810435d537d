// Writes the vectors that siphash_vectors is held to, with the hasher of Rust's standard library. To make them again, in this folder:
//     rustc -O vectors.rs -o ../../target/vectors && ../../target/vectors > stdout
use std::collections::hash_map::DefaultHasher;
use std::hash::Hasher;

// A line: the key's length, its hash in hexadecimal, its shard of 32. Byte i of each key is (31 i + 7) modulo 256.
fn line(n: usize) {
    let key: Vec<u8> = (0..n).map(|i| (i * 31 + 7) as u8).collect();
    let mut hasher = DefaultHasher::new();
    hasher.write(&key);
    let hash = hasher.finish();
    println!("{} {:016x} {}", n, hash, hash as usize % 32);
}

fn main() {
    for n in 0..=72 {
        line(n);
    }
    for n in [255, 256, 257, 1000, 4096, 65535] {
        line(n);
    }
}

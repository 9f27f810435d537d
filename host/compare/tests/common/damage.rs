//! Bytes that somebody changed.

use compare::rng::Rng;

/// Each place with each of its bits turned, at the ends of what a byte may be, and one more or less.
pub fn one_changed(bytes: &[u8]) -> impl Iterator<Item = Vec<u8>> {
    (0..bytes.len()).flat_map(move |place| {
        let was = bytes[place];
        let bits = (0..8).map(move |bit| was ^ (1 << bit));
        let changed = bits.chain([0, 255, was.wrapping_add(1), was.wrapping_sub(1)]);
        changed.map(move |byte| {
            let mut bytes = bytes.to_vec();
            bytes[place] = byte;
            bytes
        })
    })
}

/// Every shorter front, and one byte more.
pub fn cut_or_longer(bytes: &[u8]) -> impl Iterator<Item = Vec<u8>> {
    let longer = [0, b'\r', b'_'].map(|byte| [bytes, &[byte]].concat());
    let fronts = (0..bytes.len()).map(|end| bytes[..end].to_vec());
    fronts.chain(longer)
}

/// A byte changed, two exchanged, a run moved by one, or sixteen bytes copied elsewhere.
pub fn several_changed(rng: &mut Rng, bytes: &mut [u8]) {
    let length = bytes.len();
    let (one, two) = (rng.below(length), rng.below(length));
    let (from, to) = (one.min(two), one.max(two));
    match rng.below(4) {
        0 => bytes[one] = rng.of(&[0, 1, 2, 3, 4, 16, 32, 255]),
        1 => bytes.swap(one, two),
        2 => bytes[from..to].rotate_left(to.min(from + 1) - from),
        _ => bytes.copy_within(
            one.min(length - 16)..one.min(length - 16) + 16,
            two.min(length - 16),
        ),
    }
}

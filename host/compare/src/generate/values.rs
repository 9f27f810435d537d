//! Random RESP3 values and pushes.

use super::generator::Generator;
use crate::rng::Rng;
use calls::Value;
use calls::resp::{self, Spelling};

/// A value of any kind, nested at most `deep`.
pub fn value(rng: &mut Rng, deep: usize) -> Value {
    let text = rng.pick::<[u8]>(&[b"x", b"y", b"zz", b""]).to_vec();
    match rng.below(if deep > 1 { 24 } else { 16 }) {
        0..5 => Value::Blob(text),
        6 => Value::Simple(text),
        7 => Value::Error(b"ERR e".to_vec()),
        8 => Value::BlobError(text),
        9 => Value::Integer(rng.of(&[0, -1, 1, 7, i64::MAX, i64::MIN])),
        5 | 10 | 11 => Value::Null(spelling(rng)),
        12 => Value::Double(b"1.5".to_vec()),
        13 => Value::Boolean(rng.chance(50)),
        14 => Value::Verbatim([b"txt:".to_vec(), text].concat()),
        15 => Value::BigNumber(b"12345678901234567890".to_vec()),
        16..19 => Value::Array(values(rng, deep)),
        19 => Value::Set(values(rng, deep)),
        20 => Value::Push(values(rng, deep)),
        21 => Value::Map(pairs(rng, deep)),
        _ => Value::Attribute(pairs(rng, deep), Box::new(value(rng, deep - 1))),
    }
}

/// Any way to write a null.
pub fn spelling(rng: &mut Rng) -> Spelling {
    rng.of(&[Spelling::Underscore, Spelling::Blob, Spelling::Array])
}

fn values(rng: &mut Rng, deep: usize) -> Vec<Value> {
    (0..rng.below(3)).map(|_| value(rng, deep - 1)).collect()
}

fn pairs(rng: &mut Rng, deep: usize) -> Vec<(Value, Value)> {
    (0..rng.below(2))
        .map(|_| (value(rng, deep - 1), value(rng, deep - 1)))
        .collect()
}

impl Generator {
    /// A value of any kind, nested at most `deep`.
    pub fn value(&mut self, deep: usize) -> Value {
        value(&mut self.rng, deep)
    }

    /// A null in any of its spellings.
    pub(super) fn null(&mut self) -> Value {
        Value::Null(spelling(&mut self.rng))
    }

    /// A push: mostly one that invalidates keys.
    pub fn push(&mut self) -> Vec<u8> {
        let kind = match self.rng.below(20) {
            0 => Value::Simple(b"invalidate".to_vec()),
            1 => Value::Blob(b"message".to_vec()),
            2 => Value::Verbatim(b"txt:invalidate".to_vec()),
            _ => Value::Blob(b"invalidate".to_vec()),
        };
        let what = match self.rng.below(20) {
            0..3 => self.null(),
            3 => Value::Set(self.pushed_keys()),
            4 => Value::Attribute(Vec::new(), Box::new(self.null())),
            5 => Value::Attribute(Vec::new(), Box::new(Value::Array(self.pushed_keys()))),
            6 => Value::Blob(self.key()),
            _ => Value::Array(self.pushed_keys()),
        };
        let mut list = vec![kind, what];
        match self.rng.below(20) {
            0 => list.truncate(self.rng.below(2)),
            1 => list.push(self.value(2)),
            2 => list.insert(1, self.value(2)),
            _ => {}
        }
        let value = match self.rng.below(20) {
            0 => Value::Array(list),
            1 => Value::Attribute(Vec::new(), Box::new(Value::Push(list))),
            _ => Value::Push(list),
        };
        let bytes = resp::encode(&value);
        self.damaged(bytes)
    }

    fn pushed_keys(&mut self) -> Vec<Value> {
        (0..self.rng.below(4))
            .map(|_| match self.rng.below(8) {
                0 => Value::Simple(self.key()),
                1 if self.rng.chance(30) => self.null(),
                1 => self.value(2),
                _ => Value::Blob(self.key()),
            })
            .collect()
    }
}

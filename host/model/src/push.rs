//! Pushes: which invalidations one brings.

use calls::Value;

/// What a push invalidates.
#[derive(Debug, PartialEq, Eq)]
pub enum Invalidated {
    /// These keys, one by one.
    Keys(Vec<Vec<u8>>),
    /// Everything.
    All,
}

/// Reads a value as a push: `>`, its first element the blob `invalidate`, then an array of keys, of which only blobs are
/// taken, or a null in any spelling. All else invalidates nothing.
pub fn invalidated(value: &Value) -> Invalidated {
    let none = Invalidated::Keys(Vec::new());
    let Value::Push(elements) = value else {
        return none;
    };
    match elements.as_slice() {
        [Value::Blob(kind), what, ..] if kind == b"invalidate" => match what {
            Value::Array(keys) => Invalidated::Keys(keys.iter().filter_map(key).collect()),
            Value::Null(_) => Invalidated::All,
            _ => none,
        },
        _ => none,
    }
}

fn key(value: &Value) -> Option<Vec<u8>> {
    match value {
        Value::Blob(key) => Some(key.clone()),
        _ => None,
    }
}

//! The plan: a flat row of nodes.
//!
//! ```text
//! plan:  flags u8 (bit 0 transaction) | `_` CR LF | count of commands u32 | nodes to the end
//! node:  kind u32 | a u32 | b u32 | number u64 | a bytes | b bytes
//! ```
//!
//! | kind | means | a bytes | b bytes | number |
//! |---|---|---|---|---|
//! | 0 | a reply is handed on (ignored, not cacheable) | none | none | 0 |
//! | 1 | served value, as a command's answer or as a place | RESP3 value | none | 0 |
//! | 2 | all places served: that many nodes of kind 1 follow | none | none | places |
//! | 3 | one missing key | key | command key | client expiry |
//! | 4 | several keys: that many places (kinds 1 and 5) follow, then one 6 | none | none | places |
//! | 5 | waiting place | key | command key | client expiry |
//! | 6 | end of several | none | none | 0 |

use super::{Reader, field};
use crate::plan::Plan;
use calls::{Missing, Outcome, Place, resp};

const MOST_KEY: usize = 65_535;
const MOST_COMMAND: usize = 16 << 20;
const MOST_PARTS: u64 = 1024;

/// The bytes of a plan.
pub fn encode(transaction: bool, outcomes: &[Outcome]) -> Vec<u8> {
    let mut out = vec![u8::from(transaction)];
    out.extend(b"_\r\n");
    out.extend(field(outcomes.len()));
    for outcome in outcomes {
        match outcome {
            Outcome::Ignored | Outcome::NotCacheable => node(&mut out, 0, b"", b"", 0),
            Outcome::Cached(value) => node(&mut out, 1, value, b"", 0),
            Outcome::CachedAll(values) => {
                node(&mut out, 2, b"", b"", values.len() as u64);
                values
                    .iter()
                    .for_each(|value| node(&mut out, 1, value, b"", 0));
            }
            Outcome::Single(missing) => write_missing(&mut out, 3, missing),
            Outcome::Multiple(places) => {
                node(&mut out, 4, b"", b"", places.len() as u64);
                places.iter().for_each(|place| write_place(&mut out, place));
                node(&mut out, 6, b"", b"", 0);
            }
        }
    }
    out
}

fn node(out: &mut Vec<u8>, kind: u32, a: &[u8], b: &[u8], number: u64) {
    out.extend(kind.to_le_bytes());
    out.extend(field(a.len()));
    out.extend(field(b.len()));
    out.extend(number.to_le_bytes());
    out.extend(a);
    out.extend(b);
}

fn write_missing(out: &mut Vec<u8>, kind: u32, missing: &Missing) {
    node(
        out,
        kind,
        &missing.key,
        &missing.command,
        missing.client_expiry,
    );
}

fn write_place(out: &mut Vec<u8>, place: &Place) {
    match place {
        Place::Served(value) => node(out, 1, value, b"", 0),
        Place::Waiting(missing) => write_missing(out, 5, missing),
    }
}

/// The plan of these bytes; `None` where a rule is broken (cause 10). A reply that is handed on does not tell an ignored
/// command from one that is not cacheable: it is read as the latter.
pub fn decode(bytes: &[u8]) -> Option<Plan> {
    let mut reader = Reader { rest: bytes };
    let flags = reader.part(1)?[0];
    let filler = reader.part(3)?;
    let count = reader.u32()?;
    if flags > 1 || filler != b"_\r\n" || u64::from(count) > MOST_PARTS {
        return None;
    }
    let outcomes = (0..count)
        .map(|_| outcome(&mut reader))
        .collect::<Option<Vec<Outcome>>>()?;
    reader.rest.is_empty().then_some(Plan {
        transaction: flags == 1,
        outcomes,
    })
}

struct Node<'a> {
    kind: u32,
    a: &'a [u8],
    b: &'a [u8],
    number: u64,
}

/// A node of which each part is as its kind has it.
fn read_node<'a>(reader: &mut Reader<'a>) -> Option<Node<'a>> {
    let (kind, a, b, number) = (
        reader.u32()?,
        reader.length()?,
        reader.length()?,
        reader.u64()?,
    );
    let node = Node {
        kind,
        a: reader.part(a)?,
        b: reader.part(b)?,
        number,
    };
    let empty = node.a.is_empty() && node.b.is_empty();
    let right = match kind {
        0 | 6 => empty && number == 0,
        1 => node.b.is_empty() && number == 0 && resp::parse(node.a).is_some(),
        2 | 4 => empty && number <= MOST_PARTS,
        3 | 5 => node.a.len() <= MOST_KEY && node.b.len() <= MOST_COMMAND,
        _ => false,
    };
    right.then_some(node)
}

fn outcome(reader: &mut Reader<'_>) -> Option<Outcome> {
    let node = read_node(reader)?;
    match node.kind {
        0 => Some(Outcome::NotCacheable),
        1 => Some(Outcome::Cached(node.a.to_vec())),
        2 => {
            let served = |_| {
                read_node(reader)
                    .filter(|node| node.kind == 1)
                    .map(|node| node.a.to_vec())
            };
            (0..node.number)
                .map(served)
                .collect::<Option<_>>()
                .map(Outcome::CachedAll)
        }
        3 => Some(Outcome::Single(missing(&node))),
        4 => {
            let places = (0..node.number)
                .map(|_| place(reader))
                .collect::<Option<_>>()?;
            (read_node(reader)?.kind == 6).then_some(Outcome::Multiple(places))
        }
        _ => None,
    }
}

fn place(reader: &mut Reader<'_>) -> Option<Place> {
    let node = read_node(reader)?;
    match node.kind {
        1 => Some(Place::Served(node.a.to_vec())),
        5 => Some(Place::Waiting(missing(&node))),
        _ => None,
    }
}

fn missing(node: &Node<'_>) -> Missing {
    Missing {
        key: node.a.to_vec(),
        command: node.b.to_vec(),
        client_expiry: node.number,
    }
}

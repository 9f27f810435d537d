//! Replies to what a plan sent: mostly those of a server, now and then too few, too many or of another shape.

use super::generator::Generator;
use calls::{Value, resp};

/// What a plan sent: the arguments of each command, without `MULTI` and `EXEC`.
#[derive(Clone)]
pub struct Sent {
    /// Name and arguments of each command.
    pub commands: Vec<Vec<Vec<u8>>>,
    transaction: bool,
}

impl Sent {
    /// Reads it from the bytes.
    pub fn read(sent: &[u8], (skip, take): (u64, u64)) -> Self {
        let transaction = skip > 0;
        let count = if transaction { skip + 1 } else { take };
        let list = [format!("*{count}\r\n").as_bytes(), sent].concat();
        let Some(Value::Array(list)) = resp::parse(&list) else {
            panic!("what is sent is {count} commands");
        };
        let mut commands: Vec<_> = list.into_iter().map(arguments).collect();
        if transaction {
            commands.pop();
            commands.remove(0);
        }
        Sent {
            commands,
            transaction,
        }
    }
}

fn arguments(command: Value) -> Vec<Vec<u8>> {
    let Value::Array(args) = command else {
        panic!("a command is an array")
    };
    let blob = |arg| match arg {
        Value::Blob(bytes) => bytes,
        _ => panic!("an argument is a blob"),
    };
    args.into_iter().map(blob).collect()
}

impl Generator {
    /// Replies to what was sent.
    pub fn replies(&mut self, sent: &Sent) -> Value {
        let mut list: Vec<Value> = sent
            .commands
            .iter()
            .map(|command| self.reply(command))
            .collect();
        match self.rng.below(100) {
            0..8 if !list.is_empty() => {
                let place = self.rng.below(list.len());
                list.remove(place);
            }
            8..13 => {
                let place = self.rng.below(list.len() + 1);
                let value = self.value(3);
                list.insert(place, value);
            }
            13..20 if !list.is_empty() => {
                let place = self.rng.below(list.len());
                list[place] = self.value(3);
            }
            _ => {}
        }
        let list = self.shape(Value::Array(list));
        if sent.transaction {
            return match self.rng.below(30) {
                0 => list,
                1 => Value::Array(vec![list, self.null()]),
                _ => self.shape(Value::Array(vec![list])),
            };
        }
        list
    }

    /// The list, now and then in another kind.
    fn shape(&mut self, list: Value) -> Value {
        let Value::Array(elements) = list else {
            return list;
        };
        match self.rng.below(100) {
            0 => self.null(),
            1 => Value::Set(elements),
            2 => Value::Attribute(Vec::new(), Box::new(Value::Array(elements))),
            3 => Value::Array(vec![Value::Array(elements)]),
            _ => Value::Array(elements),
        }
    }

    fn reply(&mut self, command: &[Vec<u8>]) -> Value {
        let simple = |text: &str| Value::Simple(text.as_bytes().to_vec());
        match command.first().map(Vec::as_slice) {
            Some(b"CLIENT") => simple("OK"),
            Some(b"PTTL") => match self.rng.below(20) {
                0 => simple("1"),
                1 => Value::Blob(b"5".to_vec()),
                2 => self.value(2),
                3 => Value::Attribute(Vec::new(), Box::new(Value::Integer(5))),
                4 => Value::Integer(self.rng.of(&[i64::MIN, i64::MAX])),
                5 => self.null(),
                _ => Value::Integer(self.rng.of(&[-2, -1, -1, -1, 0, 1, 5, 20, 100, 100])),
            },
            Some(b"MGET") => self.elements(command.len() - 1),
            Some(b"JSON.MGET") => self.elements(command.len().saturating_sub(2)),
            _ => self.value(3),
        }
    }

    fn elements(&mut self, count: usize) -> Value {
        let count = match self.rng.below(20) {
            0 => count.saturating_sub(1),
            1 => count + 1,
            2 => count + 2,
            3 => self.rng.below(3),
            4 => return self.null(),
            _ => count,
        };
        Value::Array((0..count).map(|_| self.value(2)).collect())
    }
}

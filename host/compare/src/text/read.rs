//! Reading transcripts: the setup and the calls of one sequence.

use calls::{Arg, At, CacheSettings, Call, Command, Counts, Record, Setup, record};
use std::collections::HashMap;

/// A sequence as it was given.
pub struct Sequence {
    /// The setup.
    pub setup: Setup,
    /// The calls.
    pub calls: Vec<(At, Call)>,
}

/// Reads a sequence from the lines with `>`; other lines are passed over. The error names the line that is wrong.
pub fn sequence(text: &str) -> Result<Sequence, String> {
    let mut lines = text
        .lines()
        .filter_map(|line| line.strip_prefix("> "))
        .peekable();
    let first = lines.next().ok_or("no setup")?;
    let setup = setup(first).ok_or_else(|| first.to_string())?;
    let mut calls = Vec::new();
    while let Some(line) = lines.next() {
        let mut commands = Vec::new();
        while let Some(command) = lines.next_if(|next| next.starts_with("command")) {
            commands.push(read_command(command).ok_or_else(|| command.to_string())?);
        }
        calls.push(call(line, commands).ok_or_else(|| line.to_string())?);
    }
    Ok(Sequence { setup, calls })
}

/// Words parted by spaces; quoted bytes are one word, quotes and escapes and all.
fn words(line: &str) -> Vec<String> {
    let mut words = vec![String::new()];
    let (mut quoted, mut escaped) = (false, false);
    for letter in line.chars() {
        if letter == ' ' && !quoted {
            words.push(String::new());
            continue;
        }
        if letter == '"' && !escaped {
            quoted = !quoted;
        }
        escaped = letter == '\\' && !escaped;
        words.last_mut().expect("there is a word").push(letter);
    }
    words.retain(|word| !word.is_empty());
    words
}

/// Quoted bytes.
fn bytes(word: &str) -> Option<Vec<u8>> {
    let mut rest = word.strip_prefix('"')?.strip_suffix('"')?.bytes();
    let mut out = Vec::new();
    while let Some(byte) = rest.next() {
        if byte != b'\\' {
            out.push(byte);
            continue;
        }
        out.push(match rest.next()? {
            b'r' => b'\r',
            b'n' => b'\n',
            b'x' => {
                let digits = [rest.next()?, rest.next()?];
                u8::from_str_radix(std::str::from_utf8(&digits).ok()?, 16).ok()?
            }
            other => other,
        });
    }
    Some(out)
}

/// The words `name=value` of a line.
struct Fields(HashMap<String, String>);

impl Fields {
    fn of(words: &[String]) -> Self {
        let pair = |word: &String| {
            word.split_once('=')
                .map(|(name, value)| (name.to_string(), value.to_string()))
        };
        Fields(words.iter().filter_map(pair).collect())
    }

    fn number<T: std::str::FromStr>(&self, name: &str) -> Option<T> {
        self.0.get(name)?.parse().ok()
    }

    fn bytes(&self, name: &str) -> Option<Vec<u8>> {
        bytes(self.0.get(name)?)
    }
}

fn setup(line: &str) -> Option<Setup> {
    let words = words(line);
    if words.first()? != "setup" {
        return None;
    }
    let fields = Fields::of(&words[1..]);
    Some(Setup {
        size: fields.number("size")?,
        arena: fields.number("arena")?,
        mode: fields.number("mode")?,
        default_ttl: fields.number("ttl")?,
        counts: Counts {
            hit: fields.number("hit")?,
            miss: fields.number("miss")?,
            invalidate: fields.number("invalidate")?,
        },
    })
}

fn call(line: &str, commands: Vec<Command>) -> Option<(At, Call)> {
    let words = words(line);
    let (name, rest) = words.split_first()?;
    let fields = Fields::of(rest);
    if name == "new-epoch" {
        return Some((At::default(), Call::NewEpoch));
    }
    let at = At {
        clock: fields.number("clock")?,
        epoch: fields.number("epoch")?,
        mode: fields.number("mode")?,
        default_ttl: fields.number("ttl")?,
    };
    let call = match name.as_str() {
        "plan" => Call::Plan {
            record: plan_record(&fields, commands)?,
            send_room: fields.number("send")?,
            plan_room: fields.number("plan")?,
        },
        "resolve" => Call::Resolve {
            plan: fields.number("plan")?,
            replies: fields.bytes("replies")?,
            room: fields.number("room")?,
        },
        "push" => Call::Push {
            bytes: fields.bytes("bytes")?,
        },
        "lookup" => Call::Lookup {
            key: fields.bytes("key")?,
            command: fields.bytes("command")?,
        },
        "store" => Call::Store {
            key: fields.bytes("key")?,
            command: fields.bytes("command")?,
            value: fields.bytes("value")?,
            expiry: fields.number("expiry")?,
        },
        "invalidate" => Call::Invalidate {
            key: fields.bytes("key")?,
        },
        _ => return None,
    };
    Some((at, call))
}

fn plan_record(fields: &Fields, commands: Vec<Command>) -> Option<Vec<u8>> {
    if let Some(bytes) = fields.bytes("record") {
        return Some(bytes);
    }
    let transaction = fields.number::<u8>("transaction")? == 1;
    Some(record::encode(&Record {
        transaction,
        commands,
    }))
}

fn read_command(line: &str) -> Option<Command> {
    let mut command = Command::default();
    for word in words(line).into_iter().skip(1) {
        let settings = command.cache.as_mut();
        match word.as_str() {
            "ignored" => command.ignored = true,
            "settings" => command.cache = Some(CacheSettings::default()),
            "enable" => settings?.enable_cache = true,
            "@" => command.args.push(Arg::Cursor),
            _ if word.starts_with('"') => command.args.push(Arg::Simple(bytes(&word)?)),
            _ => match word.split_once('=')? {
                ("ttl", ttl) => settings?.client_ttl = Some(ttl.parse().ok()?),
                ("cursor", cursor) => command.cursor = cursor.parse().ok()?,
                _ => return None,
            },
        }
    }
    Some(command)
}

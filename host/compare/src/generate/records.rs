//! Random call records.

use super::generator::Generator;
use super::setups;
use calls::{Arg, CacheSettings, Command, Record, record};
use model::commands::{NEVER, SOLE_KEY};

const FIELDS: &[&[u8]] = &[b"f", b"1", b"12", b"2", b"23", b"3", b""];

impl Generator {
    /// A record's bytes, now and then damaged.
    pub fn record(&mut self) -> Vec<u8> {
        let transaction = self.rng.chance(20);
        let count = self.rng.of(&[0, 1, 1, 1, 1, 2, 2, 3, 4]);
        let commands = (0..count).map(|_| self.command()).collect();
        let bytes = record::encode(&Record {
            transaction,
            commands,
        });
        self.damaged_record(bytes)
    }

    /// A damaged record may be another one, which then must be one that every party can be given.
    fn damaged_record(&mut self, bytes: Vec<u8>) -> Vec<u8> {
        let damaged = self.damaged(bytes.clone());
        match record::parse(&damaged) {
            Ok(record)
                if !self.limits.cursor_as_key && record.commands.iter().any(cursor_as_key) =>
            {
                bytes
            }
            _ => damaged,
        }
    }

    fn command(&mut self) -> Command {
        let cache = self
            .rng
            .chance(if self.setup.mode == 1 { 85 } else { 40 })
            .then(|| CacheSettings {
                enable_cache: self.rng.chance(85),
                client_ttl: self.rng.chance(40).then(|| setups::ttl(&mut self.rng)),
            });
        let cursor = self.rng.of(&[0, 0, 7, 10, u64::MAX]);
        let ignored = self.rng.chance(8);
        let mut command = Command {
            ignored,
            cache,
            cursor,
            args: self.args(),
        };
        if !self.limits.cursor_as_key && cursor_as_key(&command) {
            command.args[1] = Arg::Simple(self.key());
        }
        command
    }

    /// A command of a name that request 5 speaks of, with 0 to 4 arguments, cursors among them.
    fn several_sets(&mut self) -> Vec<Arg> {
        let names = if self.rng.chance(70) { SOLE_KEY } else { NEVER };
        let name = self.rng.of(names);
        let mut args = vec![Arg::Simple(name.as_bytes().to_vec())];
        for _ in 0..self.rng.of(&[0, 1, 1, 1, 2, 2, 3, 4]) {
            args.push(if self.rng.chance(15) {
                Arg::Cursor
            } else {
                Arg::Simple(self.key())
            });
        }
        args
    }

    fn args(&mut self) -> Vec<Arg> {
        let name: &[u8] = match self.rng.below(100) {
            0..35 => b"GET",
            35..60 => b"MGET",
            60..68 => b"JSON.MGET",
            68..73 => b"JSON.GET",
            73..80 => b"HGET",
            80..86 => b"LRANGE",
            86..90 => self
                .rng
                .pick::<[u8]>(&[b"GETRANGE", b"HMGET", b"SUBSTR", b"TYPE"]),
            90..95 => return self.several_sets(),
            95..97 => self
                .rng
                .pick::<[u8]>(&[b"SET", b"get", b"mget", b"PTTL", b"GETX", b""]),
            97 => return Vec::new(),
            98 => return vec![Arg::Cursor, Arg::Simple(self.key())],
            _ => {
                return vec![Arg::Simple(
                    self.rng
                        .pick::<[u8]>(&[b"GET", b"MGET", b"JSON.MGET", b"SET"])
                        .to_vec(),
                )];
            }
        };
        let mut args = vec![Arg::Simple(name.to_vec())];
        match name {
            b"MGET" => self.add_keys(&mut args),
            b"JSON.MGET" => {
                self.add_keys(&mut args);
                if self.rng.chance(90) {
                    args.push(Arg::Simple(
                        self.rng.pick::<[u8]>(&[b"$", b"$.a", b""]).to_vec(),
                    ));
                }
            }
            b"GET" => args.push(Arg::Simple(self.key())),
            _ => {
                args.push(Arg::Simple(self.key()));
                let fields = self.rng.of(&[0, 1, 1, 2, 2]);
                args.extend((0..fields).map(|_| Arg::Simple(self.rng.pick(FIELDS).to_vec())));
            }
        }
        if self.rng.chance(8) {
            let place = 1 + self.rng.below(args.len());
            args.insert(place, Arg::Cursor);
        }
        args
    }

    fn add_keys(&mut self, args: &mut Vec<Arg>) {
        let count = self.rng.of(&[0, 1, 2, 2, 3, 3, 4]);
        args.extend((0..count).map(|_| Arg::Simple(self.key())));
    }
}

/// Whether the crate may panic: a single-key command with a cursor as key. Names of request 5 never get that far with one.
fn cursor_as_key(command: &Command) -> bool {
    match command.args.as_slice() {
        [Arg::Simple(name), Arg::Cursor, ..] => {
            model::commands::cacheable(name)
                && model::commands::multi_key(name).is_none()
                && !SOLE_KEY.iter().any(|known| known.as_bytes() == name)
        }
        _ => false,
    }
}

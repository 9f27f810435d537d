//! The call record: commands with their cache settings and arguments, as bytes (multi-byte fields little-endian).

/// The most commands of a record and arguments of a command.
pub const MOST_PARTS: usize = 1024;

/// The longest simple argument.
pub const MOST_ARGUMENT: usize = 65_535;

/// The most bytes that planning takes (a longer record is cause 3; this plays no part in what is valid).
pub const MOST_BYTES: usize = 16 << 20;

/// A whole record.
#[derive(Clone, Debug, Default, PartialEq, Eq)]
pub struct Record {
    /// Wrapped in `MULTI` and `EXEC`.
    pub transaction: bool,
    /// The commands in order.
    pub commands: Vec<Command>,
}

/// One command of a record.
#[derive(Clone, Debug, Default, PartialEq, Eq)]
pub struct Command {
    /// Sent, and not looked up.
    pub ignored: bool,
    /// The command's own cache settings, if it has any.
    pub cache: Option<CacheSettings>,
    /// What every cursor argument prints.
    pub cursor: u64,
    /// Name and arguments.
    pub args: Vec<Arg>,
}

/// A command's own cache settings.
#[derive(Clone, Copy, Debug, Default, PartialEq, Eq)]
pub struct CacheSettings {
    /// Asked for in opt-in mode.
    pub enable_cache: bool,
    /// The client TTL in ms, if given.
    pub client_ttl: Option<u64>,
}

/// One argument.
#[derive(Clone, Debug, PartialEq, Eq)]
pub enum Arg {
    /// Bytes.
    Simple(Vec<u8>),
    /// The command's cursor, in decimal.
    Cursor,
}

/// The bytes of a record. Counts and lengths over their limits give bytes that are not a valid record, or panic where
/// they do not fit their field.
pub fn encode(record: &Record) -> Vec<u8> {
    let mut out = b"TRP\x01\x00".to_vec();
    out.push(u8::from(record.transaction));
    out.extend(short(record.commands.len()));
    for command in &record.commands {
        let settings = command.cache.unwrap_or_default();
        out.push(
            u8::from(command.ignored)
                | u8::from(command.cache.is_some()) << 1
                | u8::from(settings.enable_cache) << 2
                | u8::from(settings.client_ttl.is_some()) << 3,
        );
        out.extend(settings.client_ttl.unwrap_or(0).to_le_bytes());
        out.extend(command.cursor.to_le_bytes());
        out.extend(short(command.args.len()));
        for arg in &command.args {
            let (kind, bytes): (u8, &[u8]) = match arg {
                Arg::Simple(bytes) => (0, bytes),
                Arg::Cursor => (1, b""),
            };
            out.push(kind);
            out.extend(
                u32::try_from(bytes.len())
                    .expect("length fits its field")
                    .to_le_bytes(),
            );
            out.extend(bytes);
        }
    }
    out
}

fn short(count: usize) -> [u8; 2] {
    u16::try_from(count)
        .expect("count fits its field")
        .to_le_bytes()
}

/// Reads bytes that are exactly one record. Otherwise the first offset o such that no valid record begins with the first
/// o + 1 bytes, or the length where the record ends early.
pub fn parse(bytes: &[u8]) -> Result<Record, usize> {
    let mut reader = Reader { bytes, at: 0 };
    let record = reader.record()?;
    if reader.at < bytes.len() {
        return Err(reader.at);
    }
    Ok(record)
}

struct Reader<'a> {
    bytes: &'a [u8],
    at: usize,
}

impl Reader<'_> {
    /// The next byte, which must be one that `allowed` lets through.
    fn byte(&mut self, allowed: impl Fn(u8) -> bool) -> Result<u8, usize> {
        match self.bytes.get(self.at) {
            Some(&byte) if allowed(byte) => {
                self.at += 1;
                Ok(byte)
            }
            Some(_) | None => Err(self.at),
        }
    }

    fn exactly(&mut self, expected: &[u8]) -> Result<(), usize> {
        expected
            .iter()
            .try_for_each(|&e| self.byte(|b| b == e).map(drop))
    }

    fn number(&mut self, allowed: impl Fn(u8) -> bool) -> Result<u64, usize> {
        let mut number = [0; 8];
        for place in &mut number {
            *place = self.byte(&allowed)?;
        }
        Ok(u64::from_le_bytes(number))
    }

    /// A count of 16 bits of at most 1,024: after any low byte some high byte is right.
    fn count(&mut self) -> Result<usize, usize> {
        let low = self.byte(|_| true)?;
        let count = |high| usize::from(u16::from_le_bytes([low, high]));
        let high = self.byte(|high| count(high) <= MOST_PARTS)?;
        Ok(count(high))
    }

    fn record(&mut self) -> Result<Record, usize> {
        self.exactly(b"TRP\x01\x00")?;
        let transaction = self.byte(|b| b <= 1)? == 1;
        let commands = (0..self.count()?)
            .map(|_| self.command())
            .collect::<Result<_, _>>()?;
        Ok(Record {
            transaction,
            commands,
        })
    }

    fn command(&mut self) -> Result<Command, usize> {
        let flags = self.byte(|f| f < 16 && (f & 0b1100 == 0 || f & 0b10 != 0))?;
        let has_ttl = flags & 0b1000 != 0;
        let ttl = self.number(|b| has_ttl || b == 0)?;
        let cursor = self.number(|_| true)?;
        let args = (0..self.count()?)
            .map(|_| self.arg())
            .collect::<Result<_, _>>()?;
        Ok(Command {
            ignored: flags & 1 != 0,
            cache: (flags & 0b10 != 0).then_some(CacheSettings {
                enable_cache: flags & 0b100 != 0,
                client_ttl: has_ttl.then_some(ttl),
            }),
            cursor,
            args,
        })
    }

    fn arg(&mut self) -> Result<Arg, usize> {
        let kind = self.byte(|b| b <= 1)?;
        if kind == 1 {
            self.exactly(&[0; 4])?;
            return Ok(Arg::Cursor);
        }
        let length = [self.byte(|_| true)?, self.byte(|_| true)?];
        self.exactly(&[0; 2])?;
        (0..u16::from_le_bytes(length))
            .map(|_| self.byte(|_| true))
            .collect::<Result<_, _>>()
            .map(Arg::Simple)
    }
}

#[cfg(test)]
mod tests {
    use super::*;

    fn simple(text: &str) -> Arg {
        Arg::Simple(text.into())
    }

    fn sample() -> Record {
        let get = Command {
            args: vec![simple("GET"), simple("a")],
            ..Command::default()
        };
        let scan = Command {
            ignored: true,
            cache: Some(CacheSettings {
                enable_cache: true,
                client_ttl: Some(u64::MAX),
            }),
            cursor: 7,
            args: vec![simple("SCAN"), Arg::Cursor, simple("")],
        };
        let none = Command {
            cache: Some(CacheSettings::default()),
            cursor: u64::MAX,
            ..Command::default()
        };
        Record {
            transaction: true,
            commands: vec![get, scan, none],
        }
    }

    #[test]
    fn the_bytes_of_get_a() {
        let record = Record {
            commands: sample().commands[..1].to_vec(),
            transaction: false,
        };
        let mut expected = b"TRP\x01\x00\x00\x01\x00\x00".to_vec();
        expected.extend([0; 16]);
        expected.extend(b"\x02\x00\x00\x03\x00\x00\x00GET\x00\x01\x00\x00\x00a");
        assert_eq!(encode(&record), expected);
        assert_eq!(parse(&expected), Ok(record));
    }

    #[test]
    fn a_record_is_read_back_and_every_cut_ends_early() {
        let bytes = encode(&sample());
        assert_eq!(parse(&bytes), Ok(sample()));
        for end in 0..bytes.len() {
            assert_eq!(parse(&bytes[..end]), Err(end));
        }
        assert_eq!(parse(&[&bytes[..], b"x"].concat()), Err(bytes.len()));
    }

    #[test]
    fn the_first_wrong_byte_is_named() {
        let bytes = encode(&sample());
        let with = |at: usize, byte: u8| {
            let mut changed = bytes.clone();
            changed[at] = byte;
            parse(&changed)
        };
        assert_eq!(with(0, b't'), Err(0));
        assert_eq!(with(3, 2), Err(3));
        assert_eq!(with(4, 1), Err(4));
        assert_eq!(with(5, 2), Err(5));
        assert_eq!(with(7, 5), Err(7)); // 1,283 commands: the high byte
        assert_eq!(with(7, 4), Err(7)); // 1,027
        assert_eq!(with(8, 4), Err(8)); // enable_cache without settings
        assert_eq!(with(8, 8), Err(8)); // client TTL without settings
        assert_eq!(with(8, 16), Err(8));
        assert_eq!(with(11, 1), Err(11)); // a TTL that is not announced
        assert_eq!(with(26, 8), Err(26)); // argument count, high byte
        assert_eq!(with(27, 2), Err(27)); // argument kind
        assert_eq!(with(30, 1), Err(30)); // argument length over 65,535
        assert_eq!(with(31, 1), Err(31));
    }

    /// Some valid record begins with the bytes before the offset: after the mark and version, zeros complete anything.
    fn begins_a_record(bytes: &[u8]) -> bool {
        let mut longer = bytes.to_vec();
        longer.extend(b"TRP\x01\x00".get(bytes.len()..).unwrap_or(b""));
        longer.resize(longer.len() + (1 << 20), 0);
        let end = parse(&longer).expect_err("zeros trail");
        end >= bytes.len() && parse(&longer[..end]).is_ok()
    }

    #[test]
    fn the_offset_is_the_first_that_is_allowed() {
        let bytes = encode(&sample());
        for at in 0..bytes.len() {
            for byte in [0, 1, 2, 3, 4, 5, 8, 10, 15, 16, 255] {
                let mut changed = bytes.clone();
                changed[at] = byte;
                if let Err(offset) = parse(&changed) {
                    assert!(begins_a_record(&changed[..offset]), "{at} {byte}");
                }
            }
        }
    }

    #[test]
    fn limits_of_counts_and_lengths() {
        let empty = Command::default();
        let commands = |n| Record {
            commands: vec![empty.clone(); n],
            transaction: false,
        };
        assert!(parse(&encode(&commands(1024))).is_ok());
        assert_eq!(parse(&encode(&commands(1025))), Err(7));
        let args = |n| Record {
            commands: vec![Command {
                args: vec![Arg::Cursor; n],
                ..empty.clone()
            }],
            transaction: false,
        };
        assert!(parse(&encode(&args(1024))).is_ok());
        assert_eq!(parse(&encode(&args(1025))), Err(26));
        let long = |n| Record {
            commands: vec![Command {
                args: vec![Arg::Simple(vec![b'x'; n])],
                ..empty.clone()
            }],
            transaction: false,
        };
        assert!(parse(&encode(&long(65_535))).is_ok());
        assert_eq!(parse(&encode(&long(65_536))), Err(30));
    }
}

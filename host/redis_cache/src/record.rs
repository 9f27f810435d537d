//! The call record that planning reads (docs/LAYOUT.md), written from commands.

use crate::config::millis;
use crate::{Arg, Cmd, CommandCacheConfig, Error, Limit, Pipeline};

/// The most commands of a record and arguments of a command.
const MOST_PARTS: usize = 1024;

/// The longest argument.
const MOST_ARGUMENT: usize = 65_535;

/// What can be planned: a [`Cmd`], answered by one value, or a [`Pipeline`], answered by a list.
///
/// ```
/// use redis_cache::{Call, cmd, pipe};
///
/// let mut get = cmd("GET");
/// get.arg("trap7");
/// let mut pipeline = pipe();
/// pipeline.add_command(get.clone());
/// assert_eq!(get.get_record()?, pipeline.get_record()?);
/// # Ok::<(), redis_cache::Error>(())
/// ```
pub trait Call: sealed::Sealed {
    /// The call record, as planning takes it.
    ///
    /// # Errors
    /// [`Cause::BadRecord`](crate::Cause::BadRecord): more than 1,024 commands or arguments of one, or an argument over 65,535 bytes;
    /// [`Error::limit`] says which.
    ///
    /// ```
    /// use redis_cache::{Call, cmd};
    ///
    /// let record = cmd("PING").get_record()?;
    /// assert!(record.starts_with(b"TRP\x01\x00"));
    /// let long = vec![b'x'; 65_536];
    /// assert_eq!(cmd("GET").arg(long).get_record().expect_err("too long").number(), 2);
    /// # Ok::<(), redis_cache::Error>(())
    /// ```
    fn get_record(&self) -> Result<Vec<u8>, Error> {
        let mut record = Vec::new();
        write(&self.parts(), &mut record)?;
        Ok(record)
    }
}

impl Call for Cmd {}

impl Call for Pipeline {}

pub(crate) mod sealed {
    use super::Parts;

    /// What a record is written from; no other type can be one.
    pub trait Sealed {
        #[doc(hidden)]
        fn parts(&self) -> Parts<'_>;
    }
}

/// The commands of a call.
#[doc(hidden)]
#[derive(Clone, Copy, Debug)]
pub struct Parts<'a> {
    pub(crate) commands: &'a [Cmd],
    pub(crate) ignored: &'a [bool],
    pub(crate) transaction: bool,
    /// The answer is one value, not a list.
    pub(crate) single: bool,
}

impl sealed::Sealed for Cmd {
    fn parts(&self) -> Parts<'_> {
        Parts {
            commands: std::slice::from_ref(self),
            ignored: &[false],
            transaction: false,
            single: true,
        }
    }
}

impl sealed::Sealed for Pipeline {
    fn parts(&self) -> Parts<'_> {
        Parts {
            commands: self.commands(),
            ignored: self.ignored(),
            transaction: self.is_transaction(),
            single: false,
        }
    }
}

/// Appends the record.
pub(crate) fn write(parts: &Parts<'_>, out: &mut Vec<u8>) -> Result<(), Limit> {
    out.extend(b"TRP\x01\x00");
    out.push(u8::from(parts.transaction));
    let commands = parts.commands.len();
    out.extend(count(commands).ok_or(Limit::Commands(commands))?);
    for (place, (cmd, &ignored)) in parts.commands.iter().zip(parts.ignored).enumerate() {
        command(cmd, ignored, place, out)?;
    }
    Ok(())
}

fn command(cmd: &Cmd, ignored: bool, place: usize, out: &mut Vec<u8>) -> Result<(), Limit> {
    let cache = cmd.get_cache_config();
    let enabled = cache.is_some_and(|cache| cache.enable_cache());
    let ttl = cache.as_ref().and_then(CommandCacheConfig::client_side_ttl);
    let flags = [ignored, cache.is_some(), enabled, ttl.is_some()];
    out.push(
        (0..)
            .zip(flags)
            .map(|(bit, set)| u8::from(set) << bit)
            .sum(),
    );
    out.extend(ttl.map_or(0, millis).to_le_bytes());
    out.extend(cmd.cursor().to_le_bytes());
    let arguments = cmd.args_iter().len();
    out.extend(count(arguments).ok_or(Limit::Arguments(place, arguments))?);
    for arg in cmd.args_iter() {
        let (kind, bytes) = match arg {
            Arg::Simple(bytes) => (0, bytes),
            Arg::Cursor => (1, &b""[..]),
        };
        if bytes.len() > MOST_ARGUMENT {
            return Err(Limit::Argument(place, bytes.len()));
        }
        out.push(kind);
        out.extend((bytes.len() as u32).to_le_bytes());
        out.extend(bytes);
    }
    Ok(())
}

/// A count as its field has it.
fn count(parts: usize) -> Option<[u8; 2]> {
    let within = u16::try_from(parts).ok()?;
    (parts <= MOST_PARTS).then(|| within.to_le_bytes())
}

#[cfg(test)]
mod tests {
    use super::*;
    use crate::{cmd, pipe};
    use calls::record::{self, CacheSettings, Command, Record};
    use std::time::Duration;

    fn simple(text: &str) -> calls::Arg {
        calls::Arg::Simple(text.into())
    }

    /// The record that the comparison's own writer makes is the one written here.
    #[test]
    fn the_bytes_are_those_of_the_other_writer() {
        let ttl = CommandCacheConfig::new().set_client_side_ttl(Duration::from_millis(250));
        let mut pipeline = pipe();
        pipeline.atomic().cmd("GET").arg("trap7");
        pipeline.cmd("HSCAN").arg("traps").cursor_arg(7).arg("");
        pipeline.set_cache_config(ttl).ignore();
        let off = CommandCacheConfig::new().set_enable_cache(false);
        pipeline.add_command(Cmd::new()).set_cache_config(off);
        let get = Command {
            args: vec![simple("GET"), simple("trap7")],
            ..Command::default()
        };
        let scan = Command {
            ignored: true,
            cache: Some(CacheSettings {
                enable_cache: true,
                client_ttl: Some(250),
            }),
            cursor: 7,
            args: vec![
                simple("HSCAN"),
                simple("traps"),
                calls::Arg::Cursor,
                simple(""),
            ],
        };
        let none = Command {
            cache: Some(CacheSettings::default()),
            ..Command::default()
        };
        let expected = Record {
            transaction: true,
            commands: vec![get.clone(), scan, none],
        };
        let written = pipeline.get_record().expect("within the limits");
        assert_eq!(written, record::encode(&expected));
        assert_eq!(record::parse(&written), Ok(expected));

        let one = Record {
            transaction: false,
            commands: vec![get],
        };
        let written = cmd("GET").arg("trap7").get_record();
        assert_eq!(written.expect("within the limits"), record::encode(&one));
        let empty = pipe().get_record().expect("within the limits");
        assert_eq!(empty, record::encode(&Record::default()));
    }

    /// At the limits the record is right, past them it is not written; a number past its field's width too.
    #[test]
    fn limits_are_told() {
        let limit = |call: &dyn Fn(usize) -> Result<Vec<u8>, Error>, most: usize| {
            assert!(record::parse(&call(most).expect("within the limits")).is_ok());
            let refused = call(most + 1).expect_err("past the limit");
            assert_eq!(refused.number(), 2);
            refused.limit()
        };
        let commands = |n| {
            let mut pipeline = pipe();
            for _ in 0..n {
                pipeline.cmd("PING");
            }
            pipeline.get_record()
        };
        assert_eq!(limit(&commands, 1024), Some(Limit::Commands(1025)));
        assert_eq!(
            commands(65_537).expect_err("past the limit").limit(),
            Some(Limit::Commands(65_537))
        );
        let arguments = |n| {
            pipe()
                .cmd("PING")
                .cmd("MGET")
                .arg(vec!["k"; n - 1])
                .get_record()
        };
        assert_eq!(limit(&arguments, 1024), Some(Limit::Arguments(1, 1025)));
        let argument = |n| cmd("GET").arg(vec![b'k'; n]).get_record();
        assert_eq!(limit(&argument, 65_535), Some(Limit::Argument(0, 65_536)));
    }
}

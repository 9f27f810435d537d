//! What the program is asked for on its command line.

use std::path::PathBuf;
use std::time::Duration;

pub const HELP: &str = include_str!("../help.txt");

/// What the desk asks by.
#[derive(Clone, Copy, Debug, PartialEq, Eq)]
pub enum By {
    /// A `GET` for each trap.
    Get,
    /// One `MGET` for all traps.
    Mget,
    /// The `GET`s of all traps in one transaction.
    Transaction,
}

/// The protocol of what is read through the cache.
#[derive(Clone, Copy, Debug, PartialEq, Eq)]
pub enum Resp {
    /// RESP2, over two connections.
    Two,
    /// RESP3.
    Three,
}

#[derive(Debug, PartialEq, Eq)]
pub struct Options {
    pub address: Option<String>,
    pub time: Duration,
    pub opt_in: bool,
    pub by: By,
    pub resp: Resp,
    pub plain: bool,
    pub page: PathBuf,
}

#[derive(Debug, PartialEq, Eq)]
pub enum Asked {
    Run(Options),
    Help,
}

/// Reads the arguments behind the program's name; a sentence where one is wrong.
pub fn parse(mut args: impl Iterator<Item = String>) -> Result<Asked, String> {
    let mut options = Options {
        address: None,
        time: Duration::from_secs(12),
        opt_in: false,
        by: By::Get,
        resp: Resp::Three,
        plain: false,
        page: PathBuf::from("target/desk.html"),
    };
    while let Some(arg) = args.next() {
        let mut value = || {
            args.next()
                .ok_or_else(|| format!("{arg} needs a value: see --help"))
        };
        match arg.as_str() {
            "--address" => options.address = Some(value()?),
            "--seconds" => options.time = seconds(&value()?)?,
            "--page" => options.page = PathBuf::from(value()?),
            "--opt-in" => options.opt_in = true,
            "--by" => options.by = by(&value()?)?,
            "--resp" => options.resp = resp(&value()?)?,
            "--plain" => options.plain = true,
            "--help" | "-h" => return Ok(Asked::Help),
            other => return Err(format!("{other} is not known: see --help")),
        }
    }
    Ok(Asked::Run(options))
}

fn by(text: &str) -> Result<By, String> {
    match text {
        "get" => Ok(By::Get),
        "mget" => Ok(By::Mget),
        "transaction" => Ok(By::Transaction),
        _ => Err(format!(
            "--by takes get, mget or transaction, and not {text}"
        )),
    }
}

fn resp(text: &str) -> Result<Resp, String> {
    match text {
        "2" => Ok(Resp::Two),
        "3" => Ok(Resp::Three),
        _ => Err(format!("--resp takes 2 or 3, and not {text}")),
    }
}

fn seconds(text: &str) -> Result<Duration, String> {
    match text.parse() {
        Ok(n @ 1..=3600) => Ok(Duration::from_secs(n)),
        _ => Err(format!("--seconds takes 1 to 3600, and not {text}")),
    }
}

#[cfg(test)]
mod tests {
    use super::*;

    fn asked(line: &str) -> Result<Asked, String> {
        parse(line.split_whitespace().map(String::from))
    }

    #[test]
    fn options_are_read() {
        let Ok(Asked::Run(options)) = asked("--seconds 3 --opt-in --by mget --plain --page a.html")
        else {
            panic!("these are right")
        };
        assert_eq!(options.time, Duration::from_secs(3));
        assert!(options.opt_in && options.plain && options.address.is_none());
        assert_eq!((options.by, options.resp), (By::Mget, Resp::Three));
        let Ok(Asked::Run(options)) = asked("--resp 2") else {
            panic!("these are right")
        };
        assert_eq!(options.resp, Resp::Two);
        assert_eq!(asked("--help"), Ok(Asked::Help));
    }

    #[test]
    fn wrong_options_are_named() {
        for (line, said) in [
            ("--seconds", "--seconds needs a value: see --help"),
            ("--seconds 0", "--seconds takes 1 to 3600, and not 0"),
            (
                "--by set",
                "--by takes get, mget or transaction, and not set",
            ),
            ("--resp 1", "--resp takes 2 or 3, and not 1"),
            ("--fast", "--fast is not known: see --help"),
        ] {
            assert_eq!(asked(line), Err(said.to_string()));
        }
    }
}

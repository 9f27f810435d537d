//! What a real server does in the cases that docs/USING.md warns of. A push stands before the reply to the next command, so that a PING
//! shows whether there was one. Where redis-server is not installed, the tests say so and are left out.

mod common;

use common::Server;
use std::io::{BufRead, BufReader, Write};
use std::os::unix::net::UnixStream;

/// A connection without a cache.
struct Raw(BufReader<UnixStream>);

impl Raw {
    fn new(server: &Server) -> Self {
        Raw(BufReader::new(server.connect()))
    }

    /// All lines up to the reply to a PING behind the commands; the last is that reply.
    fn say(&mut self, commands: &[&str]) -> Vec<String> {
        for command in commands.iter().chain(&["PING"]) {
            let line = format!("{command}\r\n");
            self.0.get_mut().write_all(line.as_bytes()).expect("sent");
        }
        let mut lines = Vec::new();
        while lines.last().is_none_or(|line| line != "+PONG") {
            let mut line = String::new();
            assert_ne!(self.0.read_line(&mut line).expect("received"), 0);
            lines.push(line.trim_end().to_string());
        }
        lines
    }

    /// Whether a push has come since.
    fn pushed(&mut self) -> bool {
        self.say(&[]).iter().any(|line| line == "invalidate")
    }
}

/// A desk that begins with these commands, and another connection that writes trap7 behind them: whether the desk is told.
fn told(name: &str, commands: &[&str]) -> Option<bool> {
    let server = Server::start(name)?;
    let (mut desk, mut other) = (Raw::new(&server), Raw::new(&server));
    other.say(&["SET trap7 12"]);
    desk.say(&["HELLO 3"]);
    let heard = desk.say(commands);
    assert!(!heard.iter().any(|line| line.starts_with('-')), "{heard:?}");
    other.say(&["SET trap7 13"]);
    Some(desk.pushed())
}

#[test]
fn tracking_tells() {
    let told = told("tells", &["CLIENT TRACKING ON", "GET trap7"]);
    assert!(told.is_none_or(|told| told));
}

#[test]
fn what_stands_behind_the_flag_uses_it_up() {
    let commands = [
        "CLIENT TRACKING ON OPTIN",
        "CLIENT CACHING YES",
        "GET visits",
        "GET trap7",
    ];
    assert!(told("used-up", &commands).is_none_or(|told| !told));
}

#[test]
fn without_the_flag_an_opt_in_connection_tracks_nothing() {
    let commands = ["CLIENT TRACKING ON OPTIN", "GET trap7"];
    assert!(told("no-flag", &commands).is_none_or(|told| !told));
}

#[test]
fn an_own_write_under_noloop_ends_tracking() {
    let commands = ["CLIENT TRACKING ON NOLOOP", "GET trap7", "SET trap7 0"];
    assert!(told("noloop", &commands).is_none_or(|told| !told));
}

#[test]
fn in_a_transaction_the_flag_holds_for_all_of_it() {
    let commands = [
        "CLIENT TRACKING ON OPTIN",
        "MULTI",
        "CLIENT CACHING YES",
        "PTTL trap7",
        "GET trap7",
        "EXEC",
    ];
    assert!(told("transaction", &commands).is_none_or(|told| told));
}

/// In opt-in mode the flag goes to `PTTL`. A write before the command behind it is pushed, and with that tracking has ended: the
/// command reads the new value, and the write after it is not told.
#[test]
fn a_write_between_pttl_and_the_command() {
    let Some(server) = Server::start("between") else {
        return;
    };
    let (mut desk, mut other) = (Raw::new(&server), Raw::new(&server));
    other.say(&["SET trap7 12"]);
    desk.say(&["HELLO 3", "CLIENT TRACKING ON OPTIN"]);
    desk.say(&["CLIENT CACHING YES", "PTTL trap7"]);
    other.say(&["SET trap7 13"]);
    assert!(desk.pushed());
    assert!(desk.say(&["GET trap7"]).contains(&"13".to_string()));
    other.say(&["SET trap7 14"]);
    assert!(!desk.pushed());
}

#[test]
fn swapdb_is_not_told() {
    let Some(server) = Server::start("swapdb") else {
        return;
    };
    let (mut desk, mut other) = (Raw::new(&server), Raw::new(&server));
    other.say(&["SET trap7 12", "SELECT 1", "SET trap7 99"]);
    desk.say(&["HELLO 3", "CLIENT TRACKING ON", "GET trap7"]);
    other.say(&["SWAPDB 0 1"]);
    assert!(!desk.pushed());
    assert!(desk.say(&["GET trap7"]).contains(&"99".to_string()));
}

#[test]
fn several_keys_hide_a_wrong_type() {
    let Some(server) = Server::start("wrong-type") else {
        return;
    };
    let mut desk = Raw::new(&server);
    desk.say(&["HELLO 3", "HSET trap9 catch 3"]);
    assert_eq!(desk.say(&["MGET trap9"]), ["*1", "_", "+PONG"]);
    assert!(desk.say(&["GET trap9"])[0].starts_with("-WRONGTYPE"));
}

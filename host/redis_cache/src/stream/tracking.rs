//! How a connection begins.

use super::second::CHANNEL;
use crate::{Arg, CacheMode, Cmd, cmd};

/// A username and a password.
pub(super) type Auth<'a> = Option<(&'a str, &'a str)>;

/// What to send first on a connection: `HELLO 3`, for pushes need RESP3, and `CLIENT TRACKING ON`, in opt-in mode with `OPTIN`. Each
/// has one response. A mode that is not the tracking's caches what is never invalidated.
///
/// ```
/// use redis_cache::{CacheMode, tracking_on};
///
/// assert_eq!(
///     tracking_on(CacheMode::OptIn),
///     b"*2\r\n$5\r\nHELLO\r\n$1\r\n3\r\n\
///       *4\r\n$6\r\nCLIENT\r\n$8\r\nTRACKING\r\n$2\r\nON\r\n$5\r\nOPTIN\r\n"
/// );
/// ```
pub fn tracking_on(mode: CacheMode) -> Vec<u8> {
    greeting(mode, None).0
}

/// The bytes, with a login where one is given, and how many responses they have.
pub(super) fn greeting(mode: CacheMode, auth: Auth<'_>) -> (Vec<u8>, usize) {
    let mut hello = cmd("HELLO");
    hello.arg(3);
    if let Some((username, password)) = auth {
        hello.arg("AUTH").arg(username).arg(password);
    }
    packed(&[hello, tracking(mode, None)])
}

/// The same in RESP2, where invalidations go to the connection of this number; without the number they would go nowhere.
pub(super) fn redirected(mode: CacheMode, auth: Auth<'_>, to: i64) -> (Vec<u8>, usize) {
    let mut commands = login(auth);
    commands.push(tracking(mode, Some(to)));
    packed(&commands)
}

/// What that other connection begins with: its number is asked for, and it listens.
pub(super) fn subscribing(auth: Auth<'_>) -> Vec<u8> {
    let mut commands = login(auth);
    commands.push(cmd("CLIENT").arg("ID").take());
    commands.push(cmd("SUBSCRIBE").arg(CHANNEL).take());
    packed(&commands).0
}

fn tracking(mode: CacheMode, redirected: Option<i64>) -> Cmd {
    let mut tracking = cmd("CLIENT");
    tracking.arg(["TRACKING", "ON"]);
    if let Some(to) = redirected {
        tracking.arg("REDIRECT").arg(to);
    }
    if mode == CacheMode::OptIn {
        tracking.arg("OPTIN");
    }
    tracking
}

fn login(auth: Auth<'_>) -> Vec<Cmd> {
    let login = auth.map(|(username, password)| cmd("AUTH").arg(username).arg(password).take());
    login.into_iter().collect()
}

/// Commands as the server takes them, and how many there are.
fn packed(commands: &[Cmd]) -> (Vec<u8>, usize) {
    let mut bytes = Vec::new();
    commands
        .iter()
        .for_each(|command| pack(command, &mut bytes));
    (bytes, commands.len())
}

/// Appends a command as the server takes it.
fn pack(command: &Cmd, out: &mut Vec<u8>) {
    out.extend(format!("*{}\r\n", command.args_iter().len()).as_bytes());
    for arg in command.args_iter() {
        let Arg::Simple(bytes) = arg else { continue };
        out.extend(format!("${}\r\n", bytes.len()).as_bytes());
        out.extend(bytes);
        out.extend(b"\r\n");
    }
}

//! The program on a real server, as a user runs it: after every invalidation the fresh catch is read, whatever the mode, what the desk asks by, and what
//! happens to the server. The page is drawn by a browser where Debian's chromium is there. Where redis-server is not installed, the tests say so and
//! are left out.

#[path = "run/browser.rs"]
mod browser;
#[path = "run/server.rs"]
mod server;

use server::Server;
use std::collections::HashMap;
use std::io::{BufRead, BufReader};
use std::path::PathBuf;
use std::process::{Command, Stdio};

/// The traps of the program.
const TRAPS: [&str; 6] = ["north-1", "north-2", "hedge", "pond", "south-1", "south-2"];

/// A run of three seconds, in which something happens once sixty catches were read: its output and the path of its page.
fn run(name: &str, arguments: &[&str], mut happens: impl FnMut()) -> (String, PathBuf) {
    let page = PathBuf::from(env!("CARGO_TARGET_TMPDIR")).join(format!("{name}.html"));
    let _ = std::fs::remove_file(&page);
    let mut desk = Command::new(env!("CARGO_BIN_EXE_desk"))
        .args(["--plain", "--seconds", "3", "--page"])
        .arg(&page)
        .args(arguments)
        .stdout(Stdio::piped())
        .spawn()
        .expect("it runs");
    let (mut said, mut read) = (String::new(), 0);
    for line in BufReader::new(desk.stdout.take().expect("a pipe")).lines() {
        let line = line.expect("text");
        read += usize::from(line.contains(" read "));
        if read == 60 {
            read += 1;
            happens();
        }
        said += &line;
        said.push('\n');
    }
    let status = desk.wait().expect("it ends");
    assert!(status.success(), "{status}\n{said}");
    (said, page)
}

/// What is told of a run.
#[derive(Default)]
struct Seen {
    pushes: usize,
    /// Pushes for all traps, one behind the other.
    flushes: usize,
    reconnected: usize,
    from_cache: usize,
    /// A trap's catch was read, and later the server had none.
    expired: usize,
}

/// After every invalidation, and on every new connection, the server is asked; every trap's last reading agrees with the direct read.
fn fresh(said: &str) -> Seen {
    let mut seen = Seen::default();
    // For each trap: whether it was invalidated since it was last read, and whether the last reading agreed.
    let mut invalidated: HashMap<&str, bool> = HashMap::new();
    let mut agreed: HashMap<&str, bool> = HashMap::new();
    let mut caught: HashMap<&str, bool> = HashMap::new();
    let mut in_a_row = 0;
    for line in said.lines() {
        let words: Vec<&str> = line.split_whitespace().collect();
        match words[..] {
            [_, "push", trap] => {
                seen.pushes += 1;
                in_a_row = if trap == TRAPS[in_a_row % TRAPS.len()] {
                    in_a_row + 1
                } else {
                    0
                };
                seen.flushes += usize::from(in_a_row == TRAPS.len());
                invalidated.insert(trap, true);
                continue;
            }
            [_, "reconnected:", ..] => {
                seen.reconnected += 1;
                invalidated.extend(TRAPS.map(|trap| (trap, true)));
            }
            [_, "read", trap, catch, source, "direct", direct, ..] => {
                if invalidated.insert(trap, false) == Some(true) {
                    assert_eq!(source, "server", "not read anew: {line}\n{said}");
                }
                let had = caught.insert(trap, catch != "-") == Some(true);
                seen.expired += usize::from(had && catch == "-" && direct == "-");
                seen.from_cache += usize::from(source == "cache");
                agreed.insert(trap, catch == direct);
            }
            _ => {}
        }
        in_a_row = 0;
    }
    assert!(seen.pushes > 0, "no push came\n{said}");
    assert!(seen.from_cache > 0, "nothing was served\n{said}");
    assert_eq!(agreed.len(), 6, "a trap was not read\n{said}");
    assert!(
        agreed.values().all(|&agreed| agreed),
        "a stale catch at the end\n{said}"
    );
    assert!(said.contains("every trap's last reading agrees"), "{said}");
    seen
}

/// A run with a server of its own: fresh, and with a page, whose path is told.
fn on_its_own(name: &str, arguments: &[&str]) -> Option<PathBuf> {
    if !server::installed(name) {
        return None;
    }
    let (said, page) = run(name, arguments, || ());
    // The trap with the weak battery: its catch is forgotten by the server, which nobody writes.
    assert!(fresh(&said).expired > 0, "no catch expired\n{said}");
    let text = std::fs::read_to_string(&page).expect("the page is written");
    assert!(text.starts_with("<!doctype html>") && text.ends_with("</html>\n"));
    assert!(
        !text.contains("<script") && !text.contains("http"),
        "nothing from elsewhere"
    );
    Some(page)
}

#[test]
fn mode_all() {
    if let Some(page) = on_its_own("mode-all", &[]) {
        browser::draw(&page);
    }
}

#[test]
fn opt_in() {
    on_its_own("opt-in", &["--opt-in"]);
}

#[test]
fn several_keys() {
    on_its_own("several-keys", &["--by", "mget"]);
}

#[test]
fn several_keys_opt_in() {
    on_its_own("several-keys-opt-in", &["--by", "mget", "--opt-in"]);
}

#[test]
fn transactions() {
    on_its_own("transactions", &["--by", "transaction"]);
}

#[test]
fn transactions_opt_in() {
    on_its_own("transactions-opt-in", &["--by", "transaction", "--opt-in"]);
}

#[test]
fn resp2() {
    on_its_own("resp2", &["--resp", "2"]);
}

#[test]
fn resp2_several_keys_opt_in() {
    let arguments = ["--resp", "2", "--by", "mget", "--opt-in"];
    on_its_own("resp2-several-keys-opt-in", &arguments);
}

#[test]
fn resp2_transactions() {
    let arguments = ["--resp", "2", "--by", "transaction"];
    on_its_own("resp2-transactions", &arguments);
}

/// Everything on the server is gone at once: the desk is told, and reads what there is then.
fn flushed(name: &str, resp: &str) {
    let Some(server) = Server::start(name) else {
        return;
    };
    let address = server.address();
    let arguments = ["--address", &address, "--resp", resp];
    let (said, _) = run(name, &arguments, || server.flush());
    assert!(fresh(&said).flushes > 0, "the flush was not told\n{said}");
}

#[test]
fn flushall() {
    flushed("flushall", "3");
}

#[test]
fn resp2_flushall() {
    flushed("resp2-flushall", "2");
}

/// The server is stopped, and another one, which knows nothing, takes its place: a new epoch, in which nothing of before is served.
fn restarted(name: &str, resp: &str) {
    let Some(server) = Server::start(name) else {
        return;
    };
    let address = server.address();
    let mut server = Some(server);
    let arguments = ["--address", &address, "--resp", resp];
    let (said, _) = run(name, &arguments, || {
        server = server.take().map(Server::again);
    });
    assert!(fresh(&said).reconnected > 0, "no new connection\n{said}");
}

#[test]
fn restart() {
    restarted("restart", "3");
}

#[test]
fn resp2_restart() {
    restarted("resp2-restart", "2");
}

/// The connection on which the server tells of changes is closed, and the other one is not: both are made anew.
#[test]
fn resp2_second_connection_closed() {
    let Some(server) = Server::start("resp2-closed") else {
        return;
    };
    let address = server.address();
    let arguments = ["--address", &address, "--resp", "2"];
    let (said, _) = run("resp2-closed", &arguments, || {
        assert_eq!(server.ask("CLIENT KILL TYPE pubsub"), ":1");
    });
    assert!(fresh(&said).reconnected > 0, "no new connection\n{said}");
}

#[test]
fn wrong_arguments_are_refused() {
    let output = Command::new(env!("CARGO_BIN_EXE_desk"))
        .arg("--fast")
        .output()
        .expect("it runs");
    assert_eq!(output.status.code(), Some(2));
    assert_eq!(output.stderr, b"--fast is not known: see --help\n");
}

/// Keys of others are left alone.
#[test]
fn a_server_with_such_keys_is_refused() {
    let Some(server) = Server::start("others") else {
        return;
    };
    server.ask("SET trap:pond:catch 7");
    let output = Command::new(env!("CARGO_BIN_EXE_desk"))
        .args(["--plain", "--address", &server.address()])
        .output()
        .expect("it runs");
    assert_eq!(output.status.code(), Some(2));
    assert!(String::from_utf8_lossy(&output.stderr).contains("trap:pond:catch"));
    assert_eq!(server.ask("GET trap:pond:catch"), "$1");
}

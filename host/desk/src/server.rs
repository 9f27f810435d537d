//! A Redis server of the program's own, on loopback, that is gone when the program is.

use std::fs;
use std::io::{self, ErrorKind};
use std::net::TcpListener;
use std::path::PathBuf;
use std::process::{Child, Command, Stdio};
use std::thread::sleep;
use std::time::{Duration, Instant};

/// Runs the server and waits for the end of its own input, which comes when this program ends, however it ends: Ctrl-C, a panic
/// or a kill. Then the server is stopped and its folder removed.
const WATCH: &str = r#"
trap '' INT TERM HUP
folder=$1
shift
redis-server "$@" >/dev/null 2>&1 &
server=$!
read -r _
kill "$server" 2>/dev/null
wait "$server"
rm -rf "$folder"
"#;

/// How long the server may take to start; a loaded machine takes a while.
const PATIENCE: Duration = Duration::from_secs(60);

pub struct Server {
    watch: Child,
    pub address: String,
}

impl Server {
    /// Starts a server on a free port, without persistence.
    pub fn start() -> Result<Self, String> {
        let there = Command::new("redis-server").arg("--version").output();
        match there {
            Err(e) if e.kind() == ErrorKind::NotFound => {
                return Err("redis-server is not installed: install Debian's package redis-server, or give --address HOST:PORT".into());
            }
            other => other.map_err(|e| format!("redis-server cannot be run: {e}"))?,
        };
        // A port that was free a moment ago may be taken by now: then another one is tried.
        for attempt in 0..5 {
            if let Some(server) = Self::on_some_port(attempt)
                .map_err(|e| format!("no server could be started: {e}"))?
            {
                return Ok(server);
            }
        }
        Err("no server could be started: its log was not ready in time, five times over".into())
    }

    fn on_some_port(attempt: u32) -> io::Result<Option<Self>> {
        let port = TcpListener::bind("127.0.0.1:0")?.local_addr()?.port();
        let folder = new_folder(attempt)?;
        let log = folder.join("log");
        let watch = Command::new("sh")
            .args(["-c", WATCH, "watch"])
            .arg(&folder)
            .args(["--bind", "127.0.0.1", "--port"])
            .arg(port.to_string())
            .args(["--save", "", "--appendonly", "no", "--daemonize", "no"])
            .arg("--dir")
            .arg(&folder)
            .arg("--logfile")
            .arg(&log)
            .stdin(Stdio::piped())
            .stdout(Stdio::null())
            .stderr(Stdio::null())
            .spawn()?;
        let server = Server {
            watch,
            address: format!("127.0.0.1:{port}"),
        };
        let began = Instant::now();
        while began.elapsed() < PATIENCE {
            let said = fs::read_to_string(&log).unwrap_or_default();
            if said.contains("Ready to accept connections") {
                return Ok(Some(server));
            }
            if said.contains("aborting") || said.contains("Failed") {
                break;
            }
            sleep(Duration::from_millis(20));
        }
        Ok(None)
    }
}

impl Drop for Server {
    fn drop(&mut self) {
        drop(self.watch.stdin.take());
        let _ = self.watch.wait();
    }
}

fn new_folder(attempt: u32) -> io::Result<PathBuf> {
    let name = format!("desk-{}-{attempt}", std::process::id());
    let folder = std::env::temp_dir().join(name);
    fs::create_dir(&folder)?;
    Ok(folder)
}

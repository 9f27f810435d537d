//! A Redis server for tests, Debian's redis-server, over a Unix socket.

use std::io::ErrorKind;
use std::os::unix::net::UnixStream;
use std::path::PathBuf;
use std::process::{Child, Command, Stdio};
use std::thread::sleep;
use std::time::Duration;

/// A server of its own for each test.
pub struct Server {
    running: Child,
    socket: PathBuf,
}

impl Server {
    pub fn start(name: &str) -> Option<Self> {
        let socket = std::env::temp_dir().join(format!("{name}-{}.sock", std::process::id()));
        let running = Command::new("redis-server")
            .args(["--port", "0", "--save", "", "--unixsocket"])
            .arg(&socket)
            .stdout(Stdio::null())
            .spawn();
        match running {
            Ok(running) => Some(Server { running, socket }),
            Err(missing) if missing.kind() == ErrorKind::NotFound => {
                eprintln!("redis-server is not installed: {name} is left out");
                None
            }
            Err(other) => panic!("{other}"),
        }
    }

    pub fn connect(&self) -> UnixStream {
        for _ in 0..500 {
            match UnixStream::connect(&self.socket) {
                Ok(socket) => return socket,
                Err(_) => sleep(Duration::from_millis(20)),
            }
        }
        panic!("the server does not start")
    }
}

impl Drop for Server {
    fn drop(&mut self) {
        let _ = self.running.kill();
        let _ = self.running.wait();
        let _ = std::fs::remove_file(&self.socket);
    }
}

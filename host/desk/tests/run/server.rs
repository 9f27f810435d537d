//! A server that the test stops, starts again and speaks to itself.

use std::io::{BufRead, BufReader, Write};
use std::net::{TcpListener, TcpStream};
use std::process::{Child, Command, Stdio};
use std::thread::sleep;
use std::time::Duration;

/// Whether redis-server is there; says so where it is not.
pub fn installed(name: &str) -> bool {
    let there = Command::new("redis-server")
        .arg("--version")
        .output()
        .is_ok();
    if !there {
        eprintln!("redis-server is not installed: {name} is left out");
    }
    there
}

pub struct Server {
    running: Child,
    port: u16,
}

impl Server {
    pub fn start(name: &str) -> Option<Self> {
        if !installed(name) {
            return None;
        }
        // A port that was free a moment ago may be taken by now: then another one is tried.
        let started = (0..20).find_map(|_| {
            let free = TcpListener::bind("127.0.0.1:0").expect("a port");
            let port = free.local_addr().expect("an address").port();
            drop(free);
            Self::on(port)
        });
        Some(started.expect("a server that starts"))
    }

    /// A server on this port, once it answers; none where it ends, since the port is taken.
    fn on(port: u16) -> Option<Self> {
        let running = Command::new("redis-server")
            .args(["--bind", "127.0.0.1", "--save", "", "--port"])
            .arg(port.to_string())
            .stdout(Stdio::null())
            .spawn()
            .expect("it is installed");
        let mut server = Server { running, port };
        for _ in 0..500 {
            sleep(Duration::from_millis(20));
            if server.running.try_wait().expect("its state").is_some() {
                return None;
            }
            if server.answers() {
                return Some(server);
            }
        }
        None
    }

    /// Whether a Redis server answers. A connection alone says nothing: while none listens yet, a socket may be given the port and be connected to itself.
    fn answers(&self) -> bool {
        let asked = || -> std::io::Result<String> {
            let mut socket = TcpStream::connect(self.address())?;
            socket.set_read_timeout(Some(Duration::from_secs(1)))?;
            socket.write_all(b"PING\r\n")?;
            let mut line = String::new();
            BufReader::new(socket).read_line(&mut line)?;
            Ok(line)
        };
        asked().is_ok_and(|line| line == "+PONG\r\n")
    }

    /// Stops it, and starts another one in its place.
    pub fn again(self) -> Self {
        let port = self.port;
        drop(self);
        let started = (0..20).find_map(|_| Self::on(port));
        started.expect("a server that starts")
    }

    pub fn address(&self) -> String {
        format!("127.0.0.1:{}", self.port)
    }

    pub fn flush(&self) {
        assert_eq!(self.ask("FLUSHALL"), "+OK");
    }

    /// The first line of the reply to a command.
    pub fn ask(&self, command: &str) -> String {
        let mut socket = TcpStream::connect(self.address()).expect("the server is there");
        socket
            .write_all(format!("{command}\r\n").as_bytes())
            .expect("sent");
        let mut line = String::new();
        BufReader::new(socket)
            .read_line(&mut line)
            .expect("received");
        line.trim_end().into()
    }
}

impl Drop for Server {
    fn drop(&mut self) {
        let _ = self.running.kill();
        let _ = self.running.wait();
    }
}

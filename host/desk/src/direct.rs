//! A connection without a cache: for the traps that post, and for the direct reads.

use std::io::{self, BufRead, BufReader, ErrorKind, Read, Write};
use std::net::TcpStream;
use std::thread::sleep;
use std::time::{Duration, Instant};

/// How long the server may be away.
const PATIENCE: Duration = Duration::from_secs(60);

pub struct Direct {
    address: String,
    socket: BufReader<TcpStream>,
}

impl Direct {
    pub fn connect(address: &str) -> io::Result<Self> {
        Ok(Direct {
            address: address.into(),
            socket: open(address)?,
        })
    }

    /// The reply to a command that may be done twice. Where the server went away, it is asked again once it is back.
    pub fn ask(&mut self, command: &str) -> io::Result<Option<String>> {
        let began = Instant::now();
        loop {
            match self.ask_once(command) {
                Err(e) if e.kind() != ErrorKind::Other && began.elapsed() < PATIENCE => {
                    sleep(Duration::from_millis(50));
                    if let Ok(socket) = open(&self.address) {
                        self.socket = socket;
                    }
                }
                answered => return answered,
            }
        }
    }

    /// Sends a command whose words hold no spaces, and reads its reply: a number or a string as text, none for null.
    fn ask_once(&mut self, command: &str) -> io::Result<Option<String>> {
        let line = format!("{command}\r\n");
        self.socket.get_mut().write_all(line.as_bytes())?;
        let mut head = String::new();
        self.socket.read_line(&mut head)?;
        let rest = head.get(1..).unwrap_or("").trim_end();
        match head.as_bytes().first() {
            Some(b'+' | b':') => Ok(Some(rest.into())),
            Some(b'$') if rest == "-1" => Ok(None),
            Some(b'$') => {
                let length: usize = rest.parse().map_err(io::Error::other)?;
                let mut bytes = vec![0; length + 2];
                self.socket.read_exact(&mut bytes)?;
                bytes.truncate(length);
                String::from_utf8(bytes).map(Some).map_err(io::Error::other)
            }
            None => Err(ErrorKind::UnexpectedEof.into()),
            _ => Err(io::Error::other(format!(
                "'{command}' was answered by '{}'",
                head.trim_end()
            ))),
        }
    }
}

fn open(address: &str) -> io::Result<BufReader<TcpStream>> {
    let socket = TcpStream::connect(address)?;
    socket.set_nodelay(true)?;
    socket.set_read_timeout(Some(PATIENCE))?;
    Ok(BufReader::new(socket))
}

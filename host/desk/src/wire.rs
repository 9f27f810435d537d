//! The connection that is read through the cache, or in RESP2 the two. A thread waits at each, so that neither is heard late because the other is silent.

use std::io::{self, ErrorKind, Read, Write};
use std::net::{Shutdown, TcpStream};
use std::sync::mpsc::{Receiver, Sender, channel};
use std::thread::{sleep, spawn};
use std::time::{Duration, Instant};

/// How long the server may be away before the program gives up.
const PATIENCE: Duration = Duration::from_secs(60);

/// What arrived.
pub enum Arrived {
    Replies(Vec<u8>),
    /// On the second connection.
    Invalidations(Vec<u8>),
    /// A connection is gone.
    End,
}

pub struct Wire {
    sockets: Vec<TcpStream>,
    arrived: Receiver<Arrived>,
}

impl Wire {
    /// Connects, and where something is to be said on a second connection, makes that one too and says it.
    pub fn open(address: &str, on_second: &[u8]) -> Result<Self, String> {
        let began = Instant::now();
        loop {
            match Self::once(address, on_second) {
                Ok(wire) => return Ok(wire),
                Err(e) if began.elapsed() > PATIENCE => {
                    return Err(format!("no server at {address}: {e}"));
                }
                Err(e) if e.kind() == ErrorKind::InvalidInput => {
                    return Err(format!("{address}: {e}"));
                }
                Err(_) => sleep(Duration::from_millis(100)),
            }
        }
    }

    fn once(address: &str, on_second: &[u8]) -> io::Result<Self> {
        let (sender, arrived) = channel();
        let mut wire = Wire {
            sockets: Vec::new(),
            arrived,
        };
        wire.connect(address, sender.clone(), Arrived::Replies)?;
        if !on_second.is_empty() {
            let mut second = wire.connect(address, sender, Arrived::Invalidations)?;
            second.write_all(on_second)?;
        }
        Ok(wire)
    }

    fn connect(
        &mut self,
        address: &str,
        sender: Sender<Arrived>,
        as_what: fn(Vec<u8>) -> Arrived,
    ) -> io::Result<TcpStream> {
        let socket = TcpStream::connect(address)?;
        socket.set_nodelay(true)?;
        let (heard, said) = (socket.try_clone()?, socket.try_clone()?);
        self.sockets.push(socket);
        spawn(move || hear(heard, &sender, as_what));
        Ok(said)
    }

    /// Sends on the first connection.
    pub fn write(&mut self, bytes: &[u8]) -> io::Result<()> {
        self.sockets[0].write_all(bytes)
    }

    /// What arrives next, if it does in this time.
    pub fn arrived(&self, time: Duration) -> Option<Arrived> {
        self.arrived.recv_timeout(time).ok()
    }
}

impl Drop for Wire {
    /// Ends the threads too.
    fn drop(&mut self) {
        for socket in &self.sockets {
            let _ = socket.shutdown(Shutdown::Both);
        }
    }
}

/// Passes on what arrives, and in the end that there is no more.
fn hear(mut socket: TcpStream, sender: &Sender<Arrived>, as_what: fn(Vec<u8>) -> Arrived) {
    let mut bytes = [0; 4096];
    loop {
        let arrived = match socket.read(&mut bytes) {
            Err(e) if e.kind() == ErrorKind::Interrupted => continue,
            Ok(0) | Err(_) => Arrived::End,
            Ok(n) => as_what(bytes[..n].to_vec()),
        };
        let over = matches!(arrived, Arrived::End);
        if sender.send(arrived).is_err() || over {
            return;
        }
    }
}

//! The traps: which there are, and what they post.

use crate::direct::Direct;
use std::io;
use std::sync::mpsc::{Receiver, RecvTimeoutError, Sender};
use std::time::Duration;

/// The traps' names.
pub const TRAPS: [&str; 6] = ["north-1", "north-2", "hedge", "pond", "south-1", "south-2"];

/// What each trap catches, night by night, and over again. A single moth in one night is no flight; `pond` catches none.
const CATCHES: [[u32; 16]; 6] = [
    [0, 0, 0, 1, 2, 4, 7, 9, 12, 11, 8, 6, 3, 2, 1, 0],
    [0, 1, 0, 0, 0, 2, 3, 6, 8, 9, 9, 7, 4, 2, 0, 0],
    [0, 0, 1, 0, 0, 0, 1, 3, 2, 5, 4, 4, 2, 1, 0, 0],
    [0; 16],
    [0, 2, 5, 8, 13, 17, 15, 14, 10, 9, 6, 4, 2, 1, 1, 0],
    [0, 0, 2, 3, 0, 4, 5, 7, 9, 8, 8, 5, 3, 1, 0, 0],
];

/// The trap whose battery is low: it leaves out every third night, and each post of it holds a little longer than a night, so that
/// the server forgets the catch in between.
const WEAK: usize = 5;

/// The key of a trap's catch.
pub fn key(trap: usize) -> String {
    format!("trap:{}:catch", TRAPS[trap])
}

/// The trap that a key belongs to.
pub fn trap_of(key: &[u8]) -> Option<usize> {
    (0..TRAPS.len()).find(|&trap| self::key(trap).as_bytes() == key)
}

/// A catch that was posted.
pub struct Post {
    pub trap: usize,
    pub catch: u32,
}

/// Posts night after night, one trap after the other, until told to end; the pause comes after each post.
pub fn post_all(
    address: &str,
    pause: Duration,
    posts: &Sender<Post>,
    end: &Receiver<()>,
) -> io::Result<()> {
    let mut server = Direct::connect(address)?;
    let holds = pause * 7;
    for night in 0.. {
        for trap in 0..TRAPS.len() {
            let catch = CATCHES[trap][night % CATCHES[trap].len()];
            if trap != WEAK || night % 3 != 2 {
                let mut post = format!("SET {} {catch}", key(trap));
                if trap == WEAK {
                    post += &format!(" PX {}", holds.as_millis());
                }
                server.ask(&post)?;
                let _ = posts.send(Post { trap, catch });
            }
            match end.recv_timeout(pause) {
                Err(RecvTimeoutError::Timeout) => {}
                _ => return Ok(()),
            }
        }
    }
    Ok(())
}

#[cfg(test)]
mod tests {
    use super::*;

    #[test]
    fn keys_name_their_traps() {
        for trap in 0..TRAPS.len() {
            assert_eq!(trap_of(key(trap).as_bytes()), Some(trap));
        }
        assert_eq!(trap_of(b"trap:none:catch"), None);
    }
}

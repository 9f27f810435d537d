//! What document 02 asks for where the crate does otherwise. It holds for every cache but one that is as published.

use crate::cmd::{Arg, Cmd};
use std::cell::Cell;

thread_local! {
    static HOLD: Cell<bool> = const { Cell::new(true) };
}

/// Sets whether the requests hold for this thread's calls.
pub(crate) fn set(hold: bool) {
    HOLD.set(hold);
}

/// Request 5: of some names a command is never cacheable, of others only with one argument behind the name, a simple one.
pub(crate) fn refuses_arguments(cmd: &Cmd) -> bool {
    let arguments: Vec<Arg<&[u8]>> = cmd.args_iter().collect();
    let refused = match arguments.as_slice() {
        [
            Arg::Simple(b"LCS" | b"SINTERCARD" | b"ZDIFF" | b"ZINTER" | b"ZINTERCARD" | b"ZUNION"),
            ..,
        ] => true,
        [
            Arg::Simple(b"EXISTS" | b"SDIFF" | b"SINTER" | b"SUNION"),
            behind @ ..,
        ] => !matches!(behind, [Arg::Simple(_)]),
        _ => false,
    };
    HOLD.get() && refused
}

/// Request 4: a command of several keys that has none is not cacheable.
pub(crate) fn refuses_no_key(keys: usize) -> bool {
    HOLD.get() && keys == 0
}

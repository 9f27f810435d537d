//! Commands as they are sent, and arrays of values that stand there as bytes.

use calls::{Arg, Command};

/// The array of these values.
pub fn array<A: AsRef<[u8]>>(values: &[A]) -> Vec<u8> {
    let mut out = format!("*{}\r\n", values.len()).into_bytes();
    values.iter().for_each(|value| out.extend(value.as_ref()));
    out
}

/// Appends a command of these arguments.
pub fn write<A: AsRef<[u8]>>(out: &mut Vec<u8>, args: &[A]) {
    out.extend(format!("*{}\r\n", args.len()).bytes());
    for arg in args {
        let arg = arg.as_ref();
        out.extend(format!("${}\r\n", arg.len()).bytes());
        out.extend(arg);
        out.extend(b"\r\n");
    }
}

/// Appends a command of a record; a cursor argument prints the command's cursor.
pub fn write_command(out: &mut Vec<u8>, command: &Command) {
    let printed = |arg: &Arg| match arg {
        Arg::Simple(bytes) => bytes.clone(),
        Arg::Cursor => command.cursor.to_string().into_bytes(),
    };
    write(out, &command.args.iter().map(printed).collect::<Vec<_>>());
}

/// What is sent: the commands' bytes and their number.
#[derive(Default)]
pub struct Sent {
    bytes: Vec<u8>,
    commands: u64,
}

impl Sent {
    /// Adds a command of these arguments.
    pub fn add<A: AsRef<[u8]>>(&mut self, args: &[A]) {
        write(&mut self.bytes, args);
        self.commands += 1;
    }

    /// Adds a command of a record.
    pub fn add_command(&mut self, command: &Command) {
        write_command(&mut self.bytes, command);
        self.commands += 1;
    }

    /// The bytes, a transaction's inside `MULTI` and `EXEC`, and how many responses to skip and to take.
    pub fn finish(self, transaction: bool) -> (Vec<u8>, (u64, u64)) {
        if !transaction {
            return (self.bytes, (0, self.commands));
        }
        let mut out = Vec::new();
        write(&mut out, &["MULTI"]);
        out.extend(self.bytes);
        write(&mut out, &["EXEC"]);
        (out, (self.commands + 1, 1))
    }
}

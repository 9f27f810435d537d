//! The crate's pipelines and commands, made from a call record.

use crate::cmd::CommandCacheConfig;
use crate::{Cmd, Pipeline};
use calls::{Arg, Command, Record};
use std::time::Duration;

/// The pipeline of a record.
pub(crate) fn pipeline(record: &Record) -> Pipeline {
    let mut pipeline = Pipeline::new();
    if record.transaction {
        pipeline.atomic();
    }
    for command in &record.commands {
        pipeline.add_command(cmd(command));
        if command.ignored {
            pipeline.ignore();
        }
    }
    pipeline
}

/// One command as the crate has it.
pub struct Request(Cmd);

impl Request {
    /// The crate's command.
    pub fn new(command: &Command) -> Self {
        Request(cmd(command))
    }

    /// `Cmd::write_packed_command`.
    pub fn write_packed_command(&self, dst: &mut Vec<u8>) {
        self.0.write_packed_command(dst);
    }
}

fn cmd(command: &Command) -> Cmd {
    let mut cmd = Cmd::new();
    for arg in &command.args {
        match arg {
            Arg::Simple(bytes) => cmd.arg(bytes.as_slice()),
            Arg::Cursor => cmd.cursor_arg(command.cursor),
        };
    }
    if let Some(settings) = command.cache {
        let mut config = CommandCacheConfig::new().set_enable_cache(settings.enable_cache);
        if let Some(ttl) = settings.client_ttl {
            config = config.set_client_side_ttl(Duration::from_millis(ttl));
        }
        cmd.set_cache_config(config);
    }
    cmd
}

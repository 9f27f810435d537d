//! The connection that the sources name and the cache never uses.

use crate::{Cmd, RedisResult, Value};

/// What the commands' and pipelines' own queries call.
pub trait ConnectionLike {
    /// Sends packed bytes and takes one value.
    fn req_packed_command(&mut self, cmd: &[u8]) -> RedisResult<Value>;
    /// Sends packed bytes and takes several values.
    fn req_packed_commands(
        &mut self,
        cmd: &[u8],
        offset: usize,
        count: usize,
    ) -> RedisResult<Vec<Value>>;
    /// Sends a command and takes one value.
    fn req_command(&mut self, cmd: &Cmd) -> RedisResult<Value>;
    /// Whether pipelines may be sent.
    fn supports_pipelining(&self) -> bool;
}

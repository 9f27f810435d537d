//! Pipelines, built under the names of the crate redis (pipeline.rs there).

use crate::{Cmd, CommandCacheConfig, ToRedisArgs, cmd};

/// Several commands that are planned, sent and answered together.
///
/// ```
/// let mut pipeline = redis_cache::pipe();
/// pipeline
///     .cmd("SET").arg("trap7").arg(12).ignore()
///     .cmd("MGET").arg(&["trap7", "trap8"]);
/// assert_eq!(pipeline.len(), 2);
/// ```
#[derive(Clone, Debug, Default, PartialEq, Eq)]
pub struct Pipeline {
    commands: Vec<Cmd>,
    ignored: Vec<bool>,
    transaction: bool,
}

impl Pipeline {
    /// A pipeline with no commands yet.
    ///
    /// ```
    /// assert!(redis_cache::Pipeline::new().is_empty());
    /// ```
    pub fn new() -> Self {
        Self::default()
    }

    /// Wraps the commands in `MULTI` and `EXEC`. The answers are the same as without.
    ///
    /// ```
    /// let mut pipeline = redis_cache::pipe();
    /// pipeline.atomic().cmd("GET").arg("trap7");
    /// assert!(pipeline.is_transaction());
    /// ```
    pub fn atomic(&mut self) -> &mut Self {
        self.transaction = true;
        self
    }

    /// Whether it is a transaction.
    ///
    /// ```
    /// assert!(!redis_cache::pipe().is_transaction());
    /// ```
    pub fn is_transaction(&self) -> bool {
        self.transaction
    }

    /// How many commands it has.
    ///
    /// ```
    /// assert_eq!(redis_cache::pipe().cmd("PING").len(), 1);
    /// ```
    pub fn len(&self) -> usize {
        self.commands.len()
    }

    /// Whether it has none.
    ///
    /// ```
    /// assert!(redis_cache::pipe().is_empty());
    /// ```
    pub fn is_empty(&self) -> bool {
        self.commands.is_empty()
    }

    /// Appends a command.
    ///
    /// ```
    /// use redis_cache::{cmd, pipe};
    ///
    /// assert_eq!(pipe().add_command(cmd("PING")).len(), 1);
    /// ```
    pub fn add_command(&mut self, cmd: Cmd) -> &mut Self {
        self.commands.push(cmd);
        self.ignored.push(false);
        self
    }

    /// Begins a command of this name, to which [`Pipeline::arg`] and the others then belong.
    ///
    /// ```
    /// let mut pipeline = redis_cache::pipe();
    /// pipeline.cmd("GET").arg("trap7").cmd("GET").arg("trap8");
    /// assert_eq!(pipeline.len(), 2);
    /// ```
    pub fn cmd(&mut self, name: &str) -> &mut Self {
        self.add_command(cmd(name))
    }

    /// Appends an argument to the last command, as [`Cmd::arg`] does.
    ///
    /// # Panics
    /// Where no command was begun.
    ///
    /// ```
    /// let mut pipeline = redis_cache::pipe();
    /// pipeline.cmd("GET").arg("trap7");
    /// let get = pipeline.cmd_iter().next().expect("one command");
    /// assert_eq!(get.args_iter().len(), 2);
    /// ```
    pub fn arg<T: ToRedisArgs>(&mut self, arg: T) -> &mut Self {
        self.last().arg(arg);
        self
    }

    /// Appends the cursor to the last command, as [`Cmd::cursor_arg`] does.
    ///
    /// # Panics
    /// Where no command was begun.
    ///
    /// ```
    /// let mut pipeline = redis_cache::pipe();
    /// pipeline.cmd("SSCAN").arg("traps").cursor_arg(0);
    /// assert!(pipeline.cmd_iter().all(|cmd| cmd.in_scan_mode()));
    /// ```
    pub fn cursor_arg(&mut self, cursor: u64) -> &mut Self {
        self.last().cursor_arg(cursor);
        self
    }

    /// What the last command asks of the cache, as [`Cmd::set_cache_config`] does.
    ///
    /// # Panics
    /// Where no command was begun.
    ///
    /// ```
    /// use redis_cache::{CommandCacheConfig, pipe};
    ///
    /// let mut pipeline = pipe();
    /// pipeline.cmd("GET").arg("trap7").set_cache_config(CommandCacheConfig::new());
    /// assert!(pipeline.cmd_iter().all(|cmd| cmd.get_cache_config().is_some()));
    /// ```
    pub fn set_cache_config(&mut self, command_cache_config: CommandCacheConfig) -> &mut Self {
        self.last().set_cache_config(command_cache_config);
        self
    }

    /// The last command is sent, is not looked up, and has no part in what [`Answer::query`](crate::Answer::query) converts.
    ///
    /// ```
    /// let mut pipeline = redis_cache::pipe();
    /// pipeline.cmd("SET").arg("trap7").arg(12).ignore().cmd("GET").arg("trap7");
    /// assert_eq!(pipeline.len(), 2);
    /// ```
    pub fn ignore(&mut self) -> &mut Self {
        if let Some(last) = self.ignored.last_mut() {
            *last = true;
        }
        self
    }

    /// Removes the commands, and keeps their memory and whether it is a transaction.
    ///
    /// ```
    /// let mut pipeline = redis_cache::pipe();
    /// pipeline.cmd("PING").clear();
    /// assert!(pipeline.is_empty());
    /// ```
    pub fn clear(&mut self) {
        self.commands.clear();
        self.ignored.clear();
    }

    /// The commands in order.
    ///
    /// ```
    /// let mut pipeline = redis_cache::pipe();
    /// pipeline.cmd("PING").cmd("PING");
    /// assert_eq!(pipeline.cmd_iter().count(), 2);
    /// ```
    pub fn cmd_iter(&self) -> impl Iterator<Item = &Cmd> {
        self.commands.iter()
    }

    pub(crate) fn commands(&self) -> &[Cmd] {
        &self.commands
    }

    /// Which commands are ignored.
    pub(crate) fn ignored(&self) -> &[bool] {
        &self.ignored
    }

    fn last(&mut self) -> &mut Cmd {
        self.commands
            .last_mut()
            .expect("`cmd` begins a command first")
    }
}

/// An empty pipeline.
///
/// ```
/// assert_eq!(redis_cache::pipe(), redis_cache::Pipeline::new());
/// ```
pub fn pipe() -> Pipeline {
    Pipeline::new()
}

//! Commands, built under the names of the crate redis (cmd.rs there).

mod args;

pub use args::ToRedisArgs;

use std::time::Duration;

/// One argument of a command.
///
/// ```
/// use redis_cache::{Arg, cmd};
///
/// let mut scan = cmd("HSCAN");
/// scan.arg("traps").cursor_arg(7);
/// let args: Vec<_> = scan.args_iter().collect();
/// assert_eq!(args, [Arg::Simple(&b"HSCAN"[..]), Arg::Simple(b"traps"), Arg::Cursor]);
/// ```
#[derive(Clone, Copy, Debug, PartialEq, Eq)]
pub enum Arg<D> {
    /// Bytes.
    Simple(D),
    /// The command's cursor, which is sent in decimal.
    Cursor,
}

/// What one command asks of the cache.
///
/// ```
/// use redis_cache::{CommandCacheConfig, cmd};
/// use std::time::Duration;
///
/// let brief = CommandCacheConfig::new().set_client_side_ttl(Duration::from_secs(5));
/// let mut get = cmd("GET");
/// get.arg("trap7").set_cache_config(brief);
/// assert_eq!(get.get_cache_config(), Some(brief));
/// ```
#[derive(Clone, Copy, Debug, PartialEq, Eq)]
pub struct CommandCacheConfig {
    enable_cache: bool,
    client_side_ttl: Option<Duration>,
}

impl CommandCacheConfig {
    /// The cache is asked for, with the cache's own default TTL.
    ///
    /// ```
    /// assert!(redis_cache::CommandCacheConfig::new().enable_cache());
    /// ```
    pub fn new() -> Self {
        CommandCacheConfig {
            enable_cache: true,
            client_side_ttl: None,
        }
    }

    /// Whether the command takes part in [`CacheMode::OptIn`](crate::CacheMode::OptIn). In
    /// [`CacheMode::All`](crate::CacheMode::All) it always does.
    ///
    /// ```
    /// let out = redis_cache::CommandCacheConfig::new().set_enable_cache(false);
    /// assert!(!out.enable_cache());
    /// ```
    #[must_use]
    pub fn set_enable_cache(mut self, enable_cache: bool) -> Self {
        self.enable_cache = enable_cache;
        self
    }

    /// How long the answer is kept at most, in place of the cache's default. Parts of a millisecond are dropped.
    ///
    /// ```
    /// # use std::time::Duration;
    /// let brief = redis_cache::CommandCacheConfig::new().set_client_side_ttl(Duration::from_secs(5));
    /// assert_eq!(brief.client_side_ttl(), Some(Duration::from_secs(5)));
    /// ```
    #[must_use]
    pub fn set_client_side_ttl(mut self, client_side_ttl: Duration) -> Self {
        self.client_side_ttl = Some(client_side_ttl);
        self
    }

    /// Whether the cache is asked for.
    ///
    /// ```
    /// assert!(redis_cache::CommandCacheConfig::new().enable_cache());
    /// ```
    pub fn enable_cache(&self) -> bool {
        self.enable_cache
    }

    /// The command's own TTL.
    ///
    /// ```
    /// assert_eq!(redis_cache::CommandCacheConfig::new().client_side_ttl(), None);
    /// ```
    pub fn client_side_ttl(&self) -> Option<Duration> {
        self.client_side_ttl
    }
}

impl Default for CommandCacheConfig {
    /// [`CommandCacheConfig::new`].
    fn default() -> Self {
        Self::new()
    }
}

/// A command: its name and arguments, and what it asks of the cache.
///
/// ```
/// let mut get = redis_cache::cmd("GET");
/// get.arg("trap7");
/// assert_eq!(get.args_iter().len(), 2);
/// ```
#[derive(Clone, Debug, Default, PartialEq, Eq)]
pub struct Cmd {
    data: Vec<u8>,
    /// A simple argument is the offset at which it ends.
    args: Vec<Arg<usize>>,
    cursor: Option<u64>,
    cache: Option<CommandCacheConfig>,
}

impl Cmd {
    /// A command with no name yet.
    ///
    /// ```
    /// let mut get = redis_cache::Cmd::new();
    /// get.arg("GET").arg("trap7");
    /// assert_eq!(get.args_iter().len(), 2);
    /// ```
    pub fn new() -> Self {
        Self::default()
    }

    /// Empties the command and keeps its memory.
    ///
    /// ```
    /// let mut get = redis_cache::cmd("GET");
    /// get.arg("trap7").clear();
    /// assert_eq!(get, redis_cache::Cmd::new());
    /// ```
    pub fn clear(&mut self) {
        self.data.clear();
        self.args.clear();
        self.cursor = None;
        self.cache = None;
    }

    /// Appends one argument, or several where what is given is a list.
    ///
    /// ```
    /// use redis_cache::cmd;
    ///
    /// assert_eq!(cmd("SET").arg("trap7").arg(42).args_iter().len(), 3);
    /// assert_eq!(cmd("MGET").arg(&["trap7", "trap8"]).args_iter().len(), 3);
    /// assert_eq!(cmd("SET").arg("trap7").arg(b"bytes").args_iter().len(), 3);
    /// ```
    pub fn arg<T: ToRedisArgs>(&mut self, arg: T) -> &mut Self {
        arg.write_redis_args(self);
        self
    }

    /// Appends the cursor as an argument. Set again, it is the last one that counts, at every place.
    ///
    /// ```
    /// let mut scan = redis_cache::cmd("SSCAN");
    /// scan.arg("traps").cursor_arg(7);
    /// assert!(scan.in_scan_mode());
    /// ```
    pub fn cursor_arg(&mut self, cursor: u64) -> &mut Self {
        self.cursor = Some(cursor);
        self.args.push(Arg::Cursor);
        self
    }

    /// Whether the command has a cursor.
    ///
    /// ```
    /// assert!(!redis_cache::cmd("GET").in_scan_mode());
    /// ```
    pub fn in_scan_mode(&self) -> bool {
        self.cursor.is_some()
    }

    /// What the command asks of the cache.
    ///
    /// ```
    /// use redis_cache::{CommandCacheConfig, cmd};
    ///
    /// let mut get = cmd("GET");
    /// get.arg("trap7").set_cache_config(CommandCacheConfig::new());
    /// assert!(get.get_cache_config().is_some());
    /// ```
    pub fn set_cache_config(&mut self, command_cache_config: CommandCacheConfig) -> &mut Self {
        self.cache = Some(command_cache_config);
        self
    }

    /// What it asks of the cache, if anything was set.
    ///
    /// ```
    /// assert_eq!(redis_cache::cmd("GET").get_cache_config(), None);
    /// ```
    pub fn get_cache_config(&self) -> Option<CommandCacheConfig> {
        self.cache
    }

    /// The command itself, with which an expression of calls can end; this one is left empty.
    ///
    /// ```
    /// let get = redis_cache::cmd("GET").arg("trap7").take();
    /// assert_eq!(get.args_iter().len(), 2);
    /// ```
    pub fn take(&mut self) -> Self {
        std::mem::take(self)
    }

    /// The arguments, the name first.
    ///
    /// ```
    /// use redis_cache::{Arg, cmd};
    ///
    /// let mut get = cmd("GET");
    /// get.arg("trap7");
    /// assert_eq!(get.args_iter().nth(1), Some(Arg::Simple(&b"trap7"[..])));
    /// ```
    pub fn args_iter(&self) -> impl Clone + ExactSizeIterator<Item = Arg<&[u8]>> {
        let mut from = 0;
        self.args.iter().map(move |arg| match *arg {
            Arg::Simple(to) => {
                let bytes = &self.data[from..to];
                from = to;
                Arg::Simple(bytes)
            }
            Arg::Cursor => Arg::Cursor,
        })
    }

    /// Appends one argument of these bytes; what [`ToRedisArgs`] writes by.
    ///
    /// ```
    /// let mut get = redis_cache::cmd("GET");
    /// get.write_arg(b"trap7");
    /// assert_eq!(get.args_iter().len(), 2);
    /// ```
    pub fn write_arg(&mut self, arg: &[u8]) {
        self.data.extend_from_slice(arg);
        self.args.push(Arg::Simple(self.data.len()));
    }

    /// The number that every cursor argument stands for.
    pub(crate) fn cursor(&self) -> u64 {
        self.cursor.unwrap_or(0)
    }
}

/// A command of this name.
///
/// ```
/// let ping = redis_cache::cmd("PING");
/// assert_eq!(ping.args_iter().len(), 1);
/// ```
pub fn cmd(name: &str) -> Cmd {
    let mut command = Cmd::new();
    command.arg(name);
    command
}

//! The names of the ReadOnlyCacheable arm of `command_properties`, and what request 5 makes of them.

/// The cacheable names.
pub const CACHEABLE: &[&str] = &[
    "BITCOUNT",
    "BITFIELD_RO",
    "BITPOS",
    "DUMP",
    "EXISTS",
    "GEODIST",
    "GEOHASH",
    "GEOPOS",
    "GET",
    "GETBIT",
    "GETRANGE",
    "HEXISTS",
    "HGET",
    "HGETALL",
    "HKEYS",
    "HLEN",
    "HMGET",
    "HSTRLEN",
    "HVALS",
    "JSON.ARRINDEX",
    "JSON.ARRLEN",
    "JSON.GET",
    "JSON.OBJLEN",
    "JSON.OBJKEYS",
    "JSON.MGET",
    "JSON.RESP",
    "JSON.STRLEN",
    "JSON.TYPE",
    "LINDEX",
    "LLEN",
    "LPOS",
    "LRANGE",
    "MGET",
    "SCARD",
    "SDIFF",
    "SINTER",
    "SISMEMBER",
    "SMEMBERS",
    "SMISMEMBER",
    "STRLEN",
    "SUBSTR",
    "SUNION",
    "TYPE",
    "ZCARD",
    "ZCOUNT",
    "ZLEXCOUNT",
    "ZMSCORE",
    "ZRANGE",
    "ZRANGEBYLEX",
    "ZRANGEBYSCORE",
    "ZRANK",
    "ZREVRANGE",
    "ZREVRANGEBYLEX",
    "ZREVRANGEBYSCORE",
    "ZREVRANK",
    "ZSCORE",
];

/// Names of the arm that are never cached: they have several keys, not all in the place that is watched.
pub const NEVER: &[&str] = &[
    "LCS",
    "SINTERCARD",
    "ZDIFF",
    "ZINTER",
    "ZINTERCARD",
    "ZUNION",
];

/// Cacheable names whose arguments are all keys: they are cached with one argument behind the name.
pub const SOLE_KEY: &[&str] = &["EXISTS", "SDIFF", "SINTER", "SUNION"];

/// Whether a command of this name can be cached with so many arguments behind it.
pub fn may_have(name: &[u8], arguments: usize) -> bool {
    arguments == 1 || !SOLE_KEY.iter().any(|known| known.as_bytes() == name)
}

/// Whether a command of this name can be cached. Names are told apart by capitals.
pub fn cacheable(name: &[u8]) -> bool {
    CACHEABLE.iter().any(|known| known.as_bytes() == name)
}

/// A command of several keys: the command of one key under which each is stored, and whether its last argument is a path.
pub fn multi_key(name: &[u8]) -> Option<(&'static [u8], bool)> {
    match name {
        b"MGET" => Some((b"GET", false)),
        b"JSON.MGET" => Some((b"JSON.GET", true)),
        _ => None,
    }
}

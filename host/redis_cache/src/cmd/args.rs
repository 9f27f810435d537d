//! What can be given as an argument.

use super::Cmd;

/// What becomes arguments of a command: text, bytes and whole numbers are one, a list is as many as it holds, `None` is none, `true`
/// is 1 and `false` is 0.
///
/// ```
/// use redis_cache::{Cmd, ToRedisArgs, cmd};
///
/// struct Trap(u32);
///
/// impl ToRedisArgs for Trap {
///     fn write_redis_args(&self, out: &mut Cmd) {
///         out.write_arg(format!("trap{}", self.0).as_bytes());
///     }
/// }
///
/// assert_eq!(cmd("GET").arg(Trap(7)), cmd("GET").arg("trap7"));
/// ```
pub trait ToRedisArgs {
    /// Appends the arguments.
    fn write_redis_args(&self, out: &mut Cmd);

    /// Appends the arguments of a list of these; bytes make one argument.
    #[doc(hidden)]
    fn write_args_from_slice(items: &[Self], out: &mut Cmd)
    where
        Self: Sized,
    {
        for item in items {
            item.write_redis_args(out);
        }
    }
}

impl ToRedisArgs for u8 {
    fn write_redis_args(&self, out: &mut Cmd) {
        out.write_arg(self.to_string().as_bytes());
    }

    fn write_args_from_slice(items: &[u8], out: &mut Cmd) {
        out.write_arg(items);
    }
}

macro_rules! numbers {
    ($($number:ty)*) => {
        $(impl ToRedisArgs for $number {
            fn write_redis_args(&self, out: &mut Cmd) {
                out.write_arg(self.to_string().as_bytes());
            }
        })*
    };
}

numbers!(u16 u32 u64 u128 usize i8 i16 i32 i64 i128 isize);

impl ToRedisArgs for bool {
    fn write_redis_args(&self, out: &mut Cmd) {
        out.write_arg(if *self { b"1" } else { b"0" });
    }
}

impl ToRedisArgs for str {
    fn write_redis_args(&self, out: &mut Cmd) {
        out.write_arg(self.as_bytes());
    }
}

impl ToRedisArgs for String {
    fn write_redis_args(&self, out: &mut Cmd) {
        self.as_str().write_redis_args(out);
    }
}

impl<T: ToRedisArgs> ToRedisArgs for [T] {
    fn write_redis_args(&self, out: &mut Cmd) {
        T::write_args_from_slice(self, out);
    }
}

impl<T: ToRedisArgs, const N: usize> ToRedisArgs for [T; N] {
    fn write_redis_args(&self, out: &mut Cmd) {
        self.as_slice().write_redis_args(out);
    }
}

impl<T: ToRedisArgs> ToRedisArgs for Vec<T> {
    fn write_redis_args(&self, out: &mut Cmd) {
        self.as_slice().write_redis_args(out);
    }
}

impl<T: ToRedisArgs> ToRedisArgs for Option<T> {
    fn write_redis_args(&self, out: &mut Cmd) {
        if let Some(arg) = self {
            arg.write_redis_args(out);
        }
    }
}

impl<T: ToRedisArgs + ?Sized> ToRedisArgs for &T {
    fn write_redis_args(&self, out: &mut Cmd) {
        (**self).write_redis_args(out);
    }
}

#[cfg(test)]
mod tests {
    use crate::{Arg, Cmd};

    fn written(cmd: &Cmd) -> Vec<&[u8]> {
        cmd.args_iter()
            .map(|arg| match arg {
                Arg::Simple(bytes) => bytes,
                Arg::Cursor => b"cursor",
            })
            .collect()
    }

    #[test]
    fn what_is_one_argument_and_what_is_several() {
        let mut cmd = Cmd::new();
        cmd.arg("a")
            .arg(String::from("b"))
            .arg(b"cd")
            .arg(vec![101u8]);
        cmd.arg(7u8).arg(-8).arg(u64::MAX).arg(true).arg(false);
        let text: &[&[u8]] = &[
            b"a",
            b"b",
            b"cd",
            b"e",
            b"7",
            b"-8",
            b"18446744073709551615",
            b"1",
            b"0",
        ];
        assert_eq!(written(&cmd), text);
        cmd.clear();
        cmd.arg(&["a", ""])
            .arg(vec![1, 2])
            .arg(None::<&str>)
            .arg(Some("x"));
        cmd.arg([&b"y"[..]; 2]).cursor_arg(5);
        assert_eq!(
            written(&cmd),
            [&b"a"[..], b"", b"1", b"2", b"x", b"y", b"y", b"cursor"]
        );
        assert_eq!(cmd.cursor(), 5);
    }
}

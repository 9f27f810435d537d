//! RESP3 values: the fifteen kinds of rule V1 of docs/BEHAVIOUR.md, nothing streamed, and RESP2's two nulls.
//!
//! Lengths and integers are canonical, and a null says which of the three ways it is written in, so that writing what was read
//! gives the same bytes.

/// The most bytes that one value may have.
pub const MOST_BYTES: usize = 16 << 20;

/// The deepest nesting that is read, the outermost value counting 1.
pub const MOST_DEEP: usize = 16;

/// How a null is written.
#[derive(Clone, Copy, Debug, PartialEq, Eq)]
pub enum Spelling {
    /// `_`: RESP3's.
    Underscore,
    /// `$-1`: RESP2's where a blob string is absent. It is no blob string.
    Blob,
    /// `*-1`: RESP2's where an array is absent. It is no array.
    Array,
}

/// One RESP3 value.
#[derive(Clone, Debug, PartialEq, Eq)]
pub enum Value {
    /// `$`: a blob string.
    Blob(Vec<u8>),
    /// `+`: a simple string.
    Simple(Vec<u8>),
    /// `-`: a simple error.
    Error(Vec<u8>),
    /// `:`: an integer.
    Integer(i64),
    /// `_`, `$-1` or `*-1`: null, as it is written.
    Null(Spelling),
    /// `,`: a double, its body not interpreted.
    Double(Vec<u8>),
    /// `#`: a boolean.
    Boolean(bool),
    /// `!`: a blob error.
    BlobError(Vec<u8>),
    /// `=`: three bytes of format, a colon and the text.
    Verbatim(Vec<u8>),
    /// `(`: a big number, its body not interpreted.
    BigNumber(Vec<u8>),
    /// `*`: an array.
    Array(Vec<Value>),
    /// `%`: a map.
    Map(Vec<(Value, Value)>),
    /// `~`: a set.
    Set(Vec<Value>),
    /// `|`: attributes, and the value that they stand before.
    Attribute(Vec<(Value, Value)>, Box<Value>),
    /// `>`: a push.
    Push(Vec<Value>),
}

/// Reads bytes that are exactly one value of at most 16 MiB and depth 16, with nothing after it; `None` for all others.
pub fn parse(bytes: &[u8]) -> Option<Value> {
    if bytes.len() > MOST_BYTES {
        return None;
    }
    let mut reader = Reader { rest: bytes };
    let value = reader.value(MOST_DEEP)?;
    reader.rest.is_empty().then_some(value)
}

struct Reader<'a> {
    rest: &'a [u8],
}

impl<'a> Reader<'a> {
    fn value(&mut self, deep: usize) -> Option<Value> {
        let below = deep.checked_sub(1)?;
        let (&kind, rest) = self.rest.split_first()?;
        self.rest = rest;
        Some(match kind {
            b'$' if self.absent() => Value::Null(Spelling::Blob),
            b'$' => Value::Blob(self.blob()?),
            b'!' => Value::BlobError(self.blob()?),
            b'=' => Value::Verbatim(self.blob().filter(|b| b.get(3) == Some(&b':'))?),
            b'+' => Value::Simple(self.line()?.to_vec()),
            b'-' => Value::Error(self.line()?.to_vec()),
            b',' => Value::Double(self.line()?.to_vec()),
            b'(' => Value::BigNumber(self.line()?.to_vec()),
            b':' => Value::Integer(integer(self.line()?)?),
            b'_' => {
                let null = Value::Null(Spelling::Underscore);
                self.line()?.is_empty().then_some(null)?
            }
            b'#' => match self.line()? {
                b"t" => Value::Boolean(true),
                b"f" => Value::Boolean(false),
                _ => return None,
            },
            b'*' if self.absent() => Value::Null(Spelling::Array),
            b'*' => Value::Array(self.values(below)?),
            b'~' => Value::Set(self.values(below)?),
            b'>' => Value::Push(self.values(below)?),
            b'%' => Value::Map(self.pairs(below)?),
            b'|' => {
                let pairs = self.pairs(below)?;
                Value::Attribute(pairs, Box::new(self.value(below)?))
            }
            _ => return None,
        })
    }

    /// Whether RESP2's mark of what is absent comes next; it is then read.
    fn absent(&mut self) -> bool {
        let rest = self.rest.strip_prefix(b"-1\r\n");
        self.rest = rest.unwrap_or(self.rest);
        rest.is_some()
    }

    /// The bytes up to the next CR LF, which hold neither CR nor LF.
    fn line(&mut self) -> Option<&'a [u8]> {
        let end = self.rest.iter().position(|b| matches!(b, b'\r' | b'\n'))?;
        let (line, rest) = self.rest.split_at(end);
        self.rest = rest.strip_prefix(b"\r\n")?;
        Some(line)
    }

    fn length(&mut self) -> Option<u64> {
        digits(self.line()?)
    }

    fn blob(&mut self) -> Option<Vec<u8>> {
        let length = usize::try_from(self.length()?).ok()?;
        let body = self.rest.get(..length)?;
        self.rest = self.rest[length..].strip_prefix(b"\r\n")?;
        Some(body.to_vec())
    }

    fn values(&mut self, below: usize) -> Option<Vec<Value>> {
        (0..self.length()?).map(|_| self.value(below)).collect()
    }

    fn pairs(&mut self, below: usize) -> Option<Vec<(Value, Value)>> {
        (0..self.length()?)
            .map(|_| Some((self.value(below)?, self.value(below)?)))
            .collect()
    }
}

/// A number below 2^64 in decimal digits without sign or leading zeros.
fn digits(line: &[u8]) -> Option<u64> {
    if line.is_empty() || (line.len() > 1 && line[0] == b'0') {
        return None;
    }
    line.iter().try_fold(0u64, |number, &byte| {
        let digit = byte.is_ascii_digit().then(|| u64::from(byte - b'0'))?;
        number.checked_mul(10)?.checked_add(digit)
    })
}

/// An integer of 64 bits signed without plus sign or leading zeros, and not -0.
fn integer(line: &[u8]) -> Option<i64> {
    match line.strip_prefix(b"-") {
        Some(rest) => match digits(rest)? {
            0 => None,
            n => 0i64.checked_sub_unsigned(n),
        },
        None => i64::try_from(digits(line)?).ok(),
    }
}

/// The bytes of a value.
pub fn encode(value: &Value) -> Vec<u8> {
    let mut out = Vec::new();
    write(&mut out, value);
    out
}

/// Appends the bytes of a value.
pub fn write(out: &mut Vec<u8>, value: &Value) {
    match value {
        Value::Blob(b) => blob(out, b'$', b),
        Value::BlobError(b) => blob(out, b'!', b),
        Value::Verbatim(b) => blob(out, b'=', b),
        Value::Simple(b) => line(out, b'+', b),
        Value::Error(b) => line(out, b'-', b),
        Value::Double(b) => line(out, b',', b),
        Value::BigNumber(b) => line(out, b'(', b),
        Value::Integer(n) => line(out, b':', n.to_string().as_bytes()),
        Value::Null(Spelling::Underscore) => line(out, b'_', b""),
        Value::Null(Spelling::Blob) => line(out, b'$', b"-1"),
        Value::Null(Spelling::Array) => line(out, b'*', b"-1"),
        Value::Boolean(b) => line(out, b'#', if *b { b"t" } else { b"f" }),
        Value::Array(list) => values(out, b'*', list),
        Value::Set(list) => values(out, b'~', list),
        Value::Push(list) => values(out, b'>', list),
        Value::Map(list) => pairs(out, b'%', list),
        Value::Attribute(list, about) => {
            pairs(out, b'|', list);
            write(out, about);
        }
    }
}

fn line(out: &mut Vec<u8>, kind: u8, body: &[u8]) {
    out.push(kind);
    out.extend_from_slice(body);
    out.extend_from_slice(b"\r\n");
}

fn blob(out: &mut Vec<u8>, kind: u8, body: &[u8]) {
    line(out, kind, body.len().to_string().as_bytes());
    out.extend_from_slice(body);
    out.extend_from_slice(b"\r\n");
}

fn values(out: &mut Vec<u8>, kind: u8, list: &[Value]) {
    line(out, kind, list.len().to_string().as_bytes());
    for value in list {
        write(out, value);
    }
}

fn pairs(out: &mut Vec<u8>, kind: u8, list: &[(Value, Value)]) {
    line(out, kind, list.len().to_string().as_bytes());
    for (key, value) in list {
        write(out, key);
        write(out, value);
    }
}

#[cfg(test)]
mod tests {
    use super::*;

    /// Values of every kind, null in each of its spellings.
    const RIGHT: &[&str] = &[
        "$0\r\n\r\n",
        "$3\r\na\r\n\r\n",
        "+\r\n",
        "+OK\r\n",
        "-ERR no\r\n",
        ":0\r\n",
        ":-1\r\n",
        ":9223372036854775807\r\n",
        ":-9223372036854775808\r\n",
        "_\r\n",
        "$-1\r\n",
        "*-1\r\n",
        ",1.5\r\n",
        ",\r\n",
        "#t\r\n",
        "#f\r\n",
        "!5\r\nERR x\r\n",
        "=4\r\ntxt:\r\n",
        "=5\r\nmkd:a\r\n",
        "(123456789012345678901234567890\r\n",
        "*0\r\n",
        "*2\r\n:1\r\n$1\r\na\r\n",
        "%1\r\n+a\r\n_\r\n",
        "~1\r\n*0\r\n",
        "|0\r\n:1\r\n",
        "|1\r\n+a\r\n+b\r\n*1\r\n:1\r\n",
        ">0\r\n",
        ">2\r\n$10\r\ninvalidate\r\n_\r\n",
        ">2\r\n$10\r\ninvalidate\r\n$-1\r\n",
        ">2\r\n$10\r\ninvalidate\r\n*-1\r\n",
        "*1\r\n>1\r\n|0\r\n_\r\n",
        "*3\r\n$-1\r\n_\r\n*-1\r\n",
        "%1\r\n$-1\r\n*-1\r\n",
        "~1\r\n*1\r\n*-1\r\n",
        "|1\r\n*-1\r\n_\r\n$-1\r\n",
    ];

    const WRONG: &[&str] = &[
        "",
        "$",
        "$-1\r\n\r\n",
        "$-2\r\n",
        "$-0\r\n",
        "$-01\r\n",
        "$-1\n",
        "$-\r\n",
        "*-1",
        "*-0\r\n",
        "*-2\r\n",
        "*-10\r\n",
        "~-1\r\n",
        "%-1\r\n",
        "|-1\r\n",
        "|-1\r\n:1\r\n",
        ">-1\r\n",
        "!-1\r\n",
        "=-1\r\n",
        "_-1\r\n",
        "$1\r\n\r\n",
        "$1\r\nab\r\n",
        "$01\r\na\r\n",
        "$+1\r\na\r\n",
        "$1\ra\r\n",
        "$?\r\n;0\r\n",
        "$18446744073709551616\r\n\r\n",
        "*18446744073709551615\r\n",
        "+a\rb\r\n",
        "+a\n",
        "+a\r\nb",
        ":\r\n",
        ":-\r\n",
        ":+1\r\n",
        ":-0\r\n",
        ":00\r\n",
        ":01\r\n",
        ":9223372036854775808\r\n",
        ":-9223372036854775809\r\n",
        "_a\r\n",
        "#\r\n",
        "#x\r\n",
        "#tt\r\n",
        "=3\r\ntxt\r\n",
        "=4\r\ntext\r\n",
        "*1\r\n",
        "*1\r\n:1\r\n:2\r\n",
        "%1\r\n:1\r\n",
        "|0\r\n",
        ".1\r\n",
        "_\r\n\r\n",
    ];

    #[test]
    fn right_values_are_read_and_written_back() {
        for text in RIGHT {
            let value = parse(text.as_bytes()).unwrap_or_else(|| panic!("{text:?}"));
            assert_eq!(encode(&value), text.as_bytes(), "{text:?}");
        }
    }

    #[test]
    fn wrong_values_and_every_cut_are_refused() {
        for text in WRONG {
            assert_eq!(parse(text.as_bytes()), None, "{text:?}");
        }
        for text in RIGHT {
            for end in 0..text.len() {
                assert_eq!(
                    parse(&text.as_bytes()[..end]),
                    None,
                    "{text:?} cut at {end}"
                );
            }
        }
    }

    /// The three nulls are told apart, and are no other kind.
    #[test]
    fn a_null_keeps_its_spelling() {
        let read = |text: &str| parse(text.as_bytes());
        assert_eq!(read("_\r\n"), Some(Value::Null(Spelling::Underscore)));
        assert_eq!(read("$-1\r\n"), Some(Value::Null(Spelling::Blob)));
        assert_eq!(read("*-1\r\n"), Some(Value::Null(Spelling::Array)));
    }

    fn nested(head: &str, times: usize, null: &str) -> Vec<u8> {
        (head.repeat(times) + null).into_bytes()
    }

    #[test]
    fn depth_16_is_read_and_17_refused() {
        for head in ["*1\r\n", "|0\r\n", "~1\r\n", ">1\r\n", "%1\r\n*-1\r\n"] {
            for null in ["_\r\n", "$-1\r\n", "*-1\r\n"] {
                assert!(parse(&nested(head, 15, null)).is_some(), "{head:?}");
                assert!(parse(&nested(head, 16, null)).is_none(), "{head:?}");
            }
        }
    }

    #[test]
    fn a_value_of_16_mib_is_read_and_one_more_byte_refused() {
        let body = |n: usize| encode(&Value::Blob(vec![b'x'; n]));
        let head = body(10_000_000).len() - 10_000_000;
        assert_eq!(body(MOST_BYTES - head).len(), MOST_BYTES);
        assert!(parse(&body(MOST_BYTES - head)).is_some());
        assert!(parse(&body(MOST_BYTES - head + 1)).is_none());
    }
}

//! Values for the tests: right ones of every kind, null in RESP3's spelling and in RESP2's two, and wrong ones.

/// Null in each of its spellings, RESP3's first.
pub(crate) const NULLS: [&str; 3] = ["_\r\n", "$-1\r\n", "*-1\r\n"];

pub(crate) const RIGHT: &[&str] = &[
    "$0\r\n\r\n",
    "$3\r\na\r\n\r\n",
    "+\r\n",
    "+OK\r\n",
    "-ERR no\r\n",
    ":0\r\n",
    ":-1\r\n",
    ":9223372036854775807\r\n",
    ":-9223372036854775808\r\n",
    "_\r\n",
    ",1.5\r\n",
    ",\r\n",
    "#t\r\n",
    "#f\r\n",
    "!5\r\nERR x\r\n",
    "=4\r\ntxt:\r\n",
    "=5\r\nmkd:a\r\n",
    "(123456789012345678901234567890\r\n",
    "*0\r\n",
    "*2\r\n:1\r\n$1\r\na\r\n",
    "%1\r\n+a\r\n_\r\n",
    "~1\r\n*0\r\n",
    "|0\r\n:1\r\n",
    "|1\r\n+a\r\n+b\r\n*1\r\n:1\r\n",
    ">0\r\n",
    ">2\r\n$10\r\ninvalidate\r\n_\r\n",
    "*1\r\n>1\r\n|0\r\n_\r\n",
    "*2\r\n_\r\n_\r\n",
    "%1\r\n_\r\n*1\r\n_\r\n",
    "|1\r\n_\r\n_\r\n_\r\n",
];

/// The right values in which nulls stand, with each spelling of RESP2's in their place, and beside it as they were.
pub(crate) fn old_nulls() -> impl Iterator<Item = (String, String)> {
    let with = RIGHT.iter().filter(|text| text.contains(NULLS[0]));
    with.flat_map(|text| {
        let spelled = |null: &&str| (text.replace(NULLS[0], null), text.to_string());
        NULLS[1..].iter().map(spelled)
    })
}

/// No value, and no value begins so.
pub(crate) const WRONG: &[&str] = &[
    "$-2\r\n",
    "$-0\r\n",
    "$-01\r\n",
    "$-1\n",
    "$-\r\n",
    "*-0\r\n",
    "*-2\r\n",
    "*-10\r\n",
    "~-1\r\n",
    "%-1\r\n",
    "|-1\r\n",
    ">-1\r\n",
    "!-1\r\n",
    "=-1\r\n",
    "_-1\r\n",
    "$1\r\nab\r\n",
    "$01\r\na\r\n",
    "$+1\r\na\r\n",
    "$1\ra\r\n",
    "$?\r\n;0\r\n",
    "$18446744073709551616\r\n\r\n",
    "*18446744073709551615\r\n",
    "+a\rb\r\n",
    "+a\n",
    ":\r\n",
    ":-\r\n",
    ":+1\r\n",
    ":-0\r\n",
    ":00\r\n",
    ":01\r\n",
    ":9223372036854775808\r\n",
    ":-9223372036854775809\r\n",
    "_a\r\n",
    "#\r\n",
    "#x\r\n",
    "#tt\r\n",
    "=3\r\ntxt\r\n",
    "=4\r\ntext\r\n",
    ".1\r\n",
];

/// A null inside so many heads.
pub(crate) fn nested(head: &str, times: usize, null: &str) -> Vec<u8> {
    (head.repeat(times) + null).into_bytes()
}

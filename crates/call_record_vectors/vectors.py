#!/usr/bin/env python3
"""Writes the input and the expected output of the program call_record_vectors beside itself (files stdin and stdout).

Written from the scope document alone ("A call comes in", cause 2, "Planning"), not from the proved code: bytes are judged by the longest
beginning that some valid record has, and a record is taken apart by a parser of its own. Run it again after a change and look at the difference.
"""
import os, struct

# ---- records, written


def arg(text):
    """An argument; None is a cursor."""
    return struct.pack("<BI", 1, 0) if text is None else struct.pack("<BI", 0, len(text)) + text


def command(args, flags=0, ttl=0, cursor=0, count=None):
    return struct.pack("<BQQH", flags, ttl, cursor, len(args) if count is None else count) + b"".join(arg(a) for a in args)


def record(commands, flags=0, count=None, mark=b"TRP", version=1):
    return mark + struct.pack("<HBH", version, flags, len(commands) if count is None else count) + b"".join(commands)


# ---- bytes, judged


class Early(Exception):
    """The bytes end here and could go on to be a record."""


class Wrong(Exception):
    def __init__(self, at):
        self.at = at


def parse(b):
    """The record that the bytes are: (transaction, commands)."""
    place = 0

    def field(width, allowed):
        """A little-endian field. Its bytes are read one at a time, and one is wrong if no allowed number has those bytes lowest."""
        nonlocal place
        n = 0
        for i in range(width):
            if place == len(b):
                raise Early
            n += b[place] << 8 * i
            if not allowed(n, i + 1):
                raise Wrong(place)
            place += 1
        return n

    def upto(limit):
        # the least number with these lowest bytes is n itself
        return lambda n, have: n <= limit

    def among(numbers):
        return lambda n, have: any(m % 256**have == n for m in numbers)

    for c in b"TRP":
        field(1, among([c]))
    field(2, among([1]))
    flags = field(1, among([0, 1]))
    commands = []
    for _ in range(field(2, upto(1024))):
        f = field(1, among([x for x in range(16) if x & 2 or not x & 12]))
        ttl = field(8, upto(2**64 - 1) if f & 8 else among([0]))
        cursor = field(8, upto(2**64 - 1))
        args = []
        for _ in range(field(2, upto(1024))):
            kind = field(1, among([0, 1]))
            size = field(4, upto(65535) if kind == 0 else among([0]))
            if len(b) - place < size:
                raise Early
            args.append(b[place : place + size] if kind == 0 else None)
            place += size
        commands.append((f, ttl, cursor, args))
    if place < len(b):
        raise Wrong(place)
    return flags == 1, commands


# ---- what the program writes


def text(b):
    return "[" + "".join(chr(c) if 32 <= c <= 126 and c != 92 else "\\%02x" % c for c in b) + "]"


def arg_idx(args, i):
    """cmd.rs arg_idx with the scope document's reading: no cursor, and nothing where cmd.data is empty up to the argument's end."""
    if i >= len(args) or args[i] is None or not b"".join(a for a in args[: i + 1] if a is not None):
        return " none"
    return " " + text(args[i])


def packed(args, cursor):
    sent = [str(cursor).encode() if a is None else a for a in args]
    return b"*%d\r\n" % len(sent) + b"".join(b"$%d\r\n%s\r\n" % (len(a), a) for a in sent)


def say(b):
    try:
        transaction, commands = parse(b)
    except Wrong as w:
        return "wrong at %d\n" % w.at
    except Early:
        return "wrong at %d\n" % len(b)
    out = "fine%s, commands %d\n" % (", a transaction" if transaction else "", len(commands))
    for flags, ttl, cursor, args in commands:
        out += "  flags %d, ttl %d, cursor %d, arguments" % (flags, ttl, cursor)
        out += "".join(" cursor" if a is None else " " + text(a) for a in args)
        out += "\n    by number 0:%s 1:%s" % (arg_idx(args, 0), arg_idx(args, 1))
        out += "\n    key %s" % text(b"".join(a for a in args if a is not None))
        p = packed(args, cursor)
        out += "\n    packed in %d: %s\n" % (len(p), text(p))
    return out


# ---- the vectors


def vectors():
    top = 2**64 - 1
    # whole records
    yield record([])
    yield record([], flags=1)
    yield record([command([b"GET", b"a"])])
    yield record([command([])])
    yield record([command([b""]), command([b"", b"a"]), command([b"GET", b""])], flags=1)
    yield record([command([None, b"a"], cursor=7), command([b"SCAN", None], cursor=top), command([b"a", None, b"b"], cursor=10)])
    yield record([command([b"MGET", b"a", b"b", b"a"], flags=6), command([b"JSON.MGET", b"a", b"$.p"], flags=14, ttl=top)])
    yield record([command([b"SET", bytes([0, 13, 10, 92, 127, 255])], flags=3)])
    yield record([command([b"GET", b"x" * n]) for n in (9, 10, 99, 100)])
    yield record([command([b"k"] * 10), command([b"k"] * 9)])
    yield record([command([b"SCAN", None], cursor=n) for n in (0, 9, 10, 9999, 10000, 2**32, 2**63)])
    # the flags of a command, alone: which bytes may stand there
    for f in list(range(20)) + [31, 32, 64, 127, 128, 255]:
        yield record([command([], flags=f, ttl=1 if f & 8 else 0)])
    # the flags of the record
    for f in (2, 3, 4, 128, 255):
        yield record([], flags=f)
    # mark and version
    yield record([], mark=b"TRQ")
    yield record([], mark=b"trp")
    for v in (0, 2, 256, 257, 65535):
        yield record([], version=v)
    # counts at their limits; what follows is not there
    for n in (1024, 1025, 1280, 65535):
        yield record([], count=n)
        yield record([command([], count=n)])
    # lengths at their limits, and bytes that a cursor may not have
    for n in (65535, 65536, 2**24, 2**32 - 1):
        yield record([command([], count=1)]) + struct.pack("<BI", 0, n)
    for n in (1, 256, 2**31):
        yield record([command([], count=1)]) + struct.pack("<BI", 1, n)
    yield record([command([], count=1)]) + struct.pack("<BI", 2, 0)
    # a TTL without its bit, at each end
    yield record([command([], flags=6, ttl=1)])
    yield record([command([], flags=6, ttl=2**56)])
    # every beginning of a record, and bytes that trail
    whole = record([command([b"GET", b"a"], flags=10, ttl=5), command([b"SCAN", None], cursor=12)], flags=1)
    for n in range(len(whole) + 1):
        yield whole[:n]
    yield whole + b"\0"
    yield whole + whole
    # one byte changed
    for i in range(len(whole)):
        for b in sorted({0, 255, (whole[i] + 1) % 256} - {whole[i]}):
            yield whole[:i] + bytes([b]) + whole[i + 1 :]


here = os.path.dirname(os.path.abspath(__file__))
with open(os.path.join(here, "stdin"), "w") as given, open(os.path.join(here, "stdout"), "w") as expected:
    for v in vectors():
        given.write(v.hex() + "\n")
        expected.write(say(v))

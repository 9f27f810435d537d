#!/usr/bin/env python3
"""Asks a redis-server (its path is the argument; Debian's package redis-server has one) for its own bytes, in RESP3 and in RESP2, and says whether each answer is one of the
vectors in ../stdin. Prints those that are not, and how many are."""
import os, socket, subprocess, sys, tempfile, time

here = os.path.dirname(os.path.abspath(__file__))
vectors = set(open(os.path.join(here, "..", "stdin")).read().split("\n"))


def escaped(b):
    return b.decode("latin-1").replace("\\", "\\\\").replace("\r", "\\r").replace("\n", "\\n")


def connect(path):
    s = socket.socket(socket.AF_UNIX)
    s.connect(path)
    return s


def ask(s, *words):
    s.sendall(b"*%d\r\n" % len(words) + b"".join(b"$%d\r\n%s\r\n" % (len(w), w) for w in (x.encode() for x in words)))
    return received(s)


def received(s):
    time.sleep(0.1)
    return s.recv(1 << 20)


with tempfile.TemporaryDirectory() as folder:
    path = os.path.join(folder, "socket")
    server = subprocess.Popen([sys.argv[1], "--port", "0", "--unixsocket", path, "--save", "", "--enable-debug-command", "yes"], stdout=subprocess.DEVNULL)
    try:
        while not os.path.exists(path):
            time.sleep(0.1)
        a, b = connect(path), connect(path)
        ask(a, "HELLO", "3")
        said = [ask(a, "DEBUG", "PROTOCOL", k) for k in "string integer double null array set map attrib verbatim true false bignum".split()]
        # a push and the reply behind it are two values
        push = ask(a, "DEBUG", "PROTOCOL", "push")
        said.append(push[: push.index(b"$40")])
        ask(a, "CLIENT", "TRACKING", "ON")
        ask(a, "SET", "a", "1")
        said += [ask(a, "MGET", "a", "absent"), ask(a, "GET", "absent"), ask(a, "PTTL", "a"), ask(a, "PTTL", "absent")]
        ask(b, "SET", "a", "2")
        said.append(received(a))
        ask(a, "GET", "a")
        ask(b, "FLUSHALL")
        said.append(received(a))
        ask(a, "MULTI")
        said += [ask(a, "GET", "a"), ask(a, "EXEC")]
        ask(a, "MULTI")
        ask(a, "ABSENT")
        said.append(ask(a, "EXEC"))
        ask(a, "CLIENT", "TRACKING", "OFF")
        for words in ("HSET h f v", "SADD s x", "ZADD z 1.5 m", "ZADD z inf n", "SET a 1"):
            ask(a, *words.split())
        said += [ask(a, *w.split()) for w in ("HGETALL h", "SMEMBERS s", "ZSCORE z m", "ZSCORE z n", "LPUSH a x")]
        # RESP2, which a connection speaks that asks for nothing else: its nulls, and what a second connection is told
        c, d = connect(path), connect(path)
        ask(c, "CLIENT", "TRACKING", "ON", "REDIRECT", ask(d, "CLIENT", "ID")[1:-2].decode())
        ask(d, "SUBSCRIBE", "__redis__:invalidate")
        said += [ask(c, *w.split()) for w in ("GET absent", "MGET a absent", "BLPOP absent 0.01")]
        ask(b, "SET", "a", "2")
        said.append(received(d))
        ask(c, "GET", "a")
        ask(b, "FLUSHALL")
        said.append(received(d))
        ask(c, "WATCH", "a")
        ask(b, "SET", "a", "3")
        ask(c, "MULTI")
        said.append(ask(c, "EXEC"))
        ask(c, "MULTI")
        ask(c, "GET", "absent")
        said.append(ask(c, "EXEC"))
    finally:
        server.terminate()
        server.wait()

lost = [x for x in map(escaped, said) if x not in vectors]
for x in lost:
    print("not among the vectors:", x)
print("%d answers, %d not among the vectors" % (len(said), len(lost)))
sys.exit(1 if lost else 0)

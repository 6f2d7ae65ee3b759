#!/usr/bin/env python3
"""Plays plain memcached commands against a server over the loopback.

    python3 tools/play_plain.py PROGRAM

PROGRAM is `iq`. Each conversation is played with sockets, and the same commands with the clients that are installed:
pymemcache, python-memcached and pylibmc, and the tools of libmemcached. What isn't installed is left out with a line.
A `get` of 40 items of 1 MiB must not take the memory of them all. The status is 0 where the server does what it must;
else a line on standard error says what it did.
"""
import contextlib
import importlib
import os
import shutil
import subprocess
import sys
import tempfile

from play_clients import PATIENCE, Server, expect, receive

BIG = 1_048_576
LAST = 2**64 - 1
LONG = "k" * 250
MIXED = b"END\r\nVALUE a 0 1\r\n" + bytes(range(256))
SIZES = (0, 1, 1000, 65_536, BIG - 1, BIG)

# So many big items are asked for at once, and the server may take so many KiB more for that.
MANY = 40
MORE = 8_192

# What is sent, and what comes back.
TALK = [
    (b"set a 5 0 2\r\nhi\r\n", b"STORED\r\n"),
    (b"get a\r\n", b"VALUE a 5 2\r\nhi\r\nEND\r\n"),
    (b"gets a\r\n", b"VALUE a 5 2 1\r\nhi\r\nEND\r\n"),
    (b"incr a 1\r\n", b"CLIENT_ERROR not a number\r\n"),
    (b"delete a\r\nget a\r\n", b"DELETED\r\nEND\r\n"),
    (b"set n 7 -0 20\r\n18446744073709551615\r\n", b"STORED\r\n"),
    (b"incr n 2\r\ndecr n 5\r\n", b"1\r\n0\r\n"),
    (b"add n 0 0 1\r\nx\r\nreplace m 0 0 1\r\nx\r\n", b"NOT_STORED\r\nNOT_STORED\r\n"),
    (b"cas n 0 0 1 9\r\ny\r\ncas m 0 0 1 9\r\ny\r\n", b"EXISTS\r\nNOT_FOUND\r\n"),
    (b"gets n\r\ncas n 8 0 1 4\r\ny\r\ngets n\r\n", b"VALUE n 7 1 4\r\n0\r\nEND\r\nSTORED\r\nVALUE n 8 1 5\r\ny\r\nEND\r\n"),
    (b"set profile:2 0 0 1\r\nz\r\nget n profile:2\r\n", b"CLIENT_ERROR query key\r\n" * 2),
    (b"set q 0 60 1\r\nz\r\nset q 0 0 1 noreply\r\nk\r\nget q\r\n", b"CLIENT_ERROR exptime\r\nVALUE q 0 1\r\nk\r\nEND\r\n"),
    (b"get n none q n\r\n", b"VALUE n 8 1\r\ny\r\nVALUE q 0 1\r\nk\r\nVALUE n 8 1\r\ny\r\nEND\r\n"),
    (b"begin read\r\niqget profile:2 1 0\r\nget q\r\n", b"SESSION 1\r\nLEASE 1\r\nVALUE q 0 1\r\nk\r\nEND\r\n"),
    (b"incr n\r\ndelete n 0\r\nget\r\n", b"CLIENT_ERROR bad line\r\n" * 3),
    (b"delete none noreply\r\ndelete none\r\n", b"NOT_FOUND\r\n"),
    (b"set big 0 0 %d\r\n%s\r\n" % (BIG, b"b" * BIG), b"STORED\r\n"),
    (b"get big\r\n", b"VALUE big 0 %d\r\n%s\r\nEND\r\n" % (BIG, b"b" * BIG)),
    (b"set %s 0 0 0\r\n\r\nget %s\r\n" % (b"k" * 250, b"k" * 250), b"STORED\r\nVALUE %s 0 0\r\n\r\nEND\r\n" % (b"k" * 250)),
    (b"set %s 0 0 0\r\n" % (b"k" * 251), b"CLIENT_ERROR bad line\r\n"),
    (b"set a 0 0 2 noreply\r\nhixxquit\r\n", b"ERROR\r\nCLIENT_ERROR bad block\r\n"),
]


def talk(program):
    """Two lines share the map, and each command is answered as it must be, at once or one after another."""
    server = Server(program, (2, 1, 1, 3))
    with server.connect() as stream:
        for sent, wanted in TALK[:-1]:
            stream.sendall(sent)
            expect(receive(stream, len(wanted)), wanted)
        # (the empty line behind what was sent last is no command)
        stream.sendall(b"\r\n" + TALK[-1][0])
        expect(receive(stream, len(TALK[-1][1]) + 1), TALK[-1][1])
    with server.connect() as stream:
        stream.sendall(b"get q\r\nquit\r\n")
        expect(receive(stream, 100), b"VALUE q 0 1\r\nk\r\nEND\r\n")
    server.served(2)


def long_reply(program):
    """Many big items are told one by one, and the memory of the server grows by little, also while nobody reads."""
    keys = [b"item%d" % number for number in range(MANY)]
    server = Server(program, (1, 1, 1, 3))
    with server.connect() as stream:
        for key in keys:
            stream.sendall(b"set %s 3 0 %d\r\n%s\r\n" % (key, BIG, key[-1:] * BIG))
            expect(receive(stream, 8), b"STORED\r\n")
        before = server.resident()
        stream.sendall(b"get %s\r\n" % b" ".join(keys))
        expect(receive(stream, 6), b"VALUE ")
        during = server.resident()
        expect(receive(stream, 1), b"i")
        rest = b"tem0 3 %d\r\n%s\r\n" % (BIG, b"0" * BIG)
        expect(receive(stream, len(rest)) == rest, True)
        for key in keys[1:]:
            item = b"VALUE %s 3 %d\r\n%s\r\n" % (key, BIG, key[-1:] * BIG)
            expect(receive(stream, len(item)) == item, True)
        expect(receive(stream, 5), b"END\r\n")
        grown = max(during, server.resident()) - before
        if grown > MORE:
            raise AssertionError(f"a get of {MANY} MiB took {grown} KiB")
        stream.sendall(b"quit\r\n")
    server.served(1)
    print(f"a get of {MANY} MiB took {grown} KiB")


def with_pymemcache(module, port):
    client = module.Client(("127.0.0.1", port), default_noreply=False)
    expect(client.set("p", b"1"), True)
    expect(client.add("p", b"2"), False)
    expect(client.replace("p", b"10"), True)
    expect(client.incr("p", 5), 15)
    expect(client.decr("p", 50), 0)
    value, unique = client.gets("p")
    expect((value, client.cas("p", b"x", unique), client.cas("p", b"y", unique)), (b"0", True, False))
    expect(client.get_many(["p", "none"]), {"p": b"x"})
    expect((client.delete("p"), client.delete("p"), client.get("p")), (True, False, None))
    client.set("p", b"b" * 1_000_000, noreply=True)
    expect(client.get("p"), b"b" * 1_000_000)
    for size in SIZES:
        expect((client.set("p", b"v" * size), client.get("p")), (True, b"v" * size))
    expect((client.set(LONG, b"1"), client.get(LONG), client.delete(LONG)), (True, b"1", True))
    expect(client.gets_many(["none"]), {})
    expect((client.incr("none", 1), client.cas("none", b"x", 1)), (None, None))
    client.set("p", str(LAST))
    expect((client.incr("p", 1), client.incr("p", LAST), client.incr("p", 2), client.decr("p", LAST)), (0, LAST, 1, 0))
    client.quit()


def with_memcache(module, port):
    client = module.Client([f"127.0.0.1:{port}"], cache_cas=True)
    expect(bool(client.set("p", "1")), True)
    expect(bool(client.add("p", "2")), False)
    expect(bool(client.replace("p", "10")), True)
    expect((client.incr("p", 5), client.decr("p", 50)), (15, 0))
    expect(client.gets("p"), "0")
    expect(bool(client.cas("p", "x")), True)
    expect(client.get_multi(["p", "none"]), {"p": "x"})
    expect((bool(client.delete("p")), client.get("p")), (True, None))
    for size in SIZES:
        expect((bool(client.set("p", b"v" * size)), client.get("p")), (True, b"v" * size))
    expect((bool(client.set(LONG, "1")), client.get(LONG)), (True, "1"))
    client.set("p", str(LAST))
    expect((client.incr("p", 1), client.incr("p", LAST), client.incr("p", 2), client.decr("p", LAST)), (0, LAST, 1, 0))
    client.reset_cas()
    expect((client.gets("p"), bool(client.cas("p", "x")), bool(client.cas("p", "y"))), ("0", True, False))
    client.disconnect_all()


def with_pylibmc(module, port):
    client = module.Client([f"127.0.0.1:{port}"], binary=False, behaviors={"cas": True})
    expect((client.set("p", "1"), client.add("p", "2"), client.replace("p", 10)), (True, False, True))
    expect((client.incr("p", 5), client.decr("p", 50)), (15, 0))
    value, unique = client.gets("p")
    expect((client.cas("p", "x", unique), client.get("p"), client.delete("p"), client.get("p")), (True, "x", True, None))
    for size in SIZES:
        expect((client.set("p", b"v" * size), client.get("p")), (True, b"v" * size))
    expect((client.set(LONG, "1"), client.get(LONG), client.get_multi([LONG, "none"])), (True, "1", {LONG: "1"}))
    # (what it adds at once is below 2^31)
    client.set("p", LAST)
    expect((client.incr("p", 1), client.incr("p", 2**31 - 1), client.decr("p", 2**30)), (0, 2**31 - 1, 2**30 - 1))
    client.set("p", "0")
    value, unique = client.gets("p")
    client.set("p", "1")
    expect((client.cas("p", "x", unique), client.get("p")), (False, "1"))
    client.disconnect_all()


def tool_of(name):
    """One of libmemcached's tools, by the name that Debian gives it or by its own."""
    return shutil.which("memc" + name) or shutil.which("mem" + name)


class Tools:
    """The tools of libmemcached, with files of their own and one server."""

    def __init__(self, port, folder):
        self.port = port
        self.folder = folder

    def run(self, name, *words):
        """What a tool prints, and its status."""
        command = [tool_of(name), f"--servers=127.0.0.1:{self.port}", *words]
        done = subprocess.run(command, cwd=self.folder, capture_output=True, timeout=PATIENCE)
        return done.stdout, done.returncode

    def write(self, name, data):
        with open(os.path.join(self.folder, name), "wb") as file:
            file.write(data)

    def read(self, name):
        with open(os.path.join(self.folder, name), "rb") as file:
            return file.read()

    def status(self, name, *words):
        return self.run(name, *words)[1]


def play_tools(tools):
    """Files are stored, told and dropped under their names, whatever their size."""
    for size in SIZES:
        tools.write("file", (MIXED * (size // len(MIXED) + 1))[:size])
        expect(tools.status("cp", "file"), 0)
        expect(tools.status("cat", "--file=got", "file"), 0)
        expect(tools.read("got") == tools.read("file"), True)
    expect((tools.status("cp", "--add", "file"), tools.status("cp", "--replace", "file")), (1, 0))
    tools.write(LONG, b"hi")
    expect((tools.status("cp", "--replace", LONG), tools.status("cp", "--add", "--flags=77", LONG)), (1, 0))
    expect(tools.run("cat", "--flags", LONG), (b"77\nhi\n", 0))
    expect((tools.status("rm", LONG), tools.status("rm", LONG), tools.status("cat", LONG)), (0, 1, 1))
    expect(tools.status("ping"), 0)
    # It asks by an `add` that expires.
    expect(tools.status("exist", "file"), 1)


def play_capable(port, name):
    """One of the tests that libmemcached has for servers."""
    command = [tool_of("capable"), "-h", "127.0.0.1", "-p", str(port), "-a", "-T", "ascii " + name]
    done = subprocess.run(command, capture_output=True, timeout=PATIENCE)
    expect((name, done.returncode, b"[pass]" in done.stdout), (name, 0, True))


@contextlib.contextmanager
def a_port(program):
    """The port of a server of its own, which ends with the block: nobody counts the connections of a tool."""
    server = Server(program, (1000, 4, 1, 3))
    try:
        yield server.port
    finally:
        server.process.kill()
        server.process.communicate()


def play_libmemcached(program):
    if not all(map(tool_of, ("cp", "cat", "rm", "ping", "exist", "capable"))):
        print("the tools of libmemcached aren't here, and are left out")
        return
    with a_port(program) as port, tempfile.TemporaryDirectory() as folder:
        play_tools(Tools(port, folder))
    # The tests that say these commands alone. The others end with a `version`.
    for name in ("quit", "get", "gets", "mget", "delete", "incr", "decr"):
        with a_port(program) as port:
            play_capable(port, name)
    print("the tools of libmemcached are served")


def main(program):
    talk(program)
    long_reply(program)
    for name, play in (("pymemcache", with_pymemcache), ("memcache", with_memcache), ("pylibmc", with_pylibmc)):
        try:
            module = importlib.import_module(name)
        except ImportError:
            print(f"{name} isn't here, and is left out")
            continue
        server = Server(program, (1, 1, 1, 3))
        play(module, server.port)
        server.served(1)
        print(f"{name} is served")
    play_libmemcached(program)


if __name__ == "__main__":
    try:
        main(*sys.argv[1:])
    except AssertionError as wrong:
        print(f"plain: {wrong}", file=sys.stderr)
        sys.exit(1)

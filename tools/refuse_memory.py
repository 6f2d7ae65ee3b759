#!/usr/bin/env python3
"""Refuses the program one allocation at a time, and looks how it ends. By hand, and not in the gate: it takes minutes.

    python3 tools/refuse_memory.py PROGRAM [STEP]

PROGRAM is a built `iq`. Each of five scripts is run once with no allocation refused, and then again for each: the first
is refused, then the second alone, and so on, or each STEP-th. So is a server with a connection on which leases, a commit
and plain commands are said, and two connections behind it. And so is a server that takes over a cache from a file. `cc` is needed, for tools/refuse_memory.c. It prints what
it tried, and what came of it. The status is 1 where something ended otherwise than the pages say.

`rt try --fail-alloc N` refuses one allocation of the unproved program, and compiles it anew for each.
"""
import collections
import os
import re
import socket
import struct
import subprocess
import sys
import tempfile
from concurrent.futures import ThreadPoolExecutor

from cache_text import cache_text
from free_ports import free_port

TOP = os.path.dirname(os.path.dirname(os.path.abspath(__file__)))
SCRIPTS = ("stale_refill", "refresh_then_hit", "deltas_summed", "raised_then_hit", "swept_before_commit")
PATIENCE = 60
ATONCE = 2

UNDISTURBED = "all is as without it"

# How a program ends for want of memory, by docs/script.md and docs/protocol.md.
ENDS = {(10, b"memory\n"), (6, b"store fault\n"), (5, b"door fault\n")}

# How a server begins that took nothing over for want of memory: its own, or the store's in a call.
COLD = (b"cold memory\n", b"cold store fault\n")

# What is said on the first connection, with the reply to it.
SAID = [
    (b"begin read\r\n", b"SESSION 1\r\n"),
    (b"iqget profile:2 1 0\r\n", b"LEASE 1\r\n"),
    (b"ask profile:2 1\r\n", b"VALUE profile:2 0 6 0\r\nm2 0 0\r\nEND\r\n"),
    (b"iqset profile:2 0 0 6 1 0\r\nm2 0 0\r\n", b"STORED\r\n"),
    (b"iqget profile:2 1 0\r\n", b"VALUE profile:2 0 6 0\r\nm2 0 0\r\nEND\r\n"),
    (b"begin write\r\n", b"SESSION 2\r\n"),
    (b"qareg profile:2 2\r\n", b"GRANTED 2\r\n"),
    (b"sql 2 rename 2 bob\r\n", b"COMMITTED 1\r\n"),
    (b"dar profile:2 2\r\n", b"DELETED\r\n"),
    (b"set plain 7 0 2\r\n41\r\n", b"STORED\r\n"),
    (b"incr plain 1\r\n", b"42\r\n"),
    (b"gets plain none plain\r\n", b"VALUE plain 7 2 2\r\n42\r\nVALUE plain 7 2 2\r\n42\r\nEND\r\n"),
    (b"delete plain\r\n", b"DELETED\r\n"),
]

# What may be told behind a refusal: a reply of the pages, whose values are those of their stamps.
REPLY = re.compile(
    rb"(SESSION|LEASE|GRANTED|COMMITTED|REJECTED|RELEASED) \d+|AGAIN [IQ]|OWN|(NOT_)?STORED|HELD|ENDED|DELETED|NOT_FOUND"
    rb"|UNCOVERED profile:2|\d+|CLIENT_ERROR (not yours|no grant|not committed|session busy|read session|committed)"
    rb"|SERVER_ERROR (memory|store)|END|VALUE profile:2 0 6 0\r\nm2 0 0\r\nEND|VALUE profile:2 0 7 1\r\nbob 0 0\r\nEND"
    rb"|(VALUE plain 7 2 \d+\r\n4[12]\r\n)+END"
)


class Refusing:
    """Runs a program with one of its allocations refused."""

    def __init__(self, program, folder):
        self.program = os.path.abspath(program)
        self.folder = folder
        self.library = os.path.join(folder, "refuse.so")
        source = os.path.join(TOP, "tools", "refuse_memory.c")
        subprocess.run(["cc", "-shared", "-fPIC", "-O2", "-o", self.library, source], check=True)

    def numbers(self, at):
        """A file of the numbers that tools/refuse_memory.c reads and writes."""
        file, path = tempfile.mkstemp(dir=self.folder)
        os.write(file, struct.pack("QQ", at, 0))
        os.close(file)
        return path

    def start(self, path, *words, **streams):
        env = {"LD_PRELOAD": self.library, "REFUSE_FILE": path}
        return subprocess.Popen([self.program, *words], stdout=subprocess.PIPE, stderr=subprocess.PIPE, env=env, **streams)

    def count(self, path):
        """How many allocations there were so far."""
        with open(path, "rb") as file:
            return struct.unpack("QQ", file.read())[1]


class Wrong(Exception):
    """Something that the pages don't say."""


def run_script(refusing, script, at):
    """What the script prints, how it ends and how often it asks for memory."""
    path = refusing.numbers(at)
    process = refusing.start(path, "replay", stdin=subprocess.PIPE)
    out, err = process.communicate(script, timeout=PATIENCE)
    return out, (process.returncode, err), refusing.count(path)


def first_fault(lines):
    """The place of the first line that tells of a fault of the store, or of the end."""
    return next((place for place, line in enumerate(lines) if line.endswith(b" FAULT")), len(lines))


def judge_script(whole, out, end):
    """The name of what came of a refusal: of a call of the store too, behind which a script goes on."""
    if end == (0, b"") and out == whole:
        return UNDISTURBED
    if end in ENDS and whole.startswith(out):
        return end[1].decode().strip()
    lines = out.split(b"\n")
    front = first_fault(lines)
    if end == (6, b"store fault\n") and front < len(lines) and whole.split(b"\n")[:front] == lines[:front]:
        return "a turn says FAULT: store fault"
    raise Wrong(f"{end} with {out!r}")


def say(stream, command):
    """The whole reply to a command; shorter or nothing where the connection ends."""
    try:
        stream.sendall(command)
        reply = b""
        while not (reply.endswith(b"END\r\n") if reply.startswith(b"VALUE ") else reply.endswith(b"\r\n")):
            more = stream.recv(65536)
            if not more:
                return reply
            reply += more
        return reply
    except ConnectionError:
        return b""


def talk(port):
    """The first conversation: what is told up to its end or to the end of the connection."""
    told = []
    with socket.create_connection(("127.0.0.1", port), timeout=PATIENCE) as stream:
        for command, _ in SAID:
            told.append(say(stream, command))
            if not told[-1]:
                break
    return told


def look_after(port, told):
    """A second connection is served as if nothing had been, and knows of the commit."""
    with socket.create_connection(("127.0.0.1", port), timeout=PATIENCE) as stream:
        begun = say(stream, b"begin read\r\n")
        if not re.fullmatch(rb"SESSION [1-4]\r\n", begun):
            raise Wrong(f"{begun!r} to a later begin")
        value = say(stream, b"ask profile:2 %d\r\n" % int(begun.split()[1]))
        old, new = (b"VALUE profile:2 0 6 0\r\nm2 0 0\r\nEND\r\n", b"VALUE profile:2 0 7 1\r\nbob 0 0\r\nEND\r\n")
        if value == b"SERVER_ERROR store\r\n":
            return  # The database is shut.
        if value not in (old, new) or (b"COMMITTED 1\r\n" in told and value == old):
            raise Wrong(f"{value!r} behind {told!r}")
        for command, wanted in ((b"set other 0 0 1\r\nx\r\n", b"STORED\r\n"), (b"get other\r\n", b"VALUE other 0 1\r\nx\r\nEND\r\n")):
            reply = say(stream, command)
            if reply != wanted:
                raise Wrong(f"{reply!r} to {command!r}")


def judge_talk(told):
    """The name of what came of a refusal: replies are those of before up to one that tells of it."""
    for reply, (command, wanted) in zip(told, SAID):
        if reply != wanted:
            break
    else:
        return UNDISTURBED
    for other in told:
        if other and not REPLY.fullmatch(other[:-2]):
            raise Wrong(f"{other!r} in {told!r}")
    if reply == b"":
        return "the connection ends"
    if reply in (b"SERVER_ERROR memory\r\n", b"SERVER_ERROR store\r\n"):
        return reply.decode().strip()
    if command.startswith(b"iqset") and reply == b"NOT_STORED\r\n":
        return "NOT_STORED"
    raise Wrong(f"{reply!r} to {command!r}, and {told!r}")


def two_talks(port):
    """What came of a refusal that the first connection or the second one met."""
    told = talk(port)
    what = judge_talk(told)
    try:
        look_after(port, told)
    except Wrong:
        if what != UNDISTURBED:
            raise
        what = "in the second connection"
    return what, told


def run_server(refusing, at):
    """What came of a refusal to a server, and how often it asks for memory before its third connection."""
    path = refusing.numbers(at)
    port = free_port()
    process = refusing.start(path, "serve", f"127.0.0.1:{port}", "3", "1", "1", "3")
    try:
        if process.stdout.readline() != b"ready\n":
            err = process.communicate(timeout=PATIENCE)[1]
            if (process.returncode, err) not in ENDS:
                raise Wrong(f"{process.returncode} {err!r} before it is ready")
            return "at the start: " + err.decode().strip(), refusing.count(path)
        what, told = two_talks(port)
        count = refusing.count(path)
        look_after(port, told)
        out, err = process.communicate(timeout=PATIENCE)
        if (out, err, process.returncode) != (b"served 3\n", b"", 0):
            raise Wrong(f"{process.returncode} {out!r} {err!r}")
        return what, count
    finally:
        process.kill()
        process.communicate()


def run_warm(refusing, at):
    """What came of a refusal to a server with the file of a cache, and how often it asks for memory. At its end the file
    is the old one, or behind a cold start that of no entries."""
    path = refusing.numbers(at)
    kept = path + ".cache"
    old = cache_text(2, [(f"profile:{member}", f"m{member} 0 0") for member in (1, 2, 3)])
    with open(kept, "wb") as file:
        file.write(old)
    port = free_port()
    process = refusing.start(path, "serve", "--warm", kept, f"127.0.0.1:{port}", "1", "1", "2", "3")
    try:
        begun = process.stdout.readline()
        if begun and process.stdout.readline() == b"ready\n":
            with socket.create_connection(("127.0.0.1", port), timeout=PATIENCE) as stream:
                say(stream, b"begin read\r\n")
        out, err = process.communicate(timeout=PATIENCE)
    finally:
        process.kill()
        process.communicate()
    with open(kept, "rb") as file:
        text = file.read()
    end = (process.returncode, err)
    if begun not in (b"warm 3\n", *COLD, b"") or text not in (old, cache_text(2, []) if begun in COLD else old):
        raise Wrong(f"{begun!r}, and the file has {text!r}")
    if end == (0, b"") and out == b"served 1\n":
        return UNDISTURBED if begun == b"warm 3\n" else begun.decode().strip(), refusing.count(path)
    if end in ENDS or end == (7, b"file fault\n"):
        return err.decode().strip(), refusing.count(path)
    raise Wrong(f"{end} behind {begun + out!r}")


def tell(name, count, tried, results):
    print(f"{name}: {count} allocations, {tried} of them refused, one at a time")
    for what, times in sorted(results.items()):
        print(f"    {times:6} {what}")


def sweep(name, count, step, one):
    """Refuses each of so many, and prints what came of them. Whether all was as the pages say."""
    places = range(1, count + 1, step)
    results = collections.Counter()

    def tried(at):
        try:
            return one(at)
        except (Wrong, OSError, subprocess.TimeoutExpired) as wrong:
            return f"WRONG at {at}: {wrong}"

    with ThreadPoolExecutor(ATONCE) as threads:
        results.update(threads.map(tried, places))
    tell(name, count, len(places), results)
    return not any(what.startswith("WRONG") for what in results)


def sweep_script(refusing, name, step):
    with open(os.path.join(TOP, "examples", name + ".iq"), "rb") as file:
        script = file.read()
    whole, end, count = run_script(refusing, script, 0)
    if end != (0, b""):
        raise SystemExit(f"{name}: {end} with no allocation refused")

    def one(at):
        out, end, _ = run_script(refusing, script, at)
        return judge_script(whole, out, end)

    return sweep(name, count, step, one)


def main(program, step="1"):
    with tempfile.TemporaryDirectory() as folder:
        refusing = Refusing(program, folder)
        fine = [sweep_script(refusing, name, int(step)) for name in SCRIPTS]
        what, count = run_server(refusing, 0)
        if what != UNDISTURBED:
            raise SystemExit(f"the server: {what} with no allocation refused")
        fine.append(sweep("a server and three connections", count, int(step), lambda at: run_server(refusing, at)[0]))
        what, count = run_warm(refusing, 0)
        if what != UNDISTURBED:
            raise SystemExit(f"the server with a cache: {what} with no allocation refused")
        fine.append(sweep("a server that takes over a cache", count, int(step), lambda at: run_warm(refusing, at)[0]))
    return 0 if all(fine) else 1


if __name__ == "__main__":
    sys.exit(main(*sys.argv[1:]))

#!/usr/bin/env python3
"""Measures the program's store over SQL beside C SQLite, by hand, on a machine that does nothing else.

    python3 tools/measure_store.py PROGRAM [LISTS [COUNT]]

PROGRAM is the proved `iq`. LISTS is an `iq` whose rows are lists in memory: what it takes for the same commands is what
connections, leases and sessions take, and is subtracted; without it nothing is. Each thing is done COUNT times, 4000
unless another number is given. Needs cc and libsqlite3-dev (tools/measure_store.c is compiled), and some gigabytes of
room in the folder for temporary files. docs/measures.md says what the numbers say.

The program is measured over one connection on the loopback, whose commands are sent without waiting for replies:

    profile .. blocked   `ask` of keys of that kind
    after                `stage` of an invitation, and the profile that it would leave
    invite .. rename     sessions of `begin write`, `qareg` of each key, `sql`, `dar` of each key

C SQLite runs the same statements, prepared once, over the same rows: ten links a member, five each way. Its file has
a log that is synced at each commit (journal_mode WAL, synchronous FULL), as the program's has. Printed is how many a
second, and the ratio of the program's to C's.
"""
import os
import shutil
import subprocess
import sys
import tempfile
import threading
import time

from store_files import Client, Server, Wrong, expect

TOP = os.path.dirname(os.path.dirname(os.path.abspath(__file__)))
SIZES = (1000, 20000, 100000)
FILLED = (1, 7, 31, 101, 307)
OFFERED = (2, 3, 5, 11, 13, 17, 19, 23)
KINDS = ("profile", "friends", "pending", "nfriends", "npending", "blocked")
SYNCED = "PRAGMA journal_mode = WAL; PRAGMA synchronous = FULL"
PIECE = 1 << 16


def behind(members, a, places):
    """The member that stands so many places behind another, round about."""
    return (a - 1 + places) % members + 1


def pair(members, number):
    """The pair of this number, as the C program has it."""
    a = number * 7919 % members + 1
    return a, behind(members, a, OFFERED[number // members % 8])


def keys_of(change):
    """The keys that a change touches."""
    kind, a, b = change.split(" ")
    if kind == "rename":
        return [f"profile:{a}"]
    if kind == "block":
        return [f"blocked:{a}"]
    if kind in ("invite", "reject"):
        return [f"profile:{b}", f"pending:{b}", f"npending:{b}"]
    keys = [f"{of}:{it}" for of in ("profile", "friends", "nfriends") for it in (a, b)]
    return keys + ([f"pending:{b}", f"npending:{b}"] if kind == "accept" else [])


class Measured:
    """A server, and a connection to it over which many commands are on their way."""

    def __init__(self, program, words, members):
        self.server = Server(program, words, members)
        began = time.monotonic()
        self.server.ready()
        self.opened = time.monotonic() - began
        self.client = Client(self.server)
        self.session = 0

    def close(self):
        self.client.close()
        self.server.kill()

    def seconds(self, commands, ends, count, told=(b"", 0)):
        """How long it takes until so many replies have ended, each with these bytes. Some are told a word besides."""
        word, left = told
        began = time.monotonic()
        sender = threading.Thread(target=self.client.stream.sendall, args=(commands,))
        sender.start()
        tail = b""
        while count > 0:
            piece = self.client.stream.recv(PIECE)
            if not piece:
                raise Wrong("the server ended the connection")
            count -= (tail[1 - len(ends) :] + piece).count(ends)
            left -= (tail[1 - len(word) :] + piece).count(word) if word else 0
            tail = (tail + piece)[-32:]
        took = time.monotonic() - began
        sender.join()
        expect((count, left), (0, 0))
        return took

    def begin(self, role):
        self.session += 1
        self.seconds(f"begin {role}\r\n".encode(), b"SESSION %d\r\n" % self.session, 1)

    def asks(self, kind, members, count):
        self.begin("read")
        keys = (f"{kind}:{number * 40503 % members + 1}" for number in range(count))
        return self.seconds("".join(f"ask {key} {self.session}\r\n" for key in keys).encode(), b"\r\nEND\r\n", count)

    def stages(self, members, count):
        self.begin("write")
        pairs = (pair(members, number) for number in range(count))
        lines = (f"stage profile:{b} {self.session} invite {a} {b}\r\n" for a, b in pairs)
        took = self.seconds("".join(lines).encode(), b"\r\nEND\r\n", count)
        self.seconds(f"iqabort {self.session}\r\n".encode(), b"RELEASED 0\r\n", 1)
        return took

    def commits(self, txns):
        """Commits these transactions, each in a session of its own."""
        lines = []
        replies = 0
        for txn in txns:
            self.session += 1
            keys = list(dict.fromkeys(key for change in txn.split(" + ") for key in keys_of(change)))
            lines.append("begin write")
            lines += [f"qareg {key} {self.session}" for key in keys]
            lines.append(f"sql {self.session} {txn}")
            lines += [f"dar {key} {self.session}" for key in keys]
            replies += 2 + 2 * len(keys)
        made = sum(line.startswith("sql ") for line in lines)
        return self.seconds(("\r\n".join(lines) + "\r\n").encode(), b"\r\n", replies, (b"COMMITTED ", made))

    def fill(self, members):
        """Gives each member the ten links that the C program gives her."""
        for first in range(1, members + 1, 1000):
            # One connection is answered a million commands.
            self.client.close()
            self.client = Client(self.server)
            group = range(first, min(first + 1000, members + 1))
            links = {a: [(a, behind(members, a, places)) for places in FILLED] for a in group}
            self.commits(" + ".join(f"invite {a} {b}" for a, b in links[a_]) for a_ in group)
            self.commits(" + ".join(f"accept {a} {b}" for a, b in links[a_][::2]) for a_ in group)

    def all(self, members, count):
        """The seconds of each thing, with its number."""
        changes = [
            ("invite", range(count)), ("accept", range(count // 2)), ("reject", range(count // 2, count)),
            ("thaw", range(count // 2)), ("block", range(count)),
        ]
        took = {kind: (self.asks(kind, members, count), count) for kind in KINDS}
        took["after"] = self.stages(members, count), count
        for name, numbers in changes:
            txns = ["{} {} {}".format(name, *pair(members, number)) for number in numbers]
            took[name] = self.commits(txns), len(numbers)
        renames = ["rename {} n{}".format(*pair(members, number)) for number in range(count)]
        took["rename"] = self.commits(renames), count
        self.client.send([f"ask profile:1 {self.session}"])
        if not self.client.reply().startswith("VALUE profile:1 0 "):
            raise Wrong("the last session isn't the one that was counted")
        return took


def measured(program, words, members, count, fills):
    server = Measured(program, words, members)
    try:
        if fills:
            server.fill(members)
        return server.all(members, count), server.opened
    finally:
        server.close()


def in_c(native, words):
    ran = subprocess.run([native, *map(str, words)], stdout=subprocess.PIPE, check=True)
    lines = [line.split(" ") for line in ran.stdout.decode().splitlines()]
    return {name: float(rate) for name, rate in lines}


def rates(took, spare):
    """How many a second, where so much of the time of each is for the connection."""
    return {name: number / max(seconds - number * spare.get(name, 0), 1e-9) for name, (seconds, number) in took.items()}


def tell(title, ours, theirs):
    print(title)
    for name in theirs:
        print(f"  {name:10} {ours[name]:10.0f} {theirs[name]:10.0f} {ours[name] / theirs[name]:6.2f}")
    sys.stdout.flush()


def measure_size(program, native, folder, members, count, spare):
    ours, opened = measured(program, None, members, count, True)
    tell(f"{members} members in memory, opened in {opened:.2f} s: program, C SQLite, ratio", rates(ours, spare),
         in_c(native, [":memory:", members, count]))
    path = os.path.join(folder, f"ours_{members}.db")
    in_c(native, ["make", path, members])
    ours, opened = measured(program, path, members, count, False)
    tell(f"{members} members in a file, opened in {opened:.2f} s: program, C SQLite, ratio", rates(ours, spare),
         in_c(native, [os.path.join(folder, f"theirs_{members}.db"), members, count, SYNCED]))


def main(words):
    if not 1 <= len(words) <= 3:
        print(__doc__, file=sys.stderr)
        return 2
    count = int(words[2]) if len(words) > 2 else 4000
    folder = tempfile.mkdtemp()
    native = os.path.join(folder, "measure_store")
    source = os.path.join(TOP, "tools", "measure_store.c")
    subprocess.run(["cc", "-O2", "-o", native, source, "-lsqlite3"], check=True)
    spare = {}
    if len(words) > 1:
        lists, _ = measured(words[1], None, SIZES[0], count, False)
        spare = {name: seconds / number for name, (seconds, number) in lists.items()}
        print("subtracted, microseconds:", ", ".join(f"{name} {1e6 * each:.1f}" for name, each in spare.items()))
    for members in SIZES:
        measure_size(words[0], native, folder, members, count, spare)
    shutil.rmtree(folder)
    return 0


if __name__ == "__main__":
    sys.exit(main(sys.argv[1:]))

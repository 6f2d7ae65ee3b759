#!/usr/bin/env python3
"""Measures whether the memory of a server grows with what it has served, by hand.

    python3 tools/measure_resident.py PROGRAM [--only PART] [--commits N] [--sessions N] [--keys N] [--shards N]

PROGRAM is the proved `iq`. Each part starts a server of its own on the loopback, with the rows in memory, and ends it. Its
resident memory is read from /proc: VmRSS, and RssAnon in brackets, in KiB. Each part prints one row of a table:

    commits     renames of the same members back and forth, which leave the rows as large as they were: N (6000000), with
                a look behind a sixth of them. From there on it may grow by 4 MiB
    links       the same with a link that is added and taken away, a tenth as many. What it grows by beyond the row of the
                commits is the database's own, so no bound is set
    sessions    sessions that commit nothing, readers and writers: N (10000000), with a look behind a tenth of them. From
                there on it may grow by 4 MiB
    misses      N keys (600000, all of 100000 members) that are missed and never set, by several sessions. Then 10 seconds
                with a plain request now and then, and behind them plain requests, a quarter as many as keys, since a
                server sweeps behind requests. It may be 8 MiB more than before the first miss

On a machine that does nothing else all takes some six minutes: the commits three to four, the links one, the sessions one,
the misses a quarter of one. Beside other work it may take three times that. Standard error says how far it is, and how long
it may take yet. A part that takes more than an hour is given up. Without --only all are made.

The status is 0 where each bound is met, 1 where one is missed, and 2 where something couldn't be measured.
"""
import argparse
import os
import re
import signal
import subprocess
import sys
import time

from store_files import PATIENCE, Client, Server, Wrong, expect

WORKERS = 4
BUDGET = 990_000  # One connection is answered a million commands.
MOST = 3600
PIECE = 1 << 16
BATCH = 200
LOOK = 5  # Seconds between two lines on standard error.

RENAMED = 16  # Members that are renamed in turn.
LINKED = (b"profile", b"pending", b"npending")
KINDS = ("profile", "friends", "pending", "nfriends", "npending", "blocked")
LAPSE = 10  # Seconds that a lease lives.
MIB = 1024

HEAD = """\
| | At the start, KiB | Then | At the end | Grown by | May grow by | Met | Seconds |
|---|---|---|---|---|---|---|---|"""


class Measured(Server):
    """A server whose rows are in memory, and which any number of connections may come to."""

    def __init__(self, program, members, shards):
        super().__init__(program, None, members, WORKERS, shards=shards, conns="forever")
        self.began = time.monotonic()

    def resident(self):
        """How many KiB of its memory are resident, and how many of them are of no file."""
        with open(f"/proc/{self.process.pid}/status", encoding="ascii") as status:
            text = status.read()
        return [int(re.search(rf"^{name}:\s+(\d+) kB", text, re.M)[1]) for name in ("VmRSS", "RssAnon")]

    def seconds(self):
        """How long it has served. A part that takes too long ends here."""
        seconds = time.monotonic() - self.began
        if seconds > MOST:
            raise Wrong(f"more than {MOST} seconds")
        return seconds

    def end(self):
        """Ends it by a signal, as a server is ended that serves forever. It must not have ended before."""
        left = self.process.poll()
        self.process.send_signal(signal.SIGTERM)
        out, err = self.process.communicate(timeout=PATIENCE)
        expect((left, out, err, self.process.returncode), (None, b"", b"", -signal.SIGTERM))


class Pipe:
    """Batches of commands, over one connection behind another."""

    def __init__(self, server):
        self.server = server
        self.open()

    def open(self):
        """Opens a connection. It begins a session that reads, so that the numbers of the next ones are known."""
        self.client = Client(self.server)
        self.session = int(self.client.begin("read"))
        self.said = 1

    def room(self):
        """Goes on to the next connection where this one has said nearly as much as it may."""
        if self.said > BUDGET:
            self.close()
            self.open()

    def say(self, lines, wanted):
        """Sends lines, of which each is told one line. So many of these have to begin with each of the wanted words."""
        self.client.stream.sendall(b"\r\n".join(lines) + b"\r\n")
        self.said += len(lines)
        left = len(lines)
        told = b"\n"
        while left > 0:
            piece = self.client.stream.recv(PIECE)
            if not piece:
                raise Wrong(f"the server ended the connection behind {told[-200:]!r}")
            left -= piece.count(b"\n")
            told += piece
        found = {word: told.count(b"\n" + word) for word in wanted}
        if left or found != wanted:
            raise Wrong(f"{found} in place of {wanted}: {told[:200]!r}")

    def close(self):
        """Ends the connection, and waits until the server has."""
        self.client.send(["quit"])
        expect(self.client.reply(), "")
        self.client.close()


class Progress:
    """Says on standard error how far a part is."""

    def __init__(self, name, whole):
        self.name = name
        self.whole = whole
        self.began = self.last = time.monotonic()

    def at(self, done):
        now = time.monotonic()
        if now - self.last < LOOK or not done:
            return
        self.last = now
        pace = done / (now - self.began)
        left = (self.whole - done) / pace
        print(f"{self.name}: {done} of {self.whole}, {pace:.0f} a second, some {left:.0f} s yet", file=sys.stderr)


def renames(pipe, first, count):
    """So many commits, each of which renames the next member to the other one of two names of one length."""
    lines = []
    for number in range(first, first + count):
        pipe.session += 1
        member, name = number % RENAMED + 1, b"ab"[number // RENAMED % 2]
        key, words = b"profile:%d %d" % (member, pipe.session), (pipe.session, member, name)
        lines += [b"begin write", b"qareg " + key, b"sql %d rename %d name_%c" % words, b"dar " + key]
    pipe.say(lines, {b"SESSION ": count, b"GRANTED ": count, b"COMMITTED ": count, b"DELETED": count})


def links(pipe, first, count):
    """So many commits, of which one adds a link, and the next takes it away."""
    lines = []
    for number in range(first, first + count):
        pipe.session += 1
        keys = [b"%s:2 %d" % (kind, pipe.session) for kind in LINKED]
        change = (pipe.session, b"reject" if number % 2 else b"invite")
        lines += [b"begin write", *(b"qareg " + key for key in keys), b"sql %d %s 1 2" % change]
        lines += [b"dar " + key for key in keys]
    pipe.say(lines, {b"SESSION ": count, b"GRANTED ": 3 * count, b"COMMITTED ": count, b"DELETED": 3 * count})


def sessions(pipe, first, count):
    """So many sessions. Of four, two are readers, each of which the next one replaces, and two are writers that give up:
    one at once, and one that has a key in quarantine by then."""
    lines = []
    freed = kept = 0
    for number in range(first, first + count):
        pipe.session += 1
        if number % 4 < 2:
            lines.append(b"begin read")
            continue
        lines.append(b"begin write")
        if number % 4 == 2:
            freed += 1
        else:
            kept += 1
            lines.append(b"qareg profile:%d %d" % (number % 97 + 1, pipe.session))
        lines.append(b"iqabort %d" % pipe.session)
    pipe.say(lines, {b"SESSION ": count, b"GRANTED ": kept, b"RELEASED 0": freed, b"RELEASED 1": kept})


class Row:
    """What one part found, as a row of the table."""

    def __init__(self, name):
        self.name = name
        self.looks = []

    def look(self, server, behind=""):
        """Looks how much is resident."""
        whole, anon = server.resident()
        self.looks.append((whole, f"{behind and behind + ': '}{whole:,} ({anon:,})"))

    def tell(self, since, most, seconds):
        """Prints the row, by the look since which it may have grown by so much. Whether it has grown no further."""
        grown = self.looks[-1][0] - self.looks[since][0]
        met = most is None or grown <= most
        cells = [self.name, *(text for _, text in self.looks), f"{grown:,}", "" if most is None else f"{most:,}"]
        cells += ["" if most is None else "yes" if met else "NO", f"{seconds:.0f}"]
        print("| " + " | ".join(cells) + " |", flush=True)
        return met


def measure_batches(options, name, made, whole, first, most):
    """Has a server make so many of something, and looks behind the first of them and behind all."""
    row, progress = Row(name), Progress(name, whole)
    with Measured(options.program, 1000, options.shards) as server:
        server.ready_within(PATIENCE)
        pipe = Pipe(server)
        row.look(server)
        done = 0
        while done < whole:
            end = first if done < first else whole
            pipe.room()
            made(pipe, done, min(BATCH, end - done))
            done = min(done + BATCH, end)
            if done in (first, whole):
                row.look(server, f"{done:,}")
            server.seconds()
            progress.at(done)
        pipe.close()
        seconds = server.seconds()
        server.end()
    return row.tell(1, most, seconds)


def measure_commits(options):
    whole = options.commits
    return measure_batches(options, "commits of a rename", renames, whole, max(whole // 6, 1), 4 * MIB)


def measure_links(options):
    whole = max(options.commits // 10, 2)
    return measure_batches(options, "commits of a link", links, whole, max(whole // 6, 1), None)


def measure_sessions(options):
    whole = options.sessions
    return measure_batches(options, "sessions", sessions, whole, max(whole // 10, 1), 4 * MIB)


def asked(pipes, count):
    """Makes so many plain requests over these connections."""
    for first in range(0, count, BATCH * len(pipes)):
        for pipe in pipes:
            pipe.room()
            pipe.say([b"get none"] * BATCH, {b"END": BATCH})
    return count


def measure_misses(options):
    """Has each of the workers miss its part of the keys, in sessions of some thousands."""
    members = min(max(options.keys // len(KINDS), 1), 100_000)
    keys = [f"{kind}:{member}".encode() for kind in KINDS for member in range(1, members + 1)]
    row, progress = Row("keys missed, never set"), Progress("misses", len(keys))
    with Measured(options.program, 100_000, options.shards) as server:
        server.ready_within(PATIENCE)
        pipes = [Pipe(server) for _ in range(WORKERS)]
        asked(pipes, 4000)
        row.look(server)
        for first in range(0, len(keys), BATCH):
            pipe = pipes[first // BATCH % WORKERS]
            if first // BATCH // WORKERS % 25 == 24:
                pipe.session = int(pipe.client.begin("read"))
                pipe.said += 1
            group = keys[first : first + BATCH]
            pipe.say([b"iqget %s %d 0" % (key, pipe.session) for key in group], {b"LEASE ": len(group)})
            progress.at(first)
        row.look(server, f"{len(keys):,}")
        last = time.monotonic()
        while time.monotonic() - last < LAPSE:
            for pipe in pipes:
                pipe.say([b"get none"], {b"END": 1})
            time.sleep(0.05)
        time.sleep(0.1)
        count = asked(pipes, max(len(keys) // 4, 1000))
        row.look(server, f"{LAPSE} s and {count:,} requests")
        for pipe in pipes:
            pipe.close()
        seconds = server.seconds()
        server.end()
    return row.tell(0, 8 * MIB, seconds)


PARTS = {
    "commits": measure_commits,
    "links": measure_links,
    "sessions": measure_sessions,
    "misses": measure_misses,
}


def number(word):
    """A number of at least 10."""
    value = int(word)
    if value < 10:
        raise ValueError
    return value


def main():
    parser = argparse.ArgumentParser(description=__doc__, formatter_class=argparse.RawDescriptionHelpFormatter)
    parser.add_argument("program")
    parser.add_argument("--only", choices=PARTS)
    parser.add_argument("--commits", type=number, default=6_000_000)
    parser.add_argument("--sessions", type=number, default=10_000_000)
    parser.add_argument("--keys", type=number, default=600_000)
    parser.add_argument("--shards", type=number, default=16)
    options = parser.parse_args()
    options.program = os.path.abspath(options.program)
    met = True
    print(HEAD, flush=True)
    for name in [options.only] if options.only else PARTS:
        try:
            met &= PARTS[name](options)
        except (OSError, subprocess.SubprocessError, Wrong) as wrong:
            print(f"{name}: not measured: {str(wrong) or repr(wrong)}", file=sys.stderr)
            return 2
    return 0 if met else 1


if __name__ == "__main__":
    sys.exit(main())

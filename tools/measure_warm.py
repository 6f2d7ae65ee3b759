#!/usr/bin/env python3
"""Measures what a server gains by a cache that it takes over, and what that costs, by hand and on a machine that does
nothing else.

    python3 tools/measure_warm.py PROGRAM [SECONDS [MEMBERS [SHARDS [COMMITS]]]]

PROGRAM is the proved `iq`. The rows lie in a file. A first server stores the profile of as many members as a quarter of
its shards' room, and leaves its cache. Then a server begins with that cache, and one without, and four clients read
these profiles at random for SECONDS (10). What they miss they ask for and set. Printed is for each server how many reads
there were, and how many hit, in the first second and in all.

Behind that a cache is filled as far as its shards' room goes, with keys of all kinds, of MEMBERS (100000) members over
SHARDS (64) shards. Printed is how long a start takes from its first moment to `ready`, with that cache and without, and
how long an end takes from the last `quit`. The last server takes over the full cache too, and a client makes COMMITS
(20000) renames of its first fifty members, one after another. Printed is how long that one's end takes.
"""
import os
import random
import sys
import tempfile
import threading
import time

from cache_text import shard_of
from store_files import Client, Server, Wrong, expect

ROOM = 4096
CLIENTS = 4
KINDS = ("profile", "friends", "pending", "nfriends", "npending", "blocked")
PIECE = 64
PATIENCE = 600


class Reader(threading.Thread):
    """A client that reads keys at random, and counts reads and hits in each second."""

    def __init__(self, server, keys, seconds, seed):
        super().__init__()
        self.server = server
        self.keys = keys
        self.seconds = seconds
        self.drawn = random.Random(seed)
        self.reads = [0] * seconds
        self.hits = [0] * seconds

    def run(self):
        began = time.monotonic()
        with Client(self.server) as client:
            session = client.begin("read")
            second = 0
            while second < self.seconds:
                hit = read(client, session, self.drawn.choice(self.keys))
                self.reads[second] += 1
                self.hits[second] += hit
                second = int(time.monotonic() - began)
            leave(client)


def read(client, session, key):
    """Reads a key, and sets it where it has a lease. Whether it was a hit."""
    client.send([f"iqget {key} {session} 0"])
    words = client.reply().split(" ")
    if words[0] == "VALUE":
        client.reply(), client.reply()
        return True
    client.send([f"ask {key} {session}"])
    stamp, value = client.reply().split(" ")[4], client.reply()
    client.reply()
    if words[0] == "LEASE":
        client.send([f"iqset {key} 0 0 {len(value)} {words[1]} {stamp}", value])
        client.reply()
    return False


def leave(client):
    """Ends a connection, and waits until the server has."""
    client.send(["quit"])
    expect(client.reply(), "")


def fill(client, keys):
    """Stores keys that the cache lacks, each with what the store answers."""
    session = client.begin("read")
    set_last = []
    for key in keys:
        client.send([*set_last, f"iqget {key} {session} 0", f"ask {key} {session}"])
        if set_last:
            expect(client.reply(), "STORED")
        token = client.reply().split(" ")[1]
        stamp, value = client.reply().split(" ")[4], client.reply()
        client.reply()
        set_last = [f"iqset {key} 0 0 {len(value)} {token} {stamp}", value]
    client.send(set_last)
    expect(client.reply(), "STORED")


def rename(client, member, number):
    """Renames a member in a transaction of its own, and drops her profile."""
    session = client.begin("write")
    key = f"profile:{member}"
    client.send([f"qareg {key} {session}", f"sql {session} rename {member} n{number}", f"dar {key} {session}"])
    replies = [client.reply() for _ in range(3)]
    if replies[1] != f"COMMITTED {number}":
        raise Wrong(f"{replies}")


class Bench:
    """Servers over one file of rows and one of a cache."""

    def __init__(self, program, place, members, shards):
        self.program = program
        self.place = place
        self.members = members
        self.shards = shards

    def start(self, warm, conns=1):
        """A server, and the seconds until it is ready."""
        began = time.monotonic()
        server = Server(
            self.program, os.path.join(self.place, "store.db"), self.members, CLIENTS, warm=warm, shards=self.shards, conns=conns
        )
        return server, server.begun() if warm else server.ready(), time.monotonic() - began

    def path(self, name):
        return os.path.join(self.place, name)

    def fill(self, name, keys):
        """Fills a new cache, and leaves it in this file. The seconds of the server's end."""
        server, begun, _ = self.start(self.path(name))
        with server, Client(server) as client:
            expect(begun, "cold no file")
            fill(client, keys)
            return self.end(server, client)

    def end(self, server, client):
        """Ends a server by its last connection. The seconds that takes."""
        began = time.monotonic()
        leave(client)
        client.close()
        status = server.process.wait(PATIENCE)
        expect(status, 0)
        return time.monotonic() - began

    def load(self, warm, keys, seconds):
        """Reads and hits in each second, by clients that read at a time."""
        server, begun, _ = self.start(warm, CLIENTS)
        with server:
            readers = [Reader(server, keys, seconds, number) for number in range(CLIENTS)]
            for reader in readers:
                reader.start()
            for reader in readers:
                reader.join()
            expect(server.process.wait(PATIENCE), 0)
        reads = [sum(reader.reads[second] for reader in readers) for second in range(seconds)]
        hits = [sum(reader.hits[second] for reader in readers) for second in range(seconds)]
        return begun if warm else "no file", reads, hits


def keys_for(members, shards):
    """Keys of all kinds, as many for each shard as it has room for, or as many as there are."""
    homes = [0] * shards
    for kind in KINDS:
        for member in range(1, members + 1):
            key = f"{kind}:{member}"
            home = shard_of(key, shards)
            if homes[home] < ROOM:
                homes[home] += 1
                yield key


def measure_load(bench, seconds):
    keys = [f"profile:{member}" for member in range(1, min(bench.members, bench.shards * ROOM // 4) + 1)]
    bench.fill("quarter", keys)
    print(f"{CLIENTS} clients, {len(keys)} keys, {seconds} seconds")
    print(f"{'began':<16} {'reads':>10} {'hits':>10} {'reads in 1 s':>14} {'hits in 1 s':>14}")
    for warm in (bench.path("quarter"), None):
        begun, reads, hits = bench.load(warm, keys, seconds)
        print(f"{begun:<16} {sum(reads):>10} {sum(hits):>10} {reads[0]:>14} {hits[0]:>14}")


def measure_ends(bench):
    keys = list(keys_for(bench.members, bench.shards))
    ends = {"cold": bench.fill("whole", keys)}
    size = os.path.getsize(bench.path("whole"))
    print(f"{len(keys)} entries over {bench.shards} shards of {bench.members} members, a file of {size} bytes")
    print(f"{'began':<16} {'to ready, s':>12} {'to the end, s':>14}")
    for name, warm in (("whole", bench.path("whole")), ("cold", bench.path("none")), ("no file", None)):
        server, begun, taken = bench.start(warm)
        with server, Client(server) as client:
            wanted = f"warm {len(keys)}" if name == "whole" else "cold no file"
            if warm and begun != wanted:
                raise Wrong(f"{begun!r} in place of {wanted!r}")
            ends[name] = bench.end(server, client)
        print(f"{begun if warm else name:<16} {taken:>12.2f} {ends[name]:>14.2f}")


def measure_commits(bench, commits):
    server, begun, _ = bench.start(bench.path("whole"))
    with server, Client(server) as client:
        for number in range(1, commits + 1):
            rename(client, number % 50 + 1, number)
        print(f"{begun}, and {commits} commits: {bench.end(server, client):.2f} s to the end")


def main(words):
    if not 1 <= len(words) <= 5:
        print(__doc__, file=sys.stderr)
        return 2
    seconds, members, shards, commits = [*map(int, words[1:]), *(10, 100000, 64, 20000)[len(words) - 1 :]]
    with tempfile.TemporaryDirectory() as place:
        bench = Bench(os.path.abspath(words[0]), place, members, shards)
        measure_load(bench, seconds)
        measure_ends(bench)
        measure_commits(bench, commits)
    return 0


if __name__ == "__main__":
    sys.exit(main(sys.argv[1:]))

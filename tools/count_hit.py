#!/usr/bin/env python3
"""Counts what a lease hit runs in a server, by hand: instructions, locked ones, and calls for memory and for the clock.

    python3 tools/count_hit.py PROGRAM [--where]

PROGRAM is the proved `iq`. Needs valgrind, whose callgrind counts, and objdump, which says which instructions are locked:
those with the prefix `lock`, and `xchg` with memory. One connection stores 16 profiles of 32 bytes by misses, waits until
the leases that it had would have lapsed, and gets the 16 in turn. That is done with 3,200 hits and with 35,200, so that
starts, misses and the first sweep don't count: printed is the difference by the number of hits between.

Both are done with 32 commands on their way and with one. What is read and written at once costs the same with one hit as
with 32, so from the two rows follows what a batch costs beside its hits, which is the third row. `--where` adds in which
functions the locked instructions are.

What is asked of the row of 32: at most 1,400 instructions, no call of malloc and its like, none of the clock, and at most
four locked instructions beside its share of those of a batch. The status is 0 where that is met, 1 where it isn't, and 2
where it couldn't be counted. It takes a minute or two, and another load on the machine changes nothing in it.
"""
import argparse
import os
import re
import shutil
import subprocess
import sys
import tempfile
import time
from collections import Counter

from store_files import PATIENCE, Client, Server, Wrong, expect

DEPTHS = (32, 1)
FEW, MANY = 3_200, 35_200
KEYS = 16
NAME = 28  # A profile is a name and two counts of one digit, with spaces between: 32 bytes.
MEMBERS = 1000
SHARDS = 64
WORKERS = 2  # With one there is one thread, and then the C library reads and writes with no locked instruction.
WAIT = 11  # Seconds: a lease lives for ten.
MOST, MOST_LOCKED = 1400, 4
LEAST = 0.005  # What is less is of the start: which thread has the connection differs from run to run.

MEMORY = ("malloc", "calloc", "realloc", "free")
CLOCK = ("clock_gettime", "__vdso_clock_gettime", "gettimeofday", "time")


class Counts:
    """What callgrind wrote: how often the instruction at each place ran, and how often each function was called."""

    def __init__(self, path):
        self.runs = Counter()
        self.calls = Counter()
        self.homes = {}
        place = function = called = None
        is_call = False
        with open(path, encoding="utf-8", errors="replace") as lines:
            for line in lines:
                word, sign, rest = line.rstrip("\n").partition("=")
                if is_call:
                    is_call = False  # What the call ran within counts where it ran.
                elif line.startswith("0x"):
                    at, times = line.split()
                    spot = place, int(at, 16)
                    self.runs[spot] += int(times)
                    self.homes[spot] = function
                elif sign and word == "ob":
                    place = rest
                elif sign and word == "fn":
                    function = rest
                elif sign and word == "cfn":
                    called = rest
                elif sign and word == "calls":
                    self.calls[re.sub(r"[@'].*", "", called)] += int(rest.split()[0])
                    is_call = True

    def called(self, names):
        return sum(self.calls[name] for name in names)


def count(program, depth, hits, folder):
    """Runs a server in callgrind for so many hits."""
    path = os.path.join(folder, f"{depth}-{hits}")
    options = ["--tool=callgrind", "--dump-instr=yes", "--dump-line=no", "--compress-strings=no", "--compress-pos=no"]
    before = [*options, f"--callgrind-out-file={path}", program]
    with Server("valgrind", None, MEMBERS, WORKERS, shards=SHARDS, conns=1, before=before) as server:
        server.ready_within(PATIENCE)
        with Client(server) as client:
            serve(client, depth, hits)
        out, err, status = server.end()
        if (out, status) != ("served 1\n", 0):
            raise Wrong(f"{out!r}, {status}, {err[-400:]!r}")
    return Counts(path)


def serve(client, depth, hits):
    """Stores the profiles, waits, and makes the hits."""
    names = {number: f"{number:x}".ljust(NAME, "n") for number in range(1, KEYS + 1)}
    session = client.begin("write")
    for number, name in names.items():
        key = f"profile:{number}"
        client.send([f"qareg {key} {session}", f"sql {session} rename {number} {name}", f"dar {key} {session}", "begin write"])
        told = [client.reply() for _ in range(4)]
        if told[1:3] != [f"COMMITTED {number}", "DELETED"]:
            raise Wrong(f"{told}")
        session = told[3].partition(" ")[2]
    client.send([f"iqabort {session}"])
    expect(client.reply(), "RELEASED 0")
    session = client.begin("read")
    gets, hit = [], []
    for number, name in names.items():
        value = f"{name} 0 0"
        gets.append(f"iqget profile:{number} {session} 0")
        client.send([gets[-1], f"ask profile:{number} {session}"])
        token = client.reply().partition(" ")[2]
        head = client.reply()
        expect([client.reply(), client.reply()], [value, "END"])
        client.send([f"iqset profile:{number} 0 0 {len(value)} {token} {head.split(' ')[4]}", value])
        expect(client.reply(), "STORED")
        hit.append([head, value, "END"])
    time.sleep(WAIT)
    for first in range(0, hits, depth):
        batch = [number % KEYS for number in range(first, first + depth)]
        client.send([gets[number] for number in batch])
        for number in batch:
            expect([client.reply() for _ in range(3)], hit[number])
    client.send(["quit"])
    expect(client.reply(), "")


def locked(place):
    """Where the locked instructions of a program or a library are, and what they are."""
    if not os.path.isfile(place):
        return {}
    words = ["objdump", "-d", "-w", "--no-show-raw-insn", place]
    text = subprocess.run(words, capture_output=True, text=True, timeout=600, check=True).stdout
    found = re.findall(r"^\s*([0-9a-f]+):\s+(lock .*|xchg .*\(.*)$", text, re.M)
    return {(place, int(at, 16)): " ".join(what.split()[: 1 + what.startswith("lock")]) for at, what in found}


class Row:
    """What a hit runs with so many on their way: by the difference of two runs."""

    def __init__(self, program, depth, folder):
        few, many = (count(program, depth, hits, folder) for hits in (FEW, MANY))
        for names in (MEMORY, CLOCK):
            if not few.called(names):
                raise Wrong(f"no call of {names[0]} is told at all: the names are others there")
        runs = many.runs.copy()
        runs.subtract(few.runs)
        hits = MANY - FEW
        self.depth = depth
        self.runs = {spot: times / hits for spot, times in runs.items() if times}
        self.homes = few.homes | many.homes
        self.memory = (many.called(MEMORY) - few.called(MEMORY)) / hits
        self.clock = (many.called(CLOCK) - few.called(CLOCK)) / hits

    def instructions(self):
        return sum(self.runs.values())

    def locked(self, spots):
        return sum(times for spot, times in self.runs.items() if spot in spots)

    def figures(self, spots):
        return [self.instructions(), self.locked(spots), self.memory, self.clock]


def tell(name, figures):
    """A row of the table."""
    instructions, *others = figures
    print(f"| {name} | {instructions:,.0f} | " + " | ".join(f"{round(figure, 2) + 0.0:.2f}" for figure in others) + " |")


def tell_where(row, spots):
    """The functions in which locked instructions ran, and how many a hit."""
    print(f"\n| Locked, with {row.depth} on their way | | A hit |\n|---|---|---|")
    sums = Counter()
    for spot, times in row.runs.items():
        if spot in spots:
            sums[os.path.basename(spot[0]), row.homes[spot], spots[spot]] += times
    for (place, function, what), times in sums.most_common():
        if times >= LEAST:
            print(f"| `{function}` of {place} | `{what}` | {times:.2f} |")


def main():
    parser = argparse.ArgumentParser(description=__doc__, formatter_class=argparse.RawDescriptionHelpFormatter)
    parser.add_argument("program")
    parser.add_argument("--where", action="store_true")
    options = parser.parse_args()
    for tool in ("valgrind", "objdump"):
        if not shutil.which(tool):
            print(f"count_hit: not counted: no {tool}, which Debian has in valgrind and binutils", file=sys.stderr)
            return 2
    try:
        with tempfile.TemporaryDirectory() as folder:
            rows = [Row(os.path.abspath(options.program), depth, folder) for depth in DEPTHS]
        spots = {}
        for place in {spot[0] for row in rows for spot in row.runs}:
            spots |= locked(place)
    except (OSError, subprocess.SubprocessError, Wrong) as wrong:
        print(f"count_hit: not counted: {str(wrong) or repr(wrong)}", file=sys.stderr)
        return 2
    deep, single = (row.figures(spots) for row in rows)
    batch = [(one - many) / (1 - 1 / DEPTHS[0]) for many, one in zip(deep, single)]
    print("| On their way | Instructions | Locked | Memory | Clock |\n|---|---|---|---|---|")
    for depth, figures in zip(DEPTHS, (deep, single)):
        tell(depth, figures)
    tell("a batch beside its hits", batch)
    if options.where:
        for row in rows:
            tell_where(row, spots)
    instructions, locks, memory, clock = deep
    alone = locks - batch[1] / DEPTHS[0]
    met = instructions <= MOST and round(alone, 1) <= MOST_LOCKED and memory < LEAST and clock < LEAST
    return 0 if met else 1


if __name__ == "__main__":
    sys.exit(main())

#!/usr/bin/env python3
"""Shows a stale read by plain cache-aside, and that there is none by leases, with numbers.

    python3 clients/python/example_site/race.py [ADDRESS]

Without an address it starts a server of its own: the program that $IQ names, else ./iq at the top. It takes some
11 seconds. The status is 0 where aside went stale and leases didn't.
"""

from __future__ import annotations

import os
import random
import signal
import socket
import subprocess
import sys
import threading
import time
from concurrent.futures import ThreadPoolExecutor
from contextlib import contextmanager
from dataclasses import dataclass
from pathlib import Path
from typing import Dict, Iterator, Tuple, TypeVar, Union

sys.path.insert(0, str(Path(__file__).resolve().parents[1]))

from example_site.site import Aside, ByLeases  # noqa: E402
from silamoven import Connection, Key, Kind, Pool, Rename, Txn, commands  # noqa: E402
from silamoven.commands import Request, Role  # noqa: E402
from silamoven.replies import Lease, Stored  # noqa: E402

TOP = Path(__file__).resolve().parents[3]
SECONDS = 5.0
GAP = 0.001
READERS, WRITERS = 6, 2
MEMBERS = range(11, 31)

Way = Union[Aside, ByLeases]
_R = TypeVar("_R")


def gap(*_: object) -> None:
    """What a reader does between the store's answer and the cache: it takes a millisecond, as a trip to it may."""
    time.sleep(GAP)


class Slow(Connection):
    """A connection whose reader has the same gap before it stores what it asked for."""

    def call(self, command: Request[_R]) -> _R:
        if command.data.startswith(b"iqset "):
            gap()
        return super().call(command)


@contextmanager
def server() -> Iterator[str]:
    """A server at a free port of the loopback, and its address."""
    with socket.create_server(("127.0.0.1", 0)) as probe:
        address = f"127.0.0.1:{probe.getsockname()[1]}"
    program = os.environ.get("IQ") or str(TOP / "iq")
    words = [program, "serve", address, "1000", "32", "4", "100"]
    process = subprocess.Popen(words, stdout=subprocess.PIPE, start_new_session=True)
    end = threading.Timer(20, os.killpg, (process.pid, signal.SIGKILL))
    end.start()
    try:
        assert process.stdout
        if process.stdout.readline() != b"ready\n":
            sys.exit(f"{program} serves nothing; ./iq --prove builds a program")
        end.cancel()
        yield address
    finally:
        end.cancel()
        if process.poll() is None:
            os.killpg(process.pid, signal.SIGKILL)
        process.communicate()


def one_race_aside(pool: Pool) -> bool:
    """A reader asks before a commit and comes back behind it. Tells whether the next read is stale."""
    key, rename = Key(Kind.PROFILE, 1), Txn.of(Rename(1, "bob"))

    def meanwhile() -> None:
        print("  1 misses, asks the store, and is told its answer")
        print(f"  2 commits {rename} as number {aside.write(rename)}, and drops the value")

    aside = Aside(pool, between=meanwhile)
    print(f"  1 comes to put its answer into the cache, {aside.read(key).text!r}, and nothing stops it")
    later, now = aside.read(key), pool.ask(key)
    print(f"  3 reads {later.text!r} from the cache, and so does everybody; the store says {now.text!r}")
    return later.data != now.data


def one_race_by_leases(pool: Pool) -> bool:
    """The same, but that the reader needs a lease to store what it asked for."""
    key, rename = Key(Kind.PROFILE, 2), Txn.of(Rename(2, "bob"))
    with pool.lend() as reader:
        sid = reader.begin(Role.READ)
        lease = reader.call(commands.iqget(key, sid, 0))
        value = reader.call(commands.ask(key, sid))
        print("  1 misses, is given a lease, asks the store, and is told its answer")
        print(f"  2 commits {rename} as number {pool.write(rename)}; its quarantine ended the lease")
        token = lease.token if isinstance(lease, Lease) else 0
        late = reader.call(commands.iqset(key, value.data, token, value.stamp))
        told = "STORED" if isinstance(late, Stored) else "NOT_STORED"
        print(f"  1 comes to store its answer, {value.data.decode()!r}, and is told {told}")
    later, now = pool.read(key), pool.ask(key)
    print(f"  3 reads {later.text!r}; the store says {now.text!r}")
    return later.data != now.data


@dataclass
class Counts:
    """What a load counted. A read is stale if a commit on its key that was over before it isn't in its answer."""

    reads: int = 0
    stale: int = 0
    commits: int = 0


class Load:
    """Readers and writers on some members' profiles."""

    def __init__(self, way: Way) -> None:
        self._way = way
        self._lock = threading.Lock()
        self._over: Dict[Key, int] = {}  # The last commit on each key whose write is over.
        self.counts = Counts()
        self._until = 0.0

    def run(self) -> Counts:
        self._until = time.monotonic() + SECONDS
        with ThreadPoolExecutor(READERS + WRITERS) as threads:
            work = [threads.submit(self._read) for _ in range(READERS)]
            work += [threads.submit(self._write, number) for number in range(WRITERS)]
        for each in work:
            each.result()
        return self.counts

    def _read(self) -> None:
        while time.monotonic() < self._until:
            key = Key(Kind.PROFILE, random.choice(MEMBERS))
            with self._lock:
                known = self._over.get(key, 0)
            asked = time.monotonic()
            answer = self._way.read(key)
            with self._lock:
                self.counts.reads += 1
                self.counts.stale += answer.stamp < known
            time.sleep(max(0.0, 0.0005 - (time.monotonic() - asked)))

    def _write(self, number: int) -> None:
        while time.monotonic() < self._until:
            member = random.choice(MEMBERS)
            commit = self._way.write(Txn.of(Rename(member, f"name{number}")))
            number += WRITERS
            with self._lock:
                key = Key(Kind.PROFILE, member)
                self._over[key] = max(commit, self._over.get(key, 0))
                self.counts.commits += 1
            time.sleep(0.002)


def left_stale(pool: Pool, way: Way) -> int:
    """How many profiles are still cached with an old value, now that nobody writes any more."""
    keys = [Key(Kind.PROFILE, member) for member in MEMBERS]
    return sum(way.read(key).data != pool.ask(key).data for key in keys)


def main(address: str) -> int:
    size = READERS + WRITERS
    with Pool(address, size=size) as pool, Pool(address, size=size, connect=Slow.open) as slow:
        print("One race, by aside:")
        aside_stale = one_race_aside(pool)
        print("The same, by leases:")
        leases_stale = one_race_by_leases(pool)
        print(f"{READERS} readers and {WRITERS} writers on {len(MEMBERS)} profiles, {SECONDS:g} seconds each way.")
        print(f"Behind the store's answer a reader takes {GAP * 1000:g} ms to reach the cache.")
        found = {}
        ways: Tuple[Way, ...] = (Aside(pool, between=gap), ByLeases(slow))
        for way in ways:
            counts = Load(way).run()
            left = left_stale(pool, way)
            found[way.name] = (counts.stale, left)
            print(
                f"  by {way.name + ':':8}{counts.reads:7} reads, {counts.commits:5} commits,"
                f" {counts.stale:5} reads stale, {left:2} of {len(MEMBERS)} profiles stale at the end"
            )
    went_stale = aside_stale and found["aside"][0] > 0
    return 0 if went_stale and not leases_stale and found["leases"] == (0, 0) else 1


if __name__ == "__main__":
    if len(sys.argv) > 2:
        sys.exit(__doc__)
    if len(sys.argv) == 2:
        sys.exit(main(sys.argv[1]))
    with server() as own:
        sys.exit(main(own))

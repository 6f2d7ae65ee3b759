"""Eight threads that read and write through one pool, and meanwhile what takes 10 seconds to happen.

IQ_SECONDS in the environment says for how long the threads run; 10 without it.
"""

from __future__ import annotations

import os
import random
import threading
import time
import unittest
from collections import Counter
from concurrent.futures import Future, ThreadPoolExecutor
from typing import Any, Dict, List

from silamoven import (
    Connection,
    Key,
    Mode,
    Pool,
    ReadTries,
    Txn,
    WriteTries,
    commands,
    parse_ids,
    reading,
    writing,
)
from silamoven.commands import Request, Role
from silamoven.replies import Ended, Granted, Lease, NotFound, NotStored, Released

from .support import PATIENCE, PATIENT, STUBBORN, Server

SECONDS = float(os.environ.get("IQ_SECONDS", "10"))
OVERDUE = 10.2
"""So many seconds after its grant a quarantine or a lease is overdue: these live 10 seconds."""

THREADS = 8
TARGETS = (11, 12, 13, 14)
"""The members that all threads read and write. The threads themselves are members 1 to 8."""

server: Server
late: Dict[str, Future[Any]] = {}


def setUpModule() -> None:
    global server
    server = Server()
    unittest.addModuleCleanup(server.stop)
    executor = ThreadPoolExecutor(5)
    unittest.addModuleCleanup(executor.shutdown)
    for wait in (late_lease, late_quarantine, late_release, late_write):
        late[wait.__name__] = executor.submit(wait)


def connect() -> Connection:
    return Connection.open(server.address, PATIENT)


def wait_and_sweep() -> None:
    """Waits until what was granted is overdue, and lets the server sweep: it does so behind each command."""
    time.sleep(OVERDUE)
    with connect() as connection:
        ask = commands.ask(Key.of("profile:1"), connection.begin(Role.READ))
        for _ in range(20):
            connection.exchange([ask] * 20)


def late_lease() -> Any:
    """What a reader is told that sets too late."""
    key = Key.of("profile:21")
    with connect() as connection:
        sid = connection.begin(Role.READ)
        lease = connection.call(commands.iqget(key, sid, 0))
        value = connection.call(commands.ask(key, sid))
        time.sleep(OVERDUE)
        assert isinstance(lease, Lease)
        return connection.call(commands.iqset(key, value.data, lease.token, value.stamp))


def late_quarantine() -> Any:
    """What a writer is told that commits too late, and gives up."""
    with connect() as connection:
        sid = connection.begin(Role.WRITE)
        connection.call(commands.qareg(Key.of("profile:22"), sid))
        wait_and_sweep()
        txn = Txn.of("rename 22 bob")
        return [connection.call(commands.sql(sid, txn)), connection.call(commands.iqabort(sid))]


def late_release() -> Any:
    """What a writer is told that releases too late, and what is read then."""
    profile, pending, count = (Key.of(f"{kind}:23") for kind in ("profile", "pending", "npending"))
    with Pool(server.address, size=1, timeouts=PATIENT) as pool:
        for key in (profile, pending, count):
            pool.read(key)
        with connect() as connection:
            sid = connection.begin(Role.WRITE)
            txn = Txn.of("invite 24 23")
            granted = [
                connection.call(commands.qareg(profile, sid)),
                connection.call(commands.qaread(pending, sid)),
                connection.call(commands.iqdelta(count, sid, 1)),
            ]
            assert all(isinstance(each, Granted) for each in granted), granted
            connection.call(commands.sql(sid, txn))
            wait_and_sweep()
            replies = [
                connection.call(commands.dar(profile, sid)),
                connection.call(commands.sar(pending, b"24", sid)),
                connection.call(commands.iqcommit(count, sid)),
            ]
        return replies, [pool.read(key).data for key in (profile, pending, count)]


def late_write() -> Any:
    """How often a write begins whose first session is too slow."""
    txn, key = Txn.of("rename 25 bob"), Key.of("profile:25")
    tries: List[int] = []

    class Slow(Connection):
        def call(self, command: Request[Any]) -> Any:
            if command.data.startswith(b"sql "):
                tries.append(1)
                if len(tries) == 1:
                    wait_and_sweep()
            return super().call(command)

    with Slow.open(server.address, PATIENT) as connection:
        writing.write(connection, txn, Mode.INVALIDATE, WriteTries())
        return len(tries), reading.read(connection, key, 0, ReadTries()).data


class Overdue(unittest.TestCase):
    """These run last: unittest takes the classes in the order of their names."""

    def test_a_late_set_is_not_stored(self) -> None:
        self.assertEqual(late["late_lease"].result(PATIENCE), NotStored())

    def test_a_late_commit_is_ended(self) -> None:
        self.assertEqual(late["late_quarantine"].result(PATIENCE), [Ended(), Released(0)])

    def test_a_late_release_is_not_found_and_the_commit_stands(self) -> None:
        replies, values = late["late_release"].result(PATIENCE)
        self.assertEqual(replies, [NotFound()] * 3)
        self.assertEqual(values, [b"m23 0 1", b"24", b"1"])

    def test_a_write_begins_anew_that_was_ended(self) -> None:
        self.assertEqual(late["late_write"].result(PATIENCE), (2, b"bob 0 0"))


class Done:
    """The last commit on each key whose write is over."""

    def __init__(self) -> None:
        self._lock = threading.Lock()
        self._last: Dict[Key, int] = {}

    def committed(self, txn: Txn, number: int) -> None:
        with self._lock:
            for key in txn.keys():
                self._last[key] = max(number, self._last.get(key, 0))

    def last(self, key: Key) -> int:
        with self._lock:
            return self._last.get(key, 0)


class Worker:
    """One thread: it alone changes the links from its own member, so it knows what they are."""

    def __init__(self, number: int, pool: Pool, done: Done, until: float) -> None:
        self.number = number
        self.own = pool.own_reads()
        self.pool = pool
        self.done = done
        self.until = until
        self.draw = random.Random(number)
        self.invited = {target: False for target in TARGETS}
        self.counts: Counter[str] = Counter()  # Of each kind of read and of write.

    def run(self) -> None:
        while time.monotonic() < self.until:
            if self.draw.random() < 0.2:
                self.write()
            else:
                self.read()

    def write(self) -> None:
        target = self.draw.choice(TARGETS)
        mode = self.draw.choice(list(Mode))
        if self.draw.random() < 0.25:
            txn = Txn.of(f"rename {target} by{self.number}")
        else:
            verb = "reject" if self.invited[target] else "invite"
            txn = Txn.of(f"{verb} {self.number} {target}")
            self.invited[target] = not self.invited[target]
        number = self.own.write(txn, mode)
        self.done.committed(txn, number)
        self.counts[f"write {mode.value}"] += 1

    def read(self) -> None:
        target = self.draw.choice(TARGETS)
        kind = self.draw.choice(("profile", "pending", "npending"))
        key = Key.of(f"{kind}:{target}")
        known, own = self.done.last(key), self.own.floor
        if self.draw.random() < 0.5:
            # One's own commits are seen, by stamp and by what is read.
            answer = self.own.read(key)
            if answer.stamp < own:
                raise AssertionError(f"{key} of stamp {answer.stamp} behind one's own commit {own}")
            if kind == "pending" and (self.number in parse_ids(answer.data)) != self.invited[target]:
                raise AssertionError(f"{answer} where {self.number} is invited: {self.invited[target]}")
        else:
            answer = self.pool.read(key)
        # And so is each commit on the key, by whomever, whose write was over before the read began.
        if answer.stamp < known:
            raise AssertionError(f"{key} of stamp {answer.stamp} behind the commit {known}")
        self.counts[answer.origin.value] += 1


class Load(unittest.TestCase):
    def test_no_read_is_older_than_what_its_thread_knows(self) -> None:
        done, until = Done(), time.monotonic() + SECONDS
        lasting = Pool(server.address, size=THREADS, timeouts=PATIENT, write_tries=STUBBORN)
        with lasting as pool, ThreadPoolExecutor(THREADS) as threads:
            workers = [Worker(number + 1, pool, done, until) for number in range(THREADS)]
            for ended in [threads.submit(worker.run) for worker in workers]:
                ended.result()
            counts: Counter[str] = sum((worker.counts for worker in workers), Counter())
            print(f"\n{THREADS} threads in {SECONDS:g} seconds:", dict(sorted(counts.items())))
            for worker in workers:
                for target, invited in worker.invited.items():
                    ids = parse_ids(pool.ask(f"pending:{target}").data)
                    self.assertEqual(worker.number in ids, invited)
        for what in ("hit", "stored", *(f"write {mode.value}" for mode in Mode)):
            self.assertGreater(counts[what], 0, what)

"""The client against the server itself: each reply and each error that a client can meet, and the page's words.

What takes 10 seconds to happen is in test_load. What the server never does here, as to run out of memory, is
played by a false server in test_policy.
"""

from __future__ import annotations

import re
import unittest
from concurrent.futures import ThreadPoolExecutor
from typing import Any, Callable, Dict, List, Tuple
from unittest import mock

from silamoven import (
    Accept,
    CommandError,
    Connection,
    ConnectionLostError,
    Invite,
    Key,
    Kind,
    Mode,
    Origin,
    Pool,
    Profile,
    RefusedError,
    RejectedError,
    Txn,
    UnknownOutcomeError,
    WriteTries,
    commands,
    parse_count,
    parse_ids,
)
from silamoven.changes import Change
from silamoven.commands import Command, Role
from silamoven.replies import (
    Again,
    Begun,
    Committed,
    Deleted,
    Ended,
    Failure,
    Granted,
    Held,
    Lease,
    NotStored,
    Own,
    Refused,
    Rejected,
    Released,
    Reply,
    Staged,
    Standing,
    Stored,
    Uncovered,
    Value,
    read_reply,
)

from .support import LASTING, PATIENCE, PATIENT, STUBBORN, TOP, Server
from .test_replies import Text

server: Server

PARSE: Dict[Kind, Callable[[bytes], object]] = {
    Kind.PROFILE: Profile.parse,
    Kind.FRIENDS: parse_ids,
    Kind.PENDING: parse_ids,
    Kind.NFRIENDS: parse_count,
    Kind.NPENDING: parse_count,
}


def setUpModule() -> None:
    global server
    server = Server()
    unittest.addModuleCleanup(server.stop)


class WithServer(unittest.TestCase):
    """Each test has members of its own, so that none meets what another one left."""

    _next = 1

    def members(self, count: int) -> Tuple[int, ...]:
        first = WithServer._next
        WithServer._next += count
        return tuple(range(first, first + count))

    def connect(self) -> Connection:
        connection = Connection.open(server.address, PATIENT)
        self.addCleanup(connection.quit)
        return connection

    def pool(self, size: int = 2) -> Pool:
        pool = Pool(server.address, size=size, timeouts=PATIENT, write_tries=STUBBORN)
        self.addCleanup(pool.close)
        return pool

    def commit(self, txn: str) -> int:
        return self.pool(1).write(txn)


class EachReply(WithServer):
    def test_of_a_reader(self) -> None:
        (a,) = self.members(1)
        key = Key.of(f"profile:{a}")
        one, two = self.connect(), self.connect()
        first, second = one.begin(Role.READ), two.begin(Role.READ)
        lease = one.call(commands.iqget(key, first, 0))
        assert isinstance(lease, Lease)
        self.assertEqual(two.call(commands.iqget(key, second, 0)), Again(Standing.LEASE))
        self.assertEqual(one.call(commands.iqget(key, first, 0)), Again(Standing.LEASE))
        value = one.call(commands.ask(key, first))
        self.assertEqual(value, Value(str(key), f"m{a} 0 0".encode(), value.stamp))
        set_ = commands.iqset(key, value.data, lease.token, value.stamp)
        self.assertEqual(one.call(set_), Stored())
        self.assertEqual(one.call(set_), NotStored())
        self.assertEqual(two.call(commands.iqget(key, second, 0)), value)
        self.assertIsInstance(two.call(commands.iqget(key, second, value.stamp + 1)), Lease)

    def test_of_a_writer_that_invalidates(self) -> None:
        (a,) = self.members(1)
        key, txn = Key.of(f"profile:{a}"), Txn.of(f"rename {a} bob")
        one, two = self.connect(), self.connect()
        sid, reader = one.begin(Role.WRITE), two.begin(Role.READ)
        self.assertEqual(one.call(commands.sql(sid, txn)), Uncovered(str(key)))
        self.assertIsInstance(one.call(commands.qareg(key, sid)), Granted)
        self.assertEqual(one.call(commands.qareg(key, sid)), Held())
        self.assertEqual(one.call(commands.iqget(key, sid, 0)), Own())
        self.assertEqual(two.call(commands.iqget(key, reader, 0)), Again(Standing.QUARANTINE))
        self.assertEqual(one.call(commands.stage(key, sid, txn)), Staged(str(key), b"bob 0 0"))
        committed = one.call(commands.sql(sid, txn))
        self.assertIsInstance(committed, Committed)
        self.assertEqual(one.call(commands.sql(sid, txn)), Ended())
        self.assertEqual(one.call(commands.dar(key, sid)), Deleted())
        self.assertIsInstance(two.call(commands.iqget(key, reader, 0)), Lease)

    def test_of_a_writer_that_refreshes(self) -> None:
        a, b = self.members(2)
        key, other = Key.of(f"profile:{a}"), Key.of(f"profile:{b}")
        old = self.pool(1).read(key)
        one, two = self.connect(), self.connect()
        sid, beside = one.begin(Role.WRITE), two.begin(Role.WRITE)
        granted = one.call(commands.qaread(key, sid))
        assert isinstance(granted, Granted)
        self.assertEqual(granted.old, Value(str(key), old.data, old.stamp))
        granted = one.call(commands.qaread(other, sid))
        assert isinstance(granted, Granted)
        self.assertIsNone(granted.old)
        self.assertEqual(one.call(commands.qaread(key, sid)), Held())
        refused = Refused(sid, Mode.REFRESH)
        self.assertEqual(two.call(commands.qareg(key, beside)), refused)
        self.assertEqual(two.call(commands.qaread(key, beside)), refused)
        self.assertEqual(one.call(commands.qareg(key, sid)), refused)
        txn = Txn.of(f"rename {a} bob + rename {b} al")
        self.assertIsInstance(one.call(commands.sql(sid, txn)), Committed)
        self.assertEqual(one.call(commands.sar(key, b"bob 0 0", sid)), Stored())
        self.assertEqual(one.call(commands.iqabort(sid)), Released(1))
        pool = self.pool(1)
        self.assertEqual((pool.read(key).origin, pool.read(key).data), (Origin.HIT, b"bob 0 0"))
        self.assertEqual(pool.read(other).origin, Origin.STORED)

    def test_of_a_writer_that_shifts(self) -> None:
        a, b = self.members(2)
        key, txn = Key.of(f"npending:{b}"), Txn.of(Invite(a, b))
        self.pool(1).read(key)
        one, two = self.connect(), self.connect()
        sid, beside = one.begin(Role.WRITE), two.begin(Role.WRITE)
        self.assertIsInstance(one.call(commands.iqdelta(key, sid, 1)), Granted)
        self.assertEqual(one.call(commands.iqdelta(key, sid, 1)), Held())
        self.assertEqual(two.call(commands.iqdelta(key, beside, 1)), Refused(sid, Mode.DELTA))
        for rest in (f"profile:{b}", f"pending:{b}"):
            one.call(commands.qareg(Key.of(rest), sid))
        self.assertIsInstance(one.call(commands.sql(sid, txn)), Committed)
        self.assertEqual(one.call(commands.iqcommit(key, sid)), Stored())
        answer = self.pool(1).read(key)
        self.assertEqual((answer.origin, parse_count(answer.data)), (Origin.HIT, 1))

    def test_of_writers_beside_one_another(self) -> None:
        (a,) = self.members(1)
        key = Key.of(f"profile:{a}")
        one, two = self.connect(), self.connect()
        sid, beside = one.begin(Role.WRITE), two.begin(Role.WRITE)
        self.assertIsInstance(one.call(commands.qareg(key, sid)), Granted)
        self.assertIsInstance(two.call(commands.qareg(key, beside)), Granted)
        refused = two.call(commands.qaread(key, beside))
        self.assertIsInstance(refused, Refused)
        self.assertEqual(one.call(commands.iqabort(sid)), Released(1))
        self.assertEqual(two.call(commands.iqabort(beside)), Released(1))

    def test_of_one_that_is_rejected_and_gives_up(self) -> None:
        a, b = self.members(2)
        txn = Txn.of([Invite(a, b), Invite(a, b)])
        key = Key.of(f"pending:{b}")
        before = self.pool(1).read(key)
        connection = self.connect()
        sid = connection.begin(Role.WRITE)
        for each in txn.keys():
            connection.call(commands.qaread(each, sid))
        self.assertEqual(connection.call(commands.stage(key, sid, txn)), Rejected(1))
        self.assertEqual(connection.call(commands.sql(sid, txn)), Rejected(1))
        self.assertEqual(connection.call(commands.iqabort(sid)), Released(3))
        self.assertEqual(connection.call(commands.sql(sid, txn)), Ended())
        after = self.pool(1).read(key)
        self.assertEqual((after.origin, after.stamp), (Origin.HIT, before.stamp))


class EachError(WithServer):
    def error(self, connection: Connection, data: bytes) -> str:
        (reply,) = connection.exchange([Command(data, ())])
        assert isinstance(reply, Failure)
        return reply.line

    def test_errors_of_a_client(self) -> None:
        a, b = self.members(2)
        connection = self.connect()
        reader = connection.begin(Role.READ)
        for line, error in [
            ("", "ERROR"),
            ("hello", "ERROR"),
            ("BEGIN read", "ERROR"),
            ("begin", "CLIENT_ERROR bad line"),
            (f"iqget profile:{a} {reader}", "CLIENT_ERROR bad line"),
            (f"iqget profile:x {reader} 0", "CLIENT_ERROR not a query key"),
            (f"iqget profile:{a} {reader + 1} 0", "CLIENT_ERROR not yours"),
            (f"qareg profile:{a} {reader}", "CLIENT_ERROR read session"),
            (f"iqset profile:{a} 1 0 1 1 1\r\nx", "CLIENT_ERROR flags"),
            (f"iqset profile:{a} 0 1 1 1 1\r\nx", "CLIENT_ERROR exptime"),
        ]:
            with self.subTest(line):
                self.assertEqual(self.error(connection, line.encode() + b"\r\n"), error)
        sid = connection.begin(Role.WRITE)
        steps = [
            (f"iqdelta profile:{a} {sid} 1", "CLIENT_ERROR not count"),
            (f"dar profile:{a} {sid}", "CLIENT_ERROR not committed"),
        ]
        self.check_steps(connection, steps)
        connection.call(commands.qareg(Key.of(f"profile:{a}"), sid))
        connection.call(commands.qaread(Key.of(f"profile:{b}"), sid))
        self.check_steps(connection, [("begin read", "CLIENT_ERROR session busy")])
        txn = Txn.of(f"rename {a} bob + rename {b} al")
        self.assertIsInstance(connection.call(commands.sql(sid, txn)), Committed)
        steps = [
            (f"qareg friends:{a} {sid}", "CLIENT_ERROR committed"),
            (f"dar friends:{a} {sid}", "CLIENT_ERROR no grant"),
            (f"sar profile:{a} 0 0 1 {sid}\r\nx", "CLIENT_ERROR mode"),
            (f"iqcommit profile:{b} {sid}", "CLIENT_ERROR mode"),
            ("begin write", "CLIENT_ERROR session busy"),
        ]
        self.check_steps(connection, steps)
        self.assertEqual(connection.call(commands.iqabort(sid)), Released(2))

    def check_steps(self, connection: Connection, steps: List[Tuple[str, str]]) -> None:
        for line, error in steps:
            with self.subTest(line):
                self.assertEqual(self.error(connection, line.encode() + b"\r\n"), error)

    def test_too_many_quarantines(self) -> None:
        members = self.members(17)
        invites: List[Change] = [Invite(members[at], members[at + 1]) for at in range(0, 16, 2)]
        self.pool(1).write(invites)
        txn = Txn.of([Accept(members[at], members[at + 1]) for at in range(0, 16, 2)])
        connection = self.connect()
        sid = connection.begin(Role.WRITE)
        replies = connection.exchange([commands.qareg(key, sid) for key in txn.keys()])
        self.assertEqual({type(reply) for reply in replies}, {Granted})
        with self.assertRaises(CommandError) as caught:
            connection.call(commands.qareg(Key.of(f"profile:{members[16]}"), sid))
        self.assertEqual(caught.exception.reply, "CLIENT_ERROR too many")
        self.assertEqual(connection.call(commands.iqabort(sid)), Released(64))
        # All 64 are as many as one transaction can touch.
        self.pool(1).write(txn, Mode.REFRESH)

    def test_errors_that_end_the_connection(self) -> None:
        (a,) = self.members(1)
        for data, error in [
            (b"x" * 3000, "CLIENT_ERROR long line"),
            (f"iqset profile:{a} 0 0 1 1 1\r\nxyz".encode(), "CLIENT_ERROR bad block"),
            (f"iqset profile:{a} 0 0 1048577 1 1\r\n".encode(), "CLIENT_ERROR big block"),
        ]:
            with self.subTest(error):
                connection = self.connect()
                self.assertEqual(self.error(connection, data), error)
                with self.assertRaises(ConnectionLostError):
                    connection.begin(Role.READ)


class Races(WithServer):
    def test_a_stale_refill_is_refused(self) -> None:
        (a,) = self.members(1)
        key = Key.of(f"profile:{a}")
        reader = self.connect()
        sid = reader.begin(Role.READ)
        lease = reader.call(commands.iqget(key, sid, 0))
        assert isinstance(lease, Lease)
        value = reader.call(commands.ask(key, sid))
        number = self.commit(f"rename {a} bob")
        late = commands.iqset(key, value.data, lease.token, value.stamp)
        self.assertEqual(reader.call(late), NotStored())
        answer = self.pool(1).read(key)
        self.assertEqual((answer.data, answer.stamp), (b"bob 0 0", number))

    def test_a_reader_is_told_the_old_value_once_and_the_cache_never(self) -> None:
        (a,) = self.members(1)
        pool, commit = self.pool(2), self.commit

        def slow_set(*words: Any) -> Command[Any]:
            commit(f"rename {a} bob")
            return iqset(*words)

        iqset = commands.iqset
        with mock.patch("silamoven.commands.iqset", slow_set):
            answer = pool.read(f"profile:{a}")
        self.assertEqual((answer.text, answer.origin), (f"m{a} 0 0", Origin.NOT_STORED))
        answer = pool.read(f"profile:{a}")
        self.assertEqual((answer.text, answer.origin), ("bob 0 0", Origin.STORED))
        self.assertEqual(pool.read(f"profile:{a}").origin, Origin.HIT)

    def test_a_hit_before_the_release_and_a_floor(self) -> None:
        (a,) = self.members(1)
        key = Key.of(f"profile:{a}")
        old = self.pool(1).read(key)
        writer = self.connect()
        sid = writer.begin(Role.WRITE)
        writer.call(commands.qareg(key, sid))
        committed = writer.call(commands.sql(sid, Txn.of(f"rename {a} bob")))
        assert isinstance(committed, Committed)
        self.assertEqual(self.pool(1).read(key).data, old.data)
        # With a floor it isn't served that. The sixteenth time it asks the store.
        with mock.patch("silamoven.reading.sleep") as sleep:
            answer = self.pool(1).own_reads(committed.number).read(key)
        self.assertEqual((answer.text, answer.origin), ("bob 0 0", Origin.ASKED))
        self.assertEqual(sleep.call_count, 15)
        self.assertEqual(writer.call(commands.dar(key, sid)), Deleted())

    def test_a_reader_waits_for_the_lease_of_another(self) -> None:
        (a,) = self.members(1)
        key = Key.of(f"profile:{a}")
        other = self.connect()
        sid = other.begin(Role.READ)
        lease = other.call(commands.iqget(key, sid, 0))
        assert isinstance(lease, Lease)
        token = lease.token
        waits: List[float] = []

        def sleep(seconds: float) -> None:
            waits.append(seconds)
            if len(waits) == 3:
                reply = other.call(commands.ask(key, sid))
                other.call(commands.iqset(key, reply.data, token, reply.stamp))

        with mock.patch("silamoven.reading.sleep", sleep):
            self.assertEqual(self.pool(1).read(key).origin, Origin.HIT)
        self.assertEqual(waits, [0.001, 0.002, 0.004])

    def test_a_writer_is_refused_until_the_other_is_done(self) -> None:
        (a,) = self.members(1)
        key = Key.of(f"profile:{a}")
        other = self.connect()
        sid = other.begin(Role.WRITE)
        other.call(commands.qaread(key, sid))
        few = Pool(server.address, write_tries=WriteTries(tries=2))
        self.addCleanup(few.close)
        with self.assertRaises(RefusedError) as caught:
            few.write(f"rename {a} bob")
        self.assertEqual((caught.exception.holder, caught.exception.mode), (sid, Mode.REFRESH))
        tries: List[float] = []

        def sleep(seconds: float) -> None:
            tries.append(seconds)
            if len(tries) == 3:
                other.call(commands.iqabort(sid))

        with mock.patch("silamoven.waits.sleep", sleep):
            number = self.pool(1).write(f"rename {a} bob", "refresh")
        self.assertGreater(number, 0)
        self.assertEqual(len(tries), 3)

    def test_a_connection_that_breaks_gives_its_quarantines_back(self) -> None:
        (a,) = self.members(1)
        key = Key.of(f"profile:{a}")
        before = self.pool(1).read(key)
        gone = self.connect()
        gone.call(commands.qaread(key, gone.begin(Role.WRITE)))
        gone.close()
        self.pool(1).write(f"rename {a} bob", Mode.REFRESH)
        answer = self.pool(1).read(key)
        self.assertEqual((answer.origin, answer.text), (Origin.HIT, "bob 0 0"))
        self.assertGreater(answer.stamp, before.stamp)

    def test_a_commit_whose_reply_was_lost(self) -> None:
        (a,) = self.members(1)
        pool = self.pool(1)
        pool.read(f"profile:{a}")
        real = Connection.call

        def lossy(self: Connection, command: Command[Any]) -> Any:
            reply = real(self, command)
            if isinstance(reply, Committed):
                self.close()
                raise ConnectionLostError("cut")
            return reply

        with mock.patch.object(Connection, "call", lossy), self.assertRaises(UnknownOutcomeError):
            pool.write(f"rename {a} bob")
        self.assertEqual(pool.ask(f"profile:{a}").text, "bob 0 0")


class Restart(unittest.TestCase):
    def test_a_pool_comes_back_and_a_floor_begins_anew(self) -> None:
        first = Server(members=3)
        self.addCleanup(first.stop)
        with Pool(first.address, backoff=LASTING) as pool:
            me = pool.own_reads()
            for name in ("al", "bob"):
                me.write(f"rename 2 {name}")
            self.assertEqual(me.read("profile:2").text, "bob 0 0")
            first.stop()
            with ThreadPoolExecutor(1) as threads:
                reading = threads.submit(me.read, "profile:2")
                second = Server(members=3, port=first.port)
                self.addCleanup(second.stop)
                # The rows were in memory, so the numbers begin at 0 again.
                answer = reading.result(PATIENCE)
            self.assertEqual((answer.text, answer.stamp, me.floor), ("m2 0 0", 0, 0))
            self.assertEqual((me.write("rename 2 cy"), me.floor), (1, 1))
            self.assertEqual(me.read("profile:2").text, "cy 0 0")


class ModesOfAWriter(WithServer):
    def test_what_each_key_answers(self) -> None:
        a, b, c = self.members(3)
        pool = self.pool(1)
        pool.write(f"invite {a} {b} + accept {a} {b} + invite {c} {b} + rename {b} bob")
        for key, answer in [
            (f"profile:{b}", Profile("bob", 1, 1)),
            (f"profile:{a}", Profile(f"m{a}", 1, 0)),
            (f"friends:{a}", (b,)),
            (f"friends:{b}", (a,)),
            (f"pending:{b}", (c,)),
            (f"nfriends:{b}", 1),
            (f"npending:{b}", 1),
        ]:
            with self.subTest(key):
                data = pool.read(key).data
                self.assertEqual(PARSE[Key.of(key).kind](data), answer)

    def test_each_mode_leaves_what_the_store_answers(self) -> None:
        for mode in Mode:
            a, b = self.members(2)
            pool, store = self.pool().own_reads(), self.pool(1)
            everything = Txn.of(Accept(a, b)).keys()
            for text in (
                f"invite {a} {b}",
                f"reject {a} {b}",
                f"invite {a} {b} + rename {b} bob",
                f"accept {a} {b} + rename {a} al",
                f"thaw {a} {b}",
                f"invite {a} {b} + accept {a} {b} + rename {a} +",
            ):
                for key in everything:
                    pool.read(key)
                number = pool.write(text, mode)
                for key in everything:
                    with self.subTest(mode=mode, txn=text, key=key):
                        answer = pool.read(key)
                        self.assertEqual(answer.data, store.ask(key).data)
                        touched = key in Txn.of(text).keys()
                        in_place = mode is Mode.REFRESH or (mode is Mode.DELTA and key.kind.is_count)
                        if touched and in_place:
                            self.assertEqual((answer.origin, answer.stamp), (Origin.HIT, number))
                        elif touched:
                            self.assertEqual(answer.origin, Origin.STORED)

    def test_a_new_value_is_what_the_store_would_answer(self) -> None:
        a, b = self.members(2)
        for text in (f"invite {a} {b}", f"accept {a} {b} + rename {b} bob", f"thaw {a} {b} + invite {b} {a}"):
            txn = Txn.of(text)
            connection = self.connect()
            sid = connection.begin(Role.WRITE)
            for key in txn.keys():
                old = connection.call(commands.ask(key, sid))
                staged = connection.call(commands.stage(key, sid, txn))
                assert isinstance(staged, Staged)
                with self.subTest(txn=text, key=key):
                    self.assertEqual(txn.value_after(key, old.data), staged.data)
            self.commit(text)

    def test_a_rejection(self) -> None:
        a, b = self.members(2)
        for mode in Mode:
            with self.assertRaises(RejectedError) as caught:
                self.pool(1).write(f"rename {a} al + thaw {a} {b}", mode)
            self.assertEqual(caught.exception.index, 1)

    def test_no_such_member(self) -> None:
        pool = self.pool(1)
        answer = pool.read("profile:100000")
        self.assertEqual((answer.text, Profile.parse(answer.data)), ("-", None))
        self.assertEqual(pool.read("friends:100000").data, b"")
        for mode in Mode:
            with self.assertRaises(RejectedError):
                pool.write("rename 100000 bob", mode)

    def test_a_store_that_is_asked(self) -> None:
        (a,) = self.members(1)
        pool = self.pool(1)
        self.assertEqual([pool.ask(f"profile:{a}").origin for _ in range(2)], [Origin.ASKED] * 2)
        self.assertEqual(pool.read(f"profile:{a}").origin, Origin.STORED)


def page() -> Tuple[List[str], bytes, bytes]:
    """The conversation of docs/protocol.md: the server's words, what the client sends, and what comes back."""
    text = (TOP / "docs" / "protocol.md").read_text(encoding="utf-8")
    found = re.search(r"On a fresh `iq serve \S+ ([0-9 ]+)`.*?```\n(.*?)```", text, re.S)
    assert found
    sides = {False: b"", True: b""}
    for line in found.group(2).splitlines():
        sides[line.startswith("    ")] += line.strip().encode() + b"\r\n"
    return found.group(1).split(), sides[False], sides[True]


class Page(unittest.TestCase):
    def fresh(self) -> Server:
        numbers = [int(number) for number in page()[0]]
        fresh = Server(*numbers)
        self.addCleanup(fresh.stop)
        return fresh

    def test_its_conversation_command_by_command(self) -> None:
        key, txn = Key.of("profile:2"), Txn.of("rename 2 bob")
        said: List[Command[Reply]] = [
            commands.begin(Role.READ),
            commands.iqget(key, 1, 0),
            commands.ask(key, 1),
            commands.iqset(key, b"m2 0 0", 1, 0),
            commands.iqget(key, 1, 0),
            commands.begin(Role.WRITE),
            commands.qareg(key, 2),
            commands.sql(2, txn),
            commands.iqget(key, 2, 0),
            commands.dar(key, 2),
            commands.begin(Role.READ),
            commands.iqget(key, 3, 1),
            commands.ask(key, 3),
            commands.iqset(key, b"bob 0 0", 3, 1),
        ]
        _, sent, told = page()
        self.assertEqual(b"".join(command.data for command in said) + commands.QUIT, sent)
        source = Text(told)
        replies = [read_reply(source) for _ in said]
        self.assertEqual(source.data, b"")
        self.assertEqual(replies[0], Begun(1))
        with Connection.open(self.fresh().address) as connection:
            self.assertEqual([connection.call(command) for command in said], replies)

    def test_its_conversation_by_reads_and_a_write(self) -> None:
        sent: List[bytes] = []
        real = Connection._send

        def record(self: Connection, data: bytes) -> None:
            sent.append(data)
            real(self, data)

        with mock.patch.object(Connection, "_send", record):
            with Pool(self.fresh().address, size=1) as pool:
                me = pool.own_reads()
                answers = [me.read("profile:2"), me.read("profile:2")]
                self.assertEqual(me.write("rename 2 bob"), 1)
                answers.append(me.read("profile:2"))
        self.assertEqual(
            [(answer.text, answer.stamp, answer.origin) for answer in answers],
            [("m2 0 0", 0, Origin.STORED), ("m2 0 0", 0, Origin.HIT), ("bob 0 0", 1, Origin.STORED)],
        )
        # The page has one line more: the writer looks at its own key.
        wanted = page()[1].replace(b"iqget profile:2 2 0\r\n", b"")
        self.assertEqual(b"".join(sent) + commands.QUIT, wanted)

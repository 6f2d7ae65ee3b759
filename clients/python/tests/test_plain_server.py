"""Plain commands against the server itself: each reply and each error that a client can meet there.

What the server never does here, as to run out of uniques or of memory, is played by a false server in test_plain.
"""

from __future__ import annotations

import unittest
from concurrent.futures import ThreadPoolExecutor
from typing import Callable, List, Sequence

from silamoven import (
    CommandError,
    Connection,
    FullError,
    Item,
    Mode,
    NetworkError,
    NotANumberError,
    Origin,
    Pool,
    QueryKeyError,
    ReplyError,
    UnknownOutcomeError,
    plain,
)
from silamoven.commands import BIGGEST_BLOCK, Command
from silamoven.plain_client import PlainClient
from silamoven.replies import Failure

from .support import LASTING, PATIENCE, PATIENT, Server

LAST = (1 << 64) - 1

server: Server


def setUpModule() -> None:
    global server
    server = Server()
    unittest.addModuleCleanup(server.stop)


class WithServer(unittest.TestCase):
    """Each test is played through a pool and on a single connection, on keys of its own."""

    def pool(self, size: int = 2, of: str = "") -> Pool:
        pool = Pool(of or server.address, size=size, timeouts=PATIENT, backoff=LASTING)
        self.addCleanup(pool.close)
        return pool

    def connect(self, of: str = "") -> Connection:
        connection = Connection.open(of or server.address, PATIENT)
        self.addCleanup(connection.quit)
        return connection

    def key(self, of: PlainClient) -> str:
        return f"{self.id()} {type(of).__name__}".replace(" ", "/")

    def both(self) -> Sequence[PlainClient]:
        return self.pool(), self.connect()


class EachReply(WithServer):
    def test_set_and_get(self) -> None:
        for it in self.both():
            key = self.key(it)
            self.assertEqual((it.get(key), it.get(key, 7), it.gets(key, 8, 9)), (None, 7, (8, 9)))
            self.assertIs(it.set(key, b"hi"), True)
            self.assertEqual((it.get(key), it.get(key, 7), it.get(key.encode())), (b"hi", b"hi", b"hi"))
            self.assertIs(it.set(key, "h\u00e9"), True)
            self.assertEqual(it.get(key), b"h\xc3\xa9")
            self.assertIs(it.set(key, 17), True)
            self.assertEqual(it.get(key), b"17")

    def test_add_and_replace(self) -> None:
        for it in self.both():
            key = self.key(it)
            self.assertIs(it.replace(key, b"1"), False)
            self.assertIs(it.get(key), None)
            self.assertIs(it.add(key, b"2"), True)
            self.assertIs(it.add(key, b"3"), False)
            self.assertEqual(it.get(key), b"2")
            self.assertIs(it.replace(key, b"4"), True)
            self.assertEqual(it.get(key), b"4")

    def test_cas(self) -> None:
        for it in self.both():
            key = self.key(it)
            self.assertIs(it.cas(key, b"x", 1), None)
            it.set(key, b"1")
            value, unique = it.gets(key)
            assert isinstance(unique, int)
            self.assertEqual(value, b"1")
            self.assertIs(it.cas(key, b"2", unique), True)
            self.assertIs(it.cas(key, b"3", unique), False)
            self.assertIs(it.cas(key, b"3", LAST), False)
            value, later = it.gets(key)
            assert isinstance(later, int)
            self.assertEqual(value, b"2")
            self.assertGreater(later, unique)

    def test_delete(self) -> None:
        for it in self.both():
            key = self.key(it)
            self.assertIs(it.delete(key), False)
            it.set(key, b"1")
            self.assertIs(it.delete(key), True)
            self.assertIs(it.delete(key), False)
            self.assertIs(it.get(key), None)

    def test_counters(self) -> None:
        for it in self.both():
            key = self.key(it)
            self.assertEqual((it.incr(key, 1), it.decr(key, 1)), (None, None))
            it.set(key, b"10", flags=5)
            self.assertEqual((it.incr(key, 5), it.decr(key, 3), it.decr(key, 50), it.incr(key, 0)), (15, 12, 0, 0))
            self.assertEqual((it.incr(key, LAST), it.incr(key, 0), it.incr(key, 1)), (LAST, LAST, 0))
            self.assertEqual((it.decr(key, 1), it.incr(key, LAST), it.incr(key, LAST)), (0, LAST, LAST - 1))
            self.assertEqual((it.decr(key, LAST - 1), it.get(key)), (0, b"0"))
            it.set(key, b"18446744073709551615")
            self.assertEqual((it.incr(key, 2), it.get(key)), (1, b"1"))
            it.set(key, b"00000000000000000007")
            self.assertEqual((it.incr(key, 0), it.get(key)), (7, b"7"))

    def test_flags(self) -> None:
        connection = self.connect()
        key = self.key(connection)
        for flags in (0, 1, 4294967295):
            connection.set(key, b"1", flags=flags)
            connection.incr(key, 1)
            (item,) = connection.call(plain.get([key]))
            self.assertEqual(item, Item(key.encode(), b"2", flags))
        connection.replace(key, b"x", flags=6)
        (item,) = connection.call(plain.gets([key]))
        self.assertEqual((item.data, item.flags), (b"x", 6))

    def test_many(self) -> None:
        for it in self.both():
            keys = [f"{self.key(it)}/{number}" for number in range(5000)]
            for key in keys[::2]:
                it.set(key, key.upper())
            wanted = {key: key.upper().encode() for key in keys[::2]}
            self.assertEqual(it.get_many(keys), wanted)
            self.assertEqual(it.get_multi(iter(keys)), wanted)
            found = it.gets_many(reversed(keys))
            self.assertEqual({key: value for key, (value, _) in found.items()}, wanted)
            uniques = [found[key][1] for key in keys[::2]]
            self.assertEqual(sorted(uniques), uniques)

    def test_long_keys_and_many_of_them(self) -> None:
        for it in self.both():
            keys = [f"{type(it).__name__}{number:04}".ljust(250, "k") for number in range(300)]
            for key in keys:
                it.set(key, key[::-1])
            self.assertEqual(it.get_many(keys), {key: key[::-1].encode() for key in keys})
        strange = bytes(byte for byte in range(0x21, 0x100) if byte != 0x7F)
        self.assertEqual((it.set(strange, b"1"), it.get(strange)), (True, b"1"))

    def test_values_of_each_size(self) -> None:
        for it in self.both():
            key = self.key(it)
            for size in (0, 1, 2, 65_535, 65_536, BIGGEST_BLOCK - 1, BIGGEST_BLOCK):
                value = (b"END\r\nVALUE x 0 1\r\n" * (size // 18 + 1))[:size]
                self.assertIs(it.set(key, value), True)
                self.assertEqual(it.get(key), value)
                self.assertEqual(it.get_many([key, key + "no"]), {key: value})

    def test_forty_big_values(self) -> None:
        for it in self.both():
            keys = [f"{self.key(it)}/{number}" for number in range(40)]
            values = {key: bytes([number]) * BIGGEST_BLOCK for number, key in enumerate(keys)}
            for key, value in values.items():
                it.set(key, value)
            self.assertEqual(it.get_many(keys), values)
            for key in keys:
                self.assertIs(it.delete(key), True)

    def test_no_reply(self) -> None:
        it = self.connect()
        key = self.key(it)
        self.assertIs(it.set(key, b"1", noreply=True), True)
        self.assertEqual(it.get(key), b"1")
        self.assertIs(it.add(key, b"2", noreply=True), True)
        self.assertEqual(it.get(key), b"1")
        self.assertIs(it.replace(key, b"10", noreply=True), True)
        self.assertIs(it.incr(key, 5, noreply=True), None)
        self.assertIs(it.decr(key, 2, noreply=True), None)
        value, unique = it.gets(key)
        assert isinstance(unique, int)
        self.assertEqual(value, b"13")
        self.assertIs(it.cas(key, b"no", unique + 1, noreply=True), True)
        self.assertIs(it.cas(key, b"yes", unique, noreply=True), True)
        self.assertEqual(it.get(key), b"yes")
        self.assertIs(it.incr(key, 1, noreply=True), None)  # It is no number, which nobody is told.
        self.assertIs(it.set("profile:2", b"1", noreply=True), True)
        self.assertIs(it.delete(key, noreply=True), True)
        self.assertIs(it.get(key), None)


class EachError(WithServer):
    def raises(self, error: type, line: str, call: Callable[[], object]) -> None:
        with self.assertRaises(ReplyError) as caught:
            call()
        self.assertEqual((type(caught.exception), caught.exception.reply), (error, line))

    def test_a_key_of_the_cache(self) -> None:
        for it in self.both():
            key = self.key(it)
            it.set(key, b"1")
            calls: List[Callable[[], object]] = [
                lambda: it.get("profile:2"),
                lambda: it.gets("friends:2"),
                lambda: it.get_many([key, "pending:100000"]),
                lambda: it.set("nfriends:2", b"1"),
                lambda: it.add("npending:2", b"1"),
                lambda: it.replace("blocked:2", b"1"),
                lambda: it.cas("profile:2", b"1", 1),
                lambda: it.delete("profile:2"),
                lambda: it.incr("profile:2", 1),
                lambda: it.decr("profile:2", 1),
            ]
            for call in calls:
                self.raises(QueryKeyError, "CLIENT_ERROR query key", call)
            self.assertEqual(it.get(key), b"1")
            # What only looks like one is a plain key.
            for near in ("profile:100001", "profile:0", "profile:02", "profile:x", "profile", "Profile:2"):
                self.assertEqual((it.set(near, b"1"), it.get(near), it.delete(near)), (True, b"1", True))

    def test_no_number(self) -> None:
        for it in self.both():
            key = self.key(it)
            for value in ("", "x", "-1", "1 ", " 1", "1.0", "18446744073709551616", "000000000000000000001"):
                it.set(key, value)
                self.raises(NotANumberError, "CLIENT_ERROR not a number", lambda: it.incr(key, 1))
                self.raises(NotANumberError, "CLIENT_ERROR not a number", lambda: it.decr(key, 1))
                self.assertEqual(it.get(key), value.encode())

    def test_what_the_client_never_sends(self) -> None:
        connection = self.connect()
        for data, error in [
            (b"get\r\n", "CLIENT_ERROR bad line"),
            (b"set a 0 60 1\r\nx\r\n", "CLIENT_ERROR exptime"),
            (b"set a 4294967296 0 1\r\n", "CLIENT_ERROR bad line"),
            (b"get " + b"k" * 251 + b"\r\n", "CLIENT_ERROR bad line"),
            (b"incr a -1\r\n", "CLIENT_ERROR bad line"),
            (b"touch a 0\r\n", "ERROR"),
        ]:
            with self.subTest(data):
                (reply,) = connection.exchange([Command[object](data, ())])
                self.assertEqual(reply, Failure(error))
                with self.assertRaises(CommandError):
                    raise plain.get(["a"]).error(error)
        self.assertIsNone(connection.get("a"))

    def test_a_map_that_is_full_of_keys(self) -> None:
        with Server(members=3) as fresh:
            it = self.connect(fresh.address)
            for number in range(65_536):
                it.set(f"k{number}", b"", noreply=True)
            self.assertEqual(it.get("k65535"), b"")
            self.raises(FullError, "SERVER_ERROR full", lambda: it.set("more", b""))
            self.raises(FullError, "SERVER_ERROR full", lambda: it.add("more", b""))
            self.assertIs(it.set("k0", b"1"), True)
            self.assertIs(it.delete("k0"), True)
            self.assertIs(it.set("more", b""), True)

    def test_a_map_that_is_full_of_bytes(self) -> None:
        with Server(members=3) as fresh:
            it = self.connect(fresh.address)
            for number in range(255):
                it.set(f"k{number:03}", b"x" * BIGGEST_BLOCK, noreply=True)
            # What the 256 MiB have left for a value: each key is of four bytes, this one too.
            rest = 268_435_456 - 255 * (BIGGEST_BLOCK + 4) - 4
            self.raises(FullError, "SERVER_ERROR full", lambda: it.set("last", b"x" * (rest + 1)))
            self.assertIs(it.set("last", b"x" * rest), True)
            self.raises(FullError, "SERVER_ERROR full", lambda: it.set("more", b""))
            self.assertIs(it.delete("k000"), True)
            self.assertIs(it.set("more", b""), True)


class Races(WithServer):
    def test_two_that_count_by_cas(self) -> None:
        key, pool = self.id(), self.pool(2)
        pool.set(key, b"0")

        def count(times: int) -> int:
            lost = 0
            while times:
                value, unique = pool.gets(key)
                assert isinstance(value, bytes) and isinstance(unique, int)
                if pool.cas(key, int(value) + 1, unique):
                    times -= 1
                else:
                    lost += 1
            return lost

        with ThreadPoolExecutor(2) as threads:
            lost = list(threads.map(count, [1000, 1000]))
        self.assertEqual(pool.get(key), b"2000")
        print(f"\ntwo that count by cas: {sum(lost)} of {2000 + sum(lost)} were too late")

    def test_one_is_too_late(self) -> None:
        key, one, two = self.id(), self.connect(), self.connect()
        one.set(key, b"0")
        (_, first), (_, second) = one.gets(key), two.gets(key)
        assert isinstance(first, int) and isinstance(second, int)
        self.assertEqual((two.cas(key, b"two", second), one.cas(key, b"one", first)), (True, False))
        self.assertEqual(one.get(key), b"two")

    def test_eight_that_count(self) -> None:
        key, pool = self.id(), self.pool(8)
        pool.set(key, b"0")
        with ThreadPoolExecutor(8) as threads:
            numbers = [each for each in threads.map(lambda _: pool.incr(key, 1), range(2000))]
        self.assertEqual(sorted(numbers, key=lambda it: it or 0), list(range(1, 2001)))

    def test_one_of_eight_adds(self) -> None:
        pool = self.pool(8)
        with ThreadPoolExecutor(8) as threads:
            for number in range(100):
                key = f"{self.id()}/{number}"
                self.assertEqual(sum(threads.map(lambda it: pool.add(key, it), range(8))), 1)

    def test_beside_leases(self) -> None:
        with self.pool().lend() as connection:
            sid = connection.reading_session()
            connection.set(self.id(), b"1")
            self.assertEqual(connection.reading_session(), sid)
            self.assertEqual(connection.get(self.id()), b"1")
        pool = self.pool()
        key = "profile:200"
        self.assertEqual((pool.read(key).origin, pool.read(key).origin), (Origin.STORED, Origin.HIT))
        pool.delete(self.id())
        self.assertEqual(pool.read(key).origin, Origin.HIT)
        number = pool.write("rename 200 bob", Mode.REFRESH)
        self.assertEqual((pool.read(key, number).text, pool.get(self.id())), ("bob 0 0", None))


class Restart(WithServer):
    def test_items_go_with_the_server_and_a_pool_comes_back(self) -> None:
        key = self.id()
        first = Server(members=3)
        self.addCleanup(first.stop)
        pool, lone = self.pool(2, first.address), self.connect(first.address)
        self.assertEqual((pool.set(key, 41), pool.incr(key, 1), lone.get(key)), (True, 42, b"42"))
        first.stop()
        with ThreadPoolExecutor(2) as threads:
            # Both wait until there is a server. What was sent to none may be sent to this one.
            got, counted = threads.submit(pool.get, key), threads.submit(pool.incr, key, 1)
            second = Server(members=3, port=first.port)
            self.addCleanup(second.stop)
            self.assertEqual((got.result(PATIENCE), counted.result(PATIENCE)), (None, None))
        self.assertEqual((pool.add(key, b"1"), pool.get(key)), (True, b"1"))
        with self.assertRaises(NetworkError):
            lone.get(key)
        self.assertTrue(lone.is_closed)

    def test_a_change_that_a_killed_server_was_sent(self) -> None:
        key = self.id()
        with Server(members=3) as gone:
            connection = self.connect(gone.address)
            self.assertEqual(connection.set(key, b"1"), True)
            gone.stop()
            with self.assertRaises(UnknownOutcomeError):
                connection.incr(key, 1)
            with self.assertRaises(NetworkError):
                connection.incr(key, 1)  # It is closed by now, so nothing was sent.

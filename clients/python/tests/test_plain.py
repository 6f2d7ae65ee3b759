"""Plain commands: their bytes, what their replies mean, and what a server that plays false makes of them."""

from __future__ import annotations

import unittest
from typing import Any, Callable, List, Optional, Sequence, Tuple, Type

from silamoven import (
    Backoff,
    CommandError,
    Connection,
    ConnectionLostError,
    ExpiryError,
    FullError,
    InvalidInputError,
    Item,
    Key,
    NotANumberError,
    OutOfMemoryError,
    Pool,
    ProtocolError,
    QueryKeyError,
    ReadTimeoutError,
    ServerError,
    SilamovenError,
    SpentError,
    UnknownOutcomeError,
    plain,
)
from silamoven.commands import BIGGEST_BLOCK, Request
from silamoven.plain_client import PlainClient
from silamoven.replies import Failure

from .support import PATIENT, Cut, FakeServer, Hang, Nothing, Step, free_port, opener
from .test_replies import Text

LAST = (1 << 64) - 1

# A command, its bytes, and its bytes where no reply is wanted.
LINES: List[Tuple[plain.PlainCommand[object], bytes, bytes]] = [
    (plain.set("a", b"hi"), b"set a 0 0 2\r\nhi\r\n", b"set a 0 0 2 noreply\r\nhi\r\n"),
    (plain.set(b"a", b"", 7), b"set a 7 0 0\r\n\r\n", b"set a 7 0 0 noreply\r\n\r\n"),
    (plain.set("a", 17), b"set a 0 0 2\r\n17\r\n", b"set a 0 0 2 noreply\r\n17\r\n"),
    (
        plain.set("\u00e9", "\u00fc"),
        b"set \xc3\xa9 0 0 2\r\n\xc3\xbc\r\n",
        b"set \xc3\xa9 0 0 2 noreply\r\n\xc3\xbc\r\n",
    ),
    (plain.add("a", b"\r\n"), b"add a 0 0 2\r\n\r\n\r\n", b"add a 0 0 2 noreply\r\n\r\n\r\n"),
    (plain.replace("a", b"x"), b"replace a 0 0 1\r\nx\r\n", b"replace a 0 0 1 noreply\r\nx\r\n"),
    (plain.cas("a", b"x", 9, 17), b"cas a 17 0 1 9\r\nx\r\n", b"cas a 17 0 1 9 noreply\r\nx\r\n"),
    (plain.set("a", b"", (1 << 32) - 1), b"set a 4294967295 0 0\r\n\r\n", b"set a 4294967295 0 0 noreply\r\n\r\n"),
    (plain.delete("a"), b"delete a\r\n", b"delete a noreply\r\n"),
    (plain.incr("a", LAST), b"incr a 18446744073709551615\r\n", b"incr a 18446744073709551615 noreply\r\n"),
    (plain.decr("a", 0), b"decr a 0\r\n", b"decr a 0 noreply\r\n"),
]

# A command, the bytes of a reply to it, and what that means.
REPLIES: List[Tuple[Request[object], bytes, object]] = [
    (plain.set("a", b""), b"STORED\r\n", True),
    (plain.add("a", b""), b"STORED\r\n", True),
    (plain.add("a", b""), b"NOT_STORED\r\n", False),
    (plain.replace("a", b""), b"STORED\r\n", True),
    (plain.replace("a", b""), b"NOT_STORED\r\n", False),
    (plain.cas("a", b"", 1), b"STORED\r\n", True),
    (plain.cas("a", b"", 1), b"EXISTS\r\n", False),
    (plain.cas("a", b"", 1), b"NOT_FOUND\r\n", None),
    (plain.delete("a"), b"DELETED\r\n", True),
    (plain.delete("a"), b"NOT_FOUND\r\n", False),
    (plain.incr("a", 1), b"NOT_FOUND\r\n", None),
    (plain.incr("a", 1), b"18446744073709551615\r\n", LAST),
    (plain.decr("a", 1), b"0\r\n", 0),
    (plain.get(["a"]), b"END\r\n", ()),
    (plain.get(["a"]), b"VALUE a 5 2\r\nhi\r\nEND\r\n", (Item(b"a", b"hi", 5),)),
    (plain.gets(["a"]), b"VALUE a 5 5 9\r\nEND\r\n\r\nEND\r\n", (Item(b"a", b"END\r\n", 5, 9),)),
    (
        plain.get(["a", "b", "c"]),
        b"VALUE a 0 0\r\n\r\nVALUE c 0 2\r\n\r\n\r\nEND\r\n",
        (Item(b"a", b"", 0), Item(b"c", b"\r\n", 0)),
    ),
    (plain.get(["a"]), b"SERVER_ERROR memory\r\n", Failure("SERVER_ERROR memory")),
    (plain.set("a", b""), b"CLIENT_ERROR query key\r\n", Failure("CLIENT_ERROR query key")),
    (plain.incr("a", 1), b"ERROR\r\n", Failure("ERROR")),
]

GARBAGE: List[Tuple[Request[object], bytes]] = [
    (plain.set("a", b""), b"NOT_STORED\r\n"),
    (plain.set("a", b""), b"stored\r\n"),
    (plain.set("a", b""), b"STORED 1\r\n"),
    (plain.set("a", b""), b"\r\n"),
    (plain.delete("a"), b"STORED\r\n"),
    (plain.cas("a", b"", 1), b"NOT_STORED\r\n"),
    (plain.incr("a", 1), b"18446744073709551616\r\n"),
    (plain.incr("a", 1), b"000000000000000000001\r\n"),
    (plain.incr("a", 1), b"-1\r\n"),
    (plain.incr("a", 1), b"1 \r\n"),
    (plain.incr("a", 1), b"\xd9\xa1\r\n"),
    (plain.get(["a"]), b"STORED\r\n"),
    (plain.get(["a"]), b"END \r\n"),
    (plain.get(["a"]), b"VALUE a 0\r\n"),
    (plain.get(["a"]), b"VALUE a 0 0 1\r\n\r\nEND\r\n"),
    (plain.get(["a"]), b"VALUE a 4294967296 0\r\n\r\nEND\r\n"),
    (plain.get(["a"]), b"VALUE a 0 99999999999\r\n"),
    (plain.get(["a"]), b"VALUE a 0 x\r\n"),
    (plain.get(["a"]), b"VALUE a 0 1\r\nxyEND\r\n"),
    (plain.get(["a"]), b"VALUE b 0 1\r\nx\r\nEND\r\n"),
    (plain.get(["a"]), b"VALUE a 0 1\r\nx\r\nVALUE a 0 1\r\nx\r\nEND\r\n"),
    (plain.get(["a", "b"]), b"VALUE b 0 1\r\nx\r\nVALUE a 0 1\r\nx\r\nEND\r\n"),
    (plain.gets(["a"]), b"VALUE a 0 1\r\nx\r\nEND\r\n"),
    (plain.gets(["a"]), b"VALUE a 0 1 x\r\nx\r\nEND\r\n"),
    (plain.gets(["a"]), b"VALUE a 0 1 2 3\r\nx\r\nEND\r\n"),
]

NO_TEXTS = ["", "a b", "a\r\nquit", "a\x00", "\x7f", "\t", "k" * 251, "\u00e9" * 126, "\ud800"]
NO_KEYS: List[Any] = [*NO_TEXTS, b"", 7, None, Key.of("profile:2")]

# What each change says, and the line that it is.
CHANGES: List[Tuple[Callable[[PlainClient], object], str]] = [
    (lambda it: it.set("a", b"hi"), "set a 0 0 2\nhi"),
    (lambda it: it.add("a", b"hi"), "add a 0 0 2\nhi"),
    (lambda it: it.replace("a", b"hi"), "replace a 0 0 2\nhi"),
    (lambda it: it.cas("a", b"hi", 4), "cas a 0 0 2 4\nhi"),
    (lambda it: it.delete("a"), "delete a"),
    (lambda it: it.incr("a", 3), "incr a 3"),
    (lambda it: it.decr("a", 3), "decr a 3"),
]

LOOKS: List[Tuple[Callable[[PlainClient], object], str, str, object]] = [
    (lambda it: it.get("a"), "get a", "VALUE a 0 2\nhi\nEND", b"hi"),
    (lambda it: it.gets("a"), "gets a", "VALUE a 0 2 4\nhi\nEND", (b"hi", 4)),
    (lambda it: it.get_many(["a", "b"]), "get a b", "VALUE b 0 2\nhi\nEND", {"b": b"hi"}),
    (lambda it: it.get_multi([b"a", b"b"]), "get a b", "VALUE b 0 2\nhi\nEND", {b"b": b"hi"}),
    (lambda it: it.gets_many(["a", "b"]), "gets a b", "VALUE a 0 2 4\nhi\nEND", {"a": (b"hi", 4)}),
]


class Bytes(unittest.TestCase):
    def test_each_command(self) -> None:
        for command, data, quiet in LINES:
            with self.subTest(data):
                self.assertEqual((command.data, command.quiet_data), (data, quiet))
        self.assertEqual(plain.get(["a", b"b"]).data, b"get a b\r\n")
        self.assertEqual(plain.gets(["k" * 250]).data, b"gets " + b"k" * 250 + b"\r\n")

    def test_each_reply(self) -> None:
        for command, data, means in REPLIES:
            with self.subTest(data):
                source = Text(data + b"next")
                self.assertEqual(command.read(source), means)
                self.assertEqual(source.data, b"next")

    def test_a_cut_reply_is_none(self) -> None:
        for command, data, _ in REPLIES:
            for end in range(len(data)):
                with self.subTest(data[:end]), self.assertRaises(EOFError):
                    command.read(Text(data[:end]))

    def test_garbage_is_none(self) -> None:
        for command, data in GARBAGE:
            with self.subTest(data), self.assertRaises(ProtocolError):
                command.read(Text(data))

    def test_each_error(self) -> None:
        for line, kind in [
            ("CLIENT_ERROR query key", QueryKeyError),
            ("CLIENT_ERROR not a number", NotANumberError),
            ("CLIENT_ERROR exptime", CommandError),
            ("CLIENT_ERROR bad line", CommandError),
            ("ERROR", CommandError),
            ("SERVER_ERROR full", FullError),
            ("SERVER_ERROR spent", SpentError),
            ("SERVER_ERROR memory", OutOfMemoryError),
            ("SERVER_ERROR of a later version", ServerError),
        ]:
            error = plain.delete("a").error(line)
            self.assertIs(type(error), kind)
            self.assertEqual((error.reply, str(error)), (line, line))

    def test_what_is_wrong_has_no_bytes(self) -> None:
        for key in NO_KEYS:
            with self.subTest(key), self.assertRaises(InvalidInputError):
                plain.key_bytes(key)
        self.assertEqual(plain.key_bytes("k" * 250), b"k" * 250)
        wrongs: List[Callable[[], object]] = [
            lambda: plain.set("a", b"x" * (BIGGEST_BLOCK + 1)),
            lambda: plain.set("a", None),  # type: ignore[arg-type]
            lambda: plain.set("a", bytearray(b"x")),
            lambda: plain.set("a", "\ud800"),
            lambda: plain.set("a", b"x", 1 << 32),
            lambda: plain.set("a", b"x", -1),
            lambda: plain.cas("a", b"x", 1 << 64),
            lambda: plain.cas("a", b"x", b"1"),  # type: ignore[arg-type]
            lambda: plain.incr("a", -1),
            lambda: plain.incr("a", 1 << 64),
            lambda: plain.decr("a", 1.0),  # type: ignore[arg-type]
            lambda: plain.get([]),
            lambda: plain.get(["k" * 250] * 9),
        ]
        for number, wrong in enumerate(wrongs):
            with self.subTest(number), self.assertRaises(InvalidInputError):
                wrong()
        longest = plain.set("a", b"x" * BIGGEST_BLOCK).data
        self.assertEqual(len(longest), BIGGEST_BLOCK + len("set a 0 0 1048576\r\n\r\n"))

    def test_lines_of_many_keys(self) -> None:
        short = [b"%d" % number for number in range(1000)]
        lines = list(plain.in_lines(short))
        self.assertEqual([key for line in lines for key in line], short)
        self.assertEqual([len(line) for line in lines], [64] * 15 + [40])
        long = [b"%03d" % number + b"k" * 247 for number in range(30)]
        lines = list(plain.in_lines(long))
        self.assertEqual([key for line in lines for key in line], long)
        # 8 keys would be 4 + 8 * 251 = 2012 bytes, and 9 of them 2263.
        self.assertEqual([len(line) for line in lines], [8, 8, 8, 6])
        self.assertEqual(list(plain.in_lines([])), [])


class Said(unittest.TestCase):
    """Each is said on a connection and through a pool, with a server that answers as it is told."""

    def play(
        self, steps: Sequence[Step], say: Callable[[PlainClient], object], *others: Sequence[Step]
    ) -> List[object]:
        """What it comes to by each of the two ways."""
        results: List[object] = []
        with FakeServer(steps, *others) as server:
            with Pool(server.address, connect=opener(steps)) as pool:
                results.append(say(pool))
        if not others:
            with FakeServer(steps) as server:
                with opener(steps)(server.address, PATIENT) as connection:
                    results.append(say(connection))
        return results

    def raises(self, error: Type[Exception], steps: Sequence[Step], say: Callable[[PlainClient], object]) -> None:
        for number in range(2):
            with FakeServer(steps) as server:
                if number == 0:
                    with Pool(server.address, connect=opener(steps)) as pool:
                        with self.subTest(steps), self.assertRaises(error) as caught:
                            say(pool)
                else:
                    with opener(steps)(server.address, PATIENT) as connection:
                        with self.subTest(steps), self.assertRaises(error) as caught:
                            say(connection)
                self.assertIs(type(caught.exception), error)

    def test_what_is_got(self) -> None:
        for say, line, reply, got in LOOKS:
            self.assertEqual(self.play([(line, reply)], say), [got, got])

    def test_what_is_not_there(self) -> None:
        absent: List[Tuple[Callable[[PlainClient], object], str, object]] = [
            (lambda it: it.get("a"), "get a", None),
            (lambda it: it.get("a", 7), "get a", 7),
            (lambda it: it.gets("a"), "gets a", (None, None)),
            (lambda it: it.gets("a", "no", 0), "gets a", ("no", 0)),
            (lambda it: it.get_many(["a", "a"]), "get a", {}),
            (lambda it: it.gets_many({"a", "a"}), "gets a", {}),
        ]
        for say, line, got in absent:
            self.assertEqual(self.play([(line, "END")], say), [got, got])

    def test_no_keys_are_not_asked_for(self) -> None:
        with Pool(("127.0.0.1", free_port())) as pool:
            self.assertEqual((pool.get_many([]), pool.gets_many(())), ({}, {}))

    def test_what_a_change_says(self) -> None:
        replies = [("STORED", True)] * 4 + [("DELETED", True), ("7", 7), ("7", 7)]
        for (say, line), (reply, means) in zip(CHANGES, replies):
            self.assertEqual(self.play([(line, reply)], say), [means, means])

    def test_words_of_a_storage(self) -> None:
        whole = lambda it: it.cas("a", b"hi", cas=4, expire=0, noreply=False, flags=9)
        self.assertEqual(self.play([("cas a 9 0 2 4\nhi", "EXISTS")], whole), [False, False])

    def test_no_reply(self) -> None:
        quiets: List[Tuple[Callable[[PlainClient], object], str, Optional[bool]]] = [
            (lambda it: it.set("a", b"hi", noreply=True), "set a 0 0 2 noreply\nhi", True),
            (lambda it: it.add("a", b"hi", noreply=True), "add a 0 0 2 noreply\nhi", True),
            (lambda it: it.replace("a", b"hi", noreply=True), "replace a 0 0 2 noreply\nhi", True),
            (lambda it: it.cas("a", b"hi", 4, noreply=True), "cas a 0 0 2 4 noreply\nhi", True),
            (lambda it: it.delete("a", noreply=True), "delete a noreply", True),
            (lambda it: it.incr("a", 3, noreply=True), "incr a 3 noreply", None),
            (lambda it: it.decr("a", 3, noreply=True), "decr a 3 noreply", None),
        ]
        for say, line, means in quiets:
            self.assertEqual(self.play([(line, Nothing())], say), [means, means])

    def test_what_is_wrong_is_not_sent(self) -> None:
        with Pool(("127.0.0.1", free_port())) as pool:
            for expire in (1, -1, 60):
                wrongs: List[Callable[[], object]] = [
                    lambda: pool.set("a", b"", expire),
                    lambda: pool.add("a", b"", expire=expire),
                    lambda: pool.replace("a", b"", expire=expire, noreply=True),
                    lambda: pool.cas("a", b"", 1, expire=expire),
                ]
                for wrong in wrongs:
                    with self.assertRaises(ExpiryError):
                        wrong()
            forms: List[Callable[[], object]] = [
                lambda: pool.get("a b"),
                lambda: pool.get_many(["a", ""]),
                lambda: pool.gets_many(["k" * 251]),
                lambda: pool.delete(""),
                lambda: pool.incr("a", -1),
                lambda: pool.set("a", b"", flags=1 << 32),
            ]
            for form in forms:
                with self.assertRaises(InvalidInputError):
                    form()

    def test_errors_leave_the_connection_open(self) -> None:
        for line, error in [
            ("CLIENT_ERROR query key", QueryKeyError),
            ("CLIENT_ERROR not a number", NotANumberError),
            ("SERVER_ERROR full", FullError),
            ("SERVER_ERROR spent", SpentError),
            ("SERVER_ERROR memory", OutOfMemoryError),
        ]:

            def twice(it: PlainClient) -> object:
                with self.assertRaises(error) as caught:
                    it.incr("a", 3)
                self.assertIs(type(caught.exception), error)
                return it.get("a")

            with self.subTest(line):
                steps = [("incr a 3", line), ("get a", "VALUE a 0 2\nhi\nEND")]
                self.assertEqual(self.play(steps, twice), [b"hi", b"hi"])

    def test_an_error_behind_some_items(self) -> None:
        steps = [("get a b", "VALUE a 0 2\nhi\nSERVER_ERROR memory")]
        self.raises(OutOfMemoryError, steps, lambda it: it.get_many(["a", "b"]))

    def test_an_unknown_error_closes_a_pools_connection(self) -> None:
        with FakeServer([("incr a 3", "CLIENT_ERROR bad line")], [("get a", "END")]) as server:
            with Pool(server.address) as pool:
                with self.assertRaises(CommandError):
                    pool.incr("a", 3)
                self.assertIsNone(pool.get("a"))

    def test_a_lost_get_is_tried_again(self) -> None:
        for say, line, reply, got in LOOKS:
            for end in (0, 3, len(reply) - 1):
                self.assertEqual(self.play([(line, Cut(reply[:end]))], say, [(line, reply)]), [got])

    def test_a_lost_get_on_one_connection_is_lost(self) -> None:
        for say, line, reply, _ in LOOKS:
            for end in range(len(reply) + 1):
                with FakeServer([(line, Cut(reply[:end]))]) as server:
                    connection = Connection.open(server.address)
                    with self.subTest(reply[:end]), self.assertRaises(ConnectionLostError):
                        say(connection)
                    self.assertTrue(connection.is_closed)

    def test_a_get_that_is_told_nothing_in_time(self) -> None:
        self.raises(ReadTimeoutError, [("get a", Hang("VALUE a 0 2\nh"))], lambda it: it.get("a"))
        self.raises(ProtocolError, [("get a", "VALUE b 0 2\nhi\nEND")], lambda it: it.get("a"))

    def test_a_change_is_never_tried_again(self) -> None:
        for say, line in CHANGES:
            for reply in (Cut(""), Cut("STOR"), Cut("7"), "HELLO", "STORED 1"):
                self.raises(UnknownOutcomeError, [(line, reply)], say)
        self.raises(UnknownOutcomeError, [("incr a 3", Hang("7"))], lambda it: it.incr("a", 3))

    def test_what_it_says_of_a_lost_change(self) -> None:
        with FakeServer([("incr a 3", Cut(""))]) as server, Pool(server.address) as pool:
            with self.assertRaises(UnknownOutcomeError) as caught:
                pool.incr("a", 3)
            self.assertTrue(str(caught.exception).startswith("sent incr a, then: "), str(caught.exception))

    def test_a_change_waits_for_a_server(self) -> None:
        # Nothing was sent, so it may be tried again.
        with Pool(("127.0.0.1", free_port()), backoff=Backoff(first=0.01, total=0.1)) as pool:
            with self.assertRaises(SilamovenError) as caught:
                pool.incr("a", 3)
            self.assertNotIsInstance(caught.exception, UnknownOutcomeError)
        ended = [("get a", Cut("END\n"))]
        with FakeServer(ended, [("incr a 3", "7")]) as server, Pool(server.address) as pool:
            with pool.lend() as connection:
                self.assertIsNone(connection.get("a"))
                while not connection.is_stale():
                    pass
            self.assertEqual(pool.incr("a", 3), 7)

    def test_a_closed_connection(self) -> None:
        with FakeServer([]) as server:
            connection = Connection.open(server.address)
            connection.quit()
            calls: List[Callable[[], object]] = [
                lambda: connection.get("a"),
                lambda: connection.incr("a", 3),
                lambda: connection.set("a", b"hi", noreply=True),
            ]
            for call in calls:
                with self.assertRaises(ConnectionLostError):
                    call()

    def test_keys_are_asked_for_in_rounds(self) -> None:
        # Each line has eight keys of 250 bytes, and a round at most 16,384 bytes: eight of these lines.
        keys = [f"{number:03}" + "k" * 247 for number in range(80)]
        lines = ["get " + " ".join(keys[at : at + 8]) for at in range(0, 80, 8)]
        steps = [("\n".join(lines[:8]), "\n".join(["END"] * 8)), ("\n".join(lines[8:]), "END\nEND")]
        self.assertEqual(self.play(steps, lambda it: it.get_many(keys)), [{}, {}])

"""The bytes of commands, and what the bytes of replies say. No socket is used."""

from __future__ import annotations

import inspect
import re
import unittest
from typing import List, Tuple

import silamoven
from silamoven import InvalidInputError, Key, Mode, ProtocolError, Txn, commands, errors
from silamoven.errors import (
    CommandError,
    OutOfMemoryError,
    ServerError,
    SpentError,
    StoreError,
    reply_error,
)
from silamoven.replies import (
    Again,
    Begun,
    Committed,
    Deleted,
    Ended,
    Failure,
    Granted,
    Held,
    Lease,
    NotFound,
    NotStored,
    Own,
    Refused,
    Rejected,
    Released,
    Staged,
    Standing,
    Stored,
    Uncovered,
    Value,
    read_reply,
)

KEY = Key.of("profile:2")
TXN = Txn.of("accept 1 2 + rename 2 bob")


class Text:
    """A source of bytes that are all there; it stands for a connection that then ends."""

    def __init__(self, data: bytes) -> None:
        self.data = data

    def line(self) -> bytes:
        line, end, rest = self.data.partition(b"\r\n")
        if not end:
            raise EOFError
        self.data = rest
        return line

    def exactly(self, count: int) -> bytes:
        if len(self.data) < count:
            raise EOFError
        taken, self.data = self.data[:count], self.data[count:]
        return taken


REPLIES = [
    (b"SESSION 1\r\n", Begun(1)),
    (b"VALUE profile:2 0 6 7\r\nm2 0 0\r\nEND\r\n", Value("profile:2", b"m2 0 0", 7)),
    (b"VALUE friends:2 0 0 0\r\n\r\nEND\r\n", Value("friends:2", b"", 0)),
    (b"VALUE friends:2 0 2 0\r\n\r\n\r\nEND\r\n", Value("friends:2", b"\r\n", 0)),
    (b"VALUE profile:2 0 6\r\nm2 0 0\r\nEND\r\n", Staged("profile:2", b"m2 0 0")),
    (b"LEASE 18446744073709551615\r\n", Lease(18446744073709551615)),
    (b"AGAIN I\r\n", Again(Standing.LEASE)),
    (b"AGAIN Q\r\n", Again(Standing.QUARANTINE)),
    (b"OWN\r\n", Own()),
    (b"STORED\r\n", Stored()),
    (b"NOT_STORED\r\n", NotStored()),
    (b"GRANTED 3\r\n", Granted(3)),
    (b"HELD\r\n", Held()),
    (b"REFUSED 4 invalidate\r\n", Refused(4, Mode.INVALIDATE)),
    (b"REFUSED 4 refresh\r\n", Refused(4, Mode.REFRESH)),
    (b"REFUSED 4 delta\r\n", Refused(4, Mode.DELTA)),
    (b"COMMITTED 9\r\n", Committed(9)),
    (b"ENDED\r\n", Ended()),
    (b"UNCOVERED friends:1\r\n", Uncovered("friends:1")),
    (b"REJECTED 0\r\n", Rejected(0)),
    (b"DELETED\r\n", Deleted()),
    (b"NOT_FOUND\r\n", NotFound()),
    (b"RELEASED 64\r\n", Released(64)),
    (b"ERROR\r\n", Failure("ERROR")),
    (b"CLIENT_ERROR bad line\r\n", Failure("CLIENT_ERROR bad line")),
    (b"SERVER_ERROR store\r\n", Failure("SERVER_ERROR store")),
]

GARBAGE = [
    b"\r\n",
    b"session 1\r\n",
    b"SESSION\r\n",
    b"SESSION x\r\n",
    b"SESSION -1\r\n",
    b"SESSION +1\r\n",
    b"SESSION 1_0\r\n",
    b"SESSION 1 2\r\n",
    b"SESSION  1\r\n",
    b"SESSION 18446744073709551616\r\n",
    b"AGAIN\r\n",
    b"AGAIN X\r\n",
    b"OWN 1\r\n",
    b"REFUSED 4\r\n",
    b"REFUSED 4 drop\r\n",
    b"UNCOVERED\r\n",
    b"\xff\xfe\r\n",
    b"HTTP/1.1 400 Bad Request\r\n",
    b"VALUE profile:2 0\r\n",
    b"VALUE profile:2 1 6 0\r\nm2 0 0\r\nEND\r\n",
    b"VALUE profile:2 0 x 0\r\n",
    b"VALUE profile:2 0 99999999999 0\r\n",
    b"VALUE profile:2 0 6 0 0\r\nm2 0 0\r\nEND\r\n",
    b"VALUE profile:2 0 6 x\r\nm2 0 0\r\nEND\r\n",
    b"VALUE profile:2 0 5 0\r\nm2 0 0\r\nEND\r\n",
    b"VALUE profile:2 0 6 0\r\nm2 0 0\r\nEDN\r\n",
]

LINES = [
    (commands.begin(commands.Role.READ), b"begin read\r\n"),
    (commands.begin(commands.Role.WRITE), b"begin write\r\n"),
    (commands.iqget(KEY, 1, 7), b"iqget profile:2 1 7\r\n"),
    (commands.ask(KEY, 1), b"ask profile:2 1\r\n"),
    (commands.iqset(KEY, b"m2 0 0", 3, 4), b"iqset profile:2 0 0 6 3 4\r\nm2 0 0\r\n"),
    (commands.iqset(KEY, b"", 3, 4), b"iqset profile:2 0 0 0 3 4\r\n\r\n"),
    (commands.qareg(KEY, 1), b"qareg profile:2 1\r\n"),
    (commands.qaread(KEY, 1), b"qaread profile:2 1\r\n"),
    (commands.iqdelta(Key.of("npending:2"), 1, -3), b"iqdelta npending:2 1 -3\r\n"),
    (commands.stage(KEY, 1, TXN), b"stage profile:2 1 accept 1 2 + rename 2 bob\r\n"),
    (commands.sql(1, TXN), b"sql 1 accept 1 2 + rename 2 bob\r\n"),
    (commands.dar(KEY, 1), b"dar profile:2 1\r\n"),
    (commands.sar(KEY, b"al 0 0", 1), b"sar profile:2 0 0 6 1\r\nal 0 0\r\n"),
    (commands.iqcommit(KEY, 1), b"iqcommit profile:2 1\r\n"),
    (commands.iqabort(1), b"iqabort 1\r\n"),
]


class Replies(unittest.TestCase):
    def test_each_reply(self) -> None:
        for data, reply in REPLIES:
            with self.subTest(data):
                source = Text(data + b"next")
                self.assertEqual(read_reply(source), reply)
                self.assertEqual(source.data, b"next")

    def test_a_cut_reply_is_none(self) -> None:
        for data, _ in REPLIES:
            for end in range(len(data)):
                with self.subTest(data[:end]), self.assertRaises(EOFError):
                    read_reply(Text(data[:end]))

    def test_garbage_is_none(self) -> None:
        for data in GARBAGE:
            with self.subTest(data), self.assertRaises(ProtocolError):
                read_reply(Text(data))

    def test_the_old_value_behind_a_grant(self) -> None:
        old = b"VALUE profile:2 0 6 7\r\nm2 0 0\r\nEND\r\n"
        for behind, value in [(b"END\r\n", None), (old, Value("profile:2", b"m2 0 0", 7))]:
            source = Text(b"GRANTED 3\r\n" + behind + b"next")
            self.assertEqual(read_reply(source, with_old=True), Granted(3, value))
            self.assertEqual(source.data, b"next")
        self.assertEqual(read_reply(Text(b"HELD\r\n"), with_old=True), Held())
        for behind in (b"OWN\r\n", b"VALUE profile:2 0 x\r\n", b"VALUE profile:2 0 1\r\nx\r\nEND\r\n"):
            with self.subTest(behind), self.assertRaises(ProtocolError):
                read_reply(Text(b"GRANTED 3\r\n" + behind), with_old=True)


class Commands(unittest.TestCase):
    def test_each_command(self) -> None:
        for command, data in LINES:
            with self.subTest(data):
                self.assertEqual(command.data, data)

    def test_a_value_that_is_too_big(self) -> None:
        commands.iqset(KEY, b"x" * commands.BIGGEST_BLOCK, 1, 1)
        with self.assertRaises(InvalidInputError):
            commands.iqset(KEY, b"x" * (commands.BIGGEST_BLOCK + 1), 1, 1)

    def test_what_is_a_reply_to_it(self) -> None:
        get = commands.iqget(KEY, 1, 0)
        self.assertTrue(get.accepts(Value("profile:2", b"", 0)))
        self.assertTrue(get.accepts(Again(Standing.LEASE)))
        self.assertFalse(get.accepts(Value("profile:3", b"", 0)))
        self.assertFalse(get.accepts(Staged("profile:2", b"")))
        self.assertFalse(get.accepts(Stored()))
        read = commands.qaread(KEY, 1)
        self.assertTrue(read.accepts(Granted(1, Value("profile:2", b"", 0))))
        self.assertFalse(read.accepts(Granted(1, Value("profile:3", b"", 0))))


class Errors(unittest.TestCase):
    def test_the_list_of_them_is_the_tree_that_they_are(self) -> None:
        tree: List[Tuple[int, str]] = []
        for line in inspect.cleandoc(errors.__doc__ or "").splitlines():
            found = re.match(r"( *)(\w+Error)\b", line)
            if found:
                tree.append((len(found.group(1)) // 4, found.group(2)))

        def walk(kind: type, depth: int) -> List[Tuple[int, str]]:
            below = [each for sub in kind.__subclasses__() for each in walk(sub, depth + 1)]
            return [(depth, kind.__name__), *below]

        self.assertEqual(tree, walk(errors.SilamovenError, 0))
        for _, name in tree:
            self.assertIs(getattr(silamoven, name), getattr(errors, name))

    def test_each_error(self) -> None:
        for line, kind in [
            ("ERROR", CommandError),
            ("CLIENT_ERROR bad line", CommandError),
            ("SERVER_ERROR spent", SpentError),
            ("SERVER_ERROR full", SpentError),
            ("SERVER_ERROR store", StoreError),
            ("SERVER_ERROR memory", OutOfMemoryError),
            ("SERVER_ERROR of a later version", ServerError),
        ]:
            error = reply_error(line)
            self.assertIs(type(error), kind)
            self.assertEqual((error.reply, str(error)), (line, line))

"""One connection over the loopback, with a server that plays false."""

from __future__ import annotations

import socket
import time
import unittest
from unittest import mock

from silamoven import (
    CommandError,
    ConnectError,
    Connection,
    ConnectionLostError,
    Key,
    ProtocolError,
    ReadTimeoutError,
    StoreError,
    commands,
)
from silamoven.commands import Command, Role
from silamoven.replies import Begun, Failure, Lease, Value

from .support import MOMENT, PATIENCE, PATIENT, Cut, Drip, FakeServer, Hang, Step, free_port, opener

KEY = Key.of("profile:2")
BEGIN: Step = ("begin read", "SESSION 1")
GET = commands.iqget(KEY, 1, 0)
LINE = "iqget profile:2 1 0"
VALUE = "VALUE profile:2 0 6 0\nm2 0 0\nEND"


class Whole(unittest.TestCase):
    def test_many_commands_in_one_go(self) -> None:
        steps = [BEGIN, (LINE, VALUE), (LINE, "CLIENT_ERROR not yours"), (LINE, "LEASE 1")]
        with FakeServer(steps) as server, Connection.open(server.address) as connection:
            replies = connection.exchange([commands.begin(Role.READ), GET, GET, GET])
            value = Value("profile:2", b"m2 0 0", 0)
            error = Failure("CLIENT_ERROR not yours")
            self.assertEqual(replies, [Begun(1), value, error, Lease(1)])

    def test_one_session_that_reads_is_enough(self) -> None:
        steps = [BEGIN, ("begin write", "SESSION 2"), ("iqabort 2", "RELEASED 0"), ("begin read", "SESSION 3")]
        with FakeServer(steps) as server, Connection.open(server.address) as connection:
            self.assertEqual([connection.reading_session() for _ in range(3)], [1, 1, 1])
            connection.give_up()  # It has nothing to give up.
            connection.begin(Role.WRITE)
            connection.give_up()
            self.assertEqual([connection.reading_session() for _ in range(3)], [3, 3, 3])

    def test_a_reply_that_comes_byte_by_byte(self) -> None:
        with FakeServer([BEGIN, (LINE, Drip("LEASE 1"))]) as server:
            with Connection.open(server.address, PATIENT) as connection:
                connection.begin(Role.READ)
                self.assertEqual(connection.call(GET), Lease(1))

    def test_an_error_leaves_it_open(self) -> None:
        steps = [BEGIN, (LINE, "SERVER_ERROR store"), (LINE, "CLIENT_ERROR not yours"), (LINE, "LEASE 1")]
        with FakeServer(steps) as server, Connection.open(server.address) as connection:
            connection.begin(Role.READ)
            with self.assertRaises(StoreError):
                connection.call(GET)
            with self.assertRaises(CommandError) as caught:
                connection.call(GET)
            self.assertEqual(caught.exception.reply, "CLIENT_ERROR not yours")
            self.assertEqual(connection.call(GET), Lease(1))


class Broken(unittest.TestCase):
    def check(self, reply: str, error: type) -> None:
        """A server that answers a get so: the error is raised, and the connection is closed."""
        steps = [BEGIN, (LINE, reply)]
        with FakeServer(steps) as server:
            connection = opener(steps)(server.address, PATIENT)
            connection.begin(Role.READ)
            with self.subTest(reply), self.assertRaises(error):
                connection.call(GET)
            self.assertTrue(connection.is_closed)
            with self.assertRaises(ConnectionLostError):
                connection.call(GET)

    def test_a_server_that_stops_in_the_middle_of_a_reply(self) -> None:
        whole = VALUE + "\n"
        for end in range(len(whole)):
            self.check(Cut(whole[:end]), ConnectionLostError)

    def test_a_server_that_says_no_more(self) -> None:
        for text in ("LEA", "VALUE profile:2 0 6 0\nm2"):
            self.check(Hang(text), ReadTimeoutError)

    def test_a_server_that_is_slow_to_the_end(self) -> None:
        # The time is for the whole reply, so bytes that keep coming don't lengthen it. These would for 10 seconds.
        self.check(Drip("LEASE " + "1" * 200), ReadTimeoutError)

    def test_what_is_no_reply_to_the_command(self) -> None:
        for text in ("STORED", "HELLO", "VALUE profile:3 0 0 0\n\nEND", "VALUE profile:2 0 0\n\nEND", "x" * 5000):
            self.check(text, ProtocolError)

    def test_a_reply_too_many(self) -> None:
        with FakeServer([("begin read", "SESSION 1\nSESSION 2")]) as server:
            connection = Connection.open(server.address)
            connection.begin(Role.READ)
            deadline = time.monotonic() + PATIENCE
            while not connection.is_stale() and time.monotonic() < deadline:
                time.sleep(0.01)
            self.assertTrue(connection.is_stale())
            connection.close()

    def test_an_interrupt_closes_it(self) -> None:
        with FakeServer([BEGIN, (LINE, "LEASE 1")]) as server:
            connection = Connection.open(server.address)
            connection.begin(Role.READ)
            with mock.patch("silamoven.commands.read_reply", side_effect=KeyboardInterrupt):
                with self.assertRaises(KeyboardInterrupt):
                    connection.call(GET)
            self.assertTrue(connection.is_closed)

    def test_nobody_listens(self) -> None:
        with self.assertRaises(ConnectError):
            Connection.open(("127.0.0.1", free_port()), MOMENT)

    def test_a_server_that_takes_no_bytes(self) -> None:
        with socket.create_server(("127.0.0.1", 0)) as deaf:
            connection = Connection.open(deaf.getsockname(), MOMENT)
            lots: Command[Value] = Command(b"x" * (1 << 26), (Value,))
            with self.assertRaises(ReadTimeoutError):
                connection.call(lots)
            self.assertTrue(connection.is_closed)

    def test_the_end_beside_a_server_that_hangs_is_quick(self) -> None:
        steps = [("begin write", "SESSION 1"), ("iqabort 1", Hang(""))]
        with FakeServer(steps) as server:
            connection = Connection.open(server.address, PATIENT)
            connection.begin(Role.WRITE)
            began = time.monotonic()
            connection.give_up()
            self.assertTrue(connection.is_closed)
            self.assertLess(time.monotonic() - began, PATIENCE / 2)

    def test_the_end_beside_a_server_that_takes_no_bytes_is_quick(self) -> None:
        with socket.create_server(("127.0.0.1", 0)) as deaf:
            connection = Connection.open(deaf.getsockname(), PATIENT)
            connection._sock.settimeout(0)
            with self.assertRaises(BlockingIOError):
                while True:
                    connection._sock.send(b"x" * 65536)
            began = time.monotonic()
            connection.quit()
            self.assertTrue(connection.is_closed)
            self.assertLess(time.monotonic() - began, PATIENCE / 2)

    def test_it_ends_the_connection_with_its_block(self) -> None:
        with FakeServer([BEGIN]) as server:
            with Connection.open(server.address) as connection:
                connection.begin(Role.READ)
                self.assertFalse(connection.is_stale())
            self.assertTrue(connection.is_closed)
            self.assertTrue(connection.is_stale())

"""Connections that are used again, that are lost, and that come back; with a server that plays false."""

from __future__ import annotations

import threading
import time
import unittest
from typing import Callable, List
from unittest import mock

from silamoven import (
    Backoff,
    ConnectError,
    ConnectionLostError,
    InvalidInputError,
    Key,
    Pool,
    PoolClosedError,
    PoolTimeoutError,
    SilamovenError,
    Timeouts,
    commands,
)
from silamoven.commands import Role

from .support import PATIENCE, Cut, FakeServer, Step, free_port

READ: Step = ("begin read", "SESSION 1")
HIT: Step = ("iqget profile:2 1 0", "VALUE profile:2 0 6 4\nm2 0 0\nEND")
QUICK = Backoff(first=0.02, most=0.1, total=PATIENCE)


class Lending(unittest.TestCase):
    def test_one_connection_is_used_again(self) -> None:
        with FakeServer([READ, HIT, HIT, HIT]) as server, Pool(server.address) as pool:
            for _ in range(3):
                pool.read("profile:2")

    def test_no_more_than_its_size(self) -> None:
        short = Timeouts(pool=0.1)
        with FakeServer([], []) as server, Pool(server.address, size=2, timeouts=short) as pool:
            with pool.lend() as first, pool.lend() as second:
                self.assertIsNot(first, second)
                with self.assertRaises(PoolTimeoutError):
                    pool.read("profile:2")
            with pool.lend() as again:
                self.assertIs(again, first)

    def test_one_waits_until_another_is_given_back(self) -> None:
        with FakeServer([READ, HIT]) as server, Pool(server.address, size=1) as pool:
            with pool.lend():
                reader = threading.Thread(target=pool.read, args=("profile:2",))
                reader.start()
                time.sleep(0.05)
                self.assertTrue(reader.is_alive())
            reader.join(PATIENCE)
            self.assertFalse(reader.is_alive())

    def test_a_session_that_writes_is_given_up(self) -> None:
        steps = [("begin write", "SESSION 1"), ("qareg profile:2 1", "GRANTED 1"), ("iqabort 1", "RELEASED 1")]
        with FakeServer(steps) as server, Pool(server.address) as pool:
            with self.assertRaises(ZeroDivisionError), pool.lend() as connection:
                sid = connection.begin(Role.WRITE)
                connection.call(commands.qareg(Key.of("profile:2"), sid))
                raise ZeroDivisionError

    def test_a_closed_pool(self) -> None:
        with FakeServer([READ, HIT]) as server:
            pool = Pool(server.address)
            pool.read("profile:2")
            pool.close()
            pool.close()
            with self.assertRaises(PoolClosedError):
                pool.read("profile:2")

    def test_a_connection_that_comes_back_to_a_closed_pool(self) -> None:
        with FakeServer([]) as server:
            pool = Pool(server.address)
            with pool.lend() as connection:
                pool.close()
                self.assertFalse(connection.is_closed)
            self.assertTrue(connection.is_closed)

    def test_what_is_wrong_is_not_sent(self) -> None:
        pool = Pool(("127.0.0.1", free_port()))
        wrongs: List[Callable[[], object]] = [
            lambda: pool.read("profile:x"),
            lambda: pool.read("profile:2", floor=-1),
            lambda: pool.read("profile:2", floor=1 << 64),
            lambda: pool.ask("profile"),
            lambda: pool.write("rename 2"),
            lambda: Pool("localhost"),
        ]
        for wrong in wrongs:
            with self.assertRaises(InvalidInputError):
                wrong()
        with self.assertRaises(ValueError):
            pool.write("rename 2 bob", mode="drop")
        with self.assertRaises(ValueError):
            Pool("127.0.0.1:7000", size=0)


class ComingBack(unittest.TestCase):
    def test_a_server_that_is_restarted(self) -> None:
        first = FakeServer([READ, HIT])
        pool = Pool(first.address, backoff=QUICK)
        pool.read("profile:2")
        first.stop()
        # Nobody listens for a while. Then the next server does, at the same port.
        with self.assertRaises(ConnectError):
            Pool(first.address, backoff=Backoff(total=0)).read("profile:2")
        got = []
        reader = threading.Thread(target=lambda: got.append(pool.read("profile:2").data))
        reader.start()
        time.sleep(0.3)
        self.assertTrue(reader.is_alive())
        with FakeServer([READ, HIT], port=first.port):
            reader.join(PATIENCE)
            pool.close()
        self.assertEqual(got, [b"m2 0 0"])

    def test_idle_connections_that_the_server_ended(self) -> None:
        ended = [("begin read", Cut("SESSION 1\n"))]
        with FakeServer(ended, ended, [READ, HIT]) as server, Pool(server.address) as pool:
            with pool.lend() as first, pool.lend() as second:
                for connection in (first, second):
                    connection.begin(Role.READ)
                    while not connection.is_stale():
                        time.sleep(0.01)
            with mock.patch("silamoven.waits.sleep") as sleep:
                pool.read("profile:2")
            sleep.assert_not_called()

    def test_given_up_when_the_time_is_over(self) -> None:
        def lend(pool: Pool) -> None:
            with pool.lend():
                pass

        calls: List[Callable[[Pool], object]] = [
            lambda pool: pool.read("profile:2"),
            lambda pool: pool.write("rename 2 bob"),
            lend,
        ]
        still = mock.patch("silamoven.waits.monotonic", return_value=0.0)
        for call in calls:
            with Pool(("127.0.0.1", free_port()), backoff=Backoff(first=0.05, total=0.4)) as pool:
                with still, mock.patch("random.uniform", return_value=1.0), mock.patch("silamoven.waits.sleep") as sleep:
                    with self.assertRaises(ConnectError):
                        call(pool)
                self.assertEqual([each.args[0] for each in sleep.call_args_list], [0.05, 0.1, 0.2])

    def test_one_waits_for_a_server_that_is_gone_and_the_others_do_not(self) -> None:
        port = free_port()
        with Pool(("127.0.0.1", port)) as pool:
            with mock.patch("silamoven.waits.sleep") as sleep:
                for _ in range(3):
                    with self.assertRaises(ConnectError):
                        pool.read("profile:2")
                    self.assertTrue(0 < len(sleep.call_args_list) <= 8)
                waits = len(sleep.call_args_list)
                with FakeServer([READ, HIT], port=port) as server:
                    pool.read("profile:2")
                    server.stop()
                self.assertEqual(len(sleep.call_args_list), waits)
                # It was there, so the next one waits again.
                with self.assertRaises(ConnectError):
                    pool.read("profile:2")
                self.assertGreater(len(sleep.call_args_list), waits)

    def test_tries_that_take_long_count(self) -> None:
        with mock.patch("silamoven.waits.monotonic", side_effect=[100.0, 100.0, 101.0, 101.96]):
            self.assertEqual(len(list(Backoff(first=0.05, total=2.0).waits())), 2)

    def test_lost_every_time(self) -> None:
        lost = [("begin read", Cut(""))]
        with FakeServer(lost, lost, lost) as server:
            with Pool(server.address, backoff=Backoff(first=0.01, factor=1.0, total=0.0205)) as pool:
                still = mock.patch("silamoven.waits.monotonic", return_value=0.0)
                with still, mock.patch("random.uniform", return_value=1.0):
                    with self.assertRaises(ConnectionLostError):
                        pool.read("profile:2")

    def test_the_waits_grow(self) -> None:
        with mock.patch("random.uniform", return_value=1.0):
            waits = list(Backoff(first=0.1, factor=2.0, most=0.5, total=2.0).waits())
        self.assertEqual([round(wait, 3) for wait in waits], [0.1, 0.2, 0.4, 0.5, 0.5])
        for wait in Backoff(first=0.1, most=0.1, total=1.0).waits():
            self.assertTrue(0.05 <= wait <= 0.1)


class OwnFloor(unittest.TestCase):
    def test_it_follows_ones_own_commits(self) -> None:
        steps = [
            READ,
            HIT,
            ("begin write", "SESSION 2"),
            ("qareg profile:2 2", "GRANTED 5"),
            ("sql 2 rename 2 bob", "COMMITTED 8"),
            ("dar profile:2 2", "DELETED"),
            ("begin read", "SESSION 3"),
            ("iqget profile:2 3 8", "VALUE profile:2 0 7 8\nbob 0 0\nEND"),
            ("iqget profile:2 3 8", "VALUE profile:2 0 7 8\nbob 0 0\nEND"),
            ("iqget profile:2 3 9", "VALUE profile:2 0 7 9\nbob 0 0\nEND"),
            ("iqget profile:2 3 12", "VALUE profile:2 0 7 12\nbob 0 0\nEND"),
        ]
        with FakeServer(steps) as server, Pool(server.address) as pool:
            me = pool.own_reads()
            me.read("profile:2")
            me.write("rename 2 bob")
            self.assertEqual(me.floor, 8)
            me.read("profile:2")
            me.read("profile:2", floor=3)
            me.read("profile:2", floor=9)
            me.saw(12)
            me.saw(5)
            me.read("profile:2")

    def test_a_floor_from_before(self) -> None:
        steps = [READ, ("iqget profile:2 1 7", "VALUE profile:2 0 6 7\nm2 0 0\nEND")]
        with FakeServer(steps) as server, Pool(server.address) as pool:
            pool.own_reads(7).read("profile:2")

    def test_a_server_that_was_started_anew_counts_from_0(self) -> None:
        steps = [
            READ,
            ("iqget profile:2 1 500", "LEASE 1"),
            ("ask profile:2 1", "VALUE profile:2 0 6 2\nm2 0 0\nEND"),
            ("iqset profile:2 0 0 6 1 2\nm2 0 0", "STORED"),
            ("iqget profile:2 1 2", "VALUE profile:2 0 6 2\nm2 0 0\nEND"),
        ]
        with FakeServer(steps) as server, Pool(server.address) as pool:
            me = pool.own_reads(500)
            me.read("profile:2")
            me.read("profile:2")

    def test_a_write_that_fails_leaves_it(self) -> None:
        steps = [
            ("begin write", "SESSION 1"),
            ("qareg profile:2 1", "GRANTED 5"),
            ("sql 1 rename 2 bob", "REJECTED 0"),
            ("iqabort 1", "RELEASED 1"),
        ]
        with FakeServer(steps) as server, Pool(server.address) as pool:
            me = pool.own_reads(3)
            with self.assertRaises(SilamovenError):
                me.write("rename 2 bob")
            self.assertEqual(me.floor, 3)

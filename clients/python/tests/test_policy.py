"""What a reader and a writer do with each answer, step by step, with a server that answers as it is told."""

from __future__ import annotations

import unittest
from typing import List, Sequence, Tuple, Type
from unittest import mock

from silamoven import (
    CommandError,
    EndedError,
    Mode,
    Origin,
    OutOfMemoryError,
    Pool,
    ProtocolError,
    ReadTimeoutError,
    ReadTries,
    RefusedError,
    RejectedError,
    SpentError,
    StoreError,
    UnknownOutcomeError,
    WriteTries,
)

from .support import Cut, FakeServer, Hang, Step, opener

READ: Step = ("begin read", "SESSION 1")
GET = "iqget profile:2 1 0"
VALUE = "VALUE profile:2 0 6 4\nm2 0 0\nEND"
SET = "iqset profile:2 0 0 6 9 4\nm2 0 0"

WRITE: Step = ("begin write", "SESSION 1")
QUARANTINE: Step = ("qareg profile:2 1", "GRANTED 5")
SQL = "sql 1 rename 2 bob"
COMMIT: Step = (SQL, "COMMITTED 8")
ABORT: Step = ("iqabort 1", "RELEASED 1")
AGAIN: Step = ("begin write", "SESSION 2")


def second(*steps: Step) -> List[Step]:
    """The same steps in the session of number 2."""
    return [(line.replace(" 1", " 2", 1), reply) for line, reply in steps]


class Reader(unittest.TestCase):
    def read(self, *steps: Step) -> Tuple[bytes, int, Origin]:
        with FakeServer([READ, *steps]) as server:
            with Pool(server.address, connect=opener(steps)) as pool:
                answer = pool.read("profile:2")
        return answer.data, answer.stamp, answer.origin

    def test_a_hit(self) -> None:
        self.assertEqual(self.read((GET, VALUE)), (b"m2 0 0", 4, Origin.HIT))

    def test_a_lease(self) -> None:
        for reply, origin in [
            ("STORED", Origin.STORED),
            ("NOT_STORED", Origin.NOT_STORED),
            ("SERVER_ERROR memory", Origin.NOT_STORED),
            (Cut("STO"), Origin.NOT_STORED),
            (Hang(""), Origin.NOT_STORED),
            ("HELLO", Origin.NOT_STORED),
        ]:
            with self.subTest(reply):
                read = self.read((GET, "LEASE 9"), ("ask profile:2 1", VALUE), (SET, reply))
                self.assertEqual(read, (b"m2 0 0", 4, origin))

    def test_again_and_again(self) -> None:
        steps = [(GET, "AGAIN I"), (GET, "AGAIN Q"), (GET, "AGAIN I"), (GET, VALUE)]
        with mock.patch("silamoven.reading.sleep") as sleep:
            self.assertEqual(self.read(*steps)[2], Origin.HIT)
        self.assertEqual([call.args[0] for call in sleep.call_args_list], [0.001, 0.002, 0.004])

    def test_what_follows_the_sixteenth_time(self) -> None:
        steps = [(GET, "AGAIN Q")] * 16 + [("ask profile:2 1", VALUE)]
        with mock.patch("silamoven.reading.sleep") as sleep:
            self.assertEqual(self.read(*steps), (b"m2 0 0", 4, Origin.ASKED))
        waits = [round(call.args[0] * 1000) for call in sleep.call_args_list]
        self.assertEqual(waits, [1, 2, 4, 8, 16, 32, 64] + [100] * 8)

    def test_fewer_tries(self) -> None:
        with FakeServer([READ, (GET, "AGAIN Q"), ("ask profile:2 1", VALUE)]) as server:
            with Pool(server.address, read_tries=ReadTries(tries=1)) as pool:
                self.assertEqual(pool.read("profile:2").origin, Origin.ASKED)

    def test_ones_own_quarantine(self) -> None:
        self.assertEqual(self.read((GET, "OWN"), ("ask profile:2 1", VALUE))[2], Origin.ASKED)

    def test_a_floor(self) -> None:
        with FakeServer([READ, ("iqget profile:2 1 7", VALUE)]) as server, Pool(server.address) as pool:
            pool.read("profile:2", floor=7)

    def test_a_store_that_fails(self) -> None:
        with self.assertRaises(StoreError):
            self.read((GET, "LEASE 9"), ("ask profile:2 1", "SERVER_ERROR store"))
        with self.assertRaises(SpentError):
            self.read((GET, "SERVER_ERROR spent"))

    def test_a_lost_connection_is_replaced(self) -> None:
        anew = [READ, (GET, VALUE)]
        losses: List[List[Tuple[str, str]]] = [
            [(GET, Cut("VALUE profile:2 0 6 4\nm2"))],
            [(GET, "LEASE 9"), ("ask profile:2 1", Cut(""))],
        ]
        for steps in losses:
            with FakeServer([READ, *steps], anew) as server, Pool(server.address) as pool:
                self.assertEqual(pool.read("profile:2").origin, Origin.HIT)

    def test_an_error_of_the_client_closes_the_connection(self) -> None:
        anew = [READ, (GET, VALUE)]
        with FakeServer([READ, (GET, "CLIENT_ERROR not yours")], anew) as server:
            with Pool(server.address) as pool:
                with self.assertRaises(CommandError):
                    pool.read("profile:2")
                pool.read("profile:2")


class Writer(unittest.TestCase):
    def write(self, *steps: Step, mode: Mode = Mode.INVALIDATE, txn: str = "rename 2 bob") -> int:
        with FakeServer([WRITE, *steps]) as server:
            with Pool(server.address, connect=opener(steps), write_tries=WriteTries(3)) as pool:
                return pool.write(txn, mode)

    def check_raises(self, error: Type[Exception], *steps: Step) -> Exception:
        with self.assertRaises(error) as caught:
            self.write(*steps)
        self.assertIs(type(caught.exception), error)
        return caught.exception

    def test_invalidate(self) -> None:
        self.assertEqual(self.write(QUARANTINE, COMMIT, ("dar profile:2 1", "DELETED")), 8)

    def test_refresh(self) -> None:
        old = "GRANTED 5\nVALUE profile:2 0 6 4\nm2 0 0\nEND"
        steps = [("qaread profile:2 1", old), COMMIT, ("sar profile:2 0 0 7 1\nbob 0 0", "STORED")]
        self.assertEqual(self.write(*steps, mode=Mode.REFRESH), 8)

    def test_refresh_of_what_is_not_cached_or_cannot_be_told(self) -> None:
        for old in ("END", "VALUE profile:2 0 1 4\n-\nEND", "VALUE profile:2 0 4 4\nm2 0\nEND"):
            with self.subTest(old):
                quarantine = ("qaread profile:2 1", "GRANTED 5\n" + old)
                steps = [quarantine, COMMIT, ("dar profile:2 1", "DELETED")]
                self.assertEqual(self.write(*steps, mode=Mode.REFRESH), 8)

    def test_delta(self) -> None:
        txn = "invite 1 2 + invite 3 2"
        steps = [
            QUARANTINE,
            ("qareg pending:2 1", "GRANTED 6"),
            ("iqdelta npending:2 1 2", "GRANTED 7"),
            ("sql 1 " + txn, "COMMITTED 8"),
            ("dar profile:2 1", "DELETED"),
            ("dar pending:2 1", "DELETED"),
            ("iqcommit npending:2 1", "STORED"),
        ]
        self.assertEqual(self.write(*steps, mode=Mode.DELTA, txn=txn), 8)

    def test_held_already(self) -> None:
        steps = [("qareg profile:2 1", "HELD"), COMMIT, ("dar profile:2 1", "DELETED")]
        self.assertEqual(self.write(*steps), 8)

    def test_refused_and_then_granted(self) -> None:
        refused = [("qareg profile:2 1", "REFUSED 7 refresh"), ABORT, AGAIN]
        rest = second(QUARANTINE, COMMIT, ("dar profile:2 1", "DELETED"))
        self.assertEqual(self.write(*refused, *rest), 8)

    def test_refused_to_the_end(self) -> None:
        refused = [("qareg profile:2 1", "REFUSED 7 delta"), ABORT, WRITE]
        error = self.check_raises(RefusedError, *refused, *refused, *refused[:2])
        assert isinstance(error, RefusedError)
        self.assertEqual((error.key, error.holder, error.mode), ("profile:2", 7, Mode.DELTA))

    def test_the_waits_of_one_that_is_refused(self) -> None:
        waits = [list(WriteTries(9).waits()) for _ in range(50)]
        for several in waits:
            self.assertEqual(len(several), 8)
            for number, wait in enumerate(several):
                self.assertTrue(0 <= wait <= min(0.001 * 2**number, 0.1))
        self.assertGreater(len({several[-1] for several in waits}), 40)

    def test_ended_and_then_committed(self) -> None:
        ended = [QUARANTINE, (SQL, "ENDED"), ABORT, AGAIN]
        rest = second(QUARANTINE, COMMIT, ("dar profile:2 1", "DELETED"))
        self.assertEqual(self.write(*ended, *rest), 8)

    def test_ended_to_the_end(self) -> None:
        ended = [QUARANTINE, (SQL, "ENDED"), ABORT, WRITE]
        self.check_raises(EndedError, *ended, *ended, *ended[:3])

    def test_an_uncovered_key_is_quarantined_too(self) -> None:
        cover = [(SQL, "UNCOVERED friends:3"), ("qareg friends:3 1", "GRANTED 6")]
        release = [("dar profile:2 1", "DELETED"), ("dar friends:3 1", "NOT_FOUND")]
        self.assertEqual(self.write(QUARANTINE, *cover, COMMIT, *release), 8)

    def test_an_uncovered_key_that_is_refused(self) -> None:
        cover = [(SQL, "UNCOVERED friends:3"), ("qareg friends:3 1", "REFUSED 7 refresh")]
        rest = second(QUARANTINE, COMMIT, ("dar profile:2 1", "DELETED"))
        self.assertEqual(self.write(QUARANTINE, *cover, ABORT, AGAIN, *rest), 8)

    def test_uncovered_without_end(self) -> None:
        self.check_raises(ProtocolError, QUARANTINE, (SQL, "UNCOVERED profile:2"))

    def test_rejected(self) -> None:
        error = self.check_raises(RejectedError, QUARANTINE, (SQL, "REJECTED 0"), ABORT)
        assert isinstance(error, RejectedError)
        self.assertEqual((error.index, str(error)), (0, "change 0 doesn't apply: rename 2 bob"))
        self.check_raises(ProtocolError, QUARANTINE, (SQL, "REJECTED 1"))

    def test_errors_before_the_commit(self) -> None:
        for line, error in [
            ("SERVER_ERROR store", StoreError),
            ("SERVER_ERROR memory", OutOfMemoryError),
            ("SERVER_ERROR full", SpentError),
            ("CLIENT_ERROR not yours", CommandError),
        ]:
            with self.subTest(line):
                self.check_raises(error, QUARANTINE, (SQL, line), ABORT)
                self.check_raises(error, ("qareg profile:2 1", line), ABORT)

    def test_an_error_of_the_quarantine_and_one_of_its_end(self) -> None:
        self.check_raises(
            StoreError, ("qareg profile:2 1", "SERVER_ERROR store"), ("iqabort 1", "SERVER_ERROR store")
        )

    def test_not_known_whether_it_was_committed(self) -> None:
        for reply in (Cut(""), Cut("COMMITTED"), Hang(""), "HELLO"):
            with self.subTest(reply):
                self.check_raises(UnknownOutcomeError, QUARANTINE, (SQL, reply))

    def test_lost_before_the_commit(self) -> None:
        anew = [WRITE, QUARANTINE, COMMIT, ("dar profile:2 1", "DELETED")]
        losses: List[List[Tuple[str, str]]] = [
            [("begin write", Cut(""))],
            [WRITE, ("qareg profile:2 1", Cut("GRA"))],
        ]
        for lost in losses:
            with FakeServer(lost, anew) as server, Pool(server.address) as pool:
                self.assertEqual(pool.write("rename 2 bob"), 8)

    def test_late_before_the_commit(self) -> None:
        self.check_raises(ReadTimeoutError, ("qareg profile:2 1", Hang("GRA")))

    def test_the_commit_stands_whatever_follows(self) -> None:
        for reply in ("DELETED", "NOT_FOUND", Cut("DEL"), Hang(""), "HELLO"):
            with self.subTest(reply):
                self.assertEqual(self.write(QUARANTINE, COMMIT, ("dar profile:2 1", reply)), 8)
        for reply in ("RELEASED 1", "SERVER_ERROR store"):
            steps: Sequence[Step] = [("dar profile:2 1", "SERVER_ERROR memory"), ("iqabort 1", reply)]
            self.assertEqual(self.write(QUARANTINE, COMMIT, *steps), 8)

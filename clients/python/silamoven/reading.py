"""How a reader gets a key: from the cache, or from the store under a lease."""

from __future__ import annotations

from dataclasses import dataclass, replace
from enum import Enum
from time import sleep
from typing import Optional

from . import commands
from .connection import Connection
from .errors import NetworkError, ServerError
from .keys import Key
from .replies import Again, Lease, Stored, Value
from .waits import ReadTries


class Origin(Enum):
    """Where the answer to a read comes from."""

    HIT = "hit"
    """The cache."""

    STORED = "stored"
    """The store; the answer was left in the cache for others."""

    NOT_STORED = "not stored"
    """The store; the lease was void by then, so the cache refused the answer. It is right all the same."""

    ASKED = "asked"
    """The store, without a lease."""


@dataclass(frozen=True)
class Answer:
    """The answer to a key.

    Attributes:
        key: the key.
        data: the bytes of the value; `silamoven.values` says what they mean.
        stamp: a number of committed transactions. This is the key's answer after the first so many.
        origin: where it comes from.
    """

    key: Key
    data: bytes
    stamp: int
    origin: Origin

    @property
    def text(self) -> str:
        """The value as text."""
        return self.data.decode("ascii")


def ask(connection: Connection, key: Key) -> Answer:
    """Asks the store for its answer now, past the cache."""
    sid = connection.reading_session()
    value = connection.call(commands.ask(key, sid))
    return Answer(key, value.data, value.stamp, Origin.ASKED)


def read(connection: Connection, key: Key, floor: int, tries: ReadTries) -> Answer:
    """Reads a key.

    Args:
        connection: where to read it. Its present session is replaced if it isn't one that reads.
        key: what to read.
        floor: the least stamp that a hit may have.
        tries: how often to try where another one's lease or quarantine is in the way.
    """
    sid = connection.reading_session()
    waits = tries.waits()
    while True:
        reply = connection.call(commands.iqget(key, sid, floor))
        if isinstance(reply, Value):
            return Answer(key, reply.data, reply.stamp, Origin.HIT)
        if isinstance(reply, Lease):
            return _fill(connection, key, reply.token)
        wait: Optional[float] = next(waits, None)
        if wait is None or not isinstance(reply, Again):
            return ask(connection, key)
        sleep(wait)


def _fill(connection: Connection, key: Key, token: int) -> Answer:
    # Only what was asked for behind the lease may be stored, with the stamp that came with it.
    answer = ask(connection, key)
    stored = False
    if commands.fits(answer.data):
        try:
            reply = connection.call(commands.iqset(key, answer.data, token, answer.stamp))
            stored = isinstance(reply, Stored)
        except (NetworkError, ServerError):
            pass  # It is the store's answer, whatever became of the cache.
    return replace(answer, origin=Origin.STORED if stored else Origin.NOT_STORED)

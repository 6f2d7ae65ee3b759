"""How a writer commits: it quarantines each key, commits, and releases each key."""

from __future__ import annotations

from dataclasses import dataclass
from typing import Dict, Iterable, Optional, Union

from . import commands
from .changes import Txn
from .commands import Command, Quarantined, Role
from .connection import Connection
from .errors import (
    EndedError,
    NetworkError,
    ProtocolError,
    RefusedError,
    RejectedError,
    SilamovenError,
    UnknownOutcomeError,
    reply_error,
)
from .keys import Key
from .modes import Mode
from .replies import (
    Committed,
    Deleted,
    Ended,
    Failure,
    Granted,
    NotFound,
    Refused,
    Stored,
    Uncovered,
)
from .waits import WriteTries, again

_Release = Command[Union[Deleted, Stored, NotFound]]


def write(connection: Connection, txn: Txn, mode: Mode, tries: WriteTries) -> int:
    """Commits a transaction, and returns its number.

    Args:
        connection: where to commit it. Its present session is replaced.
        txn: the transaction.
        mode: what becomes of the cached values of the keys that it touches.
        tries: how often to try where other writers hold a key, or the session was ended.

    Raises:
        RefusedError, EndedError: at the last try. Nothing was committed.
        RejectedError: the transaction doesn't apply. Nothing was committed.
        ReplyError: the server answered by an error. Nothing was committed.
        UnknownOutcomeError: the connection broke after the commit was sent.
        NetworkError: it broke before. Nothing was committed.
    """
    return again(lambda: _Attempt(connection, txn, mode).run(), tries.waits(), (RefusedError, EndedError))


@dataclass(frozen=True)
class _Hold:
    """A quarantine that the session has, and what the cache had when it was granted."""

    mode: Mode
    old: Optional[bytes] = None


class _Attempt:
    """One session that writes, from its beginning to its end."""

    def __init__(self, connection: Connection, txn: Txn, mode: Mode) -> None:
        self._connection = connection
        self._txn = txn
        self._mode = mode
        self._holds: Dict[Key, _Hold] = {}
        self._sid = 0

    def run(self) -> int:
        """Commits, or raises with the session given up."""
        self._sid = self._connection.begin(Role.WRITE)
        try:
            self._quarantine(self._txn.keys())
            number = self._commit()
        except BaseException:
            self._connection.give_up()
            raise
        self._release()
        return number

    def _mode_of(self, key: Key) -> Mode:
        if self._mode is Mode.DELTA and not key.kind.is_count:
            return Mode.INVALIDATE
        return self._mode

    def _quarantine_of(self, key: Key) -> Command[Quarantined]:
        mode = self._mode_of(key)
        if mode is Mode.REFRESH:
            return commands.qaread(key, self._sid)
        if mode is Mode.DELTA:
            return commands.iqdelta(key, self._sid, self._txn.shift_of(key))
        return commands.qareg(key, self._sid)

    def _quarantine(self, keys: Iterable[Key]) -> None:
        keys = list(keys)
        # In one go: what is granted behind a refusal is given back with the rest.
        replies = self._connection.exchange([self._quarantine_of(key) for key in keys])
        for key, reply in zip(keys, replies):
            if isinstance(reply, Failure):
                raise reply_error(reply.line)
            if isinstance(reply, Refused):
                raise RefusedError(str(key), reply.holder, reply.mode)
            old = reply.old.data if isinstance(reply, Granted) and reply.old else None
            self._holds[key] = _Hold(self._mode_of(key), old)

    def _commit(self) -> int:
        while True:
            try:
                reply = self._connection.call(commands.sql(self._sid, self._txn))
            except NetworkError as broken:
                raise UnknownOutcomeError(f"sent {self._txn}, then: {broken}") from broken
            if isinstance(reply, Committed):
                return reply.number
            if isinstance(reply, Ended):
                raise EndedError(f"the session of {self._txn} was ended")
            if isinstance(reply, Uncovered):
                self._cover(reply.key)
            else:
                raise self._rejection(reply.index)

    def _rejection(self, index: int) -> SilamovenError:
        if index < len(self._txn.changes):
            return RejectedError(index, str(self._txn.changes[index]))
        self._connection.close()
        return ProtocolError(f"REJECTED {index} to {self._txn}")

    def _cover(self, text: str) -> None:
        key = Key.of(text)
        if key in self._holds:
            self._connection.close()
            raise ProtocolError(f"UNCOVERED {key}, which is in quarantine")
        self._quarantine([key])

    def _release_of(self, key: Key, hold: _Hold) -> _Release:
        if hold.mode is Mode.DELTA:
            return commands.iqcommit(key, self._sid)
        new = None if hold.old is None else self._txn.value_after(key, hold.old)
        if new is None or not commands.fits(new):
            return commands.dar(key, self._sid)
        return commands.sar(key, new, self._sid)

    def _release(self) -> None:
        # The commit is made whatever happens here. Where the connection breaks the server drops what is left.
        releases = [self._release_of(key, hold) for key, hold in self._holds.items()]
        try:
            if any(isinstance(it, Failure) for it in self._connection.exchange(releases)):
                self._connection.give_up()
        except NetworkError:
            pass

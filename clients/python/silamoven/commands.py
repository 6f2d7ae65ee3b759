"""The commands of the protocol: for each, the bytes that are sent and the replies that may come back."""

from __future__ import annotations

from abc import ABC, abstractmethod
from dataclasses import dataclass
from enum import Enum
from typing import Generic, Optional, Tuple, TypeVar, Union, cast

from .changes import Txn
from .errors import InvalidInputError, ProtocolError, ReplyError, reply_error
from .keys import Key
from .replies import (
    Again,
    Begun,
    Committed,
    Deleted,
    Ended,
    Failure,
    Granted,
    Held,
    Lease,
    NotFound,
    NotStored,
    Own,
    Refused,
    Rejected,
    Released,
    Reply,
    Source,
    Staged,
    Stored,
    Uncovered,
    Value,
    read_reply,
)

BIGGEST_BLOCK = 1_048_576
"""So many bytes a value has at most that a client sends."""

Quarantined = Union[Granted, Held, Refused]
"""What a request for a quarantine is answered."""

_R = TypeVar("_R", covariant=True)


class Role(Enum):
    """What a session is begun for."""

    READ = "read"
    WRITE = "write"


@dataclass(frozen=True)
class Request(ABC, Generic[_R]):
    """What can be sent on a connection: a `Command`, or a plain one.

    Attributes:
        data: the bytes to send.
    """

    data: bytes

    @abstractmethod
    def read(self, source: Source) -> Union[_R, Failure]:
        """Reads its reply.

        Raises:
            ProtocolError: what came is no reply to it.
            NetworkError: the source has no more bytes, or none in time.
        """

    @abstractmethod
    def error(self, reply: str) -> ReplyError:
        """The exception for a line by which it is answered an error."""


@dataclass(frozen=True)
class Command(Request[_R]):
    """A command of leases and sessions.

    Attributes:
        data: the bytes to send.
        replies: the types of its replies, besides `Failure`.
        key: the key of a value that it is told.
        with_old: whether a value, or `END` alone, follows behind `GRANTED`.
        begins: what it begins a session for, if it begins one.
    """

    replies: Tuple[type, ...]
    key: Optional[Key] = None
    with_old: bool = False
    begins: Optional[Role] = None

    def accepts(self, reply: Reply) -> bool:
        """Whether this is a reply to it, and tells no other key's value."""
        told = reply.old if isinstance(reply, Granted) else reply
        if isinstance(told, (Value, Staged)) and told.key != str(self.key):
            return False
        return isinstance(reply, self.replies)

    def read(self, source: Source) -> Union[_R, Failure]:
        reply: Reply = read_reply(source, with_old=self.with_old)
        if isinstance(reply, Failure):
            return reply
        if not self.accepts(reply):
            raise ProtocolError(f"{reply} to {self.data[:40]!r}")
        return cast(_R, reply)

    def error(self, reply: str) -> ReplyError:
        return reply_error(reply)


def _line(*words: object) -> bytes:
    return " ".join(map(str, words)).encode("ascii") + b"\r\n"


def fits(data: bytes) -> bool:
    """Whether a client may send this value."""
    return len(data) <= BIGGEST_BLOCK


def _with_block(verb: str, key: Key, data: bytes, *words: object) -> bytes:
    if not fits(data):
        raise InvalidInputError(f"a value of {len(data)} bytes, above {BIGGEST_BLOCK}")
    return _line(verb, key, 0, 0, len(data), *words) + data + b"\r\n"


def _quarantine(*words: object, old_of: Optional[Key] = None) -> Command[Quarantined]:
    return Command(_line(*words), (Granted, Held, Refused), old_of, with_old=old_of is not None)


def begin(role: Role) -> Command[Begun]:
    """Begins a session in place of the present one of the connection."""
    return Command(_line("begin", role.value), (Begun,), begins=role)


def iqget(key: Key, sid: int, floor: int) -> Command[Union[Value, Lease, Again, Own]]:
    """Gets a value whose stamp is at least the floor."""
    return Command(_line("iqget", key, sid, floor), (Value, Lease, Again, Own), key)


def ask(key: Key, sid: int) -> Command[Value]:
    """Asks the store for its answer now."""
    return Command(_line("ask", key, sid), (Value,), key)


def iqset(key: Key, data: bytes, token: int, stamp: int) -> Command[Union[Stored, NotStored]]:
    """Stores under a lease what the store answered, with the stamp that it told."""
    return Command(_with_block("iqset", key, data, token, stamp), (Stored, NotStored))


def qareg(key: Key, sid: int) -> Command[Quarantined]:
    """Quarantines a key, to drop its value."""
    return _quarantine("qareg", key, sid)


def qaread(key: Key, sid: int) -> Command[Quarantined]:
    """Quarantines a key and reads what the cache has, to put a new value in its place."""
    return _quarantine("qaread", key, sid, old_of=key)


def iqdelta(key: Key, sid: int, by: int) -> Command[Quarantined]:
    """Quarantines a count, to shift it."""
    return _quarantine("iqdelta", key, sid, by)


def stage(key: Key, sid: int, txn: Txn) -> Command[Union[Staged, Rejected]]:
    """Asks the store what its answer would be behind the transaction."""
    return Command(_line("stage", key, sid, txn), (Staged, Rejected), key)


def sql(sid: int, txn: Txn) -> Command[Union[Committed, Ended, Uncovered, Rejected]]:
    """Commits a transaction."""
    return Command(_line("sql", sid, txn), (Committed, Ended, Uncovered, Rejected))


def dar(key: Key, sid: int) -> Command[Union[Deleted, NotFound]]:
    """Drops a value and ends its quarantine."""
    return Command(_line("dar", key, sid), (Deleted, NotFound))


def sar(key: Key, data: bytes, sid: int) -> Command[Union[Stored, NotFound]]:
    """Puts a new value in place of the old one, and ends its quarantine."""
    return Command(_with_block("sar", key, data, sid), (Stored, NotFound))


def iqcommit(key: Key, sid: int) -> Command[Union[Stored, NotFound]]:
    """Shifts a count, and ends its quarantine."""
    return Command(_line("iqcommit", key, sid), (Stored, NotFound))


def iqabort(sid: int) -> Command[Released]:
    """Gives a session up, or ends what it still holds behind its commit."""
    return Command(_line("iqabort", sid), (Released,))


QUIT = b"quit\r\n"
"""Ends the connection. There is no reply."""

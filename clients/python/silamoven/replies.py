"""The replies of the server, and how they are read. No socket is known here: bytes come from a `Source`."""

from __future__ import annotations

from dataclasses import dataclass
from enum import Enum
from typing import Callable, Dict, List, Optional, Protocol, TypeVar, Union

from .errors import ProtocolError
from .keys import check_number, is_decimal
from .modes import Mode

BIGGEST_VALUE = 1 << 26
"""A reply that tells more bytes of a value than this is taken for garbage."""

_T = TypeVar("_T")


class Source(Protocol):
    """Where the bytes of replies come from. Both calls may raise a NetworkError."""

    def line(self) -> bytes:
        """The next line, without the CR LF that ends it."""

    def exactly(self, count: int) -> bytes:
        """The next so many bytes."""


class Standing(Enum):
    """What is in the way of a reader."""

    LEASE = "I"
    """Another reader's lease."""

    QUARANTINE = "Q"
    """A writer's quarantine."""


@dataclass(frozen=True)
class Begun:
    """`SESSION`: a session has begun, of this number."""

    sid: int


@dataclass(frozen=True)
class Value:
    """`VALUE` with a stamp: the key's answer after so many commits."""

    key: str
    data: bytes
    stamp: int


@dataclass(frozen=True)
class Staged:
    """`VALUE` without a stamp: what the key's answer would be behind a transaction."""

    key: str
    data: bytes


@dataclass(frozen=True)
class Lease:
    """`LEASE`: the key has no value that is new enough, and the token allows to store one."""

    token: int


@dataclass(frozen=True)
class Again:
    """`AGAIN`: something is in the way, so wait and get again."""

    standing: Standing


@dataclass(frozen=True)
class Own:
    """`OWN`: the session itself has the key in quarantine."""


@dataclass(frozen=True)
class Stored:
    """`STORED`: the value was stored, or the count was shifted."""


@dataclass(frozen=True)
class NotStored:
    """`NOT_STORED`: the lease has ended, and nothing was stored."""


@dataclass(frozen=True)
class Granted:
    """`GRANTED`: the key is in quarantine; `old` is what the cache has, if that was asked for and is there."""

    token: int
    old: Optional[Value] = None


@dataclass(frozen=True)
class Held:
    """`HELD`: the session has this quarantine already."""


@dataclass(frozen=True)
class Refused:
    """`REFUSED`: the quarantine of another session is in the way."""

    holder: int
    mode: Mode


@dataclass(frozen=True)
class Committed:
    """`COMMITTED`: the transaction is the one of this number."""

    number: int


@dataclass(frozen=True)
class Ended:
    """`ENDED`: the session was ended before its commit."""


@dataclass(frozen=True)
class Uncovered:
    """`UNCOVERED`: the transaction touches a key that isn't in quarantine."""

    key: str


@dataclass(frozen=True)
class Rejected:
    """`REJECTED`: the change at this place, from 0, doesn't apply."""

    index: int


@dataclass(frozen=True)
class Deleted:
    """`DELETED`: the quarantine has ended, and the value was dropped."""


@dataclass(frozen=True)
class NotFound:
    """`NOT_FOUND`: the quarantine had ended before, and the value was dropped then."""


@dataclass(frozen=True)
class Released:
    """`RELEASED`: the session is over; so many of its quarantines stood."""

    count: int


@dataclass(frozen=True)
class Failure:
    """`ERROR`, `CLIENT_ERROR` or `SERVER_ERROR`: the whole line."""

    line: str


Reply = Union[
    Begun,
    Value,
    Staged,
    Lease,
    Again,
    Own,
    Stored,
    NotStored,
    Granted,
    Held,
    Refused,
    Committed,
    Ended,
    Uncovered,
    Rejected,
    Deleted,
    NotFound,
    Released,
    Failure,
]


def _number(word: str) -> int:
    if not is_decimal(word):
        raise ValueError(word)
    return check_number(int(word))


# What the words behind the first word of a line say. A wrong count of words is a ValueError as a wrong word is.
def _alone(reply: Reply) -> Callable[[List[str]], Reply]:
    def read(words: List[str]) -> Reply:
        () = words
        return reply

    return read


def _of_one(make: Callable[[_T], Reply], meaning: Callable[[str], _T]) -> Callable[[List[str]], Reply]:
    def read(words: List[str]) -> Reply:
        (word,) = words
        return make(meaning(word))

    return read


def _refused(words: List[str]) -> Reply:
    holder, mode = words
    return Refused(_number(holder), Mode(mode))


_BY_WORD: Dict[str, Callable[[List[str]], Reply]] = {
    "SESSION": _of_one(Begun, _number),
    "LEASE": _of_one(Lease, _number),
    "AGAIN": _of_one(Again, Standing),
    "OWN": _alone(Own()),
    "STORED": _alone(Stored()),
    "NOT_STORED": _alone(NotStored()),
    "GRANTED": _of_one(Granted, _number),
    "HELD": _alone(Held()),
    "REFUSED": _refused,
    "COMMITTED": _of_one(Committed, _number),
    "ENDED": _alone(Ended()),
    "UNCOVERED": _of_one(Uncovered, str),
    "REJECTED": _of_one(Rejected, _number),
    "DELETED": _alone(Deleted()),
    "NOT_FOUND": _alone(NotFound()),
    "RELEASED": _of_one(Released, _number),
}

_FAILURES = (b"ERROR", b"CLIENT_ERROR", b"SERVER_ERROR")


def failure_of(line: bytes) -> Optional[Failure]:
    """The error that the line tells, if it tells one."""
    if line.split(b" ")[0] in _FAILURES and line.isascii():
        return Failure(line.decode("ascii"))
    return None


def read_reply(source: Source, *, with_old: bool = False) -> Reply:
    """Reads one reply.

    Args:
        source: where its bytes come from.
        with_old: whether the value that the cache has, or `END` alone, follows behind `GRANTED`.

    Raises:
        ProtocolError: the bytes are no reply.
        NetworkError: the source has no more bytes, or none in time.
    """
    line = source.line()
    failure = failure_of(line)
    if failure is not None:
        return failure
    try:
        word, *words = line.decode("ascii").split(" ")
        if word == "VALUE":
            return _read_value(source, words)
        reply = _BY_WORD[word](words)
    except (KeyError, ValueError):
        raise ProtocolError(f"no reply: {line[:100]!r}") from None
    if with_old and isinstance(reply, Granted):
        return Granted(reply.token, _read_old(source))
    return reply


def _read_old(source: Source) -> Optional[Value]:
    line = source.line()
    if line == b"END":
        return None
    try:
        word, *words = line.decode("ascii").split(" ")
        old = _read_value(source, words) if word == "VALUE" else None
    except ValueError:
        old = None
    if not isinstance(old, Value):
        raise ProtocolError(f"neither a value with stamp nor END: {line[:100]!r}")
    return old


def _read_value(source: Source, words: List[str]) -> Union[Value, Staged]:
    key, flags, size, *stamps = words
    if flags != "0" or len(stamps) > 1 or _number(size) > BIGGEST_VALUE:
        raise ValueError(words)
    numbers = [_number(word) for word in stamps]
    data = source.exactly(int(size))
    if source.exactly(2) != b"\r\n" or source.line() != b"END":
        raise ProtocolError(f"the value of {key} doesn't end where it should")
    return Value(key, data, numbers[0]) if numbers else Staged(key, data)

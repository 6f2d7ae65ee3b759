"""What the values of the cache mean: they are short texts, and these are the same as Python's own."""

from __future__ import annotations

from dataclasses import dataclass
from typing import Iterable, Optional, Tuple

from .errors import InvalidInputError


def _number(text: bytes) -> int:
    if not text.isdigit():
        raise InvalidInputError(f"no number: {text!r}")
    return int(text)


@dataclass(frozen=True)
class Profile:
    """The answer to ``profile:<id>``."""

    name: str
    friends: int
    pending: int

    @classmethod
    def parse(cls, data: bytes) -> Optional[Profile]:
        """The profile that the value is; `None` where there is no such member.

        Raises:
            InvalidInputError: the value is no profile.
        """
        if data == b"-":
            return None
        words = data.split(b" ")
        if len(words) != 3 or not data.isascii():
            raise InvalidInputError(f"no profile: {data!r}")
        return cls(words[0].decode("ascii"), _number(words[1]), _number(words[2]))

    def encode(self) -> bytes:
        """The value that is this profile."""
        return f"{self.name} {self.friends} {self.pending}".encode("ascii")


def parse_ids(data: bytes) -> Tuple[int, ...]:
    """The ids that the value of ``friends:<id>``, ``pending:<id>`` or ``blocked:<id>`` lists, ascending.

    Raises:
        InvalidInputError: the value is no such list.
    """
    return tuple(_number(word) for word in data.split(b",")) if data else ()


def encode_ids(ids: Iterable[int]) -> bytes:
    """The value that lists these ids."""
    return ",".join(map(str, sorted(ids))).encode("ascii")


def parse_count(data: bytes) -> int:
    """The number that the value of ``nfriends:<id>`` or ``npending:<id>`` is.

    Raises:
        InvalidInputError: the value is no number.
    """
    return _number(data)

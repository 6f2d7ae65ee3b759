"""The keys of the cache."""

from __future__ import annotations

from dataclasses import dataclass
from enum import Enum
from typing import Tuple, Union

from .errors import InvalidInputError

MOST_ID = 4_294_967_295
"""The greatest id of a member."""


class Kind(Enum):
    """What a key asks of a member. The order is the one in which a writer quarantines."""

    PROFILE = "profile"
    """Name, number of friends, number of pending invitations."""

    FRIENDS = "friends"
    """The ids of the friends."""

    PENDING = "pending"
    """The ids of those whose invitation is pending."""

    NFRIENDS = "nfriends"
    """How many friends."""

    NPENDING = "npending"
    """How many pending invitations."""

    BLOCKED = "blocked"
    """The ids of those whom the member has blocked."""

    @property
    def is_count(self) -> bool:
        """Whether the answer is a number, which a writer can shift without reading it."""
        return self in (Kind.NFRIENDS, Kind.NPENDING)


_PLACES = {kind: place for place, kind in enumerate(Kind)}


def is_decimal(text: str) -> bool:
    """Whether the text is decimal digits, one at least."""
    return text.isascii() and text.isdigit()


def id_of(text: str) -> int:
    """The id of a member that the text is: from 1 to `MOST_ID`, without sign or leading zero.

    Raises:
        InvalidInputError: the text is no id.
    """
    if is_decimal(text) and text[0] != "0" and int(text) <= MOST_ID:
        return int(text)
    raise InvalidInputError(f"no id of a member: {text!r}")


def check_id(member: int) -> None:
    """Raises InvalidInputError where the number is no id of a member."""
    if not 1 <= member <= MOST_ID:
        raise InvalidInputError(f"no id of a member: {member}")


def check_number(number: int) -> int:
    """The number, which may be a stamp: from 0, and below 2^64.

    Raises:
        InvalidInputError: it may not.
    """
    if 0 <= number < 1 << 64:
        return number
    raise InvalidInputError(f"no number of commits: {number}")


@dataclass(frozen=True)
class Key:
    """A key: what is asked, and of which member. Its text is as ``profile:2``."""

    kind: Kind
    member: int

    def __post_init__(self) -> None:
        check_id(self.member)

    def __str__(self) -> str:
        return f"{self.kind.value}:{self.member}"

    @property
    def place(self) -> Tuple[int, int]:
        """What keys are ordered by: the kind, then the member."""
        return (_PLACES[self.kind], self.member)

    @classmethod
    def of(cls, key: Union[Key, str]) -> Key:
        """The key, or the key of which this is the text.

        Raises:
            InvalidInputError: the text is no key.
        """
        if isinstance(key, Key):
            return key
        kind, colon, member = key.partition(":")
        try:
            return cls(Kind(kind), id_of(member))
        except ValueError:
            raise InvalidInputError(f"no key: {key!r}") from None

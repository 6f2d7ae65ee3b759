"""Changes and transactions, the keys that they touch, and what they make of the values of these.

What a change does to each member is said once, in its `effects`. All else follows from these: which keys a
writer has to quarantine, by how much a count is shifted, and what a cached value becomes.
"""

from __future__ import annotations

from abc import ABC, abstractmethod
from dataclasses import dataclass, replace
from typing import Callable, Dict, Iterable, List, Optional, Tuple, Union

from .errors import InvalidInputError
from .keys import Key, Kind, check_id, id_of
from .values import Profile, encode_ids, parse_count, parse_ids

MOST_CHANGES = 8
"""So many changes a transaction has at most."""

LONGEST_NAME = 40
"""So many characters a name has at most."""

_COUNTS = {Kind.FRIENDS: Kind.NFRIENDS, Kind.PENDING: Kind.NPENDING}


@dataclass(frozen=True)
class Listed:
    """An id comes into a list of a member, or goes from it.

    Attributes:
        member: whose list it is.
        kind: which list, `Kind.FRIENDS`, `Kind.PENDING` or `Kind.BLOCKED`.
        other: the id.
        by: 1 where it comes, -1 where it goes.
    """

    member: int
    kind: Kind
    other: int
    by: int

    def keys(self) -> Tuple[Key, ...]:
        """The keys whose answers this may alter. A profile and the counts say nothing of blocks."""
        counted = (Kind.PROFILE, _COUNTS[self.kind]) if self.kind in _COUNTS else ()
        return tuple(Key(kind, self.member) for kind in (self.kind, *counted))


@dataclass(frozen=True)
class Named:
    """A member has a new name."""

    member: int
    name: str

    def keys(self) -> Tuple[Key, ...]:
        """The keys whose answers this may alter."""
        return (Key(Kind.PROFILE, self.member),)


Effect = Union[Listed, Named]


class Change(ABC):
    """One change of the rows. Its text is as ``invite 1 2``."""

    @abstractmethod
    def effects(self) -> Tuple[Effect, ...]:
        """What it does to each member, if it applies."""


@dataclass(frozen=True)
class _OfTwo(Change):
    """A change between two members."""

    a: int
    b: int

    def __post_init__(self) -> None:
        check_id(self.a)
        check_id(self.b)

    def __str__(self) -> str:
        return f"{type(self).__name__.lower()} {self.a} {self.b}"

    def _befriend(self, by: int) -> Tuple[Effect, ...]:
        return (Listed(self.a, Kind.FRIENDS, self.b, by), Listed(self.b, Kind.FRIENDS, self.a, by))


@dataclass(frozen=True)
class Invite(_OfTwo):
    """Member a invites member b. Applies where no link and no block is between them."""

    def effects(self) -> Tuple[Effect, ...]:
        return (Listed(self.b, Kind.PENDING, self.a, 1),)


@dataclass(frozen=True)
class Accept(_OfTwo):
    """Member b accepts the invitation of a. Applies where it is pending."""

    def effects(self) -> Tuple[Effect, ...]:
        return (Listed(self.b, Kind.PENDING, self.a, -1), *self._befriend(1))


@dataclass(frozen=True)
class Reject(_OfTwo):
    """Member b rejects the invitation of a. Applies where it is pending."""

    def effects(self) -> Tuple[Effect, ...]:
        return (Listed(self.b, Kind.PENDING, self.a, -1),)


@dataclass(frozen=True)
class Thaw(_OfTwo):
    """Members a and b are friends no longer. Applies where they are."""

    def effects(self) -> Tuple[Effect, ...]:
        return self._befriend(-1)


@dataclass(frozen=True)
class Block(_OfTwo):
    """Member a blocks member b. Applies where no link is between them and a hasn't blocked b."""

    def effects(self) -> Tuple[Effect, ...]:
        return (Listed(self.a, Kind.BLOCKED, self.b, 1),)


@dataclass(frozen=True)
class Rename(Change):
    """Member a has a new name: 1 to 40 printable ASCII characters without a space."""

    a: int
    name: str

    def __post_init__(self) -> None:
        check_id(self.a)
        printable = self.name.isascii() and self.name.isprintable() and " " not in self.name
        if not printable or not 1 <= len(self.name) <= LONGEST_NAME:
            raise InvalidInputError(f"no name: {self.name!r}")

    def __str__(self) -> str:
        return f"rename {self.a} {self.name}"

    def effects(self) -> Tuple[Effect, ...]:
        return (Named(self.a, self.name),)


_OF_TWO: Dict[str, Callable[[int, int], Change]] = {
    kind.__name__.lower(): kind for kind in (Invite, Accept, Reject, Thaw, Block)
}


def _change_of(words: List[str]) -> Change:
    if len(words) == 3 and words[0] == "rename":
        return Rename(id_of(words[1]), words[2])
    if len(words) == 3 and words[0] in _OF_TWO:
        return _OF_TWO[words[0]](id_of(words[1]), id_of(words[2]))
    raise InvalidInputError(f"no change: {' '.join(words)!r}")


@dataclass(frozen=True)
class Txn:
    """A transaction: 1 to 8 changes that are made whole or not at all.

    Its text has `` + `` between the changes, as ``accept 1 2 + rename 2 bob``.
    """

    changes: Tuple[Change, ...]

    def __post_init__(self) -> None:
        if not 1 <= len(self.changes) <= MOST_CHANGES:
            raise InvalidInputError(f"a transaction has 1 to {MOST_CHANGES} changes")

    def __str__(self) -> str:
        return " + ".join(map(str, self.changes))

    @classmethod
    def of(cls, txn: AnyTxn) -> Txn:
        """The transaction, or that of one change, of some changes, or of a text.

        Raises:
            InvalidInputError: the text is no transaction, or there are too many changes, or none.
        """
        if isinstance(txn, Txn):
            return txn
        if isinstance(txn, str):
            return cls._parse(txn)
        return cls((txn,) if isinstance(txn, Change) else tuple(txn))

    @classmethod
    def _parse(cls, text: str) -> Txn:
        # A name may be a plus, so the places tell what is a change and what stands between two.
        words = [word for word in text.split(" ") if word]
        if len(words) % 4 != 3 or any(plus != "+" for plus in words[3::4]):
            raise InvalidInputError(f"no transaction: {text!r}")
        return cls(tuple(_change_of(words[at : at + 3]) for at in range(0, len(words), 4)))

    def effects(self) -> Tuple[Effect, ...]:
        """What its changes do, in their order."""
        return tuple(effect for change in self.changes for effect in change.effects())

    def keys(self) -> Tuple[Key, ...]:
        """The keys that it touches, in the order in which a writer quarantines them."""
        keys = {key for effect in self.effects() for key in effect.keys()}
        return tuple(sorted(keys, key=lambda key: key.place))

    def shift_of(self, key: Key) -> int:
        """What it adds to a count."""
        return sum(
            effect.by
            for effect in self.effects()
            if isinstance(effect, Listed)
            and effect.member == key.member
            and _COUNTS.get(effect.kind) == key.kind
        )

    def value_after(self, key: Key, old: bytes) -> Optional[bytes]:
        """What it makes of the value of a key, where it applies; `None` where that can't be told."""
        effects = [effect for effect in self.effects() if effect.member == key.member]
        try:
            if key.kind is Kind.PROFILE:
                return _profile_after(effects, old)
            if key.kind.is_count:
                count = parse_count(old) + self.shift_of(key)
                return str(count).encode("ascii") if count >= 0 else None
            return _ids_after(effects, key.kind, old)
        except InvalidInputError:
            return None


AnyTxn = Union[Txn, Change, str, Iterable[Change]]
"""What a transaction may be given as: itself, one change, some changes, or a text."""


def _profile_after(effects: Iterable[Effect], old: bytes) -> Optional[bytes]:
    profile = Profile.parse(old)
    if profile is None:
        return None
    for effect in effects:
        if isinstance(effect, Named):
            profile = replace(profile, name=effect.name)
        elif isinstance(effect, Listed) and effect.kind is Kind.FRIENDS:
            profile = replace(profile, friends=profile.friends + effect.by)
        elif isinstance(effect, Listed) and effect.kind is Kind.PENDING:
            profile = replace(profile, pending=profile.pending + effect.by)
    return profile.encode() if profile.friends >= 0 and profile.pending >= 0 else None


def _ids_after(effects: Iterable[Effect], kind: Kind, old: bytes) -> Optional[bytes]:
    ids = set(parse_ids(old))
    for effect in effects:
        if isinstance(effect, Listed) and effect.kind is kind:
            if (effect.other in ids) == (effect.by > 0):
                return None
            ids ^= {effect.other}
    return encode_ids(ids)

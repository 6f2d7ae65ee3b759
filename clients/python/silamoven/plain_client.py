"""memcached's own commands, under the names that pymemcache has."""

from __future__ import annotations

from abc import ABC, abstractmethod
from typing import (
    TYPE_CHECKING,
    Callable,
    Dict,
    Iterable,
    Iterator,
    List,
    Optional,
    Sequence,
    Tuple,
    TypeVar,
    Union,
)

from . import plain
from .errors import NetworkError, UnknownOutcomeError
from .plain import Data, Item, PlainCommand, PlainKey
from .replies import Failure

if TYPE_CHECKING:
    from .connection import Connection

_D = TypeVar("_D")
_K = TypeVar("_K", bound=PlainKey)
_R = TypeVar("_R")
_T = TypeVar("_T")
_U = TypeVar("_U")

_Look = Callable[[Iterable[PlainKey]], PlainCommand[Tuple[Item, ...]]]

_AT_ONCE = 16_384
"""So many bytes of commands are sent in one go at most, before their replies are read."""


class PlainClient(ABC):
    """What a `Pool` and a `Connection` have of memcached's own commands.

    The items are no part of the store: leases, stamps and sessions say nothing of them. A key is a text or bytes,
    and no key of the cache. What is got is bytes. `noreply` has the server tell nothing, errors neither; then True
    comes back at once, or None for a number.

    Each of the methods raises:
        InvalidInputError: a key, a value or a number isn't of its form. Nothing was sent.
        ExpiryError: a time of expiry other than 0 was given. Nothing was sent.
        QueryKeyError: a key is one of the cache.
        NotANumberError: `incr` or `decr` of an item that is no number.
        FullError: there is no room for the item.
        ReplyError: the server answered by another error. All items are as before.
        UnknownOutcomeError: the connection broke after a command was sent that may change an item. It may have been
            done, so it isn't tried again.
        NetworkError: the server couldn't be reached, or a command that gets items was told no whole reply.
        PoolError: no connection could be lent.
    """

    @abstractmethod
    def _on_connection(self, work: Callable[[Connection], _T]) -> _T:
        """Does the work on a connection, and perhaps again on another one where it is lost."""

    def get(self, key: PlainKey, default: Optional[_D] = None) -> Union[bytes, Optional[_D]]:
        """The value of a key, or the default where it has no item."""
        found = self._look([key], plain.get).get(key)
        return default if found is None else found.data

    def gets(
        self, key: PlainKey, default: Optional[_D] = None, cas_default: Optional[_U] = None
    ) -> Tuple[Union[bytes, Optional[_D]], Union[int, Optional[_U]]]:
        """The value of a key and the unique that `cas` takes, or the defaults where it has no item."""
        found = self._look([key], plain.gets).get(key)
        return (default, cas_default) if found is None else (found.data, found.unique)

    def get_many(self, keys: Iterable[_K]) -> Dict[_K, bytes]:
        """The values of those of the keys that have an item. They aren't got at one moment if they are many."""
        return {key: item.data for key, item in self._look(keys, plain.get).items()}

    get_multi = get_many

    def gets_many(self, keys: Iterable[_K]) -> Dict[_K, Tuple[bytes, int]]:
        """The values and the uniques of those of the keys that have an item."""
        return {key: (item.data, item.unique or 0) for key, item in self._look(keys, plain.gets).items()}

    def set(
        self, key: PlainKey, value: Data, expire: int = 0, noreply: bool = False, flags: Optional[int] = None
    ) -> bool:
        """Stores an item, whatever the key has. It returns True."""
        return self._change(plain.set(key, value, flags or 0, expire), noreply, True)

    def add(
        self, key: PlainKey, value: Data, expire: int = 0, noreply: bool = False, flags: Optional[int] = None
    ) -> bool:
        """Stores an item where the key has none, and tells whether it did."""
        return self._change(plain.add(key, value, flags or 0, expire), noreply, True)

    def replace(
        self, key: PlainKey, value: Data, expire: int = 0, noreply: bool = False, flags: Optional[int] = None
    ) -> bool:
        """Stores an item where the key has one, and tells whether it did."""
        return self._change(plain.replace(key, value, flags or 0, expire), noreply, True)

    def cas(
        self,
        key: PlainKey,
        value: Data,
        cas: int,
        expire: int = 0,
        noreply: bool = False,
        flags: Optional[int] = None,
    ) -> Optional[bool]:
        """Stores an item where nobody has changed the one of that unique; None where the key has none."""
        return self._change(plain.cas(key, value, cas, flags or 0, expire), noreply, True)

    def delete(self, key: PlainKey, noreply: bool = False) -> bool:
        """Drops the item of a key, and tells whether it had one."""
        return self._change(plain.delete(key), noreply, True)

    def incr(self, key: PlainKey, value: int, noreply: bool = False) -> Optional[int]:
        """Adds to a number, and returns it; None where the key has no item. It wraps at 2^64."""
        return self._change(plain.incr(key, value), noreply, None)

    def decr(self, key: PlainKey, value: int, noreply: bool = False) -> Optional[int]:
        """Takes from a number, and returns it; None where the key has no item. It stops at 0."""
        return self._change(plain.decr(key, value), noreply, None)

    def _look(self, keys: Iterable[_K], look: _Look) -> Dict[_K, Item]:
        asked = {key: plain.key_bytes(key) for key in keys}
        commands = [look(line) for line in plain.in_lines(dict.fromkeys(asked.values()))]
        found: Dict[bytes, Item] = {}
        for several in _rounds(commands):
            for items in self._on_connection(lambda it: _fetch(it, several)):
                found.update((item.key, item) for item in items)
        return {key: found[data] for key, data in asked.items() if data in found}

    def _change(self, command: PlainCommand[_R], noreply: bool, quiet: _R) -> _R:
        if not noreply:
            return self._on_connection(lambda it: _once(it, command, lambda: it.call(command)))
        self._on_connection(lambda it: _once(it, command, lambda: it.send(command.quiet_data)))
        return quiet


def _rounds(commands: Iterable[PlainCommand[_R]]) -> Iterator[List[PlainCommand[_R]]]:
    """The commands, as many at a time as are sent in one go: who sends on and on and reads nothing gets stuck."""
    several: List[PlainCommand[_R]] = []
    length = 0
    for command in commands:
        if several and length + len(command.data) > _AT_ONCE:
            yield several
            several, length = [], 0
        several.append(command)
        length += len(command.data)
    if several:
        yield several


def _fetch(connection: Connection, several: Sequence[PlainCommand[_R]]) -> List[_R]:
    got: List[_R] = []
    for command, reply in zip(several, connection.exchange(several)):
        if isinstance(reply, Failure):
            raise command.error(reply.line)
        got.append(reply)
    return got


def _once(connection: Connection, command: PlainCommand[_R], say: Callable[[], _T]) -> _T:
    """Says a command that may change an item. Once it was sent nobody may try it again."""
    was_closed = connection.is_closed
    try:
        return say()
    except NetworkError as broken:
        if was_closed:
            raise
        raise UnknownOutcomeError(f"sent {command.name}, then: {broken}") from broken

"""memcached's own commands: for each, the bytes that are sent, and what its replies mean. No socket is used."""

from __future__ import annotations

import re
from dataclasses import dataclass
from typing import Callable, Iterable, Iterator, List, Mapping, Optional, Sequence, Tuple, TypeVar, Union

from .commands import BIGGEST_BLOCK, Request, fits
from .errors import ExpiryError, InvalidInputError, ProtocolError, ReplyError, plain_error
from .replies import BIGGEST_VALUE, Failure, Source, failure_of

PlainKey = Union[str, bytes]
"""A key of an item. A text stands for its bytes in UTF-8."""

Data = Union[bytes, str, int]
"""What can be stored. A text is stored in UTF-8, and a number as its digits."""

LONGEST_KEY = 250
"""So many bytes a key has at most."""

LONGEST_LINE = 2048
"""So many bytes a line has at most, without its end."""

MOST_KEYS = 64
"""So many keys one command asks for at most. The server keeps the items of a reply until it is written."""

_NO_KEY_BYTE = re.compile(rb"[\x00-\x20\x7f]")

_R = TypeVar("_R", covariant=True)
_T = TypeVar("_T")


@dataclass(frozen=True)
class Item:
    """An item, as the server tells it.

    Attributes:
        key: its key.
        data: its value.
        flags: the number that was stored with it.
        unique: the number of the change that stored it; `None` where it was got without that.
    """

    key: bytes
    data: bytes
    flags: int
    unique: Optional[int] = None


@dataclass(frozen=True)
class PlainCommand(Request[_R]):
    """A plain command.

    Attributes:
        quiet_data: the bytes to send where no reply is wanted.
        name: its verb and its first key.
        reader: reads its reply.
    """

    quiet_data: bytes
    name: str
    reader: Callable[[Source], Union[_R, Failure]]

    def read(self, source: Source) -> Union[_R, Failure]:
        return self.reader(source)

    def error(self, reply: str) -> ReplyError:
        return plain_error(reply)


def key_bytes(key: PlainKey) -> bytes:
    """The bytes of a key: 1 to 250, none a space or a control character.

    Raises:
        InvalidInputError: they aren't so. Whether they name a key of the cache is the server's to tell.
    """
    data = _utf8(key) if isinstance(key, str) else key
    if not isinstance(data, bytes) or not 1 <= len(data) <= LONGEST_KEY:
        raise InvalidInputError(f"no key of 1 to {LONGEST_KEY} bytes: {key!r}")
    if _NO_KEY_BYTE.search(data):
        raise InvalidInputError(f"a space or a control character is in the key {key!r}")
    return data


def value_bytes(value: Data) -> bytes:
    """The bytes that are stored for a value.

    Raises:
        InvalidInputError: it is of another type, or has too many bytes.
    """
    if isinstance(value, bytes):
        data = value
    elif isinstance(value, (str, int)):
        data = _utf8(str(value))
    else:
        raise InvalidInputError(f"neither bytes nor a text nor a number: {value!r}")
    if not fits(data):
        raise InvalidInputError(f"a value of {len(data)} bytes, above {BIGGEST_BLOCK}")
    return data


def get(keys: Iterable[PlainKey]) -> PlainCommand[Tuple[Item, ...]]:
    """Gets the items of keys that fit on one line."""
    return _lookup(b"get", tuple(map(key_bytes, keys)))


def gets(keys: Iterable[PlainKey]) -> PlainCommand[Tuple[Item, ...]]:
    """Gets the items of keys that fit on one line, with their uniques."""
    return _lookup(b"gets", tuple(map(key_bytes, keys)))


def in_lines(keys: Iterable[bytes]) -> Iterator[List[bytes]]:
    """The keys, as many at a time as one command may ask for."""
    line: List[bytes] = []
    length = len(b"gets")
    for key in keys:
        if line and (len(line) == MOST_KEYS or length + 1 + len(key) > LONGEST_LINE):
            yield line
            line, length = [], len(b"gets")
        line.append(key)
        length += 1 + len(key)
    if line:
        yield line


def set(key: PlainKey, value: Data, flags: int = 0, expire: int = 0) -> PlainCommand[bool]:
    """Stores an item, whatever the key has."""
    return _storage(b"set", key, value, flags, expire, {b"STORED": True})


def add(key: PlainKey, value: Data, flags: int = 0, expire: int = 0) -> PlainCommand[bool]:
    """Stores an item where the key has none."""
    return _storage(b"add", key, value, flags, expire, {b"STORED": True, b"NOT_STORED": False})


def replace(key: PlainKey, value: Data, flags: int = 0, expire: int = 0) -> PlainCommand[bool]:
    """Stores an item where the key has one."""
    return _storage(b"replace", key, value, flags, expire, {b"STORED": True, b"NOT_STORED": False})


def cas(
    key: PlainKey, value: Data, unique: int, flags: int = 0, expire: int = 0
) -> PlainCommand[Optional[bool]]:
    """Stores an item where the one that the key has is of this unique."""
    means = {b"STORED": True, b"EXISTS": False, b"NOT_FOUND": None}
    return _storage(b"cas", key, value, flags, expire, means, _number(unique, 64))


def delete(key: PlainKey) -> PlainCommand[bool]:
    """Drops the item of a key."""
    return _command((b"delete", key_bytes(key)), _one_of({b"DELETED": True, b"NOT_FOUND": False}))


def incr(key: PlainKey, by: int) -> PlainCommand[Optional[int]]:
    """Adds to the number that the item of a key is. It wraps at 2^64."""
    return _command((b"incr", key_bytes(key), _number(by, 64)), _read_count)


def decr(key: PlainKey, by: int) -> PlainCommand[Optional[int]]:
    """Takes from the number that the item of a key is. It stops at 0."""
    return _command((b"decr", key_bytes(key), _number(by, 64)), _read_count)


def _utf8(text: str) -> bytes:
    try:
        return text.encode("utf-8")
    except UnicodeEncodeError:
        raise InvalidInputError(f"no text that has bytes: {text!r}") from None


def _number(number: int, bits: int) -> bytes:
    if not isinstance(number, int) or not 0 <= number < 1 << bits:
        raise InvalidInputError(f"no number from 0 and below 2^{bits}: {number!r}")
    return b"%d" % number


def _command(
    words: Tuple[bytes, ...], reader: Callable[[Source], Union[_T, Failure]], block: bytes = b""
) -> PlainCommand[_T]:
    line = b" ".join(words)
    name = b" ".join(words[:2]).decode("utf-8", "backslashreplace")
    return PlainCommand(line + b"\r\n" + block, line + b" noreply\r\n" + block, name, reader)


def _lookup(verb: bytes, keys: Tuple[bytes, ...]) -> PlainCommand[Tuple[Item, ...]]:
    words = (verb, *keys)
    if not keys or len(b" ".join(words)) > LONGEST_LINE:
        raise InvalidInputError(f"{len(keys)} keys for one line of at most {LONGEST_LINE} bytes")
    return _command(words, lambda source: _read_items(source, keys, with_unique=verb == b"gets"))


def _storage(
    verb: bytes,
    key: PlainKey,
    value: Data,
    flags: int,
    expire: int,
    means: Mapping[bytes, _T],
    *more: bytes,
) -> PlainCommand[_T]:
    if expire != 0:
        raise ExpiryError(f"an item that expires, by {expire!r}")
    data = value_bytes(value)
    words = (verb, key_bytes(key), _number(flags, 32), b"0", b"%d" % len(data), *more)
    return _command(words, _one_of(means), data + b"\r\n")


def _one_of(means: Mapping[bytes, _T]) -> Callable[[Source], Union[_T, Failure]]:
    """Reads a reply that is one of these lines."""

    def read(source: Source) -> Union[_T, Failure]:
        line = source.line()
        if line in means:
            return means[line]
        return _failure(line)

    return read


def _read_count(source: Source) -> Union[Optional[int], Failure]:
    line = source.line()
    if line == b"NOT_FOUND":
        return None
    try:
        return _number_of(line, 64)
    except ValueError:
        return _failure(line)


def _read_items(
    source: Source, keys: Sequence[bytes], with_unique: bool
) -> Union[Tuple[Item, ...], Failure]:
    items: List[Item] = []
    awaited = iter(keys)
    while True:
        line = source.line()
        if line == b"END":
            return tuple(items)
        word, *words = line.split(b" ")
        if word != b"VALUE":
            return _failure(line)
        try:
            item = _read_item(source, words, with_unique)
        except ValueError:
            raise ProtocolError(f"no item: {line[:100]!r}") from None
        # Those that come are in the order of those that were asked for; what has none is left out.
        if item.key not in awaited:
            raise ProtocolError(f"the item of {item.key!r} isn't wanted here")
        items.append(item)


def _read_item(source: Source, words: Sequence[bytes], with_unique: bool) -> Item:
    key, flags, size, *uniques = words
    count = _number_of(size, 64)
    if len(uniques) != with_unique or count > BIGGEST_VALUE:
        raise ValueError(words)
    numbers = [_number_of(word, 64) for word in uniques]
    data = source.exactly(count)
    if source.exactly(2) != b"\r\n":
        raise ProtocolError(f"the value of {key!r} doesn't end where it should")
    return Item(key, data, _number_of(flags, 32), *numbers)


def _number_of(word: bytes, bits: int) -> int:
    if not word.isdigit() or len(word) > 20 or int(word) >= 1 << bits:
        raise ValueError(word)
    return int(word)


def _failure(line: bytes) -> Failure:
    failure = failure_of(line)
    if failure is None:
        raise ProtocolError(f"no reply to a plain command: {line[:100]!r}")
    return failure

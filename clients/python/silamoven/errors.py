"""What can go wrong, each as an exception of its own. All of them are a `SilamovenError`.

    SilamovenError
        InvalidInputError        a key, a transaction or an address of the wrong form (also a ValueError)
            ExpiryError          a time of expiry other than 0
        NetworkError             the connection can't be used any more, and is closed
            ConnectError         no connection could be made
            ConnectionLostError  the server closed it, perhaps in the middle of a reply
            ReadTimeoutError     no whole reply came in time
            ProtocolError        what came is no reply to what was sent
        UnknownOutcomeError      it broke after a commit or a plain change was sent: that may have been done
        PoolError                the pool can't lend a connection
            PoolTimeoutError     none became free in time
            PoolClosedError      the pool was closed
        ReplyError               the server answered by an error
            CommandError         ERROR or CLIENT_ERROR: a fault of the client
                QueryKeyError    a plain command for a key of the cache
                NotANumberError  incr or decr of a value that is no number
            ServerError          SERVER_ERROR: a fault of the server
                StoreError       the store failed in this command, which wasn't done
                OutOfMemoryError memory ran out in this command, which wasn't done
                SpentError       the server has to be started anew
                FullError        there is no room for the plain item
        WriteError               nothing was committed
            RefusedError         other writers held a key, at every try
            EndedError           the server ended the session, at every try
            RejectedError        the transaction doesn't apply to the rows
"""

from __future__ import annotations

from typing import Dict, Type

from .modes import Mode


class SilamovenError(Exception):
    """The base of all errors of this package."""


class InvalidInputError(SilamovenError, ValueError):
    """A key, a transaction, a value or an address isn't of its form. Nothing was sent."""


class ExpiryError(InvalidInputError):
    """A plain item was to expire. The server keeps none that does, so nothing was sent."""


class NetworkError(SilamovenError):
    """The connection can't be used any more. It is closed, and the pool makes another one."""


class ConnectError(NetworkError):
    """No connection could be made."""


class ConnectionLostError(NetworkError):
    """The connection ended before the reply was whole."""


class ReadTimeoutError(NetworkError):
    """A command couldn't be sent, or no whole reply came, within the time for it."""


class ProtocolError(NetworkError):
    """What the server sent is no reply to the command."""


class UnknownOutcomeError(SilamovenError):
    """The connection broke after a commit was sent and before its reply came.

    The transaction may have been committed. `Pool.ask` tells what the store answers now; a read may still hit the
    value before it, since no floor follows from a number that wasn't told.

    It is the same with a plain command that may change an item: it may have been done. `Pool.get` tells what the
    item is now.
    """


class PoolError(SilamovenError):
    """The pool can't lend a connection."""


class PoolTimeoutError(PoolError):
    """All connections of the pool were in use for too long."""


class PoolClosedError(PoolError):
    """The pool was closed."""


class ReplyError(SilamovenError):
    """The server answered a command by an error.

    Attributes:
        reply: the line that it answered, as ``SERVER_ERROR store``.
    """

    def __init__(self, reply: str) -> None:
        super().__init__(reply)
        self.reply = reply


class CommandError(ReplyError):
    """`ERROR` or `CLIENT_ERROR`: the command was wrong. Nothing was changed."""


class QueryKeyError(CommandError):
    """A plain command named a key of the cache, as ``profile:2``. That is read by `Pool.read`."""


class NotANumberError(CommandError):
    """`incr` or `decr` of an item whose value is no number below 2^64."""


class ServerError(ReplyError):
    """`SERVER_ERROR`: the server couldn't do the command. Nothing was changed."""


class StoreError(ServerError):
    """The store failed in this command. Try it again later."""


class OutOfMemoryError(ServerError):
    """Memory ran out in this command. Try it again later."""


class SpentError(ServerError):
    """The log is full, or there is no token or no unique left. The server has to be started anew."""


class FullError(ServerError):
    """The server has no room for the plain item: 65,536 keys, or 268,435,456 bytes. Delete some, or store less."""


class WriteError(SilamovenError):
    """A transaction wasn't committed, and nothing was changed."""


class RefusedError(WriteError):
    """Another session held a key that the transaction touches, at every try.

    Attributes:
        holder: the number of that session, at the last try.
        mode: the mode in which it holds the key.
    """

    def __init__(self, key: str, holder: int, mode: Mode) -> None:
        super().__init__(f"{key} is held by session {holder} in mode {mode.value}")
        self.key = key
        self.holder = holder
        self.mode = mode


class EndedError(WriteError):
    """The server ended the session before its commit, at every try.

    It does that where a quarantine is older than 10 seconds.
    """


class RejectedError(WriteError):
    """The transaction doesn't apply to the rows.

    Attributes:
        index: the place, from 0, of the first change that doesn't apply.
    """

    def __init__(self, index: int, change: str) -> None:
        super().__init__(f"change {index} doesn't apply: {change}")
        self.index = index


_ERRORS: Dict[str, Type[ReplyError]] = {
    "SERVER_ERROR store": StoreError,
    "SERVER_ERROR memory": OutOfMemoryError,
    "SERVER_ERROR spent": SpentError,
    "SERVER_ERROR full": SpentError,
}

_PLAIN_ERRORS: Dict[str, Type[ReplyError]] = {
    **_ERRORS,
    "SERVER_ERROR full": FullError,
    "CLIENT_ERROR query key": QueryKeyError,
    "CLIENT_ERROR not a number": NotANumberError,
}


def reply_error(reply: str) -> ReplyError:
    """The exception for a line by which the server answers an error."""
    return _error_of(reply, _ERRORS)


def plain_error(reply: str) -> ReplyError:
    """The exception for such a line where a plain command was sent."""
    return _error_of(reply, _PLAIN_ERRORS)


def _error_of(reply: str, known: Dict[str, Type[ReplyError]]) -> ReplyError:
    other = ServerError if reply.startswith("SERVER_ERROR") else CommandError
    return known.get(reply, other)(reply)

"""One connection: it sends commands and reads their replies. One thread at a time may use it."""

from __future__ import annotations

import socket
from dataclasses import dataclass
from time import monotonic
from typing import Callable, List, Optional, Sequence, Tuple, Type, TypeVar, Union

from . import commands
from .commands import Command, Request, Role
from .errors import (
    ConnectError,
    ConnectionLostError,
    InvalidInputError,
    ProtocolError,
    ReadTimeoutError,
    SilamovenError,
)
from .keys import is_decimal
from .plain_client import PlainClient
from .replies import Begun, Failure

_R = TypeVar("_R")
_T = TypeVar("_T")
_C = TypeVar("_C", bound="Connection")

Address = Union[str, Tuple[str, int]]
"""A host and a port, or a text with a colon between, as ``127.0.0.1:7000``."""

_GIVING_UP = 0.5
"""So many seconds a session that is given up waits for the server to say so. Where it doesn't, the connection is closed,
and the server gives the session up by itself."""

_LONGEST_LINE = 4096
_PIECE = 65536


@dataclass(frozen=True)
class Timeouts:
    """How long to wait, in seconds.

    Attributes:
        connect: for a connection to be made.
        read: for the replies to what was sent in one go, until the last of them is whole.
        pool: for a connection of the pool to become free.
    """

    connect: float = 2.0
    read: float = 5.0
    pool: float = 10.0


def split_address(address: Address) -> Tuple[str, int]:
    """The host and the port of an address.

    Raises:
        InvalidInputError: the text is no address.
    """
    if not isinstance(address, str):
        return address
    host, colon, port = address.rpartition(":")
    if not host or not is_decimal(port) or int(port) > 65535:
        raise InvalidInputError(f"no address: {address!r}")
    return host.strip("[]"), int(port)


class _Incoming:
    """The bytes that come from a socket, as lines and blocks, until a deadline."""

    def __init__(self, sock: socket.socket) -> None:
        self._sock = sock
        self._bytes = bytearray()
        self.deadline = 0.0

    @property
    def is_empty(self) -> bool:
        return not self._bytes

    def line(self) -> bytes:
        looked = 0
        while True:
            end = self._bytes.find(b"\r\n", looked)
            if end >= 0:
                return self._take(end + 2)[:-2]
            if len(self._bytes) > _LONGEST_LINE:
                raise ProtocolError("a line without an end")
            looked = max(0, len(self._bytes) - 1)
            self._receive()

    def exactly(self, count: int) -> bytes:
        while len(self._bytes) < count:
            self._receive()
        return self._take(count)

    def _take(self, count: int) -> bytes:
        taken = bytes(self._bytes[:count])
        del self._bytes[:count]
        return taken

    def _receive(self) -> None:
        left = self.deadline - monotonic()
        if left <= 0:
            raise ReadTimeoutError("no whole reply in time")
        try:
            self._sock.settimeout(left)
            piece = self._sock.recv(_PIECE)
        except socket.timeout:
            raise ReadTimeoutError("no whole reply in time") from None
        except OSError as broken:
            raise ConnectionLostError(f"the connection broke: {broken}") from broken
        if not piece:
            where = "" if self.is_empty else " in the middle of a reply"
            raise ConnectionLostError(f"the server closed the connection{where}")
        self._bytes += piece


class Connection(PlainClient):
    """A connection to a server, and the session that is present on it.

    After a `NetworkError` it is closed. After a `ReplyError` it may be used again. Plain commands leave the session
    as it is.
    """

    def __init__(self, sock: socket.socket, timeouts: Timeouts = Timeouts()) -> None:
        self._sock = sock
        self._timeouts = timeouts
        self._incoming = _Incoming(sock)
        self._present: Optional[Tuple[Role, int]] = None
        self._is_closed = False

    @classmethod
    def open(cls: Type[_C], address: Address, timeouts: Timeouts = Timeouts()) -> _C:
        """Connects.

        Raises:
            ConnectError: no connection could be made.
        """
        host, port = split_address(address)
        try:
            sock = socket.create_connection((host, port), timeouts.connect)
            sock.setsockopt(socket.IPPROTO_TCP, socket.TCP_NODELAY, 1)
        except OSError as failed:
            raise ConnectError(f"no connection to {host}:{port}: {failed}") from failed
        return cls(sock, timeouts)

    def __enter__(self: _C) -> _C:
        return self

    def __exit__(self, *_: object) -> None:
        self.quit()

    @property
    def is_closed(self) -> bool:
        """Whether it can't be used any more."""
        return self._is_closed

    def is_stale(self) -> bool:
        """Whether it is closed, or the server has ended it, or something came that nobody asked for."""
        if self._is_closed or not self._incoming.is_empty:
            return True
        try:
            self._sock.settimeout(0)
            self._sock.recv(1, socket.MSG_PEEK)
        except (BlockingIOError, InterruptedError):
            return False
        except OSError:
            pass
        return True

    def close(self) -> None:
        """Closes it. The server then gives up what the session still holds."""
        self._is_closed = True
        self._sock.close()

    def quit(self) -> None:
        """Tells the server that this is the end, and closes."""
        if not self._is_closed:
            try:
                self._sock.settimeout(0)  # A server that takes no bytes meets the end without it.
                self._sock.send(commands.QUIT)
            except OSError:
                pass
            self.close()

    def begin(self, role: Role) -> int:
        """Begins a session in place of the present one, and returns its number."""
        return self.call(commands.begin(role)).sid

    def reading_session(self) -> int:
        """The number of a session that reads. One is begun only if none is present."""
        if self._present is not None and self._present[0] is Role.READ:
            return self._present[1]
        return self.begin(Role.READ)

    def give_up(self) -> None:
        """Ends the present session, if it writes: it is busy no longer.

        Before its commit each value stays. Behind it, the values of keys that it still holds are dropped. A server that
        doesn't answer within half a second is left to do so by itself: the connection is closed.
        """
        if self._is_closed or self._present is None or self._present[0] is Role.READ:
            return
        command = commands.iqabort(self._present[1])
        try:
            (reply,) = self._exchange([command], min(self._timeouts.read, _GIVING_UP))
            if isinstance(reply, Failure):
                raise command.error(reply.line)
        except SilamovenError:
            self.close()  # Then the server does the same.

    def call(self, command: Request[_R]) -> _R:
        """Sends a command, and returns its reply.

        Raises:
            ReplyError: the server answered by an error.
            NetworkError: no reply came. The connection is closed.
        """
        (reply,) = self.exchange([command])
        if isinstance(reply, Failure):
            raise command.error(reply.line)
        return reply

    def exchange(self, several: Sequence[Request[_R]]) -> List[Union[_R, Failure]]:
        """Sends commands in one go, and returns their replies in the same order, errors among them.

        Raises:
            NetworkError: not all replies came. The connection is closed.
        """
        return self._exchange(several)

    def _exchange(self, several: Sequence[Request[_R]], within: Optional[float] = None) -> List[Union[_R, Failure]]:
        """The same, with replies within so many seconds in place of those of the timeouts."""

        def replies() -> List[Union[_R, Failure]]:
            self._send(b"".join(command.data for command in several))
            self._incoming.deadline = monotonic() + (self._timeouts.read if within is None else within)
            return [self._reply_to(command) for command in several]

        return self._or_close(replies)

    def send(self, data: bytes) -> None:
        """Sends a command that is told nothing.

        Raises:
            NetworkError: it couldn't be sent as a whole. The connection is closed.
        """
        self._or_close(lambda: self._send(data))

    def _or_close(self, work: Callable[[], _T]) -> _T:
        """Does the work on the open connection, and closes it where that fails."""
        if self._is_closed:
            raise ConnectionLostError("the connection is closed")
        try:
            return work()
        except BaseException:
            # Also where the caller was interrupted: what comes next would be taken for another reply.
            self.close()
            raise

    def _on_connection(self, work: Callable[[Connection], _T]) -> _T:
        return work(self)

    def _send(self, data: bytes) -> None:
        try:
            self._sock.settimeout(self._timeouts.read)
            self._sock.sendall(data)
        except socket.timeout:
            raise ReadTimeoutError("the server takes no bytes") from None
        except OSError as broken:
            raise ConnectionLostError(f"the connection broke: {broken}") from broken

    def _reply_to(self, command: Request[_R]) -> Union[_R, Failure]:
        reply = command.read(self._incoming)
        if isinstance(reply, Begun) and isinstance(command, Command) and command.begins is not None:
            self._present = (command.begins, reply.sid)
        return reply

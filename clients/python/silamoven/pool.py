"""A pool of connections that many threads read and write through."""

from __future__ import annotations

import threading
from contextlib import contextmanager
from typing import Callable, Iterator, List, Optional, TypeVar, Union

from . import reading, writing
from .changes import AnyTxn, Txn
from .connection import Address, Connection, Timeouts, split_address
from .errors import (
    CommandError,
    ConnectError,
    ConnectionLostError,
    NotANumberError,
    PoolClosedError,
    PoolTimeoutError,
    QueryKeyError,
)
from .keys import Key, check_number
from .modes import Mode
from .own_reads import OwnReads
from .plain_client import PlainClient
from .reading import Answer
from .waits import Backoff, ReadTries, WriteTries, again

_T = TypeVar("_T")


class Pool(PlainClient):
    """Connections to one server, made as they are needed and used again.

    `read` and `write` go by leases. `get`, `set` and the others of `PlainClient` are memcached's own commands. All
    methods may be called by many threads at once. A process that forks needs a pool in each child.

    A server serves as many connections at once as it has workers, and an idle one holds a worker too. So the
    sizes of all pools together should be no more than the server's workers.
    """

    def __init__(
        self,
        address: Address,
        *,
        size: int = 8,
        timeouts: Timeouts = Timeouts(),
        backoff: Backoff = Backoff(),
        read_tries: ReadTries = ReadTries(),
        write_tries: WriteTries = WriteTries(),
        connect: Callable[[Address, Timeouts], Connection] = Connection.open,
    ) -> None:
        """Makes a pool. No connection is made yet.

        Args:
            address: where the server listens, as ``127.0.0.1:7000`` or a host and a port.
            size: the most connections that are open at once.
            timeouts: how long to wait for a connection and for replies, in seconds.
            backoff: the waits while the server can't be reached.
            read_tries: how often to read what another one has in hand.
            write_tries: how often to write what another one has in hand.
            connect: what makes a connection; it may be a class of your own, by its `open`.

        Raises:
            InvalidInputError: the text is no address, or the size is below 1.
        """
        if size < 1:
            raise ValueError(f"a pool of {size} connections")
        self._address = split_address(address)
        self._timeouts = timeouts
        self._backoff = backoff
        self._read_tries = read_tries
        self._write_tries = write_tries
        self._connect = connect
        self._free = threading.BoundedSemaphore(size)
        self._lock = threading.Lock()
        self._idle: List[Connection] = []  # The one used last is at the end, and is lent first.
        self._is_closed = False
        self._is_server_gone = False  # It couldn't be reached for as long as the backoff lasts, and not since.

    def __enter__(self) -> Pool:
        return self

    def __exit__(self, *_: object) -> None:
        self.close()

    def close(self) -> None:
        """Closes the idle connections now, and each other one when it comes back."""
        with self._lock:
            self._is_closed = True
            idle, self._idle = self._idle, []
        for connection in idle:
            connection.quit()

    def read(self, key: Union[Key, str], floor: Optional[int] = None) -> Answer:
        """Reads a key: from the cache, or from the store, whose answer it leaves in the cache.

        Where the connection breaks it reads again on another one.

        Args:
            key: what to read, as ``profile:2``.
            floor: the least stamp that a hit may have; 0 without it. With 0 it may be the value before a commit
                whose writer hasn't released the key yet. `own_reads` keeps a floor for you.

        Raises:
            InvalidInputError: the text is no key, or the floor is below 0 or not below 2^64.
            ReplyError: the server answered by an error.
            ConnectError, ConnectionLostError: the server couldn't be reached for as long as `backoff` lasts; at once
                where another call has found that, and no call has reached it since.
            ReadTimeoutError, ProtocolError: no reply came in time, or none that can be read.
            PoolError: no connection could be lent.
        """
        of = Key.of(key)
        least = 0 if floor is None else check_number(floor)
        return self._try(lambda it: reading.read(it, of, least, self._read_tries))

    def ask(self, key: Union[Key, str]) -> Answer:
        """Asks the store for its answer now, past the cache. Raises what `read` does."""
        of = Key.of(key)
        return self._try(lambda it: reading.ask(it, of))

    def write(self, txn: AnyTxn, mode: Union[Mode, str] = Mode.INVALIDATE) -> int:
        """Commits a transaction, and returns its number: use it as a floor to read what was written.

        Where the connection breaks before the commit is sent, it writes again on another one.

        Args:
            txn: a change, some changes, or their text, as ``accept 1 2 + rename 2 bob``.
            mode: what becomes of the cached values of the keys that it touches.

        Raises:
            InvalidInputError: the text is no transaction.
            RefusedError, EndedError: other writers held a key, or the session was ended, at every try.
            RejectedError: the transaction doesn't apply to the rows.
            ReplyError: the server answered by an error.
            UnknownOutcomeError: the connection broke after the commit was sent, which may have been made.
            ConnectError, ConnectionLostError: the server couldn't be reached for as long as `backoff` lasts.
            ReadTimeoutError, ProtocolError: as `read`; nothing was committed.
            PoolError: no connection could be lent.
        """
        whole, how = Txn.of(txn), Mode(mode)
        return self._try(lambda it: writing.write(it, whole, how, self._write_tries))

    def own_reads(self, floor: int = 0) -> OwnReads:
        """A reader and writer that always reads its own commits."""
        return OwnReads(self, floor)

    @contextmanager
    def lend(self) -> Iterator[Connection]:
        """Lends a connection, to say single commands of `silamoven.commands` on it.

        A session that writes is given up when the connection goes back.

        Raises:
            ConnectError: the server couldn't be reached for as long as `backoff` lasts.
            PoolError: no connection could be lent.
        """
        connection = self._backing_off(self._take)
        try:
            yield connection
        except (QueryKeyError, NotANumberError):
            raise
        except CommandError:
            connection.close()  # A fault of the client, so nothing is known for sure.
            raise
        finally:
            try:
                connection.give_up()
            finally:
                self._give_back(connection)

    def _try(self, work: Callable[[Connection], _T]) -> _T:
        """Does the work on a connection, and again on another one where that is lost."""

        def once() -> _T:
            connection = self._take()
            try:
                return work(connection)
            except (QueryKeyError, NotANumberError):
                raise
            except CommandError:
                connection.close()
                raise
            finally:
                self._give_back(connection)

        return self._backing_off(once)

    def _on_connection(self, work: Callable[[Connection], _T]) -> _T:
        return self._try(work)

    def _backing_off(self, once: Callable[[], _T]) -> _T:
        # One caller has waited for a server that is gone. The others try once, until it is back.
        waits = iter(()) if self._is_server_gone else self._backoff.waits()
        try:
            return again(once, waits, (ConnectError, ConnectionLostError))
        except ConnectError:
            self._is_server_gone = True
            raise

    def _take(self) -> Connection:
        if not self._free.acquire(timeout=self._timeouts.pool):
            raise PoolTimeoutError(f"no connection became free in {self._timeouts.pool} seconds")
        try:
            connection = self._idle_one() or self._connect(self._address, self._timeouts)
            self._is_server_gone = False
            return connection
        except BaseException:
            self._free.release()
            raise

    def _idle_one(self) -> Optional[Connection]:
        """An idle connection that the server hasn't ended, if there is one."""
        while True:
            with self._lock:
                if self._is_closed:
                    raise PoolClosedError("the pool is closed")
                if not self._idle:
                    return None
                connection = self._idle.pop()
            if not connection.is_stale():
                return connection
            connection.close()

    def _give_back(self, connection: Connection) -> None:
        with self._lock:
            keep = not self._is_closed and not connection.is_closed
            if keep:
                self._idle.append(connection)
        if not keep:
            connection.quit()
        self._free.release()

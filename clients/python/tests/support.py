"""A real server and a false one, for the tests."""

from __future__ import annotations

import atexit
import os
import random
import signal
import socket
import subprocess
import threading
from pathlib import Path
from typing import Callable, List, Optional, Sequence, Tuple

from silamoven import Backoff, Connection, Timeouts, WriteTries
from silamoven.connection import Address

TOP = Path(__file__).resolve().parents[3]
PROGRAM = os.environ.get("IQ", str(TOP / "iq"))

PATIENCE = 60.0
"""So many seconds a test waits for what comes unless something is wrong: the processor may be late by far."""

PATIENT = Timeouts(connect=PATIENCE, read=PATIENCE, pool=PATIENCE)
LASTING = Backoff(total=PATIENCE)
STUBBORN = WriteTries(tries=1000)
MOMENT = Timeouts(connect=PATIENCE, read=0.25, pool=PATIENCE)
"""For a reply that never comes."""


class Server:
    """The server itself, at a port that was free a moment ago, or at one that is given."""

    def __init__(
        self,
        connections: int = 100_000,
        workers: int = 48,
        shards: int = 4,
        members: int = 200,
        port: int = 0,
    ) -> None:
        self.port = port or free_port()
        numbers = [str(it) for it in (connections, workers, shards, members)]
        # In a session of its own, so that all that it started ends with it.
        self._process = subprocess.Popen(
            [PROGRAM, "serve", f"127.0.0.1:{self.port}", *numbers],
            stdout=subprocess.PIPE,
            start_new_session=True,
        )
        atexit.register(self.stop)
        late = threading.Timer(PATIENCE, self.stop)
        late.start()
        assert self._process.stdout
        ready = self._process.stdout.readline()
        late.cancel()
        if ready != b"ready\n":
            self.stop()
            raise AssertionError(f"{PROGRAM} serve says {ready!r} in place of ready")

    @property
    def address(self) -> str:
        return f"127.0.0.1:{self.port}"

    def stop(self) -> None:
        """Ends it. It may be over by then."""
        if self._process.poll() is None:
            os.killpg(self._process.pid, signal.SIGKILL)
        self._process.wait(PATIENCE)
        atexit.unregister(self.stop)
        if self._process.stdout:
            self._process.stdout.close()

    def __enter__(self) -> Server:
        return self

    def __exit__(self, *_: object) -> None:
        self.stop()


class Cut(str):
    """A reply behind which the server closes the connection."""


class Hang(str):
    """A reply behind which the server says no more."""


class Nothing(str):
    """No reply, and the conversation goes on."""


class Drip(str):
    """A reply that comes byte by byte, each after a twentieth of a second."""


Step = Tuple[str, str]


class FakeServer:
    """A server that plays conversations: the first to the first client, and so on.

    A conversation is a list of steps: what the client has to send, and what it is told. A line feed stands for
    CR LF, and a last one isn't written. Leaving the `with` fails where a client sent something else, or less.
    """

    def __init__(self, *conversations: Sequence[Step], port: int = 0) -> None:
        self._conversations = list(conversations)
        self.port = port or free_port()
        self._listener = socket.create_server(("127.0.0.1", self.port))
        self._streams: List[socket.socket] = []
        self._wrong: List[str] = []
        self._is_over = threading.Event()
        self._players: List[threading.Thread] = []
        self._host = threading.Thread(target=self._welcome, daemon=True)
        self._host.start()

    @property
    def address(self) -> str:
        return f"127.0.0.1:{self.port}"

    def __enter__(self) -> FakeServer:
        return self

    def __exit__(self, kind: Optional[type], *_: object) -> None:
        if kind is None:
            self._host.join(PATIENCE)
            if self._host.is_alive():
                self._wrong.append("not all clients came")
            for player in self._players:
                player.join(PATIENCE)
        self.stop()
        if kind is None and self._wrong:
            raise AssertionError("; ".join(self._wrong))

    def stop(self) -> None:
        """Closes the port and all connections."""
        self._is_over.set()
        for stream in [self._listener, *self._streams]:
            try:
                stream.shutdown(socket.SHUT_RDWR)
            except OSError:
                pass
            stream.close()

    def _welcome(self) -> None:
        for number, steps in enumerate(self._conversations):
            self._listener.settimeout(PATIENCE)
            try:
                stream, _ = self._listener.accept()
            except OSError:
                if not self._is_over.is_set():
                    self._wrong.append(f"no client {number} came")
                return
            self._streams.append(stream)
            player = threading.Thread(target=self._play, args=(stream, steps), daemon=True)
            self._players.append(player)
            player.start()

    def _play(self, stream: socket.socket, steps: Sequence[Step]) -> None:
        stream.settimeout(PATIENCE)
        with stream:
            for wanted, reply in steps:
                found = _receive(stream, len(_bytes(wanted)))
                if found != _bytes(wanted):
                    self._wrong.append(f"{found!r} came in place of {wanted!r}")
                    return
                if not self._tell(stream, reply):
                    return
            rest = _receive(stream, 1000)  # Until the client goes.
            if rest not in (b"", b"quit\r\n"):
                self._wrong.append(f"{rest!r} came behind the conversation")

    def _tell(self, stream: socket.socket, reply: str) -> bool:
        """Sends a reply, and tells whether the conversation goes on."""
        try:
            if isinstance(reply, Nothing):
                pass
            elif isinstance(reply, Drip):
                for byte in _bytes(reply):
                    stream.sendall(bytes([byte]))
                    if self._is_over.wait(0.05):
                        return False
            elif isinstance(reply, (Cut, Hang)):
                stream.sendall(reply.replace("\n", "\r\n").encode())
                if isinstance(reply, Hang):
                    _receive(stream, 1)  # Until the client goes.
            else:
                stream.sendall(_bytes(reply))
        except OSError:
            return False  # The client is gone, as it may where it had to wait.
        return not isinstance(reply, (Cut, Hang))


def opener(steps: Sequence[Step]) -> Callable[[Address, Timeouts], Connection]:
    """What makes a connection that waits a moment for a reply that hangs or drips, and with patience for each other."""
    late = {_bytes(line) for line, reply in steps if isinstance(reply, (Hang, Drip))}

    class Opened(Connection):
        def _send(self, data: bytes) -> None:
            super()._send(data)
            self._timeouts = MOMENT if data in late else PATIENT

    return lambda address, _: Opened.open(address, PATIENT)


def _bytes(text: str) -> bytes:
    return text.replace("\n", "\r\n").encode() + b"\r\n"


def _receive(stream: socket.socket, count: int) -> bytes:
    """So many bytes, or fewer where the stream ends."""
    got = b""
    while len(got) < count:
        try:
            more = stream.recv(count - len(got))
        except OSError:
            break
        if not more:
            break
        got += more
    return got


def free_port() -> int:
    """A port at which nobody listens. It is below those that a system gives to connections, so none takes it meanwhile."""
    while True:
        port = random.SystemRandom().randrange(10_000, 30_000)
        try:
            with socket.create_server(("127.0.0.1", port)):
                return port
        except OSError:
            pass

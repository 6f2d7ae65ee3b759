#!/usr/bin/env python3
"""Plays clients against a server over the loopback.

    python3 tools/play_clients.py PROGRAM PAGE CHECK

PROGRAM is the proved `iq`, PAGE is docs/protocol.md, and CHECK is one of the names that `--list` in its place
prints, or `soak`, which takes minutes, or `beside`, which measures. The status is 0 where the server does what it must; else a line on standard error says what it did.
"""
import os
import re
import resource
import socket
import struct
import subprocess
import sys
import time

from free_ports import free_port

PATIENCE = 60


def conversations(page):
    """The conversations of a page: the words of the server, and turns of what is sent and what comes back.

    A conversation is the first block behind a paragraph that names a fresh server. In it a line of the client
    stands left, and one of the server is set in.
    """
    text = open(page, encoding="utf-8").read()
    for found in re.finditer(r"On a fresh `iq serve (\S+) ([0-9 ]+)`.*?```\n(.*?)```", text, re.S):
        turns = []
        for line in found.group(3).splitlines():
            told = line.startswith("    ")
            if not turns or (not told and turns[-1][1]):
                turns.append(["", ""])
            turns[-1][told] += line.strip(" ") + "\r\n"
        yield found.group(2).split(), [(sent.encode(), told.encode()) for sent, told in turns]


class Server:
    """A server at a port that was free a moment ago."""

    def __init__(self, program, numbers, descriptors=None, before=()):
        self.port = free_port()
        self.process = subprocess.Popen(
            [*before, program, "serve", f"127.0.0.1:{self.port}", *map(str, numbers)],
            stdout=subprocess.PIPE,
            stderr=subprocess.PIPE,
            preexec_fn=descriptors and (lambda: resource.setrlimit(resource.RLIMIT_NOFILE, (descriptors, descriptors))),
        )
        expect(self.process.stdout.readline(), b"ready\n")

    def connect(self):
        return socket.create_connection(("127.0.0.1", self.port), timeout=PATIENCE)

    def resident(self):
        """How many KiB of its memory are resident."""
        with open(f"/proc/{self.process.pid}/status", encoding="ascii") as status:
            return int(re.search(r"VmRSS:\s+(\d+) kB", status.read()).group(1))

    def descriptors(self):
        """How many descriptors it has open."""
        return len(os.listdir(f"/proc/{self.process.pid}/fd"))

    def served(self, count):
        """Waits for its end, behind so many connections."""
        out, err = self.process.communicate(timeout=PATIENCE)
        expect((out, err, self.process.returncode), (f"served {count}\n".encode(), b"", 0))


def expect(found, wanted):
    if found != wanted:
        raise AssertionError(f"{found!r} in place of {wanted!r}")


def receive(stream, count):
    """So many bytes, or fewer where the stream ends."""
    got = b""
    while len(got) < count:
        more = stream.recv(count - len(got))
        if not more:
            break
        got += more
    return got


def say(stream, turns):
    """Plays turns of what is sent and what comes back."""
    for sent, told in turns:
        stream.sendall(sent)
        expect(receive(stream, len(told)), told)


def play(stream, turns):
    """Plays a whole conversation, which the server ends."""
    say(stream, turns)
    expect(stream.recv(1), b"")
    stream.close()


def page(program, path):
    """Every conversation of the page, and the bytes that it shows of the first turn."""
    found = list(conversations(path))
    if not found:
        raise AssertionError("no conversation on the page")
    for numbers, turns in found:
        server = Server(program, numbers)
        play(server.connect(), turns)
        server.served(1)
    shown = re.findall(r"`((?:[0-9a-f]{2} )+[0-9a-f]{2})`", open(path, encoding="utf-8").read())
    expect([bytes.fromhex(it) for it in shown], list(found[0][1][0]))


def silent(program, path):
    """A client that sends nothing holds one worker, and another client is served by the other."""
    _, turns = next(conversations(path))
    server = Server(program, [2, 2, 1, 3])
    quiet = server.connect()
    play(server.connect(), turns)
    quiet.close()
    server.served(2)


def queued(program, path):
    """Where the silent client has the only worker, another waits, and is served once that one is gone."""
    _, turns = next(conversations(path))
    server = Server(program, [2, 1, 1, 3])
    quiet = server.connect()
    time.sleep(0.1)
    waiting = server.connect()
    waiting.sendall(turns[0][0])
    waiting.settimeout(0.3)
    try:
        raise AssertionError(f"{waiting.recv(100)!r} came while the worker was held")
    except socket.timeout:
        waiting.settimeout(PATIENCE)
    quiet.close()
    expect(receive(waiting, len(turns[0][1])), turns[0][1])
    play(waiting, turns[1:])
    server.served(2)


def unread(program, path):
    """A client that reads nothing is read no further, takes no memory, and another client is served."""
    _, turns = next(conversations(path))
    server = Server(program, [2, 2, 1, 3])
    # No history grows by an `ask`, so what is resident tells of the buffers.
    deaf = server.connect()
    deaf.sendall(b"ask profile:2 7\r\n" * 10000)
    receive(deaf, 10000 * len(b"CLIENT_ERROR not yours\r\n"))
    before = server.resident()
    deaf.settimeout(0.5)
    sent = 0
    try:
        while sent < 1 << 28:
            sent += deaf.send(b"ask profile:2 7\r\n" * 4096)
        raise AssertionError(f"{sent} bytes were taken of a client that reads nothing")
    except socket.timeout:
        pass
    if server.resident() - before > 1024:
        raise AssertionError(f"{before} KiB before, {server.resident()} KiB with replies that nobody reads")
    play(server.connect(), turns)
    deaf.close()
    server.served(2)


def deaf(program, path):
    """A client that reads nothing is given up behind 30 seconds or twice that, so that another one gets its worker."""
    _, turns = next(conversations(path))
    server = Server(program, [2, 1, 1, 3])
    client = server.connect()
    client.settimeout(1)
    try:
        while True:
            client.sendall(b"ask profile:2 7\r\n" * 4096)
    except socket.timeout:
        pass
    began, other = time.monotonic(), server.connect()
    other.settimeout(4 * PATIENCE)
    play(other, turns)
    if time.monotonic() - began < 25:
        raise AssertionError("a client was given up that read nothing for less than 25 seconds")
    client.close()
    server.served(2)


def unreadable(program, path):
    """Where a read from a client fails its connection ends. What its session held is given back, and the next is served."""
    if not may_trace():
        print("no strace here that can trace, so no read is made to fail")
        return
    failing = ["strace", "-f", "-o", os.devnull, "-e", "inject=recvfrom:error=EIO:when=2"]
    server = Server(program, [2, 1, 1, 3], before=failing)
    client = server.connect()
    told = b"SESSION 1\r\nGRANTED 1\r\n"
    client.sendall(b"begin write\r\nqareg profile:2 1\r\n")
    expect(receive(client, len(told) + 1), told)
    client.close()
    other = server.connect()
    say(other, [(b"begin read\r\n", b"SESSION 2\r\n"), (b"iqget profile:2 2 0\r\n", b"LEASE 2\r\n")])
    other.close()
    server.served(2)


def may_trace():
    """Whether strace is there, and may trace."""
    try:
        words = ["strace", "-o", os.devnull, "true"]
        return subprocess.run(words, stderr=subprocess.DEVNULL, timeout=PATIENCE, check=False).returncode == 0
    except OSError:
        return False


def broken(program, path):
    """A client that goes in the midst of a block leaves nothing, and the next one is served."""
    _, turns = next(conversations(path))
    server = Server(program, [2, 1, 1, 3])
    gone = server.connect()
    gone.sendall(b"ask profile:2 7\r\niqset profile:2 0 0 1000 1 0\r\nquit\r\n")
    expect(receive(gone, 24), b"CLIENT_ERROR not yours\r\n")
    gone.close()
    play(server.connect(), turns)
    server.served(2)


def last(program, _path):
    """The last reply comes, although the client sends more than the server looks at."""
    told = b"CLIENT_ERROR long line\r\n"
    server = Server(program, [1, 1, 1, 3])
    client = server.connect()
    client.sendall(b"a" * 4_000_000)
    expect(receive(client, len(told) + 1), told)
    client.close()
    server.served(1)


def crowded(program, path):
    """A server with descriptors for few serves the others when those leave."""
    _, turns = next(conversations(path))
    # Three streams, the listener and 28 connections.
    server = Server(program, [64, 64, 1, 3], descriptors=32)
    clients = [server.connect() for _ in range(64)]
    time.sleep(0.5)
    expect(server.process.poll(), None)
    play(clients[0], turns)
    for client in clients[1:]:
        client.sendall(b"quit\r\n")
        expect(client.recv(1), b"")
        client.close()
    server.served(64)


def thousand(program, _path):
    """Of a thousand clients at once nine hundred are silent, and the others are served meanwhile."""
    most = resource.getrlimit(resource.RLIMIT_NOFILE)[1]
    resource.setrlimit(resource.RLIMIT_NOFILE, (min(most, 2048), most))
    server = Server(program, [1000, 1000, 1, 3])
    clients = [server.connect() for _ in range(1000)]
    for _ in range(3):
        for client in clients[900:]:
            client.sendall(b"ask profile:2 7\r\n")
        for client in clients[900:]:
            expect(receive(client, 24), b"CLIENT_ERROR not yours\r\n")
    for client in clients:
        client.close()
    server.served(1000)


def gone(program, _path):
    """The key of a writer that says nothing more is served to the fourth get behind its deadline, of 64 shards."""
    server = Server(program, [2, 2, 64, 3])
    writer, reader = server.connect(), server.connect()
    say(writer, [(b"begin write\r\n", b"SESSION 1\r\n"), (b"qareg profile:2 1\r\n", b"GRANTED 1\r\n")])
    say(reader, [(b"begin read\r\n", b"SESSION 2\r\n"), (b"iqget profile:2 2 0\r\n", b"AGAIN Q\r\n")])
    time.sleep(10.1)
    say(reader, [(b"iqget profile:2 2 0\r\n", told) for told in (b"AGAIN Q\r\n", b"AGAIN Q\r\n", b"AGAIN Q\r\n", b"LEASE 2\r\n")])
    for client in (writer, reader):
        client.close()
    server.served(2)


def reset(program, path):
    """Clients that reset their connections, before they are served or while they are, end nothing but those."""
    _, turns = next(conversations(path))
    server = Server(program, [201, 1, 1, 3])
    holder = server.connect()
    for number in range(200):
        if number == 100:
            play(holder, turns)
        client = server.connect()
        if number % 2:
            client.sendall(b"ask profile:2 7\r\n" * 100)
        client.setsockopt(socket.SOL_SOCKET, socket.SO_LINGER, struct.pack("ii", 1, 0))
        client.close()
    server.served(201)


def taken(program, _path):
    """An address at which another one listens is a door fault."""
    with socket.create_server(("127.0.0.1", 0)) as other:
        port = other.getsockname()[1]
        ran = subprocess.run(
            [program, "serve", f"127.0.0.1:{port}", "1", "1", "1", "3"],
            capture_output=True,
            timeout=PATIENCE,
            check=False,
        )
    expect((ran.stdout, ran.stderr, ran.returncode), (b"", b"door fault\n", 5))


def soak(program, _path):
    """Two hundred thousand connections one after another leave no memory and no descriptor where no number of them is
    asked for, so that how each ended isn't kept. Takes minutes."""
    server = Server(program, ["forever", 4, 1, 3])
    for number in range(200000):
        with server.connect() as client:
            client.sendall(b"ask profile:2 7\r\nquit\r\n")
            expect(receive(client, 25), b"CLIENT_ERROR not yours\r\n")
        if number == 20000:
            before, opened = server.resident(), server.descriptors()
    left, open_still = server.resident(), server.descriptors()
    server.process.kill()
    print(f"200000 connections: {before} KiB and {opened} descriptors, {left} and {open_still} at the end")
    if left - before > 1024 or open_still > opened + 4:
        raise AssertionError(f"{before} KiB and {opened} descriptors grew to {left} and {open_still}")


def hits(clients, times):
    """How many seconds these clients take until each was served so many hits, at most 64 of them on the way."""
    began = time.monotonic()
    for _ in range(times // 64):
        for number, client in enumerate(clients, 1):
            client.sendall(b"iqget profile:2 %d 0\r\n" % number * 64)
        for client in clients:
            receive(client, 64 * len(b"VALUE profile:2 0 6 0\r\nm2 0 0\r\nEND\r\n"))
    return time.monotonic() - began


def beside(program, _path):
    """A hundred clients beside nine hundred silent ones are served at no less than half their speed alone."""
    most = resource.getrlimit(resource.RLIMIT_NOFILE)[1]
    resource.setrlimit(resource.RLIMIT_NOFILE, (min(most, 4096), most))
    servers = [Server(program, [count, 1000, 1, 3]) for count in (100, 1000)]
    groups, others = [], []
    for server, silent_ones in zip(servers, (0, 900)):
        others += [server.connect() for _ in range(silent_ones)]
        groups.append([server.connect() for _ in range(100)])
        for number, client in enumerate(groups[-1], 1):
            client.sendall(b"begin read\r\n")
            expect(receive(client, len(b"SESSION %d\r\n" % number)), b"SESSION %d\r\n" % number)
    for clients in groups:
        said = b"iqget profile:2 1 0\r\nask profile:2 1\r\niqset profile:2 0 0 6 1 0\r\nm2 0 0\r\n"
        say(clients[0], [(said, b"LEASE 1\r\nVALUE profile:2 0 6 0\r\nm2 0 0\r\nEND\r\nSTORED\r\n")])
    times = [[hits(clients, 1024) for clients in groups] for _ in range(9)]
    alone, crowd = (sorted(it[place] for it in times)[4] for place in (0, 1))
    print(f"100 clients: {102400 / alone:.0f} hits a second alone, {102400 / crowd:.0f} beside 900 silent ones")
    for client in sum(groups, others):
        client.close()
    for server, count in zip(servers, (100, 1000)):
        server.served(count)
    if alone < crowd / 2:
        raise AssertionError("less than half the speed")


CHECKED = (page, silent, queued, unread, deaf, unreadable, broken, last, crowded, thousand, gone, reset, taken)
CHECKS = {it.__name__: it for it in CHECKED}
SLOW = {it.__name__: it for it in (soak, beside)}


def main():
    if sys.argv[1:] == ["--list"]:
        print(*CHECKS)
        return 0
    if len(sys.argv) != 4 or sys.argv[3] not in CHECKS | SLOW:
        print(__doc__, file=sys.stderr)
        return 2
    try:
        (CHECKS | SLOW)[sys.argv[3]](sys.argv[1], sys.argv[2])
    except (AssertionError, OSError, subprocess.SubprocessError) as wrong:
        print(f"{sys.argv[3]}: {wrong}", file=sys.stderr)
        return 1
    return 0


if __name__ == "__main__":
    sys.exit(main())

#!/usr/bin/env python3
"""Compares a server's bytes with those of a model, on streams that are drawn from a seed.

    python3 tools/drawn_streams.py PROGRAM [STREAMS [SEED]]

PROGRAM is the proved `iq`. Up to three streams at a time are sent over the loopback, each over a connection of its
own, cut into drawn pieces; now one goes on and now another. Their clients lie now and then: they hand in what they
weren't told. All that comes back is compared with what `model_server.py` tells. Streams are 10,000 unless another
number is given, a new server comes each 200 of them, and a server that lived so long that a lease of its could end by
its deadline is skipped. The status is 0 where all bytes are the model's.
"""
import random
import socket
import sys
import time

from model_server import KINDS, VERBS, Connection, Rejected, Server, delta, footprint, key_text
from play_clients import Server as Served

BATCH = 200
AT_ONCE = 3
LIFE = 10  # seconds
MEMBERS = 4
LIES = 0.2  # how often a client hands in something else than what is true
TXN_VERBS = ["invite"] * 8 + ["accept"] * 8 + ["thaw"] * 6 + ["reject"] * 3 + ["rename"] * 4 + ["block"]


class Stream:
    """A client that draws what it says next by what it was told."""

    def __init__(self, draw, server):
        self.draw, self.server, self.connection = draw, server, Connection(server)
        self.sent, self.told = b"", b""
        self.steps = self.live()

    def say(self, line, block=None):
        """Says a command. What is sent and what it is told are put behind those that were not taken yet."""
        said = line.encode("latin-1") + b"\r\n" + (b"" if block is None else block.encode("latin-1") + b"\r\n")
        told = self.connection.feed(said)
        self.sent += said[: len(said) - len(self.connection.bytes)] if self.connection.is_over else said
        self.told += told
        return told.decode("latin-1").split("\r\n")

    def live(self):
        for _ in range(self.draw.randint(1, 6)):
            yield from self.draw.choice((read, read, read, write, write, any_command))(self)
        yield from last(self)

    def go_on(self, steps):
        """So many commands more, and whether the client goes on behind them."""
        for _ in range(steps):
            if self.connection.is_over or next(self.steps, self) is self:
                self.connection.close()
                return False
        return True

    def take(self):
        """What was sent and told since."""
        sent, told, self.sent, self.told = self.sent, self.told, b"", b""
        return sent, told

    @property
    def sid(self):
        """The present session's number, or now and then another."""
        return self.connection.client.sid if self.draw.random() < 0.97 else self.draw.randrange(9)

    def key(self):
        return self.draw.choice(KINDS), self.draw.randint(1, MEMBERS + 1)

    def change(self, verb):
        a, b = self.draw.randint(1, MEMBERS), self.draw.randint(1, MEMBERS + 1)
        return (verb, a, f"n{b}") if verb == "rename" else (verb, a, b)

    def txn(self):
        """A transaction, more often one that applies."""
        verbs = self.draw.choices(TXN_VERBS, k=self.draw.choice((1, 1, 1, 1, 2, 3)))
        for _ in range(self.draw.choice((1, 50, 50))):
            txn = [self.change(verb) for verb in verbs]
            if self.applies(txn):
                break
        return txn

    def applies(self, txn):
        try:
            return bool(self.server.rows.after(txn))
        except Rejected:
            return False

    def lies(self):
        return self.draw.random() < LIES

    def made_up(self, key):
        """A value that is the key's answer by chance alone."""
        value = self.server.rows.answer(key)
        return self.draw.choice(("", "abc", value + " ", value.replace("1", "2") + "0", self.server.rows.answer(self.key()) + "1"))


def txn_text(txn):
    return " + ".join(f"{verb} {a} {b}" for verb, a, b in txn)


def read(stream):
    """A session that gets keys and, where it is given the lease, asks and sets, or leaves some of that out. It asks now
    and then more often than the server keeps answers, and may be given a second lease before it sets."""
    draw = stream.draw
    stream.say("begin read")
    yield
    leases = []
    for _ in range(draw.randint(1, 6)):
        key, floor = stream.key(), draw.choice((0, 0, 0, stream.server.commits, stream.server.commits + 1))
        told = stream.say(f"iqget {key_text(key)} {stream.sid} {floor}")
        yield
        leases += [(key, int(told[0].split(" ")[1]))] if told[0].startswith("LEASE ") else []
        if leases and draw.random() < 0.8:
            yield from ask_and_set(stream, *draw.choice((leases[-1], leases[-1], leases[-1], leases[0])))


def ask_and_set(stream, key, token):
    """Asks, and hands in one of the answers, or something near it, now and then in the next session."""
    draw, answers = stream.draw, []
    for _ in range(draw.choice((0, 1, 1, 1, 1, 1, 2, 7))):
        asked = stream.key() if draw.random() < 0.1 else key
        head, value, *_ = stream.say(f"ask {key_text(asked)} {stream.connection.client.sid}") + [""]
        yield
        answers += [(value, int(head.split(" ")[4]))] if head.startswith("VALUE ") else []
    value, stamp = draw.choice((answers or [(stream.server.rows.answer(key), stream.server.commits)])[:3])
    value = stream.made_up(key) if stream.lies() else value
    stamp += draw.choice((-1, 1, 2)) if stream.lies() and stamp else 0
    token = draw.choice((token - 1, token + 1, stream.server.at(key).lease or token)) if stream.lies() else token
    key = stream.key() if stream.lies() else key
    if draw.random() < 0.05:
        stream.say("begin read")
        yield
    stream.say(f"iqset {key_text(key)} 0 0 {len(value)} {token} {stamp}", value)
    yield


def write(stream):
    """A session that quarantines the keys of a transaction, commits and releases, or leaves some of that out. A count that
    it lies about is shifted by another number."""
    draw, txn = stream.draw, stream.txn()
    stream.say("begin write")
    yield
    sid = stream.connection.client.sid
    for key in footprint(txn):
        if draw.random() < 0.03:
            continue
        verb = draw.choice(("qareg", "qaread", "iqdelta" if key[0] in ("nfriends", "npending") else "qareg"))
        by = f" {delta(key, txn) + draw.choice((-1, 1, 7)) * stream.lies()}" if verb == "iqdelta" else ""
        told = stream.say(f"{verb} {key_text(key)} {stream.sid}{by}")
        yield
        if told[0].startswith("REFUSED") and draw.random() < 0.8:
            break
    if draw.random() < 0.2:
        stream.say(f"iqget {key_text(stream.key())} {sid} 0")
        yield
    if draw.random() < 0.2:
        stream.say(f"stage {key_text(stream.key())} {sid} {txn_text(txn)}")
        yield
    stream.say(f"sql {stream.sid} {txn_text(txn)}")
    yield
    kept = 0.05 if stream.connection.client.stage == "committed" else 0.9
    for grant in list(stream.connection.client.grants):
        if draw.random() > kept:
            yield from release(stream, sid, grant)
    if stream.connection.client.is_busy() and draw.random() < 0.9:
        stream.say(f"iqabort {sid}")
        yield


def release(stream, sid, grant):
    draw, key = stream.draw, key_text(grant.key)
    if draw.random() < 0.05:
        stream.say(f"{draw.choice(('dar', 'iqcommit'))} {key_text(stream.key())} {sid}")
        yield
    if stream.connection.client.grant(grant.key) is None:
        return
    if grant.mode == "refresh" and (grant.has_old or stream.lies()):
        value = stream.made_up(grant.key) if stream.lies() else stream.server.rows.answer(grant.key)
        stream.say(f"sar {key} 0 0 {len(value)} {sid}", value)
        yield
    elif grant.mode == "delta":
        stream.say(f"iqcommit {key} {sid}")
        yield
    else:
        stream.say(f"dar {key} {sid}")
        yield


def any_command(stream):
    """A command whatever the state: a verb with words that fit it more or less."""
    draw, verb = stream.draw, stream.draw.choice(VERBS[:-1])
    key, sid = stream.key(), stream.sid
    if verb in ("iqset", "sar"):
        yield from any_block(stream, verb, key, sid)
        return
    key = key_text(key)
    words = {"begin": draw.choice(("read", "write")), "iqget": f"{key} {sid} 0", "iqdelta": f"{key} {sid} {draw.randint(-3, 3)}"}
    words |= {"stage": f"{key} {sid} {txn_text(stream.txn())}", "sql": f"{sid} {txn_text(stream.txn())}", "iqabort": f"{sid}"}
    line = f"{verb} {words.get(verb, f'{key} {sid}')}"
    stream.say(spoilt(draw, line) if draw.random() < 0.4 else line)
    yield


def any_block(stream, verb, key, sid):
    """A value that nobody asked for: by the token of the lease that stands, whoever has it, or by another."""
    draw = stream.draw
    value = stream.server.rows.answer(key) if draw.random() < 0.5 else stream.made_up(key)
    token = draw.choice((stream.server.at(key).lease or 1, draw.randrange(4)))
    stamp = draw.choice((stream.server.commits, 0, stream.server.commits + 1))
    flags, exptime = draw.choice(((0, 0), (0, 0), (0, 0), (1, 0), (0, 1)))
    line = f"{verb} {key_text(key)} {flags} {exptime} {len(value)} " + (f"{token} {stamp}" if verb == "iqset" else f"{sid}")
    stream.say(spoilt(draw, line) if draw.random() < 0.2 else line, value)
    yield


def spoilt(draw, line):
    """The line with a fault, or with one that is none."""
    words = line.split(" ")
    at = draw.randrange(len(words))
    kind = draw.randrange(8)
    if kind == 0:
        del words[at]
    elif kind == 1:
        words.insert(at, draw.choice(("x", "7", "+", "18446744073709551616", "profile:2")))
    elif kind == 2:
        words[at] = words[at].upper()
    elif kind == 3:
        words[at] = draw.choice(("0" + words[at], "-" + words[at], words[at] + "\t", "k" * 251, "profile:0", "profile:100001"))
    elif kind == 4:
        words[at] = "9" * draw.choice((19, 20, 21))
    elif kind == 5:
        words = ["", ""] + words + [""]
    elif kind == 6:
        return "  ".join(words)
    else:
        return "".join(draw.choice("abq :\r\n\x00\xff") for _ in range(draw.randrange(12)))
    return " ".join(words)


def last(stream):
    """How a stream ends: by `quit`, by the end of the bytes, by a part of a command, or by a fault that lasts."""
    draw = stream.draw
    kind = draw.randrange(8)
    if kind < 3:
        stream.say("quit")
        yield
    elif kind == 3:
        stream.say("x" * draw.choice((2046, 2047, 2048, 2049, 3000)))
        yield
    elif kind == 4:
        stream.say("iqset profile:1 0 0 1048577 1 0")
        yield
    elif kind == 5:
        stream.say("iqset profile:1 0 0 2 1 0", "abc")
        yield
    elif kind == 6:
        stream.sent += b"iqset profile:1 0 0 9 1 0\r\nabc"


class Differs(Exception):
    """What came back isn't what the model tells."""


class Talk:
    """A stream and its connection to the server."""

    def __init__(self, draw, model, served):
        self.draw, self.stream, self.socket = draw, Stream(draw, model), served.connect()
        self.socket.setsockopt(socket.IPPROTO_TCP, socket.TCP_NODELAY, 1)

    def go_on(self):
        """Sends what some steps say, and compares what comes back. False where the stream ended."""
        goes_on = self.stream.go_on(self.draw.choice((1, 1, 2, 5, 50)))
        sent, told = self.stream.take()
        at = 0
        while at < len(sent):
            piece = self.draw.choice((1, 2, 7, 40, 300, len(sent)))
            self.socket.sendall(sent[at : at + piece])
            at += piece
        if not goes_on:
            self.socket.shutdown(socket.SHUT_WR)
        found = b"".join(self.pieces(None if not goes_on else len(told)))
        if not goes_on:
            self.socket.close()
        if found != told:
            raise Differs(f"to\n{sent!r}\ncame\n{found!r}\nand not\n{told!r}")
        return goes_on

    def pieces(self, count):
        """What comes back: so many bytes, or fewer where no more come. All that come till the end, where it is None."""
        try:
            while (count is None or count > 0) and (piece := self.socket.recv(65536)):
                count = None if count is None else count - len(piece)
                yield piece
        except TimeoutError:
            pass


def compare(program, draw, count):
    """Plays so many streams against one server. False where it lived so long that a lease may have ended."""
    shards = draw.choice((1, 2, 7))
    model, served = Server(MEMBERS, shards), Served(program, (count, AT_ONCE, shards, MEMBERS))
    begun, talks = time.monotonic(), []
    try:
        while count or talks:
            while count and len(talks) < AT_ONCE:
                talks.append(Talk(draw, model, served))
                count -= 1
            talk = draw.choice(talks)
            try:
                if not talk.go_on():
                    talks.remove(talk)
            except Differs as other:
                # (a lease may have ended in this very step)
                if time.monotonic() - begun < LIFE - 1:
                    raise SystemExit(f"drawn_streams: {other}") from None
            if time.monotonic() - begun > LIFE - 1:
                return False
    finally:
        served.process.kill()
        served.process.wait()
    return True


def main(words):
    program, streams, seed = (words + ["10000", "1"][len(words) - 1 :])[:3]
    streams, played, late = int(streams), 0, 0
    for batch in range(-(-streams // BATCH)):
        count = min(BATCH, streams - batch * BATCH)
        if compare(program, random.Random(f"{seed} {batch}"), count):
            played += count
        else:
            late += count
    print(f"{played} passed, 0 failed, {late} skipped")
    return 0 if played else 1


if __name__ == "__main__":
    sys.exit(main(sys.argv[1:]))

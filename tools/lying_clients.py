#!/usr/bin/env python3
"""Plays clients that lie to a server over the loopback, and looks at what the others get.

    python3 tools/lying_clients.py PROGRAM [STREAMS [SEED]]

PROGRAM is the proved `iq`. First come cases by hand: what a client can say that the server didn't tell it, the reply,
and what the next reader gets. Then come drawn streams, 1,000 unless another number is given. In each of them four
clients lie at random beside an honest one, all at once, and behind them another honest one gets every key. A new server
comes each 25 streams.

Whoever is told a value with its stamp: it has to be the key's answer over the first so many of the committed
transactions, by the rows of `model_server.py`, and to hold each commit on the key of whose release somebody was told
before. The status is 0 where that is so; else lines on standard error say what was wrong.
"""
import random
import socket
import sys
from collections import namedtuple

from model_server import KINDS, Rejected, Rows, delta, footprint, key_of, key_text, txn_of
from play_clients import Server, expect

BATCH = 25
LIARS = 4
MEMBERS = 4
LIES = 0.3  # how often a liar hands in something else than what it was told
KEYS = [f"{kind}:{number}" for kind in KINDS for number in range(1, MEMBERS + 2)]
TXN_VERBS = ["invite"] * 8 + ["accept"] * 8 + ["thaw"] * 6 + ["reject"] * 3 + ["rename"] * 4 + ["block"]

# The cases by hand. A turn is who speaks, what it says and what it is told, with `;` for CR LF. Of the two shards
# profile:1 is in one, and all the other keys of the cases are in the other.

LIAR, OTHER, READER = range(3)
ONE, TWO = "VALUE profile:1 0 6 0;m1 0 0;END;", "VALUE profile:2 0 6 0;m2 0 0;END;"
LEASED = (LIAR, "begin read;iqget profile:2 1 0;", "SESSION 1;LEASE 1;")
ASKED = (LIAR, "ask profile:2 1;", TWO)
SET = "iqset profile:2 0 0 6 1 0;m2 0 0;"
STORED, NOT_STORED = (LIAR, SET, "STORED;"), (LIAR, SET, "NOT_STORED;")
RENAMED = (LIAR, "begin write;qaread profile:2 2;sql 2 rename 2 bob;", f"SESSION 2;GRANTED 2;{TWO}COMMITTED 1;")
COUNTED = (
    (LIAR, "begin read;iqget npending:2 1 0;ask npending:2 1;", "SESSION 1;LEASE 1;VALUE npending:2 0 1 0;0;END;"),
    (LIAR, "iqset npending:2 0 0 1 1 0;0;", "STORED;"),
    (LIAR, "begin write;qareg profile:2 2;qareg pending:2 2;", "SESSION 2;GRANTED 2;GRANTED 3;"),
)
INVITED = (LIAR, "sql 2 invite 1 2;iqcommit npending:2 2;", "COMMITTED 1;STORED;")
WRITES = (LIAR, "begin write;qareg profile:2 1;", "SESSION 1;GRANTED 1;")


def reads(number, told, key="profile:2"):
    """The next reader, whose session has this number."""
    return (READER, f"begin read;iqget {key} {number} 0;", f"SESSION {number};{told};")


def asks_too_often():
    """Five answers, with a commit on another key before each but the first: the server keeps the last four."""
    yield from (LEASED, ASKED)
    for number in range(1, 5):
        sid = number + 1
        yield OTHER, f"begin write;qareg profile:1 {sid};sql {sid} rename 1 x;", f"SESSION {sid};GRANTED {number};COMMITTED {number};"
        yield OTHER, f"dar profile:1 {sid};", "DELETED;"
        yield LIAR, "ask profile:2 1;", f"VALUE profile:2 0 6 {number};m2 0 0;END;"
    yield from (NOT_STORED, (LIAR, "iqset profile:2 0 0 6 1 1;m2 0 0;", "STORED;"))
    yield reads(6, "VALUE profile:2 0 6 1;m2 0 0;END")


CASES = {
    "a set of a made-up value": (
        *(LEASED, ASKED, (LIAR, "iqset profile:2 0 0 2 1 0;zz;iqget profile:2 1 0;", "NOT_STORED;AGAIN I;")),
        reads(2, "AGAIN I"),
    ),
    "a set of the true value behind it": (
        *(LEASED, ASKED, (LIAR, "iqset profile:2 0 0 2 1 0;zz;", "NOT_STORED;"), STORED),
        reads(2, TWO[:-1]),
    ),
    "a set with another stamp": (LEASED, ASKED, (LIAR, "iqset profile:2 0 0 6 1 1;m2 0 0;", "NOT_STORED;"), reads(2, "AGAIN I")),
    "a set with another token": (LEASED, ASKED, (LIAR, "iqset profile:2 0 0 6 2 0;m2 0 0;", "NOT_STORED;"), reads(2, "AGAIN I")),
    "a set of another key by the same token": (
        *(LEASED, ASKED, (LIAR, "ask profile:1 1;", ONE)),
        (OTHER, "begin read;iqget profile:1 2 0;", "SESSION 2;LEASE 1;"),
        (LIAR, "iqset profile:1 0 0 6 1 0;m1 0 0;", "NOT_STORED;"),
        reads(3, "AGAIN I", "profile:1"),
    ),
    "a set of what wasn't asked": (LEASED, NOT_STORED, reads(2, "AGAIN I")),
    "a set of what was asked before the lease": (
        (LIAR, "begin read;ask profile:2 1;iqget profile:2 1 0;", f"SESSION 1;{TWO}LEASE 1;"),
        *(NOT_STORED, reads(2, "AGAIN I")),
    ),
    "a set of another key's answer": (
        *(LEASED, (LIAR, "ask profile:1 1;iqset profile:2 0 0 6 1 0;m1 0 0;", f"{ONE}NOT_STORED;")),
        reads(2, "AGAIN I"),
    ),
    "a set behind questions for another key": (LEASED, ASKED, (LIAR, "ask profile:1 1;" * 9, ONE * 9), STORED, reads(2, TWO[:-1])),
    "a set by the token of a later lease": (
        *(LEASED, ASKED),
        (OTHER, "begin write;qareg profile:2 2;sql 2 rename 2 bob;", "SESSION 2;GRANTED 2;COMMITTED 1;"),
        (OTHER, "dar profile:2 2;begin read;iqget profile:2 3 0;", "DELETED;SESSION 3;LEASE 3;"),
        (LIAR, "iqset profile:2 0 0 6 3 0;m2 0 0;", "NOT_STORED;"),
        reads(4, "AGAIN I"),
    ),
    "a set of what was so before a commit": (
        *(LEASED, ASKED),
        (OTHER, "begin write;qareg profile:2 2;sql 2 rename 2 bob;", "SESSION 2;GRANTED 2;COMMITTED 1;"),
        (OTHER, "dar profile:2 2;", "DELETED;"),
        (LIAR, "iqget profile:2 1 0;iqset profile:2 0 0 6 3 0;m2 0 0;", "LEASE 3;NOT_STORED;"),
        reads(3, "AGAIN I"),
    ),
    "a set after a second lease": (
        *(LEASED, ASKED, (LIAR, "iqget profile:1 1 0;ask profile:1 1;", f"LEASE 1;{ONE}"), NOT_STORED),
        (LIAR, "iqset profile:1 0 0 6 1 0;m1 0 0;", "STORED;"),
        *(reads(2, "AGAIN I"), (READER, "iqget profile:1 2 0;", ONE)),
    ),
    "a set of the fifth answer from the end": tuple(asks_too_often()),
    "a set by the lease of the session before": (LEASED, ASKED, (LIAR, "begin read;", "SESSION 2;"), NOT_STORED, reads(3, "AGAIN I")),
    "a set by another's lease": (
        *(LEASED, ASKED, (OTHER, "begin read;ask profile:2 2;", f"SESSION 2;{TWO}"), (OTHER, SET, "NOT_STORED;")),
        reads(3, "AGAIN I"),
    ),
    "a set without a session": (LEASED, ASKED, (OTHER, SET, "NOT_STORED;"), reads(2, "AGAIN I")),
    "sar of the true value": (
        *(LEASED, ASKED, STORED, RENAMED, (LIAR, "sar profile:2 0 0 7 2;bob 0 0;", "STORED;")),
        reads(3, "VALUE profile:2 0 7 1;bob 0 0;END"),
    ),
    "sar of a made-up value": (
        *(LEASED, ASKED, STORED, RENAMED, (LIAR, "sar profile:2 0 0 2 2;zz;", "STORED;")),
        reads(3, "LEASE 3"),
    ),
    "sar of the old value": (
        *(LEASED, ASKED, STORED, RENAMED, (LIAR, "sar profile:2 0 0 6 2;m2 0 0;", "STORED;")),
        reads(3, "LEASE 3"),
    ),
    "sar where no old value came": (
        (LIAR, "begin write;qaread profile:2 1;sql 1 rename 2 bob;", "SESSION 1;GRANTED 1;END;COMMITTED 1;"),
        (LIAR, "sar profile:2 0 0 7 1;bob 0 0;", "STORED;"),
        reads(2, "LEASE 2"),
    ),
    "sar before the commit": (
        (LIAR, "begin write;qaread profile:2 1;", "SESSION 1;GRANTED 1;END;"),
        (LIAR, "sar profile:2 0 0 6 1;m2 0 0;", "CLIENT_ERROR not committed;"),
        reads(2, "AGAIN Q"),
    ),
    "sar of a quarantine that drops": (
        *(WRITES, (LIAR, "sql 1 rename 2 bob;sar profile:2 0 0 7 1;bob 0 0;", "COMMITTED 1;CLIENT_ERROR mode;")),
        reads(2, "AGAIN Q"),
    ),
    "iqcommit of what the transaction adds": (
        *(*COUNTED, (LIAR, "iqdelta npending:2 2 1;", "GRANTED 4;"), INVITED),
        reads(3, "VALUE npending:2 0 1 1;1;END", "npending:2"),
    ),
    "iqcommit of another number": (
        *(*COUNTED, (LIAR, "iqdelta npending:2 2 7;", "GRANTED 4;"), INVITED),
        reads(3, "LEASE 5", "npending:2"),
    ),
    "iqcommit of the number that wasn't taken": (
        *(*COUNTED, (LIAR, "iqdelta npending:2 2 0;iqdelta npending:2 2 1;", "GRANTED 4;HELD;"), INVITED),
        reads(3, "LEASE 5", "npending:2"),
    ),
    "iqcommit before the commit": (
        (LIAR, "begin write;iqdelta npending:2 1 1;", "SESSION 1;GRANTED 1;"),
        (LIAR, "iqcommit npending:2 1;", "CLIENT_ERROR not committed;"),
        reads(2, "AGAIN Q", "npending:2"),
    ),
    "dar": (LEASED, ASKED, STORED, RENAMED, (LIAR, "dar profile:2 2;", "DELETED;"), reads(3, "LEASE 3")),
    "dar before the commit": (WRITES, (LIAR, "dar profile:2 1;", "CLIENT_ERROR not committed;"), reads(2, "AGAIN Q")),
    "dar of another's quarantine": (
        *(WRITES, (OTHER, "begin write;dar profile:2 1;", "SESSION 2;CLIENT_ERROR not yours;")),
        (OTHER, "qareg profile:1 2;sql 2 rename 1 x;dar profile:2 2;", "GRANTED 1;COMMITTED 1;CLIENT_ERROR no grant;"),
        reads(3, "AGAIN Q"),
    ),
    "quarantines of a reader": (
        (LIAR, "begin read;qareg profile:2 1;", "SESSION 1;CLIENT_ERROR read session;"),
        (LIAR, "qaread profile:2 1;iqdelta npending:2 1 1;", "CLIENT_ERROR read session;" * 2),
        reads(2, "LEASE 1"),
    ),
    "quarantines after the commit": (
        (LIAR, "begin write;qareg profile:1 1;sql 1 rename 1 x;", "SESSION 1;GRANTED 1;COMMITTED 1;"),
        (LIAR, "qareg profile:2 1;qaread profile:2 1;iqdelta npending:2 1 1;", "CLIENT_ERROR committed;" * 3),
        reads(2, "LEASE 1"),
    ),
    "quarantines for another's session": (
        *((OTHER, "begin write;", "SESSION 1;"), (LIAR, "begin write;", "SESSION 2;")),
        (LIAR, "qareg profile:2 1;qaread profile:2 1;iqdelta npending:2 1 1;", "CLIENT_ERROR not yours;" * 3),
        reads(3, "LEASE 1"),
    ),
    "a commit under another's quarantine": (
        *(WRITES, (OTHER, "begin write;sql 1 rename 2 bob;", "SESSION 2;CLIENT_ERROR not yours;")),
        (OTHER, "sql 2 rename 2 bob;", "UNCOVERED profile:2;"),
        *(reads(3, "AGAIN Q"), (READER, "ask profile:2 3;", TWO)),
    ),
    "a second commit": (
        *(WRITES, (LIAR, "sql 1 rename 2 bob;sql 1 rename 2 eve;", "COMMITTED 1;ENDED;")),
        *(reads(2, "AGAIN Q"), (READER, "ask profile:2 2;", "VALUE profile:2 0 7 1;bob 0 0;END;")),
    ),
    "a commit after iqabort": (
        *(WRITES, (LIAR, "iqabort 1;qareg profile:2 1;sql 1 rename 2 bob;", "RELEASED 1;GRANTED 2;ENDED;")),
        *(reads(2, "AGAIN Q"), (READER, "ask profile:2 2;", TWO)),
    ),
    "iqabort before the commit": (
        *(LEASED, ASKED, STORED, (LIAR, "begin write;qareg profile:2 2;iqabort 2;", "SESSION 2;GRANTED 2;RELEASED 1;")),
        reads(3, TWO[:-1]),
    ),
    "iqabort after the commit": (LEASED, ASKED, STORED, RENAMED, (LIAR, "iqabort 2;", "RELEASED 1;"), reads(3, "LEASE 3")),
    "iqabort of another's session": (
        *(WRITES, (OTHER, "begin write;iqabort 1;", "SESSION 2;CLIENT_ERROR not yours;")),
        reads(3, "AGAIN Q"),
    ),
}


# Cases over one worker, which serves a client once the one before has quit.
ONE_BY_ONE = {
    "a set by the lease of the connection before": (
        *(LEASED, ASKED, (LIAR, "quit;", ""), (OTHER, SET, "NOT_STORED;"), (OTHER, "begin read;", "SESSION 2;")),
        *((OTHER, SET, "NOT_STORED;"), (OTHER, "quit;", ""), reads(3, "AGAIN I")),
    ),
    "a release by the connection before": (
        *((LIAR, "begin write;qaread profile:2 1;quit;", "SESSION 1;GRANTED 1;END;"), (OTHER, "begin write;", "SESSION 2;")),
        (OTHER, "qareg profile:1 2;sql 2 rename 1 x;sar profile:2 0 0 2 2;zz;", "GRANTED 1;COMMITTED 1;CLIENT_ERROR no grant;"),
        *((OTHER, "dar profile:1 2;quit;", "DELETED;"), reads(3, "LEASE 2")),
    ),
}


def play_case(program, workers, turns):
    served = Server(program, [3, workers, 2, 3])
    clients = [served.connect() for _ in range(3)]
    replies = [client.makefile("rb") for client in clients]
    try:
        for who, said, told in turns:
            clients[who].sendall(said.replace(";", "\r\n").encode())
            for line in told.split(";")[:-1]:
                expect(replies[who].readline(), f"{line}\r\n".encode())
    finally:
        for client in clients:
            client.close()
        served.process.kill()
        served.process.wait()


# The drawn streams.

Reply = namedtuple("Reply", "line value stamp")
Told = namedtuple("Told", "command key value stamp least")


class Log:
    """What the clients of a server were told, all together."""

    def __init__(self):
        self.rows, self.commits, self.released = [Rows(MEMBERS)], {}, {}
        self.values, self.leases = [], [("profile:1", 1)]

    def release(self, commits):
        """The keys of a session's commit are released, each with the commit's number."""
        for key, number in commits.items():
            self.released[key] = max(number, self.released.get(key, 0))

    def judge(self):
        """Whether each value that was told since is right. Each commit is told by now."""
        while len(self.rows) in self.commits:
            self.rows.append(self.rows[-1].after(self.commits.pop(len(self.rows))))
        expect(self.commits, {})
        for told in self.values:
            if told.stamp >= len(self.rows):
                raise AssertionError(f"{told}: there are {len(self.rows) - 1} commits")
            answer = self.rows[told.stamp].answer(key_of(told.key))
            if told.value != answer:
                raise AssertionError(f"{told}: the key's answer is {answer!r}")
            if told.stamp < told.least:
                raise AssertionError(f"{told}: commit {told.least} is left out")
        self.values.clear()


class Client:
    """A connection and the course of its client: a generator that gives commands and is sent their replies. A command is
    a line, or a line and its block."""

    def __init__(self, served, log, draw, course):
        self.log, self.draw, self.sid, self.commits = log, draw, 0, {}
        self.is_liar = course is lie
        self.socket = served.connect()
        self.socket.setsockopt(socket.IPPROTO_TCP, socket.TCP_NODELAY, 1)
        self.replies = self.socket.makefile("rb")
        self.course = course(self)
        self.say(next(self.course))

    def lies(self):
        return self.is_liar and self.draw.random() < LIES

    def go_on(self):
        """Hears a reply and says what comes next, or leaves. Whether something came."""
        reply = self.hear()
        try:
            self.say(self.course.send(reply))
        except StopIteration:
            self.leave()
            return False
        return True

    def say(self, said):
        self.said = said if isinstance(said, tuple) else (said,)
        self.words, self.known = self.said[0].split(" "), dict(self.log.released)
        self.socket.sendall("".join(f"{it}\r\n" for it in self.said).encode())

    def hear(self):
        """The reply to what was said last. What others have to know of it is noted."""
        line = self.line()
        head = self.line() if self.words[0] == "qaread" and line.startswith("GRANTED ") else line
        words, reply = head.split(" "), Reply(line, None, None)
        if words[0] == "VALUE":
            value = self.replies.read(int(words[3]) + 2).decode()[:-2]
            expect(self.line(), "END")
            reply = Reply(line, value, int(words[4]) if len(words) == 5 else None)
        self.note(reply)
        return reply

    def line(self):
        return self.replies.readline().decode().removesuffix("\r\n")

    def note(self, reply):
        verb, told, *numbers = self.words[0], *reply.line.split(" ")
        if told in ("", "SERVER_ERROR"):
            raise AssertionError(f"to {self.said} came {reply.line!r}")
        if told == "SESSION":
            self.sid = int(numbers[0])
        elif told == "LEASE":
            self.log.leases.append((self.words[1], int(numbers[0])))
        elif told == "COMMITTED":
            self.note_commit(int(numbers[0]), txn_of(self.words[2:]))
        elif told == "RELEASED":
            self.release(list(self.commits))
        elif verb in ("dar", "sar", "iqcommit") and told in ("DELETED", "STORED", "NOT_FOUND"):
            self.release([self.words[1]])
        elif verb == "iqset" and told == "STORED":
            self.note_value(self.said[1], int(self.words[6]))
        if reply.stamp is not None:
            self.note_value(reply.value, reply.stamp)

    def note_commit(self, number, txn):
        self.log.commits[number] = txn
        self.commits = {key_text(key): number for key in footprint(txn)}

    def note_value(self, value, stamp):
        key, floor = self.words[1], int(self.words[3]) if self.words[0] == "iqget" else 0
        self.log.values.append(Told(" ".join(self.words), key, value, stamp, max(floor, self.known.get(key, 0))))

    def release(self, keys):
        self.log.release({key: self.commits.pop(key) for key in keys if key in self.commits})

    def leave(self):
        self.socket.shutdown(socket.SHUT_WR)
        expect(self.replies.read(), b"")
        self.replies.close()
        self.socket.close()
        self.release(list(self.commits))


def set_of(key, token, value, stamp):
    return f"iqset {key} 0 0 {len(value)} {token} {stamp}", value


def sar_of(key, value, sid):
    return f"sar {key} 0 0 {len(value)} {sid}", value


def begin(client, role):
    """A session. The one before is given up, where it is busy."""
    reply = yield f"begin {role}"
    if reply.line == "CLIENT_ERROR session busy":
        yield f"iqabort {client.sid}"
        yield f"begin {role}"


def read(client):
    """A session that reads. A liar hands in something else than what it was answered under its lease."""
    draw = client.draw
    yield from begin(client, "read")
    for _ in range(draw.randint(1, 4)):
        key, floor = draw.choice(KEYS), draw.choice((0, max(client.known.values(), default=0)))
        got = yield f"iqget {key} {client.sid} {floor}"
        leases = [(key, int(got.line.split(" ")[1]))] if got.line.startswith("LEASE ") else []
        if client.lies():
            yield from set_falsely(client, *draw.choice(leases * 9 + client.log.leases[-9:]))
        elif leases:
            answer = yield f"ask {key} {client.sid}"
            yield set_of(*leases[0], answer.value, answer.stamp)


def set_falsely(client, key, token):
    """A set under any lease, perhaps another's, of an answer that may be forgotten, before the lease or another key's."""
    draw, values = client.draw, [made_up(client, key)]
    for _ in range(draw.choice((0, 1, 6))):
        answer = yield f"ask {key if draw.random() < 0.9 else draw.choice(KEYS)} {client.sid}"
        values.append((answer.value, answer.stamp))
    yield set_of(key, token + draw.choice((-1, 0, 0, 0, 1)), *draw.choice(values[:3]))


def made_up(client, key):
    """A value and a stamp that are near to what somebody was told of the key."""
    values = [(it.value, it.stamp) for it in client.log.values if it.key == key] or [("0", 0)]
    value, stamp = client.draw.choice(values)
    return client.draw.choice((value, value, value + "1", "")), max(0, stamp + client.draw.choice((-1, 0, 0, 1, 9)))


def drawn_txn(client):
    """A transaction, more often one that applies to the rows at the stream's begin."""
    draw, rows = client.draw, client.log.rows[-1]
    verbs = draw.choices(TXN_VERBS, k=draw.choice((1, 1, 2)))
    for _ in range(draw.choice((1, 50, 50))):
        txn = [change_of(draw, verb) for verb in verbs]
        try:
            rows.after(txn)
            break
        except Rejected:
            pass
    return txn


def change_of(draw, verb):
    a, b = draw.randint(1, MEMBERS), draw.randint(1, MEMBERS + 1)
    return (verb, a, f"n{b}") if verb == "rename" else (verb, a, b)


def text_of(txn):
    return " + ".join(f"{verb} {a} {b}" for verb, a, b in txn)


def write(client):
    """A session that writes. A liar leaves some of it out, and hands in other numbers and values."""
    draw, txn, held = client.draw, drawn_txn(client), {}
    yield from begin(client, "write")
    for key in map(key_text, footprint(txn)):
        verb = draw.choice(("qareg", "qaread", "iqdelta" if key.startswith("n") else "qareg"))
        by = f" {delta(key_of(key), txn) + draw.randint(-2, 2) * client.lies()}" if verb == "iqdelta" else ""
        reply = yield f"{verb} {key} {client.sid}{by}"
        if reply.line.startswith("REFUSED ") and not client.lies():
            break
        if reply.value is not None:
            reply = yield f"stage {key} {client.sid} {text_of(txn)}"
        held[key] = verb, reply.value
        if client.lies():
            yield from say_anything(client)
    reply = yield f"sql {client.sid} {text_of(txn)}"
    if not reply.line.startswith("COMMITTED ") and not client.lies():
        held = {}
    for key, (verb, value) in held.items():
        if client.lies():
            yield from say_anything(client)
        elif client.lies():
            yield sar_of(key, made_up(client, key)[0], client.sid)
        elif verb == "iqdelta":
            yield f"iqcommit {key} {client.sid}"
        else:
            yield f"dar {key} {client.sid}" if value is None else sar_of(key, value, client.sid)
    if not client.lies():
        yield f"iqabort {client.sid}"


def say_anything(client):
    """A command, whatever the session is."""
    draw, (key, token) = client.draw, client.draw.choice(client.log.leases[-9:])
    key, sid = draw.choice((key, draw.choice(KEYS))), max(0, client.sid + draw.choice((0, 0, 0, -1, 1)))
    value, stamp = made_up(client, key)
    lines = [f"{verb} {key} {sid}" for verb in ("ask", "qareg", "qaread", "dar", "iqcommit")]
    lines += [f"iqget {key} {sid} 0", f"iqdelta {key} {sid} {draw.randint(-2, 2)}", f"iqabort {sid}"]
    lines += [f"sql {sid} {text_of(drawn_txn(client))}", f"begin {draw.choice(('read', 'write'))}"]
    yield draw.choice(lines + [set_of(key, token, value, stamp), sar_of(key, value, sid)] * 2)


def lie(client):
    for _ in range(client.draw.randint(3, 9)):
        yield from client.draw.choice((read, read, write, write, say_anything))(client)


def be_honest(client):
    for _ in range(client.draw.randint(3, 9)):
        yield from client.draw.choice((read, write))(client)


def look_at_all(client):
    """Gets every key until it is a hit. No quarantine is left on any; a lease that was left goes with a quarantine."""
    yield from begin(client, "write")
    for key in KEYS:
        got = yield f"iqget {key} {client.sid} 0"
        if got.line == "AGAIN I":
            yield f"qareg {key} {client.sid}"
            yield f"iqabort {client.sid}"
            got = yield f"iqget {key} {client.sid} 0"
        if got.line.startswith("LEASE "):
            answer = yield f"ask {key} {client.sid}"
            yield set_of(key, got.line.split(" ")[1], answer.value, answer.stamp)
            got = yield f"iqget {key} {client.sid} 0"
        if got.value is None:
            raise AssertionError(f"to {client.said} came {got.line!r} in place of a value")


def play_streams(program, draw, count):
    """So many streams over one server, each with connections of its own."""
    served, log = Server(program, [(LIARS + 2) * count, LIARS + 1, draw.choice((1, 2, 7)), MEMBERS]), Log()
    try:
        for _ in range(count):
            clients = [Client(served, log, draw, course) for course in [lie] * LIARS + [be_honest]]
            while clients:
                client = draw.choice(clients)
                if not client.go_on():
                    clients.remove(client)
            last = Client(served, log, draw, look_at_all)
            while last.go_on():
                pass
            log.judge()
        served.served((LIARS + 2) * count)
    finally:
        served.process.kill()
        served.process.wait()


def is_right(name, play, *words):
    """Whether it went as it must. Else it is told what went wrong."""
    try:
        play(*words)
    except (AssertionError, OSError, Rejected, ValueError) as wrong:
        print(f"lying_clients: {name}: {wrong}", file=sys.stderr)
        return False
    return True


def main(words):
    program, streams, seed = (words + ["1000", "1"][len(words) - 1 :])[:3]
    right = [is_right(name, play_case, program, 3, turns) for name, turns in CASES.items()]
    right += [is_right(name, play_case, program, 1, turns) for name, turns in ONE_BY_ONE.items()]
    for begun in range(0, int(streams), BATCH):
        draw, count = random.Random(f"{seed} {begun}"), min(BATCH, int(streams) - begun)
        right.append(is_right(f"streams {begun + 1} to {begun + count}", play_streams, program, draw, count))
    print(f"{sum(right)} passed, {len(right) - sum(right)} failed")
    return 0 if all(right) else 1


if __name__ == "__main__":
    sys.exit(main(sys.argv[1:]))

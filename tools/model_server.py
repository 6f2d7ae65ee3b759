"""A model of `iq serve` in plain Python, by the rules of docs/protocol.md and docs/script.md. It shares no code with it.

It is slow, has no threads, and knows no time: no lease of it ever ends by its deadline. `drawn_streams.py` compares
a server's bytes with it.
"""

KINDS = ("profile", "friends", "pending", "nfriends", "npending", "blocked")
VERBS = ("begin", "iqget", "ask", "stage", "iqset", "qareg", "qaread", "iqdelta", "sql", "dar", "sar", "iqcommit", "iqabort", "quit")
MOST_LINE, MOST_BLOCK, MOST_GRANTS, MOST_ID, MOST_ANSWERS = 2048, 1_048_576, 64, 100_000, 4
MODES = {"qareg": "invalidate", "qaread": "refresh", "iqdelta": "delta"}
RELEASES = {"dar": None, "sar": "refresh", "iqcommit": "delta"}


class Rejected(Exception):
    """The change at this place doesn't apply."""


class BadLine(Exception):
    """The line isn't of its verb's form."""


def canonical(word, most):
    """The number from 1 to `most` without a zero in front, or None."""
    if not word.isdigit() or not word.isascii() or word[0] == "0" or int(word) > most:
        return None
    return int(word)


def key_of(word):
    kind, colon, digits = word.partition(":")
    number = canonical(digits, MOST_ID) if colon and kind in KINDS else None
    return None if number is None else (kind, number)


def key_text(key):
    return f"{key[0]}:{key[1]}"


def shard_of(key, count):
    at = 0xCBF29CE484222325
    for byte in key_text(key).encode():
        at = ((at ^ byte) * 0x100000001B3) % 2**64
    return at % count


class Rows:
    """Members by their ids, invitations (who invited, who was), friends (the lesser id first) and blocks."""

    def __init__(self, members):
        self.names = {number: f"m{number}" for number in range(1, members + 1)}
        self.invited, self.friends, self.blocks = set(), set(), set()

    def copy(self):
        other = Rows(0)
        other.names = dict(self.names)
        other.invited, other.friends, other.blocks = set(self.invited), set(self.friends), set(self.blocks)
        return other

    def are_linked(self, a, b):
        return bool({(a, b), (b, a)} & (self.invited | self.friends))

    def are_members(self, a, b):
        return a != b and a in self.names and b in self.names

    def apply(self, change):
        """Makes a change, and tells whether it applies."""
        verb, a, b = change
        pair = (min(a, b), max(a, b)) if verb != "rename" else None
        if verb == "invite":
            fits = self.are_members(a, b) and not self.are_linked(a, b) and not {(a, b), (b, a)} & self.blocks
            self.invited |= {(a, b)} if fits else set()
        elif verb in ("accept", "reject"):
            fits = (a, b) in self.invited
            self.invited -= {(a, b)}
            self.friends |= {pair} if fits and verb == "accept" else set()
        elif verb == "thaw":
            fits = a != b and pair in self.friends
            self.friends -= {pair}
        elif verb == "block":
            fits = self.are_members(a, b) and not self.are_linked(a, b) and (a, b) not in self.blocks
            self.blocks |= {(a, b)} if fits else set()
        else:
            fits = a in self.names
            if fits:
                self.names[a] = b
        return fits

    def after(self, txn):
        rows = self.copy()
        for place, change in enumerate(txn):
            if not rows.apply(change):
                raise Rejected(place)
        return rows

    def answer(self, key):
        kind, who = key
        friends = sorted({a + b - who for a, b in self.friends if who in (a, b)})
        invited = sorted(a for a, b in self.invited if b == who)
        if kind == "profile":
            return f"{self.names[who]} {len(friends)} {len(invited)}" if who in self.names else "-"
        if kind in ("nfriends", "npending"):
            return str(len(friends if kind == "nfriends" else invited))
        blocked = sorted(b for a, b in self.blocks if a == who)
        return ",".join(map(str, {"friends": friends, "pending": invited, "blocked": blocked}[kind]))


def footprint(txn):
    """The keys that a transaction touches, in their order."""
    keys = set()
    for verb, a, b in txn:
        if verb == "rename":
            keys.add(("profile", a))
        elif verb == "block":
            keys.add(("blocked", a))
        else:
            keys |= {("profile", b)}
            if verb in ("invite", "accept", "reject"):
                keys |= {("pending", b), ("npending", b)}
            if verb in ("accept", "thaw"):
                keys |= {("profile", a), ("friends", a), ("friends", b), ("nfriends", a), ("nfriends", b)}
    return sorted(keys, key=lambda key: (KINDS.index(key[0]), key[1]))


def delta(key, txn):
    """What a transaction adds to a count."""
    kind, who = key
    if kind == "nfriends":
        return sum({"accept": 1, "thaw": -1}.get(verb, 0) for verb, a, b in txn if who in (a, b))
    return sum({"invite": 1, "accept": -1, "reject": -1}.get(verb, 0) for verb, a, b in txn if b == who)


class Key:
    """What the cache has on a key: an entry (value, stamp), a lease to read by its token, and quarantines
    (session, mode, token), the earliest first."""

    def __init__(self):
        self.entry, self.lease, self.quarantines = None, None, []


class Grant:
    """A quarantine that a session holds: its key, mode, token, by how much it is to shift the value, and whether an old
    value came along with it."""

    def __init__(self, key, mode, token, by, has_old):
        self.key, self.mode, self.token, self.by, self.has_old = key, mode, token, by, has_old


class Book:
    """What the server told a client for its present session, and judges what it hands in by: the last lease, what the
    store has answered for that key since, and the committed transaction with the rows behind it."""

    def __init__(self):
        self.lease, self.answers, self.txn, self.rows = None, [], None, None

    def note_lease(self, key, token):
        self.lease, self.answers = (key, token), []

    def note_answer(self, key, value, stamp):
        if self.lease and self.lease[0] == key:
            self.answers = (self.answers + [(value, stamp)])[-MOST_ANSWERS:]

    def bears_set(self, key, token, value, stamp):
        return self.lease == (key, token) and (value, stamp) in self.answers

    def bears_put(self, grant, value):
        """Whether the value is the old one as the transaction changes it. No other session's changes the key meanwhile."""
        return grant.has_old and value == self.rows.answer(grant.key)

    def bears_shift(self, grant):
        return grant.by == delta(grant.key, self.txn)


class Server:
    def __init__(self, members, shards):
        self.rows, self.commits, self.sessions = Rows(members), 0, 0
        self.tokens, self.keys = [1] * shards, {}

    def at(self, key):
        return self.keys.setdefault(key, Key())

    def token(self, key):
        shard = shard_of(key, len(self.tokens))
        self.tokens[shard] += 1
        return self.tokens[shard] - 1

    def get(self, key, who, floor):
        at = self.at(key)
        if any(other == who for other, _, _ in at.quarantines):
            return "OWN"
        if at.entry and at.entry[1] >= floor:
            return stamped(key, at.entry)
        at.entry = None
        if at.quarantines or at.lease:
            return "AGAIN Q" if at.quarantines else "AGAIN I"
        at.lease = self.token(key)
        return f"LEASE {at.lease}"

    def set(self, key, token, value, stamp):
        at = self.at(key)
        if at.lease is None or at.lease != token:
            return "NOT_STORED"
        at.entry, at.lease = (value, stamp), None
        return "STORED"

    def quarantine(self, key, who, mode, by):
        """The grant, or what is told in its place."""
        at = self.at(key)
        own = [held for held in at.quarantines if held[0] == who]
        if own and own[0][1] == mode:
            return None, "HELD"
        others = own or at.quarantines
        if others and (own or mode != "invalidate" or others[0][1] != "invalidate"):
            return None, f"REFUSED {others[0][0]} {others[0][1]}"
        grant = Grant(key, mode, self.token(key), by, at.entry is not None)
        at.lease = None
        at.quarantines.append((who, mode, grant.token))
        return grant, None

    def release(self, who, grant, entry):
        at = self.at(grant.key)
        at.quarantines.remove((who, grant.mode, grant.token))
        at.entry = entry


def stamped(key, entry):
    return f"VALUE {key_text(key)} 0 {len(entry[0].encode())} {entry[1]}\r\n{entry[0]}\r\nEND"


class Client:
    """A connection: its present session, the grants that this holds, and its book. What the book doesn't bear out is made
    in a safe form: a set is void, and a release drops the key's value."""

    def __init__(self, server):
        self.server, self.sid, self.stage, self.grants, self.number = server, 0, None, [], None
        self.book = Book()

    def is_busy(self):
        return self.stage == "open" or bool(self.grants)

    def grant(self, key):
        return next((grant for grant in self.grants if grant.key == key), None)

    def refusal(self, verb, args):
        """The first error that is due, if one is."""
        key, mode = args.get("key", ""), RELEASES.get(verb)
        grant = self.grant(key)
        releases, quarantines = verb in RELEASES, verb in MODES
        due = (
            (verb == "begin" and self.is_busy(), "session busy"),
            (key is None, "not a query key"),
            (args.get("flags"), "flags"),
            (args.get("exptime"), "exptime"),
            ("sid" in args and (self.stage is None or args["sid"] != self.sid), "not yours"),
            (self.stage == "read" and (quarantines or releases or verb in ("stage", "sql", "iqabort")), "read session"),
            (quarantines and self.stage == "committed", "committed"),
            (quarantines and len(self.grants) >= MOST_GRANTS, "too many"),
            (verb == "iqdelta" and key and key[0] not in ("nfriends", "npending"), "not count"),
            (releases and self.stage != "committed", "not committed"),
            (releases and grant is None, "no grant"),
            (mode and grant and grant.mode != mode, "mode"),
        )
        return next((f"CLIENT_ERROR {told}" for holds, told in due if holds), None)

    def answer(self, verb, args):
        return self.refusal(verb, args) or getattr(self, f"do_{verb}")(**args)

    def do_begin(self, role):
        self.server.sessions += 1
        self.sid, self.stage, self.number = self.server.sessions, "read" if role == "read" else "open", None
        self.book = Book()
        return f"SESSION {self.sid}"

    def do_iqget(self, key, sid, floor):
        told = self.server.get(key, sid, floor)
        if told.startswith("LEASE "):
            self.book.note_lease(key, self.server.at(key).lease)
        return told

    def do_ask(self, key, sid):
        answer = (self.server.rows.answer(key), self.server.commits)
        self.book.note_answer(key, *answer)
        return stamped(key, answer)

    def do_stage(self, key, sid, txn):
        try:
            value = self.server.rows.after(txn).answer(key)
        except Rejected as rejected:
            return f"REJECTED {rejected.args[0]}"
        return f"VALUE {key_text(key)} 0 {len(value.encode())}\r\n{value}\r\nEND"

    def do_iqset(self, key, flags, exptime, token, stamp, block):
        return self.server.set(key, token if self.book.bears_set(key, token, block, stamp) else 0, block, stamp)

    def do_qareg(self, key, sid, by=0, verb="qareg"):
        grant, told = self.server.quarantine(key, sid, MODES[verb], by)
        if grant is None:
            return told
        self.grants.append(grant)
        if verb == "qaread":
            entry = self.server.at(key).entry
            return f"GRANTED {grant.token}\r\n" + (stamped(key, entry) if entry else "END")
        return f"GRANTED {grant.token}"

    def do_qaread(self, key, sid):
        return self.do_qareg(key, sid, verb="qaread")

    def do_iqdelta(self, key, sid, by):
        return self.do_qareg(key, sid, by, verb="iqdelta")

    def do_sql(self, sid, txn):
        if self.stage != "open":
            return "ENDED"
        for key in footprint(txn):
            if self.grant(key) is None:
                return f"UNCOVERED {key_text(key)}"
        try:
            self.server.rows = self.server.rows.after(txn)
        except Rejected as rejected:
            return f"REJECTED {rejected.args[0]}"
        self.server.commits += 1
        self.stage, self.number = "committed", self.server.commits
        self.book.txn, self.book.rows = txn, self.server.rows
        return f"COMMITTED {self.number}"

    def spend(self, key, entry):
        grant = self.grant(key)
        self.server.release(self.sid, grant, entry)
        self.grants.remove(grant)

    def do_dar(self, key, sid):
        self.spend(key, None)
        return "DELETED"

    def do_sar(self, key, flags, exptime, sid, block):
        self.spend(key, (block, self.number) if self.book.bears_put(self.grant(key), block) else None)
        return "STORED"

    def do_iqcommit(self, key, sid):
        entry, grant = self.server.at(key).entry, self.grant(key)
        is_shifted = entry and self.book.bears_shift(grant)
        self.spend(key, (str(int(entry[0]) + grant.by), self.number) if is_shifted else None)
        return "STORED"

    def do_iqabort(self, sid):
        return f"RELEASED {self.give_up()}"

    def give_up(self):
        count = len(self.grants)
        for grant in list(self.grants):
            self.spend(grant.key, None if self.stage == "committed" else self.server.at(grant.key).entry)
        if self.stage == "open":
            self.stage = "aborted"
        return count


def number(word, most=2**64 - 1):
    if not (word.isascii() and word.isdigit() and len(word) <= 20 and int(word) <= most):
        raise BadLine
    return int(word)


def change_of(words):
    verb, first, second = words
    a = canonical(first, 2**32 - 1)
    if verb == "rename":
        b = second if 1 <= len(second) <= 40 and all("!" <= letter <= "~" for letter in second) else None
    else:
        b = canonical(second, 2**32 - 1) if verb in ("invite", "accept", "reject", "thaw", "block") else None
    if a is None or b is None:
        raise BadLine
    return verb, a, b


def txn_of(words):
    if len(words) % 4 != 3 or len(words) > 31 or any(word != "+" for word in words[3::4]):
        raise BadLine
    return [change_of(words[at : at + 3]) for at in range(0, len(words), 4)]


def by_of(word):
    digits = word[1:] if word.startswith("-") else word
    by = -number(digits) if word.startswith("-") else number(digits)
    if not -(2**31) <= by < 2**31:
        raise BadLine
    return by


def key_word(word):
    if len(word) > 250 or any(letter <= " " or letter == "\x7f" for letter in word):
        raise BadLine
    return key_of(word)


FIELDS = {
    "begin": ("role",),
    "iqget": ("key", "sid", "floor"),
    "ask": ("key", "sid"),
    "iqset": ("key", "flags", "exptime", "bytes", "token", "stamp"),
    "qareg": ("key", "sid"),
    "qaread": ("key", "sid"),
    "iqdelta": ("key", "sid", "by"),
    "dar": ("key", "sid"),
    "sar": ("key", "flags", "exptime", "bytes", "sid"),
    "iqcommit": ("key", "sid"),
    "iqabort": ("sid",),
    "quit": (),
    "stage": ("key", "sid"),
    "sql": ("sid",),
}


def field(name, word):
    if name == "role":
        if word not in ("read", "write"):
            raise BadLine
        return word
    if name == "key":
        return key_word(word)
    if name == "by":
        return by_of(word)
    return number(word, 2**32 - 1 if name == "flags" else 2**64 - 1)


def args_of(verb, words):
    names, rest = FIELDS[verb], []
    if verb in ("stage", "sql"):
        words, rest = words[: len(names)], words[len(names) :]
    if len(words) != len(names):
        raise BadLine
    args = {name: field(name, word) for name, word in zip(names, words)}
    if verb in ("stage", "sql"):
        args["txn"] = txn_of(rest)
    return args


class Connection:
    """What a connection is told, whatever the pieces in which its client's bytes come."""

    def __init__(self, server):
        self.client, self.bytes, self.is_over = Client(server), b"", False

    def feed(self, more):
        """What is told once these bytes have come behind those before."""
        self.bytes += more
        told = []
        while not self.is_over:
            line = self.next_told()
            if line is None:
                break
            told += [line] if line else []
        return "".join(line + "\r\n" for line in told).encode("latin-1")

    def close(self):
        """The client sends no more."""
        self.shut("", b"")

    def next_told(self):
        """What the command in front is told, "" where it is told nothing, and None where no whole one is there."""
        end = self.bytes.find(b"\r\n", 0, MOST_LINE + 2)
        if end < 0:
            if len(self.bytes) < MOST_LINE + 2:
                return None
            return self.shut("CLIENT_ERROR long line", self.bytes[MOST_LINE + 2 :])
        words = [word for word in self.bytes[:end].decode("latin-1").split(" ") if word]
        rest = self.bytes[end + 2 :]
        verb = words[0] if words else ""
        if verb not in VERBS:
            self.bytes = rest
            return "ERROR"
        try:
            args = args_of(verb, words[1:])
        except BadLine:
            self.bytes = rest
            return "CLIENT_ERROR bad line"
        if verb == "quit":
            return self.shut("", rest)
        if "bytes" in args:
            size = args.pop("bytes")
            if size > MOST_BLOCK:
                return self.shut("CLIENT_ERROR big block", rest)
            if len(rest) < size + 2:
                return None
            if rest[size : size + 2] != b"\r\n":
                return self.shut("CLIENT_ERROR bad block", rest[size + 2 :])
            args["block"], rest = rest[:size].decode("latin-1"), rest[size + 2 :]
        self.bytes = rest
        return self.client.answer(verb, args)

    def shut(self, told, rest):
        """The connection ends, its session is given up, and nobody reads the rest."""
        self.is_over, self.bytes = True, rest
        self.client.give_up()
        return told

"""The state of all that takes part, and what a wrong value is."""
from typing import Iterator, Literal, NamedTuple

from database import NO_TX, Database, committed
from rules import Rules
from server import TWICE, Server, Session, Token, begun
from setups import Setup

# What a writer knows of its transaction's end.
End = Literal["unknown", "committed", "rolled back"]


class Writer(NamedTuple):
    """Asks for its quarantines in the order of its keys, and releases them in that order."""

    session: Session | None
    asked: int  # so many of its keys
    end: End
    released: int  # so many of its keys


class Reader(NamedTuple):
    token: Token | None  # of its lease
    value: int | None  # what the database answered
    rounds: int  # left


class Opener(NamedTuple):
    run: int  # of the server, as it said; 0: it wasn't asked yet
    life: int  # that it put into the database; 0: not yet


class State(NamedTuple):
    server: Server
    database: Database
    writers: tuple[Writer, ...]
    readers: tuple[Reader, ...]
    openers: tuple[Opener, ...]
    over: frozenset[Session]  # somebody knows of these that they have committed or never will
    restarts: int  # left
    copies: int  # left


# What happens, in words, and what is left.
Step = tuple[str, State]
Steps = Iterator[Step]


def touching(setup: Setup, key: int) -> int:
    """The transactions that change this key's answer, as bits."""
    return sum(1 << i for i, writes in enumerate(setup.writers) if any(it.key == key for it in writes))


class Model:
    """Who takes part, and by which rules."""

    def __init__(self, setup: Setup, rules: Rules) -> None:
        self.setup = setup
        self.rules = rules
        self.keys = 1 + max(write.key for writes in setup.writers for write in writes)
        self.touching = [touching(setup, key) for key in range(self.keys)]

    def start(self) -> State:
        """Server and database are in life 1, nothing is cached, and nobody has begun."""
        setup = self.setup
        return State(
            begun(1, 1, self.keys),
            Database(1, frozenset(), (NO_TX,) * len(setup.writers)),
            (Writer(None, 0, "unknown", 0),) * len(setup.writers),
            (Reader(None, None, setup.rounds),) * len(setup.readers),
            (Opener(0, 0),) * setup.openers,
            frozenset(),
            setup.restarts,
            setup.copies,
        )

    def wrong(self, state: State) -> str | None:
        """What is wrong with a value at the server. A get may come at any moment, so each value is a hit."""
        done = committed(state.database)
        for key, item in enumerate(state.server.items):
            if item.value is None:
                continue
            if item.value & TWICE:
                return f"key {key} holds a change twice"
            if item.value & ~done:
                return f"key {key} holds a change that isn't committed"
            lacks = done & self.touching[key] & ~item.value
            for i, writer in enumerate(state.writers):
                if lacks & 1 << i and all(it.session != writer.session for it in item.quarantines):
                    return f"key {key} is stale: w{i} has committed, and has no quarantine there"
        return None

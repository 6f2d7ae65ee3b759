"""Who takes part in a search: the bounds of what is searched."""
from dataclasses import dataclass

from server import Mode


@dataclass(frozen=True)
class Write:
    """What a writer does to one key: how it releases it behind its commit."""

    key: int
    how: Mode


@dataclass(frozen=True)
class Setup:
    writers: tuple[tuple[Write, ...], ...]  # what each does in its one transaction
    readers: tuple[int, ...] = (0,)  # the key of each
    rounds: int = 1  # so often each reads it
    restarts: int = 0  # of the server, at most
    openers: int = 0  # clients that open it, each once at most
    copies: int = 0  # words of writers to the server that arrive once more, at most
    numbers: tuple[int, ...] = (1, 2, 3)  # of each writer's session, in its life


def invalidates(*keys: int) -> tuple[Write, ...]:
    return tuple(Write(key, "invalidate") for key in keys)


def refreshes(key: int) -> tuple[Write, ...]:
    return (Write(key, "refresh"),)


def shifts(key: int) -> tuple[Write, ...]:
    return (Write(key, "shift"),)


# Searched by --quick too, with all parts in. A part that is taken away is looked for in one of these.
QUICK: dict[str, Setup] = {
    "one": Setup((invalidates(0),), rounds=2),
    "refresh": Setup((refreshes(0), invalidates(0))),
    "late words": Setup((refreshes(0), invalidates(0)), readers=(), copies=2),
    "restart": Setup((invalidates(0),), restarts=1, openers=1),
    "two lives": Setup((invalidates(0),), readers=(0, 0), openers=1),
    "one number": Setup((invalidates(0), invalidates(0)), openers=1, numbers=(1, 1)),
}

# Searched where no bounds are asked for, besides.
MIDDLE: dict[str, Setup] = {
    "shift": Setup((shifts(0), invalidates(0))),
    "two readers": Setup((invalidates(0),), readers=(0, 0), restarts=1, openers=1),
    "two openers": Setup((invalidates(0),), restarts=1, openers=2),
    "two refreshes": Setup((refreshes(0), refreshes(0)), readers=(0, 0)),
    "two keys": Setup((invalidates(0, 1), refreshes(1))),
    "late words, a reader": Setup((refreshes(0), invalidates(0)), copies=2),
}

# Searched by --long, besides.
LONG: dict[str, Setup] = {
    "two keys, two readers": Setup((invalidates(0, 1), refreshes(1)), readers=(0, 1)),
    "both modes in one": Setup((refreshes(0) + invalidates(1), shifts(1)), readers=(0, 1)),
    "three writers": Setup((refreshes(0), invalidates(0), shifts(0))),
    "refresh, a restart": Setup((refreshes(0), invalidates(0)), rounds=2, restarts=1, openers=1),
    "shift, a restart": Setup((shifts(0), refreshes(0)), rounds=2, restarts=1, openers=1),
    "late words, a restart": Setup((refreshes(0), invalidates(0)), restarts=1, openers=1, copies=2),
    "two restarts": Setup((invalidates(0),), readers=(0, 0), restarts=2, openers=2),
    "three openers": Setup((invalidates(0),), restarts=2, openers=3),
    "two of each, a restart": Setup((invalidates(0), invalidates(0)), readers=(0, 0), restarts=1, openers=1),
}

SETUPS = QUICK | MIDDLE | LONG

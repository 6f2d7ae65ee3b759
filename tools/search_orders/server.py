"""The cache server: what it knows of its keys, and what each request leaves.

A value is the set of the transactions that it holds, a bit for each: bit i is of writer i. Nothing here knows the
time. That a deadline passes is a step of `clients.py` which may come at any moment.
"""
from typing import Literal, NamedTuple

from rules import Rules

Mode = Literal["invalidate", "refresh", "shift"]
How = Literal["keep", "drop", "put", "shift"]

# The bit of a value that was shifted by one transaction twice.
TWICE = 1 << 16


class Session(NamedTuple):
    """A writer's. It carries the server's life in which it began."""

    life: int
    number: int


class Token(NamedTuple):
    """A lease's. It carries the life too."""

    life: int
    number: int


class Quarantine(NamedTuple):
    session: Session
    is_joint: bool  # to invalidate: stands beside others of its kind. One to refresh or to shift stands alone


class Item(NamedTuple):
    """What the server knows of a key."""

    value: int | None
    lease: Token | None
    quarantines: tuple[Quarantine, ...]


class Server(NamedTuple):
    run: int
    life: int  # 0: it is closed, and answers no lease command
    leases: int  # given in this life
    items: tuple[Item, ...]


NOTHING = Item(None, None, ())


def begun(run: int, life: int, keys: int) -> Server:
    return Server(run, life, 0, (NOTHING,) * keys)


def with_item(server: Server, key: int, item: Item) -> Server:
    return server._replace(items=server.items[:key] + (item,) + server.items[key + 1 :])


def give_lease(server: Server, key: int, rules: Rules) -> tuple[Token, Server] | None:
    """`iqget` that misses: a lease, where neither a lease nor a quarantine stands on the key."""
    item = server.items[key]
    if not server.life or item != NOTHING:
        return None
    token = Token(server.life if rules.token_life else 0, server.leases + 1)
    return token, with_item(server, key, Item(None, token, ()))._replace(leases=server.leases + 1)


def set_value(server: Server, key: int, token: Token, value: int) -> Server | None:
    """`iqset`: stored where its lease is on record, void else."""
    item = server.items[key]
    if item.lease != token:
        return None
    return with_item(server, key, item._replace(value=value, lease=None))


def quarantine(server: Server, key: int, session: Session, mode: Mode, rules: Rules) -> Server | None:
    """`qareg` and `qaread`: what is left where it is granted or held, nothing where it is refused or Gone."""
    if not server.life or session.life != server.life:
        return None
    item = server.items[key]
    asked = Quarantine(session, mode == "invalidate")
    if asked in item.quarantines:
        return server
    if any(other.session == session for other in item.quarantines):
        return None
    all_joint = asked.is_joint and all(other.is_joint for other in item.quarantines)
    if item.quarantines and rules.alone and not all_joint:
        return None
    lease = None if rules.void else item.lease
    return with_item(server, key, Item(item.value, lease, tuple(sorted((*item.quarantines, asked)))))


def of_session(item: Item, session: Session, rules: Rules) -> Quarantine | None:
    """The quarantine on the key that a release in this session, or a word that it is over, names."""
    for standing in item.quarantines:
        named = standing.session if rules.session_life else standing.session._replace(life=session.life)
        if named == session:
            return standing
    return None


def release(server: Server, key: int, session: Session, how: How, value: int, rules: Rules) -> Server | None:
    """`keep`, `dar`, `sar` and the shifts: nothing where the session has no quarantine there (Gone), or has one of
    another mode. `value` is what is put, or the bit that a shift adds."""
    item = server.items[key]
    ended = of_session(item, session, rules)
    if ended is None or (ended.is_joint and how in ("put", "shift")):
        return None
    left: int | None = item.value
    if how == "drop":
        left = None
    elif how == "put":
        left = value
    elif how == "shift" and item.value is not None:
        left = item.value | (TWICE if item.value & value else value)
    others = tuple(it for it in item.quarantines if it != ended)
    return with_item(server, key, Item(left, item.lease, others))


def over(server: Server, key: int, session: Session, rules: Rules) -> Server | None:
    """`over`: that session has committed or never will. Its quarantine ends and the value is dropped."""
    return release(server, key, session, "drop", 0, rules)


def lose_value(server: Server, key: int) -> Server:
    """`delete`, want of room, or a time that is over: the value and the lease go, quarantines stay."""
    return with_item(server, key, Item(None, None, server.items[key].quarantines))


def restart(server: Server, rules: Rules) -> Server:
    """All is forgotten, and the server is closed."""
    fresh = begun(server.run + 1, 0, len(server.items))
    return fresh if rules.closed else fresh._replace(life=server.life, leases=server.leases)


def open_server(server: Server, run: int, life: int, rules: Rules) -> Server | None:
    """`open`: refused where the run is another one, or the life isn't above the present one."""
    if (rules.run and run != server.run) or life <= server.life:
        return None
    return begun(server.run, life, len(server.items))

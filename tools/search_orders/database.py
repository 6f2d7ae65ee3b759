"""The site's database: transactions with snapshots, the rows of sessions, and the life in which sessions may commit."""
from typing import Literal, NamedTuple

from rules import Rules
from server import Session

# "sent": COMMIT is on its way, or before the database. It may take effect whether its client lives or not.
TxState = Literal["none", "open", "sent", "committed", "rolled back"]


class Tx(NamedTuple):
    """A writer's transaction."""

    state: TxState
    seen: int  # the transactions in its snapshot
    marked: bool  # it has inserted its session's row


class Database(NamedTuple):
    life: int
    fences: frozenset[Session]
    txs: tuple[Tx, ...]


NO_TX = Tx("none", 0, False)


def committed(database: Database) -> int:
    """The transactions that took effect, as bits."""
    return sum(1 << i for i, tx in enumerate(database.txs) if tx.state == "committed")


def with_tx(database: Database, i: int, tx: Tx) -> Database:
    return database._replace(txs=database.txs[:i] + (tx,) + database.txs[i + 1 :])


def is_running(tx: Tx) -> bool:
    return tx.state in ("open", "sent")


def begin(database: Database, i: int) -> Database:
    return with_tx(database, i, Tx("open", committed(database), False))


def has_life(database: Database, session: Session, rules: Rules) -> bool:
    """The foreign key: the session's life is in the database."""
    return session.life == database.life or not rules.old_life_ends


def mark(database: Database, i: int, session: Session, rules: Rules) -> Database | None:
    """Inserts the session's row. Refused where a fence has its place, or its life is gone."""
    if session in database.fences or not has_life(database, session, rules):
        return None
    return with_tx(database, i, database.txs[i]._replace(marked=True))


def end(database: Database, i: int, state: TxState) -> Database:
    """Commits or rolls back: of a transaction that was rolled back nothing is left."""
    return with_tx(database, i, Tx(state, database.txs[i].seen, database.txs[i].marked and state != "rolled back"))


def fence(database: Database, i: int, session: Session, rules: Rules) -> Database | None:
    """Inserts the session's row as a fence, where none is there. Waits for its transaction where that has marked:
    nothing. Behind it the session has committed, or never will."""
    tx = database.txs[i]
    if not rules.fence:
        return database
    if is_running(tx) and tx.marked:
        return None if rules.timeout_is_nothing else database
    if tx.state == "committed" or not has_life(database, session, rules):
        return database
    return database._replace(fences=database.fences | {session})


def open_life(database: Database, run: int, rules: Rules) -> Database | None:
    """Puts the next life in the place of the present one, whose rows go with it. Waits for each transaction that has
    marked: nothing."""
    if any(is_running(tx) and tx.marked for tx in database.txs):
        return None
    return Database(database.life + 1 if rules.lives_grow else run, frozenset(), database.txs)

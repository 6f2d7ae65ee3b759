"""The parts of the design, each of which may be taken away by itself.

A field of `Rules` is a part, and is true where the part is in. PARTS says of each what happens without it, and in
which setup (setups.py) the search then looks for a wrong value.
"""
from dataclasses import dataclass, fields, replace


@dataclass(frozen=True)
class Rules:
    # the writer
    quarantine_first: bool = True
    every_key: bool = True
    mark: bool = True
    reply_first: bool = True
    lost_reply_drops_nothing: bool = True
    lost_reply_keeps_nothing: bool = True
    keep_only_rolled_back: bool = True
    snapshot_behind: bool = True
    refresh_asked_once: bool = True
    # the reader
    lease_first: bool = True
    primary: bool = True
    # the server
    void: bool = True
    alone: bool = True
    closed: bool = True
    run: bool = True
    token_life: bool = True
    session_life: bool = True
    # fences and openings
    fence: bool = True
    timeout_is_nothing: bool = True
    old_life_ends: bool = True
    lives_grow: bool = True
    # the database
    durable: bool = True


ALL_IN = Rules()


@dataclass(frozen=True)
class Part:
    without: str
    setup: str


PARTS: dict[str, Part] = {
    "quarantine_first": Part("a writer asks for no quarantine, and deletes its keys behind its commit", "one"),
    "every_key": Part("a writer changes a key that it doesn't quarantine", "one"),
    "mark": Part("a transaction doesn't insert its session's row", "one"),
    "reply_first": Part("a writer releases its keys before the reply to COMMIT", "one"),
    "lost_reply_drops_nothing": Part("a writer that lost the reply to COMMIT drops its values all the same", "one"),
    "lost_reply_keeps_nothing": Part("a writer that lost the reply to COMMIT releases its keys, values kept", "one"),
    "keep_only_rolled_back": Part("a writer releases its keys behind its commit, values kept", "one"),
    "snapshot_behind": Part("a refresh is made over a snapshot from before its quarantine", "refresh"),
    "refresh_asked_once": Part("a quarantine to refresh is asked for again where the reply was lost", "late words"),
    "lease_first": Part("a reader asks the database before it asks for the lease", "one"),
    "primary": Part("a reader asks a replica that may lag", "one"),
    "void": Part("a quarantine doesn't end the lease of its key", "one"),
    "alone": Part("a quarantine to refresh is granted beside others", "refresh"),
    "closed": Part("a server that comes back gives leases at once", "restart"),
    "run": Part("an opening that was made for an earlier run of the server is taken", "restart"),
    "token_life": Part("tokens begin anew in each life, and don't carry it", "two lives"),
    "session_life": Part("a release, and the word that a session is over, name it without its life", "one number"),
    "fence": Part("the session of an overdue quarantine is taken to be over with no fence", "one"),
    "timeout_is_nothing": Part("a fence that waits too long is taken for done", "one"),
    "old_life_ends": Part("an opening leaves the old life in the database, so its sessions go on to mark", "restart"),
    "lives_grow": Part("a life is the number of the server's run, so that one that has been may come back", "restart"),
    "durable": Part("the database loses a commit that it had acknowledged", "one"),
}

assert list(PARTS) == [field.name for field in fields(Rules)]


def all_but(part: str) -> Rules:
    """The rules without that part."""
    return replace(ALL_IN, **{part: False})

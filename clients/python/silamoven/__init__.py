"""A client of the cache server Silamoven, whose leases rule out stale refills.

    from silamoven import Pool

    with Pool("127.0.0.1:7000") as pool:
        me = pool.own_reads()
        me.write("rename 2 bob")
        print(me.read("profile:2").text)

`Pool` reads and writes, and has memcached's own commands by the names of pymemcache. `silamoven.errors` lists what
can go wrong. The modules `commands` and `plain` have the single commands of the protocol, for a connection that a
pool lends.
"""

from .changes import Accept, Block, Change, Invite, Reject, Rename, Thaw, Txn
from .connection import Connection, Timeouts
from .errors import (
    CommandError,
    ConnectError,
    ConnectionLostError,
    EndedError,
    ExpiryError,
    FullError,
    InvalidInputError,
    NetworkError,
    NotANumberError,
    OutOfMemoryError,
    PoolClosedError,
    PoolError,
    PoolTimeoutError,
    ProtocolError,
    QueryKeyError,
    ReadTimeoutError,
    RefusedError,
    RejectedError,
    ReplyError,
    ServerError,
    SilamovenError,
    SpentError,
    StoreError,
    UnknownOutcomeError,
    WriteError,
)
from .keys import Key, Kind
from .modes import Mode
from .own_reads import OwnReads
from .plain import Item
from .pool import Pool
from .reading import Answer, Origin
from .values import Profile, parse_count, parse_ids
from .waits import Backoff, ReadTries, WriteTries

__all__ = [
    "Accept",
    "Answer",
    "Backoff",
    "Block",
    "Change",
    "CommandError",
    "ConnectError",
    "Connection",
    "ConnectionLostError",
    "EndedError",
    "ExpiryError",
    "FullError",
    "InvalidInputError",
    "Invite",
    "Item",
    "Key",
    "Kind",
    "Mode",
    "NetworkError",
    "NotANumberError",
    "Origin",
    "OutOfMemoryError",
    "OwnReads",
    "Pool",
    "PoolClosedError",
    "PoolError",
    "PoolTimeoutError",
    "Profile",
    "ProtocolError",
    "QueryKeyError",
    "ReadTimeoutError",
    "ReadTries",
    "RefusedError",
    "Reject",
    "RejectedError",
    "Rename",
    "ReplyError",
    "ServerError",
    "SilamovenError",
    "SpentError",
    "StoreError",
    "Thaw",
    "Timeouts",
    "Txn",
    "UnknownOutcomeError",
    "WriteError",
    "WriteTries",
    "parse_count",
    "parse_ids",
]

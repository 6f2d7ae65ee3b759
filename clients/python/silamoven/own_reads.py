"""Reads that are never older than one's own commits."""

from __future__ import annotations

import threading
from typing import TYPE_CHECKING, Optional, Union

from .changes import AnyTxn
from .keys import Key
from .modes import Mode
from .reading import Answer

if TYPE_CHECKING:
    from .pool import Pool


class OwnReads:
    """Reads and writes through a pool, and remembers the number of the last commit that it made.

    Each read has that number as its floor, so it is told of all of these commits, also where the writer's keys
    aren't released yet. One may be kept for a user from page to page by her `floor`. Threads may share one.
    """

    def __init__(self, pool: Pool, floor: int = 0) -> None:
        """
        Args:
            pool: what to read and write through.
            floor: the number of a commit that was made before.
        """
        self._pool = pool
        self._lock = threading.Lock()
        self._floor = floor

    @property
    def floor(self) -> int:
        """The number of the last commit; 0 before the first."""
        return self._floor

    def saw(self, number: int) -> None:
        """From now on no read is older than the commit of this number."""
        with self._lock:
            self._floor = max(self._floor, number)

    def read(self, key: Union[Key, str], floor: Optional[int] = None) -> Answer:
        """Reads as `Pool.read` does, with a floor that is no lower than one's own."""
        own = self._floor
        answer = self._pool.read(key, own if floor is None else max(own, floor))
        if answer.stamp < own:
            self._begin_anew(own, answer.stamp)
        return answer

    def write(self, txn: AnyTxn, mode: Union[Mode, str] = Mode.INVALIDATE) -> int:
        """Writes as `Pool.write` does, and remembers the number."""
        number = self._pool.write(txn, mode)
        self.saw(number)
        return number

    def _begin_anew(self, own: int, stamp: int) -> None:
        # The store knows fewer commits than were made: the server was started anew, and its numbers with it.
        with self._lock:
            if self._floor == own:
                self._floor = stamp

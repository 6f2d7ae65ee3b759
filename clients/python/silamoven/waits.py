"""How long to wait before something is tried again, in seconds."""

from __future__ import annotations

import random
from dataclasses import dataclass
from time import monotonic, sleep
from typing import Callable, Iterator, Tuple, Type, TypeVar

_T = TypeVar("_T")


def again(once: Callable[[], _T], waits: Iterator[float], causes: Tuple[Type[Exception], ...]) -> _T:
    """Does it, and again behind each wait where it failed by one of these. The last failure is raised."""
    while True:
        try:
            return once()
        except causes:
            wait = next(waits, None)
            if wait is None:
                raise
        sleep(wait)


@dataclass(frozen=True)
class Backoff:
    """Waits that grow while the server can't be reached.

    Each is drawn between half of it and all of it, so that many clients don't come back at one moment.

    Attributes:
        first: the first wait, in seconds.
        factor: what each wait is multiplied by to give the next one.
        most: the longest wait, in seconds.
        total: so many seconds behind the first try that failed it is given up, and no later.
    """

    first: float = 0.05
    factor: float = 2.0
    most: float = 1.0
    total: float = 2.0

    def waits(self) -> Iterator[float]:
        """The waits, one after each try that failed."""
        began = monotonic()
        wait, waited = self.first, 0.0
        while max(waited, monotonic() - began) + wait <= self.total:
            drawn = wait * random.uniform(0.5, 1.0)
            yield drawn
            waited += drawn
            wait = min(wait * self.factor, self.most)


@dataclass(frozen=True)
class _Tries:
    """How often something is tried, and limits of the waits between. They double from `first` up to `most`."""

    tries: int
    first: float = 0.001
    most: float = 0.1

    def _limits(self) -> Iterator[float]:
        """One fewer than tries."""
        for number in range(self.tries - 1):
            yield min(self.first * 2**number, self.most)


@dataclass(frozen=True)
class ReadTries(_Tries):
    """How often a reader gets a key whose lease another one has, and its waits between.

    The waits are 1, 2, 4 .. milliseconds, up to 100. After the last try it asks the store.
    """

    tries: int = 16

    def waits(self) -> Iterator[float]:
        """The waits between the tries: one fewer than tries."""
        return self._limits()


@dataclass(frozen=True)
class WriteTries(_Tries):
    """How often a writer begins anew that is refused or ended, and its waits between.

    Each wait is drawn between 0 and a limit, which doubles from `first` up to `most` seconds.
    """

    tries: int = 64

    def waits(self) -> Iterator[float]:
        """The waits between the tries: one fewer than tries."""
        return (random.uniform(0.0, limit) for limit in self._limits())

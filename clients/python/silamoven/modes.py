"""The three modes of a writer."""

from __future__ import annotations

from enum import Enum


class Mode(Enum):
    """What a writer does with the cached values of the keys that its transaction touches.

    Until it has released a key, others may still hit the old value of it. None of the three makes a hit stale.
    """

    INVALIDATE = "invalidate"
    """Drop the value. The next reader asks the store. Writers in this mode don't refuse one another."""

    REFRESH = "refresh"
    """Read the old value, and put the new one in its place. It refuses all other writers of the key."""

    DELTA = "delta"
    """Shift a count in its place, without reading it. All other keys are invalidated."""

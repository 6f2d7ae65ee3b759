"""Searches every order of steps of readers, writers, a cache server and a site's own database for a stale value.

    python3 tools/search_orders            with all parts of the design in, and without each part: some 15 seconds
    python3 tools/search_orders --quick    small bounds alone, and no ways: some 7 seconds
    python3 tools/search_orders --long     greater bounds besides: some 6 minutes, and 0.7 GB of memory
    python3 tools/search_orders PART ..    without these parts, one at a time, with the way to a wrong value

docs/model.md says what this is a model of. With all parts in, each state has to be looked at, and no value be wrong.
Without any one part a wrong value has to be found. The last line is 'N passed, M failed', and the status is 1 where
one failed.
"""
import gc
import sys

from rules import ALL_IN, PARTS, all_but
from search import Found, search
from setups import LONG, MIDDLE, QUICK, SETUPS
from world import Model

MOST = 5_000_000


def show(name: str, found: Found) -> None:
    what = found.wrong or ("none" if found.is_whole else f"not all: more than {MOST:,} states")
    counts = f"{found.states:>9,} {found.values:>9,} {found.steps:>11,} {found.seconds:>7.1f} s"
    print(f"{name:26} {counts}  {what}", flush=True)


def show_way(found: Found) -> None:
    for number, words in enumerate(found.way, 1):
        print(f"    {number:2}  {words}")
    print()


def passes_whole(name: str) -> bool:
    """With all parts in: every state is looked at and no value is wrong."""
    found = search(Model(SETUPS[name], ALL_IN), MOST)
    show(name, found)
    if found.wrong:
        show_way(found)
    return found.is_whole and found.wrong is None


def passes_without(part: str, has_way: bool) -> bool:
    """Without the part: a wrong value is found."""
    found = search(Model(SETUPS[PARTS[part].setup], all_but(part)), MOST)
    if has_way:
        print(f"Without {part}: {PARTS[part].without}.")
    show(part, found)
    if has_way:
        show_way(found)
    return found.wrong is not None


def run(setups: list[str], parts: list[str], has_ways: bool) -> int:
    print(f"{'':26} {'states':>9} {'hits in':>9} {'steps':>11} {'':9}  wrong")
    passed = [passes_whole(name) for name in setups] + [passes_without(part, has_ways) for part in parts]
    print(f"{sum(passed)} passed, {len(passed) - sum(passed)} failed")
    return 0 if all(passed) else 1


def main(words: list[str]) -> int:
    # A search makes millions of tuples and no cycle: to look for cycles among them takes time alone.
    gc.disable()
    if not words:
        return run([*QUICK, *MIDDLE], list(PARTS), True)
    if words == ["--quick"]:
        return run(list(QUICK), list(PARTS), False)
    if words == ["--long"]:
        return run(list(SETUPS), list(PARTS), True)
    if all(word in PARTS for word in words):
        return run([], words, True)
    print(__doc__, "\nThe parts:", ", ".join(PARTS), file=sys.stderr)
    return 2


sys.exit(main(sys.argv[1:]))

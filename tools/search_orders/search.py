"""The search: breadth first, through every state that any order of steps leads to."""
from time import process_time
from typing import NamedTuple

from clients import steps
from world import Model, State


class Found(NamedTuple):
    wrong: str | None  # the first wrong value, in words
    is_whole: bool  # every state was looked at, or a wrong one was found
    states: int
    values: int  # states in which a get would hit
    steps: int
    seconds: float  # of the processor
    way: list[str]  # the steps of a shortest way to what is wrong


def search(model: Model, most: int) -> Found:
    """Stops at the first wrong value. Gives up once it has seen more than `most` states."""
    began = process_time()
    first = model.start()
    before: dict[State, State | None] = {first: None}
    layer, values, taken = [first], 0, 0
    while layer and len(before) <= most:
        following: list[State] = []
        for state in layer:
            for _, after in steps(model, state):
                taken += 1
                if after in before:
                    continue
                before[after] = state
                values += any(item.value is not None for item in after.server.items)
                wrong = model.wrong(after)
                if wrong:
                    seconds, way = process_time() - began, way_to(model, before, after)
                    return Found(wrong, True, len(before), values, taken, seconds, way)
                following.append(after)
        layer = following
    return Found(None, not layer, len(before), values, taken, process_time() - began, [])


def way_to(model: Model, before: dict[State, State | None], last: State) -> list[str]:
    """The words of the steps from the start to this state."""
    words: list[str] = []
    while (state := before[last]) is not None:
        words.append(next(said for said, after in steps(model, state) if after == last))
        last = state
    return words[::-1]

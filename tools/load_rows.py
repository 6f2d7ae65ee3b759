"""The rows that a load of one worker leaves, drawn and made here again, without the program."""

MULTIPLIER = 6364136223846793005
WORD = (1 << 64) - 1


def draws(seed):
    """The numbers of 32 bits that a seed gives: a PCG of 64 bits, whose output is XSH RR, in stream 1."""
    increment = 3
    state = ((seed + increment) * MULTIPLIER + increment) & WORD
    while True:
        turn = state >> 59
        bits = (((state >> 18) ^ state) >> 27) & 0xFFFFFFFF
        yield (bits >> turn | bits << (-turn & 31)) & 0xFFFFFFFF
        state = (state * MULTIPLIER + increment) & WORD


def changes(members, sessions, seed):
    """The change of each session that writes, in order."""
    drawn = draws(seed)
    for _ in range(sessions):
        roll, x, y, _ = (next(drawn) for _ in range(4))
        a = 1 + x % members
        b = 1 + (a + y % 4) % members
        share = roll % 100
        if share >= 80:
            kinds = ((88, "invite"), (94, "accept"), (97, "reject"), (99, "thaw"), (100, "rename"))
            yield next(kind for end, kind in kinds if share < end), a, b


def apply(names, links, change):
    """Makes a change, if it applies to the rows, and tells whether it did."""
    kind, a, b = change
    ends = (min(a, b), max(a, b))
    if kind == "rename":
        names[a] = f"n{b}"
    elif kind == "invite":
        if a == b or (a, b) in links or (b, a) in links:
            return False
        links[a, b] = 0
    elif kind == "thaw":
        if links.get(ends) != 1:
            return False
        del links[ends]
    else:
        if links.get((a, b)) != 0:
            return False
        del links[a, b]
        if kind == "accept":
            links[ends] = 1
    return True


def rows_after(members, sessions, seed):
    """The members and the links that the load leaves, and how many of its commits were made and rejected."""
    names = {a: f"m{a}" for a in range(1, members + 1)}
    links = {}
    outcomes = [apply(names, links, change) for change in changes(members, sessions, seed)]
    pairs = sorted((a, b, state) for (a, b), state in links.items())
    return sorted(names.items()), pairs, outcomes.count(True), outcomes.count(False)

#!/usr/bin/env python3
"""Draws a replay as an SVG: a lane a session, one for the clock and one for the sweeper where they move, a row a
turn, and beside them the store's log and each key's value and leases as they are after the turn.

usage: draw_replay.py SCRIPT OUTPUT > PICTURE.svg

SCRIPT is what `./iq replay` read, OUTPUT what it printed. The lines are only read: nothing is judged, and
what a key holds is told from the lines alone. A value that a refresh puts is in no line, and is shown as such.
"""

import sys
from xml.sax.saxutils import escape

LETTER = 7.3  # the width of a letter, in the picture's units
ROW = 26
PAD = 10
LONGEST = 30  # letters of a value that are shown

# The colours of a cell, its ground and its edge, by what was answered.
PLAIN = ("#f2f4f7", "#98a2b3")
COLOURS = {
    "HIT": ("#dcfae6", "#17b26a"),
    "STORED": ("#dcfae6", "#17b26a"),
    "LEASE": ("#d1e9ff", "#2e90fa"),
    "AGAIN": ("#fef7c3", "#ca8504"),
    "GRANTED": ("#ffead5", "#ef6820"),
    "RAISED": ("#ffead5", "#ef6820"),
    "RENEWED": ("#ffead5", "#ef6820"),
    "RELEASED": ("#fff6ed", "#f9a06b"),
    "COMMITTED": ("#ebe9fe", "#7a5af8"),
    "VOID": ("#fee4e2", "#d92d20"),
    "FAULT": ("#fee4e2", "#d92d20"),
    "UNCOVERED": ("#fee4e2", "#d92d20"),
    "REJECTED": ("#fee4e2", "#d92d20"),
    "REFUSED": ("#fee4e2", "#d92d20"),
    "GONE": ("#fee4e2", "#d92d20"),
    "FOUND": ("#ffead5", "#ef6820"),
}

# The verbs whose next word is a key.
ON_A_KEY = ("get", "ask", "staged", "set", "qareg", "qaread", "delta", "raise", "renew", "dar", "sar", "apply", "abort")

# What has a lane and is no session.
OTHERS = {"tick": "clock", "sweep": "sweeper"}

# The word behind the number of a session, by the verb of its line.
ROLES = {
    "read": "reads",
    "write": "writes",
    "look": "writes and looks",
    "quit": "quits",
    "skip": "writes and skips",
    "raise": "writes and raises",
    "renew": "writes and renews",
}

# How many words stand before the transaction of a session that writes. It is three where the verb isn't here.
BEFORE_CHANGE = {"look": 4, "raise": 2}


class Session:
    """A session of the script: the lines above its lane, the key that it reads, and its transaction."""

    def __init__(self, words):
        verb, self.number = words[:2]
        self.key = words[2] if verb == "read" else None
        self.change = " ".join(words[BEFORE_CHANGE.get(verb, 3) :]) if verb != "read" else ""
        if verb == "read":
            self.head = [f"{self.number} reads", " ".join(words[2:])]
        else:
            on = {"look": f"{words[2]}, {words[3]}", "raise": "invalidate"}.get(verb, words[2]) if len(words) > 3 else ""
            self.head = [f"{self.number} {ROLES[verb]}, {on}", self.change]


class Other:
    """The clock, or the sweeper."""

    key, change = None, ""

    def __init__(self, name):
        self.number, self.head = name, [f"the {name}", ""]


class Key:
    """What stands on a key: its entry (value, stamp), the lease to read, and the quarantines."""

    def __init__(self, name):
        self.name = name
        self.entry = None
        self.lease = None  # (session, token)
        self.quarantines = {}  # the token of each session's

    def value(self):
        return "none" if self.entry is None else f"{shorter(self.entry[0])} @{self.entry[1]}"

    def leases(self):
        read = [f"I{self.lease[1]} of {self.lease[0]}"] if self.lease else []
        quarantines = [f"Q{token} of {who}" for who, token in self.quarantines.items()]
        return " ".join(read + quarantines) or "none"


class Turn:
    """A line of the output: who, what was asked on which key, and what was answered."""

    def __init__(self, line, number):
        words = line.split(" ")
        if len(words) < 2 or not (words[0].isdigit() or words[0] in OTHERS):
            raise ValueError(f"line {number} of the output is no turn: {line}")
        self.line, self.number = line, number
        self.who = OTHERS.get(words[0], words[0])
        self.verb = "tick" if words[0] == "tick" else words[1]
        if self.who == "sweeper":
            self.take_sweep(words)
            return
        has_key = self.verb in ON_A_KEY
        self.key = words[2] if has_key else None
        self.answer = words[1:] if self.verb == "tick" else words[3 if has_key else 2 :]
        self.by = int(self.answer.pop(0)) if self.verb == "delta" else 0
        self.word = self.answer[0] if self.answer else ""

    def take_sweep(self, words):
        """`sweep scan SHARD ..`, `sweep end SESSION ..` or `sweep drop KEY ..`."""
        self.by, self.answer = 0, words[3:]
        self.word = self.answer[0] if self.answer else ""
        self.key = words[2] if self.verb == "drop" else None
        if self.verb != "drop":
            self.verb = f"{self.verb} {words[2]}"

    def label(self, own_key):
        """What the cell says: the key is left out where the session has but this one."""
        asked = self.verb if self.key in (None, own_key) else f"{self.verb} {self.key}"
        if self.verb == "ask" and self.word != "FAULT":
            told = answer_text(self.answer)
        elif self.verb == "qaread" and self.word == "GRANTED" and self.answer[2] != "NONE":
            told = f"GRANTED {self.answer[1]} {answer_text(self.answer[2:])}"
        elif self.word == "RAISED" and self.answer[1] != "NONE":
            told = f"RAISED {answer_text(self.answer[1:])}"
        elif self.verb == "delta":
            told = f"{self.by:+} {' '.join(self.answer)}"
        elif self.word == "HIT":
            told = f"HIT {answer_text(self.answer[1:])}"
        else:
            told = " ".join(self.answer)
        return f"{asked}: {told}" if told else asked


class Replay:
    """The store's log, and what stands on each key, after the turns so far."""

    def __init__(self, sessions, turns):
        self.sessions, self.log, self.asked, self.keys = sessions, [], {}, {}
        self.numbers, self.had, self.shifts, self.found = {}, set(), {}, ""
        named = [it.key for it in sessions.values()] + [it.key for it in turns]
        for name in named:
            if name is not None and name not in self.keys:
                self.keys[name] = Key(name)

    def take(self, turn):
        """Takes a turn, and returns what it changed: "log", or the name of a key."""
        before = self.shown()
        if turn.verb == "commit" and turn.word == "COMMITTED":
            self.log.append(f"{turn.answer[1]}: {self.sessions[turn.who].change}")
            self.numbers[turn.who] = turn.answer[1]
        elif turn.word == "FOUND":
            self.found = turn.answer[2]
        elif turn.verb == "ask" and turn.word != "FAULT":
            self.asked[turn.who] = (" ".join(turn.answer[1:]), turn.answer[0])
        elif turn.key is not None:
            self.change(turn, self.keys[turn.key])
        if "EVICTS" in turn.answer:
            self.keys[turn.answer[turn.answer.index("EVICTS") + 1]].entry = None
        after = self.shown()
        return {it for it in after if after[it] != before[it]}

    def change(self, turn, key):
        if turn.verb == "get" and turn.word in ("LEASE", "AGAIN"):
            key.entry = None
        if turn.word == "LEASE":
            key.lease = (turn.who, turn.answer[1])
        elif turn.word == "STORED":
            key.entry, key.lease = self.asked[turn.who], None
        elif turn.word == "GRANTED":
            key.lease = None
            key.quarantines[turn.who] = turn.answer[1]
            self.shifts[turn.who, key.name] = turn.by
            if turn.verb == "qaread" and turn.answer[2] != "NONE":
                self.had.add((turn.who, key.name))
        elif turn.word == "RAISED" and turn.answer[1] != "NONE":
            self.had.add((turn.who, key.name))
        elif turn.word == "RELEASED":
            self.release(turn, key)

    def release(self, turn, key):
        """The value is dropped, left, refreshed or shifted. The sweeper drops it for the session that it found."""
        who = self.found if turn.who == "sweeper" else turn.who
        key.quarantines.pop(who, None)
        number = self.numbers.get(who)
        if turn.verb == "sar" and (who, key.name) in self.had:
            key.entry = ("(refreshed)", number)
        elif turn.verb in ("dar", "drop", "sar"):
            key.entry = None
        elif turn.verb == "apply" and key.entry is not None:
            old = key.entry[0]
            if old.isdigit():
                key.entry = (str(int(old) + self.shifts[who, key.name]), number)
            elif old == "(refreshed)":
                key.entry = ("(shifted)", number)

    def shown(self):
        """The texts of the columns: the log's last line, and two for each key."""
        texts = {"log": self.log[-1] if self.log else "none"}
        for name, key in self.keys.items():
            texts[name, "value"] = key.value()
            texts[name, "leases"] = key.leases()
        return texts


def answer_text(words):
    """A stamp and a value, as a value and its stamp."""
    return f"{shorter(' '.join(words[1:]))} @{words[0]}"


def shorter(text):
    return text if len(text) <= LONGEST else text[: LONGEST - 1] + "…"


def sessions_in(script):
    lines = [it.split(" ") for it in script.split("\n")]
    found = [Session(it) for it in lines if it[0] in ROLES]
    others = [Other(name) for verb, name in OTHERS.items() if any(it[0] == verb for it in lines)]
    return {it.number: it for it in found + others}


def turns_in(output):
    """The turns, and the end line, which a run that stopped lacks."""
    lines = output.split("\n")[:-1]
    end = lines.pop() if lines and lines[-1].startswith("end ") else ""
    return [Turn(line, at + 1) for at, line in enumerate(lines)], end


def text(x, y, words, style=""):
    return f'<text x="{x:.0f}" y="{y:.0f}"{style}>{escape(words)}</text>'


def heads(column):
    """What stands above a column beside the lanes: two lines."""
    if column == "log":
        return ["the store's log", ""]
    return [column[0], "value @stamp"] if column[1] == "value" else ["", "leases"]


class Columns:
    """Where each column begins and how wide it is, by the longest text that comes in it."""

    def __init__(self, sessions, turns, states):
        self.spans, self.end = {}, PAD
        self.add("turn", ["turn"])
        for number, session in sessions.items():
            labels = [it.label(session.key) for it in turns if it.who == number]
            self.add(("lane", number), session.head + labels, 24)
        self.end += 12
        for column in states[0]:
            self.add(column, heads(column) + [it[column] for it in states])

    def add(self, name, texts, more=16):
        width = max(len(it) for it in texts) * LETTER + more
        self.spans[name] = (self.end, width)
        self.end += width

    def left(self, name):
        return self.spans[name][0]

    def width(self, name):
        return self.spans[name][1]


def draw_head(columns, sessions, replay):
    drawn = [text(columns.left("turn"), 42, "turn", ' class="quiet"')]
    for number, session in sessions.items():
        x = columns.left(("lane", number)) + 12
        drawn += [text(x, 24, session.head[0], ' class="head"'), text(x, 42, session.head[1])]
    for column in replay.shown():
        x, (first, second) = columns.left(column), heads(column)
        drawn += [text(x, 24, first, ' class="head"'), text(x, 42, second, ' class="quiet"')]
    return drawn


def draw_lifeline(columns, number, rows, top):
    x = columns.left(("lane", number)) + columns.width(("lane", number)) / 2
    ys = [top + ROW * at + ROW / 2 for at in rows]
    return f'<line x1="{x:.0f}" y1="{min(ys):.0f}" x2="{x:.0f}" y2="{max(ys):.0f}" class="life"/>'


def draw_turn(columns, turn, session, state, changed, y):
    """The row of a turn: its number, the cell in its session's lane, and what stands afterwards."""
    lane = ("lane", turn.who)
    ground, edge = COLOURS.get(turn.word, PLAIN)
    x, width = columns.left(lane) + 4, columns.width(lane) - 8
    drawn = [f'<g class="turn"><title>{escape(turn.line)}</title>']
    drawn += [text(columns.left("turn"), y + 17, str(turn.number), ' class="quiet"')]
    drawn += [f'<rect x="{x:.0f}" y="{y + 2}" width="{width:.0f}" height="{ROW - 4}" rx="4" fill="{ground}" stroke="{edge}"/>']
    drawn += [text(x + 8, y + 17, turn.label(session.key))]
    for column, words in state.items():
        style = ' class="new"' if column in changed else ' class="quiet"'
        drawn += [text(columns.left(column), y + 17, words, style)]
    return drawn + ["</g>"]


STYLE = """<style>
text { font: 12px ui-monospace, Menlo, Consolas, 'DejaVu Sans Mono', monospace; fill: #101828; }
.head, .new { font-weight: bold; }
.quiet { fill: #667085; }
.life { stroke: #d0d5dd; stroke-width: 2; }
.rule { stroke: #eaecf0; }
</style>"""

LEGEND = "I1 of 1: a lease to read with token 1, of session 1.  Q2 of 2: a quarantine.  @1: the stamp.  Bold: changed in this turn."


def draw(script, output):
    sessions = sessions_in(script)
    turns, end = turns_in(output)
    for it in turns:
        if it.who not in sessions:
            raise ValueError(f"line {it.number} of the output is of no session of the script")
    replay = Replay(sessions, turns)
    states = [replay.shown()]
    changes = []
    for it in turns:
        changes.append(replay.take(it))
        states.append(replay.shown())
    columns = Columns(sessions, turns, states)
    top = 54
    foot = top + ROW * len(turns)
    width = max(columns.end, PAD + len(LEGEND) * LETTER) + PAD
    height = foot + 54
    drawn = [f'<svg xmlns="http://www.w3.org/2000/svg" width="{width:.0f}" height="{height}" viewBox="0 0 {width:.0f} {height}">']
    drawn += [STYLE, f'<rect width="{width:.0f}" height="{height}" fill="#ffffff"/>']
    drawn += draw_head(columns, sessions, replay)
    for number in sessions:
        rows = [at for at, it in enumerate(turns) if it.who == number]
        drawn += [draw_lifeline(columns, number, rows, top)] if rows else []
    for at, it in enumerate(turns):
        y = top + ROW * at
        drawn += [f'<line x1="{PAD}" y1="{y}" x2="{width - PAD:.0f}" y2="{y}" class="rule"/>']
        drawn += draw_turn(columns, it, sessions[it.who], states[at + 1], changes[at], y)
    drawn += [text(PAD, foot + 20, end, ' class="head"'), text(PAD, foot + 40, LEGEND, ' class="quiet"')]
    return "\n".join(drawn + ["</svg>", ""])


def main(words):
    if len(words) != 2:
        print("usage: draw_replay.py SCRIPT OUTPUT > PICTURE.svg", file=sys.stderr)
        return 1
    script, output = (open(it, encoding="utf-8").read() for it in words)
    try:
        sys.stdout.write(draw(script, output))
    except ValueError as error:
        print(f"draw_replay: {error}", file=sys.stderr)
        return 2
    return 0


if __name__ == "__main__":
    sys.exit(main(sys.argv[1:]))

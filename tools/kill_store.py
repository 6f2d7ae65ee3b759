#!/usr/bin/env python3
"""Kills a server over a file again and again while a client commits, and looks what the file holds.

    python3 tools/kill_store.py PROGRAM [TIMES [SEED]]

A server serves the file, and a client commits without pause: each transaction gives two members one new name. The
server is killed (SIGKILL) at a moment that is drawn, 200 times unless TIMES says another number. After each kill sqlite
opens a copy of the file and its log, and the next server opens the file itself. Both have to find the same: all
commits that were answered, in order, and at most one more, whole. Behind these, servers are killed a quarter as
often while they make a file of many members: it has all of them afterwards, or nothing yet.

The last line is 'N passed, M failed', and the status is 1 where one failed. Two hundred times take a minute or two.
"""
import os
import random
import shutil
import sys
import tempfile
import threading
import time

from store_files import Client, Server, Wrong, copy, expect, query, replay, rows

# So many that the names tell of each commit since the kill before.
MEMBERS = 2000
MADE_MEMBERS = 20000
PAGE = 4096
TIMES = 200


def pair_of(number):
    """The two members to whom the transaction of this number gives a name."""
    first = 2 * number % MEMBERS + 1
    return first, first + 1


def names_after(count):
    """The members' names after so many transactions."""
    names = {member: f"m{member}" for member in range(1, MEMBERS + 1)}
    for number in range(max(1, count - MEMBERS), count + 1):
        for member in pair_of(number):
            names[member] = f"c{number}"
    return [names[member] for member in range(1, MEMBERS + 1)]


def commit_on(client, number, most=None):
    """Commits transactions from this number on until the server is gone or fails. The number of the next one."""
    client.send(["begin write"])
    while most is None or number < most:
        session = client.reply().partition(" ")[2]
        first, second = pair_of(number)
        changes = f"rename {first} c{number} + rename {second} c{number}"
        taken = [f"qareg profile:{member} {session}" for member in (first, second)]
        given = [f"dar profile:{member} {session}" for member in (first, second)]
        try:
            client.send([*taken, f"sql {session} {changes}", *given, "begin write"])
        except OSError:
            return number
        if not (client.reply() and client.reply() and client.reply().startswith("COMMITTED ")):
            return number
        number += 1
        if not (client.reply() and client.reply()):
            return number
    return number


def found_names(client):
    """The members' names, as the server tells them."""
    values = client.values([f"profile:{member}" for member in range(1, MEMBERS + 1)])
    return [value.split(" ")[0] for value in values]


def count_of(names, answered):
    """How many transactions these names tell: those that were answered, or one more."""
    for count in (answered, answered + 1):
        if names == names_after(count):
            return count
    wanted = names_after(answered)
    other = [(it + 1, names[it], wanted[it]) for it in range(MEMBERS) if names[it] != wanted[it]]
    raise Wrong(f"{answered} commits were answered; member, name and name wanted: {other}")


def life(program, path, done, delay):
    """A server over the file, in which so many transactions are. How many are in it now, and how many were answered."""
    with Server(program, path, MEMBERS).ready() as server, Client(server) as client:
        expect(found_names(client), names_after(done))
        timer = threading.Timer(delay, server.process.kill)
        timer.start()
        answered = commit_on(client, done + 1) - 1
        timer.join()
    members, links = rows(copy(path, path + ".copy"))
    expect(links, [])
    return count_of([name for _, name in members], answered), answered


def kill_at_work(program, folder, times, seed):
    """So many kills while commits are made. What became of them, in a line."""
    drawn = random.Random(seed)
    path = os.path.join(folder, "store.db")
    done = unanswered = 0
    for at in range(times):
        delay = drawn.uniform(0, 0.4)
        try:
            done, answered = life(program, path, done, delay)
        except Wrong as wrong:
            raise Wrong(f"kill {at + 1} of seed {seed}, {delay:.4f} s behind the client's first commit: {wrong}") from None
        unanswered += done - answered
    with Server(program, path, MEMBERS).ready() as server, Client(server) as client:
        expect(found_names(client), names_after(done))
    return f"{times} kills, {done} commits, {unanswered} of which were made and not answered"


def kill_at_start(program, folder, times, seed):
    """So many kills while a file is made."""
    drawn = random.Random(seed)
    began = time.monotonic()
    Server(program, os.path.join(folder, "whole.db"), MADE_MEMBERS).ready().kill()
    whole = time.monotonic() - began
    made = 0
    for at in range(times):
        path = os.path.join(folder, f"start_{at}.db")
        delay = drawn.uniform(0, whole)
        server = Server(program, path, MADE_MEMBERS)
        time.sleep(delay)
        server.kill()
        try:
            made += look_at_start(program, path)
        except Wrong as wrong:
            raise Wrong(f"kill {at + 1} of seed {seed}, {delay:.4f} s behind the start: {wrong}") from None
    return f"{times} kills while a file was made, {made} behind its end"


def is_half_made(path):
    """Whether the making of the file had only begun: it is one page at most, and begins with a zero."""
    with open(path, "rb") as file:
        return file.read(1) == b"\0" and os.path.getsize(path) <= PAGE


def look_at_start(program, path):
    """Whether the file has its members. Where it hasn't, the next run makes it anew, with its own."""
    is_made = False
    if os.path.exists(path) and not is_half_made(path):
        twin = copy(path, path + ".copy")
        expect(query(twin, "PRAGMA integrity_check"), [("ok",)])
        is_made = query(twin, "SELECT count(*) FROM sqlite_schema") != [(0,)]
        if is_made:
            expect(query(twin, "SELECT count(*), max(id) FROM member"), [(MADE_MEMBERS, MADE_MEMBERS)])
    expect(replay(program, path, "members 3\nend\n"), "end commits 0 hits 0 stores 0 agains 0\n")
    wanted = MADE_MEMBERS if is_made else 3
    expect(query(copy(path, path + ".copy"), "SELECT count(*) FROM member"), [(wanted,)])
    return is_made


def main(words):
    if not 1 <= len(words) <= 3:
        print(__doc__, file=sys.stderr)
        return 2
    times = int(words[1]) if len(words) > 1 else TIMES
    seed = int(words[2]) if len(words) > 2 else 1
    folder = tempfile.mkdtemp()
    failed = 0
    for kill, count in ((kill_at_work, times), (kill_at_start, (times + 3) // 4)):
        try:
            print(f"kill: {kill(words[0], folder, count, seed)}: as it must be")
        except Wrong as wrong:
            failed += 1
            print(f"kill: NOT as it must be: {wrong}; the files are in {folder}")
    print(f"{2 - failed} passed, {failed} failed")
    if not failed:
        shutil.rmtree(folder)
    return failed > 0


if __name__ == "__main__":
    sys.exit(main(sys.argv[1:]))

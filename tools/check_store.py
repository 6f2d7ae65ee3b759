#!/usr/bin/env python3
"""Checks from outside what the program makes of a file of rows, and of the file of a server's cache
(tools/warm_server.py): tools/check_store.sh calls it.

    python3 tools/check_store.py PROGRAM [KILLS]

A line for each check, and the last one is 'N passed, M failed'; the status is 1 where one failed. KILLS says how often a
server is killed (tools/kill_store.py); 5 by default. Without an sqlite that knows STRICT tables nothing is checked.
"""
import glob
import os
import shutil
import sqlite3
import subprocess
import sys
import threading
from contextlib import closing

import kill_store
import unfit_files
import warm_server
from load_rows import rows_after
from store_files import (
    BESIDE, INDEX, NOBODY, Checks, Client, Server, Wrong, asks, contents, copy, expect, expect_answers,
    expect_unchanged, is_run_by_nobody, make, query, replay, rows, run,
)

TOP = os.path.dirname(os.path.dirname(os.path.abspath(__file__)))
KILLS = 5
KILL_SEED = 33
COPIES = 8
NOTHING = "members 3\nend\n"
NOTHING_TOLD = "end commits 0 hits 0 stores 0 agains 0\n"
REFUSED = ("", "store fault\n", 6)


class Folder:
    """A folder with files that are made for a check, and the program that is run over them."""

    def __init__(self, program, place):
        self.program = program
        self.place = place

    def path(self, name="store.db"):
        return os.path.join(self.place, name)

    def made(self, statements):
        path = self.path()
        make(path, statements)
        return path

    def fit(self):
        return self.made(unfit_files.FIT)

    def write(self, name, data):
        with open(self.path(name), "wb") as stream:
            stream.write(data)
        return self.path(name)

    def refuses(self, path):
        """The program refuses the file, by one line, and leaves each byte of it and of those beside it."""
        before = contents(path)
        expect(run(self.program, ["replay", "--db", path], NOTHING), REFUSED)
        expect_unchanged(path, before)

    def takes(self, path, answers):
        expect_answers(self.program, path, answers)


def two_runs(folder):
    two_runs_at(folder.program, folder.path())


def two_runs_at(program, path):
    first = "members 3\nwrite 1 invalidate rename 2 ann\nturn 1 3\nend\n"
    told = "1 qareg profile:2 GRANTED 1\n1 commit COMMITTED 1\n1 dar profile:2 RELEASED\n"
    expect(replay(program, path, first), told + "end commits 1 hits 0 stores 0 agains 0\n")
    then = "members 3\nread 1 profile:2\nturn 1 3\nend\n"
    told = "1 get profile:2 LEASE 1\n1 ask profile:2 0 ann 0 0\n1 set profile:2 STORED\n"
    expect(replay(program, path, then), told + "end commits 0 hits 0 stores 1 agains 0\n")


def members_of_the_file(folder):
    """The number of members is for a file that has none."""
    path = folder.path()
    replay(folder.program, path, "members 5\nend\n")
    expect_answers(folder.program, path, {"profile:5": "m5 0 0", "profile:6": "-"}, members=9)
    expect_answers(folder.program, path, {"profile:5": "m5 0 0"}, members=2)


def empty_file(folder):
    """A file of no byte, or of one, as the first byte of a file that was being made."""
    for name, data in (("none.db", b""), ("one.db", b"S")):
        folder.takes(folder.write(name, data), {"profile:3": "m3 0 0", "profile:4": "-"})


def linked_file(folder):
    os.symlink(folder.fit(), folder.path("link.db"))
    folder.takes(folder.path("link.db"), {"profile:2": "bob 0 0"})


def log_beside(folder):
    """Commits of sqlite that are in its log alone, as a reader that stays leaves them."""
    path = folder.made(["PRAGMA journal_mode = WAL", *unfit_files.FIT])
    with closing(sqlite3.connect(path)) as conn:
        conn.executescript("UPDATE member SET name = 'ann' WHERE id = 2; INSERT INTO link VALUES (3, 2, 0);")
        twin = copy(path, folder.path("twin"))
    if "-wal" not in contents(twin):
        raise Wrong("sqlite left no log")
    folder.takes(twin, {"profile:2": "ann 0 1", "pending:2": "3"})


def unfit_log_beside(folder):
    path = folder.made(["PRAGMA journal_mode = WAL", *unfit_files.FIT])
    with closing(sqlite3.connect(path)) as conn:
        conn.executescript("INSERT INTO link VALUES (3, 3, 0);")
        twin = copy(path, folder.path("twin"))
    folder.refuses(twin)
    expect(query(twin, "SELECT a, b, st FROM link"), [(3, 3, 0)])


def cold_journal_beside(folder):
    path = folder.made(["PRAGMA journal_mode = PERSIST", *unfit_files.FIT])
    folder.takes(path, {"profile:2": "bob 0 0"})


def hot_journal_beside(folder):
    """A journal as sqlite has it in the midst of a transaction that is too large for its memory."""
    path = folder.fit()
    with closing(sqlite3.connect(path, isolation_level=None)) as conn:
        conn.executescript("PRAGMA cache_size = 1; PRAGMA cache_spill = 1; BEGIN;")
        numbers = "WITH RECURSIVE n(i) AS (SELECT 4 UNION ALL SELECT i + 1 FROM n WHERE i < 3000)"
        conn.execute(f"{numbers} INSERT INTO member SELECT i, 'm' || i FROM n")
        os.mkdir(folder.path("twin"))
        for suffix in ("", "-journal"):
            shutil.copy(path + suffix, folder.path("twin/store.db") + suffix)
    folder.refuses(folder.path("twin/store.db"))
    expect(rows(folder.path("twin/store.db")), ([(1, "m1"), (2, "bob"), (3, "m3")], []))
    folder.takes(folder.path("twin/store.db"), {"profile:2": "bob 0 0"})


def by_each_command(folder):
    path = folder.made([*unfit_files.FIT, "INSERT INTO link VALUES (1, 1, 0)"])
    before = contents(path)
    for words in (["replay"], ["work", 3, 0, 1, 1, 1], ["serve", "127.0.0.1:0", 1, 1, 1, 3]):
        expect(run(folder.program, [words[0], "--db", path, *words[1:]], NOTHING), REFUSED)
        expect_unchanged(path, before)


def text_file(folder):
    folder.refuses(folder.write("store.db", b"members 3, and no database"))


def zeros(folder):
    folder.refuses(folder.write("store.db", bytes(4096)))


def first_page_alone(folder):
    with open(folder.fit(), "rb") as stream:
        folder.refuses(folder.write("cut.db", stream.read(4096)))


def cut_file(folder):
    with open(folder.fit(), "rb") as stream:
        whole = stream.read()
    for length in (2, 16, 100, 4095, len(whole) - 4096, len(whole) - 1):
        folder.refuses(folder.write(f"cut_{length}.db", whole[:length]))


def spoilt_pages(folder):
    with open(folder.made([*unfit_files.FIT, INDEX, "INSERT INTO link VALUES (1, 3, 0)"]), "rb") as stream:
        whole = stream.read()
    for at in range(len(whole) // 4096):
        spoilt = whole[: at * 4096] + bytes(4096) + whole[(at + 1) * 4096 :]
        folder.refuses(folder.write(f"page_{at}.db", spoilt))


def broken_key(folder):
    """Two links with the same two ids: a byte of the table is changed, and its index stays."""
    with open(folder.made([*unfit_files.FIT, "INSERT INTO link VALUES (1, 2, 0), (1, 3, 0)"]), "rb") as stream:
        whole = stream.read()
    row = bytes([4, 9, 1, 8, 3])
    expect(whole.count(row), 1)
    path = folder.write("twice.db", whole.replace(row, row[:-1] + b"\2"))
    expect(query(path, "SELECT a, b FROM link NOT INDEXED"), [(1, 2), (1, 2)])
    folder.refuses(path)


def no_file(folder):
    """What no file is, or none that may be taken."""
    os.mkdir(folder.path("folder"))
    os.mkfifo(folder.path("pipe"))
    os.link(folder.fit(), folder.path("twin.db"))
    os.symlink(folder.path("folder"), folder.path("to_a_folder"))
    places = ["folder", "pipe", "twin.db", "store.db", "to_a_folder", "missing/store.db", "store.db/store.db"]
    for place in [folder.path(name) for name in places] + ["/dev/null", ":memory:", "file:store.db"]:
        folder.refuses(place)
    expect(sorted(os.listdir(folder.place)), ["folder", "pipe", "store.db", "to_a_folder", "twin.db"])


def no_permission(folder):
    """Nothing is forbidden to root, so the program is then run as another user."""
    user = NOBODY if os.getuid() == 0 else None
    path = folder.fit()
    os.mkdir(folder.path("shut"))
    os.chmod(folder.path("shut"), 0o555)
    os.chmod(folder.place, 0o755)
    for mode in (0o000, 0o444):
        os.chmod(path, mode)
        expect(run(folder.program, ["replay", "--db", path], NOTHING, user=user), REFUSED)
    missing = folder.path("shut/store.db")
    expect(run(folder.program, ["replay", "--db", missing], NOTHING, user=user), REFUSED)
    os.chmod(path, 0o600)
    expect(rows(path), ([(1, "m1"), (2, "bob"), (3, "m3")], []))


def used_by_two(folder):
    """While a server has the file, a second program and sqlite are refused, and the server goes on."""
    path = folder.path()
    with Server(folder.program, path).ready() as server, Client(server) as client:
        expect(run(folder.program, ["replay", "--db", path], NOTHING), REFUSED)
        try:
            raise Wrong(f"sqlite read {query(path, 'SELECT name FROM member')}")
        except sqlite3.OperationalError as locked:
            expect(str(locked), "database is locked")
        client.send(["begin write", "qareg profile:2 1", "sql 1 rename 2 ann"])
        expect([client.reply() for _ in range(3)], ["SESSION 1", "GRANTED 1", "COMMITTED 1"])
    expect(rows(path)[0], [(1, "m1"), (2, "ann"), (3, "m3")])


# Another process: a lock of this one would end where it reads the file otherwise.
HOLDS = """
import sqlite3, sys
conn = sqlite3.connect(sys.argv[1], isolation_level=None)
conn.executescript(sys.argv[2])
conn.execute("SELECT * FROM member").fetchone()
print("held", flush=True)
sys.stdin.read()
"""


def used_by_sqlite(folder):
    """While sqlite writes the file, or reads it, the program is refused."""
    path = folder.fit()
    for statements in ("BEGIN IMMEDIATE", "BEGIN", "PRAGMA journal_mode = WAL; PRAGMA locking_mode = EXCLUSIVE"):
        words = [sys.executable, "-c", HOLDS, path, statements]
        with subprocess.Popen(words, stdin=subprocess.PIPE, stdout=subprocess.PIPE) as other:
            expect(other.stdout.readline(), b"held\n")
            folder.refuses(path)
            other.communicate(timeout=60)
    folder.takes(path, {"profile:2": "bob 0 0"})


CHANGES = [
    "rename 2 ann",
    "invite 3 1 + accept 3 1",
    "invite 3 2",
    "invite 4 2 + reject 4 2 + block 2 4",
    "invite 1 4 + accept 1 4 + thaw 4 1",
    "invite 4 3",
]
CHANGED = ([(1, "m1"), (2, "ann"), (3, "m3"), (4, "m4")], [(1, 3, 1), (2, 4, 2), (3, 2, 0), (4, 3, 0)])
CHANGED_ANSWERS = {
    "profile:1": "m1 1 0", "profile:2": "ann 0 1", "profile:3": "m3 1 1", "profile:4": "m4 0 0",
    "friends:1": "3", "friends:3": "1", "pending:2": "3", "pending:3": "4", "nfriends:3": "1", "npending:2": "1",
    "blocked:2": "4", "blocked:4": ".",
}


def change(folder, path):
    """Makes each kind of change."""
    lines = ["members 4"]
    lines += [f"write {number} invalidate {txn}" for number, txn in enumerate(CHANGES, 1)]
    lines += [f"turn {number} 30" for number in range(1, len(CHANGES) + 1)]
    out = replay(folder.program, path, "\n".join(lines + ["end", ""]))
    commits = [line for line in out.splitlines() if " commit " in line]
    expect(commits, [f"{number} commit COMMITTED {number}" for number in range(1, len(CHANGES) + 1)])


def written_by_the_program(folder):
    path = folder.path()
    change(folder, path)
    expect(rows(copy(path, folder.path("twin"))), CHANGED)
    expect_answers(folder.program, path, CHANGED_ANSWERS)
    expect(rows(path), CHANGED)
    expect(query(path, "SELECT sql FROM sqlite_schema WHERE name = 'link_by_b'"), [(INDEX,)])
    expect(query(path, "PRAGMA journal_mode"), [("wal",)])


def whole_by_itself(folder):
    """Where the program ended by itself the file has all rows, and its log none."""
    path = folder.path()
    change(folder, path)
    os.remove(path + "-wal")
    expect(rows(path), CHANGED)
    expect_answers(folder.program, path, CHANGED_ANSWERS)


def written_in_turn(folder):
    """By sqlite, the program, sqlite and the program."""
    path = folder.made([unfit_files.MEMBER, unfit_files.LINK, "INSERT INTO member VALUES (1, 'm1'), (2, 'm2'), (3, 'm3'), (4, 'm4')"])
    change(folder, path)
    expect(rows(path), CHANGED)
    with closing(sqlite3.connect(path)) as conn:
        conn.executescript("UPDATE member SET name = 'eve' WHERE id = 3; DELETE FROM link WHERE a = 3; INSERT INTO member VALUES (9, 'new');")
    folder.takes(path, {"profile:3": "eve 1 1", "pending:2": ".", "profile:9": "new 0 0", "friends:1": "3"})


def moved(folder):
    """A file and its log, under another name."""
    path = folder.path()
    change(folder, path)
    for suffix in BESIDE:
        if os.path.exists(path + suffix):
            os.rename(path + suffix, folder.path("other.db") + suffix)
    expect_answers(folder.program, folder.path("other.db"), CHANGED_ANSWERS)


def backed_up(folder):
    """The copies that sqlite makes of a file, page by page and as it packs it anew."""
    path = folder.path()
    change(folder, path)
    with closing(sqlite3.connect(path)) as conn, closing(sqlite3.connect(folder.path("pages.db"))) as other:
        conn.backup(other)
        conn.execute("VACUUM INTO ?", (folder.path("packed.db"),))
    for name in ("pages.db", "packed.db"):
        expect_answers(folder.program, folder.path(name), CHANGED_ANSWERS)


def copied_while_it_runs(folder):
    """The rows of a server that commits without pause, copied by tools/copy_rows: sound each time, with each commit that a
    client could see before, and none that isn't there behind."""
    path = folder.path()
    with Server(folder.program, path, kill_store.MEMBERS, workers=2).ready() as server:
        with Client(server) as writer, Client(server) as reader:
            work = threading.Thread(target=kill_store.commit_on, args=(writer, 1))
            work.start()
            for number in range(COPIES):
                before = last_in(kill_store.found_names(reader))
                place = folder.path(f"copy{number}")
                words = [os.path.join(TOP, "tools", "copy_rows"), path, place]
                expect(subprocess.run(words, capture_output=True, timeout=60, check=False).stderr, b"")
                members, links = rows(os.path.join(place, "store.db"))
                names = [name for _, name in members]
                found = last_in(names)
                expect(names, kill_store.names_after(found))
                behind = last_in(kill_store.found_names(reader))
                if not before <= found <= behind or links:
                    raise Wrong(f"{found} commits in a copy, {before} before it and {behind} behind it")
            server.kill()
            work.join(60)
    if behind < COPIES:
        raise Wrong(f"{behind} commits beside {COPIES} copies")
    expect_answers(folder.program, os.path.join(place, "store.db"), {f"profile:{kill_store.MEMBERS + 1}": "-"})


def last_in(names):
    """The last transaction of tools/kill_store.py that gave one of these names."""
    return max([int(name[1:]) for name in names if name.startswith("c")], default=0)


def old_file_and_new_log(folder):
    """An older file beside the log of a newer one isn't told from the rows of one time: the page says so. Each member has
    the name of the file or of the log."""
    path, old = folder.path(), folder.path("old.db")
    replay(folder.program, path, "members 3000\nend\n")
    shutil.copy(path, old)
    for member, name in ((1, "early"), (2500, "late")):
        with Server(folder.program, path, 3000).ready() as server, Client(server) as client:
            session = client.begin("write")
            client.send([f"qareg profile:{member} {session}", f"sql {session} rename {member} {name}"])
            expect([client.reply()[:9], client.reply()[:9]], ["GRANTED 1", "COMMITTED"])
        if member == 1:
            replay(folder.program, path, NOTHING)
    shutil.copy(path + "-wal", old + "-wal")
    expect_answers(folder.program, old, {"profile:1": "m1 0 0", "profile:2500": "late 0 0"})
    expect_answers(folder.program, path, {"profile:1": "early 0 0", "profile:2500": "late 0 0"})


def without_its_log(folder):
    """A file whose log is left behind: a new one is taken for an empty file, and one that was closed once has the rows of
    then."""
    path, alone = folder.path(), folder.path("alone.db")
    for wanted, name in (("m2 0 0", "ann"), ("ann 0 0", "eve")):
        with Server(folder.program, path).ready() as server, Client(server) as client:
            client.send(["begin write", "qareg profile:2 1", f"sql 1 rename 2 {name}"])
            expect([client.reply() for _ in range(3)], ["SESSION 1", "GRANTED 1", "COMMITTED 1"])
        for suffix in BESIDE:
            if os.path.exists(alone + suffix):
                os.remove(alone + suffix)
        shutil.copy(path, alone)
        expect_answers(folder.program, alone, {"profile:2": wanted})
        expect_answers(folder.program, path, {"profile:2": f"{name} 0 0"})


def link_to_nothing(folder):
    """A link that leads to nothing is refused, and nothing is made."""
    for name, target in (("link", "nothing.db"), ("lost", "nowhere/nothing.db")):
        os.symlink(target, folder.path(name))
        expect(run(folder.program, ["replay", "--db", folder.path(name)], NOTHING), REFUSED)
    expect(sorted(os.listdir(folder.place)), ["link", "lost"])


def sizes_of_leftovers(folder):
    """What a start that is refused leaves beside a file: a log of 0 or 41 bytes, or 9 bytes behind the end of one."""
    unfit = [unfit_files.MEMBER, unfit_files.LINK, "INSERT INTO member VALUES (0, 'x')"]
    text, rows_, page = folder.path("text"), folder.made(unfit), folder.path("page")
    for path in (text, page):
        with open(path, "wb") as stream:
            stream.write(b"hello " * 1000 if path == text else bytes(4096))
    for path, wanted in ((text, 0), (page, 0), (rows_, 41)):
        expect(run(folder.program, ["replay", "--db", path], NOTHING), REFUSED)
        expect(os.path.getsize(path + "-wal"), wanted)
    beside = folder.path("beside.db")
    with closing(sqlite3.connect(folder.path("live.db"), isolation_level=None)) as conn:
        conn.execute("PRAGMA journal_mode = WAL")
        conn.executescript(";".join(unfit) + ";")
        for suffix in ("", "-wal"):
            shutil.copy(folder.path("live.db") + suffix, beside + suffix)
    length = os.path.getsize(beside + "-wal")
    expect(run(folder.program, ["replay", "--db", beside], NOTHING), REFUSED)
    expect(os.path.getsize(beside + "-wal"), length + 9)


def odd_names(folder):
    """Names that look like something else."""
    path = folder.path()
    names = ["007", "1e5", "NULL", "';--", '"?1"', "x'00'", "a''b", "%_"]
    changes = " + ".join(f"rename {member} {name}" for member, name in enumerate(names, 1))
    replay(folder.program, path, f"members 8\nwrite 1 invalidate {changes}\nturn 1 17\nend\n")
    expect_answers(folder.program, path, {f"profile:{member}": f"{name} 0 0" for member, name in enumerate(names, 1)})
    expect(rows(path)[0], list(enumerate(names, 1)))


def odd_paths(folder):
    for name in ("a b.db", "Zoé ☂.db", "?x=1&mode=ro#", "%41.db", "n" * 240):
        two_runs_at(folder.program, folder.path(name))
    expect(run(folder.program, ["replay", "--db", folder.path("n" * 300)], NOTHING), REFUSED)


def nothing_made(folder):
    """No file comes of a script or of words that are faulty."""
    path = folder.path()
    expect(run(folder.program, ["replay", "--db", path], "members 0\nend\n"), ("", "script line 1 form\n", 2))
    expect(run(folder.program, ["work", "--db", path, 0, 0, 1, 1, 1]), ("", "usage\n", 1))
    expect(os.listdir(folder.place), [])


def answers_ahead(folder):
    """What the store would answer after a transaction, and a transaction that is given up, leave the files as they are."""
    path = folder.path()
    with Server(folder.program, path).ready() as server, Client(server) as client:
        before = contents(path)
        client.send(["begin write", "qareg blocked:2 1", "stage pending:2 1 invite 1 2", "stage profile:2 1 rename 2 ann", "iqabort 1"])
        told = ["SESSION 1", "GRANTED 1", "VALUE pending:2 0 1", "1", "END", "VALUE profile:2 0 7", "ann 0 0", "END", "RELEASED 1"]
        expect([client.reply() for _ in told], told)
        expect_unchanged(path, before)
    folder.takes(path, {"profile:2": "m2 0 0", "pending:2": "."})


def longest_answer(folder):
    """A member whose friends are all others, of as many as there may be."""
    numbers = "WITH RECURSIVE n(i) AS (SELECT 1 UNION ALL SELECT i + 1 FROM n WHERE i < 100000)"
    members = f"{numbers} INSERT INTO member SELECT i, 'm' || i FROM n"
    links = "INSERT INTO link SELECT 1, id, 1 FROM member WHERE id > 1"
    path = folder.made([unfit_files.MEMBER, unfit_files.LINK, INDEX, f"BEGIN; {members}; {links}; COMMIT"])
    ids = ",".join(str(member) for member in range(2, 100001))
    folder.takes(path, {"friends:1": ids, "profile:1": "m1 99999 0", "friends:100000": "1"})


def loads(folder):
    """A load of one worker over a new file leaves the rows that are drawn and made here again."""
    members, links, commits, rejected = rows_after(20, 2000, 7)
    for words in ([], ["--db", folder.path()]):
        out, err, status = run(folder.program, ["work", *words, 20, 2000, 1, 2, 7])
        expect((err, status), ("", 0))
        counts = dict(zip(*[iter(out.splitlines()[1].split(" "))] * 2))
        expect((counts["commits"], counts["rejected"]), (str(commits), str(rejected)))
    expect(rows(folder.path()), (members, links))


def loads_on_threads(folder):
    """Two loads of four workers, one behind the other, over one file: sound and fit behind each."""
    for seed in (1, 2):
        out, err, status = run(folder.program, ["work", "--db", folder.path(), 50, 2000, 4, 4, seed])
        expect((out.splitlines()[2:], err, status), (["audit clean"], "", 0))
        rows(copy(folder.path(), folder.path("twin")))
    expect(replay(folder.program, folder.path(), NOTHING), NOTHING_TOLD)
    expect(len(rows(folder.path())[0]), 50)


def full_disk(folder):
    """Where the files may not grow, a commit is told of a store that failed. The ones before it are in the file, and once
    there is room others are made."""
    path = folder.path()
    with Server(folder.program, path, kill_store.MEMBERS, most=1000000).ready() as server:
        with Client(server) as client:
            answered = kill_store.commit_on(client, 1, 5000) - 1
            expect(client.last, "SERVER_ERROR store")
            if not 0 < answered < 4000:
                raise Wrong(f"{answered} commits were answered in files of 1,000,000 bytes")
        with Client(server) as client:
            expect(kill_store.found_names(client), kill_store.names_after(answered))
            server.give_room()
            expect(kill_store.commit_on(client, answered + 1, answered + 11), answered + 11)
    with Server(folder.program, path, kill_store.MEMBERS).ready() as server, Client(server) as client:
        expect(kill_store.found_names(client), kill_store.names_after(answered + 10))


def full_disk_at_start(folder):
    """A start that finds no room is refused, and the next one makes the file."""
    for most in (1, 5000, 50000, 200000):
        path = folder.path(f"{most}.db")
        out, err, status = run(folder.program, ["replay", "--db", path], "members 20000\nend\n", most)
        expect((out, err, status), REFUSED)
        expect_answers(folder.program, path, {"profile:3": "m3 0 0", "profile:4": "-"})


def killed(folder, count):
    kill_store.kill_at_work(folder.program, folder.place, count, KILL_SEED)
    kill_store.kill_at_start(folder.program, folder.place, count, KILL_SEED)


class StoreChecks(Checks):
    """Checks of files of rows."""

    def __init__(self, program):
        super().__init__("store", lambda place: Folder(program, place))

    def refused(self, name, statements):
        self.check(f"refused and left as it is: {name}", lambda folder: folder.refuses(folder.made(statements)))

    def taken(self, name, statements, answers):
        self.check(f"opened: {name}", lambda folder: folder.takes(folder.made(statements), answers))

    def example(self, script):
        with open(script, encoding="utf-8") as text, open(script[:-3] + ".out", encoding="utf-8") as wanted:
            source, told = text.read(), wanted.read()
        name = os.path.basename(script)[:-3]
        self.check(f"{name} over a file", lambda folder: expect(replay(folder.program, folder.path(), source), told))


REFUSED_FILES = [
    ("by each command, a link to oneself", by_each_command),
    ("a text", text_file),
    ("a page of zeros", zeros),
    ("the first page alone", first_page_alone),
    ("a file that was cut", cut_file),
    ("a page of zeros in the place of another", spoilt_pages),
    ("two links of the same two ids", broken_key),
    ("a log beside it with rows that aren't fit", unfit_log_beside),
    ("a journal beside it that has to be played back", hot_journal_beside),
    ("what no file is, or no file of its own", no_file),
    ("a file that sqlite writes", used_by_sqlite),
]
TAKEN_FILES = [
    ("an empty file", empty_file),
    ("a link to a file", linked_file),
    ("a log beside it", log_beside),
    ("a journal beside it with nothing to play back", cold_journal_beside),
]
RUNS = [
    ("two runs over one file", two_runs),
    ("a file keeps its own members", members_of_the_file),
    ("a file that a server has is its own", used_by_two),
    ("sqlite reads what the program wrote", written_by_the_program),
    ("a file is whole by itself once the program has ended", whole_by_itself),
    ("sqlite and the program write in turn", written_in_turn),
    ("a file that was moved with its log", moved),
    ("copies of a file", backed_up),
    (f"{COPIES} copies while a server runs", copied_while_it_runs),
    ("an older file beside a newer log", old_file_and_new_log),
    ("a file without its log", without_its_log),
    ("a link to nothing", link_to_nothing),
    ("what a refused start leaves", sizes_of_leftovers),
    ("names that look like something else", odd_names),
    ("paths that look like something else", odd_paths),
    ("nothing is made of faulty words", nothing_made),
    ("answers ahead leave the files as they are", answers_ahead),
    ("the longest answer", longest_answer),
    ("a load over a file and in memory", loads),
    ("loads on threads over a file", loads_on_threads),
    ("a disk that is full", full_disk),
    ("a disk that is full at the start", full_disk_at_start),
]


def check_all(program, kills):
    checks = StoreChecks(program)
    for name, work in RUNS:
        checks.check(name, work)
    for name, statements, answers in unfit_files.FIT_FILES:
        checks.taken(name, statements, answers)
    for name, work in TAKEN_FILES:
        checks.check(f"opened: {name}", work)
    for name, sql in unfit_files.UNFIT_ROWS + unfit_files.UNFIT_SCHEMAS:
        checks.refused(name, unfit_files.FIT + [sql])
    for name, member, link in unfit_files.UNFIT_TABLES:
        checks.refused(name, [member, link])
    for name, statements in unfit_files.UNFIT_FORMS:
        checks.refused(name, statements)
    for name, work in REFUSED_FILES:
        checks.check(f"refused and left as it is: {name}", work)
    if is_run_by_nobody(program):
        checks.check("refused and left as it is: a file without permission", no_permission)
    else:
        print("store: only root can run the program here, to whom nothing is forbidden: no such file is tried")
    for script in sorted(glob.glob(os.path.join(TOP, "examples", "*.iq"))):
        checks.example(script)
    checks.check(f"a server that is killed, {kills} times", killed, kills)
    return checks.passed, checks.failed


def main(words):
    if not 1 <= len(words) <= 2:
        print(__doc__, file=sys.stderr)
        return 2
    if sqlite3.sqlite_version_info < (3, 37):
        print(f"store: sqlite {sqlite3.sqlite_version} knows no STRICT tables, so nothing is checked")
        return 0
    program = os.path.abspath(words[0])
    passed, failed = check_all(program, int(words[1]) if len(words) > 1 else KILLS)
    warm = warm_server.check_all(program)
    print(f"{passed + warm.passed} passed, {failed + warm.failed} failed")
    return failed + warm.failed > 0


if __name__ == "__main__":
    sys.exit(main(sys.argv[1:]))

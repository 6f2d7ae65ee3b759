#!/usr/bin/env python3
"""Checks from outside that a server takes its cache over from a file when it starts, and leaves it there at its end.

    python3 tools/warm_server.py PROGRAM

A line for each check, and the last one is 'N passed, M failed'; the status is 1 where one failed. tools/check_store.py
makes these checks too. What only some systems let one try is left out elsewhere, with a line.
"""
import os
import random
import signal
import socket
import subprocess
import sys
import time

from cache_text import body_text, cache_text, dump_text, file_text
from store_files import (
    NOBODY, PATIENCE, Checks, Client, Server, Wrong, expect, is_run_by_nobody, make, query, run,
)
from store_files import rows as rows_in

ROOM = 4096
MANY = 10000
PLACES = 40
CUTS = 20
KILLS = 10
SEED = 12
ENDED = ("served 1\n", "", 0)
FAULT = ("served 1\n", "file fault\n", 7)
NO_FILE, FILE_FAULT, NO_CACHE, OTHER_ROWS = "cold no file", "cold file fault", "cold no cache", "cold other rows"
MANY_KEYS = [f"friends:{member}" for member in range(1, 200)]
TWO = [("profile:2", "m2 0 0"), ("profile:3", "m3 0 0")]
KINDS = {
    "profile:2": "m2 0 0", "friends:2": ".", "pending:2": ".", "nfriends:2": "0", "npending:2": "0", "blocked:2": ".",
    "profile:9": "-", "friends:100000": ".",
}


class Folder:
    """A folder with the file of a cache, and the program that is run over it."""

    def __init__(self, program, place):
        self.program = program
        self.place = place

    def path(self, name="cache"):
        return os.path.join(self.place, name)

    def write(self, data, name="cache"):
        with open(self.path(name), "wb") as stream:
            stream.write(data)

    def read(self, name="cache"):
        with open(self.path(name), "rb") as stream:
            return stream.read()

    def server(self, **words):
        """A server with the file, for one connection."""
        words = {"path": None, "warm": self.path(), "conns": 1, **words}
        return Server(self.program, **words)

    def serves(self, begun, work=None, end=ENDED, **words):
        """A server begins so, does this work on its one connection, and ends so. What the work gives."""
        with self.server(**words) as server:
            expect(server.begun(), begun)
            with Client(server) as client:
                given = work(client) if work else None
                quit_all(client)
            expect(server.end(), end)
        return given

    def fill(self, keys, begun=NO_FILE, **words):
        """A server stores these keys, and leaves them. Their values, as the store answered them."""
        return self.serves(begun, lambda client: fill(client, keys), **words)

    def hits(self, wanted, **words):
        """A server takes all over, and hits on each of these keys."""
        told = self.serves(f"warm {len(wanted)}", lambda client: told_of(client, list(wanted)), **words)
        expect(told, {key: (value, 0) for key, value in wanted.items()})

    def misses(self, begun, keys=("profile:2",), **words):
        """A server takes nothing over, says why, and misses these keys."""
        told = self.serves(begun, lambda client: told_of(client, list(keys)), **words)
        expect(told, {key: "LEASE" for key in keys})


def quit_all(client):
    """Ends a connection, and waits until the server has."""
    client.send(["quit"])
    expect(client.reply(), "")


def fill(client, keys):
    """Gets keys that the cache lacks, and sets what the store answers to each. These values."""
    session = client.begin("read")
    values, set_last = {}, []
    for key in keys:
        client.send([*set_last, f"iqget {key} {session} 0", f"ask {key} {session}"])
        if set_last:
            expect(client.reply(), "STORED")
        lease, token = client.reply().split(" ")
        expect(lease, "LEASE")
        stamp = client.reply().split(" ")[4]
        values[key] = client.reply()
        expect(client.reply(), "END")
        set_last = [f"iqset {key} 0 0 {len(values[key])} {token} {stamp}", values[key]]
    client.send(set_last)
    expect(client.reply(), "STORED")
    return values


def told_of(client, keys):
    """What a get of each key is told: a value with its stamp, or the word of another reply."""
    session = client.begin("read")
    told = {}
    for first in range(0, len(keys), 100):
        group = keys[first : first + 100]
        client.send([f"iqget {key} {session} 0" for key in group])
        for key in group:
            words = client.reply().split(" ")
            told[key] = words[0]
            if words[0] == "VALUE":
                told[key] = (client.reply(), int(words[4]))
                expect(client.reply(), "END")
    return told


def says(client, lines, wanted):
    """Sends lines, and compares the replies."""
    client.send(lines)
    expect([client.reply() for _ in wanted], wanted)


def renames(client, member, name, number, token):
    """A writer drops the profile that its commit changes."""
    session = client.begin("write")
    key = f"profile:{member}"
    says(
        client,
        [f"qareg {key} {session}", f"sql {session} rename {member} {name}", f"dar {key} {session}"],
        [f"GRANTED {token}", f"COMMITTED {number}", "DELETED"],
    )


# What is left, and taken over.


def two_servers(folder):
    folder.fill(["profile:2"])
    folder.hits({"profile:2": "m2 0 0"})
    folder.hits({"profile:2": "m2 0 0"})


def text_of_the_file(folder):
    """The file is the text that is made here of the same entries, the one first that was used longest ago."""
    keys = [f"profile:{member}" for member in (5, 1, 4, 2, 3)]
    values = folder.fill(keys, shards=2, members=5)
    expect(folder.read(), cache_text(2, [(key, values[key]) for key in keys]))
    expect(os.listdir(folder.place), ["cache"])
    folder.serves("warm 5", lambda client: told_of(client, ["profile:1"]), shards=2, members=5)
    keys = [f"profile:{member}" for member in (5, 4, 2, 3, 1)]
    expect(folder.read(), cache_text(2, [(key, values[key]) for key in keys]))


def nothing_stored(folder):
    folder.serves(NO_FILE)
    expect(folder.read(), cache_text(1, []))
    folder.serves("warm 0")


def each_kind(folder):
    values = folder.fill(list(KINDS))
    expect(values, {key: value if value != "." else "" for key, value in KINDS.items()})
    folder.hits(values)


def many_entries(folder):
    keys = [f"profile:{member}" for member in range(1, MANY + 1)]
    values = folder.fill(keys, shards=8, members=MANY)
    expect(len(set(values.values())), MANY)
    folder.hits(values, shards=8, members=MANY)


def full_shard(folder):
    """As many entries as a shard has room for, and one more."""
    rows = [(f"profile:{member}", f"m{member} 0 0") for member in range(1, ROOM + 2)]
    folder.write(cache_text(1, rows[:ROOM]))
    folder.hits(dict(rows[:ROOM]), members=ROOM + 1)
    folder.write(cache_text(1, rows))
    folder.misses(NO_CACHE, members=ROOM + 1)


def on_threads(folder):
    """Four workers store at a time. What each stored is there."""
    with folder.server(conns=4, workers=4, shards=4, members=1000) as server:
        expect(server.begun(), NO_FILE)
        clients = [Client(server) for _ in range(4)]
        for number, client in enumerate(clients):
            fill(client, [f"profile:{member}" for member in range(number + 1, 1001, 4)])
        for client in clients:
            quit_all(client)
            client.close()
        expect(server.end(), ("served 4\n", "", 0))
    folder.hits({f"profile:{member}": f"m{member} 0 0" for member in range(1, 1001)}, shards=4, members=1000)


def plain_items(folder):
    """Plain items go with the server."""
    folder.serves(NO_FILE, lambda client: says(client, ["set a 0 0 1", "x"], ["STORED"]))
    folder.serves("warm 0", lambda client: says(client, ["get a"], ["END"]))


def written_behind(folder):
    """What a writer dropped isn't there, and what it refreshed or shifted is, as the commit left it."""
    rows = folder.path("store.db")
    folder.serves(NO_FILE, write_each_way, path=rows, members=4)
    wanted = {"profile:3": "ann 0 0", "npending:4": "1", "profile:1": "m1 0 0"}
    # (a value that is put is used then, and one that is shifted isn't)
    expect(folder.read(), cache_text(1, [("profile:1", "m1 0 0"), ("npending:4", "1"), ("profile:3", "ann 0 0")]))
    told = folder.serves("warm 3", lambda client: told_of(client, [*wanted, "profile:2"]), path=rows, members=4)
    expect(told, {**{key: (value, 0) for key, value in wanted.items()}, "profile:2": "LEASE"})


def write_each_way(client):
    """Drops a value, refreshes one and shifts one, each behind a commit."""
    fill(client, ["profile:1", "profile:2", "profile:3", "npending:4"])
    renames(client, 2, "bob", 1, 5)
    session = client.begin("write")
    says(client, [f"qaread profile:3 {session}"], ["GRANTED 6", "VALUE profile:3 0 6 0", "m3 0 0", "END"])
    says(
        client,
        [f"sql {session} rename 3 ann", f"sar profile:3 0 0 7 {session}", "ann 0 0"],
        ["COMMITTED 2", "STORED"],
    )
    session = client.begin("write")
    keys = ["profile:4", "pending:4"]
    says(client, [f"qareg {key} {session}" for key in keys], ["GRANTED 7", "GRANTED 8"])
    says(client, [f"iqdelta npending:4 {session} 1"], ["GRANTED 9"])
    says(
        client,
        [f"sql {session} invite 1 4", *[f"dar {key} {session}" for key in keys], f"iqcommit npending:4 {session}"],
        ["COMMITTED 3", "DELETED", "DELETED", "STORED"],
    )


def unanswered_writer(folder):
    """A key whose writer left before its release isn't there."""
    rows = folder.path("store.db")

    def leave(client):
        fill(client, ["profile:1", "profile:2"])
        session = client.begin("write")
        says(client, [f"qareg profile:2 {session}", f"sql {session} rename 2 bob"], ["GRANTED 3", "COMMITTED 1"])

    folder.serves(NO_FILE, leave, path=rows)
    told = folder.serves("warm 1", lambda client: told_of(client, ["profile:1", "profile:2"]), path=rows)
    expect(told, {"profile:1": ("m1 0 0", 0), "profile:2": "LEASE"})


def words_in_any_order(folder):
    """The option is read before `--db` too, and with an equals sign."""
    for options in (["--warm", folder.path(), "--db", folder.path("store.db")], [f"--warm={folder.path()}"]):
        out, err, status = run(folder.program, ["serve", *options, "127.0.0.1:1:1", 1, 1, 1, 3])
        expect((out, err, status), ("", "door fault\n", 5))
    folder.fill(["profile:2"])
    folder.hits({"profile:2": "m2 0 0"}, path=folder.path("store.db"))


# What isn't taken over.


def other_shards(folder):
    folder.fill(["profile:2", "profile:3"], shards=2)
    folder.misses(NO_CACHE, shards=3)
    folder.fill(["profile:2", "profile:3"], NO_CACHE, shards=2)
    folder.misses(NO_CACHE, shards=1)


def other_members(folder):
    """A member whom the rows hadn't is answered otherwise; others are answered as before."""
    folder.fill(["profile:2", "profile:4"])
    folder.misses(OTHER_ROWS, ["profile:4", "profile:2"], members=4)
    folder.fill(["profile:2"], "warm 0")
    folder.hits({"profile:2": "m2 0 0"}, members=4)


def rows_of_another_server(folder):
    rows = folder.path("store.db")
    folder.fill(["profile:2", "profile:3"], path=rows)
    folder.serves("warm 2", path=rows)
    kept = folder.read()
    with folder.server(path=rows, warm=None) as server:
        server.ready()
        with Client(server) as client:
            renames(client, 2, "ann", 1, 1)
            quit_all(client)
        expect(server.end(), ("served 1\n", "", 0))
    expect(folder.read(), kept)
    folder.misses(OTHER_ROWS, ["profile:2", "profile:3"], path=rows)


def rows_by_sqlite(folder):
    rows = folder.path("store.db")
    folder.fill(["profile:2", "profile:3"], path=rows)
    kept = folder.read()
    make(rows, ["UPDATE member SET name = 'ann' WHERE id = 2"])
    folder.misses(OTHER_ROWS, ["profile:3", "profile:2"], path=rows)
    folder.write(kept)
    make(rows, ["UPDATE member SET name = 'm2' WHERE id = 2", "UPDATE member SET name = 'eve' WHERE id = 1"])
    folder.hits(dict(TWO), path=rows)
    expect(query(rows, "SELECT name FROM member ORDER BY id"), [("eve",), ("m2",), ("m3",)])


def changed_bytes(folder):
    """A file of which one byte is another."""
    whole = short_file(folder)
    drawn = random.Random(SEED)
    places = {0, len(whole) - 1, whole.index(b"\n"), whole.index(b"\n") - 1, whole.index(b"m2")}
    while len(places) < PLACES:
        places.add(drawn.randrange(len(whole)))
    for place in sorted(places):
        other = whole[place] ^ drawn.choice((1, 2, 16, 32, 128, 255))
        taken_for_nothing(folder, f"byte {place} is {other}", whole[:place] + bytes([other]) + whole[place + 1 :])


def cut_files(folder):
    """A file that is cut, or goes on."""
    whole = short_file(folder)
    lengths = {1, whole.index(b"\n"), whole.index(b"\n") + 1, len(whole) - 1, len(whole) - 4}
    drawn = random.Random(SEED)
    while len(lengths) < CUTS:
        lengths.add(drawn.randrange(1, len(whole)))
    for length in sorted(lengths):
        taken_for_nothing(folder, f"{length} bytes are left", whole[:length])
    for name, more in (("a line end", b"\n"), ("a byte of zero", b"\0"), ("the same again", whole)):
        taken_for_nothing(folder, f"{name} is behind it", whole + more)


def short_file(folder):
    folder.fill(["profile:2", "friends:3"])
    return folder.read()


def taken_for_nothing(folder, name, text):
    """A file with this text is taken for no cache. What doesn't begin as one stays there."""
    folder.write(text)
    stays = text and not text.startswith(b"iqcache ")
    try:
        folder.misses(NO_CACHE, ["profile:2", "friends:3"], end=FAULT if stays else ENDED)
        expect(folder.read(), text if stays else cache_text(1, []))
    except Wrong as wrong:
        raise Wrong(f"{name}: {wrong}") from wrong


def other_texts(folder):
    """Texts that nearly are those of a cache, with the right digest."""
    two = dump_text(0, 1, TWO)
    right = body_text([two])
    others = {
        "a value that the store doesn't answer": cache_text(1, [TWO[0], ("profile:3", "m4 0 0")]),
        "a stale count": cache_text(1, [("profile:2", "m2 1 0")]),
    }
    texts = {
        "a key twice": cache_text(1, [TWO[0], TWO[0]]),
        "a key that is none": cache_text(1, [("profile", "m2 0 0")]),
        "a key of nobody": cache_text(1, [("profile:0", "-")]),
        "no shard": file_text(0, b""),
        "two shards": file_text(2, right),
        "a dump too few": file_text(1, b""),
        "a dump too many": file_text(1, right + right),
        "a dump of another shard": file_text(1, body_text([dump_text(1, 2, [])])),
        "a length too small": file_text(1, b"%d\n%s" % (len(two) - 1, two)),
        "a length too great": file_text(1, b"%d\n%s" % (len(two) + 1, two)),
        "a length with a zero in front": file_text(1, b"0%d\n%s" % (len(two), two)),
        "a length of 2^64": file_text(1, b"%d\n%s" % (2**64, two)),
        "another version": file_text(1, right).replace(b"iqcache 1", b"iqcache 2"),
        "a digest in capitals": upper_digest(file_text(1, right)),
        "lines that end in CR LF": file_text(1, right).replace(b"\n", b"\r\n"),
    }
    for name, text in {**others, **texts}.items():
        folder.write(text)
        try:
            folder.misses(OTHER_ROWS if name in others else NO_CACHE, ["profile:2", "profile:3"])
        except Wrong as wrong:
            raise Wrong(f"{name}: {wrong}") from wrong
    folder.write(file_text(1, right))
    folder.hits(dict(TWO))


def upper_digest(text):
    head, _, body = text.partition(b"\n")
    words = head.split(b" ")
    return b" ".join(words[:3] + [words[3].upper()]) + b"\n" + body


def strangers(folder):
    """Dumps in the wrong order, and a row in the dump of another shard."""
    rows = [(f"profile:{member}", f"m{member} 0 0") for member in range(1, 9)]
    whole = cache_text(2, rows)
    homes = {shard: [row for row in rows if row[0].encode() in dump] for shard, dump in enumerate(parts_of(whole))}
    for dumps in (
        [dump_text(1, 2, homes[1]), dump_text(0, 2, homes[0])],
        [dump_text(0, 2, homes[1]), dump_text(1, 2, homes[0])],
        [dump_text(0, 2, rows), dump_text(1, 2, [])],
    ):
        folder.write(file_text(2, body_text(dumps)))
        folder.misses(NO_CACHE, shards=2, members=8)
    folder.write(whole)
    folder.hits(dict(rows), shards=2, members=8)


def parts_of(text):
    """The dumps of two shards in the text of a cache."""
    return [b"iqdump" + part for part in text.split(b"iqdump")[1:]]


def no_caches(folder):
    for text in (b"", b"\n", bytes(1 << 20), b"members 3\nend\n", dump_text(0, 1, TWO)):
        taken_for_nothing(folder, f"{len(text)} bytes", text)


# Where the file can't be read or written.


def folder_in_place(folder):
    """A folder at the path is no cache. It stays, and nothing beside it."""
    os.mkdir(folder.path())
    folder.fill(["profile:2"], FILE_FAULT, end=FAULT)
    expect((os.listdir(folder.place), os.listdir(folder.path())), (["cache"], []))


def rows_in_place(folder):
    """The rows of the server itself are no cache, and stay."""
    rows = folder.path("store.db")
    folder.fill(["profile:2"], NO_CACHE, path=rows, warm=rows, end=FAULT)
    expect(query(rows, "SELECT name FROM member ORDER BY id"), [("m1",), ("m2",), ("m3",)])
    folder.serves(NO_FILE, path=rows)
    expect(folder.read(), cache_text(1, []))


def no_ordinary_files(folder):
    """A pipe isn't waited for, and a device has no end. Both stay what they are."""
    os.mkfifo(folder.path("pipe"))
    paths = [folder.path("pipe"), "/dev/null", "/dev/zero"]
    kinds = [os.stat(path).st_mode for path in paths]
    for path in paths:
        folder.fill(["profile:2"], FILE_FAULT, end=FAULT, warm=path)
    expect([os.stat(path).st_mode for path in paths], kinds)
    expect(os.listdir(folder.place), ["pipe"])


def missing_folder(folder):
    folder.fill(["profile:2"], end=FAULT, warm=folder.path("missing/cache"))
    expect(os.listdir(folder.place), [])


def rows_under_the_new_name(folder):
    """The rows of the server itself are where the new file would be. They stay, with what the server wrote to them."""
    path = folder.path("cache.new")
    folder.serves(NO_FILE, lambda client: renames(client, 2, "bob", 1, 1), path=path, end=FAULT)
    wanted = [(1, "m1"), (2, "bob"), (3, "m3")], []
    expect((rows_in(path), os.path.lexists(folder.path())), (wanted, False))
    told = folder.serves(NO_FILE, lambda client: client.values(["profile:2", "profile:3"]), path=path, end=FAULT)
    expect(told, ["bob 0 0", "m3 0 0"])
    expect((rows_in(path), os.path.lexists(folder.path())), (wanted, False))


def strange_new_files(folder):
    """A file under the new name that doesn't begin as a cache stays byte for byte, whether there was a cache or not."""
    texts = (b"notes\n", b"\n", b"iqcache", b"iqcachet 1 1\n", b"IQCACHE 1 1\n", bytes(1 << 20))
    for text in texts:
        folder.write(text, "cache.new")
        folder.fill(["profile:2"], end=FAULT)
        expect((os.listdir(folder.place), folder.read("cache.new")), (["cache.new"], text))
    os.remove(folder.path("cache.new"))
    folder.fill(["profile:2"])
    kept = folder.read()
    for text in texts:
        folder.write(text, "cache.new")
        folder.serves("warm 1", lambda client: fill(client, ["profile:3"]), end=FAULT)
        expect((folder.read(), folder.read("cache.new")), (kept, text))
        expect(sorted(os.listdir(folder.place)), ["cache", "cache.new"])


def no_file_under_the_new_name(folder):
    """A folder, a pipe or a link under the new name stays what it is, and so does what a link leads to."""
    folder.fill(["profile:2"])
    kept = folder.read()
    new, there = folder.path("cache.new"), folder.path("there")
    folder.write(b"iqcache 1 1", "there")
    for name, put, remove in (
        ("a folder", lambda: os.mkdir(new), os.rmdir),
        ("a pipe", lambda: os.mkfifo(new), os.remove),
        ("a link to nothing", lambda: os.symlink("nothing", new), os.remove),
        ("a link to a cache", lambda: os.symlink(there, new), os.remove),
    ):
        put()
        before = os.lstat(new)
        try:
            folder.serves("warm 1", lambda client: fill(client, ["profile:3"]), end=FAULT)
            after = os.lstat(new)
            expect((after.st_mode, after.st_ino), (before.st_mode, before.st_ino))
            expect((folder.read(), folder.read("there")), (kept, b"iqcache 1 1"))
            expect(sorted(os.listdir(folder.place)), ["cache", "cache.new", "there"])
        except Wrong as wrong:
            raise Wrong(f"{name}: {wrong}") from wrong
        remove(new)


def half_written(folder):
    """What a killed server left under the new name is replaced, and after a fault it is gone."""
    keys = [f"profile:{member}" for member in range(2, 1001)]
    folder.fill(["profile:1"], members=1000)
    kept = folder.read()
    for left in (b"", b"iqcache 1 2 abc", kept[: len(kept) // 2], kept):
        folder.write(left, "cache.new")
        folder.serves("warm 1", members=1000)
        expect((folder.read(), os.listdir(folder.place)), (kept, ["cache"]))
        folder.write(left, "cache.new")
        folder.fill(keys, "warm 1", members=1000, most=5000, end=FAULT)
        expect((folder.read(), os.listdir(folder.place)), (kept, ["cache"]))


def full_disk(folder):
    """Where the file may not be so long, it has what it had."""
    folder.fill(["profile:1"], members=1000)
    kept = folder.read()
    keys = [f"profile:{member}" for member in range(2, 1001)]
    folder.fill(keys, "warm 1", members=1000, most=5000, end=FAULT)
    expect((folder.read(), os.listdir(folder.place)), (kept, ["cache"]))
    folder.fill(keys, "warm 1", members=1000)
    folder.serves("warm 1000", members=1000)


def small_disk(folder):
    """The same on a disk of 16 pages."""
    if not mounted(folder.place):
        return
    try:
        full_disk_of_pages(folder)
    finally:
        subprocess.run(["umount", folder.place], check=False)


def full_disk_of_pages(folder):
    folder.fill(["profile:1"], members=4000)
    kept = folder.read()
    keys = [f"profile:{member}" for member in range(2, 4001)]
    folder.fill(keys, "warm 1", members=4000, end=FAULT)
    expect((folder.read(), os.listdir(folder.place)), (kept, ["cache"]))


def mounted(place):
    """Whether a small disk could be mounted here."""
    if os.getuid() != 0:
        print("warm: only root mounts a disk, so no small one is tried")
        return False
    words = ["mount", "-t", "tmpfs", "-o", "size=64k", "tmpfs", place]
    if subprocess.run(words, capture_output=True, check=False).returncode == 0:
        return True
    print("warm: no disk can be mounted here, so no small one is tried")
    return False


def no_permission(folder):
    """A file that can't be read is no cache, and stays. A folder that can't be written is a fault."""
    user = NOBODY if os.getuid() == 0 else None
    folder.fill(["profile:2"])
    kept = folder.read()
    os.chmod(folder.place, 0o777)
    os.chmod(folder.path(), 0o000)
    folder.misses(FILE_FAULT, user=user, end=FAULT)
    os.chmod(folder.path(), 0o644)
    expect(folder.read(), kept)
    os.chmod(folder.place, 0o555)
    folder.serves("warm 1", lambda client: fill(client, ["profile:3"]), user=user, end=FAULT)
    os.chmod(folder.place, 0o755)
    expect((folder.read(), os.listdir(folder.place)), (kept, ["cache"]))


# Ends of other kinds.


def stopped(folder, number):
    """A server that is stopped by a signal writes nothing, whatever it has stored."""
    folder.fill(["profile:2"])
    kept = folder.read()
    with folder.server(conns=2) as server:
        expect(server.begun(), "warm 1")
        with Client(server) as client:
            fill(client, ["profile:3"])
            quit_all(client)
        server.process.send_signal(number)
        expect(server.end(), ("", "", -number))
    expect((folder.read(), os.listdir(folder.place)), (kept, ["cache"]))


def stopped_at_its_end(folder):
    """A server that is killed while it writes leaves what there was, or all that it had."""
    drawn = random.Random(SEED)
    keys = [f"profile:{member}" for member in range(1, MANY + 1)]
    old = cache_text(8, [(keys[0], "m1 0 0")])
    whole = cache_text(8, [(key, f"m{key[8:]} 0 0") for key in keys])
    for _ in range(KILLS):
        folder.write(old)
        with folder.server(shards=8, members=MANY) as server:
            expect(server.begun(), "warm 1")
            with Client(server) as client:
                fill(client, keys[1:])
                quit_all(client)
            time.sleep(drawn.random() * 0.02)
            server.kill()
        if folder.read() not in (old, whole):
            raise Wrong(f"the file has {len(folder.read())} bytes, neither {len(old)} nor {len(whole)}")


def traced(folder, words, begun, end, calls):
    """A server under strace with these words, and with the file: it begins and ends so. What it told of these calls."""
    trace = folder.path("trace")
    command = ["-f", "-o", trace, "-e", f"trace={calls}", *words, folder.program]
    with Server("strace", None, warm=folder.path(), conns=1, before=command) as server:
        expect(server.begun(), begun)
        with Client(server) as client:
            quit_all(client)
        expect(server.end(), end)
    with open(trace, encoding="utf-8") as stream:
        told = stream.read()
    os.remove(trace)
    return told


def synced_before_it_takes_the_place(folder):
    """The new file is brought to the disk behind its last byte, and before it takes the place of the old one."""
    folder.fill(["profile:2"])
    told = traced(folder, [], "warm 1", ENDED, "write,fsync,fdatasync,rename,renameat,renameat2")
    calls = [line.split(None, 1)[1] for line in told.splitlines()]
    at = next(it for it, call in enumerate(calls) if call.startswith("rename"))
    wrote = max(it for it, call in enumerate(calls[:at]) if call.startswith("write(") and "iqcache" in call)
    number = calls[wrote][len("write(") :].split(",")[0]
    synced = [it for it, call in enumerate(calls) if call.startswith((f"fsync({number})", f"fdatasync({number})"))]
    if not any(wrote < it < at and calls[it].endswith("= 0") for it in synced):
        raise Wrong(f"no sync between {calls[wrote]} and {calls[at]}")


def sync_that_fails(folder):
    folder.fill(["profile:2"])
    kept = folder.read()
    traced(folder, ["-e", "inject=fsync,fdatasync:error=EIO"], "warm 1", FAULT, "fsync,fdatasync")
    expect(folder.read(), kept)


def half_read(folder):
    """A read that fails behind the first part of the file: nothing is taken over."""
    folder.fill(MANY_KEYS)
    calls = "read,pread64"
    for number in (1, 2):
        words = ["-P", folder.path(), "-e", f"inject={calls}:error=EIO:when={number}"]
        traced(folder, words, FILE_FAULT, ENDED, calls)
        folder.fill(MANY_KEYS, "warm 0")


def door_that_fails(folder):
    """An address that is taken: nothing is printed, and nothing is written."""
    folder.fill(["profile:2"])
    kept = folder.read()
    with socket.create_server(("127.0.0.1", 0)) as taken:
        words = ["serve", "--warm", folder.path(), f"127.0.0.1:{taken.getsockname()[1]}", 1, 1, 1, 3]
        expect(run(folder.program, words), ("", "door fault\n", 5))
        words[2] = folder.path("other")
        expect(run(folder.program, words), ("", "door fault\n", 5))
    expect((folder.read(), os.listdir(folder.place)), (kept, ["cache"]))


def last_line_that_fails(folder):
    """Where the last line can't be written, the file isn't either."""
    folder.fill(["profile:2"])
    kept = folder.read()
    with folder.server() as server:
        expect(server.begun(), "warm 1")
        server.process.stdout.close()
        with Client(server) as client:
            fill(client, ["profile:3"])
            quit_all(client)
        expect((server.process.stderr.read(), server.process.wait(60)), (b"write fault\n", 4))
    expect((folder.read(), os.listdir(folder.place)), (kept, ["cache"]))


def faulty_words(folder):
    """A server without an end has no such file, nor has another command. Nothing is made of these words."""
    path = folder.path()
    served = ["127.0.0.1:0", 1, 1, 1, 3]
    for words in (
        ["serve", "--warm", path, "127.0.0.1:0", "forever", 1, 1, 3],
        ["serve", "--warm", path, "--warm", path, *served],
        ["serve", "--warm", "", *served],
        ["serve", "--warm", "-c", *served],
        ["serve", *served, "--warm"],
        ["work", "--warm", path, 3, 0, 1, 1, 1],
        ["warm", "--warm", path, 3, 0, 1, 1, 1],
        ["replay", "--warm", path],
        ["--warm", path, "serve", *served],
    ):
        expect(run(folder.program, words, "members 3\nend\n"), ("", "usage\n", 1))
    expect(os.listdir(folder.place), [])


CHECKS = [
    ("the first server is cold, and the next one hits", two_servers),
    ("the text of the file", text_of_the_file),
    ("a cache without entries", nothing_stored),
    ("keys of each kind", each_kind),
    (f"{MANY} entries over eight shards", many_entries),
    ("a full shard, and one entry more", full_shard),
    ("four connections store", on_threads),
    ("plain items aren't kept", plain_items),
    ("what was written behind the cache", written_behind),
    ("a writer that left before its release", unanswered_writer),
    ("words in another order", words_in_any_order),
    ("another number of shards", other_shards),
    ("another number of members", other_members),
    ("rows that another server changed", rows_of_another_server),
    ("rows that sqlite changed", rows_by_sqlite),
    ("a byte that is changed", changed_bytes),
    ("a file that is cut, or goes on", cut_files),
    ("texts that nearly are a cache's", other_texts),
    ("dumps and rows in the wrong place", strangers),
    ("files that are no cache", no_caches),
    ("a folder at the path", folder_in_place),
    ("the rows at the path", rows_in_place),
    ("a pipe or a device at the path", no_ordinary_files),
    ("a folder that is missing", missing_folder),
    ("the rows under the new name", rows_under_the_new_name),
    ("a file under the new name that is no cache", strange_new_files),
    ("a folder, a pipe or a link under the new name", no_file_under_the_new_name),
    ("what a killed server left under the new name", half_written),
    ("a disk that is full", full_disk),
    ("a small disk", small_disk),
    ("a server that is killed", lambda folder: stopped(folder, signal.SIGKILL)),
    ("a server that is told to end", lambda folder: stopped(folder, signal.SIGTERM)),
    (f"a server that is killed at its end, {KILLS} times", stopped_at_its_end),
    ("a door that can't be opened", door_that_fails),
    ("a last line that can't be written", last_line_that_fails),
    ("faulty words", faulty_words),
]


TRACED = [
    ("the new file is synced before it takes the place", synced_before_it_takes_the_place),
    ("a sync that fails", sync_that_fails),
    ("a file of which half is read", half_read),
]


def is_traced(program):
    """Whether strace is there, and may trace."""
    try:
        ran = subprocess.run(["strace", "-o", os.devnull, program], capture_output=True, timeout=PATIENCE, check=False)
        return ran.returncode == 1 and ran.stderr == b"usage\n"
    except OSError:
        return False


def check_all(program):
    """Makes all checks. Their counts are in what comes back."""
    checks = Checks("warm", lambda place: Folder(program, place))
    for name, work in CHECKS:
        checks.check(name, work)
    if is_traced(program):
        for name, work in TRACED:
            checks.check(name, work)
    else:
        print("warm: no strace here that can trace, so no call is made to fail, and no sync is looked for")
    if is_run_by_nobody(program):
        checks.check("a file and a folder without permission", no_permission)
    else:
        print("warm: only root can run the program here, to whom nothing is forbidden: no such file is tried")
    return checks


def main(words):
    if len(words) != 1:
        print(__doc__, file=sys.stderr)
        return 2
    checks = check_all(os.path.abspath(words[0]))
    print(f"{checks.passed} passed, {checks.failed} failed")
    return checks.failed > 0


if __name__ == "__main__":
    sys.exit(main(sys.argv[1:]))

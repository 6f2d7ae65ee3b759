"""What the scripts share that try the rows in a file: files that sqlite makes and reads, and the program over them."""
import os
import select
import shutil
import signal
import socket
import sqlite3
import subprocess
import sys
import tempfile
from contextlib import closing

from free_ports import free_port

PATIENCE = 60
NOBODY = 65534

MEMBER = "CREATE TABLE member(id INTEGER PRIMARY KEY, name TEXT NOT NULL) STRICT"
LINK = (
    "CREATE TABLE link(a INTEGER NOT NULL, b INTEGER NOT NULL, "
    "st INTEGER NOT NULL CHECK(st IN (0, 1, 2)), PRIMARY KEY(a, b)) STRICT"
)
INDEX = "CREATE INDEX link_by_b ON link(b, a)"
THREE = "INSERT INTO member VALUES (1, 'm1'), (2, 'bob'), (3, 'm3')"

BESIDE = ("", "-wal", "-journal", "-shm")
NO_PAGE = 56  # The bytes of a log's head, and of the head of its first page.


class Wrong(Exception):
    """What was found isn't what was wanted."""


def expect(found, wanted):
    if found != wanted:
        raise Wrong(f"{found!r} in place of {wanted!r}")


def make(path, statements):
    """Makes a database by these statements."""
    with closing(sqlite3.connect(path)) as conn:
        conn.executescript(";\n".join(statements) + ";")


def query(path, sql):
    """All rows that sqlite reads of a file."""
    with closing(sqlite3.connect(path, timeout=0)) as conn:
        return conn.execute(sql).fetchall()


def rows(path):
    """The members and the links of a file, by sqlite, which finds the file sound and in the form of the store."""
    expect(query(path, "PRAGMA integrity_check"), [("ok",)])
    texts = query(path, "SELECT sql FROM sqlite_schema WHERE sql IS NOT NULL ORDER BY rowid")
    expect([text for (text,) in texts][:2], [MEMBER, LINK])
    members = query(path, "SELECT id, name FROM member ORDER BY id")
    return members, query(path, "SELECT a, b, st FROM link ORDER BY a, b")


def contents(path):
    """The bytes of a file, and of those that sqlite may have beside it."""
    found = {}
    for suffix in BESIDE:
        if os.path.isfile(path + suffix):
            with open(path + suffix, "rb") as stream:
                found[suffix] = stream.read()
    return found


def expect_unchanged(path, before):
    """A file and those beside it have these bytes still. The log may end in bytes that are too few for a page: a start that
    is refused makes a log, or shuts the one that it found."""
    after = contents(path)
    for suffix in BESIDE:
        was, now = before.get(suffix, b""), after.get(suffix, b"")
        if suffix == "-wal" and now.startswith(was) and len(now) - len(was) <= NO_PAGE:
            continue
        if was != now:
            raise Wrong(f"{os.path.basename(path)}{suffix} is changed: {len(was)} bytes before, {len(now)} after")


def copy(path, folder):
    """A copy of a file, with its log, in a folder that is made for it. The place of the copy."""
    shutil.rmtree(folder, ignore_errors=True)
    os.mkdir(folder)
    for suffix in ("", "-wal"):
        if os.path.isfile(path + suffix):
            shutil.copy(path + suffix, os.path.join(folder, "store.db" + suffix))
    return os.path.join(folder, "store.db")


def run(program, words, script="", most=None, user=None):
    """Runs the program, with files of no more than so many bytes, and as another user. What it printed, its standard
    error, and its status."""
    ran = subprocess.run(
        [program, *map(str, words)],
        input=script.encode(),
        capture_output=True,
        timeout=PATIENCE,
        check=False,
        restore_signals=False,
        preexec_fn=_limit(most),
        user=user,
    )
    return ran.stdout.decode(), ran.stderr.decode(), ran.returncode


def replay(program, path, script):
    """What a script prints over a file."""
    out, err, status = run(program, ["replay", "--db", path], script)
    expect((err, status), ("", 0))
    return out


def asks(keys, members=3):
    """A script that asks the store for these keys."""
    numbered = list(enumerate(keys, 1))
    lines = [f"members {members}"]
    lines += [f"read {number} {key}" for number, key in numbered]
    lines += [f"turn {number} 3" for number, _ in numbered]
    return "\n".join(lines + ["end", ""])


def expect_answers(program, path, wanted, members=3):
    """Has the program answer these keys over a file."""
    out = replay(program, path, asks(wanted, members))
    told = [line.split(" ", 4)[2:] for line in out.splitlines() if line.split(" ")[1] == "ask"]
    expect({key: value for key, _, value in told}, wanted)


def _limit(most):
    """What a process does before it runs, so that a file may have no more than so many bytes."""
    import resource  # Not on every system, and needed here alone.

    def limit():
        signal.signal(signal.SIGXFSZ, signal.SIG_IGN)
        resource.setrlimit(resource.RLIMIT_FSIZE, (most, resource.RLIM_INFINITY))

    return limit if most else None


def is_run_by_nobody(program):
    """Whether the program can be run as another user, who may be kept from its folder."""
    try:
        return os.getuid() != 0 or run(program, [], user=NOBODY)[2] == 1
    except (OSError, subprocess.SubprocessError):
        return False


class Server:
    """A server over a file, or with no path over rows in memory, at a port that was free a moment ago. `warm` names the
    file of its cache, and `before` are words behind the program, which is strace then."""

    def __init__(
        self, program, path, members=3, workers=1, most=None, warm=None, shards=1, conns=1000, user=None, before=()
    ):
        self.port = free_port()
        options = [*(["--db", path] if path else []), *(["--warm", warm] if warm else [])]
        words = [f"127.0.0.1:{self.port}", conns, workers, shards, members]
        self.process = subprocess.Popen(
            [program, *before, "serve", *options, *map(str, words)],
            stdout=subprocess.PIPE,
            stderr=subprocess.PIPE,
            restore_signals=False,
            preexec_fn=_limit(most),
            user=user,
        )

    def ready(self):
        """Waits until connections are taken."""
        expect(self.process.stdout.readline(), b"ready\n")
        return self

    def ready_within(self, seconds):
        """The same, but for no longer than this. It is the first thing that is read of it."""
        if not select.select([self.process.stdout], [], [], seconds)[0]:
            raise Wrong(f"not ready within {seconds} seconds")
        return self.ready()

    def begun(self):
        """Waits until connections are taken. What is said before that: how the cache began."""
        line = self.process.stdout.readline()
        self.ready()
        return line.decode().rstrip("\n")

    def end(self):
        """Waits for its end. What else it printed, its standard error, and its status."""
        out, err = self.process.communicate(timeout=PATIENCE)
        return out.decode(), err.decode(), self.process.returncode

    def give_room(self):
        """Lets its files grow."""
        import resource

        resource.prlimit(self.process.pid, resource.RLIMIT_FSIZE, (resource.RLIM_INFINITY, resource.RLIM_INFINITY))

    def kill(self):
        """Ends it at once."""
        self.process.kill()
        self.process.communicate(timeout=PATIENCE)

    def __enter__(self):
        return self

    def __exit__(self, *_):
        self.kill()


class Client:
    """A connection that sends lines, and reads a line for each."""

    def __init__(self, server):
        self.stream = socket.create_connection(("127.0.0.1", server.port), timeout=PATIENCE)
        self.stream.setsockopt(socket.IPPROTO_TCP, socket.TCP_NODELAY, 1)
        self.lines = self.stream.makefile("rb")
        self.last = ""

    def send(self, lines):
        self.stream.sendall("".join(line + "\r\n" for line in lines).encode())

    def reply(self):
        """The next line, or nothing where the server is gone. It is the last one until the next."""
        try:
            line = self.lines.readline()
        except OSError:
            line = b""
        self.last = line[:-2].decode() if line.endswith(b"\r\n") else ""
        return self.last

    def begin(self, role):
        """Begins a session, and gives its number."""
        self.send([f"begin {role}"])
        return self.reply().partition(" ")[2]

    def values(self, keys):
        """What the store answers to keys, each in one line."""
        session = self.begin("read")
        values = []
        for first in range(0, len(keys), 100):
            group = keys[first : first + 100]
            self.send([f"ask {key} {session}" for key in group])
            for key in group:
                if not self.reply().startswith(f"VALUE {key} "):
                    raise Wrong(f"no answer to {key}")
                values.append(self.reply())
                expect(self.reply(), "END")
        return values

    def close(self):
        self.lines.close()
        self.stream.close()

    def __enter__(self):
        return self

    def __exit__(self, *_):
        self.close()


class Checks:
    """Runs checks, each in a folder of its own, and counts them."""

    def __init__(self, head, folder):
        self.head = head
        self.folder = folder
        self.passed = self.failed = 0

    def check(self, name, work, *words):
        """Calls this work on a new folder, and tells under this name how it went."""
        place = tempfile.mkdtemp()
        try:
            work(self.folder(place), *words)
            self.passed += 1
            print(f"{self.head}: {name}: as it must be")
        except Exception as wrong:  # Whatever a check meets, the others are made.
            self.failed += 1
            print(f"{self.head}: {name}: NOT as it must be: {str(wrong)[:600] or repr(wrong)}")
        finally:
            shutil.rmtree(place)
        sys.stdout.flush()

#!/usr/bin/env python3
"""An example of a site: the page of a member, her friends and her invitations.

    ./iq serve 127.0.0.1:7000 forever 16 8 1000 &
    python3 clients/python/example_site/site.py 127.0.0.1:7000 8080

Then look at http://127.0.0.1:8080/member/2. A button switches between two ways of caching over the same store: the
leases of the server, and a plain dictionary beside the store, as many sites have it.
"""

from __future__ import annotations

import sys
from html import escape
from http.cookies import CookieError, SimpleCookie
from http.server import BaseHTTPRequestHandler, ThreadingHTTPServer
from pathlib import Path
from typing import Callable, Dict, Union
from urllib.parse import parse_qs

sys.path.insert(0, str(Path(__file__).resolve().parents[1]))

from silamoven import Answer, InvalidInputError, Key, Kind, Pool, Profile  # noqa: E402
from silamoven import RejectedError, SilamovenError, Txn, parse_ids  # noqa: E402


class ByLeases:
    """Values are in the server's cache. A reader may store one only under a lease."""

    name = "leases"

    def __init__(self, pool: Pool) -> None:
        self._pool = pool

    def read(self, key: Key, floor: int = 0) -> Answer:
        """The answer to a key, no older than the commit of number `floor`."""
        return self._pool.read(key, floor)

    def write(self, txn: Txn) -> int:
        """Commits, and returns the number of the commit."""
        return self._pool.write(txn)


class Aside:
    """Values are in a dictionary of the site. On a miss the store is asked; after a commit values are dropped.

    That is the usual way, and it goes stale. A reader may ask before a commit and put the old answer behind it.
    """

    name = "aside"

    def __init__(self, pool: Pool, between: Callable[[], None] = lambda: None) -> None:
        self._pool = pool
        self._between = between  # What a reader does before it puts the store's answer into the dictionary.
        self._values: Dict[Key, Answer] = {}  # Each operation on a dictionary is atomic in Python.

    def read(self, key: Key, floor: int = 0) -> Answer:
        """The answer to a key, which may be stale. There is no place for a floor here."""
        cached = self._values.get(key)
        if cached is not None:
            return cached
        answer = self._pool.ask(key)
        self._between()
        self._values[key] = answer
        return answer

    def write(self, txn: Txn) -> int:
        """Commits, then drops the values that the transaction touches."""
        number = self._pool.write(txn)
        for key in txn.keys():
            self._values.pop(key, None)
        return number


class Site:
    """The pages, and which way of caching they use now."""

    def __init__(self, pool: Pool) -> None:
        self.way: Union[ByLeases, Aside] = ByLeases(pool)
        self._other: Union[ByLeases, Aside] = Aside(pool)

    def switch(self) -> None:
        self.way, self._other = self._other, self.way

    def page_of(self, member: int, floor: int) -> str:
        """The page of a member, no older than the commit of number `floor` where leases are used."""
        way, used = self.way, []

        def read(kind: Kind, whose: int) -> bytes:
            answer = way.read(Key(kind, whose), floor)
            used.append(f"{answer.key} of stamp {answer.stamp}")
            return answer.data

        def link(whose: int) -> str:
            profile = Profile.parse(read(Kind.PROFILE, whose))
            return f'<a href="/member/{whose}">{escape(profile.name if profile else "?")}</a>'

        profile = Profile.parse(read(Kind.PROFILE, member))
        if profile is None:
            return page("Nobody", "<p>There is no such member.</p>")
        friends = [
            f"<li>{link(other)} {button(f'thaw {member} {other}', 'part')}</li>"
            for other in parse_ids(read(Kind.FRIENDS, member))
        ]
        invitations = [
            f"<li>{link(other)} {button(f'accept {other} {member}', 'accept')}"
            f" {button(f'reject {other} {member}', 'reject')}</li>"
            for other in parse_ids(read(Kind.PENDING, member))
        ]
        return page(
            escape(profile.name),
            f"<p>{profile.friends} friends, {profile.pending} invitations</p>"
            f"<h2>Friends</h2><ul>{''.join(friends)}</ul>"
            f"<h2>Invited by</h2><ul>{''.join(invitations)}</ul>"
            f"<h2>Change</h2>{field(f'rename {member}', 'new name')} {field(f'invite {member}', 'id to invite')}"
            f"<hr>Cached by {way.name} <form method=post action=/switch><button>switch</button></form>"
            f"<p><small>{escape('; '.join(used))}</small></p>",
        )


def page(title: str, body: str) -> str:
    style = "body{font:16px sans-serif;margin:2em auto;max-width:40em}form{display:inline}li{margin:.3em}"
    return f"<!doctype html><title>{title}</title><style>{style}</style><h1>{title}</h1>{body}"


def button(txn: str, label: str) -> str:
    """A button that commits a transaction."""
    return f'<form method=post action=/change><button name=txn value="{txn}">{label}</button></form>'


def field(txn: str, label: str) -> str:
    """A field whose text is the last word of a transaction."""
    hidden = f'<input type=hidden name=txn value="{txn}">'
    return f'<form method=post action=/change>{hidden}<input name=last placeholder="{label}"></form>'


class Handler(BaseHTTPRequestHandler):
    """Answers one request. A cookie keeps the number of a visitor's last commit, as the floor of her reads."""

    site: Site

    def do_GET(self) -> None:
        words = self.path.strip("/").split("/")
        if len(words) != 2 or words[0] != "member":
            return self.send(404, page("No such page", "<p>Try <a href=/member/1>/member/1</a>.</p>"))
        self.tell(lambda: self.send(200, self.site.page_of(Key.of("profile:" + words[1]).member, self.floor())))

    def do_POST(self) -> None:
        size = min(int(self.headers.get("Content-Length") or 0), 10_000)
        form = parse_qs(self.rfile.read(size).decode("ascii", "replace"))
        if self.path == "/switch":
            self.site.switch()
            return self.send(303, "")
        text = " ".join(form.get("txn", [""]) + form.get("last", []))
        self.tell(lambda: self.send(303, "", floor=self.site.way.write(Txn.of(text))))

    def floor(self) -> int:
        try:
            return int(SimpleCookie(self.headers.get("Cookie", ""))["floor"].value)
        except (CookieError, KeyError, ValueError):
            return 0

    def tell(self, what: Callable[[], None]) -> None:
        """Does it, or says in a page what went wrong."""
        try:
            what()
        except (InvalidInputError, RejectedError) as wrong:
            self.send(400, page("That can't be done", f"<p>{escape(str(wrong))}</p>"))
        except SilamovenError as broken:
            self.send(503, page("Later again", f"<p>{escape(str(broken))}</p>"))

    def send(self, status: int, text: str, floor: int = 0) -> None:
        self.send_response(status)
        self.send_header("Content-Type", "text/html; charset=ascii")
        self.send_header("Content-Length", str(len(text)))
        if status == 303:
            self.send_header("Location", self.headers.get("Referer", "/member/1"))
        if floor:
            self.send_header("Set-Cookie", f"floor={floor}; Path=/; HttpOnly")
        self.end_headers()
        self.wfile.write(text.encode("ascii", "replace"))


def serve(pool: Pool, port: int) -> ThreadingHTTPServer:
    """A server of the pages on the loopback; port 0 takes a free one."""
    return ThreadingHTTPServer(("127.0.0.1", port), type("Bound", (Handler,), {"site": Site(pool)}))


if __name__ == "__main__":
    if len(sys.argv) != 3:
        sys.exit(__doc__)
    with Pool(sys.argv[1]) as pool, serve(pool, int(sys.argv[2])) as server:
        try:
            server.serve_forever()
        except KeyboardInterrupt:
            pass

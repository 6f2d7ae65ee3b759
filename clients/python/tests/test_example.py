"""The example of a site: its pages, its changes, and the race that it shows."""

from __future__ import annotations

import contextlib
import http.client
import io
import re
import threading
import unittest
from typing import Dict, Tuple

from example_site import race, site
from silamoven import Pool

from .support import PATIENCE, Server

server: Server


def setUpModule() -> None:
    global server
    server = Server(workers=16, members=9)
    unittest.addModuleCleanup(server.stop)


class Visitor:
    """A browser: it keeps its cookie, and follows no redirection."""

    def __init__(self, port: int) -> None:
        self._port = port
        self._cookie = ""

    def say(self, method: str, path: str, form: str = "") -> Tuple[int, str]:
        connection = http.client.HTTPConnection("127.0.0.1", self._port, timeout=PATIENCE)
        headers: Dict[str, str] = {"Cookie": self._cookie} if self._cookie else {}
        connection.request(method, path, form, headers)
        response = connection.getresponse()
        text = response.read().decode("ascii")
        self._cookie = (response.getheader("Set-Cookie") or self._cookie).split(";")[0]
        connection.close()
        return response.status, text


class Pages(unittest.TestCase):
    def setUp(self) -> None:
        # http.server tells of each request on standard error.
        quiet = contextlib.redirect_stderr(io.StringIO())
        quiet.__enter__()
        self.addCleanup(quiet.__exit__, None, None, None)
        pool = Pool(server.address)
        self.addCleanup(pool.close)
        pages = site.serve(pool, 0)
        self.addCleanup(pages.server_close)
        threading.Thread(target=pages.serve_forever, args=(0.05,), daemon=True).start()
        self.addCleanup(pages.shutdown)
        self.visitor = Visitor(pages.server_port)

    def change(self, txn: str, last: str = "") -> int:
        form = "txn=" + txn.replace(" ", "+") + (f"&last={last}" if last else "")
        return self.visitor.say("POST", "/change", form)[0]

    def test_a_visitor_sees_her_own_changes(self) -> None:
        for way in ("leases", "aside"):
            self.assertIn(f"Cached by {way}", self.visitor.say("GET", "/member/2")[1])
            for txn, last, seen in [
                ("rename 2", "b%3Cb", "<h1>b&lt;b</h1>"),
                ("invite 1", "2", "0 friends, 1 invitations"),
                ("reject 1 2", "", "0 friends, 0 invitations"),
                ("invite 1", "2", 'value="accept 1 2"'),
                ("accept 1 2", "", '<a href="/member/1">'),
                ("thaw 2 1", "", "0 friends, 0 invitations"),
            ]:
                with self.subTest(way=way, txn=txn):
                    self.assertEqual(self.change(txn, last), 303)
                    status, text = self.visitor.say("GET", "/member/2")
                    self.assertEqual(status, 200)
                    self.assertIn(seen, text)
            self.assertEqual(self.visitor.say("POST", "/switch")[0], 303)

    def test_what_cannot_be_shown_or_done(self) -> None:
        self.assertEqual(self.visitor.say("GET", "/")[0], 404)
        self.assertEqual(self.visitor.say("GET", "/member/x")[0], 400)
        self.assertEqual(self.visitor.say("GET", "/member/0")[0], 400)
        self.assertIn("no such member", self.visitor.say("GET", "/member/99")[1])
        self.assertEqual(self.change("befriend 1 2"), 400)
        self.assertEqual(self.change("thaw 3 4"), 400)
        self.assertEqual(self.change("rename 3", "a%0D%0Aquit"), 400)

    def test_a_server_that_is_gone(self) -> None:
        gone = Server(members=2)
        pool = Pool(gone.address)
        pool.close()
        gone.stop()
        pages = site.serve(pool, 0)
        self.addCleanup(pages.server_close)
        threading.Thread(target=pages.serve_forever, args=(0.05,), daemon=True).start()
        self.addCleanup(pages.shutdown)
        self.assertEqual(Visitor(pages.server_port).say("GET", "/member/1")[0], 503)


class OneRace(unittest.TestCase):
    def test_aside_goes_stale_and_leases_do_not(self) -> None:
        with Pool(server.address) as pool, contextlib.redirect_stdout(io.StringIO()) as told:
            self.assertTrue(race.one_race_aside(pool))
            self.assertFalse(race.one_race_by_leases(pool))
        self.assertEqual(len(re.findall("(?m)^  [123] ", told.getvalue())), 8)
        self.assertIn("NOT_STORED", told.getvalue())

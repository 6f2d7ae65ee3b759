"""The program, this client and the page of changes have one version; and the types of all that is written here."""

from __future__ import annotations

import re
import shutil
import subprocess
import unittest

from .support import PATIENCE, PROGRAM, TOP


class Types(unittest.TestCase):
    @unittest.skipUnless(shutil.which("mypy"), "no mypy here")
    def test_mypy_finds_nothing(self) -> None:
        words = ["mypy", "--strict", "--explicit-package-bases", "--cache-dir", "/dev/null", "silamoven", "example_site", "tests"]
        found = subprocess.run(words, cwd=TOP / "clients" / "python", stdout=subprocess.PIPE, timeout=600)
        self.assertEqual(found.returncode, 0, found.stdout.decode())


class Versions(unittest.TestCase):
    def found(self, path: str, pattern: str) -> str:
        text = (TOP / path).read_text(encoding="utf-8")
        found = re.search(pattern, text, re.M)
        assert found, path
        return found[1]

    def test_they_agree(self) -> None:
        told = subprocess.run([PROGRAM, "--version"], stdout=subprocess.PIPE, timeout=PATIENCE, check=True)
        version = told.stdout.decode().split()[1]
        self.assertEqual(self.found("clients/python/pyproject.toml", r'^version = "(.*)"$'), version)
        self.assertEqual(self.found("CHANGELOG.md", r"^## ([0-9.]+)"), version)

"""Keys, transactions and values: what their texts say, and what follows from a transaction."""

from __future__ import annotations

import unittest
from typing import Callable, List, Sequence, Union

from silamoven import (
    Accept,
    Block,
    Change,
    InvalidInputError,
    Invite,
    Key,
    Kind,
    Profile,
    Reject,
    Rename,
    Thaw,
    Txn,
    parse_count,
    parse_ids,
)
from silamoven.connection import split_address

# The table of docs/script.md: what each change touches, in the order of kind and then of id.
TOUCHES = {
    "invite 1 2": "profile:2 pending:2 npending:2",
    "accept 1 2": "profile:1 profile:2 friends:1 friends:2 pending:2 nfriends:1 nfriends:2 npending:2",
    "reject 1 2": "profile:2 pending:2 npending:2",
    "thaw 1 2": "profile:1 profile:2 friends:1 friends:2 nfriends:1 nfriends:2",
    "rename 2 bob": "profile:2",
    "block 2 1": "blocked:2",
    "block 2 1 + invite 3 2": "profile:2 pending:2 npending:2 blocked:2",
    "rename 10 a + invite 1 2 + rename 9 b": "profile:2 profile:9 profile:10 pending:2 npending:2",
}

NO_KEYS = """profile profile: profile:0 profile:02 profile:-1 profile:+1 profile:1_0 profile:4294967296 profile:x
Profile:1 name:1 :1 profile:1: profile:\u0661""".split()

NO_TXNS = [
    "",
    "invite 1",
    "invite 1 2 3",
    "invite 0 2",
    "invite 01 2",
    "invite 1 4294967296",
    "befriend 1 2",
    "INVITE 1 2",
    "rename 1",
    "rename 1 " + "x" * 41,
    "rename 1 b\u00f6b",
    "rename 1 a\tb",
    "rename 1 a\r\nquit",
    "invite 1 2 +",
    "+ invite 1 2",
    "invite 1 2 - invite 2 3",
    "invite 1 2 invite 2 3",
    " + ".join(["invite 1 2"] * 9),
]


class Keys(unittest.TestCase):
    def test_text_and_key_are_the_same(self) -> None:
        for kind in Kind:
            for member in (1, 2, 4_294_967_295):
                key = Key(kind, member)
                self.assertEqual(Key.of(str(key)), key)
                self.assertIs(Key.of(key), key)
        self.assertEqual(str(Key(Kind.PROFILE, 2)), "profile:2")

    def test_what_is_no_key(self) -> None:
        for text in [*NO_KEYS, "profile:1 ", " profile:1", "profile:1\r\nquit", ""]:
            with self.subTest(text), self.assertRaises(InvalidInputError):
                Key.of(text)
        with self.assertRaises(ValueError):
            Key(Kind.PROFILE, 0)


class Transactions(unittest.TestCase):
    def test_text_and_transaction_are_the_same(self) -> None:
        changes = (Invite(1, 2), Accept(1, 2), Reject(3, 2), Thaw(1, 2), Block(2, 3), Rename(2, "bob"))
        text = "invite 1 2 + accept 1 2 + reject 3 2 + thaw 1 2 + block 2 3 + rename 2 bob"
        self.assertEqual(str(Txn(changes)), text)
        texts = (text, text.replace(" ", "  "))
        givens: List[Union[Txn, str, Sequence[Change]]] = [*texts, changes, list(changes), Txn(changes)]
        for given in givens:
            self.assertEqual(Txn.of(given), Txn(changes))
        self.assertEqual(Txn.of(Rename(2, "bob")), Txn.of("rename 2 bob"))

    def test_a_plus_may_be_a_name(self) -> None:
        txn = Txn.of("rename 1 + + rename 2 rename")
        self.assertEqual(txn.changes, (Rename(1, "+"), Rename(2, "rename")))
        self.assertEqual(Txn.of(str(txn)), txn)

    def test_what_is_no_transaction(self) -> None:
        for text in NO_TXNS:
            with self.subTest(text), self.assertRaises(InvalidInputError):
                Txn.of(text)
        for none in ((), [Invite(1, 2)] * 9):
            with self.assertRaises(InvalidInputError):
                Txn.of(none)
        makes: List[Callable[[], Change]] = [lambda: Invite(0, 1), lambda: Rename(1, ""), lambda: Rename(1, "a b")]
        for make in makes:
            with self.assertRaises(InvalidInputError):
                make()

    def test_which_keys_it_touches(self) -> None:
        for text, keys in TOUCHES.items():
            with self.subTest(text):
                self.assertEqual(" ".join(map(str, Txn.of(text).keys())), keys)

    def test_eight_changes_touch_64_keys_at_most(self) -> None:
        txn = Txn.of([Accept(2 * at + 1, 2 * at + 2) for at in range(8)])
        self.assertEqual(len(txn.keys()), 64)


class Afterwards(unittest.TestCase):
    def after(self, txn: str, key: str, old: str) -> object:
        new = Txn.of(txn).value_after(Key.of(key), old.encode())
        return None if new is None else new.decode()

    def test_what_becomes_of_a_value(self) -> None:
        for txn, key, old, new in [
            ("rename 2 bob", "profile:2", "m2 3 4", "bob 3 4"),
            ("rename 2 bob + rename 2 al", "profile:2", "m2 3 4", "al 3 4"),
            ("invite 1 2", "profile:2", "m2 0 0", "m2 0 1"),
            ("invite 9 2 + invite 10 2", "pending:2", "3,11", "3,9,10,11"),
            ("invite 1 2", "pending:2", "", "1"),
            ("invite 1 2", "npending:2", "9", "10"),
            ("accept 1 2", "profile:1", "m1 0 7", "m1 1 7"),
            ("accept 1 2", "profile:2", "m2 1 1", "m2 2 0"),
            ("accept 1 2", "friends:1", "", "2"),
            ("accept 1 2", "friends:2", "7", "1,7"),
            ("accept 1 2", "pending:2", "1", ""),
            ("accept 1 2", "nfriends:2", "1", "2"),
            ("accept 1 2", "npending:2", "1", "0"),
            ("reject 1 2 + rename 2 x", "profile:2", "m2 1 1", "x 1 0"),
            ("invite 1 2 + reject 1 2", "npending:2", "5", "5"),
            ("invite 1 2 + reject 1 2", "pending:2", "5", "5"),
            ("thaw 1 2", "friends:1", "2,3", "3"),
            ("thaw 1 2", "nfriends:1", "2", "1"),
            ("thaw 1 2", "profile:2", "- 2 0", "- 1 0"),
            ("block 2 1", "blocked:2", "", "1"),
            ("block 2 10 + block 2 3", "blocked:2", "9,11", "3,9,10,11"),
            ("block 2 1 + invite 3 2", "profile:2", "m2 0 0", "m2 0 1"),
        ]:
            with self.subTest(txn=txn, key=key):
                self.assertEqual(self.after(txn, key, old), new)

    def test_where_it_cannot_be_told(self) -> None:
        for txn, key, old in [
            ("rename 2 bob", "profile:2", "-"),
            ("rename 2 bob", "profile:2", "garbage"),
            ("thaw 1 2", "profile:1", "m1 0 0"),
            ("thaw 1 2", "friends:1", "3"),
            ("invite 1 2", "pending:2", "1"),
            ("invite 1 2", "pending:2", "x"),
            ("reject 1 2", "npending:2", "0"),
            ("invite 1 2", "npending:2", "x"),
            ("block 2 1", "blocked:2", "1"),
            ("block 2 1", "blocked:2", "2,1"),
        ]:
            with self.subTest(txn=txn, key=key, old=old):
                self.assertIsNone(self.after(txn, key, old))

    def test_by_how_much_a_count_is_shifted(self) -> None:
        txn = Txn.of("accept 1 2 + invite 3 2 + invite 4 2 + thaw 1 5")
        for key, by in [("npending:2", 1), ("nfriends:1", 0), ("nfriends:2", 1), ("nfriends:5", -1)]:
            self.assertEqual(txn.shift_of(Key.of(key)), by)


class Values(unittest.TestCase):
    def test_values_are_read(self) -> None:
        self.assertEqual(Profile.parse(b"bob 2 3"), Profile("bob", 2, 3))
        self.assertEqual(Profile("bob", 2, 3).encode(), b"bob 2 3")
        self.assertIsNone(Profile.parse(b"-"))
        self.assertEqual(parse_ids(b""), ())
        self.assertEqual(parse_ids(b"1,20"), (1, 20))
        self.assertEqual(parse_count(b"12"), 12)

    def test_what_is_no_value(self) -> None:
        for parse, data in [
            (Profile.parse, b""),
            (Profile.parse, b"bob 2"),
            (Profile.parse, b"bob 2 x"),
            (parse_ids, b"1,"),
            (parse_count, b"-1"),
            (parse_count, b""),
        ]:
            with self.subTest(data), self.assertRaises(InvalidInputError):
                parse(data)


class Addresses(unittest.TestCase):
    def test_addresses(self) -> None:
        self.assertEqual(split_address("127.0.0.1:7000"), ("127.0.0.1", 7000))
        self.assertEqual(split_address("[::1]:7000"), ("::1", 7000))
        self.assertEqual(split_address(("localhost", 7000)), ("localhost", 7000))
        for text in ("localhost", ":7000", "localhost:", "localhost:x", "localhost:65536"):
            with self.subTest(text), self.assertRaises(InvalidInputError):
                split_address(text)

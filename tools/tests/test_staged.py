"""What the program is told about jobs, and what it decides."""

from __future__ import annotations

import os
from typing import TYPE_CHECKING

from tests import stand_in
from tests.rooms import Room
from txforest import model
from txforest.staged import (
    Job,
    Sum,
    decide,
    description,
    free_name,
    hidden,
    is_plain,
    parted,
    script,
    spelled,
    unquoted,
)
from txforest.states import LINK, Kind, Reader
from txforest.statuses import Failed

if TYPE_CHECKING:
    from txforest.states import Path, Seen

A, B, D = (b"a",), (b"b",), (b"d",)


def token(content: bytes) -> bytes:
    """The token of a file as these tests make them."""
    return b"f 0644 %d %d %s" % (os.geteuid(), os.getegid(), content)


class Texts(Room):
    def test_description_and_script_are_ones(self) -> None:
        for count in (1, 2, 64):
            root = model.read_description(description("=", count).encode())
            self.assertIsNotNone(root)
        self.assertLess(len(description("=", 64)), 65_536)
        for number in (0, 63):
            self.assertEqual(len(model.read_script(script(number).encode(), 0)), 1)

    def test_free_name(self) -> None:
        self.assertEqual(free_name([b"a", b"b"]), "=")
        self.assertEqual(free_name([b"=", b"=="]), "===")

    def test_names(self) -> None:
        self.assertEqual(spelled((b"a", b"b c")), (b"a", b"b c"))
        self.assertTrue(is_plain("ü".encode()))
        for name in (b"\xff", b".forest-links", b"~x", b"~"):
            self.assertFalse(is_plain(name))
            self.assertTrue(hidden(name).decode().startswith("~"))
        odd = [b"\xff", b"\xfe", b"~", hidden(b"\xff"), b".forest-links", b"a"]
        self.assertEqual(len({spelled((name,)) for name in odd}), len(odd))

    def test_report(self) -> None:
        text = (
            b"forest report 1\nentries 3\nentry 0 shell 1 txn 0 done\n"
            b'entry 1 shell 0 txn 0 aborted\nprint "a\\n\\"\\\\\\xff"\n'
            b'entry 2 shell 2 txn 0 stopped 4 6 Blocked "/d/e"\nretries 0\nend\n'
        )
        self.assertEqual(parted(text), ([1], {0: b'a\n"\\\xff', 2: b"d/e"}))
        self.assertEqual(unquoted(b'"\\\\n"'), b"\\n")
        for text in (b"\\", b"\\\\x", b'"', b"\n\\n", b"\\x41", b"a\\\"b", b"\x00\xff\\"):
            self.assertEqual(unquoted(model.quote(text).encode()), text)


class Decisions(Room):
    def setUp(self) -> None:
        super().setUp()
        self.write("a", "1\n")
        self.write("b", "2\n")
        self.write("d/x", "x")
        os.symlink("a", os.path.join(self.top, "l"))
        self.tree = Reader(self.root())
        self.addCleanup(self.tree.close)
        self.count = 0

    def decide(self, *jobs: Job) -> tuple[list[int], dict[int, Path | None]]:
        self.count += 1
        place = os.path.join(self.room, f"place{self.count}")
        self.made = decide(stand_in.called, place, jobs, self.tree)
        return self.made.done, self.made.refused

    def test_lost_update(self) -> None:
        one, two = (Job(n, {A: token(b"1\n")}, {A: token(b"2\n")}) for n in "xy")
        self.assertEqual(self.decide(one, two), ([0], {1: A}))
        self.assertEqual(self.made.after, {A: token(b"2\n")})

    def test_write_skew(self) -> None:
        one = Job("x", {A: token(b"1\n"), B: token(b"2\n")}, {A: token(b"-")})
        two = Job("y", {A: token(b"1\n"), B: token(b"2\n")}, {B: token(b"-")})
        self.assertEqual(self.decide(one, two), ([0], {1: A}))

    def test_blind_writes_all_stand(self) -> None:
        jobs = [Job(str(n), {}, {(b"n%d" % n,): token(b"")}, {}) for n in range(5)]
        self.assertEqual(self.decide(*jobs), ([0, 1, 2, 3, 4], {}))

    def test_absent_path_that_came(self) -> None:
        one = Job("x", {}, {(b"new",): token(b"")}, {})
        two = Job("y", {(b"new",): None}, {B: token(b"")}, {B: token(b"2\n")})
        self.assertEqual(self.decide(one, two), ([0], {1: (b"new",)}))
        self.assertEqual(self.decide(two, one), ([0, 1], {}))

    def test_names_of_directory(self) -> None:
        one = Job("x", {}, {(b"d", b"y"): token(b"")}, {})
        two = Job("y", {D: frozenset([b"x"])}, {B: token(b"")}, {B: token(b"2\n")})
        self.assertEqual(self.decide(one, two), ([0], {1: D}))
        self.assertEqual(self.decide(two, one), ([0, 1], {}))

    def test_names_of_root(self) -> None:
        names = frozenset(self.tree.names(()))
        one = Job("x", {(): names}, {}, {})
        two = Job("y", {(): names - {b"a"}}, {}, {})
        self.assertEqual(self.decide(one, two), ([0], {1: ()}))

    def test_some_file_whatever_it_holds(self) -> None:
        one = Job("x", {}, {A: token(b"9")}, {A: token(b"1\n")})
        two = Job("y", {A: Kind.SOME_FILE}, {B: token(b"")}, {B: token(b"2\n")})
        self.assertEqual(self.decide(one, two), ([0, 1], {}))
        link = Job("z", {(b"l",): Kind.SOME_FILE}, {})
        self.assertEqual(self.decide(link), ([], {0: (b"l",)}))

    def test_links_and_directories(self) -> None:
        turn = Job("x", {(b"l",): LINK + b"a"}, {(b"l",): LINK + b"b"})
        late = Job("y", {(b"l",): LINK + b"a"}, {(b"e",): Kind.DIRECTORY}, {})
        self.assertEqual(self.decide(turn, late), ([0], {1: (b"l",)}))
        self.assertEqual(self.made.after, {(b"l",): LINK + b"b"})
        is_file = Job("x", {D: token(b"")}, {})
        self.assertEqual(self.decide(is_file), ([], {0: D}))

    def test_directory_becomes_file(self) -> None:
        before: dict[Path, Seen] = {D: Kind.DIRECTORY, (b"d", b"x"): token(b"x")}
        reads: dict[Path, Seen] = {D: frozenset([b"x"]), (b"d", b"x"): token(b"x")}
        job = Job("x", reads, {D: token(b"now"), (b"d", b"x"): None}, before)
        other = Job("y", {}, {(b"d", b"z"): token(b"")}, {})
        self.assertEqual(self.decide(job, other), ([0], {1: D}))
        self.assertEqual(self.made.after, {D: token(b"now"), (b"d", b"x"): None})

    def test_sum(self) -> None:
        whole = Job("x", {}, {A: token(b"9")}, {A: token(b"1\n")})
        whole.total = Sum(b"s", lambda: b"s", lambda path: True)
        other = Job("y", {}, {B: token(b"9")}, {B: token(b"2\n")})
        self.assertEqual(self.decide(whole, other), ([0, 1], {}))
        self.assertEqual(self.decide(other, whole), ([0], {1: None}))
        whole.total = Sum(b"s", lambda: b"another", lambda path: True)
        self.assertEqual(self.decide(whole), ([], {0: None}))

    def test_odd_names_and_depth(self) -> None:
        path = (b"\xff", b".forest-links")
        job = Job("x", {(b"\xff",): None}, {(b"\xff",): Kind.DIRECTORY, path: token(b"")}, {})
        self.assertEqual(self.decide(job), ([0], {}))
        self.assertEqual(self.made.after, {(b"\xff",): Kind.DIRECTORY, path: token(b"")})
        with self.assertRaises(Failed):
            self.decide(Job("x", {(b"d",) * 70: None}, {}))

    def test_weight_counts_names(self) -> None:
        few = Job("x", {A: None}, {})
        many = Job("x", {A: frozenset(b"%d" % n for n in range(100))}, {})
        self.assertEqual(many.weight() - few.weight(), 200)

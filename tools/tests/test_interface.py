"""Transactions of programs in Python."""

from __future__ import annotations

import doctest
import os
import threading
from unittest import mock

import txforest
from tests.rooms import Room
from txforest import interface


class Interface(Room):
    def setUp(self) -> None:
        super().setUp()
        self.write("ann", "on\n")
        self.write("ben", "on\n")
        self.write("d/x", "x")
        self.rota = self.spec('<a : ("ann" :: file), ("ben" :: file)>')

    def transaction(self) -> txforest.Transaction:
        return txforest.transaction(self.top, self.rota)

    def test_function(self) -> None:
        @txforest.transactional(self.top, self.rota)
        def leave(t: txforest.Transaction, who: str, other: str) -> str:
            if t.read_text(other) == "on\n":
                t.write(who, "off\n")
                return f"{who} is off"
            return f"{who} stays"

        self.assertEqual(leave("ann", "ben"), "ann is off")
        self.assertEqual(leave("ben", other="ann"), "ben stays")
        self.assertEqual((self.read("ann"), self.read("ben")), ("off\n", "on\n"))
        self.assertEqual(self.left(), [])

    def test_write_skew_is_a_conflict(self) -> None:
        with self.assertRaises(txforest.Conflict) as caught, self.transaction() as t:
            self.assertEqual(t.read_text("ben"), "on\n")
            with self.transaction() as other:
                self.assertEqual(other.read_text("ann"), "on\n")
                other.write("ben", "off\n")
            t.write("ann", "off\n")
        self.assertEqual(caught.exception.path, "ben")
        self.assertEqual((self.read("ann"), self.read("ben")), ("on\n", "off\n"))

    def test_attempts_go_on(self) -> None:
        tries = []
        for t in txforest.attempts(self.top, self.rota):
            with t:
                seen = t.read_text("ben")
                tries.append(seen)
                if len(tries) == 1:
                    self.write("ben", "off\n")
                t.write("ann", seen)
        self.assertEqual(tries, ["on\n", "off\n"])
        self.assertEqual(self.read("ann"), "off\n")

    def test_last_attempt_has_the_lock(self) -> None:
        tries = []
        for t in txforest.attempts(self.top, self.rota, tries=2):
            with t:
                tries.append(t._held)
                t.write("ann", t.read("ben"))
                if len(tries) == 1:
                    self.write("ben", "off\n")
        self.assertEqual(tries[0], None)
        self.assertNotEqual(tries[1], None)

    def test_no_value(self) -> None:
        with self.assertRaises(txforest.NoValue), self.transaction() as t:
            t.remove("ann")
        self.assertEqual(self.read("ann"), "on\n")

    def test_exception_keeps_nothing(self) -> None:
        with self.assertRaises(KeyError), self.transaction() as t:
            t.write("ann", "off\n")
            raise KeyError("x")
        self.assertEqual(self.read("ann"), "on\n")

    def test_exception_of_two_moments_is_a_conflict(self) -> None:
        with self.assertRaises(txforest.Conflict), self.transaction() as t:
            names = t.list()
            os.unlink(os.path.join(self.top, "ben"))
            for name in names:
                t.exists(name)
            raise FileNotFoundError("ben")

    def torn(self, t: txforest.Transaction) -> None:
        """A look at a file that goes away just then."""
        with mock.patch.object(t._reader, "content", side_effect=FileNotFoundError(2, "gone")):
            t.read("ben")

    def test_look_that_meets_a_change_is_tried_again(self) -> None:
        tries = 0
        for t in txforest.attempts(self.top, self.rota):
            with t:
                tries += 1
                if tries == 1:
                    self.torn(t)
                t.write("ann", "off\n")
        self.assertEqual((tries, self.read("ann")), (2, "off\n"))
        with self.assertRaises(txforest.Conflict), self.transaction() as t:
            self.torn(t)

    def test_conflict_that_the_body_catches_never_commits(self) -> None:
        with self.assertRaises(txforest.Conflict) as caught, self.transaction() as t:
            try:
                self.torn(t)
            except txforest.Conflict:
                t.write("ann", "off\n")
        self.assertEqual((caught.exception.path, self.read("ann")), ("ben", "on\n"))

    def test_conflict_of_another_transaction_is_the_bodys(self) -> None:
        tries = 0
        with self.assertRaises(txforest.Conflict):
            for t in txforest.attempts(self.top, self.rota):
                with t:
                    tries += 1
                    with self.transaction() as other:
                        self.torn(other)
        self.assertEqual(tries, 1)

    def test_reads_are_exact(self) -> None:
        t = self.transaction()
        with t:
            t.exists("nothing")
            t.is_file("ann")
            t.list("d")
            t.read("ben")
            kinds = {path: type(seen).__name__ for path, seen in t._reads.items()}
        self.assertEqual(kinds.pop((b"nothing",)), "NoneType")
        self.assertEqual(kinds.pop((b"ann",)), "Kind")
        self.assertEqual(kinds.pop((b"d",)), "frozenset")
        self.assertEqual(kinds.pop((b"ben",)), "bytes")
        self.assertEqual(kinds, {(): "Kind"})

    def test_what_does_not_matter_is_no_conflict(self) -> None:
        with self.transaction() as t:
            t.exists("ann")
            t.list("d")
            self.write("ann", "another\n")
            self.write("d/x", "another")
            t.write("ben", "off\n")
        self.assertEqual(self.read("ben"), "off\n")

    def test_own_writes_are_seen(self) -> None:
        with self.transaction() as t:
            t.write("new/deep/f", "1")
            self.assertEqual(t.read_text("new/deep/f"), "1")
            self.assertEqual(t.list("new"), ["deep"])
            t.append("new/deep/f", "2")
            t.rename("new/deep/f", "new/g")
            t.remove("new/deep")
            t.symlink("l", "new/g")
            self.assertEqual(t.list(), ["ann", "ben", "d", "l", "new"])
            t.set_executable("new/g")
            t.rename("d", "e")
            self.assertFalse(t.exists("d/x"))
        self.assertEqual(self.read("new/g"), "12")
        self.assertTrue(os.access(os.path.join(self.top, "new/g"), os.X_OK))
        self.assertEqual(os.readlink(os.path.join(self.top, "l")), "new/g")
        self.assertEqual(self.read("e/x"), "x")
        self.assertEqual(sorted(os.listdir(self.top)), ["ann", "ben", "e", "l", "new"])

    def test_words_of_pathlib(self) -> None:
        with self.transaction() as t:
            here = t / "d"
            self.assertEqual((here / "x").read_text(), "x")
            (here / "y.txt").write_text("y")
            with (here / "z.txt").open("w") as file:
                print("z", file=file)
            with (here / "z.txt").open("a") as file:
                print("more", file=file)
            self.assertEqual([str(p) for p in here.glob("*.txt")], ["d/y.txt", "d/z.txt"])
            self.assertEqual([p.name for p in (t / ".").rglob("x")], ["x"])
            self.assertEqual([p.name for p in here.iterdir()], ["x", "y.txt", "z.txt"])
            (here / "x").unlink()
            (here / "x").unlink(missing_ok=True)
            with self.assertRaises(FileNotFoundError):
                (here / "x").unlink()
            with self.assertRaises(OSError):
                here.rmdir()
            (t / "e").mkdir()
            with self.assertRaises(FileExistsError):
                (t / "e").mkdir()
            self.assertEqual((here / "y.txt").rename("e/y").parent, t / "e")
            self.assertEqual((here / "z.txt").suffix, ".txt")
        self.assertEqual(self.read("d/z.txt"), "z\nmore\n")
        self.assertEqual(self.read("e/y"), "y")

    def test_errors(self) -> None:
        os.symlink("d", os.path.join(self.top, "l"))
        with self.transaction() as t:
            for path, error in (
                ("nothing", FileNotFoundError),
                ("d", IsADirectoryError),
                ("ann/x", FileNotFoundError),
                ("l/x", OSError),
                ("../ann", ValueError),
                ("/ann", ValueError),
            ):
                with self.assertRaises(error):
                    t.read(path)
            with self.assertRaises(NotADirectoryError):
                t.list("ann")
            with self.assertRaises(OSError):
                t.write("l", "x")

    def test_large_files(self) -> None:
        large = b"0123456789abcdef" * (1 << 17)
        self.write("large", large)
        with self.transaction() as t:
            self.assertEqual(t.read("large"), large)
            t.write("copy", t.read("large") + b"!")
        with open(os.path.join(self.top, "copy"), "rb") as file:
            self.assertEqual(file.read(), large + b"!")

    def test_mode_and_owner_stay(self) -> None:
        self.write("ann", "on\n", 0o640)
        with self.transaction() as t:
            t.write("ann", "off\n")
            t.write("new", "", executable=True)
        self.assertEqual(os.stat(os.path.join(self.top, "ann")).st_mode & 0o777, 0o640)
        self.assertTrue(os.stat(os.path.join(self.top, "new")).st_mode & 0o100)

    def test_counts_of_threads(self) -> None:
        self.write("ann", "0")

        @txforest.transactional(self.top, self.rota, tries=3)
        def count(t: txforest.Transaction) -> None:
            t.write("ann", str(int(t.read("ann")) + 1))

        threads = [threading.Thread(target=count) for _ in range(4)]
        for thread in threads:
            thread.start()
        for thread in threads:
            thread.join()
        self.assertEqual(self.read("ann"), "4")
        self.assertEqual(self.left(), [])


class Documents(Room):
    def test_doctests(self) -> None:
        self.write("ann", "on\n")
        self.write("ben", "on\n")
        spec = self.spec('<a : ("ann" :: file), ("ben" :: file)>')
        before = os.getcwd()
        os.chdir(self.room)
        self.addCleanup(os.chdir, before)
        os.rename(self.top, os.path.join(self.room, "rota"))
        self.assertEqual(os.path.basename(spec), "spec")
        found = doctest.testmod(interface, extraglobs={"txforest": txforest})
        self.assertGreater(found.attempted, 7)
        self.assertEqual(found.failed, 0)


class Names(Room):
    def test_lazy_names(self) -> None:
        for name in txforest.__all__:
            self.assertTrue(getattr(txforest, name))
        with self.assertRaises(AttributeError):
            txforest.nothing

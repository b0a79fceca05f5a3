"""Whether a changed tree has a value, by what the description looks at alone."""

from __future__ import annotations

import os
from unittest import mock

from tests import stand_in
from tests.rooms import Room
from txforest.states import LINK, Kind, Reader
from txforest.statuses import Failed
from txforest.valued import Value

X = (b"d", b"x")


def token(content: bytes, mode: int = 0o644) -> bytes:
    """The token of a file as these tests make them."""
    return b"f %04o %d %d %s" % (mode, os.geteuid(), os.getegid(), content)


class Values(Room):
    def value(self, spec: str) -> Value:
        tree = Reader(self.root())
        self.addCleanup(tree.close)
        return Value(self.spec(spec), os.path.join(self.room, "v"), tree, stand_in.call)

    def source(self, content: str) -> str:
        where = os.path.join(self.room, "source")
        with open(where, "w", encoding="utf-8") as file:
            file.write(content)
        return where

    def test_reads_only_what_is_looked_at(self) -> None:
        self.write("d/x", "7")
        for number in range(300):
            self.write(f"many/f{number}")
        value = self.value('<x : ("d/x" :: file), pred((int(x) == 7))>')
        self.assertTrue(value.holds())
        self.assertEqual(value.looks, {(b"d",), X})
        self.assertFalse(any(path[:1] == (b"many",) for path in value.folder.kinds))

    def test_change_and_back(self) -> None:
        self.write("d/x", "7")
        value = self.value('<x : ("d/x" :: file), pred((int(x) == 7))>')
        self.assertTrue(value.holds())
        back = value.change({X: token(b"8")}, {X: self.source("8")})
        self.assertFalse(value.holds())
        value.go_back(back)
        self.assertTrue(value.holds())
        value.change({X: None, (b"d",): None}, {})
        self.assertFalse(value.holds())

    def test_change_elsewhere_asks_nothing(self) -> None:
        self.write("d/x", "7")
        value = self.value('("d/x" :: file)')
        self.assertTrue(value.holds())
        asked = value.asked
        value.change({(b"e",): token(b"")}, {(b"e",): self.source("")})
        self.assertTrue(value.holds())
        self.assertEqual(value.asked, asked)

    def test_names_come_and_go(self) -> None:
        for name in "pqr":
            self.write(f"d/{name}", "1")
        value = self.value('<n : ("d" :: dir), <a : pred((size(n) < 4)), pred((2 < size(n)))>>')
        self.assertTrue(value.holds())
        back = value.change({(b"d", b"s"): token(b"")}, {(b"d", b"s"): self.source("")})
        self.assertFalse(value.holds())
        value.go_back(back)
        self.assertTrue(value.holds())
        value.change({(b"d", b"p"): None}, {})
        self.assertFalse(value.holds())

    def test_every_file_of_every_directory(self) -> None:
        for number in range(20):
            self.write(f"k{number % 4}/f{number}", str(number))
        value = self.value("<d : dir, {(k :: <e : dir, {(n :: file) | n in e}>) | k in d}>")
        self.assertTrue(value.holds())
        self.assertLess(value.asked, 10)
        value.change({(b"k1", b"sub"): Kind.DIRECTORY}, {})
        self.assertFalse(value.holds())

    def test_kinds_that_alone_decide(self) -> None:
        """Of files whose contents decide nothing none is brought; a new content asks nothing."""
        for number in range(30):
            self.write(f"f{number}", "text")
        value = self.value("<d : dir, {(k :: file) | k in d}>")
        with mock.patch("txforest.valued.MANY", 20):
            self.assertTrue(value.holds())
            self.assertEqual((value.asked, value.of_shape), (2, True))
            value.change({(b"f7",): token(b"8")}, {(b"f7",): self.source("8")})
            self.assertTrue(value.holds())
            self.assertEqual(value.asked, 2)
            back = value.change({(b"f7",): Kind.DIRECTORY}, {})
            self.assertFalse(value.holds())
            value.go_back(back)
            self.assertTrue(value.holds())
            value.change({(b"new",): Kind.DIRECTORY}, {})
            self.assertFalse(value.holds())

    def test_contents_that_decide_one_by_one(self) -> None:
        for number in range(30):
            self.write(f"d{number}/n", "7")
        value = self.value(
            '<d : dir, {(k :: <n : ("n" :: file), pred((int(n) == 7))>) | k in d}>'
        )
        with mock.patch("txforest.valued.MANY", 1 << 30):
            self.assertTrue(value.holds())
        self.assertLess(value.asked, 5)

    def test_most_of_the_tree_is_looked_at(self) -> None:
        """Then further states are asked without what is looked at, and all changes are brought."""
        for number in range(30):
            self.write(f"f{number}", "7")
        value = self.value("<d : dir, {<n : (k :: file), pred((int(n) == 7))> | k in d}>")
        with mock.patch("txforest.valued.MANY", 20):
            self.assertTrue(value.holds())
            self.assertFalse(value.is_whole)
            back = value.change({(b"f7",): token(b"8")}, {(b"f7",): self.source("8")})
            self.assertFalse(value.holds())
            self.assertTrue(value.is_whole)
            value.go_back(back)
            self.assertTrue(value.holds())
            for content, holds in (("8", False), ("7", True)):
                back = value.change(
                    {(b"new",): token(content.encode())}, {(b"new",): self.source(content)}
                )
                self.assertEqual(value.holds(), holds)
                value.go_back(back)
                self.assertTrue(value.holds())
            value.change({(b"f7",): None}, {})
            self.assertTrue(value.holds())
            table = (b".forest-links",)
            value.change({table: token(b"")}, {table: self.source("/l -> f1\n")})
            self.assertTrue(value.holds())
            self.assertFalse(value.is_whole)

    def test_list_that_names_files(self) -> None:
        names = [f"n{number}" for number in range(60)]
        self.write("list", "\n".join(names))
        for name in names:
            self.write(f"all/{name}", "1")
        value = self.value('<l : ("list" :: file), {(("all/" ++ x) :: file) | x in lines(l)}>')
        self.assertTrue(value.holds())
        self.assertLess(value.asked, 10)

    def test_links_and_flags(self) -> None:
        self.write("d/x", "x", 0o755)
        os.symlink("d/x", os.path.join(self.top, "l"))
        os.symlink(os.path.join(self.top, "d"), os.path.join(self.top, "absolute"))
        os.symlink("/nowhere/at/all", os.path.join(self.top, "out"))
        os.symlink("../../etc", os.path.join(self.top, "up"))
        value = self.value('<l : ("l" :: link), <f : ("l" :: file), ("absolute/x" :: file)>>')
        self.assertTrue(value.holds())
        self.assertEqual(value.entry(X), ("file", b"", True))
        self.assertEqual(value.entry((b"absolute",)), ("link", b"/d", False))
        self.assertIsNone(value.entry((b"up",)))
        value.change({(b"l",): LINK + b"nothing"}, {})
        self.assertFalse(value.holds())

    def test_left_out_is_not_seen(self) -> None:
        self.write("d/x", b"0" * ((1 << 20) + 1))
        os.mkfifo(os.path.join(self.top, "d/fifo"))
        self.write(os.fsdecode(b"d/\xff"))
        value = self.value('<n : ("d" :: dir), pred((size(n) == 0))>')
        self.assertTrue(value.holds())

    def test_directory_becomes_file(self) -> None:
        self.write("d/x", "x")
        value = self.value('<x : ("d/x" :: opt(file)), ("d" :: dir)>')
        self.assertTrue(value.holds())
        made = {(b"d",): token(b"f"), X: None}
        back = value.change(made, {(b"d",): self.source("f")})
        self.assertFalse(value.holds())
        value.go_back(back)
        self.assertTrue(value.holds())

    def test_folder_with_a_table(self) -> None:
        self.write("x", "x")
        self.write(".forest-links", "/l -> x\n")
        value = self.value('<l : ("l" :: link), ("l" :: file)>')
        self.assertTrue(value.holds())

    def test_description_of_no_form(self) -> None:
        with self.assertRaises(Failed) as caught:
            self.value("no description").holds()
        self.assertEqual(caught.exception.status, 3)

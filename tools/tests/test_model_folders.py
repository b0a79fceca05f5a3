"""The model's folders, tables and generated cases, held against FORMATS."""

from __future__ import annotations

import os
import tempfile
import unittest

from txforest import model

TABLE = b"version 2\n/bin/start *\n/current -> releases/one\n"


class Tables(unittest.TestCase):
    """FORMATS, "The folder"."""

    def store(self) -> model.Filestore:
        """A folder with a file in a directory."""
        return {
            (): model.Dir("dir", frozenset([b"bin"])),
            (b"bin",): model.Dir("dir", frozenset([b"start"])),
            (b"bin", b"start"): model.File("file", b"x", False),
        }

    def cause(self, text: bytes) -> str:
        """Why a table is refused."""
        try:
            model.read_table(self.store(), text, 1)
        except model.Refused as refused:
            return str(refused)
        return "taken"

    def test_a_table_is_read_and_written_again(self) -> None:
        store = self.store()
        model.read_table(store, TABLE, 1)
        self.assertEqual(store[b"bin", b"start"], ("file", b"x", True))
        self.assertEqual(store[b"current",], ("link", b"releases/one"))
        self.assertEqual(store[()], ("dir", frozenset([b"bin", b"current"])))
        self.assertEqual(model.table_of(store), TABLE)
        self.assertEqual(model.table_of(self.store()), b"")

    def test_spellings(self) -> None:
        self.assertEqual(model.spelled(b"a b%\n\xff~"), b"a%20b%25%0A%FF~")
        self.assertEqual(model.unspelled(b"a%20b%25%0A%FF~"), b"a b%\n\xff~")
        for text in (b"a b", b"%41", b"%2", b"%ff", b"\xff"):
            self.assertIsNone(model.unspelled(text))

    def test_bad_lines(self) -> None:
        causes = {
            b"": "taken",
            b"/a -> b\n": "taken",
            b"/a -> b": "BadTable 1",
            b"/a b\n": "BadTable 1",
            b"/a  -> b\n": "BadTable 1",
            b"a -> b\n": "BadTable 1",
            b"/ -> b\n": "BadTable 1",
            b"/a -> %62\n": "BadTable 1",
            b"/a -> b//c\n": "BadTable 1",
            b"/bin -> b\n": "BadTable 1",
            b"/b -> x\n/a -> x\n": "BadTable 2",
            b"/a -> x\n/a -> x\n": "BadTable 2",
            b"/a/b -> x\n": "BadTable 1",
            b"/a -> x\n/a/b -> x\n": "BadTable 2",
            b"/bin/start/a -> x\n": "BadTable 1",
            b"/bin/start *\n": "BadTable 1",
            b"version 2\n/bin *\n": "BadTable 2",
            b"version 2\n/gone *\n": "BadTable 2",
            b"version 2\n/a -> b\n": "BadTable 1",
            b"version 2\n": "BadTable 1",
            b"/a -> " + b"/".join([b"x"] * 65) + b"\n": "BadTable 1",
            b"/bin/up -> x\n/bin-x -> x\n": "taken",
            b"/bin-x -> x\n/bin/up -> x\n": "BadTable 2",
        }
        for text, cause in causes.items():
            with self.subTest(text=text):
                self.assertEqual(self.cause(text), cause)


class Folders(unittest.TestCase):
    """FORMATS, "The folder"; over real folders."""

    def setUp(self) -> None:
        room = tempfile.TemporaryDirectory()
        self.addCleanup(room.cleanup)
        self.folder = os.path.join(room.name, "in")
        os.mkdir(self.folder)

    def put(self, path: str, text: bytes) -> None:
        """Writes a file of the folder, and the directories above it."""
        there = os.path.join(self.folder, path)
        os.makedirs(os.path.dirname(there), exist_ok=True)
        with open(there, "wb") as it:
            it.write(text)

    def cause(self) -> str:
        """Why the folder is refused."""
        with self.assertRaises(model.Refused) as caught:
            model.load(self.folder)
        return str(caught.exception)

    def test_a_folder_is_loaded_and_is_what_its_filestore_is_saved_as(self) -> None:
        self.put("bin/start", b"x")
        self.put(".forest-links", TABLE)
        store = model.load(self.folder)
        self.assertEqual(store[b"bin", b"start"], ("file", b"x", True))
        self.assertEqual(store[()], ("dir", frozenset([b"bin", b"current"])))
        self.assertEqual(model.saved(self.folder), model.folder_of(store))

    def test_the_first_refusal_in_the_order_of_paths_is_told(self) -> None:
        self.put("b", b"x" * 1_048_577)
        self.assertEqual(self.cause(), 'TooLarge "/b"')
        os.symlink("b", os.path.join(self.folder, "a"))
        self.assertEqual(self.cause(), 'Strange "/a"')
        os.mkdir(os.path.join(self.folder, "Z"))
        self.put("Z/.forest-links", b"")
        self.assertEqual(self.cause(), 'BadName "/Z/.forest-links"')

    def test_a_path_has_at_most_64_names(self) -> None:
        self.put("/".join(["d"] * 64), b"")
        self.assertEqual(len(model.load(self.folder)), 65)
        self.put("/".join(["e"] * 65), b"")
        self.assertEqual(self.cause(), f'TooLarge "{"/e" * 65}"')

    def test_a_table_that_is_no_file(self) -> None:
        os.mkdir(os.path.join(self.folder, ".forest-links"))
        self.assertEqual(self.cause(), 'Strange "/.forest-links"')


class Generated(unittest.TestCase):
    """FORMATS, "A generated case"."""

    def test_a_case_has_195_nodes_and_1600_transactions(self) -> None:
        description, scripts, store = model.generated(7)
        self.assertEqual(
            model.shape_text(model.spec_shape(model.read_description(description.encode()).root)),
            "pair(str, pair(table(pair(str, pair(names, names))), str))",
        )
        self.assertEqual([text.count("txn {") for text in scripts], [200] * 8)
        self.assertEqual(len(store), 195)
        self.assertRegex(model.table_of(store), rb"^/current -> p\d\d\n$")

    def test_draws(self) -> None:
        # The state behind 0 is 1013904223, and 1013904223 // 65536 % 16 is 14.
        self.assertEqual(model.generated(0)[2][b"current",], ("link", b"p14"))

"""Mistakes of texts with their places, refused folders, missing values, and what a stop met."""

from __future__ import annotations

import io
import os
import tempfile
import unittest
from typing import Any
from unittest import mock

from txforest import explain, model
from txforest.reasons import Why, valued
from txforest.refusals import Folder
from txforest.report import read_report
from txforest.statuses import Failed, Status
from txforest.terminal import Words
from txforest.texts import Text, Texts

DESCRIPTIONS = [
    ('("services" : file)', "t:1:13: Unexpected 12", "a focus has two colons"),
    ('<s : ("a" :: file),\n {(m :: file) | n in lines(s)}>', "t:2:4: Unknown m", "no name m"),
    ("dir $", "t:1:5: BadToken 4", "no token"),
    ("<x : dir, <x : dir, dir>>", "t:1:12: Repeated x", "another name"),
    ("<x : dir, (x :: file)>", "t:1:12: TypeDiffers str names", "of shape names, and str is"),
    ("<dir : file, dir>", "t:1:2: Unexpected 1", "`dir` is a word of the language"),
    ('{dir | x in ("a" only x)}', "t:1:23: Unexpected 22", "takes a glob"),
    ('("a\n" :: file)', "t:1:2: BadToken 1", "no closing quote"),
    ("opt(" * 70, "t:1:257: TooNested 256", "at most 64 deep"),
    ("", "t:1:1: Unexpected 0", "expected a description"),
    ("(01 :: file)", "t:1:2: BadToken 1", "leading zero"),
    (" " * 65_537, "t: TooLarge", "65,536 bytes"),
    ("pred((1 = 2))", "t:1:9: Unexpected 8", "equality is =="),
    ("def f() = dir\nf(1)", "t:2:1: Unknown f", "f takes 0 arguments; here is 1"),
    ("g()", "t:1:1: Unknown g", "no definition of g"),
    ("def f() = dir def f() = dir dir", "t:1:19: Repeated f", "defined already"),
    ("def f(n : int, n : str) = dir dir", "t:1:16: Repeated n", "another name"),
    ('def f(n : int) = dir f("a")', "t:1:24: TypeDiffers int str", "int is expected"),
]
SCRIPTS = [
    ("txn { if ((1 == 1)) { } }", "t:1:25: Unexpected 24", "an `if` has an `else`"),
    ('txn {\n  let x = "a" ++ "b" }', "t:2:15: Unexpected 20", "brackets of its own"),
    ("txn { set y = 2 }", "t:1:11: Unknown y", "scripts do not see"),
    ("txn { fetch x : text }", "t:1:17: Unexpected 16", "a shape"),
    ("txn { try x print(x) }", "t:1:13: Unexpected 12", "a move or an edit"),
    ("txn { store(1 }", "t:1:15: Unexpected 14", "expected `)`"),
]
CONFIG: model.Filestore = {
    (): model.Dir("dir", frozenset([b"services", b"api"])),
    (b"services",): model.File("file", b"api\n", False),
    (b"api",): model.Dir("dir", frozenset([b"port"])),
    (b"api", b"port"): model.File("file", b"80\n", False),
}
SPEC = '<s : ("services" :: file), {(n :: <p : ("port" :: file), dir>) | n in lines(s)}>'

# Transactions that stop, with § before the command that is told, and what is said of it.
STOPS = [
    ('into next to("api") down into down §next', "goes on from a part of a pair or an element"),
    ('into next §to("foo")', 'no "foo" is in the set {"api"}'),
    ("into down §fetch x : names", "gives str or bool; the command asks for names"),
    ("into down §store(empty)", "stored: {}"),
    ('into next to("api") down into down remove §fetch x : str', "/api has no entry port"),
    ('into next to("api") down §create', "it stood at /api"),
    ("into down §create", "a file stands at /services"),
    ("§remove", "the root is not removed"),
    ("into down fetch l : str §abort", "`abort` ends the transaction"),
    ("into down remove up §next", "at /services: no file stands there"),
    ("§up", "`up` takes back a `down`; the last step is none"),
    ('into next to("api") §next', 'nothing is greater than "api" in the set'),
    ('§print(int("x"))', '"x" is no number'),
    ("if (true) { §out } else { }", "takes back a step to a part"),
]


class Mistakes(unittest.TestCase):
    def test_descriptions_and_scripts(self) -> None:
        for texts, is_script in ((DESCRIPTIONS, False), (SCRIPTS, True)):
            for text, head, hint in texts:
                told = "\n".join(Text("t", text.encode(), is_script).told())
                self.assertTrue(told.startswith(head), told)
                self.assertIn(hint, told)

    def test_too_many_transactions(self) -> None:
        text = Text("t", b"txn { }", True, 100_000)
        self.assertIn("more than 100,000", text.told()[0])

    def test_a_text_that_is_not_there_is_named(self) -> None:
        with self.assertRaises(Failed) as caught:
            Texts("/none/spec", [])
        self.assertEqual(caught.exception.status, Status.UNREAD)
        self.assertEqual(caught.exception.lines, ("/none/spec: nothing stands there",))


class Values(unittest.TestCase):
    def why(self, spec: str, store: dict[Any, Any]) -> Why:
        root = model.read_description(spec.encode())
        with self.assertRaises(Why) as caught:
            valued(model.View(store.get), (), [], root.root, model.Calls(root.defs, 0))
        return caught.exception

    def test_the_first_part_without_a_value(self) -> None:
        services = model.File("file", b"api\nmail\n", False)
        more: model.Filestore = {**CONFIG, (b"services",): services}
        why = self.why(SPEC, more)
        self.assertEqual((why.path, why.reason), ((b"mail", b"port"), why.reason))
        self.assertIn("/ has no entry mail", why.reason)
        climbing: model.Filestore = {**CONFIG, (b"services",): model.File("file", b"a/../b", False)}
        self.assertIn('"a/../b" is no path below', self.why(SPEC, climbing).reason)
        predicate = '<r : ("api/port" :: file), pred((int(r) < 2))>'
        self.assertIn("80 is not below 2", self.why(predicate, CONFIG).reason)
        call = 'def f() = ("gone" :: file) f()'
        self.assertIn("/ has no entry gone", self.why(call, CONFIG).reason)


class Stops(unittest.TestCase):
    def test_each_is_told_with_its_command(self) -> None:
        root = model.read_description(SPEC.encode())
        spec = Text("spec", SPEC.encode(), False)
        for body, said in STOPS:
            source = "txn { " + body.replace("§", "") + " }"
            script = Text("s", source.encode(), True)
            outputs, end, _, _ = model.run_txn(root, script.tree[0], CONFIG.get)
            report = model.report([(0, 0, outputs, end)], [])
            entries = read_report(report.encode()).entries
            with mock.patch("sys.stdout", io.TextIOWrapper(io.BytesIO())) as out:
                self.assertEqual(explain.tell_ends(spec, [script], CONFIG, entries), 1)
                out.seek(0)
                told = out.read()
            column = len("txn { ") + body.index("§") + 1
            self.assertTrue(told.startswith(f"s:1:{column}: transaction 0 {end}"), told)
            self.assertIn(said, told)

    def test_a_report_of_other_scripts(self) -> None:
        spec, script = Text("spec", SPEC.encode(), False), Text("s", b"txn { }", True)
        for text in (
            b"forest report 1\nentries 1\nentry 0 shell 0 txn 0 aborted\nretries 0\nend\n",
            b"forest report 1\nentries 1\nentry 0 shell 1 txn 0 done\nretries 0\nend\n",
            b"forest report 1\nentries 1\nentry 0 shell 0 txn 1 done\nretries 0\nend\n",
        ):
            with self.assertRaises(Failed) as caught:
                explain.tell_ends(spec, [script], CONFIG, read_report(text).entries)
            self.assertEqual(caught.exception.status, Status.USAGE)


class Walks(unittest.TestCase):
    def test_moves_and_paths(self) -> None:
        spec = Text("spec", SPEC.encode(), False)
        known = [line.split("  ")[0] for line in explain.Walk(spec, CONFIG).lines()]
        self.assertEqual(known[-1], 'into next to("api") down into next')
        unknown = list(explain.Walk(spec, None).lines())
        self.assertIn("to(n)", unknown[-1])
        self.assertIn("?", unknown[-1])
        again = Text("spec", b'def f() = ("a" :: f()) f()', False)
        self.assertIn("again, as above", list(explain.Walk(again, None).lines())[-1])


class Folders(unittest.TestCase):
    def setUp(self) -> None:
        self.room = tempfile.TemporaryDirectory()
        self.addCleanup(self.room.cleanup)
        self.folder = os.path.join(self.room.name, "f")
        os.mkdir(self.folder)
        with open(os.path.join(self.folder, "a"), "wb") as it:
            it.write(b"a")
        os.mkdir(os.path.join(self.folder, "d"))

    def told(self, table: bytes | None = None) -> str:
        if table is not None:
            with open(os.path.join(self.folder, ".forest-links"), "wb") as it:
                it.write(table)
        return "\n".join(Folder(self.folder).told("f"))

    def test_a_good_one(self) -> None:
        self.assertEqual(self.told(b"version 2\n/a *\n/l -> a\n"), "")

    def test_entries(self) -> None:
        os.symlink("a", os.path.join(self.folder, "l"))
        os.mkfifo(os.path.join(self.folder, "p\nq"))
        with open(os.path.join(self.folder, "big"), "wb") as it:
            it.truncate(1_048_577)
        bad = os.fsencode(self.folder) + b"/\xff"
        os.makedirs(bad + b"/x/y")
        with open(bad + b"/x/z", "wb") as it:
            it.write(b"abc")
        self.assertEqual(
            [line.split(": ", 1)[1][:60] for line in self.told().split("\n")],
            [
                "/big (1,048,577 bytes): a file has at most 1,048,576 bytes",
                "/l (1 byte): a symbolic link to a; links stand in the table,",
                '"/p\\nq" (0 bytes): a FIFO',
                '"/\\xff" (3 bytes): its name is no UTF-8',
            ],
        )

    def test_tables(self) -> None:
        for table, said in (
            (b"/l -> a\n/l -> b\n", ":2: BadTable 2: the line before has the same path"),
            (b"/m -> a\n/l -> b\n", ":2: BadTable 2: its path comes before /m"),
            (b"/a b -> a\n", ":1: BadTable 1: it is no `PATH -> TARGET`"),
            (b"/x/y -> a\n", ":1: BadTable 1: /x is no directory"),
            (b"/l -> a", ":1: BadTable 1: the line has no line feed"),
            (b"version 2\n/l -> a\n", ":1: BadTable 1: it is of version 2 and has no line"),
            (b"version 2\n/d *\n", ":2: BadTable 2: a directory stands there, and no file"),
            (b"/a *\n", ":1: BadTable 1: a flag needs the first line"),
            (b"/a -> a\n", ":1: BadTable 1: a file or a directory stands there"),
            (b"/l -> a//b\n", ":1: BadTable 1: a//b is no text of a link"),
            (b"/%6c -> a\n", ":1: BadTable 1: /%6c is not as the program spells it"),
            (b"/ -> a\n", ":1: BadTable 1: its path is the root"),
            (b"l -> a\n", ":1: BadTable 1: l is no path"),
            (b"/" + b"/".join([b"n"] * 65) + b" -> a\n", "its path has 65 names"),
        ):
            told = self.told(table)
            self.assertIn(said, told)
            with self.assertRaises(model.Refused):
                model.load(self.folder)


class UsageOfWords(unittest.TestCase):
    def test_options_that_do_not_go_together(self) -> None:
        for words in (
            ["--walk", "a", "b", "c"],
            ["--report", "r", "a"],
            ["--walk", "--scripts", "a"],
        ):
            with mock.patch("sys.argv", ["txforest-explain", *words]):
                with self.assertRaises(Failed) as caught:
                    explain.tool()
            self.assertEqual(caught.exception.status, Status.USAGE)
        self.assertIsInstance(Words("", ""), Words)


if __name__ == "__main__":
    unittest.main()

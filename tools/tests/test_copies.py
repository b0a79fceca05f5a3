"""Private copies: what a command has read in one, and what it has made."""

from __future__ import annotations

import os
import struct
import subprocess
from unittest import mock

from tests.rooms import Room
from txforest import traced
from txforest.copies import Changes, Copy, Plain, digest_of, entries, remove_tree
from txforest.declared import Declared, declared
from txforest.do import CONFLICT, NOT_FOUND, PARTLY, REFUSED, USAGE_LINE
from txforest.do import Command, Transaction, given_words, own_status
from txforest.only import Only
from txforest.states import Kind, Reader, kind_of, settled, token_of
from txforest.statuses import Failed
from txforest.traced import Server


class States(Room):
    def test_tokens(self) -> None:
        small, large = self.write("s", "x"), self.write("l", b"0" * 2000)
        huge = self.write("h", b"0" * ((1 << 20) + 1))
        owner = b"%d %d" % (os.geteuid(), os.getegid())
        self.assertEqual(token_of(small, -1), b"f 0644 " + owner + b" x")
        for where, form in (
            (large, rb"h 0644 \d+ \d+ 2000 [0-9a-f]{64}"),
            (huge, rb"i 0644 \d+ \d+ 1048577 \d+ \d+ \d+"),
        ):
            found = token_of(where, -1)
            assert isinstance(found, bytes)
            self.assertRegex(found, form)
        self.assertTrue(settled(os.stat(huge)))
        os.symlink("x", os.path.join(self.top, "k"))
        os.mkfifo(os.path.join(self.top, "p"))
        reader = Reader(self.root())
        kinds = {name: kind_of(reader.state((name,))) for name in (b"s", b"k", b"p", b"q")}
        self.assertEqual(kinds, {b"s": "file", b"k": "link", b"p": "other", b"q": None})
        self.assertIsNone(reader.state((b"k", b"x")))
        reader.close()

    def test_no_link_is_followed_on_the_way(self) -> None:
        self.write("d/x", "x")
        os.symlink("d", os.path.join(self.top, "l"))
        reader = Reader(self.root())
        self.assertIsNone(reader.state((b"l", b"x")))
        self.assertEqual(reader.below(()), [(b"l",), (b"d",), (b"d", b"x")])
        reader.close()

    def test_digest_of_tree(self) -> None:
        where = self.write("d/x", "x")
        root = self.root()
        first = digest_of(root, is_first=True)
        self.assertEqual(digest_of(root), first)
        with open(where, "a", encoding="utf-8") as file:
            file.write("y")
        second = digest_of(root)
        self.assertNotEqual(second, first)
        self.write(".txforest-0123456789ab/x")
        self.assertEqual(digest_of(root), second)
        self.write("other")
        self.assertNotEqual(digest_of(root), second)

    def test_places_in_the_tree_are_passed_over(self) -> None:
        """They stand there for a while where the tree is a mount."""
        self.write("d/.txforest-0123456789ab")
        reader = Reader(self.root())
        self.addCleanup(reader.close)
        kinds = reader.kinds(())
        self.write(".txforest-0123456789ab/x")
        self.write(".txforest-other")
        self.assertEqual(sorted(reader.names(())), [b".txforest-other", b"d"])
        self.assertEqual(reader.names((b"d",)), [b".txforest-0123456789ab"])
        self.assertNotIn((b".txforest-0123456789ab",), reader.below(()))
        os.unlink(os.path.join(self.top, ".txforest-other"))
        self.assertEqual(reader.kinds(()), kinds)
        it = Asked(-1, self.root())
        self.addCleanup(it.reader.close)
        self.assertEqual(it.listing(1), [b"d"])
        room = os.path.join(self.room, "copy")
        os.mkdir(room)
        copy = Plain(room, self.root())
        self.assertEqual((os.listdir(copy.tree), copy.spoiled), (["d"], None))


class Copies(Room):
    def copied(self, kind: type, script: str) -> tuple[Plain, Changes]:
        """A copy of a kind in which a shell script has run."""
        room = os.path.join(self.room, "copy")
        remove_tree(room)
        os.mkdir(room)
        copy = kind(room, self.root())
        subprocess.run(["sh", "-ec", script], cwd=copy.tree, check=True)
        return copy, copy.changes(copy.looked())

    def test_plain(self) -> None:
        self.write("a", "a", 0o640)
        self.write("d/x", "x")
        os.symlink("a", os.path.join(self.top, "l"))
        script = "echo b > a; rm -r d; mkdir e; : > e/n; ln -sfn e l; chmod +x e/n; touch e"
        copy, made = self.copied(Plain, script)
        owner = b"%d %d" % (os.geteuid(), os.getegid())
        self.assertEqual(
            made.writes,
            {
                (b"a",): b"f 0640 " + owner + b" b\n",
                (b"d",): None,
                (b"d", b"x"): None,
                (b"e",): Kind.DIRECTORY,
                (b"e", b"n"): made.writes[b"e", b"n"],
                (b"l",): b"l e",
            },
        )
        self.assertEqual(copy.looked().total, digest_of(copy.root))

    def test_plain_with_nothing_changed(self) -> None:
        self.write("a", "a")
        self.write("d/x", "x")
        _, made = self.copied(Plain, "cat a > /dev/null; touch a; chmod u+x d")
        self.assertFalse(made)
        _, made = self.copied(Plain, "chmod 700 d")
        self.assertEqual(made.modes, {(b"d",): 0o700})

    def test_patterns(self) -> None:
        for pattern, path, found in (
            ("a", "a", True),
            ("a/", "a", True),
            ("a", "a/b", True),
            ("a", "b", False),
            ("d/*.c", "d/x.c", True),
            ("d/*.c", "d", False),
            ("d/*.c", "d/e/x.c", False),
            ("d/?.c", "d/ü.c", True),
            ("d/[ab]", "d/[ab]", False),
            ("**/x", "d/e/x", True),
            ("**/x", "x", True),
            ("d/**", "d/e/x", True),
        ):
            self.assertEqual(Only([pattern]).takes(path), found, (pattern, path))
        for pattern in ("", "/", "/a", "a/../b"):
            with self.assertRaises(Failed):
                declared([pattern])
        only = Only(["d/e/f", "d/g"])
        states, ended = only.step(only.start(), "d")
        self.assertEqual((only.named(only.start()), ended), (["d"], False))
        self.assertEqual(only.named(states), ["e", "g"])
        self.assertIsNone(Only(["d", "*"]).named(Only(["d", "*"]).start()))

    def test_declared(self) -> None:
        for path in ("a", "b", "d/x.c", "d/y.h", "d/e/z.c"):
            self.write(path, path)
        copy, made = self.copied(declared(["a", "d/*.c", "nothing"]), "echo 1 > a; echo 1 > d/n.c")
        self.assertEqual(sorted(made.writes), [(b"a",), (b"d", b"n.c")])
        found = {os.fsdecode(b"/".join(path)) for path, _ in entries(copy.tree)}
        self.assertEqual(found, {"a", "d", "d/x.c", "d/n.c"})
        reads = copy.looked().reads
        self.assertIsNone(reads[(b"nothing",)])
        self.assertEqual(reads[(b"d",)], frozenset([b"x.c", b"y.h", b"e"]))
        self.assertNotIn((b"b",), reads)
        with self.assertRaises(Failed):
            self.copied(declared(["a"]), "echo 1 > b")

    def test_declared_has_nothing_beside_the_way(self) -> None:
        for path in ("a", "d/x", "e/y"):
            self.write(path, path)
        os.symlink("d", os.path.join(self.top, "l"))
        copy, made = self.copied(declared(["*/x"]), "test -e d/x; test ! -e a")
        self.assertFalse(made)
        found = {os.fsdecode(b"/".join(path)) for path, _ in entries(copy.tree)}
        self.assertEqual(found, {"d", "d/x", "e", "l"})
        reads = copy.looked().reads
        self.assertIs(reads[(b"a",)], Kind.SOME_FILE)
        self.assertEqual((reads[(b"l",)], reads[b"e", b"x"]), (b"l d", None))

    def test_declared_file_that_changes_and_changes_back(self) -> None:
        """A copy of another moment than what counts as read never commits."""
        large = b"0" * ((1 << 20) + 1)
        cases = (b"on", b"off"), (b"0" * 2000, b"1" * 2000), (large, b""), (b"x", None)
        for content, other in cases:
            where = self.write("a", content)
            copying = Declared.copy

            def torn(copy: Declared, reader: Reader) -> None:
                os.unlink(where)
                if other is not None:
                    self.write("a", other)
                copying(copy, reader)
                self.write("a", content)

            with mock.patch.object(Declared, "copy", torn):
                copy, _ = self.copied(declared(["a"]), "")
            self.assertEqual(copy.looked().spoiled, (b"a",))
        copy, _ = self.copied(declared(["a"]), "")
        self.assertIsNone(copy.looked().spoiled)

    def test_what_comes_and_goes_while_it_is_copied(self) -> None:
        """A copy that has what was there for a while, or lacks what was gone, never commits."""
        self.write("a", "a")
        os.mkdir(os.path.join(self.top, "d"))

        filling = Plain.fill

        def here(copy: Plain) -> None:
            where = self.write("new")
            filling(copy)
            os.unlink(where)

        def gone(copy: Plain) -> None:
            os.rename(os.path.join(self.top, "d"), os.path.join(self.room, "d"))
            filling(copy)
            os.rename(os.path.join(self.room, "d"), os.path.join(self.top, "d"))

        for torn, path in (here, (b"new",)), (gone, (b"d",)):
            with mock.patch.object(Plain, "fill", torn):
                copy, _ = self.copied(Plain, "")
            self.assertEqual(copy.looked().total, digest_of(copy.root))
            self.assertEqual(copy.looked().spoiled, path)
        copy, _ = self.copied(Plain, "")
        self.assertIsNone(copy.looked().spoiled)

    def test_what_no_tree_has(self) -> None:
        _, made = self.copied(Plain, "mkfifo p")
        with self.assertRaises(Failed):
            made.check()


class Asked(Server):
    """A server that is asked by a test in the kernel's place."""

    def ask(self, code: int, node: int, body: bytes = b"") -> tuple[int, bytes]:
        return self.answered(code, node, body)

    def look(self, node: int, name: bytes) -> int:
        """The number of a node, 0 if nothing stands there."""
        found: int = struct.unpack_from("=Q", self.ask(traced.LOOKUP, node, name + b"\0")[1])[0]
        return found

    def listing(self, node: int) -> list[bytes]:
        """The names in a directory."""
        found, offset = [], 0
        while part := self.ask(traced.READDIR, node, struct.pack("=QQI", 0, offset, 64))[1]:
            while part:
                _, offset, length, _ = struct.unpack_from("=QQII", part)
                found.append(part[24 : 24 + length])
                part = part[24 + length + -length % 8 :]
        return found

    def content(self, node: int) -> bytes:
        """The content of a file."""
        number = struct.unpack_from("=Q", self.ask(traced.OPEN, node)[1])[0]
        return self.ask(traced.READ, node, struct.pack("=QQI", number, 0, 1 << 17))[1]


class Tracing(Room):
    def setUp(self) -> None:
        super().setUp()
        self.write("a", "a")
        self.write("d/x", "x")
        os.symlink("a", os.path.join(self.top, "l"))
        self.server = Asked(-1, self.root())
        self.addCleanup(self.server.reader.close)

    def test_what_was_looked_at(self) -> None:
        it = self.server
        self.assertEqual(it.content(it.look(1, b"a")), b"a")
        self.assertEqual(it.look(1, b"nothing"), 0)
        self.assertEqual(it.ask(traced.READLINK, it.look(1, b"l")), (0, b"a"))
        self.assertEqual(it.listing(it.look(1, b"d")), [b"x"])
        reads = it.looked().reads
        self.assertEqual(set(reads), {(b"a",), (b"nothing",), (b"l",), (b"d",)})
        self.assertEqual(reads[(b"d",)], frozenset([b"x"]))
        self.assertEqual(reads[(b"l",)], b"l a")
        self.assertIsNone(it.spoiled)

    def test_what_was_given_is_given_again(self) -> None:
        it = self.server
        self.assertEqual((it.look(1, b"new"), it.listing(1)), (0, it.listing(1)))
        self.write("new")
        os.unlink(os.path.join(self.top, "d/x"))
        self.assertEqual(it.look(1, b"new"), 0)
        self.assertNotIn(b"new", it.listing(1))
        self.assertIsNone(it.looked().reads[(b"new",)])

    def test_a_file_that_changed_spoils_the_job(self) -> None:
        it = self.server
        node = it.look(1, b"a")
        os.rename(self.write("b", "another"), os.path.join(self.top, "a"))
        self.assertNotEqual(it.ask(traced.OPEN, node)[0], 0)
        self.assertEqual(it.spoiled, (b"a",))

    def test_a_file_that_was_looked_at_alone(self) -> None:
        it = self.server
        it.look(1, b"a")
        with open(os.path.join(self.top, "a"), "w", encoding="utf-8") as file:
            file.write("longer")
        self.assertEqual(it.looked().spoiled, (b"a",))

    def test_what_was_gone_for_a_while_spoils_the_job(self) -> None:
        """A look that meets nothing where something was found has seen another moment."""
        where, away = os.path.join(self.top, "d"), os.path.join(self.room, "away")
        listing, attribute = struct.pack("=QQI", 0, 0, 64), struct.pack("=II", 64, 0)
        for path, code, body in (
            ("x", traced.OPEN, b""),
            ("", traced.READDIR, listing),
            ("x", traced.LISTXATTR, attribute),
            ("x", traced.GETXATTR, attribute + b"user.x\0"),
        ):
            it = Asked(-1, self.root())
            node = it.look(1, b"d")
            if path:
                node = it.look(node, b"x")
                it.content(node)
            it.reader.close()
            os.rename(where, away)
            self.assertNotEqual(it.ask(code, node, body)[0], 0)
            os.rename(away, where)
            self.assertIsNotNone(it.looked().spoiled, code)
            it.reader.close()

    def test_attributes_are_shown(self) -> None:
        it = self.server
        try:
            os.setxattr(os.path.join(self.top, "a"), "user.x", b"value")
        except OSError:
            self.skipTest("no extended attributes here")
        node = it.look(1, b"a")
        body = struct.pack("=II", 64, 0) + b"user.x\0"
        self.assertEqual(it.ask(traced.GETXATTR, node, body), (0, b"value"))
        self.assertEqual(it.ask(traced.LISTXATTR, node, struct.pack("=II", 64, 0))[1], b"user.x\0")
        body = struct.pack("=II", 1, 0) + b"user.x\0"
        self.assertNotEqual(it.ask(traced.GETXATTR, node, body)[0], 0)
        os.setxattr(os.path.join(self.top, "a"), "user.y", b"later")
        self.assertEqual(it.ask(traced.LISTXATTR, node, struct.pack("=II", 64, 0))[1], b"user.x\0")
        self.assertEqual(it.looked().attributes, {(b"a",): {"user.x": b"value"}})
        size = struct.pack("=II", 0, 0)
        self.assertEqual(it.ask(traced.LISTXATTR, it.look(1, b"l"), size), (0, size))

    def test_unknown_requests(self) -> None:
        self.assertNotEqual(self.server.ask(99, 1)[0], 0)


class Words(Room):
    def test_forms(self) -> None:
        given = given_words(["--only", "a", "--only=b", "--tries=3", "t", "s", "--", "x", "--hold"])
        self.assertEqual((given.only, given.tries, given.command), (["a", "b"], 3, ["x", "--hold"]))
        refused: list[list[str]] = [
            [],
            ["t", "s"],
            ["t", "s", "--"],
            ["t", "s", "x"],
            ["--whole", "--trace", "t", "s", "--", "x"],
            ["--only", "a", "--trace", "t", "s", "--", "x"],
            ["--tries", "0", "t", "s", "--", "x"],
            ["--wait", "-1", "t", "s", "--", "x"],
            ["--odd", "t", "s", "--", "x"],
            ["--whole=1", "t", "s", "--", "x"],
        ]
        for words in refused:
            with self.assertRaises(Failed, msg=str(words)):
                given_words(words)
        self.assertTrue(USAGE_LINE)

    def test_statuses_of_commands(self) -> None:
        room = os.path.join(self.room, "copy")
        os.mkdir(room)
        copy = Copy(room, self.root())
        for words, status in ((["true"], 0), (["false"], 1), (["sh", "-c", "exit 7"], 7)):
            self.assertEqual(Command(words, True).run(copy), status)
        self.assertEqual(Command(["sh", "-c", "kill -9 $$"], True).run(copy), 137)
        self.assertEqual(Command(["/no/such/command"], True).run(copy), NOT_FOUND)
        with mock.patch("txforest.do.tell"):
            self.assertEqual(Command(["no-such-command"], True).run(copy), NOT_FOUND)
            for status in range(256):  # a status of the tool's own would say what is not so
                own = own_status(status, ["sh"])
                self.assertEqual(own, REFUSED if 120 <= status <= 125 else status)
        self.assertGreater(CONFLICT, 120)

    def test_output_that_nobody_takes(self) -> None:
        """What is done stays done, and the status says so."""
        it = Transaction.__new__(Transaction)
        it.command = Command(["true"], True)
        broken = BrokenPipeError(32, "Broken pipe")
        with mock.patch.object(it.command, "release", side_effect=broken), mock.patch(
            "txforest.do.tell"
        ) as told:
            self.assertEqual((it.released(0), it.released(3)), (PARTLY, 3))
        self.assertEqual(told.call_count, 2)

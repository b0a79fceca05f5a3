"""What jobs tell each other, and how one commits for many."""

from __future__ import annotations

import os
from typing import TYPE_CHECKING
from unittest import mock

from tests.rooms import Room as TestRoom
from txforest.copies import Changes, Looked, digest_of
from txforest.jobs import (
    CONFLICT,
    DONE,
    NO_VALUE,
    Answer,
    Clerk,
    Prepared,
    answer_of,
    digest_of_states,
    prepared_in,
    sum_of,
)
from txforest.lines import path_of, read_lines, seen_line, seen_of, written_lines
from txforest.place import Tree
from txforest.staged import Job
from txforest.states import LINK, Kind, Reader, token_of
from txforest.statuses import Failed
from txforest.waiting import BETWEEN, NEW, Room, clear_left, give_answer, hand_out, rooms, take

if TYPE_CHECKING:
    from txforest.states import Path, Seen

ODD = (b"a b", b"\xff%", b"d\n")


class Lines(TestRoom):
    def test_words_there_and_back(self) -> None:
        where = os.path.join(self.room, "text")
        lines = [[b"one", b"", b"a b", b"%", b"\n"], [b"two"], [b"", b""]]
        written_lines(where, b"kind", lines)
        self.assertEqual(read_lines(where, b"kind"), lines)
        with self.assertRaises(ValueError):
            read_lines(where, b"another")
        with open(where, "ab") as file:
            file.write(b"more\n")
        with self.assertRaises(ValueError):
            read_lines(where, b"kind")

    def test_seen_there_and_back(self) -> None:
        names: list[Seen] = [frozenset(), frozenset(ODD)]
        for seen in (None, Kind.DIRECTORY, Kind.SOME_FILE, b"f 0644 0 0 \n%", *names):
            for path in ((), (b"a",), ODD):
                self.assertEqual(seen_of(seen_line(path, seen)), (path, seen))

    def test_odd_paths_are_refused(self) -> None:
        for words in ([b"1", b".."], [b"2", b"a"], [b"1", b"a/b"], [b"x"], [b"1", b""]):
            with self.assertRaises(ValueError):
                path_of(words)


class Answers(TestRoom):
    def test_there_and_back(self) -> None:
        for answer in (Answer(DONE), Answer(NO_VALUE), Answer(CONFLICT, ODD), Answer(CONFLICT, ())):
            found = answer_of(answer.text())
            self.assertEqual((found.what, found.at, found.conflicts), (answer.what, answer.at, []))
        told = answer_of(BETWEEN.join([Answer(DONE).text(), b"one", b"two"]))
        self.assertEqual((told.what, told.conflicts), (DONE, ["one", "two"]))


class Jobs(TestRoom):
    def setUp(self) -> None:
        super().setUp()
        self.write("a", "1")
        self.write("d/x", "x")
        self.tree = Tree(self.top)
        self.addCleanup(self.tree.close)
        self.description = self.spec('("a" :: file)')
        self.clerk = Clerk(self.tree, self.description)

    def job(self, room: Room, path: str, text: str, seen: bool = True) -> tuple[Looked, Changes]:
        """A job that has read a path, or not, and writes it."""
        names = tuple(os.fsencode(path).split(b"/"))
        reader = Reader(self.tree.root)
        before = reader.state(names)
        reader.close()
        where = room.inside("new")
        with open(where, "w", encoding="utf-8") as file:
            file.write(text)
        made = Changes()
        made.before[names], made.files[names] = before, where
        made.writes[names] = token_of(where, -1)
        return Looked({names: before} if seen else {}), made

    def prepared(self, room: Room, path: str, text: str, seen: bool = True) -> Prepared:
        """The same, as it stands prepared in its room."""
        looked, made = self.job(room, path, text, seen)
        found = Prepared(room.name, self.clerk.text, looked, made, room.path)
        found.write()
        return found

    def test_text_there_and_back(self) -> None:
        with Room(self.tree) as room:
            looked = Looked({(b"a",): b"f 0644 0 0 1", (): frozenset(ODD), ODD: None}, b"total")
            looked.kinds = {(): b"kinds"}
            made = Changes()
            made.writes = {(b"n",): b"f 0644 0 0 new", (b"d",): LINK + b"a"}
            made.writes[(b"e",)] = Kind.DIRECTORY
            made.writes[b"d", b"x"] = None
            made.before = {(b"n",): None, (b"d",): Kind.DIRECTORY, (b"d", b"x"): b"f 0644 0 0 x"}
            made.files = {(b"n",): room.inside("new file")}
            made.modes = {ODD: 0o750}
            made.owners = {ODD: (12, 34)}
            made.attributes = {(b"n",): {"user.x": b"\0\xff", "user.y": None}}
            Prepared(room.name, b"text\n", looked, made, room.path).write()
            self.assertTrue(take(room.fd))
            found = prepared_in(room.fd, room.name, room.path)
        assert found is not None
        self.assertEqual(found.description, b"text\n")
        self.assertEqual((found.looked.reads, found.looked.total), (looked.reads, b"total"))
        self.assertEqual(found.looked.kinds, looked.kinds)
        self.assertEqual(found.changes.writes, made.writes)
        self.assertEqual(found.changes.files, made.files)
        self.assertEqual(found.changes.modes, made.modes)
        self.assertEqual(found.changes.owners, made.owners)
        self.assertEqual(found.changes.attributes, made.attributes)
        self.assertEqual(found.job(self.tree).removes, {(b"d",), (b"d", b"x")})

    def test_planted_texts_are_nobodys(self) -> None:
        with Room(self.tree) as room:
            for line in ([b"put", b"1", b"a", b"f", b"../../x"], [b"gone", b"1", b".."], [b"?"]):
                written_lines(room.inside("taken"), b"job", [[b"description", b""], line])
                self.assertIsNone(prepared_in(room.fd, room.name, room.path))

    def test_group_in_one_commit(self) -> None:
        with Room(self.tree) as one, Room(self.tree) as two, Room(self.tree) as three:
            self.prepared(two, "b", "2", False)
            self.prepared(three, "a", "3")
            answer = self.clerk.submit(one, *self.job(one, "a", "2"))
            self.assertEqual(answer.what, DONE)
            self.assertEqual(answer_of(two.answer() or b"").what, DONE)
            other = answer_of(three.answer() or b"")
            self.assertEqual((other.what, other.where()), (CONFLICT, "/a"))
        self.assertEqual((self.read("a"), self.read("b")), ("2", "2"))
        self.assertEqual(self.left(), [])

    def test_attributes_of_several_jobs(self) -> None:
        """Each job of a group gives a file the attributes that it has changed, and no others."""
        try:
            os.setxattr(os.path.join(self.top, "a"), "user.old", b"old")
            os.setxattr(os.path.join(self.top, "a"), "user.kept", b"kept")
        except OSError:
            self.skipTest("no extended attributes here")
        with Room(self.tree) as one, Room(self.tree) as two:
            looked, made = self.job(two, "a", "1")
            made.attributes = {(b"a",): {"user.two": b"2", "user.old": None}}
            Prepared(two.name, self.clerk.text, looked, made, two.path).write()
            looked, made = self.job(one, "a", "1")
            made.attributes = {(b"a",): {"user.one": b"1"}}
            self.assertEqual(self.clerk.submit(one, looked, made).what, DONE)
            self.assertEqual(answer_of(two.answer() or b"").what, DONE)
        found = os.listxattr(os.path.join(self.top, "a"))
        self.assertEqual(sorted(found), ["user.kept", "user.one", "user.two"])

    def test_each_state_has_a_value(self) -> None:
        self.write("d/y", "y")
        self.description = self.spec('<n : ("d" :: dir), pred(not((size(n) == 3)))>')
        self.clerk = Clerk(self.tree, self.description)
        with Room(self.tree) as one, Room(self.tree) as two, Room(self.tree) as three:
            self.prepared(two, "d/p", "", False)
            self.prepared(three, "d/q", "", False)
            answer = self.clerk.submit(one, *self.job(one, "a", "2"))
            self.assertEqual(answer.what, DONE)
            for room in two, three:  # the two together would leave four names
                self.assertEqual(answer_of(room.answer() or b"").what, NO_VALUE)
        self.assertEqual(sorted(os.listdir(os.path.join(self.top, "d"))), ["x", "y"])
        self.assertEqual(self.read("a"), "2")

    def test_who_had_the_lock_before_goes_alone(self) -> None:
        with Room(self.tree) as one, Room(self.tree) as two, self.clerk.holding() as held:
            self.prepared(two, "b", "2", False)
            self.assertEqual(self.clerk.submit(one, *self.job(one, "a", "2"), held).what, DONE)
            self.assertIsNone(two.answer())

    def test_done_once(self) -> None:
        with Room(self.tree) as one, Room(self.tree) as two:
            self.assertEqual(self.clerk.submit(one, *self.job(one, "b", "first", False)).what, DONE)
            self.write("b", "outside")
            self.assertEqual(self.clerk.submit(two, *self.job(two, "c", "2", False)).what, DONE)
            self.assertIsNone(one.answer())
        self.assertEqual(self.read("b"), "outside")

    def test_a_room_found_by_its_first_name_is_not_taken(self) -> None:
        """Its job may be prepared by the time it is opened. Whoever took it then could give it no
        answer, and it would be done twice."""
        with Room(self.tree) as one, Room(self.tree) as two:
            self.prepared(two, "b", "2", False)
            first = os.path.join(os.path.dirname(two.path), f"{NEW}{two.name}")
            os.rename(two.path, first)
            self.assertEqual(self.clerk.submit(one, *self.job(one, "a", "2")).what, DONE)
            os.rename(first, two.path)
            self.assertTrue(two.withdraw())

    def test_answered_is_withdrawn(self) -> None:
        """A room loses its files one by one, the answer perhaps before the job."""
        with Room(self.tree) as one:
            looked, made = self.job(one, "b", "1", False)
            give_answer(self.tree, one.name, Answer(DONE).text())
            self.assertEqual(self.clerk.submit(one, looked, made).what, DONE)
            self.assertEqual(sorted(os.listdir(one.path)), ["answer", "gone", "new"])
        self.assertFalse(os.path.exists(os.path.join(self.top, "b")))

    def test_given_up(self) -> None:
        """A job that gives up is not done, unless somebody has taken it: then its answer counts."""
        with Room(self.tree) as one:
            self.prepared(one, "b", "1", False)
            self.assertIsNone(self.clerk.given_up(one))
            self.assertFalse(take(one.fd))
        with Room(self.tree) as two:
            self.prepared(two, "b", "1", False)
            self.assertTrue(take(two.fd))
            give_answer(self.tree, two.name, Answer(DONE).text())
            found = self.clerk.given_up(two)
            assert found is not None
            self.assertEqual(found.what, DONE)
        with Room(self.tree) as three:
            self.prepared(three, "b", "1", False)
            self.assertTrue(take(three.fd))
            self.assertIsNone(self.clerk.given_up(three))  # whoever took it was killed
            self.assertFalse(take(three.fd))

    def test_leader_that_fails_puts_the_others_back(self) -> None:
        with Room(self.tree) as one, Room(self.tree) as two:
            os.unlink(self.prepared(two, "b", "2", False).changes.files[(b"b",)])
            self.assertEqual(self.clerk.submit(one, *self.job(one, "a", "2")).what, DONE)
            self.assertIsNone(two.answer())
            self.assertTrue(take(two.fd))

    def test_description_as_it_was_called(self) -> None:
        self.spec("no description")
        with Room(self.tree) as one:
            self.assertEqual(self.clerk.submit(one, *self.job(one, "a", "2")).what, DONE)
        self.clerk = Clerk(self.tree, self.description)
        with self.assertRaises(Failed), Room(self.tree) as one:
            self.clerk.submit(one, *self.job(one, "a", "3"))
        self.assertEqual(self.read("a"), "2")

    def test_other_description_is_not_taken(self) -> None:
        with Room(self.tree) as one, Room(self.tree) as two:
            self.prepared(two, "b", "2", False)
            with open(self.description, "a", encoding="utf-8") as file:
                file.write("\n")
            self.clerk = Clerk(self.tree, self.description)
            self.assertEqual(self.clerk.submit(one, *self.job(one, "a", "2")).what, DONE)
            self.assertIsNone(two.answer())

    def test_kinds_of_names_are_compared(self) -> None:
        """A directory's names tell their kinds: another kind is a conflict, another text is not."""
        reader = Reader(self.tree.root)
        self.addCleanup(reader.close)
        names: dict[Path, Seen] = {(b"d",): frozenset([b"x"])}
        text = reader.kinds((b"d",))
        for number, (change, what) in enumerate((("file", DONE), ("link", CONFLICT))):
            with Room(self.tree) as one, Room(self.tree) as two:
                looked, made = self.job(two, f"n{number}", "new", False)
                looked.reads.update(names)
                looked.kinds[(b"d",)] = text
                Prepared(two.name, self.clerk.text, looked, made, two.path).write()
                looked, made = self.job(one, "d/x", change, False)
                if change == "link":
                    made.writes[b"d", b"x"] = LINK + b"y"
                self.assertEqual(self.clerk.submit(one, looked, made).what, DONE)
                self.assertEqual(answer_of(two.answer() or b"").what, what)
        with Room(self.tree) as one:
            looked, made = self.job(one, "n3", "new", False)
            looked.reads.update(names)
            looked.kinds[(b"d",)] = text
            answer = self.clerk.submit(one, looked, made)
            self.assertEqual((answer.what, answer.where()), (CONFLICT, "/d"))

    def test_very_many_reads_are_one_sum(self) -> None:
        with mock.patch("txforest.jobs.NODES", 20):
            for path, what in ((None, DONE), ("n5", CONFLICT)):
                if path:
                    self.write(path)
                with Room(self.tree) as one:
                    looked, made = self.job(one, "b", "2", False)
                    looked.reads = {(b"n%d" % number,): None for number in range(10)}
                    answer = self.clerk.submit(one, looked, made)
                self.assertEqual((answer.what, answer.at), (what, (b"n5",) if path else None))

    def test_what_was_there_for_a_while_is_a_conflict(self) -> None:
        """Where all of the tree counts as read, what was looked at is compared besides."""
        total = digest_of(self.tree.root)
        for seen, what in ((b"f 0644 0 0 x", CONFLICT), (None, DONE)):
            with Room(self.tree) as one:
                looked, made = self.job(one, "b", "2", False)
                looked.total, looked.reads = total, {(b"new",): seen}
                self.assertEqual(self.clerk.submit(one, looked, made).what, what)

    def test_sum_touches_what_was_read(self) -> None:
        total = sum_of({(b"a",): None, (b"d",): frozenset()}, self.tree.root)
        for path, touches in (((b"a",), True), ((b"d", b"n"), True), ((b"e",), False)):
            self.assertEqual(total.touches(Job("other", {}, {path: None})), touches)
        self.assertNotEqual(total.seen, total.now())
        self.assertNotEqual(digest_of_states({(b"a",): None}), digest_of_states({(b"b",): None}))

    def test_directory_becomes_file(self) -> None:
        self.write("d/e/y", "y")
        with Room(self.tree) as one:
            looked, made = self.job(one, "d", "now a file")
            for path in ((b"d", b"x"), (b"d", b"e"), (b"d", b"e", b"y")):
                made.writes[path] = None
                made.before[path] = Kind.DIRECTORY if path[-1] == b"e" else b"f"
            answer = self.clerk.submit(one, looked, made)
            self.assertEqual((answer.what, answer.conflicts), (DONE, []))
        self.assertEqual(self.read("d"), "now a file")

    def test_outside_change_before_the_commit(self) -> None:
        with Room(self.tree) as one:
            looked, made = self.job(one, "b", "2", False)
            looked.reads[(b"a",)] = b"f 0644 %d %d 1" % (os.geteuid(), os.getegid())
            steps = []

            def reached(step: str) -> None:
                steps.append(step)
                if step == "valued" and steps.count(step) == 1:
                    self.write("a", "outside")

            with mock.patch.object(self.clerk, "reached", reached):
                answer = self.clerk.submit(one, looked, made)
            self.assertEqual((answer.what, answer.where()), (CONFLICT, "/a"))
        self.assertEqual(self.read("a"), "outside")
        self.assertFalse(os.path.exists(os.path.join(self.top, "b")))


class Rooms(TestRoom):
    def setUp(self) -> None:
        super().setUp()
        self.tree = Tree(self.top)
        self.addCleanup(self.tree.close)

    def test_in_use_and_left(self) -> None:
        with Room(self.tree) as one:
            other = os.path.join(os.path.dirname(one.path), "do-" + "0" * 12)
            os.mkdir(other, 0o700)
            found = {name: used for name, _, used in rooms(self.tree)}
            self.assertEqual(found, {one.name: True, "do-" + "0" * 12: False})
            os.mkdir(os.path.join(other, "work"), 0)
            self.assertEqual(clear_left(self.tree), 1)
            self.assertEqual(os.listdir(os.path.dirname(one.path)), [one.name])
        self.assertEqual(self.left(), [])

    def test_what_cant_be_removed_stops_nobody(self) -> None:
        with Room(self.tree) as one:
            other = os.path.join(os.path.dirname(one.path), "do-" + "0" * 12)
            os.mkdir(other, 0o700)
            with mock.patch("txforest.copies.os.rmdir", side_effect=PermissionError(1, "no")):
                self.assertEqual(clear_left(self.tree), 0)
                one.close()
            self.assertEqual(one.stays, "no")
            one.fd = os.open(one.path, os.O_RDONLY)

    def test_without_a_queue(self) -> None:
        os.symlink("/nowhere", self.top + ".queue")
        with Room(self.tree) as one:
            self.assertFalse(one.is_shared)
            self.assertTrue(os.path.isdir(one.path))
            self.assertEqual(list(rooms(self.tree)), [])
        self.assertFalse(os.path.exists(one.path))

    def test_answers_come_once(self) -> None:
        with Room(self.tree) as one:
            place = os.path.join(self.room, "place")
            os.mkdir(place)
            for name in (one.name, "do-" + "f" * 12, "do-../../tree"):
                with open(os.path.join(place, f"answer-{name.replace('/', '')}"), "w") as file:
                    file.write("yes")
            fd = os.open(place, os.O_RDONLY)
            self.addCleanup(os.close, fd)
            for _ in range(2):
                hand_out(self.tree, fd, [one.name, "do-" + "f" * 12], ["/a: changed"])
            self.assertEqual(one.answer(), b"yes\0\0/a: changed")
            give_answer(self.tree, one.name, b"no")
            give_answer(self.tree, "do-../../tree", b"no")
            self.assertEqual(one.answer(), b"yes\0\0/a: changed")
            self.assertEqual(os.listdir(place), ["answer-do-....tree"])
        self.assertFalse(os.path.exists(os.path.join(self.top, "answer")))

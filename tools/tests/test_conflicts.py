"""A conflict of a commit is told to the jobs whose own paths it touches, and to no other."""

from __future__ import annotations

import os
import unittest
from collections.abc import Callable
from unittest import mock

from tests.rooms import Room as TestRoom
from txforest import calls
from txforest.batch import Batch, Member
from txforest.copies import Changes, Looked
from txforest.intent import Operation
from txforest.jobs import DONE, Answer, Clerk, Prepared, answer_of, looks_of
from txforest.operations import Conflict
from txforest.place import Tree
from txforest.queue import Request
from txforest.queue import Answer as Told
from txforest.settle import settle
from txforest.states import Reader, token_of
from txforest.statuses import Status
from txforest.touched import Looks, read_touched, touched_by, write_touched
from txforest.waiting import Room

from . import queues
from .breaking import Edited, child, using
from .queues import left, request
from .trees import read, strays, work_folder, write

SPEC = b"<d : dir, {(k :: file) | k in d}>"
COUNT = 'txn { into next to("%s") down fetch n : str store(text((int(n) + 1))) }'
SUM = (
    'txn { into next to("a") down fetch a : str top into next to("c") down fetch c : str'
    " store(text((int(a) + int(c)))) }"
)
MAYBE = b'<a : ("a" :: file), <d : dir, {(k :: opt(file)) | k in (d union one("n"))}>>'
COUNT_FIRST = "txn { into down fetch n : str store(text((int(n) + 1))) }"
AT = 'txn { into next into next to("%s") down '
COUNT_MAYBE = AT + "into fetch n : str store(text((int(n) + 1))) }"
CREATE, REMOVE = AT + "create }", AT + "remove }"
SIZE = 'txn { into next into fetch d : names next to("c") down into store(text(size(d))) }'


class Queued(unittest.TestCase):
    """Jobs of the queue, done in one go."""

    def setUp(self) -> None:
        room = work_folder()
        self.top = room.__enter__()
        self.addCleanup(room.__exit__, None, None, None)
        os.mkdir(f"{self.top}/f")
        for name in "abc":
            write(f"{self.top}/f/{name}", "1")
        self.tree = Tree(f"{self.top}/f")
        self.addCleanup(self.tree.close)

    def asked(self, script: str, log: str = "", spec: bytes = SPEC) -> Request:
        """What a job asks for."""
        made = request(script, spec=spec)
        made.log = log
        return made

    def go(self, edit: Callable[[], None], *scripts: str, spec: bytes = SPEC) -> list[Told]:
        """The answers of jobs of which the first one leads; somebody edits behind the commit."""
        own, *others = [self.asked(script, spec=spec) for script in scripts]
        waiting = [left(self.tree, it) for it in others]
        with using(Edited(edit)):
            answers = [queues.lead(self.tree, own)]
        for it in waiting:
            answers.append(it.answer() or self.fail("no answer"))
            it.remove()
        self.assertEqual(strays(self.tree.path), [])
        return answers

    def his(self, name: str) -> Callable[[], None]:
        """An edit of a file by somebody else."""
        return lambda: write(f"{self.tree.path}/{name}", "100")

    def test_who_has_not_looked_there_is_done(self) -> None:
        answers = self.go(self.his("b"), COUNT % "a", COUNT % "b", COUNT % "c")
        self.assertEqual([it.status for it in answers], [0, Status.CONFLICT, 0])
        line = "/b: somebody else has changed it; the new content stands at b.txforest-new"
        self.assertEqual([it.lines for it in answers], [[], [line], []])
        texts = [read(f"{self.tree.path}/{name}") for name in ("a", "b", "b.txforest-new", "c")]
        self.assertEqual(texts, ["2", "100", "2", "2"])

    def test_the_leaders_own(self) -> None:
        answers = self.go(self.his("a"), COUNT % "a", COUNT % "b")
        self.assertEqual([it.status for it in answers], [Status.CONFLICT, 0])

    def test_who_has_read_it_is_told(self) -> None:
        answers = self.go(self.his("a"), COUNT % "b", COUNT % "a", SUM)
        self.assertEqual([it.status for it in answers], [0, Status.CONFLICT, Status.CONFLICT])

    def test_names_that_came_and_went(self) -> None:
        for name, change, statuses in (
            ("n", CREATE % "n", [0, Status.CONFLICT, Status.CONFLICT]),
            ("b", REMOVE % "b", [0, Status.CONFLICT, Status.CONFLICT]),
            ("b", COUNT_MAYBE % "b", [0, Status.CONFLICT, 0]),  # no name comes or goes
        ):
            answers = self.go(self.his(name), COUNT_FIRST, change, SIZE, spec=MAYBE)
            self.assertEqual([it.status for it in answers], statuses, change)

    def test_all_are_told_if_the_looks_are_not_known(self) -> None:
        with mock.patch("txforest.looked.looks_of", return_value=None):
            answers = self.go(self.his("b"), COUNT % "a", COUNT % "b")
        self.assertEqual([it.status for it in answers], [Status.CONFLICT] * 2)

    def test_whoever_settles_tells_it(self) -> None:
        scripts = [COUNT % name for name in "abc"]
        waiting = [left(self.tree, self.asked(it, f"{self.top}/log")) for it in scripts]

        def leads() -> None:
            calls.S = Edited(self.his("b"), ends=True)
            queues.lead(self.tree, self.asked("txn { }"))

        self.assertEqual(child(leads), 77)
        self.assertEqual(len(settle(self.tree).conflicts), 1)
        answers = [it.answer() or self.fail("no answer") for it in waiting]
        self.assertEqual([it.status for it in answers], [0, Status.CONFLICT, 0])
        for it in waiting:
            it.remove()
        words = [line.split(" ")[1:3] for line in read(f"{self.top}/log").splitlines()]
        self.assertEqual(words, [["1", "0"], ["2", "13"], ["3", "0"]])
        self.assertEqual(strays(self.tree.path), [])

    def test_a_path_that_is_changed_all_the_time_is_told_to_its_own_job(self) -> None:
        """Somebody has the target of one job open to write: the others are done without it."""
        asked = [self.asked(COUNT % name) for name in "bca"]
        waiting = [left(self.tree, it) for it in asked]
        groups: list[int] = []
        work = Batch.done

        def done(batch: Batch, group: list[Member]) -> list[list[Member]]:
            left = work(batch, group)
            groups.append(len(group))
            return left

        with open(f"{self.tree.path}/b", "a"), mock.patch("txforest.attempt.tell"):
            with mock.patch.object(Batch, "done", done):
                answers = [queues.lead(self.tree, self.asked(COUNT % "a"))]
                self.assertEqual([it.answer() is None for it in waiting], [True, False, False])
                for it, job in zip(waiting, asked):
                    answers.append(it.answer() or queues.finish(self.tree.path, it, job))
                    it.remove()
        self.assertEqual([it.status for it in answers], [0, Status.CHANGING, 0, 0])
        self.assertEqual(groups, [4, 3, 1])
        texts = [read(f"{self.tree.path}/{name}") for name in "abc"]
        self.assertEqual(texts, ["3", "1", "2"])


class Prepareds(TestRoom):
    """Jobs of any program, committed together."""

    def setUp(self) -> None:
        super().setUp()
        for name in "abc":
            self.write(name, "1")
        self.tree = Tree(self.top)
        self.addCleanup(self.tree.close)
        self.clerk = Clerk(self.tree, self.spec("dir"))

    def job(self, room: Room, writes: str, *reads: str) -> Prepared:
        """A job that has read some paths, and writes one; `.` are the names of the tree."""
        reader = Reader(self.tree.root)
        looked, made = Looked(), Changes()
        for name in reads:
            if name == ".":
                looked.reads[()] = frozenset(reader.names(()))
            else:
                looked.reads[(name.encode(),)] = reader.state((name.encode(),))
        path = (writes.encode(),)
        made.before[path], made.files[path] = reader.state(path), room.inside("new")
        reader.close()
        with open(room.inside("new"), "w", encoding="utf-8") as file:
            file.write("2")
        made.writes[path] = token_of(room.inside("new"), -1)
        return Prepared(room.name, self.clerk.text, looked, made, room.path)

    def go(self, edit: str, own: list[str], *others: list[str]) -> list[Answer]:
        """The answers of jobs that are committed while somebody edits a file."""
        rooms = [Room(self.tree) for _ in range(1 + len(others))]
        for room, words in zip(rooms[1:], others):
            self.job(room, *words).write()
        first = self.job(rooms[0], *own)
        with using(Edited(lambda: write(os.path.join(self.top, edit), "100"))):
            answers = [self.clerk.submit(rooms[0], first.looked, first.changes)]
        answers += [answer_of(room.answer() or b"") for room in rooms[1:]]
        for room in rooms:
            room.close()
        self.assertEqual(self.left(), [])
        return answers

    def test_who_has_not_looked_there_is_done(self) -> None:
        answers = self.go("b", ["a", "a"], ["b", "b"], ["c", "c"])
        self.assertEqual([it.what for it in answers], [DONE] * 3)
        self.assertEqual([len(it.conflicts) for it in answers], [0, 1, 0])
        self.assertEqual([self.read(name) for name in "abc"], ["2", "100", "2"])

    def test_who_has_read_it_is_told(self) -> None:
        """Readers come before the writer in the order."""
        answers = self.go("b", ["a", "b"], ["b"], ["c"])
        self.assertEqual([len(it.conflicts) for it in answers], [1, 1, 0])

    def test_names_that_came(self) -> None:
        answers = self.go("n", ["a", "."], ["n"], ["c"])
        self.assertEqual([len(it.conflicts) for it in answers], [1, 1, 0])
        answers = self.go("b", ["a", "."], ["b"], ["c"])
        self.assertEqual([len(it.conflicts) for it in answers], [0, 1, 0])

    def test_what_touches_a_job(self) -> None:
        with Room(self.tree) as one, Room(self.tree) as two, Room(self.tree) as three:
            jobs = [self.job(one, "a", "b"), self.job(two, "c"), self.job(three, "b")]
            jobs[0].changes.modes[(b"d",)] = 0o700
            jobs[1].looked.total = b"all of the tree was read"
            looks = looks_of(jobs, [0, 1])
            self.assertEqual(looks[one.name].paths, {b"a", b"b", b"d"})
            self.assertTrue(looks[f"log-{two.name}"].touches(b"x/y", None))
            self.assertFalse(looks[three.name].touches(b"b", b""))  # it is not done


class Texts(unittest.TestCase):
    def test_there_and_back(self) -> None:
        operations = [
            Operation(0, "mkdir", [b"new"]),
            Operation(1, "store", [b"new", b"f"], b"n1"),
            Operation(2, "store", [b"d", b"old"], b"n2", b"mark"),
            Operation(3, "mode", [b"d"], None, b"mark", b"755"),
            Operation(4, "rmdir", [b"gone"], more=b"room"),
            Operation(5, "remove", [b"gone", b"f"], None, b"mark"),
        ]
        looks = {
            "job-new": Looks({b"new", b"new/f"}),
            "job-root": Looks({b""}),
            "job-d": Looks({b"d", b"gone"}, frozenset()),
            "log-all": Looks(all=True),
        }
        made = touched_by(operations, looks)
        wanted = [{0, 1}, {0}, {3, 4}, set(range(6))]
        self.assertEqual(list(made.numbers.values()), wanted)
        conflicts = [Conflict(f"c{number}", number) for number in range(6)]
        self.assertEqual(made.told_to("job-d", conflicts), ["c3", "c4"])
        names = ["job-d", "job-new", "job-other", "log-all"]
        told = list(made.parted(names, conflicts[:3]))
        every = ["c0", "c1", "c2"]
        parts = [(["job-d"], []), (["job-new"], every[:2]), (["job-other", "log-all"], every)]
        self.assertEqual(told, parts)
        # What no job looked at is told to all.
        made = touched_by([Operation(7, "store", [b".forest-links"], b"n7")], {"a": Looks()})
        self.assertEqual(made.numbers, {"a": {7}})

    def test_other_texts_tell_all(self) -> None:
        made = touched_by([], {"job-a": Looks(), "log-a": Looks()})
        with work_folder() as top:
            place = os.open(top, os.O_RDONLY)
            self.assertEqual(read_touched(place).numbers, {})
            write_touched(place, made)
            text = read(f"{top}/touched")
            self.assertEqual(read_touched(place).numbers, made.numbers)
            long = text.replace("log-a", "log-a " + "9" * 5000)
            for bad in ("", text[:-1], long, text.replace("end 2", "end 1"), text + "\n"):
                write(f"{top}/touched", bad)
                self.assertEqual(read_touched(place).numbers, {}, bad)
            os.close(place)


if __name__ == "__main__":
    unittest.main()

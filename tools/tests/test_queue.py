"""The queue: its texts, who takes what, the parts of a report, and jobs done in one go."""

from __future__ import annotations

import fcntl
import os
import random
import unittest
from collections.abc import Callable
from typing import Any
from unittest import mock

from txforest import model
from txforest.blind import are_blind
from txforest.commit import Unfinished
from txforest.parts import one_by_one, parted
from txforest.place import Tree
from txforest.queue import (
    Answer,
    Request,
    Text,
    Waiting,
    answer_text,
    enqueue,
    hand_out,
    new_ident,
    queue_of,
    read_answer,
    read_request,
    request_text,
    take,
)
from txforest.report import read_report
from txforest.statuses import Failed, Status
from txforest.survey import settled_survey

from . import pretended, queues
from .queues import JOB, SPEC, left, new_tree, request
from .trees import read, work_folder, write


class Texts(unittest.TestCase):
    def test_requests(self) -> None:
        spec = Text("a b\n", b"\0\nend\n\xff")
        scripts = [Text("s\udcff", b"", 3, [1, 20]), Text("é", b"text 1")]
        for log, keep in (("", ""), ("/l og", "/k\udcfe")):
            made = Request(b"um ask\0", True, spec, scripts, log, keep)
            data = request_text(made)
            back = read_request(data)
            self.assertEqual(request_text(back), data)
            self.assertEqual((back.terms, back.allow_stopped), (made.terms, True))
            self.assertEqual([it.word for it in back.scripts], ["s\udcff", "é"])
            self.assertEqual(back.scripts[0].places, (1, 20))
            self.assertEqual((back.spec.text, back.log, back.keep), (spec.text, log, keep))

    def test_answers(self) -> None:
        for made in (
            Answer(0),
            Answer(13, b"report 1\nend", ["a b", "", "\udcff\n%"]),
            Answer(1, b"\0" * 100),
        ):
            back = read_answer(answer_text(made))
            self.assertEqual(
                (back.status, back.report, back.lines), (made.status, made.report, made.lines)
            )
        turned = Answer(0, b"r", ["a"]).with_conflicts(["b"])
        self.assertEqual((turned.status, turned.lines), (13, ["a", "b"]))
        self.assertEqual(Answer(1).with_conflicts(["b"]).status, 1)

    def test_other_texts_are_refused(self) -> None:
        draw = random.Random(4)
        job = request_text(request(JOB % "x", "txn { }"))
        answer = answer_text(Answer(1, b"report", ["line"]))
        forms: list[tuple[bytes, Callable[[bytes], Any], Callable[[Any], bytes]]] = [
            (job, read_request, request_text),
            (answer, read_answer, answer_text),
        ]
        for data, reader, text_of in forms:
            refused = 0
            for _ in range(400):
                at = draw.randrange(len(data))
                how = draw.randrange(3)
                bad = data[:at] + (b"" if how else b"\n ") + data[at + (how == 1) :][: -how or None]
                try:
                    self.assertEqual(text_of(reader(bad)), bad)
                except ValueError:
                    refused += 1
            self.assertGreater(refused, 200)
        for bad in (b"", b"\n", job[:-1], job + b" ", job.replace(b"stopped no", b"stopped maybe")):
            self.assertRaises(ValueError, read_request, bad)
        for bad in (b"", answer[:-1], answer + b" ", answer.replace(b"status 1", b"status x")):
            self.assertRaises(ValueError, read_answer, bad)


class Waits(unittest.TestCase):
    def setUp(self) -> None:
        room = work_folder()
        self.top = room.__enter__()
        self.addCleanup(room.__exit__, None, None, None)
        self.tree = Tree(new_tree(self.top))
        self.addCleanup(self.tree.close)

    def taken(self, asked: Request, shells: int = 63, transactions: int = 255) -> list[str]:
        queue = queue_of(self.tree)
        if queue is None:
            return []
        with queue:
            found = take(queue, asked, new_ident(), shells, transactions)
            for it in found:
                it.close()
            return [it.ident for it in found]

    def test_who_is_taken(self) -> None:
        asked = request(JOB % "x")
        same = [left(self.tree, request(JOB % "y", JOB % "z")) for _ in range(3)]
        other_spec = left(self.tree, request(JOB % "x", spec=SPEC + b" "))
        with mock.patch("os.umask", return_value=0o77):
            other_terms = left(self.tree, request(JOB % "x"))
        idents = [it.ident for it in same]
        self.assertEqual(self.taken(asked, shells=1), [])
        self.assertEqual(self.taken(asked, transactions=1), [])
        self.assertEqual(self.taken(asked, shells=5), idents[:2])
        # A holder that was killed leaves them taken; the next one does them.
        self.assertEqual(self.taken(asked), idents)
        for it in [*same, other_spec, other_terms]:
            it.remove()
        self.assertEqual(sorted(os.listdir(self.top)), ["f"])

    def test_given_up_or_taken(self) -> None:
        asked = request(JOB % "x")
        one, two = left(self.tree, asked), left(self.tree, asked)
        self.assertTrue(one.withdraw())
        self.assertEqual(self.taken(asked), [two.ident])
        self.assertFalse(two.withdraw())
        with queue_of(self.tree) or self.fail() as queue:
            job = take(queue, asked, "", 9, 9)[0]
            job.put_back()
            self.assertTrue(two.withdraw())
            job.give(Answer(1, b"r"))
            job.give(Answer(2, b"s"))
            job.close()
        self.assertEqual((two.answer() or Answer(9)).status, 1)
        self.assertEqual(self.taken(asked), [])
        self.assertIsNone(one.answer())
        one.remove()
        two.remove()

    def test_an_answer_for_a_caller_that_has_gone_is_passed_over(self) -> None:
        asked = request(JOB % "x")
        gone = left(self.tree, asked)
        with queue_of(self.tree) or self.fail() as queue:
            job = take(queue, asked, "", 9, 9)[0]
            gone.remove()
            job.give(Answer(1, b"r"))
            job.put_back()
            job.close()
        self.assertEqual(os.listdir(self.top), ["f"])

    def test_an_empty_queue_goes_with_the_next_who_has_the_lock(self) -> None:
        os.mkdir(f"{self.top}/f.queue", 0o700)
        self.assertEqual(self.taken(request(JOB % "x")), [])
        self.assertEqual(os.listdir(self.top), ["f"])

    def test_killed_callers_are_cleared(self) -> None:
        asked = request(JOB % "x")
        gone, lives = left(self.tree, asked), left(self.tree, asked)
        os.close(gone.fd)
        self.assertEqual(self.taken(asked), [lives.ident])
        self.assertEqual(os.listdir(f"{self.top}/f.queue"), [lives.ident])
        os.mkdir(f"{self.top}/f.queue/.new-{new_ident()}", 0o700)
        for name in os.listdir(f"{self.top}/f.queue"):
            if name.startswith(".new-"):
                os.utime(f"{self.top}/f.queue/{name}", (1, 1))
        self.taken(asked)
        self.assertEqual(os.listdir(f"{self.top}/f.queue"), [lives.ident])
        lives.remove()

    def test_planted_queues_and_jobs(self) -> None:
        asked = request(JOB % "x")
        path = f"{self.top}/f.queue"
        write(f"{self.top}/file", "")
        plants: list[Callable[[], None]] = [
            lambda: os.mkdir(path, 0o755),
            lambda: os.symlink("f", path),
            lambda: write(path, ""),
            lambda: os.mkfifo(path),
        ]
        for plant in plants:
            plant()
            self.assertIsNone(queue_of(self.tree))
            self.assertIsNone(enqueue(self.tree, asked, new_ident()))
            os.rmdir(path) if os.path.isdir(path) and not os.path.islink(path) else os.unlink(path)
        waiting = left(self.tree, asked)
        for number, content in enumerate((None, b"", b"txforest job 1\n", b"\xff" * 100)):
            ident = new_ident()
            os.mkdir(f"{path}/{ident}")
            held = os.open(f"{path}/{ident}", os.O_RDONLY)
            self.addCleanup(os.close, held)
            fcntl.flock(held, fcntl.LOCK_EX)
            if content is not None:
                write(f"{path}/{ident}/waits", "")
                with open(f"{path}/{ident}/job", "wb") as it:
                    it.write(content)
            if number == 0:
                os.symlink("/etc/passwd", f"{path}/{ident}/job")
        write(f"{path}/{new_ident()}", "a file")
        os.mkdir(f"{path}/0123456789ab")
        self.assertEqual(self.taken(asked), [waiting.ident])
        self.assertIn("0123456789ab", os.listdir(path))

    def test_answers_are_handed_out_once(self) -> None:
        waiting = left(self.tree, request(JOB % "x"))
        os.mkdir(f"{self.top}/place", 0o700)
        place = os.open(f"{self.top}/place", os.O_RDONLY)
        self.addCleanup(os.close, place)

        def put(name: str, data: bytes) -> str:
            with open(f"{self.top}/place/answer-{name}", "wb") as it:
                it.write(data)
            return name

        names = [
            put(f"job-{waiting.ident}", answer_text(Answer(0, b"first"))),
            put(f"job-{new_ident()}", answer_text(Answer(0, b"nobody waits"))),
            put("job-x", answer_text(Answer(0, b"planted"))),
            put(f"log-{waiting.ident}", b"/none/log\ntime tree spec"),
        ]
        with mock.patch("txforest.log.tell"):
            hand_out(self.tree, place, names, ["/n: somebody else has changed it"])
        self.assertEqual(os.listdir(f"{self.top}/place"), [])
        answer = waiting.answer() or Answer(9)
        self.assertEqual((answer.status, answer.report), (13, b"first"))
        put(f"job-{waiting.ident}", answer_text(Answer(0, b"second")))
        hand_out(self.tree, place, names[:1], [])
        self.assertEqual((waiting.answer() or Answer(9)).report, b"first")
        os.unlink(f"{self.top}/f.queue/{waiting.ident}/answer")
        put(f"job-{waiting.ident}", b"spoiled")
        hand_out(self.tree, place, names[:1], [""])
        self.assertEqual((waiting.answer() or Answer(0)).status, 9)
        waiting.remove()

    # ---- several at once

    def go(self, *asked: Request) -> list[Answer]:
        """What jobs come to that wait for one that leads, the first of these."""
        own, *others = asked
        waiting = [left(self.tree, it) for it in others]
        answers = [queues.lead(self.tree, own)]
        for it, job in zip(waiting, others):
            answers.append(it.answer() or queues.finish(self.tree.path, it, job))
            it.remove()
        self.assertEqual(sorted(os.listdir(self.top)), ["f", "f.lock"])
        return answers

    def statuses(self, *asked: Request) -> list[int]:
        return [answer.status for answer in self.go(*asked)]

    def done(self) -> list[str]:
        """The names in the tree's log; the tree is as before then."""
        names = read(f"{self.tree.path}/log").split()
        self.assertEqual(int(read(f"{self.tree.path}/n") or "0"), len(names))
        write(f"{self.tree.path}/log", "")
        write(f"{self.tree.path}/n", "0")
        return names

    def test_all_are_done(self) -> None:
        names = ["a", "b", "c", "d"]
        answers = self.go(*(request(JOB % name) for name in names))
        self.assertEqual([it.status for it in answers], [0] * 4)
        for name, answer in zip(names, answers):
            report = read_report(answer.report)
            self.assertEqual([(it.shell, it.txn) for it in report.entries], [(0, 0)])
        self.assertEqual(sorted(self.done()), names)

    def test_a_refused_text_is_of_its_job_alone(self) -> None:
        bad = request("txn { $ }")
        self.assertEqual(self.statuses(request(JOB % "a"), bad, request(JOB % "b")), [0, 3, 0])
        self.assertEqual(sorted(self.done()), ["a", "b"])
        answer = self.go(request(JOB % "a"), request("txn {", "txn { $ }"))[1]
        self.assertEqual(answer.lines, ["txforest: s0: Unexpected 5"])
        self.done()
        spec = b"dir $"
        jobs = [request(JOB % name, spec=spec) for name in "ab"]
        answers = self.go(*jobs)
        self.assertEqual([it.lines for it in answers], [["txforest: spec: BadToken 4"]] * 2)

    def test_what_stopped(self) -> None:
        good, abort = request(JOB % "a"), request("txn { print(1) abort }")
        half = request(JOB % "h" + "txn { up }")
        self.assertEqual(self.statuses(good, abort, half, request(JOB % "b")), [0, 1, 1, 0])
        self.assertEqual(sorted(self.done()), ["a", "b"])
        allowed = request(JOB % "h" + "txn { up }", allow_stopped=True)
        self.assertEqual(self.statuses(half, allowed, abort), [1, 0, 1])
        self.assertEqual(self.done(), ["h"])
        lines = self.go(abort)[0].lines
        self.assertEqual(lines[0], "s0: transaction 0 aborted")

    def test_a_job_that_breaks_the_tree_is_not_mended_by_another(self) -> None:
        breaks = request('txn { to("log") down remove }')
        mends = request('txn { to("log") down try c create } ' + JOB % "m")
        answers = self.go(request(JOB % "a"), breaks, mends, request(JOB % "b"))
        self.assertEqual([it.status for it in answers], [0, 10, 0, 0])
        self.assertEqual(sorted(self.done()), ["a", "b", "m"])
        # One's own that is alone, and a tree that has no value to begin with.
        self.assertEqual(self.statuses(breaks), [10])
        os.unlink(f"{self.tree.path}/log")
        self.assertEqual(self.statuses(request("txn { }")), [10])
        self.assertEqual(self.statuses(request(JOB % "c"), request("txn { }"), mends), [0, 0, 0])

    def test_large_trees_look_at_the_last_state_alone_if_that_speaks_for_all(self) -> None:
        watched = []
        original = pretended.call

        def call(words: Any, *more: Any, **given: Any) -> Any:
            watched.append(words[0])
            return original(words, *more, **given)

        blind = 'txn { to("n") down fetch n : str store(text((int(n) + 1))) }'
        for changes, command in (
            ((blind, blind), "trace"),
            ((blind, JOB % "a", JOB % "b"), "trace"),
            ((blind, 'txn { to("log") down try a store("x") }', "txn { abort }"), "trace"),
            ((blind, 'txn { to("log") down remove store("") }'), "watch"),
            ((blind, 'txn { to("log") down try c create }'), "watch"),
        ):
            watched.clear()
            with mock.patch("txforest.batch.LARGE", 0), mock.patch.object(pretended, "call", call):
                statuses = self.statuses(*map(request, changes))
            self.assertEqual(statuses, [int("abort" in it) for it in changes])
            self.assertEqual(watched[0], command, changes)
            self.assertEqual(set(watched) - {command, "show"}, set())
        breaks = request('txn { to("log") down remove }')
        with mock.patch("txforest.batch.LARGE", 0):
            self.assertEqual(self.statuses(request(blind), breaks, request(blind)), [0, 10, 0])

    def test_which_texts_are_blind(self) -> None:
        yes = (SPEC, b"<d : dir, {(k :: <e : dir, {(f :: opt(file)) | f in e}>) | k in d}>")
        no = (
            b'<c : ("n" :: file), {(k :: file) | k in lines(c)}>',
            b'("l" :: link)',
            b'<o : ("n" :: opt(file)), dir>',
            b'def f() = <c : file, pred((c == "1"))> ("n" :: f())',
            b"dir $",
        )
        for spec in yes + no:
            self.assertEqual(are_blind(spec, [b"txn { down }"]), spec in yes, spec)
        for script in (b"txn { remove }", b"txn { fetch d : names store(d) }", b"txn { $ }"):
            self.assertFalse(are_blind(SPEC, [script]), script)

    def test_nothing_to_do(self) -> None:
        self.assertEqual(self.statuses(request(""), request(""), request("txn { }")), [0, 0, 0])

    def test_what_stops_all_is_done_in_halves(self) -> None:
        os.mkfifo(f"{self.tree.path}/pipe")
        spec = b'<d : dir, {(k :: opt(file)) | k in (d union (one("pipe") union one("x")))}>'
        way = 'txn { into next to("%s") down create }'
        asked = [request(way % name, spec=spec) for name in ("x", "pipe", "n")]
        with mock.patch("txforest.attempt.tell"):
            self.assertEqual(self.statuses(*asked), [0, 2, 1])
        self.assertTrue(os.path.exists(f"{self.tree.path}/x"))

    def test_a_leader_that_fails_lets_the_others_wait(self) -> None:
        waiting = left(self.tree, request(JOB % "w"))
        with mock.patch("txforest.attempt.changed", return_value="n"):
            with mock.patch("txforest.attempt.tell"):
                answer = queues.lead(self.tree, request(JOB % "a"))
        self.assertEqual(answer.status, Status.CHANGING)
        self.assertEqual((waiting.answer() or answer).status, Status.CHANGING)
        waiting.remove()
        waiting = left(self.tree, request(JOB % "w"))
        with mock.patch("txforest.batch.Batch.attempted", side_effect=KeyboardInterrupt):
            self.assertRaises(KeyboardInterrupt, queues.lead, self.tree, request(JOB % "a"))
        self.assertTrue(waiting.withdraw())
        waiting.remove()
        waiting = left(self.tree, request(JOB % "w"))
        with mock.patch("txforest.attempt.commit", side_effect=Unfinished("committed")):
            self.assertRaises(Failed, queues.lead, self.tree, request(JOB % "a"))
        # Its answer stands in a place: it can't be given up any more.
        self.assertFalse(waiting.withdraw())
        waiting.remove()

    def test_who_comes_while_the_tree_is_surveyed_is_done_too(self) -> None:
        waiting: list[Waiting] = []

        def surveyed(*given: Any) -> Any:
            found = settled_survey(*given)
            waiting.append(left(self.tree, request(JOB % f"w{len(waiting)}")))
            return found

        with mock.patch("txforest.attempt.settled_survey", surveyed):
            with mock.patch("txforest.attempt.changed", side_effect=["n", None]):
                with mock.patch("txforest.attempt.tell"):
                    answer = queues.lead(self.tree, request(JOB % "a"))
        self.assertEqual(answer.status, 0)
        # The second one came behind the first survey, so it waits for the next who has the lock.
        self.assertEqual([it.answer() is None for it in waiting], [False, True])
        self.assertEqual(self.done(), ["a", "w0"])
        for it in waiting:
            it.remove()

    def test_kills(self) -> None:
        self.assertEqual(queues.kills(6).stops, 6)


class Parts(unittest.TestCase):
    def test_each_job_gets_its_own(self) -> None:
        draw = random.Random(6)
        root = model.read_description(SPEC)
        store: model.Filestore = {
            (): model.Dir("dir", frozenset([b"log", b"n"])),
            (b"log",): model.File("file", b"", False),
            (b"n",): model.File("file", b"0", False),
        }
        for _ in range(20):
            counts = [draw.randrange(1, 3) for _ in range(draw.randrange(1, 4))]
            texts = [
                (JOB % f"j{i}" + draw.choice(["", "txn { up }", "txn { abort }"])).encode()
                for i in range(sum(counts))
            ]
            plan: Any = [model.read_script(text) for text in texts]
            steps = [draw.randrange(len(plan)) for _ in range(40)]
            lines, order, retries, _ = model.watch(root, plan, store, steps)
            report = model.report(order, retries)
            whole = read_report(report.encode())
            events = "".join(line + "\n" for line in lines)
            parts = parted((events + report).encode(), counts)
            self.assertEqual(sum(part.entries for part in parts), len(whole.entries))
            shell = 0
            for part, count in zip(parts, counts):
                own = read_report(part.report)
                wanted = [
                    entry._replace(shell=entry.shell - shell)
                    for entry in whole.entries
                    if shell <= entry.shell < shell + count
                ]
                self.assertEqual(own.entries, wanted)
                self.assertEqual(len(part.odd), sum(not it.end.is_done for it in wanted))
                for retry in own.retries:
                    self.assertLess(retry.entry, len(wanted))
                self.assertIs(part.valid, True)
                shell += count
            alone = parted(report.encode(), [len(plan)])[0]
            self.assertEqual(alone.report.decode(), report)
            self.assertIsNone(alone.valid)

    def test_a_schedule_fits_a_command_line(self) -> None:
        for shells in (1, 2, 10, 11, 64):
            schedule = one_by_one(shells)
            self.assertLess(len(schedule), 131_072)
            steps = list(map(int, schedule.split(",")))
            self.assertEqual(steps, sorted(steps))
            self.assertEqual(set(steps), set(range(shells)))


if __name__ == "__main__":
    unittest.main()

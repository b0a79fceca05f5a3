"""Runs that tell what they looked at: OUT compared at these paths alone is OUT compared whole."""

from __future__ import annotations

import os
import random
import unittest
from collections.abc import Sequence
from typing import Any
from unittest import mock

from txforest.attempt import Attempt
from txforest.differences import Change, InTheWay
from txforest.lock import lock
from txforest.looked import Looker, all_of, before_last, looks_of, without_question
from txforest.place import Tree
from txforest.sources import Source
from txforest.statuses import Failed

from . import pretended
from .trees import work_folder, write

SPEC = (
    b'{(k :: <d : dir, {(n :: file) | n in (d union one("new"))}>)'
    b' | k in (one("p") union one("q"))}'
)
MOVES = (
    'to("{0}") down into down store((one("a") union one("{1}")))',
    'to("{0}") down into down store(empty)',
    'to("{0}") down into next to("{1}") down store("{2}")',
    'to("{0}") down into next to("{1}") down try c create store("{2}")',
    'to("{0}") down into next to("{1}") down try c remove',
    'to("{0}") down into next to("{1}") down fetch x : str store((x ++ "{2}"))',
    'to("{0}") down into next to("{1}") down store(true)',
    'to("{0}") down into down fetch d : names store((d only "a*"))',
)


def described(changes: Sequence[Change]) -> list[tuple[Any, ...]]:
    """What changes are, for comparing them."""
    return [(it.kind, it.path, it.data, it.flag, it.room) for it in changes]


class Looks(unittest.TestCase):
    def setUp(self) -> None:
        room = work_folder()
        self.top = room.__enter__()
        self.addCleanup(room.__exit__, None, None, None)
        self.tree = f"{self.top}/t"
        for folder in ("p", "q", "r"):
            os.makedirs(f"{self.tree}/{folder}")
            for name in ("a", "ab", "b"):
                write(f"{self.tree}/{folder}/{name}", f"{folder} {name}")

    def both(self, scripts: Sequence[str]) -> tuple[Any, Any, bool]:
        """What scripts change, by the looks and by all of OUT; a refusal in its place. And whether
        the looks counted."""
        with Tree(self.tree) as tree, Attempt(tree, lock(tree.path)) as it, pretended.program():
            looker = Looker(it)
            answer = looker.run(Source("s", SPEC), [Source("j", text.encode()) for text in scripts])
            self.assertEqual(answer.status, 0, answer.line)
            valid = it.valid
            self.assertEqual(valid, pretended.is_valid(self.spec_file(), it.out))
            found: list[Any] = []
            with mock.patch("txforest.looked.FEW", 0):
                for work in (looker.changes, it.changes):
                    try:
                        found.append(described(work()))
                    except Failed as failed:
                        found.append(failed.lines)
            return found[0], found[1], looker.looks is not None

    def spec_file(self) -> str:
        """The description as a file."""
        with open(f"{self.top}/spec", "wb") as it:
            it.write(SPEC)
        return f"{self.top}/spec"

    def test_looks_name_all_that_changes(self) -> None:
        draw = random.Random(7)
        counted = changed = 0
        for turn in range(60):
            if turn == 20:
                os.symlink("a", f"{self.tree}/r/link")  # from here on there are views and tables
            if turn == 40:
                os.chmod(f"{self.tree}/p/b", 0o755)
                os.mkfifo(f"{self.tree}/q/new")  # something to be in the way of
            scripts = []
            for _ in range(draw.choice([1, 1, 2])):
                txns = []
                for _ in range(draw.randrange(1, 4)):
                    names = draw.choice("pq"), draw.choice(["a", "ab", "b", "new"])
                    move = draw.choice(MOVES).format(*names, draw.choice(["", "x", "yy"]))
                    txns.append("txn { " + move + draw.choice(["", " abort"]) + " }")
                scripts.append("\n".join(txns))
            few, whole, is_known = self.both(scripts)
            self.assertEqual(few, whole, scripts)
            self.assertTrue(is_known)
            counted += 1
            changed += bool(whole)
        self.assertEqual(counted, 60)
        self.assertGreater(changed, 20)

    def test_a_change_that_no_look_names_is_missed(self) -> None:
        """So the looks have to name all: this is what the test above would find."""
        script = 'txn { to("p") down into next to("b") down store("x") }'

        def blind(events: bytes) -> dict[int, set[bytes]]:
            return {it: own - {b"p/b"} for it, own in (looks_of(events) or {}).items()}

        with mock.patch("txforest.looked.looks_of", blind):
            few, whole, _ = self.both([script])
        self.assertEqual((few, [it[:2] for it in whole]), ([], [("store", "p/b")]))

    def test_doubts_mean_that_all_is_compared(self) -> None:
        script = 'txn { to("p") down into next to("b") down store("x") }'
        for name, given in (
            ("looks_of", lambda events: None),
            ("without_question", lambda report, shell: None),
            ("TEXT_LIMIT", len(script)),
        ):
            with mock.patch(f"txforest.looked.{name}", given):
                few, whole, _ = self.both([script])
            self.assertEqual(few, whole)
            self.assertEqual([it[:2] for it in whole], [("store", "p/b")], name)
        with mock.patch("txforest.looked.differences_at", side_effect=InTheWay("p")):
            few, whole, _ = self.both([script])
        self.assertEqual(few, whole)

    def test_a_refused_text_is_told_by_its_own_place(self) -> None:
        with Tree(self.tree) as tree, Attempt(tree, lock(tree.path)) as it, pretended.program():
            for text in (b"txn { $ }", b"txn {"):
                answer = Looker(it).run(Source("s", SPEC), [Source("j", text)])
                self.assertEqual(answer.status, 3)
                self.assertEqual((it.refused, it.cause[:4]), (1, answer.told()[13:17]))


class Texts(unittest.TestCase):
    def test_looks(self) -> None:
        events = b'look 0 "/" 0\nlook 1 "/a b/\\"\\\\\\xff\\n" 12\nsettled 0 0\nconflict 1 0 "/c"\n'
        looks = looks_of(events + b"valid yes\n") or {}
        self.assertEqual(looks, {0: {b""}, 1: {b'a b/"\\\xff\n'}})
        self.assertEqual(all_of(looks), {"", 'a b/"\\\udcff\n'})
        self.assertEqual(looks_of(b""), {})
        self.assertIsNone(looks_of(events + b"saw 0\n"))
        self.assertEqual(before_last(events), b"")
        self.assertEqual(before_last(events + b'look 1 "/x" 1\nsettled 1 1\n'), events[:41])

    def test_the_question_is_no_entry(self) -> None:
        head = b"forest report 1\nentries "
        own = b'entry 0 shell 0 txn 0 done\nprint "a"\nentry 1 shell 1 txn 0 aborted\n'
        asked = b"entry 2 shell 1 txn 1 done\nprint false\n"
        retry = b'retry shell 1 txn %d entry 0 path "/"\n'
        ends = b"retries 2\n" + retry % 0 + retry % 1
        made = without_question(head + b"3\n" + own + asked + ends + b"end\n", 1)
        wanted = head + b"2\n" + own + b"retries 1\n" + retry % 0 + b"end\n"
        self.assertEqual(made, (wanted, False))
        alone = asked.replace(b"2 shell 1 txn 1", b"0 shell 0 txn 0").replace(b"false", b"true")
        made = without_question(head + b"1\n" + alone + b"retries 0\nend\n", 0)
        self.assertEqual(made, (head + b"0\nretries 0\nend\n", True))
        for shell, text in ((0, asked), (1, own), (1, asked.replace(b"false", b"1"))):
            whole = head + b"3\n" + own + text + b"retries 0\nend\n"
            self.assertIsNone(without_question(whole, shell), text)


if __name__ == "__main__":
    unittest.main()

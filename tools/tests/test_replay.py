"""A schedule of a report: found again for the reports of random schedules."""

from __future__ import annotations

import random
import unittest

from txforest import model
from txforest.replay import find_schedule
from txforest.report import Report, Retry, read_report
from txforest.statuses import Failed, Status

SPEC = b"<d : dir, {(n :: file) | n in d}>"
STORE: model.Filestore = {
    (): model.Dir("dir", frozenset([b"a", b"b", b"c"])),
    (b"a",): model.File("file", b"0", False),
    (b"b",): model.File("file", b"0", False),
    (b"c",): model.File("file", b"0", False),
}
ADD = 'into next to("%s") down fetch n : str store(text((int(n) + 1))) top'
SUM = 'into next to("%s") down fetch x : str up out to("%s") down fetch y : str print(x) print(y)'
IF = (
    'into next to("%s") down fetch m : str'
    ' if ((m == "0")) { } else { up out to("%s") down fetch q : str }'
)
NEW = 'into fetch d : names store((d union one("%s%d")))'


def scripts(draw: random.Random) -> list[bytes]:
    """A few scripts that get into each other's way."""

    def txn(number: int) -> str:
        one, two = draw.choice("abc"), draw.choice("abc")
        return draw.choice(
            [ADD % one, ADD % one, SUM % (one, two), IF % (one, two), NEW % (one, number)]
        )

    return [
        "".join(f"txn {{ {txn(i)} }}\n" for i in range(draw.randrange(1, 4))).encode()
        for _ in range(draw.randrange(2, 4))
    ]


class Replays(unittest.TestCase):
    def test_reports_of_random_schedules(self) -> None:
        draw = random.Random(5)
        root = model.read_description(SPEC)
        retries = 0
        for _ in range(60):
            plan = [model.read_script(text) for text in scripts(draw)]
            given = [draw.randrange(len(plan)) for _ in range(60)]
            _, order, conflicts, _ = model.trace(root, plan, STORE, given)
            text = model.report(order, conflicts)
            report = read_report(text.encode())
            schedule = find_schedule(root, plan, STORE, report, 500)
            _, order, conflicts, _ = model.trace(root, plan, STORE, schedule)
            self.assertEqual(model.report(order, conflicts), text)
            retries += len(report.retries)
        self.assertGreater(retries, 40)

    def failed(self, report: Report, limit: int = 20) -> Failed:
        root = model.read_description(SPEC)
        plan = [model.read_script(f"txn {{ {ADD % name} }}".encode()) for name in "ab"]
        with self.assertRaises(Failed) as caught:
            find_schedule(root, plan, STORE, report, limit)
        return caught.exception

    def test_a_report_that_no_schedule_has(self) -> None:
        root = model.read_description(SPEC)
        plan = [model.read_script(f"txn {{ {ADD % name} }}".encode()) for name in "ab"]
        _, order, _, _ = model.trace(root, plan, STORE, [])
        report = read_report(model.report(order, []).encode())
        self.assertEqual(len(find_schedule(root, plan, STORE, report, 1)), 6)
        never = report._replace(retries=[Retry(1, 0, 0, b"/b")])
        failed = self.failed(never)
        self.assertEqual(failed.status, Status.NOT_DONE)
        self.assertIn(
            "retry 0, of shell 1 txn 0 because of entry 0 at /b, after 20", failed.lines[0]
        )
        for other in (
            report._replace(entries=report.entries[::-1], retries=[Retry(0, 0, 1, b"/b")]),
            report._replace(retries=[Retry(0, 0, 7, b"/a")]),
        ):
            self.assertEqual(self.failed(other).status, Status.NOT_DONE)
        for other in (
            report._replace(entries=[report.entries[0]._replace(shell=5)]),
            report._replace(entries=[report.entries[0]._replace(txn=5)]),
            report._replace(entries=[report.entries[0]._replace(prints=(1,))]),
        ):
            self.assertEqual(self.failed(other).status, Status.USAGE)


if __name__ == "__main__":
    unittest.main()

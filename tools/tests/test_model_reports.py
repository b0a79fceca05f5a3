"""The model's reports, audits, journals and schedules, held against FORMATS."""

from __future__ import annotations

import unittest

from txforest import model

# LANGUAGE, "Several shells": two shells on a folder with one file.
SPEC = b'("a" :: file)'
READER = b"txn { down fetch x : str print(x) }"
WRITER = b'txn { down store("ho") }'
EVENTS = [
    'look 0 "/a" 0',
    'look 1 "/a" 0',
    "settled 1 0",
    'conflict 0 0 "/a"',
    'look 0 "/a" 1',
    "settled 0 1",
]
REPORT = """forest report 1
entries 2
entry 0 shell 1 txn 0 done
entry 1 shell 0 txn 0 done
print "ho"
retries 1
retry shell 0 txn 0 entry 0 path "/a"
end
"""


class Runs(unittest.TestCase):
    """LANGUAGE, "Several shells"; FORMATS, event lines, audits and journals."""

    def setUp(self) -> None:
        self.root = model.read_description(SPEC)
        self.plan = [model.read_script(READER), model.read_script(WRITER)]
        self.store: model.Filestore = {
            (): model.Dir("dir", frozenset([b"a"])),
            (b"a",): model.File("file", b"hi", False),
        }

    def test_the_trace_of_the_language_page(self) -> None:
        events, order, retries, last = model.trace(self.root, self.plan, self.store, [0, 1, 1])
        self.assertEqual(events, EVENTS)
        self.assertEqual(model.report(order, retries), REPORT)
        self.assertEqual(last[b"a",], ("file", b"ho", False))

    def test_without_a_schedule_the_shells_step_in_rounds(self) -> None:
        events, _, _, _ = model.trace(self.root, self.plan, self.store, [])
        self.assertEqual(
            events[:4], ['look 0 "/a" 0', 'look 1 "/a" 0', "settled 0 0", "settled 1 1"]
        )

    def test_a_watched_run_says_after_each_entry_whether_there_is_a_value(self) -> None:
        plan = [model.read_script(b"txn { down remove } txn { down create }")]
        lines, _, _, _ = model.watch(self.root, plan, self.store, [])
        words = [line for line in lines if not line.startswith("look")]
        self.assertEqual(
            words, ["valid yes", "settled 0 0", "valid no", "settled 0 1", "valid yes"]
        )

    def test_views(self) -> None:
        _, _, _, states = model.steps(self.root, self.plan, self.store, [0, 1, 1])
        told = model.views(self.root, model.read_script(READER * 2), states, [0, 1])
        self.assertEqual(
            told, 'views 2\nview 0 at 0 done\nprint "hi"\nview 1 at 1 done\nprint "ho"\nend\n'
        )

    def test_audits(self) -> None:
        rows = [
            (REPORT, "audit yes"),
            (
                REPORT.replace('retries 1\nretry shell 0 txn 0 entry 0 path "/a"\n', "retries 0\n"),
                "audit yes",
            ),
            (REPORT.replace("report 1", "report 2"), "audit no BadLine 1"),
            (REPORT.replace("entries 2", "entries 3"), "audit no BadLine 6"),
            (REPORT[:-1], "audit no BadLine 8"),
            (REPORT + "\n", "audit no BadLine 9"),
            (REPORT.replace("shell 1 txn 0", "shell 0 txn 0"), "audit no Order 1"),
            (REPORT.replace("shell 1 txn 0", "shell 1 txn 1"), "audit no Order 0"),
            (REPORT.replace('"ho"', '"hi"'), "audit no Answer 1"),
            (REPORT.replace("shell 0 txn 0 done", "shell 0 txn 0 aborted"), "audit no Answer 1"),
            ("forest report 1\nentries 0\nretries 0\nend\n", "audit no Missing 0 0"),
            (REPORT.replace('path "/a"', 'path "/b"'), "audit no Retry 0"),
            (REPORT.replace("entry 0 path", "entry 1 path"), "audit no Retry 0"),
        ]
        for report, told in rows:
            with self.subTest(told=told):
                found = model.audit(self.root, self.plan, self.store, report.encode())
                self.assertEqual(found, told + "\n")

    def test_journals(self) -> None:
        image = bytes.fromhex("01 00000001 00000000 01 00000000 00000000 00")
        self.assertEqual(model.journal_of([(1, 0), (0, 0)]), image)
        self.assertEqual(model.order_of(image), [(1, 0), (0, 0)])
        self.assertEqual(model.order_of(b""), [])
        self.assertEqual(model.order_of(image[:9]), [(1, 0)])
        self.assertEqual(model.order_of(image[:9] + b"\2" + image[10:]), [(1, 0)])
        count, last = model.recover(self.root, self.plan, self.store, image)
        self.assertEqual((count, last[b"a",]), (2, ("file", b"ho", False)))
        for bad, number in ((image[:8], "0"), (image[:-1] + b"\1", "2"), (image[:9] * 2, "1")):
            with self.subTest(image=bad), self.assertRaisesRegex(model.BadJournal, f"^{number}$"):
                model.recover(self.root, self.plan, self.store, bad)


class Values(unittest.TestCase):
    """FORMATS, "The report" and "What `show` prints"."""

    VALUES: dict[str, model.Value] = {
        '""': b"",
        '"a \\"\\\\\\n\\x00\\x7f\\xff"': b'a "\\\n\x00\x7f\xff',
        "0": 0,
        "-7": -7,
        "true": True,
        "false": False,
        "{}": frozenset(),
        '{"", "a"}': frozenset([b"a", b""]),
        "none": None,
        '<"a", 1>': model.PairValue("pair", b"a", 1),
        "some(none)": model.SomeValue("some", None),
        "[]": {},
        '["a" = 1, "b" = {}]': {b"b": frozenset(), b"a": 1},
    }

    def test_values_are_printed_and_read_back(self) -> None:
        for text, value in self.VALUES.items():
            with self.subTest(text=text):
                self.assertEqual(model.printed(value), text)
                self.assertEqual(model.told_value(text.encode() + b"|"), (value, b"|"))

    def test_no_other_spelling_is_read(self) -> None:
        for text in (
            b"",
            b"-0",
            b"-",
            b'"\\x41"',
            b'"\\x0A"',
            b'"a',
            b'{"b", "a"}',
            b'{"a", "a"}',
            b'{"a","b"}',
            b"{1}",
            b"some()",
            b"<1>",
            b"<1,2>",
            b'["a"=1]',
            b'["b" = 1, "a" = 1]',
            b"9223372036854775808",
            b"True",
        ):
            with self.subTest(text=text):
                self.assertIsNone(model.told_value(text))
        self.assertEqual(model.told_value(b"007"), (0, b"07"))
        self.assertIsNotNone(model.told_value(b"some(" * 63 + b"1" + b")" * 63))
        self.assertIsNone(model.told_value(b"some(" * 64 + b"1" + b")" * 64))

    def test_paths_are_read_back(self) -> None:
        paths = {b'"/"': (), b'"/a"': (b"a",), b'"/a b/\\xc3\\xa9"': (b"a b", b"\xc3\xa9")}
        for text, path in paths.items():
            self.assertEqual(model.told_path(text), path)
        for text in (
            b'"a"',
            b'"/a/"',
            b'"//a"',
            b'"/.."',
            b'"/a" ',
            b'"/\\xff"',
            b'"' + b"/a" * 65 + b'"',
        ):
            self.assertIsNone(model.told_path(text))

    def test_ends_are_those_of_the_language(self) -> None:
        for text in (
            b"done",
            b"aborted",
            b"stopped 0 1 NoStep",
            b'stopped 4294967295 6 Blocked "/a"',
            b"stopped 1 10 Expr Overflow",
            b"stopped 1 13 TooUnfolded",
        ):
            self.assertTrue(model.is_told_end(text))
        for text in (
            b"",
            b"stopped",
            b"stopped 00 1 NoStep",
            b"stopped 4294967296 1 NoStep",
            b"stopped 0 2 NoStep",
            b"stopped 0 6 Blocked",
            b"stopped 0 6 Blocked a",
            b"stopped 0 10 Expr",
            b"done ",
        ):
            with self.subTest(text=text):
                self.assertFalse(model.is_told_end(text))

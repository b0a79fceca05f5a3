"""What the program prints, read into objects and printed again."""

from __future__ import annotations

import random
import time
import unittest

from txforest import model
from txforest.report import (
    BadLine,
    Conflict,
    End,
    Entry,
    Look,
    Retry,
    Settled,
    Show,
    Valid,
    View,
    read_printed,
    read_report,
)
from txforest.values import NoValue, Pair, Some, is_path, printed, quote, unquote, value_of

ENDS = [
    b"done",
    b"aborted",
    b"stopped 0 1 NoStep",
    b"stopped 1 2 NoElement",
    b"stopped 2 3 NoPlace",
    b"stopped 3 4 Lacks",
    b"stopped 4 5 WrongForm",
    b'stopped 5 6 Blocked "/a b/\\"c\\x01"',
    b"stopped 6 7 TooDeep",
    b"stopped 7 8 BadName",
    b"stopped 8 9 NoDefault",
    b"stopped 9 10 Expr TooLong",
    b"stopped 10 10 Expr Overflow",
    b"stopped 11 10 Expr NotNumber",
    b"stopped 4294967295 11 Absent",
    b"stopped 12 12 Exists",
    b"stopped 13 13 TooUnfolded",
]
VALUES = [
    b'""',
    b'"a \\"b\\" \\\\ \\n\\x00\\x7f\\xc3\\xa9"',
    b"0",
    b"-9223372036854775808",
    b"9223372036854775807",
    b"true",
    b"false",
    b"{}",
    b'{"", "a", "b"}',
    b'<"a", <1, true>>',
    b"none",
    b"some(none)",
    b"[]",
    b'["" = 1, "a" = -1]',
    b'["a" = ["b" = some({"c"})]]',
]


def report_of(ends: list[bytes], values: list[bytes], retries: list[bytes]) -> bytes:
    """A report of one shell with these ends; all values are printed by its first entry."""
    lines = [b"forest report 1", b"entries %d" % len(ends)]
    for i, end in enumerate(ends):
        lines.append(b"entry %d shell 0 txn %d %s" % (i, i, end))
        lines += [b"print " + value for value in values if i == 0]
    lines += [b"retries %d" % len(retries), *retries, b"end"]
    return b"".join(line + b"\n" for line in lines)


WHOLE = report_of(ENDS, VALUES, [b'retry shell 1 txn 0 entry 0 path "/"'])
TRACE = (
    b'look 0 "/" 0\nlook 1 "/a b" 18446744073709551615\nsettled 0 0\nconflict 1 0 "/\\n"\n'
    + report_of([b"done"], [], [])
)
WATCHED = b"valid yes\nsettled 0 0\nvalid no\n" + report_of([b"done"], [], [])
VIEWS = (
    report_of([b"done"], [], [])
    + b'views 3\nview 0 at 0 done\nprint "a"\nview 1 at 0 aborted\nview 2 at 1 done\nend\n'
)


class Values(unittest.TestCase):
    def test_each_form(self) -> None:
        pairs: list[tuple[bytes, object]] = [
            (VALUES[1], b'a "b" \\ \n\0\x7f\xc3\xa9'),
            (b"-12", -12),
            (b"true", True),
            (b'{"a", "b"}', frozenset([b"a", b"b"])),
            (b'<"a", 1>', Pair(b"a", 1)),
            (b"none", None),
            (b"some(none)", Some(None)),
            (b'["a" = 1]', {b"a": 1}),
        ]
        for text, value in pairs:
            self.assertEqual(value_of(text), value)
            self.assertIs(type(value_of(text)), type(value))

    def test_each_byte_is_quoted_as_the_model_does(self) -> None:
        for byte in range(256):
            text = b"a%cb" % byte
            self.assertEqual(quote(text), model.quote(text).encode())
            self.assertEqual(unquote(quote(text)), text)

    def test_other_spellings_are_refused(self) -> None:
        for text in (
            b"",
            b"tru",
            b"01",
            b"-0",
            b"9223372036854775808",
            b"-9223372036854775809",
            b"9" * 5000,
            b'"',
            b'"a',
            b'"\\x41"',
            b'"\\x0a"',
            b'"\\xC3"',
            b'"\\t"',
            b'"\n"',
            b'"\xc3\xa9"',
            b'{"b", "a"}',
            b'{"a", "a"}',
            b'{"a",}',
            b'{"a" "b"}',
            b"{1}",
            b'["a" = 1, "a" = 2]',
            b'["a"]',
            b"<1>",
            b"<1, 2, 3>",
            b"some(1",
            b"1 ",
            b'"' + b"a" * 1_048_577 + b'"',
            b"some(" * 64 + b"1" + b")" * 64,
        ):
            with self.assertRaises(NoValue, msg=repr(text[:40])):
                value_of(text)
        self.assertEqual(value_of(b'"' + b"a" * 1_048_576 + b'"'), b"a" * 1_048_576)
        self.assertIsInstance(value_of(b"some(" * 63 + b"1" + b")" * 63), Some)

    def test_paths(self) -> None:
        for text in (b"/", b"/a", b"/a/b c", b"/" + b"/".join([b"n"] * 64), "/é".encode()):
            self.assertTrue(is_path(text), text)
        for text in (
            b"",
            b"a",
            b"//",
            b"/a/",
            b"/.",
            b"/..",
            b"/\xff",
            b"/.forest-links",
            b"/a\0",
            b"/" + b"n" * 256,
            b"/" + b"/".join([b"n"] * 65),
        ):
            self.assertFalse(is_path(text), text)


class Reports(unittest.TestCase):
    def test_what_is_read_is_printed_again(self) -> None:
        for text in (
            WHOLE,
            TRACE,
            WATCHED,
            VIEWS,
            b"valid no\n",
            *(b"valid yes\nvalue " + value + b"\n" for value in VALUES),
            report_of([], [], []),
        ):
            self.assertEqual(read_printed(text).text(), text)
        self.assertEqual(read_report(WHOLE).text(), WHOLE)

    def test_objects(self) -> None:
        report = read_report(WHOLE)
        self.assertEqual(report.entries[1], Entry(0, 1, End("aborted"), ()))
        self.assertEqual(report.entries[7].end, End("stopped", 5, 6, b'/a b/"c\x01'))
        self.assertEqual(report.entries[9 + 2].end, End("stopped", 9, 10, b"TooLong"))
        self.assertEqual(report.entries[2].end.name, "NoStep")
        self.assertEqual(report.retries, [Retry(1, 0, 0, b"/")])
        self.assertEqual([i for i, _ in report.not_done()], list(range(1, len(ENDS))))
        self.assertEqual(
            read_printed(TRACE).events,
            [
                Look(0, b"/", 0),
                Look(1, b"/a b", 2**64 - 1),
                Settled(0, 0),
                Conflict(1, 0, b"/\n"),
            ],
        )
        watched = read_printed(WATCHED).events
        self.assertEqual(watched, [Valid(True), Settled(0, 0), Valid(False)])
        views = read_printed(VIEWS).views
        self.assertEqual((views or [])[0], View(0, End("done"), (b"a",)))
        self.assertEqual(read_printed(b"valid no\n").show, Show(False, None))
        self.assertEqual(read_printed(b"valid yes\nvalue 1\n").show, Show(True, 1))

    def refused(self, text: bytes) -> int:
        with self.assertRaises(BadLine) as caught:
            read_printed(text)
        return caught.exception.number

    def test_the_bad_line_is_told(self) -> None:
        good = WHOLE.split(b"\n")
        for i in range(len(good) - 1):
            for bad in (b"", good[i] + b" ", b"x", b" " + good[i], good[i].upper()):
                with self.subTest(line=i + 1, bad=bad):
                    lines = [*good[:i], bad, *good[i + 1 :]]
                    if bad != good[i]:
                        self.assertEqual(self.refused(b"\n".join(lines)), i + 1)
        for text, number in (
            (b"", 1),
            (b"\n", 1),
            (b"forest report 1", 1),
            (b"forest report 1\n", 2),
            (WHOLE[:-1], len(good) - 1),
            (WHOLE + b"x", len(good)),
            (WHOLE + b"\n", len(good)),
            (b'look 0 "/a" 0\n', 2),
            (b'look 0 "a" 0\n', 1),
            (b'look 4294967296 "/a" 0\n', 1),
            (b'look 0 "/a" 18446744073709551616\n', 1),
            (b"settled 0 18446744073709551616\n", 1),
            (b"conflict 0 0 /a\n", 1),
            (b"valid yes\n", 2),
            (b"valid yes\nvalue\n", 2),
            (b"valid yes\nvalue 1 1\n", 2),
            (b"valid yes\nvalue 1\nend\n", 3),
            (b"valid no\nvalue 1\n", 2),
            (VIEWS.replace(b"view 1 at", b"view 2 at"), 9),
            (VIEWS.replace(b"view 1 at 0", b"view 1 at 2"), 10),
            (VIEWS.replace(b"views 3", b"views 2"), 10),
            (VIEWS.replace(b"views 3", b"views 4"), 11),
            (b"forest report 1\nentries 1\nentry 1 shell 0 txn 0 done\nretries 0\nend\n", 3),
            (b"forest report 1\nentries 0\nentry 0 shell 0 txn 0 done\nretries 0\nend\n", 3),
            (b"forest report 1\nentries 1\nretries 0\nend\n", 3),
            (b"forest report 1\nentries 0\nretries 1\nend\n", 4),
            (b"forest report 1\nentries 00\nretries 1\nend\n", 2),
        ):
            with self.subTest(text=text):
                self.assertEqual(self.refused(text), number)

    def test_reports_are_those_of_the_model(self) -> None:
        draw = random.Random(1)
        lines = WHOLE.split(b"\n")
        agreed = refused = 0
        for _ in range(700):
            found = list(lines)
            for _ in range(draw.choice([0, 1, 1, 2])):
                i = draw.randrange(len(found))
                how = draw.randrange(4)
                if how == 0:
                    del found[i]
                elif how == 1:
                    found.insert(i, draw.choice(lines))
                elif how == 2:
                    found[i] = draw.choice(lines)
                else:
                    at = draw.randrange(len(found[i]) + 1)
                    found[i] = found[i][:at] + bytes([draw.choice(b'01 "\\x}a\n')]) + found[i][at:]
            text = b"\n".join(found)
            try:
                model.read_report(text)
                wanted = None
            except model.BadLine as bad:
                wanted = int(str(bad))
            try:
                self.assertEqual(read_report(text).text(), text)
                self.assertIsNone(wanted)
                agreed += 1
            except BadLine as mine:
                self.assertEqual(mine.number, wanted, text)
                refused += 1
        self.assertGreater(agreed, 50)
        self.assertGreater(refused, 200)

    def test_a_large_report_takes_time_by_its_length(self) -> None:
        def took(count: int) -> float:
            table = b"[" + b", ".join(b'"k%06d" = %d' % (i, i) for i in range(count)) + b"]"
            text = report_of([b"done"] * count, [table], [])
            started = time.process_time()
            read_report(text)
            return time.process_time() - started

        small, large = took(1_000), took(8_000)
        self.assertLess(large, 30 * small + 0.05)

    def test_values_are_printed_as_the_model_does(self) -> None:
        for text in VALUES:
            told = model.told_value(text)
            assert told is not None
            self.assertEqual(printed(value_of(text)), model.printed(told[0]).encode())


if __name__ == "__main__":
    unittest.main()

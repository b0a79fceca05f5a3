"""What txforest-report tells: JSON that can be read back exactly, and a summary."""

from __future__ import annotations

import base64
import json
import os
import tempfile
import unittest
from typing import Any

from txforest.report import read_printed
from txforest.statuses import Failed
from txforest.summary import json_line, printed_in, summary, told_value
from txforest.values import Pair, Some, Value, value_of

from .test_report import TRACE, VALUES, VIEWS, WATCHED, WHOLE, report_of


def text_back(told: Any) -> bytes:
    return told.encode() if isinstance(told, str) else base64.b64decode(told["base64"])


def value_back(told: Any) -> Value:
    """The value that a piece of JSON spells."""
    if isinstance(told, str) or isinstance(told, dict) and "base64" in told:
        return text_back(told)
    if isinstance(told, list):
        return frozenset(map(text_back, told))
    if isinstance(told, dict) and "some" in told:
        return Some(value_back(told["some"]))
    if isinstance(told, dict) and "table" in told:
        return {key.encode(): value_back(value) for key, value in told["table"].items()}
    if isinstance(told, dict) and "rows" in told:
        return {text_back(key): value_back(value) for key, value in told["rows"]}
    if isinstance(told, dict):
        return Pair(value_back(told["first"]), value_back(told["second"]))
    assert told is None or isinstance(told, (bool, int))
    return told


class Json(unittest.TestCase):
    def test_each_value_comes_back(self) -> None:
        odd = [
            b'"\\xff"',
            b'{"a", "\\xff"}',
            b'["base64" = "YQ==", "some" = 1]',
            b'["\\xfe" = "\\xff", "\\xff" = none]',
            b'<{"a", "b"}, <"a", "b">>',
            b'["table" = ["rows" = 1]]',
            b'"\\xed\\xa0\\x80"',
        ]
        for text in [*VALUES, *odd]:
            value = value_of(text)
            told = json.loads(json.dumps(told_value(value)))
            self.assertEqual(value_back(told), value)
            self.assertIs(type(value_back(told)), type(value))

    def test_a_report(self) -> None:
        told = json.loads(json_line(read_printed(WHOLE)))
        self.assertEqual(list(told), ["entries", "retries"])
        first = told["entries"][0]
        self.assertEqual((first["end"], len(first["prints"])), ("done", len(VALUES)))
        self.assertEqual(
            told["entries"][7],
            {
                "entry": 7,
                "shell": 0,
                "txn": 7,
                "end": "stopped",
                "command": 5,
                "refusal": 6,
                "name": "Blocked",
                "path": '/a b/"c\x01',
                "prints": [],
            },
        )
        self.assertEqual(told["entries"][11]["fault"], "TooLong")
        self.assertEqual(told["retries"], [{"shell": 1, "txn": 0, "entry": 0, "path": "/"}])

    def test_events_views_and_show(self) -> None:
        events = json.loads(json_line(read_printed(TRACE)))["events"]
        self.assertEqual(
            events[0], {"event": "look", "shell": 0, "path": "/", "position": 0}
        )
        self.assertEqual(
            events[3], {"event": "conflict", "shell": 1, "entry": 0, "path": "/\n"}
        )
        watched = json.loads(json_line(read_printed(WATCHED)))["events"]
        self.assertEqual(watched[0], {"event": "valid", "valid": True})
        views = json.loads(json_line(read_printed(VIEWS)))["views"]
        self.assertEqual(views[0], {"view": 0, "at": 0, "end": "done", "prints": ["a"]})
        self.assertEqual(json.loads(json_line(read_printed(b"valid no\n"))), {"valid": False})
        shown = json.loads(json_line(read_printed(b"valid yes\nvalue none\n")))
        self.assertEqual(shown, {"valid": True, "value": None})


class Summaries(unittest.TestCase):
    def test_lines(self) -> None:
        retries = [b'retry shell 1 txn 0 entry 0 path "/done"'] * 2
        text = report_of([b"done", b"aborted", b"stopped 3 4 Lacks"], [], retries)
        self.assertEqual(
            summary(read_printed(text)),
            [
                "3 transactions: 1 done, 1 stopped, 1 aborted; 2 new starts",
                "entry 1: shell 0 transaction 1 aborted",
                "entry 2: shell 0 transaction 2 stopped 3 4 Lacks",
                "2 new starts because of /done",
            ],
        )
        self.assertEqual(summary(read_printed(TRACE))[0], "2 looks, 1 settle, 1 conflict")
        self.assertEqual(
            summary(read_printed(WATCHED))[:3],
            [
                "0 looks, 1 settle, 0 conflicts",
                "2 states of the folder, 1 without a value",
                "no value behind entry 0",
            ],
        )
        self.assertEqual(summary(read_printed(VIEWS))[-1], "view 1 at 0 aborted")
        self.assertEqual(summary(read_printed(b"valid no\n")), ["valid no"])
        shown = summary(read_printed(b'valid yes\nvalue ["a" = 1]\n'))
        self.assertEqual(shown, ["valid yes: a table of 1 row"])

    def test_a_bad_file_is_told_with_its_line(self) -> None:
        with tempfile.TemporaryDirectory() as room:
            file = os.path.join(room, "r")
            with open(file, "wb") as it:
                it.write(WHOLE.replace(b"aborted", b"abroad"))
            with self.assertRaises(Failed) as caught:
                printed_in(file)
            line = 4 + len(VALUES)
            self.assertEqual(caught.exception.status, 2)
            self.assertIn(f"{file}: line {line}: ", caught.exception.lines[0])


if __name__ == "__main__":
    unittest.main()

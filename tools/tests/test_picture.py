"""Pictures: each event has its mark, and what stands in names and paths breaks no picture."""

from __future__ import annotations

import os
import tempfile
import unittest
import xml.dom.minidom
from unittest import mock

from txforest.picture import Picture, Run, page, tool
from txforest.report import read_printed
from txforest.statuses import Failed

from .test_report import report_of

TRACE = (
    b'look 0 "/<a>&\\x01" 0\nlook 1 "/b" 0\nsettled 0 0\nconflict 1 0 "/b"\nlook 1 "/b" 1\n'
    b"settled 1 1\n"
    + b'forest report 1\nentries 2\nentry 0 shell 0 txn 0 done\nprint "<x> & \\xff"\n'
    b'entry 1 shell 1 txn 0 aborted\nretries 1\nretry shell 1 txn 0 entry 0 path "/b"\nend\n'
)
REPORT = TRACE[TRACE.index(b"forest") :]


class Pictures(unittest.TestCase):
    def counts(self, text: bytes, names: list[str]) -> dict[str, int]:
        run = Run(read_printed(text))
        svg = "\n".join(Picture(run, names).svg())
        xml.dom.minidom.parseString(svg)
        return {kind: svg.count(f'class="{kind}"') for kind in ("look", "settled", "cross")}

    def test_each_event_has_a_mark(self) -> None:
        wanted = {"look": 3, "settled": 2, "cross": 1}
        self.assertEqual(self.counts(TRACE, ["<a&", "b"]), wanted)
        self.assertEqual(self.counts(REPORT, []), {**wanted, "look": 0})
        watched = b"valid yes\nsettled 0 0\nvalid no\n" + report_of([b"done"], [], [])
        self.assertEqual(self.counts(watched, [])["settled"], 1)
        self.assertEqual(self.counts(report_of([], [], []), [])["settled"], 0)

    def test_a_page(self) -> None:
        run = Run(read_printed(TRACE))
        text = "\n".join(page(run, Picture(run, ["a", "b"])))
        self.assertIn("2 shells, 3 looks, 2 entries, 1 new start.", text)
        self.assertIn("&lt;x&gt; &amp; \\xff", text)
        self.assertIn('<td class="n">1</td><td><code>/b</code></td>', text)

    def test_what_is_no_run(self) -> None:
        for text in (
            b"valid no\n",
            TRACE.replace(b"settled 1 1", b"settled 1 0"),
            b"settled 0 1\n" + report_of([b"done"], [], []),
        ):
            with self.assertRaises(Failed) as caught:
                Run(read_printed(text))
            self.assertEqual(caught.exception.status, 2)

    def test_the_file_is_put_whole(self) -> None:
        with tempfile.TemporaryDirectory() as room:
            source, target = os.path.join(room, "t"), os.path.join(room, "p.svg")
            with open(source, "wb") as it:
                it.write(TRACE)
            words = ["txforest-picture", "--names", "a\x01,b", "-o", target, source]
            with mock.patch("sys.argv", words):
                self.assertEqual(tool(), 0)
            self.assertEqual(sorted(os.listdir(room)), ["p.svg", "t"])
            xml.dom.minidom.parse(target)
            os.mkdir(os.path.join(room, "d"))
            with mock.patch("sys.argv", [*words[:-2], os.path.join(room, "d"), source]):
                self.assertRaises(OSError, tool)
            self.assertEqual(sorted(os.listdir(room)), ["d", "p.svg", "t"])


if __name__ == "__main__":
    unittest.main()

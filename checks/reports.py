"""Holds the program's reader of reports against the second program, byte by byte.

usage: reports.py PROGRAM [EVERY]        the program, as `bench/build.sh` tells where it is

Each byte of a few small reports is changed in turn, left out, doubled, and put behind another. Some
texts near what a report can tell are tried as they are. Of each, `audit` has to print what the
model says: the number of the first bad line, or what the entries that were read come to. The
reports hold every kind of line, of value and of refusal.

Prints how many reports there were: of all, each EVERY-th if a number is named. Ends with 1 at the first difference, which it tells.
"""

from __future__ import annotations

import os
import subprocess
import sys
import tempfile
from collections import Counter
from collections.abc import Iterator, Sequence

from repository import model

DESCRIPTION = '("a" :: file)'
SCRIPT = "txn { down fetch x : str print(x) }\n"
FOLDER = {"a": b"hi"}

# Every kind of value.
VALUES = [
    r'"hi"',
    r'"\"\\\n\x00\x7f\xff a"',
    "0",
    "-9223372036854775808",
    "9223372036854775807",
    "true",
    "false",
    "{}",
    r'{"", "a", "b\x01"}',
    '<1, "a">',
    "none",
    "some(<true, some(none)>)",
    "[]",
    '["a" = 1, "b" = -2, "c" = {"x", "y"}]',
]

# Every way in which a transaction ends.
ENDS = ["done", "aborted", "stopped 4294967295 1 NoStep", 'stopped 0 6 Blocked "/a/b"']
ENDS += [f"stopped 7 10 Expr {fault}" for fault in ("TooLong", "Overflow", "NotNumber")]
ENDS += ["stopped 1 13 TooUnfolded", 'stopped 10 6 Blocked "/"']

# What a changed byte becomes.
OTHERS = b'\x00\n "\\,019<>[]{}()-/=aefnprstxy\x7f\x80\xff'

DEEP = 64


def report(entries: Sequence[tuple[str, Sequence[str]]], retries: Sequence[str]) -> bytes:
    """The report of entries, each with its end and its outputs, and of retries."""
    lines = ["forest report 1", f"entries {len(entries)}"]
    for number, (end, outputs) in enumerate(entries):
        lines.append(f"entry {number} shell 0 txn {number} {end}")
        lines += [f"print {value}" for value in outputs]
    lines += [f"retries {len(retries)}", *(f"retry {words}" for words in retries), "end"]
    return "".join(f"{line}\n" for line in lines).encode()


def small() -> list[bytes]:
    """Reports whose bytes are changed."""
    retry = 'shell 1 txn 4294967295 entry 18446744073709551615 path "/a/b\\xc3\\xa9"'
    return [
        report([("done", ['"hi"'])], []),
        report([("done", VALUES)], [retry]),
        report([(end, []) for end in ENDS], [retry, 'shell 0 txn 0 entry 0 path "/"']),
    ]


def changed(whole: bytes) -> Iterator[bytes]:
    """The report with one byte changed, left out, doubled, or put behind the next."""
    for at, byte in enumerate(whole):
        front, rest = whole[:at], whole[at + 1 :]
        yield front + rest
        yield front + bytes([byte, byte]) + rest
        yield front + rest[:1] + bytes([byte]) + rest[1:]
        for other in OTHERS:
            if other != byte:
                yield front + bytes([other]) + rest
    for at in range(len(whole)):
        yield whole[:at]


def near() -> Iterator[bytes]:
    """Values at the edge of what a report can tell."""
    for levels in (DEEP - 1, DEEP, DEEP + 1):
        for before, inner, behind in (("some(", "1", ")"), ("<1, ", "1", ">"), ('["" = ', "1", "]")):
            yield report([("done", [before * (levels - 1) + inner + behind * (levels - 1)])], [])
    for size in (1_048_576, 1_048_577):
        yield report([("done", ['"' + "a" * size + '"'])], [])
        yield report([("done", ['{"' + "a" * size + '"}'])], [])
    integers = ("9223372036854775808", "-9223372036854775809", "-0", "+1", "007", "00", "-", "1_0")
    texts = (r'"\x41"', r'"\x0a"', r'"\xFF"', r'"\X00"', r'"\x2"', r'"\t"', '"\x7f"', '"a', '""a')
    sets = ('{"b", "a"}', '{"a", "a"}', '{"a" , "b"}', '{"a","b"}', '{, "a"}', '{"a", }', "{1}")
    rows = ('["b" = 1, "a" = 1]', '["a" = 1, "a" = 2]', '["a" =1]', '["a" = 1,]', "[1]", "[")
    others = ("True", "nones", "some()", "some(1", "<1>", "<1, 2", "<1,2>", "<1, 2, 3>", "", " 1")
    for value in (*integers, *texts, *sets, *rows, *others):
        yield report([("done", [value])], [])
    numbers = ("4294967296", "04", "-1", "18446744073709551616")
    for number in numbers:
        yield report([("done", [])], [f'shell {number} txn 0 entry 0 path "/a"'])
        yield report([("done", [])], [f'shell 0 txn {number} entry 0 path "/a"'])
        yield report([("done", [])], [f'shell 0 txn 0 entry {number} path "/a"'])
        yield report([(f"stopped {number} 1 NoStep", [])], [])
    for end in ("stopped 0 1 NoElement", "stopped 0 14 NoStep", "stopped 0 10 Expr", "Done"):
        yield report([(end, [])], [])
    names = (".", "..", ".forest-links", "a" * 255, "a" * 256, r"\xff", "", "a/", r"\x00")
    for name in names:
        yield report([("done", [])], [f'shell 0 txn 0 entry 0 path "/{name}"'])
        yield report([(f'stopped 0 6 Blocked "/{name}"', [])], [])
    for count in (64, 65):
        yield report([("done", [])], [f'shell 0 txn 0 entry 0 path "{"/a" * count}"'])


class Stage:
    """A folder with the description, the script and the folder on which reports are audited."""

    def __init__(self, program: str, room: str) -> None:
        self.program = program
        self.room = room
        for name, text in (("spec", DESCRIPTION), ("script", SCRIPT)):
            with open(os.path.join(room, name), "w", encoding="utf-8") as file:
                file.write(text)
        os.mkdir(os.path.join(room, "in"))
        for name, content in FOLDER.items():
            with open(os.path.join(room, "in", name), "wb") as held:
                held.write(content)
        self.root = model.read_description(DESCRIPTION.encode())
        self.plan = [model.read_script(SCRIPT.encode(), 0)]
        self.store = model.load(os.path.join(room, "in"))

    def told(self, data: bytes) -> str:
        """What the program prints of a report."""
        with open(os.path.join(self.room, "report"), "wb") as file:
            file.write(data)
        words = [self.program, "audit", "spec", "in", "report", "script"]
        ran = subprocess.run(words, cwd=self.room, capture_output=True, timeout=60, check=False)
        return ran.stdout.decode()

    def wanted(self, data: bytes) -> str:
        """What the model says of it."""
        return model.audit(self.root, self.plan, self.store, data)


def main() -> None:
    """Tries all reports."""
    counts: Counter[str] = Counter()
    with tempfile.TemporaryDirectory() as room:
        stage = Stage(os.path.abspath(sys.argv[1]), room)
        tried = [*near(), *(data for whole in small() for data in (whole, *changed(whole)))]
        for data in list(dict.fromkeys(tried))[:: int(sys.argv[2]) if sys.argv[2:] else 1]:
            told, wanted = stage.told(data), stage.wanted(data)
            if told != wanted:
                print(f"audit prints {told!r} and not {wanted!r} of\n{data!r}", file=sys.stderr)
                sys.exit(1)
            counts[" ".join(told.split()[:3])] += 1
    for verdict, count in sorted(counts.items()):
        print(f"{count:6} {verdict}")
    print(f"{sum(counts.values())} reports: the program and the model agree")


if __name__ == "__main__":
    main()

"""Data from outside: each byte comes through, none can be read as a command."""

from __future__ import annotations

import os
import random
import tempfile
import unittest

from txforest import model
from txforest.data import (
    LEAST,
    MOST,
    Bound,
    bind,
    data_of,
    datum_of_file,
    datum_of_word,
    declare,
    integer,
    quoted,
    transactions,
)
from txforest.sources import Handed, Source, read_source, spelled
from txforest.statuses import Failed, Status
from txforest.terminal import Words


def printed_by(script: bytes) -> list[object]:
    """What the transactions of a script print, by the model, over an empty folder."""
    root = model.read_description(b"dir")
    empty: model.Filestore = {(): model.Dir("dir", frozenset())}
    txns = model.read_script(script)
    return [value for txn in txns for value in model.run_txn(root, txn, empty.get).outputs]


class Quoting(unittest.TestCase):
    def test_every_byte_alone_and_between(self) -> None:
        for byte in range(256):
            for text in (b"%c" % byte, b"a%cb" % byte, b"%c%c" % (byte, byte)):
                token = model.lex(quoted(text))[0]
                self.assertEqual(tuple(token[:2]), ("string", text))

    def test_random_texts(self) -> None:
        draw = random.Random(2)
        for _ in range(300):
            text = bytes(draw.choice(b'\\"nx0a{}\n\0\xff #') for _ in range(draw.randrange(12)))
            script = bind("s", b"txn { print(x) }", [datum_of_word(b"x=" + text)]).text
            self.assertEqual(printed_by(script), [text])

    def test_integers(self) -> None:
        for number in (0, 1, -1, MOST, LEAST, LEAST + 1, 2**62):
            datum = datum_of_word(b"n:int=%d" % number)
            self.assertEqual(datum.expression, integer(number))
            script = bind("s", b"txn { print((n + 0)) }", [datum]).text
            self.assertEqual(printed_by(script), [number])
        self.assertEqual(datum_of_word(b"n:int=-007").expression, b"(0 - 7)")


class DataWords(unittest.TestCase):
    def refused(self, word: bytes) -> str:
        with self.assertRaises(Failed) as caught:
            datum_of_word(word)
        self.assertEqual(caught.exception.status, Status.USAGE)
        return caught.exception.lines[0]

    def test_words_of_no_form(self) -> None:
        for word in (
            b"",
            b"x",
            b"=",
            b"=1",
            b"1=a",
            b"a-b=c",
            b"x:text=1",
            b"x:=1",
            b"n:int=",
            b"n:int=1.0",
            b"n:int=+1",
            b"n:int= 1",
            b"n:int=%d" % (MOST + 1),
            b"n:int=%d" % (LEAST - 1),
            b"n:int=" + b"9" * 5000,
            b"\xc3\xa9=1",
            b"x" * 65 + b"=1",
        ):
            self.assertNotIn("\n", self.refused(word))
        self.assertIn("is a word of the language", self.refused(b"print=1"))
        self.assertEqual(datum_of_word(b"x==a=b").expression, b'"=a=b"')

    def test_files(self) -> None:
        with tempfile.TemporaryDirectory() as room:
            file = os.fsencode(room) + b"/f=\xff"
            with open(file, "wb") as it:
                it.write(bytes(range(256)))
            self.assertEqual(datum_of_file(b"x=" + file).expression, quoted(bytes(range(256))))
            with open(file, "wb") as it:
                it.truncate(65_537)
            for word, status in (
                (b"x=" + file, Status.TEXT),
                (b"x=" + file + b"no", Status.UNREAD),
                (b"x=" + os.fsencode(room), Status.UNREAD),
                (b"x=", Status.USAGE),
                (b"x", Status.USAGE),
                (b"if=f", Status.USAGE),
            ):
                with self.assertRaises(Failed) as caught:
                    datum_of_file(word)
                self.assertEqual(caught.exception.status, status)

    def test_a_name_twice(self) -> None:
        words = Words("", "")
        declare(words)
        given = words.read(["--set", "a=1", "--set=b=2", "--set", "c:int=-3"])
        self.assertEqual([datum.name for datum in data_of(given)], [b"a", b"b", b"c"])
        with self.assertRaises(Failed):
            data_of(words.read(["--set", "a=1", "--set", "a:int=2"]))


SCRIPT = b"""# txn { in a comment
txn { print("txn { in a text") print(x) }
txn
  # between
{ let y = x print(y) }txn{print("\\" txn {") } txn { }
"""


class Binding(unittest.TestCase):
    def test_in_front_of_each_transaction(self) -> None:
        data = [datum_of_word(b'x=a "b"'), datum_of_word(b"n:int=-2")]
        bound = bind("s", SCRIPT, data)
        self.assertEqual(len(bound.places), 4)
        self.assertEqual(
            printed_by(bound.text), [b"txn { in a text", b'a "b"', b'a "b"', b'" txn {']
        )
        self.assertEqual(bind("s", SCRIPT, []).text, SCRIPT)
        self.assertEqual(bind("s", b"", data).text, b"")

    def test_places_are_led_back(self) -> None:
        data = [datum_of_word(b"x=1")]
        bound = bind("s", SCRIPT, data)
        old = 0
        for new in range(len(bound.text) + 1):
            place = bound.place(new)
            self.assertIn(place - old, (0, 1))
            old = place
        self.assertEqual(old, len(SCRIPT))
        for word in (b"comment", b"between", b"let y", b"print(y)", b'" txn {'):
            if SCRIPT.count(word) == 1:
                self.assertEqual(bound.place(bound.text.index(word)), SCRIPT.index(word))

    def test_refusals_are_told_of_the_text_as_given(self) -> None:
        draw = random.Random(3)
        tokens = [b"txn", b"{", b"}", b"print(1)", b"print(x)", b"$", b'"', b" ", b"if", b"#\n"]
        checked = 0
        for _ in range(400):
            text = b" ".join(draw.choice(tokens) for _ in range(draw.randrange(1, 9)))
            try:
                model.parse_script(text)
                continue
            except model.Refused as refused:
                cause, _, place = str(refused).partition(" ")
            bound = bind("s", text, [datum_of_word(b"x=1")])
            with self.assertRaises(model.Refused) as caught:
                model.parse_script(bound.text)
            told, _, where = str(caught.exception).partition(" ")
            self.assertEqual((told, bound.place(int(where))), (cause, int(place)), text)
            checked += 1
        self.assertGreater(checked, 200)

    def test_a_script_that_gets_too_large(self) -> None:
        data = [datum_of_word(b"x=" + b"a" * 40_000)]
        self.assertLess(len(bind("s", b"txn { }", data).text), 65_536)
        with self.assertRaises(Failed) as caught:
            bind("s", b"txn { } txn { }", data)
        self.assertEqual(caught.exception.status, Status.TEXT)
        self.assertIn("s: TooLarge: ", caught.exception.lines[0])
        # A text that is too large already is the program's to refuse.
        large = b"txn { }" + b" " * 65_536
        self.assertGreater(len(bind("s", large, data).text), 65_536)

    def test_time_is_linear(self) -> None:
        text = b"txn { }" * 9_000 + b'"' + b"\\x" * 1_000
        self.assertEqual(len(transactions(text)), 9_000)


class Sources(unittest.TestCase):
    def test_what_the_program_reads(self) -> None:
        data = [datum_of_word(b"x=1")]
        one = Source("a b", bind("a b", b"txn { print(x) $ }", data))
        two = Source("c\n\\", Bound(b"txn"))
        with Handed([one, two]) as handed:
            for word, source in zip(handed.words, (one, two)):
                with open(word, "rb") as it:
                    self.assertEqual(it.read(), source.text)
            place = one.text.index(b"$")
            self.assertEqual(
                handed.told(f"txforest: {handed.words[0]}: BadToken {place}"),
                "txforest: a b: BadToken 15",
            )
            self.assertEqual(
                handed.refused(f"txforest: {handed.words[1]}: Unexpected 3"),
                (1, "Unexpected 3"),
            )
            unknown = f"txforest: {handed.words[0]}: Unknown x"
            self.assertEqual(handed.told(unknown), "txforest: a b: Unknown x")
            self.assertIsNone(handed.refused("txforest: folder: TooLarge \"/a\""))
        self.assertEqual(handed.fds, [])
        self.assertEqual(spelled("a\tb\x7f\\"), "a\\x09b\\x7f\\\\")

    def test_a_text_that_is_not_there(self) -> None:
        for word, said in (
            ("/none/x", "/none/x: nothing stands there"),
            ("/", "/: Is a directory"),
        ):
            with self.assertRaises(Failed) as caught:
                read_source(word)
            self.assertEqual((caught.exception.status, caught.exception.lines), (5, (said,)))


if __name__ == "__main__":
    unittest.main()

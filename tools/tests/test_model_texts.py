"""The model's tokens, grammar, names and shapes, held against LANGUAGE and FORMATS."""

from __future__ import annotations

import unittest

from txforest import model


def refusal(text: bytes) -> str:
    """The cause of a description that is refused."""
    try:
        model.read_description(text)
    except model.Refused as refused:
        return str(refused)
    return "taken"


def script_refusal(text: bytes, before: int = 0) -> str:
    """The cause of a script that is refused."""
    try:
        model.read_script(text, before)
    except model.Refused as refused:
        return str(refused)
    return "taken"


def shape(text: bytes) -> str:
    """The shape of a description's value."""
    return model.shape_text(model.spec_shape(model.read_description(text).root))


class Tokens(unittest.TestCase):
    """FORMATS, "Tokens"."""

    def test_the_longest_token_is_taken(self) -> None:
        found = [token[:2] for token in model.lex(b"a::b:c==d=e++f+9")]
        marks = ["::", ":", "==", "=", "++", "+"]
        self.assertEqual([value for kind, value in found if kind == "mark"], marks)
        self.assertEqual(found[-2:], [("number", 9), ("end", None)])

    def test_blanks_and_comments_separate(self) -> None:
        found = [token[1:] for token in model.lex(b'a\t# b "\r\n c#d')]
        self.assertEqual(found, [("a", 0), ("c", 10), (None, 13)])

    def test_strings(self) -> None:
        token = model.lex(rb'"a\"\\\n\x00\xfF~' + b'\x80\xff"')[0]
        self.assertEqual(token, ("string", b'a"\\\n\x00\xff~\x80\xff', 0))

    def test_bad_tokens_are_named_by_their_first_byte(self) -> None:
        texts = [
            b"a 01",
            b"a 9223372036854775808",
            b'a "b',
            b'a "\n"',
            rb'a "\t"',
            rb'a "\xg0"',
            b"a $",
        ]
        for text in [*texts, b"a " + b"w" * 65]:
            with self.subTest(text=text), self.assertRaisesRegex(model.Refused, "^BadToken 2$"):
                model.lex(text)
        self.assertEqual(len(model.lex(b"9223372036854775807 0 " + b"w" * 64)), 4)

    def test_a_text_has_at_most_65536_bytes(self) -> None:
        self.assertEqual(len(model.lex(b" " * 65_536)), 1)
        with self.assertRaisesRegex(model.Refused, "^TooLarge$"):
            model.lex(b" " * 65_537)


class Grammar(unittest.TestCase):
    """LANGUAGE, the diagrams."""

    def test_each_form_of_a_description(self) -> None:
        kinds = {
            b"file": "file",
            b"dir": "dir",
            b"link": "link",
            b'("a" :: file)': "focus",
            b"<x : file, dir>": "pair",
            b"{file | x in empty}": "comp",
            b"opt(file)": "opt",
            b"pred(true)": "pred",
            b"f(1, true)": "call",
        }
        for text, kind in kinds.items():
            with self.subTest(text=text):
                self.assertEqual(model.parse_description(text).root[0], kind)

    def test_definitions_stand_before_the_root(self) -> None:
        found = model.parse_description(b"def f() = dir def g(n : int, s : opt(str)) = file f()")
        self.assertEqual([definition.name for definition in found.defs], ["f", "g"])
        params = [(word, model.shape_text(shape)) for word, shape in found.defs[1].params]
        self.assertEqual(params, [("n", "int"), ("s", "opt(str)")])

    def test_commands_are_counted_with_those_in_blocks(self) -> None:
        text = (
            b'txn { try e down if (true) { print("a") } else { each n in (empty) { abort } } up }'
        )
        self.assertEqual(model.count(model.parse_script(text)[0]), 6)

    def test_places_of_mistakes(self) -> None:
        self.assertEqual(refusal(b"(a :: file"), "Unexpected 10")
        self.assertEqual(refusal(b"pred((a + b - 1))"), "Unexpected 12")
        self.assertEqual(refusal(b"file file"), "Unexpected 5")
        self.assertEqual(refusal(b"<file : file, dir>"), "Unexpected 1")
        self.assertEqual(refusal(b"<def : file, dir>"), "Unexpected 1")
        self.assertEqual(script_refusal(b"txn { let def = 1 print(def) }"), "taken")
        self.assertEqual(script_refusal(b"txn { if (true) { } }"), "Unexpected 20")

    def test_forms_nest_64_deep(self) -> None:
        self.assertEqual(refusal(b"opt(" * 63 + b"file" + b")" * 63), "taken")
        self.assertEqual(refusal(b"opt(" * 64 + b"file" + b")" * 64), "TooNested 256")
        self.assertEqual(refusal(b"pred(" + b"not(" * 62 + b"true" + b")" * 63), "taken")
        self.assertEqual(refusal(b"pred(" + b"not(" * 63 + b"true" + b")" * 64), "TooNested 257")


class Shapes(unittest.TestCase):
    """LANGUAGE, the shapes of its tables."""

    def test_shapes_of_descriptions(self) -> None:
        shapes = {
            b"file": "str",
            b"dir": "names",
            b"link": "str",
            b'("a" :: dir)': "names",
            b"<x : file, dir>": "pair(str, names)",
            b"{file | x in empty}": "table(str)",
            b"opt(dir)": "opt(names)",
            b"pred(true)": "bool",
            b"def f() = dir f()": "bool",
        }
        for text, told in shapes.items():
            with self.subTest(text=text):
                self.assertEqual(shape(text), told)

    def test_shapes_of_expressions(self) -> None:
        shapes = {
            '("a" ++ s)': "str",
            "(1 + n)": "int",
            "(1 - n)": "int",
            '(s == "a")': "bool",
            "(n < 1)": "bool",
            "(b and true)": "bool",
            "(b or true)": "bool",
            "not(b)": "bool",
            "(s in d)": "bool",
            "(d union empty)": "names",
            "(d minus d)": "names",
            '(d only "*")': "names",
            "one(s)": "names",
            "lines(s)": "names",
            "size(s)": "int",
            "size(d)": "int",
            "int(s)": "int",
            "text(n)": "str",
            "first(p)": "str",
            "second(p)": "int",
            "keys(t)": "names",
            "present(o)": "bool",
            "if(b, s, s)": "str",
        }
        bound = "s : str, n : int, b : bool, d : names, p : pair(str, int), t : table(str)"
        bound += ", o : opt(str)"
        for text, told in shapes.items():
            with self.subTest(text=text):
                call = f"def f({bound}) = {{g({text}) | k in empty}} def g(x : {told}) = dir dir"
                self.assertEqual(refusal(call.encode()), "taken")

    def test_what_is_refused(self) -> None:
        causes = {
            b"(1 :: file)": "TypeDiffers str int",
            b"pred(x)": "Unknown x",
            b"<x : file, <x : file, dir>>": "Repeated x",
            b"<x : <x : file, dir>, dir>": "taken",
            b"pred((1 == true))": "TypeDiffers int bool",
            b"pred(first(1))": "TypeDiffers pair(str, str) int",
            b"pred((size(keys(1)) == 1))": "TypeDiffers table(str) int",
            b"pred(present(1))": "TypeDiffers opt(str) int",
            b"f()": "Unknown f",
            b"def f(n : int) = dir f()": "Unknown f",
            b"def f() = dir def f() = dir dir": "Repeated f",
            b"def f(n : int, n : int) = dir dir": "Repeated n",
            b"def f() = g() def g() = f() f()": "taken",
        }
        for text, cause in causes.items():
            with self.subTest(text=text):
                self.assertEqual(refusal(text), cause)

    def test_scripts(self) -> None:
        causes = {
            b"txn { set x = 1 }": "Unknown x",
            b'txn { let x = 1 set x = "a" }': "TypeDiffers int str",
            b"txn { let x = 1 let x = 1 }": "Repeated x",
            b"txn { if (true) { let x = 1 } else { } let x = 1 }": "taken",
            b"txn { if (1) { } else { } }": "TypeDiffers bool int",
            b"txn { each x in (1) { } }": "TypeDiffers names int",
            b"txn { to(1) }": "TypeDiffers str int",
            b"txn { validate x print(not(x)) } txn { print(x) }": "Unknown x",
            b"": "taken",
        }
        for text, cause in causes.items():
            with self.subTest(text=text):
                self.assertEqual(script_refusal(text), cause)
        self.assertEqual(script_refusal(b"txn { }", 99_999), "taken")
        self.assertEqual(script_refusal(b"txn { print(x) }", 100_000), "TooMany")

"""The model's expressions, globs and values of descriptions, held against LANGUAGE."""

from __future__ import annotations

import unittest

from txforest import model

FILES = {b"a": b"hi", b"n": b"7\n", b"self": b"a", b"list": b"a\nn\n", b"broken": b"a\nb\n"}


def store_of(files: dict[bytes, bytes]) -> model.Filestore:
    """The filestore of files of one folder."""
    nodes: model.Filestore = {
        (name,): model.File("file", text, False) for name, text in files.items()
    }
    return {(): model.Dir("dir", frozenset(files)), **nodes}


def shown(text: str, store: model.Filestore) -> str:
    """What `show` prints of a filestore."""
    description = model.read_description(text.encode())
    try:
        return "value " + model.printed(model.top_value(model.View(store.get), description))
    except model.NoValue:
        return "valid no"


def given(text: str) -> str:
    """What an expression gives, or its fault, where some names are bound."""
    parser = model.Parser(text.encode())
    e = parser.expr(1)
    parser.end()
    env: model.Env = [
        ("s", b"b"),
        ("d", frozenset([b"a", b"b.txt", b"*"])),
        ("p", model.PairValue("pair", b"x", 1)),
        ("t", {b"k": 1}),
        ("o", model.SomeValue("some", 1)),
        ("gone", None),
        ("s", b"a"),
    ]
    try:
        return model.printed(model.evaluate(env, e))
    except model.Fault as fault:
        return str(fault)


class Expressions(unittest.TestCase):
    """LANGUAGE, "Expressions"."""

    def test_operations(self) -> None:
        values = {
            '"a"': '"a"',
            "7": "7",
            "true": "true",
            "empty": "{}",
            "s": '"a"',
            '("a" ++ s)': '"aa"',
            "(1 + 2)": "3",
            "(0 - 5)": "-5",
            "(1 == 2)": "false",
            '(one("a") == one(s))': "true",
            '("a" < "b")': "true",
            '("B" < "a")': "true",
            "(2 < 1)": "false",
            "not(true)": "false",
            '(s in one("a"))': "true",
            '(one("b") union one("a"))': '{"a", "b"}',
            "(d minus one(s))": '{"*", "b.txt"}',
            '(d only "*.txt")': '{"b.txt"}',
            '(d only "?")': '{"*", "a"}',
            '(empty only "*")': "{}",
            'lines("b\\n\\na")': '{"a", "b"}',
            'size("\\x00a")': "2",
            "size(d)": "3",
            "text((0 - 12))": '"-12"',
            "first(p)": '"x"',
            "second(p)": "1",
            "keys(t)": '{"k"}',
            "present(o)": "true",
            "present(gone)": "false",
            "if(true, 1, 2)": "1",
            "if(false, 1, 2)": "2",
        }
        for text, value in values.items():
            with self.subTest(text=text):
                self.assertEqual(given(text), value)

    def test_integers_are_read_and_bounded(self) -> None:
        most, least = "9223372036854775807", "-9223372036854775808"
        values = {
            'int("-7\\n")': "-7",
            'int("007")': "7",
            'int("")': "NotNumber",
            'int("7\\n\\n")': "NotNumber",
            'int(" 7")': "NotNumber",
            'int("+7")': "NotNumber",
            f'int("{most}")': most,
            f'int("{least}")': least,
            'int("9223372036854775808")': "NotNumber",
            f"({most} + 1)": "Overflow",
            f'(int("{least}") - 1)': "Overflow",
        }
        for text, value in values.items():
            with self.subTest(text=text):
                self.assertEqual(given(text), value)

    def test_only_the_chosen_part_is_evaluated(self) -> None:
        for text in (
            '(false and (int("") == 1))',
            '(true or (int("") == 1))',
            'if(true, true, (int("") == 1))',
        ):
            with self.subTest(text=text):
                self.assertIn(given(text), ("true", "false"))
        self.assertEqual(given('(true and (int("") == 1))'), "NotNumber")

    def test_a_text_has_at_most_a_mebibyte(self) -> None:
        half = b"x" * 524_288
        self.assertEqual(len(model.joined(half, half)), 1_048_576)
        with self.assertRaisesRegex(model.Fault, "^TooLong$"):
            model.joined(half, half + b"x")

    def test_globs(self) -> None:
        for glob, text in (
            (b"", b""),
            (b"*", b""),
            (b"*", b"a/\n"),
            (b"a?c", b"a\xffc"),
            (b"*b*", b"abc"),
        ):
            self.assertTrue(model.matches(glob, text))
        for glob, text in ((b"", b"a"), (b"?", b""), (b"a", b"A"), (b"*b", b"abc")):
            self.assertFalse(model.matches(glob, text))


class Values(unittest.TestCase):
    """LANGUAGE, "A description": the table of what each form looks like."""

    ONE_OF = "def one_of(n : str, s : str) = <x : (n :: file), pred((x == s))> "

    def test_the_rows_of_the_table(self) -> None:
        rows = {
            "dir": 'value {"a", "broken", "list", "n", "self"}',
            '("a" :: file)': 'value "hi"',
            '("b" :: file)': "valid no",
            '("a" :: dir)': "valid no",
            '("a" :: link)': "valid no",
            '(".." :: opt(file))': "valid no",
            '(("se" ++ "lf") :: file)': 'value "a"',
            '<x : ("self" :: file), (x :: file)>': 'value <"a", "hi">',
            '<x : ("b" :: file), dir>': "valid no",
            '{(x :: file) | x in one("a")}': 'value ["a" = "hi"]',
            "{file | x in empty}": "value []",
            '<l : ("list" :: file), {(x :: file) | x in lines(l)}>': (
                'value <"a\\nn\\n", ["a" = "hi", "n" = "7\\n"]>'
            ),
            '<l : ("broken" :: file), {(x :: file) | x in lines(l)}>': "valid no",
            '("a" :: opt(file))': 'value some("hi")',
            '("b" :: opt(file))': "value none",
            '("a" :: opt(dir))': "valid no",
            "pred(true)": "value true",
            "pred(false)": "valid no",
            '<x : ("n" :: file), pred((int(x) == 7))>': 'value <"7\\n", true>',
            '<p : <x : ("a" :: file), ("n" :: file)>, pred((first(p) == "hi"))>': (
                'value <<"hi", "7\\n">, true>'
            ),
            self.ONE_OF + 'one_of("a", "hi")': "value true",
            self.ONE_OF + 'one_of("a", "ho")': "valid no",
            "def f() = f() f()": "valid no",
        }
        store = store_of(FILES)
        for text, told in rows.items():
            with self.subTest(text=text):
                self.assertEqual(shown(text, store), told)

    def test_links(self) -> None:
        store = store_of({b"f": b"x"})
        chain = {b"l%02d" % i: b"l%02d" % (i + 1) for i in range(40)}
        links = {
            **chain,
            b"l40": b"f",
            b"up": b"../f",
            b"loop": b"loop",
            b"through": b"f/g",
            b"root": b"/",
        }
        store[()] = model.Dir("dir", frozenset([b"f", *links]))
        for name, target in links.items():
            store[(name,)] = model.Link("link", target)
        rows = {
            '("l01" :: file)': 'value "x"',
            '("l00" :: file)': "valid no",
            '("l00" :: link)': 'value "l01"',
            '("up" :: file)': 'value "x"',
            '("loop" :: opt(link))': 'value some("loop")',
            '("loop" :: opt(file))': "valid no",
            '("through" :: file)': "valid no",
            '("root/root/f" :: file)': 'value "x"',
        }
        for text, told in rows.items():
            with self.subTest(text=text):
                self.assertEqual(shown(text, store), told)

    def test_names_and_link_texts(self) -> None:
        for name in (b"a", b".a", b"...", b"\xc3\xa9", b"x" * 255):
            self.assertTrue(model.is_name(name))
        for name in (b"", b".", b"..", b"a/b", b"a\0", b"\xff", b"x" * 256, b".forest-links"):
            self.assertFalse(model.is_name(name))
        self.assertEqual(model.link_parts(b"/"), (True, []))
        self.assertEqual(model.link_parts(b"/a/../."), (True, [b"a", b"..", b"."]))
        for text in (b"", b"a//b", b"a/", b"//", b"a/\0"):
            self.assertIsNone(model.link_parts(text))

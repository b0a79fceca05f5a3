"""Random inputs for compare.py: folders, descriptions, scripts, and what is changed of them.

The same random numbers make the same inputs.
"""

from __future__ import annotations

import os
import random
from collections.abc import Callable

from repository import model

Scope = list[tuple[str, model.Shape]]

NAMES = ["a", "b", "c", "a-x", "x.txt", "é"]
TEXTS = [
    b"",
    b"a",
    b"b",
    b"1",
    b"7\n",
    b"a\nb\n",
    b"c\nx.txt",
    b"a/b",
    b"..",
    b"b\n\na\n",
    b"9223372036854775807",
    b'\xff"\\',
]
TARGETS = ["a", "b", "../a", "/", "/b/c", "a/b", ".", "..", "gone", "c/../a", "./a-x"]


def quoted(text: str | bytes) -> str:
    """A text as the language spells it."""
    return model.quote(text if isinstance(text, bytes) else text.encode())


class Maker:
    """Random texts that are mostly well shaped."""

    def __init__(self, random_: random.Random) -> None:
        self.r = random_
        self.defs: list[tuple[str, Scope]] = []

    def words(self, scope: Scope, shape: model.Shape) -> list[str]:
        """The bound names of a shape."""
        return [word for word, found in scope if found == shape]

    def expr(self, scope: Scope, shape: model.Shape, depth: int = 0) -> str:
        """An expression of a shape."""
        r = self.r
        words = self.words(scope, shape)
        if words and r.random() < 0.4:
            return r.choice(words)
        deep = depth < 2 and r.random() < 0.5

        def part(s: model.Shape) -> str:
            return self.expr(scope, s, depth + 1)

        if deep and r.random() < 0.1:
            return f"if({part(model.BOOL)}, {part(shape)}, {part(shape)})"
        choices: list[Callable[[], str]]
        if shape == model.STR:
            choices = [lambda: quoted(r.choice([n.encode() for n in NAMES] + TEXTS))]
            if deep:
                choices += [
                    lambda: f"({part(model.STR)} ++ {part(model.STR)})",
                    lambda: f"text({part(model.INTEGER)})",
                ]
                pairs = [w for w, s in scope if s[0] == "pair" and s[1] == model.STR]
                choices += [lambda: f"first({r.choice(pairs)})"] * bool(pairs)
        elif shape == model.INTEGER:
            choices = [lambda: str(r.choice([0, 1, 2, 7, 2**63 - 1]))]
            if deep:
                choices += [
                    lambda: f"({part(model.INTEGER)} {r.choice('+-')} {part(model.INTEGER)})",
                    lambda: f"size({part(model.NAMES)})",
                    lambda: f"int({part(model.STR)})",
                ]
        elif shape == model.BOOL:
            choices = [lambda: r.choice(["true", "false"])]
            if deep:
                choices += [
                    lambda: f"not({part(model.BOOL)})",
                    lambda: f"({part(model.STR)} in {part(model.NAMES)})",
                    lambda: f"({part(model.STR)} == {part(model.STR)})",
                    lambda: f"({part(model.INTEGER)} < {part(model.INTEGER)})",
                    lambda: f"({part(model.BOOL)} {r.choice(['and', 'or'])} {part(model.BOOL)})",
                ]
                options = [w for w, s in scope if s[0] == "opt"]
                choices += [lambda: f"present({r.choice(options)})"] * bool(options)
        elif shape == model.NAMES:
            choices = [lambda: "empty", lambda: f"one({quoted(r.choice(NAMES))})"]
            if deep:
                words_of_two, globs = ["union", "minus"], ["*", "a*", "?", "*.txt", "b"]
                choices += [
                    lambda: f"({part(model.NAMES)} {r.choice(words_of_two)} {part(model.NAMES)})",
                    lambda: f"lines({part(model.STR)})",
                    lambda: f"({part(model.NAMES)} only {quoted(r.choice(globs))})",
                ]
                tables = [w for w, s in scope if s[0] == "table"]
                choices += [lambda: f"keys({r.choice(tables)})"] * bool(tables)
        else:
            return r.choice(words) if words else '"none"'
        return r.choice(choices)()

    def fresh(self, scope: Scope, letter: str) -> str:
        """A name that is not bound; now and then `def`."""
        often = 0.05 if letter in "vwxy" else 0.003
        return (
            "def"
            if self.r.random() < often and not any(word == "def" for word, _ in scope)
            else f"{letter}{len(scope)}"
        )

    def call(self, scope: Scope) -> str:
        """A call of a definition; now and then of none, or with other arguments than it takes."""
        r = self.r
        name, params = r.choice(self.defs)
        if r.random() < 0.01:
            name = "none"
        shapes = [shape for _, shape in params]
        if r.random() < 0.01:
            shapes = [*shapes, model.STR] if r.random() < 0.5 else shapes[1:]
        if shapes and r.random() < 0.01:
            shapes[r.randrange(len(shapes))] = r.choice(
                [model.STR, model.INTEGER, model.BOOL, model.NAMES]
            )
        args = [
            f"({r.choice(words)} + 1)"
            if shape == model.INTEGER and (words := self.words(scope, shape)) and r.random() < 0.7
            else self.expr(scope, shape)
            for shape in shapes
        ]
        return f"{name}({', '.join(args)})"

    def body(self, params: Scope) -> str:
        """The body of a definition: often one that calls a definition again."""
        r = self.r
        numbers = self.words(params, model.INTEGER)
        inner: Scope = [("d", model.NAMES), ("k", model.STR)]
        choices: list[Callable[[], str]] = [
            lambda: self.spec(params, 2)[0],
            lambda: f"<d : dir, {{(k :: {self.call([*params, *inner])})"
            f' | k in (d only "{r.choice(["a*", "b", "?", "*", "c"])}")}}>',
            lambda: f"opt(({quoted(r.choice(NAMES))} :: {self.call(params)}))",
            lambda: f"<x : {self.call(params)}, {self.call([*params, ('x', model.BOOL)])}>",
        ]
        if numbers:
            choices.append(
                lambda: f'{{{self.call([*params, ("k", model.STR)])}'
                f' | k in if(({r.choice(numbers)} < 2), (one("a") union one("b")), empty)}}'
            )
        if r.random() < 0.1:
            choices.append(lambda: self.call(params))
        return r.choice(choices)()

    def description(self) -> str:
        """A text with a few definitions before its root; their names may be bound names too."""
        r = self.r
        self.defs = []
        for name in r.sample(["f", "g", "tree", "p0", "c1", "d"], r.choice([0, 0, 0, 1, 1, 2, 3])):
            shapes = [
                r.choice([model.INTEGER, model.INTEGER, model.STR, model.NAMES, model.BOOL])
                for _ in range(r.choice([0, 1, 1, 2]))
            ]
            self.defs.append((name, [(f"{'nst'[i]}", shape) for i, shape in enumerate(shapes)]))
        texts = []
        for name, params in self.defs:
            told = ", ".join(
                f"{'n' if r.random() < 0.01 else word} : {model.shape_text(shape)}"
                for word, shape in params
            )
            name = r.choice(self.defs)[0] if r.random() < 0.01 else name
            texts.append(f"def {name}({told}) = {self.body(params)}")
        return "\n".join(
            [*texts, self.call([]) if self.defs and r.random() < 0.4 else self.spec([])[0]]
        )

    def spec(self, scope: Scope, depth: int = 0) -> tuple[str, model.Shape]:
        """A description and its value's shape."""
        r = self.r
        kind = (
            r.choice(
                ["file", "dir", "focus", "focus", "pair", "pair", "comp", "opt", "link", "pred"]
            )
            if depth < 5
            else r.choice(["file", "dir", "link"])
        )
        if self.defs and r.random() < 0.25:
            return self.call(scope), model.BOOL
        if depth == 0 and r.random() < 0.8:
            kind = r.choice(["focus", "pair", "pair", "comp"])
        if kind in ("file", "link"):
            return kind, model.STR
        if kind == "dir":
            return kind, model.NAMES
        if kind == "focus":
            part, shape = self.spec(scope, depth + 1)
            e = quoted(r.choice(NAMES)) if r.random() < 0.6 else self.expr(scope, model.STR)
            return f"({e} :: {part})", shape
        if kind == "pair":
            x = self.fresh(scope, "p")
            a, first = self.spec(scope, depth + 1)
            b, second = self.spec([*scope, (x, first)], depth + 1)
            return f"<{x} : {a}, {b}>", model.PairShape("pair", first, second)
        if kind == "comp":
            x = self.fresh(scope, "c")
            part, shape = self.spec([*scope, (x, model.STR)], depth + 1)
            if r.random() < 0.6:
                part, shape = f"({x} :: {part})", shape
            return f"{{{part} | {x} in {self.expr(scope, model.NAMES)}}}", model.InnerShape(
                "table", shape
            )
        if kind == "opt":
            part, shape = self.spec(scope, depth + 1)
            return f"opt({part})", model.InnerShape("opt", shape)
        return f"pred({self.expr(scope, model.BOOL)})", model.BOOL

    def act(self, scope: Scope) -> str:
        """A move or an edit."""
        r = self.r
        word = r.choice(
            [
                "into",
                "into",
                "down",
                "down",
                "next",
                "prev",
                "out",
                "up",
                "top",
                "create",
                "remove",
                "store",
                "store",
                "to",
            ]
        )
        if word == "store":
            shapes = [model.STR] * 3 + [model.NAMES, model.BOOL, model.INTEGER]
            return f"store({self.expr(scope, r.choice(shapes))})"
        return f"to({self.expr(scope, model.STR)})" if word == "to" else word

    def block(self, scope: Scope, depth: int = 0) -> str:
        """The commands of a block."""
        r, scope, found = self.r, list(scope), []
        for _ in range(r.randrange(1, 7 if depth == 0 else 3)):
            kind = r.choice(
                ["act"] * 9
                + ["try"] * 3
                + ["print"] * 3
                + ["let", "set", "fetch", "fetch", "fetch", "value", "validate", "if", "each"]
                + ["abort"] * (r.random() < 0.1)
            )
            x = self.fresh(scope, "vwxy"[depth % 4])
            shape: model.Shape = r.choice([model.STR, model.INTEGER, model.BOOL, model.NAMES])
            if kind == "act":
                found.append(self.act(scope))
            elif kind == "try":
                found.append(f"try {x} {self.act(scope)}")
                scope.append((x, model.INTEGER))
            elif kind == "print":
                shape = r.choice([s for _, s in scope] + [shape])
                found.append(f"print({self.expr(scope, shape)})")
            elif kind == "let":
                found.append(f"let {x} = {self.expr(scope, shape)}")
                scope.append((x, shape))
            elif kind == "set" and scope:
                word, shape = r.choice(scope)
                if shape in (model.STR, model.INTEGER, model.BOOL, model.NAMES):
                    found.append(f"set {word} = {self.expr(scope, shape)}")
            elif kind == "fetch":
                shape = r.choice([model.STR, model.STR, model.NAMES, model.BOOL])
                found.append(f"fetch {x} : {model.shape_text(shape)}")
                scope.append((x, shape))
            elif kind == "value":
                shapes: list[model.Shape] = [model.STR, model.NAMES]
                shapes += [model.InnerShape("opt", model.STR), model.InnerShape("table", model.STR)]
                shape = r.choice([*shapes, model.PairShape("pair", model.STR, model.STR)])
                found.append(f"value {x} : {model.shape_text(shape)}")
                scope.append((x, shape))
            elif kind == "validate":
                found.append(f"validate {x}")
                scope.append((x, model.BOOL))
            elif kind == "if" and depth < 2:
                found.append(
                    f"if ({self.expr(scope, model.BOOL)}) {{ {self.block(scope, depth + 1)} }}"
                    f" else {{ {self.block(scope, depth + 1)} }}"
                )
            elif kind == "each" and depth < 2:
                body = self.block([*scope, (x, model.STR)], depth + 1)
                found.append(f"each {x} in ({self.expr(scope, model.NAMES)}) {{ {body} }}")
            elif kind == "abort":
                found.append("abort")
        return " ".join(found)

    def script(self) -> bytes:
        """A script."""
        r, found = self.r, []
        for _ in range(r.randrange(0, 4)):
            into = (
                "into " * r.choice([2, 3, 5, 64, 65, 66]) if self.defs and r.random() < 0.3 else ""
            )
            found.append(f"txn {{ {into}{self.block([])} }}")
        return "\n".join(found).encode()

    def meeting_folder(self, top: str) -> None:
        """Makes a folder of the files at which transactions meet."""
        os.mkdir(top)
        for name in ("a", "b", "c"):
            with open(os.path.join(top, name), "wb") as it:
                it.write(self.r.choice(TEXTS))
        if self.r.random() < 0.5:
            os.mkdir(os.path.join(top, "d"))
        lines = self.r.choice(
            [b"", b"/l -> a\n", b"version 2\n/a *\n", b"version 2\n/b *\n/l -> c\n"]
        )
        if lines:
            with open(os.path.join(top, ".forest-links"), "wb") as it:
                it.write(lines)

    def meeting_script(self) -> bytes:
        """A script whose transactions meet with those of others."""
        r, found = self.r, []
        for _ in range(r.randrange(1, 5)):
            body = r.choice(MEETINGS).replace("X", r.choice("abcl")).replace("Y", r.choice("abd"))
            found.append(f"txn {{ {body} }}")
        return "\n".join(found).encode()

    def unfolding(self) -> tuple[str, Callable[[], bytes]]:
        """A description whose calls go deep, and scripts that walk down to about the last level."""
        r = self.r
        text, step = r.choice(UNFOLDING)
        text = text.replace("NEAR", str(2**63 - 1 - r.randrange(60, 68))).replace(
            "DEPTH", str(r.randrange(60, 68))
        )

        def script() -> bytes:
            walks = [
                step * r.choice([0, 1, 62, 63, 64, 65, 66]) + r.choice(AT_THE_END)
                for _ in range(r.randrange(1, 4))
            ]
            return "\n".join(f"txn {{ {walk} }}" for walk in walks).encode()

        return text, script

    def broken(self, text: bytes) -> bytes:
        """The text, now and then with a piece of it gone, doubled or changed."""
        r = self.r
        if not text or r.random() < 0.85:
            return text
        i = r.randrange(len(text))
        piece = r.choice(
            [
                b"",
                text[i : i + 1] * 2,
                bytes([r.randrange(256)]),
                b" file ",
                b"(",
                b"}",
                b"zz",
                b"1",
                b'"',
                b" def ",
                b"f()",
                b",",
            ]
        )
        return text[:i] + piece + text[i + 1 :]

    def folder(self, top: str) -> None:
        """Makes a folder with links and flags."""
        r = self.r
        os.mkdir(top)
        paths: list[tuple[bytes, ...]] = [()]

        def fill(at: str, path: tuple[bytes, ...], depth: int) -> None:
            for name in r.sample(NAMES, r.randrange(0, 5)):
                there = os.path.join(at, name)
                paths.append((*path, name.encode()))
                if depth < 3 and r.random() < 0.35:
                    os.mkdir(there)
                    fill(there, (*path, name.encode()), depth + 1)
                else:
                    with open(there, "wb") as it:
                        it.write(r.choice(TEXTS))

        fill(top, (), 0)
        lines = {}
        for _ in range(r.choice([0, 0, 1, 2, 3])):
            parent = r.choice(paths)
            path = (*parent, r.choice(NAMES).encode())
            if path not in paths and (
                not parent or os.path.isdir(os.path.join(top, *(p.decode() for p in parent)))
            ):
                lines[path] = b" -> " + model.spelled(r.choice(TARGETS).encode())
        flags = [
            p
            for p in paths
            if os.path.isfile(os.path.join(top, *(n.decode() for n in p))) and r.random() < 0.2
        ]
        if r.random() < 0.02:
            flags.append(r.choice(paths))
        lines |= {path: b" *" for path in flags if r.random() < 0.8}
        table = b"".join(
            model.spelled(model.path_text(p)) + mark + b"\n" for p, mark in sorted(lines.items())
        )
        if any(mark == b" *" for mark in lines.values()) != (r.random() < 0.02):
            table = model.VERSION2 + table
        if table and r.random() < 0.1:
            table = self.broken(table[:-1] if r.random() < 0.3 else table + table)
        if table or r.random() < 0.1:
            with open(os.path.join(top, ".forest-links"), "wb") as it:
                it.write(table)


# A description of the files and links of a folder, and transactions that meet there. X and Y are
# names.
MEETING = '<d : dir, {(n :: <f : file, opt(file)>) | n in (d union one("new"))}>'
MEETINGS = [
    'into next to("X") down into fetch v : str store((v ++ "1")) print(v)',
    'into next to("X") down into fetch v : str out up out to("Y") down into store((v ++ "2"))',
    'into fetch d : names store((d union one("X"))) print(d)',
    'into fetch d : names store((d minus one("Y")))',
    'into next to("X") down try e remove print(e)',
    'into next to("X") down into fetch f : bool store(not(f)) print(f)',
    'into next to("X") down into store(true) fetch v : str print(v)',
    'into next to("new") down create top into next to("Y") down value v : pair(str, opt(str))'
    " print(v)",
    "validate v print(v) into next fetch all : names"
    " each n in (all) { to(n) down into try e store(n) up try o out up out }",
    "into next into down try a into try b next fetch there : bool print(there) abort",
]

# A look at all of it.
MEETING_LOOK = (
    b"txn { into fetch d : names print(d) next fetch all : names "
    b"each n in (all)"
    b" { to(n) down into fetch v : str print(v) fetch f : bool print(f) out up out } }\n"
)

# Descriptions whose definitions call each other, with the moves from one call into the next: 64
# calls lead to the last level. From NEAR on an argument faults around that level, and from DEPTH on
# there is nothing more.
UNFOLDING = [
    ("def f() = g() def g() = f() f()", "into "),
    (
        "def f(n : int) = g((n + 1)) def g(n : int) = h((n + 1)) def h(n : int) = f((n + 1))"
        " f(NEAR)",
        "into ",
    ),
    ("def f(n : int) = opt(g((n + 1))) def g(n : int) = opt(f((n + 1))) f(NEAR)", "into into "),
    (
        "def f(n : int) = <x : dir, g((n + 1))>"
        " def g(n : int) = <x : pred((n < DEPTH)), f((n + 1))> f(0)",
        "into into next ",
    ),
    (
        'def even(n : int) = {odd((n + 1)) | k in if((n < DEPTH), one("a"), empty)} '
        'def odd(n : int) = {even((n + 1)) | k in if((n < DEPTH), one("a"), empty)} even(0)',
        "into into ",
    ),
]
AT_THE_END = [
    "validate v print(v)",
    "validate v print(v) try e into print(e) validate w print(w)",
    "into",
    "into into into",
    "value v : bool print(v)",
    "fetch b : bool print(b)",
    "try e into print(e) try o out print(o) validate v print(v) top validate w print(w)",
]

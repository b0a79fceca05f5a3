"""The model's moves, questions, edits and transactions, held against LANGUAGE."""

from __future__ import annotations

import unittest

from txforest import model

Nodes = dict[bytes, "bytes | None"]

SPEC = (
    '<s : ("services" :: file),'
    ' <t : {(n :: <p : ("port" :: file), ("replicas" :: file)>) | n in lines(s)},'
    ' <o : ("extra" :: opt(dir)), <l : ("current" :: link), ("logs" :: dir)>>>>'
)
NODES: Nodes = {
    b"services": b"web\napi\n",
    b"web/port": b"80\n",
    b"web/replicas": b"3\n",
    b"api/port": b"81\n",
    b"api/replicas": b"2\n",
    b"logs/old": b"x",
}


def store_of(files: Nodes, links: dict[bytes, bytes]) -> model.Filestore:
    """The filestore of files, and of links, by their paths."""
    store: model.Filestore = {(): model.Dir("dir", frozenset())}
    leaves: model.Filestore = {
        tuple(path.split(b"/")): model.File("file", text or b"", False)
        for path, text in files.items()
    }
    leaves |= {tuple(path.split(b"/")): model.Link("link", text) for path, text in links.items()}
    for path, node in leaves.items():
        for i, name in enumerate(path):
            above = store.setdefault(path[:i], model.Dir("dir", frozenset()))
            assert isinstance(above, model.Dir)
            store[path[:i]] = model.Dir("dir", above.names | {name})
        store[path] = node
    return store


class Base(unittest.TestCase):
    """Runs transactions over the folder above."""

    def setUp(self) -> None:
        self.root = model.read_description(SPEC.encode())
        self.store = store_of(NODES, {b"current": b"web"})

    def ran(self, commands: str) -> model.Ran:
        """What one transaction comes to."""
        return model.run_txn(
            self.root, model.read_script(f"txn {{ {commands} }}".encode())[0], self.store.get
        )

    def told(self, commands: str) -> list[str]:
        """The answers of a transaction, and its end."""
        ran = self.ran(commands)
        return [*map(model.printed, ran.outputs), ran.end]

    def left(self, commands: str) -> model.Filestore:
        """The filestore that a transaction leaves, which has to be done."""
        ran = self.ran(commands)
        self.assertEqual(ran.end, "done")
        return model.over(self.store, ran.changes)


class Moves(Base):
    """LANGUAGE, "Moves" and "Questions"."""

    def test_the_walk_of_the_language_page(self) -> None:
        found = self.told(
            "validate whole print(whole) into fetch name : str print(name)"
            " next into fetch all : names print(all) into fetch least : str print(least)"
            " next down value web : pair(str, str) print(web) up try end next print(end)"
            ' prev out to("web") top'
        )
        self.assertEqual(found[:3], ["true", '"services"', '{"api", "web"}'])
        self.assertEqual(found[3:], ['"api"', '<"80\\n", "3\\n">', "2", "done"])

    def test_refusals_of_moves(self) -> None:
        ends = {
            "next": "0 1 NoStep",
            "prev": "0 1 NoStep",
            "out": "0 1 NoStep",
            "up": "0 1 NoStep",
            "down": "0 1 NoStep",
            'to("a")': "0 1 NoStep",
            "into down into": "2 1 NoStep",
            'into next into to("db")': "3 2 NoElement",
            "into next into into next next": "5 2 NoElement",
            "into next into into prev": "4 2 NoElement",
            'into next into to(text(int("x")))': "3 10 Expr NotNumber",
            "into next next into down into": "2 1 NoStep",
            "into next into next into down into": "6 4 Lacks",
            'into down store("") top into next into into': "7 2 NoElement",
            'into next into to("web") top into down store("api\\n") top': "done",
            "into down remove top into next": "5 4 Lacks",
        }
        for commands, end in ends.items():
            with self.subTest(commands=commands):
                self.assertEqual(
                    self.told(commands)[-1], end if end == "done" else f"stopped {end}"
                )

    def test_an_address_loses_its_place(self) -> None:
        self.root = model.read_description(b"<d : dir, {(n :: file) | n in d}>")
        found = self.told(
            'into next to("services") down remove try e create print(e) fetch x : str'
        )
        self.assertEqual(found, ["3", "stopped 7 3 NoPlace"])
        found = self.told('into next to("services") down remove up out fetch x : names print(x)')
        self.assertEqual(found, ['{"api", "current", "logs", "web"}', "done"])

    def test_calls_are_walked_into(self) -> None:
        self.root = model.read_description(b"def f() = f() f()")
        self.assertEqual(self.told("into " * 64 + "validate v print(v)"), ["false", "done"])
        self.assertEqual(self.told("into " * 65), ["stopped 64 13 TooUnfolded"])
        self.assertEqual(self.told("value v : bool"), ["stopped 0 4 Lacks"])
        self.assertEqual(self.told("fetch v : bool"), ["stopped 0 5 WrongForm"])

    def test_fetches(self) -> None:
        rows = {
            "into fetch x : str": '"services"',
            "into down fetch x : str": '"web\\napi\\n"',
            "into down fetch x : bool": "false",
            "into next into fetch x : names": '{"api", "web"}',
            "into next into next into down fetch x : bool": "false",
            "into next into next into next into down fetch x : str": '"web"',
            "into next into next into next into next down fetch x : names": '{"old"}',
        }
        self.assertEqual(self.told("fetch x : str")[-1], "stopped 0 5 WrongForm")
        self.assertEqual(self.told("into fetch x : bool")[-1], "stopped 1 5 WrongForm")
        for commands, value in rows.items():
            with self.subTest(commands=commands):
                self.assertEqual(self.told(commands + " print(x)"), [value, "done"])


class Edits(Base):
    """LANGUAGE, "Edits"."""

    def at(self, spec: str) -> None:
        """Takes another description."""
        self.root = model.read_description(spec.encode())

    def test_a_store_makes_what_is_missing(self) -> None:
        self.at('("new/deep/file" :: file)')
        left = self.left('down store("x")')
        self.assertEqual(left[b"new", b"deep", b"file"], ("file", b"x", False))
        self.assertEqual(left[b"new",], ("dir", frozenset([b"deep"])))
        self.assertIn(b"new", left[()][1])

    def test_a_file_keeps_its_flag_or_its_bytes(self) -> None:
        self.at('("web/port" :: file)')
        self.assertEqual(self.left("down store(true)")[b"web", b"port"], ("file", b"80\n", True))
        left = self.left('down store(true) store("x")')
        self.assertEqual(left[b"web", b"port"], ("file", b"x", True))
        self.at('("gone" :: file)')
        self.assertEqual(self.left("down store(true)")[b"gone",], ("file", b"", True))

    def test_a_set_stored_at_a_directory(self) -> None:
        self.at("dir")
        left = self.left('store((one("web") union one("new")))')
        self.assertEqual(left[()], ("dir", frozenset([b"web", b"new"])))
        self.assertEqual(left[b"new",], ("file", b"", False))
        self.assertEqual(left[b"web", b"port"], ("file", b"80\n", False))
        self.assertNotIn((b"logs", b"old"), left)

    def test_links_are_followed_by_files_and_not_by_links(self) -> None:
        self.at('("current/port" :: file)')
        self.assertEqual(self.left('down store("1")')[b"web", b"port"], ("file", b"1", False))
        self.at('("current" :: link)')
        self.assertEqual(self.left('down store("api")')[b"current",], ("link", b"api"))
        self.at('("current" :: opt(file))')
        left = self.left("down remove")
        self.assertNotIn((b"current",), left)
        self.assertIn((b"web", b"port"), left)

    def test_create_and_remove(self) -> None:
        self.at('("a/b" :: opt(<x : dir, file>))')
        self.assertEqual(self.left("down create")[b"a", b"b"], ("dir", frozenset()))
        self.at('("web" :: dir)')
        left = self.left("down remove")
        self.assertFalse([path for path in left if path[:1] == (b"web",)])

    def test_refusals_of_edits(self) -> None:
        deep = "/".join(["d"] * 64)
        rows = {
            ('("web" :: file)', 'down store("x")'): '6 Blocked "/web"',
            ('("web" :: dir)', 'down store("x")'): "5 WrongForm",
            ('("services/x" :: file)', 'down store("x")'): '6 Blocked "/services"',
            ('("current" :: link)', 'down store("a//b")'): "8 BadName",
            ('("current" :: link)', f'down store("{deep}/d")'): "7 TooDeep",
            ('("logs" :: dir)', 'down store(one(".."))'): "8 BadName",
            (f'("{deep}" :: dir)', 'down store(one("a"))'): "7 TooDeep",
            ('("web" :: file)', "down create"): "12 Exists",
            ('("x" :: link)', "down create"): "9 NoDefault",
            ('("x" :: file)', "down remove"): "11 Absent",
            ("dir", "remove"): '6 Blocked "/"',
            ('("a" :: file)', "store(1)"): "5 WrongForm",
        }
        for (spec, commands), refusal in rows.items():
            with self.subTest(spec=spec, commands=commands):
                self.at(spec)
                number = 1 if commands.startswith("down") else 0
                self.assertEqual(self.told(commands), [f"stopped {number} {refusal}"])


class Commands(Base):
    """LANGUAGE, "Names, choices and loops"."""

    def test_what_a_block_binds_ends_with_it_and_what_it_set_stays(self) -> None:
        found = self.told(
            'let total = 0 let many = "" each n in ((one("b") union one("a"))) { let k = 2'
            ' set total = (total + k) if ((n == "b")) { set many = n } else { } }'
            " print(total) print(many)"
        )
        self.assertEqual(found, ["4", '"b"', "done"])

    def test_try_binds_the_number_of_the_refusal(self) -> None:
        self.assertEqual(self.told("try a next print(a) try b into print(b)"), ["1", "0", "done"])

    def test_a_stopped_or_aborted_transaction_keeps_its_answers_alone(self) -> None:
        ran = self.ran('into down store("x") print("kept") abort')
        self.assertEqual((ran.outputs, ran.end, ran.changes), ([b"kept"], "aborted", {}))
        ran = self.ran('into down store("x") print(int("x"))')
        self.assertEqual(
            (ran.outputs, ran.end, ran.changes), ([], "stopped 3 10 Expr NotNumber", {})
        )

    def test_commands_are_numbered_in_the_order_of_the_text(self) -> None:
        self.assertEqual(self.told("if (true) { up } else { top }"), ["stopped 1 1 NoStep"])
        self.assertEqual(self.told("if (false) { top top } else { up }"), ["stopped 3 1 NoStep"])
        self.assertEqual(self.told('each n in (one("a")) { top } up'), ["stopped 2 1 NoStep"])

    def test_a_transaction_sees_its_own_stores(self) -> None:
        found = self.told(
            'into down store("api\\ndb\\n") up next into fetch all : names print(all)'
        )
        self.assertEqual(found, ['{"api", "db"}', "done"])

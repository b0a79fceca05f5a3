"""The live tree without the program: locks, places, surveys, views, differences, steps, words."""

from __future__ import annotations

import errno
import fcntl
import os
import stat
import subprocess
import sys
import time
import unittest
from collections.abc import Callable
from unittest import mock

from txforest import calls, exchange, intent, links, lock, terminal
from txforest.attempt import without_question
from txforest.calls import DIR
from txforest.differences import Change, InTheWay, differences
from txforest.only import Only
from txforest.place import Tree, clear, new_place
from txforest.room import room_of
from txforest.statuses import Failed, Status
from txforest.survey import Changed, Survey, changed, settled_survey, survey
from txforest.view import read_table, table_text, view_of

from .breaking import Watched, child, using
from .trees import Inbox, copy, job, mop, new_tree, picture, read, strays, work_folder, write

PACKAGE = os.path.dirname(os.path.dirname(os.path.abspath(__file__)))


class InFolder(unittest.TestCase):
    """A test with a folder of its own, `top`, and a tree in it, `tree`."""

    def setUp(self) -> None:
        folder = work_folder()
        self.top = folder.__enter__()
        self.addCleanup(folder.__exit__, None, None, None)
        self.tree = new_tree(f"{self.top}/t")

    def found(self, only: Only | None = None) -> Survey:
        """The survey of the tree."""
        with Tree(self.tree) as tree:
            return survey(tree.root, only=only)

    def assert_fails(self, status: int, work: Callable[[], object], word: str = "") -> None:
        """Work has to end with a status, and to tell a word."""
        with self.assertRaises(Failed) as caught:
            work()
        self.assertEqual(caught.exception.status, status)
        self.assertIn(word, "\n".join(caught.exception.lines))


class Locks(InFolder):
    """The file TREE.lock."""

    def test_who_holds_the_lock_keeps_others_out(self) -> None:
        held = lock.lock(self.tree)
        self.assert_fails(Status.LOCKED, lambda: self.in_child(), "another job")
        os.close(held)
        self.in_child()

    def in_child(self) -> None:
        """Takes the lock in a process that inherits nothing."""
        code = "import sys; sys.path.insert(0, sys.argv[1]); from txforest.lock import lock\n"
        code += "from txforest.statuses import Failed\n"
        code += "try:\n    lock(sys.argv[2], 0.05)\nexcept Failed as failed:\n"
        code += "    sys.exit(failed.status)"
        words = [sys.executable, "-IS", "-c", code, PACKAGE, self.tree]
        status = subprocess.run(words, stderr=subprocess.DEVNULL, close_fds=True).returncode
        if status:
            raise Failed(status, "another job" if status == Status.LOCKED else "")

    def test_a_lock_that_was_handed_down_counts_as_held(self) -> None:
        fd = os.open(f"{self.tree}.lock", os.O_RDWR | os.O_CREAT)
        fcntl.flock(fd, fcntl.LOCK_EX)
        self.assertEqual(lock.lock(self.tree, 0), fd)
        fcntl.flock(fd, fcntl.LOCK_SH)
        self.assert_fails(Status.LOCKED, lambda: lock.lock(self.tree, 0), "shared")
        os.close(fd)

    def test_planted_locks_are_refused_and_not_followed(self) -> None:
        name, victim = f"{self.tree}.lock", f"{self.top}/victim"
        plants: list[Callable[[], None]] = [
            lambda: os.symlink(victim, name),
            lambda: os.mkfifo(name),
            lambda: os.mkdir(name),
        ]
        for plant in plants:
            plant()
            self.assert_fails(Status.USAGE, lambda: lock.lock(self.tree, 0), "lock")
            clear(os.open(self.top, DIR), b"t.lock")
        self.assertFalse(os.path.lexists(victim))


class Places(InFolder):
    """Places that others planted, and what is left of one's own."""

    def plant(self, text: str | None, mode: int = 0o700, name: str = "a" * 12) -> str:
        """A place beside the tree with an intent."""
        path = f"{self.top}/.t.txforest-{name}"
        os.mkdir(path, mode)
        os.chmod(path, mode)
        if text is not None:
            write(f"{path}/intent", text)
        return path

    def test_a_planted_intent_does_nothing(self) -> None:
        ino = os.lstat(self.tree).st_ino
        write(f"{self.top}/victim", "safe")
        before = picture(self.tree)
        head, good = "txforest intent 1 aaaaaaaaaaaa tree", "rmdir c - - -\nend 1\n"
        for text, mode in (
            (f"{head} {ino} umask 22\nremove ../victim - 100644:1:1:1:1:1 -\nend 1\n", 0o700),
            (f"{head} {ino} umask 22\nremove x%2F..%2Fvictim - - -\nend 1\n", 0o700),
            (f"{head} {ino} umask 22\nstore a/z ../../victim - -\nend 1\n", 0o700),
            (f"{head} {ino} umask 22\nstore a/z n7 - -\nend 1\n", 0o700),
            (f"{head} {ino + 1} umask 22\n{good}", 0o700),
            (f"{head.replace('a' * 12, 'b' * 12)} {ino} umask 22\n{good}", 0o700),
            (f"{head} {ino} umask 22\nrmdir c - - -\n", 0o700),
            (f"{head} {ino} umask 22\n{good}", 0o755),
            (f"{head} {ino} umask 22\nmode c - - x\nend 1\n", 0o700),
            ("rubbish", 0o700),
            ("", 0o700),
        ):
            path = self.plant(text, mode)
            settled = mop(self.tree)
            self.assertEqual((picture(self.tree), read(f"{self.top}/victim")), (before, "safe"))
            self.assertTrue(settled.told, text)
            self.assertTrue(os.path.isdir(path))
            os.unlink(f"{path}/intent")
            os.rmdir(path)

    def test_a_planted_thing_that_is_no_place_stops_nobody(self) -> None:
        name, before = f"{self.top}/.t.txforest-{'b' * 12}", picture(self.tree)
        kinds: list[Callable[[str], None]] = [
            os.mkfifo,
            lambda it: os.symlink("/", it),
            lambda it: write(it, ""),
        ]
        for plant in kinds:
            plant(name)
            mop(self.tree)
            self.assertEqual(picture(self.tree), before)
            os.unlink(name)
        kinds = [os.mkfifo, lambda it: os.symlink("/dev/zero", it), os.mkdir]
        for make in kinds:
            path = self.plant(None)
            make(f"{path}/intent")
            self.assertTrue(mop(self.tree).told)
            clear(os.open(self.top, DIR), os.path.basename(path).encode())
        self.assertEqual(picture(self.tree), before)

    def test_what_a_killed_job_left_is_cleared_with_all_in_it(self) -> None:
        path = self.plant(None)
        os.makedirs(f"{path}/view/deep")
        write(f"{path}/view/deep/x", "x")
        os.chmod(f"{path}/view", 0o500)
        self.assertEqual(mop(self.tree).count, 1)
        self.assertEqual(strays(self.tree), [])

    def test_a_place_in_use_is_left_alone(self) -> None:
        with Tree(self.tree) as tree:
            place = new_place(tree.home, tree.front)
            self.assertEqual(mop(self.tree).count, 0)
            place.close()
        self.assertEqual(mop(self.tree).count, 1)

    def test_an_unsure_operation_does_not_run(self) -> None:
        for line in (b"store a - - -", b"remove a n0 - -", b"link / - - x", b"mode a - 1:2 755"):
            with self.assertRaises(ValueError):
                intent.read_line(0, line)
        marked = b"remove a - 100644:1:2:-5:0:0 -"
        self.assertEqual(intent.read_line(0, marked).expect, b"100644:1:2:-5:0:0")


class Surveys(InFolder):
    """What is taken, and what is left out."""

    def test_what_is_left_out_has_its_reason(self) -> None:
        write(f"{self.tree}/big/large", "x" * ((1 << 20) + 1))
        os.mkfifo(f"{self.tree}/fifo")
        write(f"{self.tree}/a/.forest-links", "")
        os.symlink("/t/" + "n/" * 70, f"{self.tree}/long")
        found = self.found()
        why = {it.path: it.why for it in found.left}
        self.assertEqual(why["big/large"], "a file above 1 MiB")
        self.assertEqual(why["fifo"], "a FIFO")
        self.assertEqual(why["odd\udcffname"], "its name is no UTF-8")
        self.assertIn("table", why["a/.forest-links"])
        self.assertIn("no text of a link", why["long"])
        self.assertEqual(len(why), 5)
        self.assertEqual(found.holds, {"", "big", "a"})
        self.assertFalse(found.plain)

    def test_links_that_would_lead_elsewhere_are_left_out(self) -> None:
        os.symlink("../../a/b/x", f"{self.tree}/links/out")
        os.symlink(f"{self.tree}/a/f0", f"{self.tree}/links/abs")
        found = self.found()
        self.assertEqual([it.path for it in found.left if "leads out" in it.why], ["links/out"])
        self.assertEqual(found.links["links/abs"], b"/a/f0")
        self.assertEqual(found.texts["links/one"], b"../a/f0")

    def test_a_second_look_sees_each_kind_of_change(self) -> None:
        def chmod() -> None:
            os.chmod(f"{self.tree}/run", 0o600)

        def in_place() -> None:
            write(f"{self.tree}/run", "#!/bin/XX\n")

        def touched() -> None:
            os.utime(f"{self.tree}/c")

        for name, work in (
            ("run", chmod),
            ("run", in_place),
            ("new", lambda: write(f"{self.tree}/new", "")),
            ("gone", lambda: os.unlink(f"{self.tree}/gone/one")),
            ("c", touched),
        ):
            with Tree(self.tree) as tree:
                found = settled_survey(tree.root, tree.home)
                self.assertIsNone(changed(tree.root, found))
                work()
                where = changed(tree.root, found)
            self.assertIsNotNone(where)
            self.assertTrue(str(where).startswith(name), where)

    def test_a_change_as_late_as_the_survey_makes_another_survey(self) -> None:
        time.sleep(0.03)
        write(f"{self.tree}/run", "young")
        with Tree(self.tree) as tree:
            self.assertTrue(survey(tree.root).young)
            self.assertFalse(settled_survey(tree.root, tree.home).young)

    def test_a_tree_above_the_limits_is_refused_with_a_hint(self) -> None:
        for number in range(65):
            os.truncate(os.open(f"{self.tree}/big/{number}", os.O_CREAT | os.O_WRONLY), 1 << 20)
        self.assert_fails(Status.FOLDER, self.found, "--only")
        self.assertIn("a/f0", self.found(Only(["a"])).taken)

    def test_a_directory_exchanged_for_a_link_is_not_followed(self) -> None:
        os.mkdir(f"{self.top}/elsewhere")
        os.rename(f"{self.tree}/c", f"{self.top}/moved")
        os.symlink(f"{self.top}/elsewhere", f"{self.tree}/c")
        with Tree(self.tree) as tree:
            with self.assertRaises(OSError):
                calls.PLAIN.down(tree.root, [b"c"])


class Narrowed(InFolder):
    """The patterns of --only."""

    def taken(self, *patterns: str) -> list[str]:
        """The files and links that patterns take."""
        found = self.found(Only(list(patterns)))
        return sorted(p for p, it in found.taken.items() if not stat.S_ISDIR(it.st_mode))

    def test_patterns_match_names_and_directories(self) -> None:
        self.assertEqual(self.taken("gone"), ["gone/deep/two", "gone/one"])
        self.assertEqual(self.taken("gone/*"), ["gone/deep/two", "gone/one"])
        self.assertEqual(self.taken("**/two"), ["gone/deep/two", "links/two"])
        self.assertEqual(self.taken("a/f[01]", "r?n"), ["a/f0", "a/f1", "run"])
        self.assertEqual(self.taken("nothing"), [])
        self.assertEqual(self.taken("**"), self.taken("*"))

    def test_what_was_not_asked_for_is_no_change_and_not_removed(self) -> None:
        only = Only(["a/f0"])
        found = self.found(only)
        self.assertEqual(found.holds, {"", "a"})
        write(f"{self.tree}/keep", "another")
        write(f"{self.tree}/a/added", "")
        with Tree(self.tree) as tree:
            self.assertEqual(changed(tree.root, found, only=only), "a")

    def test_patterns_of_no_form_are_refused(self) -> None:
        for pattern in ("", "/a", "a//b", "../x", "a/./b"):
            self.assert_fails(Status.USAGE, lambda: Only([pattern]), "--only")


class Calls(unittest.TestCase):
    """How the C library is reached."""

    def test_without_the_core_of_ctypes_all_of_it_serves(self) -> None:
        with mock.patch("txforest.calls.core_of_ctypes", side_effect=AttributeError):
            getpid = calls.function_of("getpid")
        self.assertEqual((getpid(), calls.function_of("getpid")()), (os.getpid(), os.getpid()))

    def test_errors_have_their_numbers(self) -> None:
        at = os.open("/", os.O_RDONLY)
        self.addCleanup(os.close, at)
        with self.assertRaises(FileNotFoundError):
            calls.PLAIN.rename2(b"nothing here", at, b"nor here", at, calls.NOREPLACE)


class Results(InFolder):
    """The view, and what an OUT changes."""

    def changes(self, work: Callable[[str], None], table: bool = False) -> list[str]:
        """The changes that work on a copy of the view makes, a line each."""
        with Tree(self.tree) as tree:
            found = survey(tree.root)
            room = room_of(tree, found)
            view = view_of(tree, found, room.fd)
            out = copy(view.path, f"{self.top}/out")
            work(out)
            fd = os.open(out, DIR)
            try:
                made = differences(view, fd, found)
            finally:
                os.close(fd)
                clear(os.open(self.top, DIR), b"out")
                view.close()
                room.clear([])
                room.close()
        self.assertEqual([it for it in os.listdir("/dev/shm") if self.is_room(it)], [])
        return [f"{it.kind} {it.path}" + (f" {it.flag}" if it.flag else "") for it in made]

    def is_room(self, name: str) -> bool:
        """Whether a name in memory is that of a room of the tree."""
        found = os.lstat(self.tree)
        return name.startswith(f"txforest-{found.st_dev:x}-{found.st_ino:x}-")

    def test_nothing_changed_is_no_change(self) -> None:
        os.chmod(f"{self.tree}/run", 0o755)
        self.assertEqual(self.changes(lambda out: None), [])

    def test_changes_come_in_the_order_of_the_commit(self) -> None:
        def work(out: str) -> None:
            write(f"{out}/a/f0", "another")
            write(f"{out}/a/f1", "o" * len(read(f"{out}/a/f1")))
            os.unlink(f"{out}/turns/inner")
            os.rmdir(f"{out}/turns")
            write(f"{out}/turns", "a file")
            os.unlink(f"{out}/file")
            os.mkdir(f"{out}/file")
            write(f"{out}/file/in", "")
            os.unlink(f"{out}/gone/one")
            with open(f"{out}/.forest-links", "rb") as it:
                lines = it.read().replace(b"nowhere", b"here").split(b"\n")
            lines = [b"version 2", *lines[:-1]]
            lines = [b"version 2", *sorted([*lines[1:], b"/run *"])]
            with open(f"{out}/.forest-links", "wb") as it:
                it.write(b"\n".join([*lines, b""]))

        write(f"{self.tree}/a/f1", "some")
        self.assertEqual(
            self.changes(work),
            [
                "remove turns/inner",
                "rmdir turns",
                "mkdir file",
                "store file/in",
                "store turns",
                "store a/f0",
                "store a/f1",
                "link links/two",
                "mode run True",
                "remove gone/one",
            ],
        )

    def test_a_script_in_the_way_of_what_is_left_out_is_refused(self) -> None:
        os.mkfifo(f"{self.tree}/c/fifo")

        def file_for_folder(out: str) -> None:
            os.rmdir(f"{out}/c")
            write(f"{out}/c", "")

        works: list[Callable[[str], None]] = [
            lambda out: write(f"{out}/c/fifo", "made"),
            lambda out: os.rmdir(f"{out}/c"),
            file_for_folder,
        ]
        for work in works:
            with self.assertRaises(InTheWay):
                self.changes(work)
            clear(os.open(self.top, DIR), b"out")

    def test_a_view_that_changes_while_it_is_made_begins_again(self) -> None:
        with Tree(self.tree) as tree:
            found = survey(tree.root)
            room = room_of(tree, found)
            write(f"{self.tree}/run", "changed")
            with self.assertRaises(Changed):
                view_of(tree, found, room.fd)
            room.clear([])
            room.close()

    def test_a_table_is_read_as_it_is_written(self) -> None:
        wanted = ({"a b": b"../\xc3\xa9 %", "a-b": b"/"}, {"a/b", "z"})
        os.mkdir(f"{self.top}/f")
        with open(f"{self.top}/f/.forest-links", "wb") as it:
            it.write(table_text(*wanted))
        fd = os.open(f"{self.top}/f", DIR)
        self.assertEqual(read_table(fd), wanted)
        write(f"{self.top}/f/.forest-links", "/a => b\n")
        self.assert_fails(Status.SYSTEM, lambda: read_table(fd), "no table")
        os.close(fd)

    def test_texts_of_links_lead_to_the_same_place(self) -> None:
        self.assertEqual(links.link_text(b"/top//t/a", b"/top/t"), b"/a")
        self.assertEqual(links.real_text((b"x", b"y"), b"/a/b"), b"../a/b")
        self.assertEqual(links.real_text((b"x",), b"/"), b".")


class Commits(InFolder):
    """What a commit touches, and what it keeps."""

    def marks(self) -> dict[str, tuple[int, ...]]:
        """Inode, mode and time of each entry."""
        found: dict[str, tuple[int, ...]] = {}
        for above, folders, files in os.walk(self.tree):
            for name in folders + files:
                it = os.lstat(os.path.join(above, name))
                path = os.path.relpath(os.path.join(above, name), self.tree)
                found[path] = (it.st_ino, it.st_mode, it.st_mtime_ns, it.st_nlink)
        return found

    def test_only_what_changes_is_touched(self) -> None:
        os.link(f"{self.tree}/a/f1", f"{self.tree}/hard")
        before = self.marks()
        self.assertEqual(job(self.tree, [Change("store", "a/f0", b"ours")]), [])
        after = self.marks()
        self.assertEqual({p for p in after if after[p] != before[p]}, {"a", "a/f0"})

    def test_set_id_goes_where_content_changed(self) -> None:
        os.chmod(f"{self.tree}/a/f0", 0o4755)
        os.chmod(f"{self.tree}/a/f1", 0o2755)
        job(self.tree, [Change("store", "a/f0", b"ours")])
        self.assertEqual(stat.S_IMODE(os.stat(f"{self.tree}/a/f0").st_mode), 0o755)
        self.assertEqual(stat.S_IMODE(os.stat(f"{self.tree}/a/f1").st_mode), 0o2755)

    def test_a_hard_link_is_parted_and_told(self) -> None:
        os.link(f"{self.tree}/a/f1", f"{self.tree}/hard")
        told: list[str] = []
        job(self.tree, [Change("store", "hard", b"parted")], told=told)
        self.assertIn("one of 2 hard links", told[0])
        self.assertNotEqual(read(f"{self.tree}/a/f1"), "parted")

    def test_a_file_that_somebody_writes_is_not_replaced(self) -> None:
        with open(f"{self.tree}/a/f2", "a", encoding="utf-8"):
            with self.assertRaises(Changed):
                job(self.tree, [Change("store", "a/f2", b"ours")])
        opened = []

        def look() -> None:
            opened.append(open(f"{self.tree}/a/f2", "a", encoding="utf-8"))

        lines = job(self.tree, [Change("store", "a/f2", b"ours")], look)
        opened[0].write("late words")
        opened[0].close()
        self.assertIn("open to write", lines[0])
        self.assertIn("late words", read(f"{self.tree}/a/f2.txforest-old"))

    def test_a_change_in_between_is_not_written_over(self) -> None:
        def look() -> None:
            write(f"{self.tree}/.his", "HIS")
            os.rename(f"{self.tree}/.his", f"{self.tree}/a/f0")

        lines = job(self.tree, [Change("store", "a/f0", b"ours")], look)
        self.assertIn("a/f0", lines[0])
        texts = (read(f"{self.tree}/a/f0"), read(f"{self.tree}/a/f0.txforest-new"))
        self.assertEqual(texts, ("HIS", "ours"))

    def test_a_directory_in_place_of_a_file_is_kept_whole(self) -> None:
        for kind in ("store", "remove"):

            def look() -> None:
                os.rename(f"{self.tree}/a/f0", f"{self.top}/{kind}")
                os.mkdir(f"{self.tree}/a/f0")
                write(f"{self.tree}/a/f0/inside", "HIS")

            self.assertTrue(job(self.tree, [Change(kind, "a/f0", b"ours")], look))
            self.assertEqual(read(f"{self.tree}/a/f0/inside"), "HIS")
            os.unlink(f"{self.tree}/a/f0/inside")
            os.rmdir(f"{self.tree}/a/f0")
            os.rename(f"{self.top}/{kind}", f"{self.tree}/a/f0")

    def test_a_lost_directory_does_not_lose_what_is_new(self) -> None:
        def look() -> None:
            os.rename(f"{self.tree}/a/b", f"{self.top}/moved")

        lines = job(self.tree, [Change("store", "a/b/x", b"ours")], look)
        self.assertIn("/a/b.txforest-new/x", lines[0])
        self.assertEqual(read(f"{self.tree}/a/b.txforest-new/x.txforest-new"), "ours")

    def test_a_link_in_place_of_a_directory_is_not_followed(self) -> None:
        os.mkdir(f"{self.top}/elsewhere")

        def look() -> None:
            os.rename(f"{self.tree}/c", f"{self.top}/moved")
            os.symlink(f"{self.top}/elsewhere", f"{self.tree}/c")

        self.assertTrue(job(self.tree, [Change("store", "c/planted", b"ours")], look))
        self.assertEqual(os.listdir(f"{self.top}/elsewhere"), [])

    def test_new_entries_have_what_their_directory_says(self) -> None:
        os.chmod(f"{self.tree}/c", 0o750)
        changes = [Change("mkdir", "c/d"), Change("store", "c/d/f", b"")]
        changes.append(Change("store", "c/x", b"", True))
        job(self.tree, changes)
        modes = [stat.S_IMODE(os.stat(f"{self.tree}/c/{it}").st_mode) for it in ("d", "d/f", "x")]
        self.assertEqual(modes, [0o750, 0o640, 0o750])

    def test_changes_of_any_program_have_modes_and_sources(self) -> None:
        write(f"{self.top}/source", "s" * 3_000_000)
        changes = [
            Change("store", "large", source=f"{self.top}/source", mode=0o640),
            Change("mkdir", "made", mode=0o2750),
            Change("mode", "run", mode=0o700, owner=(os.geteuid(), os.getegid())),
            Change("mode", "c", mode=0o711),
        ]
        changes.sort(key=lambda it: it.kind == "mode")
        self.assertEqual(job(self.tree, changes), [])
        self.assertEqual(os.stat(f"{self.tree}/large").st_size, 3_000_000)
        wanted = {"large": 0o640, "made": 0o2750, "run": 0o700, "c": 0o711}
        for name, mode in wanted.items():
            self.assertEqual(stat.S_IMODE(os.stat(f"{self.tree}/{name}").st_mode), mode, name)

    def test_names_of_250_bytes_serve(self) -> None:
        name = "n" * 250
        write(f"{self.tree}/{name}", "x")
        self.assertEqual(job(self.tree, [Change("store", name, b"y")]), [])


        def look() -> None:
            write(f"{self.tree}/{name}", "HIS")

        self.assertTrue(job(self.tree, [Change("store", name, b"z")], look))
        self.assertEqual(read(f"{self.tree}/{name}"), "HIS")
        tree = new_tree(f"{self.top}/{'t' * 250}")
        self.assertEqual(job(tree, [Change("store", "run", b"y")]), [])

    def test_without_openat2_and_exchange_the_same_comes_out(self) -> None:
        class Old(calls.Calls):
            def openat2(self, root: int, path: bytes) -> int | None:
                return None

            def rename2(self, a: bytes, a_fd: int, b: bytes, b_fd: int, flag: int) -> None:
                raise OSError(errno.EINVAL, "no such step")

            def open(self, name: bytes, flags: int, dir_fd: int, mode: int = 0o600) -> int:
                if flags & os.O_TMPFILE == os.O_TMPFILE:
                    raise OSError(errno.EOPNOTSUPP, "no such files")
                return super().open(name, flags, dir_fd, mode)

        changes = [Change("store", "a/new", b"n"), Change("link", "links/new", b"x")]
        changes += [Change("store", "a/f0", b"o"), Change("remove", "gone/one")]
        base = copy(self.tree, f"{self.top}/base")
        job(base, changes)
        with using(Old()):
            self.assertEqual(job(self.tree, changes), [])
        self.assertEqual(picture(self.tree), picture(base))


class Steps(InFolder):
    """A whole tree in one step, killed at each call."""

    def setUp(self) -> None:
        super().setUp()
        os.unlink(os.fsencode(self.tree) + b"/odd\xffname")

    def attempt(self, tree: Tree) -> object:
        """What put_whole needs of an attempt."""
        found = survey(tree.root)

        class Made:
            only = None

            def __init__(self) -> None:
                self.tree = tree
                self.found = found

            def look_again(self) -> None:
                pass

        return Made()

    def step(self, kind: bytes, inbox: Inbox) -> None:
        """Puts a changed tree in place."""
        with self.opened(kind) as tree:
            exchange.put_whole(
                self.attempt(tree),  # type: ignore[arg-type]
                [Change("store", "a/f0", b"ours")],
                1,
                kind,
                {"id": b"answer"},
                inbox.hand_out,
            )

    def opened(self, kind: bytes) -> Tree:
        """The tree, or the one to which the link leads."""
        return exchange.linked_tree(f"{self.top}/l") if kind == b"link" else Tree(self.tree)

    def test_a_killed_step_is_done_or_taken_back(self) -> None:
        states = set()
        for kind in (b"exchange", b"link"):
            for number in (1, 40, 90, *range(95, 150, 6)):
                inbox = Inbox(f"{self.top}/in")
                os.symlink("t", f"{self.top}/l")

                def die() -> None:
                    class Dying(Watched):
                        def at(self, count: int, name: str, behind: bool) -> None:
                            if count == number and behind:
                                os._exit(77)

                    calls.S = Dying([n for n in dir(calls.Calls) if n[0] != "_"])
                    self.step(kind, inbox)

                self.assertIn(child(die), (0, 77))
                from txforest.settle import settle

                with self.opened(kind) as tree:
                    settled = settle(tree, inbox.hand_out)
                self.assertEqual(settled.told, [])
                place = f"{self.top}/l" if kind == b"link" else self.tree
                done = read(f"{place}/a/f0") == "ours"
                states.add((kind, done))
                self.assertEqual(inbox.answers(), {"id": "answer"} if done else {}, (kind, number))
                names = os.listdir(self.top)
                self.assertFalse([it for it in names if ".txforest-" in it], (kind, number))
                # Of a step that was not done nothing stands beside; else the one tree more.
                more = [it for it in names if it.startswith(("t.", "l."))]
                self.assertEqual(len(more), int(done), (kind, number, names))
                self.set_back(kind, more)
        self.assertEqual(len(states), 4)

    def set_back(self, kind: bytes, more: list[str]) -> None:
        """Makes all as it was."""
        fd = os.open(self.top, DIR)
        os.unlink(f"{self.top}/l")
        if kind == b"exchange" and more:
            clear(fd, b"t")
            os.rename(f"{self.top}/{more[0]}", self.tree)
        elif more:
            clear(fd, os.fsencode(more[0]))
        clear(fd, b"in")
        os.close(fd)

    def test_a_step_keeps_modes_times_and_left_out_entries(self) -> None:
        os.mkfifo(f"{self.tree}/fifo")
        write(f"{self.tree}/big/large", "x" * ((1 << 20) + 1))
        os.chmod(f"{self.tree}/c", 0o2711)
        before = {}
        for path, it in picture(self.tree).items():
            before[path] = (*it, os.lstat(f"{self.tree}/{path}").st_mtime_ns)
        large = os.stat(f"{self.tree}/big/large").st_ino
        self.step(b"exchange", Inbox(f"{self.top}/in"))
        after = {}
        for path, it in picture(self.tree).items():
            after[path] = (*it, os.lstat(f"{self.tree}/{path}").st_mtime_ns)
        self.assertEqual({p for p in before if before[p] != after[p]}, {"a", "a/f0"})
        self.assertEqual(os.stat(f"{self.tree}/big/large").st_ino, large)

    def test_planted_steps_are_refused(self) -> None:
        for text in (
            b"txforest exchange 1 aaaaaaaaaaaa tree 1 made 2 as ../x\n",
            b"txforest exchange 1 aaaaaaaaaaaa tree 1 made 2 as t.before-x\n",
            b"txforest exchange 1 bbbbbbbbbbbb tree 1 made 2 as t.before-20260101T000000\n",
            b"folder 1:2 20260101T000000000000",
        ):
            with self.assertRaises(ValueError):
                exchange.read_step(text, b"a" * 12, b"t")


class Ends(unittest.TestCase):
    """No exception ends as a status that means something else."""

    def status(self, error: BaseException) -> int:
        """The status of a tool that raises an error."""

        def tool() -> int:
            raise error

        told = terminal.tell
        terminal.tell = lambda line: None
        try:
            return terminal.status_of(tool)
        finally:
            terminal.tell = told

    def test_each_exception_has_its_status(self) -> None:
        self.assertEqual(self.status(Failed(11)), 11)
        self.assertEqual(self.status(MemoryError()), 8)
        self.assertEqual(self.status(OSError(errno.EIO, "x", "p")), 9)
        self.assertEqual(self.status(BrokenPipeError()), 9)
        self.assertEqual(self.status(ValueError()), 9)
        self.assertEqual(self.status(RecursionError()), 9)

    def test_closed_streams_are_held(self) -> None:
        code = "import sys; sys.path.insert(0, sys.argv[1])\nfrom txforest.terminal import main\n"
        code += "def tool():\n    import os\n    fd = os.open('/', os.O_RDONLY)\n"
        code += "    assert fd > 2, fd\n    print('x')\nmain(tool)"
        words = [sys.executable, "-IS", "-c", code, PACKAGE]
        self.assertEqual(child(lambda: closed(words)), 0)

    def test_words_of_no_form_are_refused(self) -> None:
        it = terminal.Words("about", "tool [OPTION] A [B..]")
        it.operand("A", "first")
        it.operand("B", "others", 0, True)
        it.option("wait", "SECONDS", "how long")
        it.option("flag", None, "whether")
        given = it.read(["--wait=2", "a", "--", "--flag"])
        self.assertEqual((given.number("wait"), given.operands), (2.0, ["a", "--flag"]))
        forms: list[list[str]] = [
            [],
            ["--nope", "a"],
            ["--flag=1", "a"],
            ["--wait"],
            ["a", "--flag", "--flag"],
        ]
        for words in forms:
            with self.assertRaises(Failed) as caught:
                it.read(words)
            self.assertEqual(caught.exception.status, Status.USAGE)
        for number in ("-1", "nan", "inf", "x"):
            with self.assertRaises(Failed):
                it.read(["a", f"--wait={number}"]).number("wait")


def closed(words: list[str]) -> None:
    """Becomes a program without standard streams."""
    for fd in (0, 1, 2):
        os.close(fd)
    os.execv(words[0], words)


class Questions(unittest.TestCase):
    """The last transaction, which asks whether the result has a value."""

    def test_the_report_is_told_without_it(self) -> None:
        head, tail = b"forest report 1\nentries 2\n", b"retries 0\nend\n"
        first = b'entry 0 shell 0 txn 0 stopped 2 4 Lacks\nprint "\\nentry 9 "\n'
        for answer in (True, False):
            last = b"entry 1 shell 0 txn 1 done\nprint %s\n" % (b"true" if answer else b"false")
            wanted = head.replace(b"2", b"1") + first + tail
            self.assertEqual(without_question(head + first + last + tail), (wanted, answer))
        alone = b"forest report 1\nentries 1\nentry 0 shell 0 txn 0 done\nprint true\n" + tail
        self.assertEqual(
            without_question(alone), (b"forest report 1\nentries 0\nretries 0\nend\n", True)
        )

    def test_a_report_without_it_gives_no_answer(self) -> None:
        tail = b"retries 0\nend\n"
        for text in (
            b"forest report 1\nentries 0\n" + tail,
            b"forest report 1\nentries 1\nentry 0 shell 0 txn 0 aborted\n" + tail,
            b"forest report 1\nentries 1\nentry 0 shell 0 txn 0 done\nprint 1\n" + tail,
            b"forest report 1\nentries 1\nentry 0 shell 0 txn 0 done\nprint true\nprint true\n"
            + tail,
            b"forest report 1\nentries 1\nentry 0 shell 1 txn 0 done\nprint true\n" + tail,
            b"",
        ):
            self.assertIsNone(without_question(text))

"""Whether a tree, with changes that are not in it yet, has a value by a description.

The program is given only what the description looks at. Its command `trace` tells each path that a
transaction looks at; by its proof the answer is the same on every folder that has the same there.
So a folder is made that begins empty, the question is asked, and what was looked at is brought from
the tree, until the program has looked at nothing that was not there as it is in the tree.
"""

from __future__ import annotations

import errno
import os
import stat

from .folders import Folder
from .links import TABLE, is_link_text, is_name, link_text, names_of
from .staged import unquoted
from .states import LINK, NOTHING, WHOLE, Kind
from .statuses import Failed, Status

TYPE_CHECKING = False
if TYPE_CHECKING:
    from collections.abc import Iterable, Iterator, Mapping
    from typing import Protocol

    from .program import Answer
    from .states import Made, Path, Reader

    Changed = tuple[dict[Path, tuple[Made, str | None]], bool | None, list[Path]]
    Entry = tuple[str, bytes, bool]

    class Run(Protocol):
        """A call of the program, of which one may want the first line alone."""

        def __call__(self, words: list[str | bytes], *, until_line: bool = False) -> Answer:
            """What it came to."""

QUESTION = "txn { validate there print(there) }\n"
ASKED = 40  # how often the question is asked before all of the tree is brought
LIKELY = 64
FEW = 3  # a question that looks at no more paths than these for the first time goes one by one
NEIGHBOURS = 512  # how many paths like such a one are brought too; then eight times as many
MANY = 1000  # looks, for which it pays to see what they have in common
DEPTH = 64


class Value:
    """A folder that has of the tree what a description looks at.

    `place` is a path where nothing stands; what is made there stays. `run` calls the program.
    """

    def __init__(self, spec: str, place: str, tree: Reader, run: Run) -> None:
        os.mkdir(place, 0o700)
        self.spec = spec
        self.place = place
        self.tree = tree
        self.run = run
        self.question = os.path.join(place, "question")
        with open(self.question, "w", encoding="ascii") as file:
            file.write(QUESTION)
        self.folder = Folder(os.fsencode(place) + b"/in")
        self.device = os.fstat(tree.root).st_dev
        self.made: dict[Path, tuple[Made, str | None]] = {}  # changes, files of their content
        self.exact: set[Path] = set()
        self.looks: set[Path] = set()
        self.asked = 0
        self.likely = NEIGHBOURS
        self.is_whole = False  # all of the tree was brought, and has no table
        self.of_shape: bool | None = None  # whether kinds and names alone decide, once it matters
        self.answer: bool | None = None

    # ---- the question

    def holds(self) -> bool:
        """Whether there is a value. Raises Failed with the program's status if it refuses."""
        if self.answer is None:
            if not self.asked:
                self.bring_likely()
            elif self.has_nearly_all():
                self.bring_below(())
                self.is_whole = True
            if self.is_whole:
                self.answer = self.shows()
                return self.answer
            for _ in range(ASKED):
                self.looks, answer = self.ask()
                fresh = self.looks - self.exact
                if not fresh or self.is_alike(fresh):
                    self.answer = answer
                    return answer
                self.bring_all(fresh)
            self.bring_below(())
            self.looks, self.answer = self.ask()
        return self.answer

    def shows(self) -> bool:
        """The answer of a folder that has all of the tree: then nobody asks what was looked at."""
        self.folder.finish()
        self.asked += 1
        answer = self.run(["show", self.spec, self.folder.place], until_line=True)
        first = answer.printed.partition(b"\n")[0]
        if first not in (b"valid yes", b"valid no"):
            raise Failed(answer.status or Status.SYSTEM, answer.told())
        return first == b"valid yes"

    def has_nearly_all(self) -> bool:
        """Whether the description has looked at most of the tree, in each directory of it, so that
        it pays to bring the rest, and to ask of further states without what is looked at."""
        if len(self.looks) < MANY or 2 * len(self.looks) < len(self.folder.kinds):
            return False
        folders = (path for path, is_folder in self.folder.kinds.items() if is_folder)
        return not self.has_table() and self.exact.issuperset(folders)

    def is_alike(self, paths: set[Path]) -> bool:
        """Whether kinds and names alone decide, and these many paths are files in the folder as in
        the tree: then it makes no difference that nothing stands in them."""
        if len(paths) < MANY or self.has_table():
            return False
        if self.of_shape is None:
            from .blind import are_blind

            with open(self.spec, "rb") as file:
                self.of_shape = are_blind(file.read(), [])
        kinds = self.folder.kinds
        if not self.of_shape or any(
            path[:-1] not in self.exact or kinds.get(path) is not False for path in paths
        ):
            return False
        self.exact |= paths
        return True

    def ask(self) -> tuple[set[Path], bool]:
        """What the question looks at in the folder as it is, and its answer."""
        self.folder.finish()
        self.asked += 1
        out = os.path.join(self.place, f"out{self.asked}")
        answer = self.run(
            ["trace", self.spec, self.folder.place, out, "none", self.question]
        )
        if answer.status:
            raise Failed(answer.status, answer.told())
        looks: set[Path] = set()
        for line in answer.printed.splitlines():
            if line.startswith(b"look 0 "):
                looks.add(tuple(filter(None, unquoted(line[7 : line.rindex(b" ")]).split(b"/"))))
        said = {b"print true", b"print false"} & set(answer.printed.splitlines())
        if len(said) != 1:
            raise Failed(Status.SYSTEM, "the program gave no answer on the description")
        return looks, b"print true" in said

    # ---- changes

    def change(self, made: Mapping[Path, Made], files: Mapping[Path, str]) -> Changed:
        """Further changes: what is to stand at some paths, and where files have its content.

        Whoever removes a directory names all that stood below it too. Answers what takes them back.
        """
        before = dict(self.made)
        answer = self.answer
        self.turn({**before, **{path: (new, files.get(path)) for path, new in made.items()}}, made)
        return before, answer, list(made)

    def go_back(self, changed: Changed) -> None:
        """Takes the last changes back."""
        before, answer, paths = changed
        self.turn(before, paths)
        self.answer = answer

    def turn(self, made: dict[Path, tuple[Made, str | None]], paths: Iterable[Path]) -> None:
        """Goes over to other changes, which differ from those of now at some paths alone."""
        old = {path: self.entry(path) for path in paths}
        self.made = made
        stale: set[Path] = set()
        deciding: set[Path] = set()
        for path, was in old.items():
            stale.add(path)
            now = self.entry(path)
            if (was is None) != (now is None):
                stale.add(path[:-1])
                deciding.add(path[:-1])
            if not self.of_shape or was != now or was is None or was[0] != "file":
                deciding.add(path)
        for path in sorted(stale if self.is_whole else stale & self.exact, key=len):
            self.bring(path, again=True)
        if () in self.exact and self.has_table():
            self.answer, self.is_whole = None, False
        elif self.is_whole or deciding & self.looks:
            self.answer = None

    # ---- what stands in the tree with its changes

    def entry(self, path: Path) -> Entry | None:
        """What a description can see at a path: `file`, `link` or `dir`, its bytes, its flag.

        The bytes of a file are left out here; `content` has them. Nothing is told of what the
        program does not take.
        """
        if path and not is_name(path[-1]) or len(path) > DEPTH:
            return None
        for length in range(len(path) + 1):
            if path[:length] in self.made:
                return self.made_entry(path, length)
        found = self.tree.look(path)
        if found is None or found.st_dev != self.device:
            return None
        kind = stat.S_IFMT(found.st_mode)
        if kind == stat.S_IFDIR:
            return "dir", b"", False
        if kind == stat.S_IFLNK:
            fd = self.tree.directory(path[:-1])
            return self.link_entry(path, os.readlink(path[-1], dir_fd=fd))
        if kind != stat.S_IFREG or found.st_size > WHOLE or not self.may_read(path):
            return None
        return "file", b"", bool(found.st_mode & 0o111)

    def may_read(self, path: Path) -> bool:
        """Whether this user may read a file of the tree."""
        if os.geteuid() == 0:
            return True
        fd = self.tree.directory(path[:-1])
        return os.access(path[-1], os.R_OK, dir_fd=fd, effective_ids=True)

    def made_entry(self, path: Path, length: int) -> Entry | None:
        """The same at a path that is changed, or below a directory that is."""
        new, source = self.made[path[:length]]
        if length < len(path):
            deeper = [n for n in range(length + 1, len(path) + 1) if path[:n] in self.made]
            if new is Kind.DIRECTORY and deeper:
                return self.made_entry(path, deeper[0])
            return None
        if new is None or new is Kind.DIRECTORY:
            return None if new is None else ("dir", b"", False)
        assert isinstance(new, bytes)
        if new.startswith(LINK):
            return self.link_entry(path, new[len(LINK) :])
        if source is None or os.stat(source).st_size > WHOLE:
            return None
        return "file", b"", bool(int(new.split(b" ", 2)[1], 8) & 0o111)

    def link_entry(self, path: Path, text: bytes) -> Entry | None:
        """A link with the text that it has for a description.

        Nothing if the table can't have it, or if it leads out of the tree and in the folder would
        lead to something.
        """
        root = os.readlink(b"/proc/self/fd/%d" % self.tree.root)
        spelled, names = link_text(text, root), names_of(text)
        if text.startswith(b"/"):
            above = names_of(root)
            leads_out = names[: len(above)] != above and self.tree.look(tuple(names)) is not None
        else:
            leads_out = goes_above(path, names)
        return ("link", spelled, False) if is_link_text(spelled) and not leads_out else None

    def content(self, path: Path) -> bytes | None:
        """The bytes of a file that a description can see."""
        source = self.made[path][1] if path in self.made else None
        try:
            if source is not None:
                with open(source, "rb") as file:
                    return file.read()
            return self.tree.content(path)[1]
        except OSError as error:
            if error.errno in (*NOTHING, errno.EACCES, errno.EPERM):
                return None
            raise

    def names(self, path: Path) -> dict[bytes, Entry]:
        """The names in a directory that a description can see, and what stands there."""
        found: set[bytes] = set()
        if not any(path[:length] in self.made for length in range(len(path) + 1)):
            found = set(self.tree.names(path))
        elif path in self.made and self.tree.state(path) is Kind.DIRECTORY:
            found = set(self.tree.names(path))
        deep = len(path) + 1
        found |= {made[-1] for made in self.made if len(made) == deep and made[:-1] == path}
        entries = ((name, self.entry((*path, name))) for name in found)
        return {name: entry for name, entry in entries if entry is not None}

    def has_table(self) -> bool:
        """Whether the tree is a folder of the program, with a table of its links."""
        made = self.made.get((TABLE,))
        return made[0] is not None if made else self.tree.look((TABLE,)) is not None

    # ---- what is brought

    def bring_all(self, paths: Iterable[Path]) -> None:
        """Brings what was looked at; if the tree has a table, all of it."""
        if self.has_table():
            self.bring_below(())
            return
        found = sorted(paths, key=len)
        for path in found:
            self.bring(path)
        if len(found) <= FEW and self.asked > 1:
            likely = (path for path in self.cousins(found[-1]) if path not in self.exact)
            for _, path in zip(range(self.likely), likely):
                self.bring(path)
            self.likely *= 8

    def cousins(self, path: Path) -> Iterator[Path]:
        """The paths like this one that have one name otherwise, first those with another last name,
        as far as the names of the directory were brought."""
        for place in reversed(range(len(path))):
            above = path[:place]
            if self.has_folder(above):
                for name in sorted(os.listdir(self.folder.at(above))):
                    yield (*above, name, *path[place + 1 :])

    def has_folder(self, path: Path) -> bool:
        """Whether a directory stands at a path that was brought."""
        return path in self.exact and self.folder.kinds.get(path) is True

    def bring_likely(self) -> None:
        """Brings what the description is likely to look at, so that the question is asked less
        often: paths that stand in its text, and some of those that are changed."""
        with open(self.spec, "rb") as file:
            words = file.read().split(b'"')[1::2]
        paths = {tuple(word.split(b"/")) for word in words[:LIKELY]}
        for path in sorted({*paths, *list(self.made)[:LIKELY]}, key=len):
            if len(path) <= DEPTH and all(map(is_name, path)) and self.entry(path) is not None:
                self.bring(path)

    def bring(self, path: Path, again: bool = False) -> None:
        """Brings what stands at a path, and what stands above it; of a directory its names."""
        if path in self.exact and not again:
            return
        for length in range(1, 0 if self.has_folder(path[:-1]) else len(path)):
            above = self.entry(path[:length])
            if above is None or above[0] != "dir":
                if above is not None:
                    self.place_entry(path[:length], above)
                self.exact.add(path)
                return
            self.folder.mkdir(path[:length])
        entry = self.entry(path)
        self.place_entry(path, entry)
        if entry is not None and entry[0] == "dir":
            self.bring_names(path)
        self.exact.add(path)

    def place_entry(self, path: Path, entry: Entry | None) -> None:
        """Makes what stands at a path; a directory is left as it is."""
        if entry is None:
            self.folder.drop(path)
        elif entry[0] == "dir":
            self.folder.mkdir(path)
        elif entry[0] == "link":
            self.folder.link(path, entry[1])
        else:
            content = self.content(path)
            if content is None:
                self.folder.drop(path)
            else:
                self.folder.put(path, content, entry[2])

    def bring_names(self, path: Path) -> None:
        """Makes the names of a directory just those of the tree; what is new stands there bare."""
        names = self.names(path)
        held = set(os.listdir(self.folder.at(path)))
        held |= {link[-1] for link in self.folder.links if link[:-1] == path}
        for name in held - names.keys() - {TABLE}:
            self.folder.drop((*path, name))
        for name in names.keys() - held:
            inside = (*path, name)
            if names[name][0] == "file":
                self.folder.put(inside, b"")
            else:
                self.place_entry(inside, names[name])

    def bring_below(self, path: Path) -> None:
        """Brings a directory with all below it, and the table of a tree that has one."""
        self.bring(path)
        for name, entry in self.names(path).items():
            inside = (*path, name)
            if entry[0] == "dir":
                self.bring_below(inside)
            else:
                self.bring(inside)
        if not path and self.has_table():
            table = self.content((TABLE,))
            if table:
                self.folder.table = table


def goes_above(path: Path, names: list[bytes]) -> bool:
    """Whether a link's text leads above the tree by its own `..`."""
    deep = len(path) - 1
    for name in names:
        deep += -1 if name == b".." else 0 if name == b"." else 1
        if deep < 0:
            return True
    return False

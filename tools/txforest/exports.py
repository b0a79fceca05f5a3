"""A folder of the program as a real tree, the way back of an import: the command txforest-export.

Where nothing stands the tree is made, with the modes, owners and times that the import kept. A tree
that stands there gets what OUT changed against the imported one, by the same commit as a job's:
what was left out at the import, or came since, is never touched, and no edit that came since is
undone.
"""

from __future__ import annotations

import errno
import os
import stat
import sys
from collections.abc import Iterator
from typing import NamedTuple

from . import calls
from .attempt import Attempt, attempts
from .attributes import Kept, Record, content, digest_of, names_of, record_in
from .calls import DIR, NEW, sync_all
from .differences import Change, parents
from .imports import Room, is_free
from .links import real_text
from .lock import lock
from .only import Only
from .place import Tree
from .refusals import Folder
from .settle import settle
from .stage import with_flag
from .statuses import Failed, Status
from .survey import TABLE
from .tables import Table, read_table
from .terminal import Given, Words, many, shown, tell

ABOUT = """Makes a real tree of a folder of txforest, the way back of txforest-import: links of the
table become symbolic links, flags execute bits. Where nothing stands at TREE it is made: what the
import knew keeps its mode and owner, and its time if its content is the same; a new entry gets
those of its directory. With --replace a tree that stands there gets what OUT changed since the
import, file by file; nothing else of it is touched. OUT is only read."""
USAGE = "txforest-export [--attributes FILE] [--replace [--merge]] [--wait SECONDS] OUT TREE"
STATUSES = (
    ("11", "a job held the tree's lock for longer than --wait; nothing was changed"),
    ("12", "the tree was edited since the import, or still is; nothing was changed"),
    ("13", "in place, but a path that somebody else changed was not written over"),
    ("14", "committed, and the next job puts the rest of it in place"),
)
MOST = 10  # how many paths are told one by one
KINDS = {stat.S_IFREG: "f", stat.S_IFDIR: "d", stat.S_IFLNK: "l"}


class Job(NamedTuple):
    """What is to be done. `word` is the tree as it was named."""

    out: str
    tree: str
    word: str
    attributes: str | None
    replace: bool
    merge: bool
    wait: float | None


def job_of(given: Given) -> Job:
    """The job that the words of the tool give. Fails with USAGE, or NOT_EMPTY."""
    out, tree = given.operands
    replace = given.flag("replace")
    if not os.path.isdir(out):
        raise Failed(Status.USAGE, f"{shown(out)}: no folder stands there")
    if given.flag("merge") and not replace:
        raise Failed(Status.USAGE, "--merge is of --replace alone")
    if not replace and not is_free(tree):
        why = "something stands there, and is no empty folder; --replace changes what is there"
        raise Failed(Status.NOT_EMPTY, f"{shown(tree)}: {why}")
    if os.path.islink(tree) or os.path.lexists(tree) and not os.path.isdir(tree):
        line = f"{shown(tree)}: no folder stands there, but something else"
        raise Failed(Status.USAGE, line)
    if (os.path.realpath(tree) + "/").startswith(os.path.realpath(out) + "/"):
        raise Failed(Status.USAGE, f"{shown(tree)}: lies in the folder itself")
    return Job(
        os.path.abspath(out),
        os.path.abspath(tree),
        tree,
        given.text("attributes"),
        replace,
        given.flag("merge"),
        given.number("wait"),
    )


def record_for(job: Job) -> Record | None:
    """What the import kept, or nothing."""
    if job.attributes is not None:
        return record_in(job.attributes, True)
    beside = job.out + ".attributes"
    return record_in(beside, False) if os.path.lexists(beside) else None


# ---- what stands in OUT


class Out:
    """A folder of the program: its entries by path, their kinds, and its table."""

    def __init__(self, path: str) -> None:
        """Fails with FOLDER, and each entry or line that the program would refuse."""
        self.path = path
        found = Folder(path)
        if found.refused or found.bad:
            raise Failed(Status.FOLDER, *found.told(path))
        self.kinds = {os.fsdecode(b"/".join(names)): kind for names, kind in found.kinds.items()}
        text = b""
        if os.path.lexists(os.path.join(path, TABLE)):
            with open(os.path.join(path, TABLE), "rb") as it:
                text = it.read()
        table: Table = read_table(text)
        self.links = {os.fsdecode(b"/".join(p)): it for p, it in table.links.items()}
        self.flags = {os.fsdecode(b"/".join(p)) for p in table.flags}
        self.kinds.update(dict.fromkeys(self.links, "l"))
        self.names: dict[str, list[bytes]] = {}
        for inside in self.kinds:
            above, _, name = inside.rpartition("/")
            self.names.setdefault(above, []).append(os.fsencode(name))

    def paths(self) -> list[str]:
        """All paths below the root, each directory before what is in it."""
        return sorted(self.kinds, key=names_of)

    def digest(self, path: str) -> bytes:
        """The digest of an entry's content, as a record has it."""
        kind = self.kinds.get(path, "d")
        if kind == "d":
            return digest_of(*sorted(self.names.get(path, [])))
        if kind == "l":
            return digest_of(self.links[path])
        with open(os.path.join(self.path, path), "rb") as it:
            return digest_of(it.read())

    def same(self, path: str, record: Record) -> bool:
        """Whether an entry is as it was imported. A directory is if one was; what is in it counts
        by itself."""
        kept = record.entries.get(path)
        kind = self.kinds.get(path)
        if kept is None or kind is None or kept.kind != kind:
            return kept is None and kind is None
        if kind == "d":
            return True
        flag = bool(kept.mode & 0o111)
        if kind == "f" and record.flags and flag != (path in self.flags):
            return False
        return self.digest(path) == kept.digest


# ---- a tree where nothing stands


class Plan(NamedTuple):
    """What an entry of a new tree gets."""

    mode: int
    owner: int
    group: int
    more: dict[bytes, bytes]
    time: int | None


def plans(out: Out, record: Record | None, here: os.stat_result) -> dict[str, Plan]:
    """What each entry gets: what the import kept of it, or what its directory has. What the system
    grants to a content (set-id bits, capabilities) goes with another content."""
    entries = record.entries if record is not None else {}
    flags_decide = record is None or record.flags
    umask = os.umask(0)
    os.umask(umask)
    bare = Plan(0o777 & ~umask, here.st_uid, here.st_gid, {}, None)
    found: dict[str, Plan] = {}
    for path in ["", *out.paths()]:
        kept = entries.get(path)
        kind = out.kinds.get(path, "d")
        if kept is not None and kept.kind == kind:
            found[path] = plan_of(kept, out.digest(path) == kept.digest)
        elif path:
            above = found[path.rpartition("/")[0]]
            found[path] = above._replace(mode=above.mode & 0o666, more={}, time=None)
            if kind == "d":
                found[path] = found[path]._replace(mode=above.mode & 0o2777)
        else:
            found[path] = bare
        if kind == "f" and (flags_decide or kept is None):
            mode = with_flag(found[path].mode, path in out.flags)
            found[path] = found[path]._replace(mode=mode)
    return found


def plan_of(kept: Kept, is_same: bool) -> Plan:
    """What an entry gets that the import knew."""
    mode, more, time = kept.mode, kept.more, kept.time
    if not is_same and kept.kind == "f":
        mode &= 0o1777
        more = {name: it for name, it in more.items() if name != b"security.capability"}
    return Plan(mode, kept.owner, kept.group, more, time if is_same else None)


def made_in(out: Out, record: Record | None, place: int) -> int:
    """Makes the tree `made` in a place; answers how many owners and attributes were refused."""
    os.mkdir("made", 0o700, dir_fd=place)
    made = os.open("made", DIR, dir_fd=place)
    try:
        plan = plans(out, record, os.fstat(made))
        refused = 0
        for path in out.paths():
            kept = record.entries.get(path) if record is not None else None
            refused += make(out, path, made, plan[path], kept)
        # What is in a directory comes before it: its time is the last thing that it gets.
        for path in sorted((p for p, kind in out.kinds.items() if kind == "d"), reverse=True):
            refused += given_at(made, path, plan[path])
        return refused + given_at(made, "", plan[""])
    finally:
        os.close(made)


def make(out: Out, path: str, made: int, plan: Plan, kept: Kept | None) -> int:
    """Makes one entry; answers how much of its plan was refused."""
    names = names_of(path)
    above = calls.PLAIN.down(made, names[:-1]) if names[1:] else os.dup(made)
    try:
        if out.kinds[path] == "d":
            os.mkdir(names[-1], 0o700, dir_fd=above)
            return 0
        if out.kinds[path] == "l":
            return make_link(out.links[path], path, above, plan, kept)
        with open(os.path.join(out.path, path), "rb") as it:
            data = it.read()
        fd = os.open(names[-1], NEW, 0o600, dir_fd=above)
        try:
            calls.PLAIN.write(fd, data)
            return give(fd, plan)
        finally:
            os.close(fd)
    finally:
        os.close(above)


def make_link(text: bytes, path: str, above: int, plan: Plan, kept: Kept | None) -> int:
    """Makes a link: as it stood in the tree, if it leads to the same place as before."""
    names = names_of(path)
    same = kept is not None and kept.kind == "l" and kept.digest == digest_of(text)
    real = kept.text if kept is not None and same else real_text(tuple(names), text)
    os.symlink(real, names[-1], dir_fd=above)
    refused = 0
    try:
        os.chown(names[-1], plan.owner, plan.group, dir_fd=above, follow_symlinks=False)
    except PermissionError:
        refused = 1
    if plan.time is not None:
        times = (plan.time, plan.time)
        os.utime(names[-1], ns=times, dir_fd=above, follow_symlinks=False)
    return refused


def given_at(made: int, path: str, plan: Plan) -> int:
    """Gives a directory its plan; answers how much of it was refused."""
    fd = calls.PLAIN.down(made, names_of(path)) if path else os.dup(made)
    try:
        return give(fd, plan)
    finally:
        os.close(fd)


def give(fd: int, plan: Plan) -> int:
    """Gives an open file its owner, attributes, mode and time; answers how many were refused."""
    refused, mode = 0, plan.mode
    now = os.fstat(fd)
    if (now.st_uid, now.st_gid) != (plan.owner, plan.group):
        try:
            os.fchown(fd, plan.owner, plan.group)
        except PermissionError:
            refused += 1
            mode &= 0o777
    for name, value in plan.more.items():
        try:
            os.setxattr(fd, name, value)
        except OSError:
            refused += 1
    os.fchmod(fd, mode)
    if plan.time is not None:
        os.utime(fd, ns=(plan.time, plan.time))
    return refused


def new_tree(job: Job, out: Out, record: Record | None) -> int:
    """Makes the tree where nothing stands. Fails with NOT_EMPTY if something has come there."""
    with Room(job.tree) as place:
        refused = made_in(out, record, place.fd)
        sync_all(place.fd)
        name = os.fsencode(os.path.basename(job.tree))
        try:
            os.rename("made", name, src_dir_fd=place.fd, dst_dir_fd=place.home)
        except OSError as error:
            if error.errno not in (errno.EEXIST, errno.ENOTEMPTY, errno.ENOTDIR):
                raise
            raise Failed(Status.NOT_EMPTY, f"{shown(job.word)}: {error.strerror}") from None
        os.fsync(place.home)
    if refused:
        number = many(refused, "owner or attribute", "owners or attributes")
        tell(f"{number} could not be given: {shown(job.word)} is yours alone there")
    return Status.DONE


# ---- a tree that stands there


def edits(attempt: Attempt, record: Record) -> list[str]:
    """The entries of a tree that are others than at its import."""
    found, view = attempt.found, attempt.view
    if view is None:
        raise ValueError("the attempt is closed")
    flags = view.flags or set()
    paths = [
        path
        for path, it in found.taken.items()
        if not is_kept(path, it, found.links, flags, record, view.fd)
    ]
    paths += [path for path in record.entries if path not in found.taken]
    return sorted(paths, key=names_of)


def is_kept(
    path: str,
    it: os.stat_result,
    links: dict[str, bytes],
    flags: set[str],
    record: Record,
    view: int,
) -> bool:
    """Whether an entry has the content, the kind and the flag that it had at the import."""
    kept = record.entries.get(path)
    if kept is None or KINDS.get(stat.S_IFMT(it.st_mode)) != kept.kind:
        return False
    if kept.kind == "d":
        return True
    if kept.kind == "l":
        return digest_of(links[path]) == kept.digest
    if record.flags and bool(it.st_mode & 0o111) != bool(kept.mode & 0o111):
        return False
    names = names_of(path)
    above = calls.PLAIN.down(view, names[:-1]) if names[1:] else os.dup(view)
    try:
        return digest_of(content(above, os.fsdecode(names[-1]))) == kept.digest
    finally:
        os.close(above)


def told_paths(paths: list[str]) -> Iterator[str]:
    """Some paths, a line each."""
    for path in paths[:MOST]:
        yield f"{shown('/' + path)}: is another than at the import"
    if len(paths) > MOST:
        yield f"and {many(len(paths) - MOST, 'further entry', 'further entries')}"


def replaced(job: Job, out: Out, record: Record, attempt: Attempt) -> int:
    """One attempt to put what OUT changed into the tree that stands there."""
    edited = edits(attempt, record)
    if edited and not job.merge:
        attempt.look_again()
        number = many(len(edited), "entry", "entries")
        raise Failed(
            Status.CHANGING,
            *told_paths(edited),
            f"{number} of {shown(job.word)} changed since the import, so nothing was changed;"
            " import it again, or --merge lets those stand that OUT did not change",
        )
    changes = changes_of(out, record, attempt, set(edited))
    committed = attempt.commit(changes)
    for line in (*committed.told, *committed.conflicts):
        tell(line)
    if edited:
        number = many(len(edited), "entry", "entries")
        tell(f"{number} changed since the import: they stand as they are")
    return Status.CONFLICT if committed.conflicts else Status.DONE


def changes_of(out: Out, record: Record, attempt: Attempt, edited: set[str]) -> list[Change]:
    """What OUT changed since the import, as changes of the tree. Fails with CHANGING if somebody
    edited the same entry since, or one that a change would take away or needs."""
    # An edit to just what OUT has clashes too: two jobs that each add 1 come to the same number.
    clashes = {path for path in edited if not out.same(path, record)}
    stay = edited - clashes
    changes: list[Change] = []
    for change in attempt.changes_to(out.path):
        if change.path not in edited and (record.flags or change.kind != "mode"):
            if not record.flags and change.path in attempt.found.taken:
                change.flag = None
            changes.append(change)
    above_stay = {above for path in stay for above in parents(path)}
    for change in changes:
        gone = change.kind == "rmdir" and change.path in above_stay
        if gone or any(above in stay for above in parents(change.path)):
            clashes.add(change.path)
    if clashes:
        attempt.look_again()
        number = many(len(clashes), "entry", "entries")
        raise Failed(
            Status.CHANGING,
            *told_paths(sorted(clashes, key=names_of)),
            f"OUT changed {number} that somebody edited since the import, so nothing was changed",
        )
    return changes


def over_tree(job: Job, out: Out, record: Record | None) -> int:
    """Puts what OUT changed into the tree that stands there."""
    if record is None:
        why = "nobody knows what OUT changed, and what was left out"
        raise Failed(
            Status.USAGE,
            f"{shown(job.out)}.attributes: nothing stands there, so {why};"
            " --attributes names what txforest-import kept",
        )
    held = lock(job.tree, job.wait)
    with Tree(job.tree) as tree:
        ended = settle(tree)
        for line in (*ended.told, *ended.conflicts):
            tell(line)
        only = Only(record.only) if record.only else None
        root = os.fsencode(record.root) if record.root else None
        kept = record
        return attempts(tree, held, only, lambda it: replaced(job, out, kept, it), as_root=root)


# ---- the command


def words() -> Words:
    """The words of the tool."""
    it = Words(ABOUT, USAGE, STATUSES)
    it.operand("OUT", "the folder: what txforest wrote, or txforest-import")
    it.operand("TREE", "the real tree; nothing, or an empty folder, stands there")
    it.option("attributes", "FILE", "what txforest-import kept (OUT.attributes)")
    it.option("replace", None, "put into the tree that stands there what OUT changed")
    it.option("merge", None, "let edits stand that came since the import, beside OUT's changes")
    it.option("wait", "SECONDS", "how long to wait for the tree's lock (for ever)")
    return it


def tool() -> int:
    """The command txforest-export."""
    job = job_of(words().read(sys.argv[1:]))
    out = Out(job.out)
    record = record_for(job)
    if record is None and not job.replace:
        line = "nothing stands there, so modes and owners are those of new files"
        tell(f"{shown(job.out)}.attributes: {line}; --attributes names what txforest-import kept")
    over = job.replace and not is_free(job.tree)
    status = over_tree(job, out, record) if over else new_tree(job, out, record)
    entries = many(len(out.kinds), "entry", "entries")
    links = many(len(out.links), "link")
    print(f"{shown(job.word)}: {entries}, {links}, {len(out.flags):,} executable")
    return status

"""Tries what carries jobs into a live tree.

usage: live.py [PART[=NUMBER]...]   with TXFOREST set to the program; TOOLS names other tools to try

Each part prints a line with what it counted; a number says how many it tries. Trees are made below
TMPDIR. What needs root, or a program that is missing here, is passed over and said so.
"""

from __future__ import annotations

import ctypes
import os
import random
import resource
import shutil
import signal
import stat
import struct
import subprocess
import sys
import tempfile
import threading
import time
from collections.abc import Callable, Iterator
from contextlib import contextmanager

TOP = os.path.dirname(os.path.dirname(os.path.abspath(__file__)))
TOOLS = os.environ.get("TOOLS", os.path.join(TOP, "tools"))
sys.path.insert(0, os.path.join(TOP, "tools"))

import live_looks  # noqa: E402
import live_queue  # noqa: E402

NOBODY = 65534
ROOT = os.geteuid() == 0
COUNT = "txn { to(\"n\") down fetch n : str store((text((int(n) + 1)) ++ \"\\n\")) }\n"
SPEC = '<n : ("n" :: file), {(k :: file) | k in (one("x") union one("y"))}>\n'
COUNT_IN_PAIR = COUNT.replace('to("n") down', "into down")
ANY = '{(k :: file) | k in one("n")}\n'
STATUSES = {0, 1, 2, 3, 4, 5, 6, 7, 8, 9, 10, 11, 12, 13, 14}


class Wrong(Exception):
    """Something is not as it should be."""


class PassedOver(Exception):
    """Something is missing here."""


# ---- what the parts share


def write(path: str, text: str = "") -> None:
    """Writes a file."""
    with open(path, "w", encoding="utf-8") as it:
        it.write(text)


def read(path: str) -> str:
    """What a file holds."""
    with open(path, encoding="utf-8", errors="replace") as it:
        return it.read()


def same(what: str, found: object, wanted: object) -> None:
    """Two things have to be equal."""
    if found != wanted:
        raise Wrong(f"{what}: {found!r} and not {wanted!r}")


def shell(command: str, room: str | None = None) -> tuple[int, str]:
    """A command's status, and what it printed."""
    words = ["bash", "-c", command]
    pipe = subprocess.PIPE
    ran = subprocess.run(words, cwd=room, stdout=pipe, stderr=subprocess.STDOUT, timeout=600)
    return ran.returncode, ran.stdout.decode(errors="replace")


def needs(*programs: str) -> None:
    """Passes over where a program is missing."""
    for program in programs:
        if not shutil.which(program) and not os.path.exists(f"/usr/sbin/{program}"):
            raise PassedOver(f"{program} is missing")


def needs_root() -> None:
    """Passes over where this is not root."""
    if not ROOT:
        raise PassedOver("needs root")


def command(tree: str, *more: str, script: str = "job") -> list[str]:
    """The words of a job on a tree, with the description and the script of its room."""
    room = os.path.dirname(os.path.abspath(tree))
    tool = os.path.join(TOOLS, "txforest-apply")
    return [tool, *more, "--in-place", tree, f"{room}/spec", f"{room}/{script}"]


def apply(
    tree: str, *more: str, status: int | None = 0, seconds: float = 120, **given: object
) -> str:
    """Does a job, which has to end with a status and without a traceback; answers what it told."""
    ran = subprocess.run(  # type: ignore[call-overload]
        command(tree, *more),
        stdin=subprocess.DEVNULL,
        stdout=subprocess.PIPE,
        stderr=subprocess.STDOUT,
        timeout=seconds,
        **given,
    )
    told: str = ran.stdout.decode(errors="replace")
    if "Traceback" in told or status is not None and ran.returncode != status:
        raise Wrong(f"status {ran.returncode}, not {status}:\n{told[-2000:]}")
    if ran.returncode not in STATUSES:
        raise Wrong(f"no status of the table: {ran.returncode}:\n{told[-2000:]}")
    return told


def new_tree(room: str, name: str = "t") -> str:
    """A tree with a count and another file, beside a description and a job that counts."""
    os.makedirs(f"{room}/{name}/d")
    write(f"{room}/{name}/n", "0\n")
    write(f"{room}/{name}/x", "x\n")
    write(f"{room}/{name}/d/y", "y\n")
    write(f"{room}/spec", ANY)
    write(f"{room}/job", COUNT)
    return f"{room}/{name}"


def count(tree: str) -> int:
    """What a tree has counted."""
    return int(read(f"{tree}/n"))


def as_user(number: int) -> Callable[[], None]:
    """Becomes a user, in a child."""

    def become() -> None:
        os.setgroups([])
        os.setgid(number)
        os.setuid(number)

    return become


@contextmanager
def mounted(words: str, at: str) -> Iterator[None]:
    """A mount for a while."""
    needs_root()
    status, told = shell(f"mount {words} '{at}'")
    if status:
        raise PassedOver(f"mount {words}: {told.strip()}")
    try:
        yield
    finally:
        shell(f"umount -l '{at}'")


def listing(tree: str) -> dict[str, str]:
    """A line for each entry of a tree: kind, mode, owner, size, time, inode, text."""
    format_ = r"%P\0%y %m %u %g %s %T@ %i %l\0"
    ran = subprocess.run(["find", tree, "-printf", format_], stdout=subprocess.PIPE, check=True)
    parts = os.fsdecode(ran.stdout).split("\0")
    return dict(zip(parts[0::2], parts[1::2]))


def close_all(fds: tuple[int, ...]) -> None:
    """Closes descriptors, in a child."""
    for fd in fds:
        os.close(fd)


def meddling_program(room: str, once: str) -> str:
    """A program that runs the real one, and then does something once, as somebody else."""
    path = f"{room}/meddling"
    write(
        path,
        f'#!/bin/sh\n"{os.environ["TXFOREST"]}" "$@"\nstatus=$?\n'
        f'if [ ! -e "{room}/done" ]; then\n'
        f'    case $1 in run | trace) touch "{room}/done"; (cd "{room}"; {once}) ;; esac\n'
        "fi\nexit $status\n",
    )
    os.chmod(path, 0o755)
    return path


# ---- each way in which data was lost


def edits_of_others_stay(room: str, _: int) -> str:
    """Somebody edits a file while a job runs: both changes are there in the end."""
    tree = new_tree(room)
    for way in ("echo his > t/x", "echo his > t/x.new; mv t/x.new t/x", "mkdir t/his", "rm t/x"):
        shutil.rmtree(tree)
        new_tree(room)
        if os.path.exists(f"{room}/done"):
            os.unlink(f"{room}/done")
        program = meddling_program(room, way)
        apply(tree, env={**os.environ, "TXFOREST": program}, cwd=room)
        his = not os.path.exists(f"{tree}/x") or read(f"{tree}/x") == "his\n"
        same(way, (count(tree), his or os.path.isdir(f"{tree}/his")), (1, True))
    return "four edits while a job ran: each is there, and the job is done once"


def nothing_that_comes_is_lost(room: str, number: int) -> str:
    """Files come into a tree without the lock while jobs run: all are there in the end."""
    number = number or 100
    tree = new_tree(room)
    done = threading.Event()

    def put_in() -> None:
        for i in range(number):
            write(f"{tree}/d/p{i}", f"{i}\n")
            time.sleep(0.02)
        done.set()

    other = threading.Thread(target=put_in)
    other.start()
    jobs = again = 0
    while not done.is_set():
        told = apply(tree, status=None)
        jobs += 1
        again += told.count("begins again")
    other.join()
    names = [name for name in os.listdir(f"{tree}/d") if name.startswith("p")]
    same("what came in", len(names), number)
    return f"{number} files put in beside {jobs} jobs: all are there; {again} times one began again"


def a_tree_with_a_link_counts(room: str, _: int) -> str:
    """Two loops of five jobs on a tree with a symbolic link and an execute bit."""
    tree = new_tree(room)
    os.symlink("n", f"{tree}/d/link")
    os.chmod(f"{tree}/x", 0o755)
    loop = " ".join(f"'{word}'" for word in command(tree))
    script = f"for i in 1 2 3 4 5; do {loop} > /dev/null || exit 1; done"
    two = [subprocess.Popen(["bash", "-c", script]) for _ in range(2)]
    same("statuses", [it.wait() for it in two], [0, 0])
    same("the count", count(tree), 10)
    same("the link", os.readlink(f"{tree}/d/link"), "n")
    same("the bit", stat.S_IMODE(os.stat(f"{tree}/x").st_mode), 0o755)
    return "two loops of five increments count to 10"


def a_shell_in_the_tree_stays_in_it(room: str, _: int) -> str:
    """Jobs are called from a shell that stands in the tree."""
    tree = new_tree(room)
    words = " ".join(f"'{word}'" for word in command(".")).replace("./", "../")
    words = words.replace(f"{os.getcwd()}", "..")
    tool = os.path.join(TOOLS, "txforest-apply")
    line = f"'{tool}' --in-place . ../spec ../job > /dev/null && "
    status, told = shell(f"{line} {line} cat n && stat -c %i . && stat -c %i '{tree}'", tree)
    parts = told.split()
    same("two jobs from within", (status, parts[:1]), (0, ["2"]))
    same("the shell's folder", parts[1], parts[2])
    same("seen from outside", count(tree), 2)
    return "two jobs from a shell in the tree: it sees both, and stands in the same folder"


def bind_mounts_watchers_links_lists(room: str, _: int) -> str:
    """A bind mount shows what a job does, a watcher hears it, a hard link keeps its file."""
    tree = new_tree(room)
    os.link(f"{tree}/x", f"{room}/hard")
    inode = os.stat(tree).st_ino
    missing = []
    events = watched(tree, lambda: apply(tree))
    if not any(name == "n" for _, name in events):
        raise Wrong(f"a watcher of the tree hears nothing of n: {events}")
    same("the tree's inode", os.stat(tree).st_ino, inode)
    same("a hard link", os.stat(f"{room}/hard").st_ino, os.stat(f"{tree}/x").st_ino)
    try:
        os.mkdir(f"{room}/bound")
        with mounted(f"--bind '{tree}'", f"{room}/bound"):
            apply(tree)
            same("a bind mount", read(f"{room}/bound/n"), read(f"{tree}/n"))
    except PassedOver as why:
        missing.append(str(why))
    if shutil.which("setfacl") and not shell(f"setfacl -d -m u:{NOBODY}:rw '{tree}/d'")[0]:
        write(f"{room}/spec", '{(k :: file) | k in one("d/made")}\n')
        write(f"{room}/job", 'txn { to("d/made") down create }\n')
        apply(tree)
        wanted = shell(f"touch '{tree}/d/by-touch'; getfacl -cp '{tree}/d/by-touch'")[1]
        same("the access list by default", shell(f"getfacl -cp '{tree}/d/made'")[1], wanted)
    else:
        missing.append("access lists")
    more = f"; not tried: {', '.join(missing)}" if missing else ""
    return f"a bind mount, a watcher, a hard link, an access list by default{more}"


def watched(folder: str, work: Callable[[], object]) -> list[tuple[int, str]]:
    """What inotify tells of a folder while work runs: masks and names."""
    libc = ctypes.CDLL(None, use_errno=True)
    fd = libc.inotify_init1(os.O_NONBLOCK)
    libc.inotify_add_watch(fd, os.fsencode(folder), 0xFFF)
    work()
    found = []
    try:
        data = os.read(fd, 1 << 20)
    except BlockingIOError:
        data = b""
    while data:
        _, mask, _, length = struct.unpack_from("iIII", data)
        found.append((mask, os.fsdecode(data[16 : 16 + length].rstrip(b"\0"))))
        data = data[16 + length :]
    os.close(fd)
    return found


def a_lock_that_is_handed_down_counts(room: str, _: int) -> str:
    """`flock TREE.lock txforest-apply ..` does not wait for itself."""
    needs("flock")
    tree = new_tree(room)
    ran = subprocess.run(
        ["flock", f"{tree}.lock", *command(tree)], stdout=subprocess.DEVNULL, timeout=60
    )
    same("the job", (ran.returncode, count(tree)), (0, 1))
    shell_job = ["flock", f"{tree}.lock", "sh", "-c", f"echo $(( $(cat {tree}/n) + 1 )) > {tree}/n"]
    both = [subprocess.Popen(command(tree), stdout=subprocess.DEVNULL) for _ in range(4)]
    both += [subprocess.Popen(shell_job) for _ in range(4)]
    same("jobs and shells", ([it.wait() for it in both], count(tree)), ([0] * 8, 9))
    return "flock hands its lock down, and keeps shells and jobs apart"


def a_mount_below_is_kept(room: str, _: int) -> str:
    """Mounts below a tree keep what is in them, and a tree that is a mount serves."""
    needs_root()
    tree = new_tree(room)
    os.makedirs(f"{tree}/m")
    os.makedirs(f"{room}/source")
    write(f"{room}/source/data", "precious\n")
    with mounted("-t tmpfs none", f"{tree}/m"):
        write(f"{tree}/m/data", "precious\n")
        for _ in range(3):
            apply(tree)
        same("what is in a tmpfs", read(f"{tree}/m/data"), "precious\n")
    with mounted(f"--bind '{room}/source'", f"{tree}/m"):
        for _ in range(3):
            apply(tree)
        same("what is in a bind mount", read(f"{room}/source/data"), "precious\n")
    same("the count", count(tree), 6)
    os.makedirs(f"{room}/whole")
    with mounted("-t tmpfs none", f"{room}/whole"):
        shell(f"cp -a '{tree}/.' '{room}/whole'")
        for _ in range(2):
            apply(f"{room}/whole")
        same("a tree that is a mount", count(f"{room}/whole"), 8)
        same("what is left in it", [n for n in os.listdir(f"{room}/whole") if n[0] == "."], [])
    return "a tmpfs and a bind mount below the tree, three jobs each; a tree that is a mount, two"


def what_stays_stops_no_job(room: str, _: int) -> str:
    """What can't be removed or replaced stops no later job."""
    tree = new_tree(room, "t" * 240)
    for _ in range(2):
        apply(tree)
    same("a name of 240 bytes", count(tree), 2)
    told = ["a name of 240 bytes"]
    if ROOT:
        os.chmod(os.path.dirname(room), 0o755)
        os.makedirs(f"{room}/of-nobody")
        tree = new_tree(f"{room}/of-nobody")
        os.makedirs(f"{tree}/other/deep")
        write(f"{tree}/other/deep/x", "x")
        shell(f"chown -R {NOBODY}:{NOBODY} '{room}/of-nobody'; chown -R 0:0 '{tree}/other'")
        os.chmod(f"{tree}/other", 0o755)
        for _ in range(4):
            apply(tree, preexec_fn=as_user(NOBODY))
        same("another owner's folder", (count(tree), read(f"{tree}/other/deep/x")), (4, "x"))
        told.append("another owner's folder, four jobs")
        os.makedirs(f"{room}/fixed")
        tree = new_tree(f"{room}/fixed")
        if shutil.which("chattr") and not shell(f"chattr +i '{tree}/x'")[0]:
            try:
                for _ in range(3):
                    apply(tree)
                same("an immutable file", count(tree), 3)
                told.append("an immutable file, three jobs")
            finally:
                shell(f"chattr -i '{tree}/x'")
    return f"{'; '.join(told)}: all done"


def planted_places_and_locks_do_nothing(room: str, _: int) -> str:
    """What somebody planted beside a tree moves and removes nothing, and stops nobody."""
    tree = new_tree(room)
    write(f"{room}/victim", "safe\n")
    os.makedirs(f"{room}/folder/deep")
    ino = os.lstat(tree)
    tries = 0
    steps = [
        "link - ../victim",
        f"folder {ino.st_dev}:{ino.st_ino} /../../folder",
        "folder 1:1 x/../../folder",
        "rubbish",
        "",
        "\0\udcff",
    ]
    for text in steps:
        place = f"{room}/.t.txforest-{tries:012x}"
        os.mkdir(place, 0o700)
        os.mkdir(f"{place}/made")
        with open(f"{place}/step", "wb") as it:
            it.write(os.fsencode(text))
        if ROOT:
            shell(f"chown -R {NOBODY} '{place}'")
        apply(tree, seconds=60)
        tries += 1
        shutil.rmtree(place, ignore_errors=True)
    kinds: list[Callable[[str], None]] = [
        os.mkfifo,
        lambda it: os.symlink(f"{room}/folder", it),
        write,
    ]
    for make in kinds:
        place = f"{room}/.t.txforest-{tries:012x}"
        make(place)
        apply(tree, seconds=60)
        tries += 1
        os.unlink(place)
    same("the count", count(tree), tries)
    same("a victim", read(f"{room}/victim"), "safe\n")
    same("a folder", os.path.isdir(f"{room}/folder/deep"), True)
    os.unlink(f"{tree}.lock")
    kinds = [os.mkfifo, lambda it: os.symlink(f"{room}/nologin", it), os.mkdir]
    for make in kinds:
        make(f"{tree}.lock")
        apply(tree, status=2, seconds=60)
        tries += 1
        shell(f"rm -rf '{tree}.lock'")
    same("where a lock led", os.path.lexists(f"{room}/nologin"), False)
    return f"{tries} planted places and locks: nothing is moved, removed or waited for"


EXCHANGES = """
import os, sys, time
os.setgid(65534)
os.setuid(65534)
os.chdir(sys.argv[1])
n = 0
while True:
    n += 1
    p = 'd/f%d' % (n % 200)
    os.symlink(sys.argv[2], 'd/.l')
    os.rename(p, 'd/.f')
    os.rename('d/.l', p)
    os.rename('d/.f', p)
    if n % 500 == 0:
        time.sleep(0.5)  # or no job would ever be done
"""


def ways_of_root(room: str, tree: str) -> dict[str, str]:
    """Each way in which root copies of a tree, as a command."""
    tool = f"'{TOOLS}/txforest-apply'"
    job = f"'{tree}' r/spec r/job"
    run = f"'{os.environ['TXFOREST']}' run r/spec in out r/job"
    return {
        "by files": f"{tool} {job}",
        "--exchange": f"{tool} --exchange {job}",
        "--keep": f"{tool} --keep kept {job}",
        "import, export": "rm -rf in in.attributes out;"
        f" '{TOOLS}/txforest-import' --leave-out '{tree}' in && {run} &&"
        f" '{TOOLS}/txforest-export' --attributes in.attributes --replace out '{tree}'",
        "import, export anew": "rm -rf in in.attributes out new;"
        f" '{TOOLS}/txforest-import' --leave-out '{tree}' in && {run} &&"
        f" '{TOOLS}/txforest-export' --attributes in.attributes out new",
    }


def a_name_exchanged_with_a_link_leaks_nothing(room: str, number: int) -> str:
    """While root's jobs run, the tree's owner exchanges a file with a link to a secret: no copy of
    root's has the secret, nor has what is printed or told."""
    needs_root()
    number = number or 60
    os.chmod(os.path.dirname(room), 0o755)
    secret = tempfile.mkdtemp(prefix="live-secret-")
    write(f"{secret}/secret", "SECRET\n")
    os.chmod(f"{secret}/secret", 0o600)
    os.chmod(secret, 0o711)
    os.makedirs(f"{room}/r")
    tree = new_tree(f"{room}/r")
    for i in range(200):
        write(f"{tree}/d/f{i}", "x" * 100)
    shell(f"chown -R {NOBODY}:{NOBODY} '{room}/r'")
    ways = ways_of_root(room, tree)
    words = [sys.executable, "-c", EXCHANGES, tree, f"{secret}/secret"]
    other = subprocess.Popen(words)
    ends: dict[tuple[str, int], int] = {}
    try:
        for turn in range(number):
            way = list(ways)[turn % len(ways)]
            status, told = shell(ways[way], room)
            ends[way, status] = ends.get((way, status), 0) + 1
            if status not in STATUSES or "Traceback" in told or "SECRET" in told:
                raise Wrong(f"{way}: status {status}: {told[-1000:]}")
            leaks = shell(f"grep -rlsx SECRET '{room}' --devices=skip", room)[1]
            same(f"leaks, {way}", [p for p in leaks.split() if not os.path.islink(p)], [])
    finally:
        other.kill()
        other.wait()
        shutil.rmtree(secret)
    if not any(status == 0 for _, status in ends):
        raise Wrong(f"no job was done: {ends}")
    told = ", ".join(f"{way} {key}: {value}" for (way, key), value in sorted(ends.items()))
    return (
        f"{number} jobs of root by {len(ways)} ways beside an owner who exchanges files with links:"
        f" no leak (statuses: {told})"
    )


def statuses_say_what_is_true(room: str, _: int) -> str:
    """Whatever happens, the status is one of the table, and 1 is a transaction that stopped."""
    tries = 0
    tree = new_tree(room)

    def ends(status: int | None, counted: int, *more: str) -> None:
        nonlocal tries
        before = count(tree)
        apply(tree, *more, status=status)
        same(f"counted with {more}", count(tree) - before, counted)
        tries += 1

    os.mkdir(f"{tree}.before-20260101T999999999999")
    os.mkdir(f"{tree}.before-99999999T000000000000")
    ends(0, 1)
    with open(f"{tree}/sparse", "wb") as it:
        it.truncate(3_000_000_000)
    ends(0, 1)
    for words in (["--wait", "1e400"], ["--wait", "nan"], ["--wait=-1"], ["--nope"], ["--nope=1"]):
        ends(2, 0, *words)
    for output in ("/dev/full", None):
        words = command(tree)
        with open(output or os.devnull, "wb") as it:
            before = count(tree)
            ran = subprocess.run(words, stdout=it, stderr=subprocess.PIPE, timeout=60, preexec_fn=(
                None if output else lambda: os.close(1)
            ))
        changed = count(tree) - before
        if (ran.returncode == 0) != (changed == 1) or ran.returncode == 1:
            raise Wrong(f"output to {output}: status {ran.returncode}, changed {changed}")
        tries += 1
    for closed in ((0,), (2,), (0, 1, 2)):
        before = count(tree)
        ran = subprocess.run(
            command(tree),
            stdout=subprocess.DEVNULL,
            stderr=subprocess.DEVNULL,
            preexec_fn=lambda: close_all(closed),
            timeout=60,
        )
        same(f"closed {closed}", (ran.returncode, count(tree) - before), (0, 1))
        same("no file was written over", read(f"{room}/job"), COUNT)
        tries += 1
    for kind in (resource.RLIMIT_FSIZE, resource.RLIMIT_NOFILE, resource.RLIMIT_AS):
        limit = {resource.RLIMIT_FSIZE: 0, resource.RLIMIT_NOFILE: 9}.get(kind, 40_000_000)
        before = count(tree)
        ran = subprocess.run(
            command(tree),
            stdout=subprocess.PIPE,
            stderr=subprocess.STDOUT,
            preexec_fn=lambda: resource.setrlimit(kind, (limit, limit)),
            timeout=60,
        )
        done = ran.returncode in (0, 13, 14)
        if ran.returncode == 1 or b"Traceback" in ran.stdout or (count(tree) - before == 1) != done:
            raise Wrong(f"limit {kind}: {ran.returncode} {ran.stdout.decode()[-800:]}")
        tries += 1
    write(f"{room}/job", "txn { abort }\n")
    ends(1, 0)
    write(f"{room}/job", 'txn { to("n") down remove }\n')
    ends(10, 0)
    write(f"{room}/job", "txn {\n")
    ends(3, 0)
    os.unlink(f"{room}/job")
    ends(5, 0)
    return f"{tries} odd calls: each status is of the table, and says whether the tree was changed"


def attributes_stay_and_rights_go(room: str, _: int) -> str:
    """A file that is replaced keeps its owner, mode, lists and attributes, and loses set-id bits
    and capabilities; another one keeps all."""
    needs_root()
    tree = new_tree(room)
    capability = struct.pack("<IIIII", 0x02000001, 1 << 10, 0, 0, 0)
    lists = shutil.which("setfacl") is not None
    for name in ("n", "x"):
        os.chown(f"{tree}/{name}", 33, 1001)
        os.chmod(f"{tree}/{name}", 0o6751)
        os.setxattr(f"{tree}/{name}", "security.capability", capability)
        os.setxattr(f"{tree}/{name}", "user.note", b"kept")
        if lists:
            shell(f"setfacl -m u:{NOBODY}:rw '{tree}/{name}'; chmod 6751 '{tree}/{name}'")
    wanted = shell(f"getfacl -cp '{tree}/n' | grep -v '^# flags'")[1]
    before = listing(tree)
    apply(tree)
    it = os.stat(f"{tree}/n")
    same("owner", (it.st_uid, it.st_gid), (33, 1001))
    same("mode", oct(stat.S_IMODE(it.st_mode)), "0o751")
    names = [name for name in os.listxattr(f"{tree}/n") if not name.startswith("system.")]
    same("attributes", names, ["user.note"])
    if lists:
        same("access lists", shell(f"getfacl -cp '{tree}/n' | grep -v '^# flags'")[1], wanted)
    same("another file", listing(tree)["x"], before["x"])
    same("its attributes", os.getxattr(f"{tree}/x", "security.capability")[:4], capability[:4])
    more = "" if lists else "; access lists not tried"
    return f"owner, mode and attributes stay, set-id bits and the capability go{more}"


# ---- kills, cuts, refused calls, races, without the program


def kills(_: str, number: int) -> str:
    """Commits that end at each call."""
    from tests import breaking

    return breaking.kills(number or 2000)


def cuts(_: str, number: int) -> str:
    """Power cuts."""
    from tests import breaking

    return breaking.cuts(number or 4000)


def mutations(_: str, number: int) -> str:
    """Commits without one of their syncs."""
    from tests import breaking

    return breaking.mutations(number or 2000)


def refused(_: str, number: int) -> str:
    """Refused calls."""
    from tests import breaking

    return breaking.refused(number or 2000)


def races(_: str, number: int) -> str:
    """Somebody else changes targets at each call."""
    from tests import breaking

    return breaking.races(number or 1300)


# ---- whole jobs


def killed_jobs(room: str, number: int) -> str:
    """Jobs of the tool that are killed at random moments: counted once or not at all, nothing
    left."""
    number = number or 60
    tree = new_tree(room)
    os.symlink("n", f"{tree}/d/link")
    started = time.monotonic()
    apply(tree)
    longest = 1.3 * (time.monotonic() - started)
    shots, counted = 0, 1
    for turn in range(number):
        how = random.choice([signal.SIGKILL, signal.SIGTERM, signal.SIGINT])
        job = subprocess.Popen(command(tree), stdout=subprocess.DEVNULL, stderr=subprocess.DEVNULL)
        time.sleep(random.random() * longest)
        job.send_signal(how)
        status = job.wait()
        shots += status != 0
        ran = subprocess.run([f"{TOOLS}/txforest-apply", "--settle", tree], stderr=subprocess.PIPE)
        same("the settling", ran.returncode, 0)
        now = count(tree)
        if now not in (counted, counted + 1) or status == 0 and now != counted + 1:
            raise Wrong(f"status {status}: counted {now} behind {counted}")
        if status in (128 + signal.SIGTERM, 128 + signal.SIGINT) and now != counted:
            raise Wrong(f"status {status}, and the change is in place")
        counted = now
    same("what is left", sorted(os.listdir(room)), ["job", "spec", "t", "t.lock"])
    found = os.stat(tree)
    front = f"txforest-{found.st_dev:x}-{found.st_ino:x}-"
    same("what is left in memory", [n for n in os.listdir("/dev/shm") if n.startswith(front)], [])
    return f"{number} jobs, {shots} of them ended by a signal: each counted once or not at all"


def jobs_at_once(room: str, number: int) -> str:
    """64 jobs from 8 processes, beside a shell with the lock and a writer without it."""
    number = number or 8
    tree = new_tree(room)
    write(f"{tree}/other", "nobody\n")
    write(f"{room}/spec", '{(k :: file) | k in (one("n") union one("other"))}\n')
    write(f"{room}/job", COUNT.replace(" }", ' top to("other") down store("job\\n") }'))
    loop = " ".join(f"'{word}'" for word in command(tree))
    script = f"for i in $(seq {number}); do {loop} > /dev/null; echo $?; done"
    eight = [
        subprocess.Popen(["bash", "-c", script], stdout=subprocess.PIPE, stderr=subprocess.PIPE)
        for _ in range(8)
    ]
    one = f"echo $(( $(cat {tree}/n) + 1 )) > {room}/c && mv {room}/c {tree}/n"
    with_lock = f"for i in $(seq 20); do flock {tree}.lock sh -c '{one}'; sleep 0.05; done"
    lock_holder = subprocess.Popen(["bash", "-c", with_lock])
    writes = 0
    while lock_holder.poll() is None or any(it.poll() is None for it in eight[:1]):
        writes += 1
        write(f"{room}/his", f"his {writes}\n")
        os.rename(f"{room}/his", f"{tree}/other")
        time.sleep(0.5)
    ends: dict[int, int] = {}
    told = ""
    for it in eight:
        out, err = it.communicate(timeout=600)
        told += err.decode(errors="replace")
        for status in map(int, out.split()):
            ends[status] = ends.get(status, 0) + 1
    done = ends.get(0, 0) + ends.get(13, 0)
    same("counted", count(tree), done + 20)
    same("statuses", set(ends) - {0, 12, 13}, set())
    beside = [name for name in os.listdir(tree) if ".txforest-" in name]
    shown_ends = ", ".join(f"{value} with {key}" for key, value in sorted(ends.items()))
    return (
        f"{8 * number} jobs of 8 processes ({shown_ends}) and 20 shells with the lock all counted;"
        f" {writes} writes without it, {told.count('begins again')} jobs began again,"
        f" {len(beside)} files beside"
    )


TREES = [
    "/etc", "/usr/share/perl5", "/usr/lib/python3", "/usr/share/vim", "/usr/lib/git-core",
    "/usr/share/bash-completion", "/usr/include/linux", "/usr/share/zoneinfo", "/var/lib/dpkg",
    "/usr/share/man", "/usr/share/doc/git", "/usr/lib/systemd", "/usr/share/perl",
]  # fmt: skip


def real_trees(room: str, number: int) -> str:
    """One file of real trees is changed: nothing else differs but its folder's time."""
    number = number or 10
    tried, entries, left_out, told = 0, 0, 0, []
    for source in TREES:
        if tried == number or not os.path.isdir(source):
            continue
        shell(f"rm -rf '{room}/t' && cp -a '{source}/.' '{room}/t'")
        tree = f"{room}/t"
        write(f"{tree}/txforest-counts", "0\n")
        write(f"{tree}/large", "x" * 5_000_000)
        os.mkfifo(f"{tree}/fifo")
        write(f"{tree}/odd\udcff", "x")
        write(f"{room}/spec", '{(k :: file) | k in one("txforest-counts")}\n')
        write(f"{room}/job", COUNT.replace('"n"', '"txforest-counts"'))
        before = listing(tree)
        said = apply(tree, status=None)
        after = listing(tree)
        if "takes at most" in said:
            told.append(f"{source} is above the limits")
            continue
        names = before.keys() | after.keys()
        differ = {name for name in names if before.get(name) != after.get(name)}
        same(f"{source}: what differs", differ, {"", "txforest-counts"})
        same(source, read(f"{tree}/txforest-counts"), "1\n")
        tried += 1
        entries += len(before)
        if "left out" in said:
            left_out += int(said.split(" entr")[0].split()[-1].replace(",", ""))
    more = f"; {'; '.join(told)}" if told else ""
    found = f"{tried} real trees of {entries:,} entries, {left_out:,} left out"
    return f"{found}: one file differs{more}"


def file_systems(room: str, _: int) -> str:
    """Jobs, kills and a conflict on each file system that can be mounted here."""
    needs_root()
    told = []
    for kind in ("ext4", "xfs", "btrfs", "tmpfs", "overlay"):
        at = f"{room}/{kind}"
        os.makedirs(at)
        try:
            if kind == "tmpfs":
                words = "-t tmpfs none"
            elif kind == "overlay":
                os.makedirs(f"{room}/o/lower/r/t/d")
                os.makedirs(f"{room}/over")
                shell(f"mount -t tmpfs none '{room}/over'; mkdir '{room}/over/u' '{room}/over/w'")
                new_tree(f"{room}/o/lower/r", "t2")
                options = f"lowerdir={room}/o/lower,upperdir={room}/over/u,workdir={room}/over/w"
                words = f"-t overlay overlay -o '{options}'"
            else:
                needs(f"mkfs.{kind}")
                image = f"{room}/{kind}.image"
                shell(f"truncate -s 400M '{image}'")
                status, said = shell(f"PATH=$PATH:/usr/sbin mkfs.{kind} -q '{image}'")
                if status:
                    raise PassedOver(said.strip().split("\n")[-1])
                words = f"-o loop '{image}'"
            with mounted(words, at):
                told.append(f"{kind}: {on_file_system(at, kind)}")
        except PassedOver as why:
            told.append(f"{kind} passed over ({why})")
        finally:
            if kind == "overlay":
                shell(f"umount -l '{room}/over'")
    return "; ".join(told)


def on_file_system(at: str, kind: str) -> str:
    """What is tried on one file system."""
    room = f"{at}/r" if kind != "overlay" else f"{at}/r"
    os.makedirs(room, exist_ok=True)
    tree = f"{room}/t2" if kind == "overlay" else new_tree(room, "t2")
    os.symlink("n", f"{tree}/link")
    for _ in range(3):
        apply(tree)
    same("the count", count(tree), 3)
    shot = 0
    for _ in range(10):
        job = subprocess.Popen(command(tree), stdout=subprocess.DEVNULL, stderr=subprocess.DEVNULL)
        time.sleep(random.random() * 0.3)
        job.kill()
        shot += job.wait() != 0
    before = count(tree)
    apply(tree)
    same("settled", count(tree), before + 1)
    ran = subprocess.run(
        command(tree, "--exchange"), stdout=subprocess.DEVNULL, stderr=subprocess.PIPE
    )
    wanted = 2 if kind == "overlay" else 0
    same(f"--exchange: {ran.stderr.decode()}", ran.returncode, wanted)
    same("what is left", [name for name in os.listdir(room) if ".txforest-" in name], [])
    return f"14 jobs, {shot} of them killed, --exchange {'refused' if wanted else 'done'}"


def the_question_agrees_with_show(room: str, number: int) -> str:
    """A last transaction that validates says of each result what `show` says of it."""
    from txforest.attempt import Attempt
    from txforest.lock import lock
    from txforest.place import Tree
    from txforest.program import is_valid

    number = number or 4
    cases: list[tuple[str, str, list[str]]] = []
    for example in sorted(os.listdir(f"{TOP}/examples")):
        at = f"{TOP}/examples/{example}"
        if os.path.isdir(f"{at}/folder") and os.path.isfile(f"{at}/description"):
            names = [n for n in sorted(os.listdir(at)) if read_head(f"{at}/{n}")]
            cases.append((f"{at}/folder", f"{at}/description", [f"{at}/{n}" for n in names]))
    for seed in range(1, number + 1):
        made = f"{room}/g{seed}"
        shell(f"'{os.environ['TXFOREST']}' gen {seed} '{made}'")
        cases.append((f"{made}/in", f"{made}/spec", [f"{made}/s{i}" for i in range(8)]))
    asked, valid = 0, 0
    for folder, spec, scripts in cases:
        tree = f"{room}/t"
        shutil.rmtree(tree, ignore_errors=True)
        shutil.copytree(folder, tree)
        names = [n for n in os.listdir(tree) if n[0] != "."]
        for turn, name in enumerate(names[:3]):
            text = f'txn {{ into down store("{name}") }}\ntxn {{ down remove }}\n'
            write(f"{room}/b{turn}", text)
            scripts.append(f"{room}/b{turn}")
        held = lock(tree)
        with Tree(tree) as opened, Attempt(opened, held) as it:
            for script in scripts:
                if it.run(spec, [script]).status or it.valid is None:
                    continue
                same(f"{folder} {script}", it.valid, is_valid(spec, it.out, [it.room.fd]))
                asked += 1
                valid += it.valid
        os.close(held)
    return f"{asked} results of {len(cases)} folders, {valid} of them valid: the two agree"


def read_head(path: str) -> bool:
    """Whether a file is a script."""
    return os.path.isfile(path) and "txn {" in read(path)[:4000]


# ---- costs


def many_files(tree: str, number: int) -> None:
    """A tree of so many files, a hundred in each folder."""
    for folder in range(max(1, number // 100)):
        os.makedirs(f"{tree}/d{folder:04d}")
        for file in range(99):
            write(f"{tree}/d{folder:04d}/f{file:02d}", f"{file}\n" * 20)
        write(f"{tree}/d{folder:04d}/count", "0\n")


def spent(words: list[str]) -> tuple[float, float]:
    """The processor time and the time of a program that has to end with 0."""
    before, started = resource.getrusage(resource.RUSAGE_CHILDREN), time.perf_counter()
    ran = subprocess.run(words, stdout=subprocess.DEVNULL, stderr=subprocess.PIPE)
    after = resource.getrusage(resource.RUSAGE_CHILDREN)
    if ran.returncode:
        raise Wrong(f"{words}: {ran.returncode} {ran.stderr.decode()[-500:]}")
    used = after.ru_utime + after.ru_stime - before.ru_utime - before.ru_stime
    return used, time.perf_counter() - started


def costs(room: str, number: int) -> str:
    """A job that changes one file, beside `txforest run` alone, in one go."""
    lines = ["", "| files | run | txforest-apply | of run | more | by the clock |"]
    lines.append("|---|---|---|---|---|---|")
    program = os.environ["TXFOREST"]
    base = tempfile.mkdtemp(dir="/dev/shm") if os.access("/dev/shm", os.W_OK) else room
    try:
        for files in (100, 10_000, 60_000):
            tree = f"{base}/t{files}"
            many_files(tree, files)
            folder = "<e : dir, {(f :: file) | f in e}>"
            write(f"{base}/spec", f"<d : dir, {{(k :: {folder}) | k in d}}>\n")
            step = 'into next to("d0000") down into next to("count") down'
            write(f"{base}/job", COUNT.replace('to("n") down', step))
            runs, jobs = [], []
            for _ in range(number or (9 if files < 60_000 else 3)):
                shutil.rmtree(f"{base}/out", ignore_errors=True)
                words = [program, "run", f"{base}/spec", tree, f"{base}/out", f"{base}/job"]
                runs.append(spent(words))
                jobs.append(spent(command(tree)))
            run, job = (min(it[0] for it in them) for them in (runs, jobs))
            clock = min(it[1] for it in jobs)
            lines.append(
                f"| {files:,} | {run:.3f} s | {job:.3f} s | {job / run:.1f} |"
                f" {1000 * (job - run):.0f} ms | {clock:.2f} s |"
            )
            shutil.rmtree(tree)
    finally:
        if base != room:
            shutil.rmtree(base)
    return "\n".join([*lines, f"processor time, the least of all turns; {live_queue.machine()}"])


ROWS = [
    edits_of_others_stay,
    a_tree_with_a_link_counts,
    nothing_that_comes_is_lost,
    a_shell_in_the_tree_stays_in_it,
    bind_mounts_watchers_links_lists,
    a_lock_that_is_handed_down_counts,
    a_mount_below_is_kept,
    what_stays_stops_no_job,
    planted_places_and_locks_do_nothing,
    a_name_exchanged_with_a_link_leaks_nothing,
    statuses_say_what_is_true,
    attributes_stay_and_rights_go,
]
PARTS = [
    *ROWS,
    kills,
    cuts,
    mutations,
    refused,
    races,
    killed_jobs,
    jobs_at_once,
    real_trees,
    file_systems,
    the_question_agrees_with_show,
    costs,
    *live_looks.PARTS,
    *live_queue.PARTS,
]


def main() -> int:
    """Does the parts that are named, else all."""
    random.seed(int(os.environ.get("SEED", "1")))
    with tempfile.TemporaryDirectory(prefix="live-program-") as folder:
        os.chmod(folder, 0o755)  # other users run the program too
        os.environ["TXFOREST"] = shutil.copy(os.environ["TXFOREST"], f"{folder}/txforest")
        return do_parts()


def do_parts() -> int:
    """Does the parts that are named."""
    wanted = dict(word.partition("=")[::2] for word in sys.argv[1:])
    if "rows" in wanted:
        wanted = {part.__name__: "" for part in ROWS}
    bad = 0
    for part in PARTS:
        name = part.__name__
        if wanted and name not in wanted:
            continue
        base = tempfile.mkdtemp(prefix="live-")
        room = f"{base}/room"
        os.mkdir(room)
        started = time.monotonic()
        try:
            line = part(room, int(wanted.get(name) or 0))
            print(f"{name}: {line} ({time.monotonic() - started:.0f} s)", flush=True)
        except PassedOver as why:
            print(f"{name}: passed over: {why}", flush=True)
        except (Wrong, AssertionError, subprocess.TimeoutExpired) as wrong:
            print(f"{name}: WRONG: {wrong}", flush=True)
            bad += 1
            if not os.environ.get("GO_ON"):
                return 1
        finally:
            shutil.rmtree(base, ignore_errors=True)
    return 1 if bad else 0


if __name__ == "__main__":
    sys.exit(main())

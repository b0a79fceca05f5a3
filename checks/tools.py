"""Tries the tools on real trees and on hostile ones.

usage: tools.py [PART...]   with TXFOREST set to the program

Each part prints a line with what it counted. Copies are made below TMPDIR.
"""

from __future__ import annotations

import os
import random
import re
import shutil
import signal
import socket
import stat
import subprocess
import sys
import tempfile
import threading
import time
import xml.dom.minidom
from collections.abc import Callable, Iterable, Mapping, Sequence

TOP = os.path.dirname(os.path.dirname(os.path.abspath(__file__)))
TOOLS = os.path.join(TOP, "tools")
PROGRAM = os.path.abspath(os.environ.get("TXFOREST", "txforest"))
NAMES = ["import", "export", "apply", "explain", "schedules", "picture", "report"]
CONFIG = os.path.join(TOP, "examples", "config")
NOBODY = 65534


class Wrong(Exception):
    """Something is not as it should be."""


def tool(
    name: str,
    *words: str,
    status: int = 0,
    say: Iterable[str] = (),
    room: str | None = None,
    env: Mapping[str, str] | None = None,
    preexec_fn: Callable[[], None] | None = None,
) -> str:
    """Runs a tool, which has to end with this status and to say each of these words.

    Answers what it printed.
    """
    ran = subprocess.run(
        [os.path.join(TOOLS, f"txforest-{name}"), *words],
        cwd=room,
        stdin=subprocess.DEVNULL,
        stdout=subprocess.PIPE,
        stderr=subprocess.STDOUT,
        timeout=600,
        env=env,
        preexec_fn=preexec_fn,
    )
    told = ran.stdout.decode(errors="replace")
    if ran.returncode != status or any(word not in told for word in say) or "Traceback" in told:
        raise Wrong(
            f"txforest-{name} {words}: status {ran.returncode}, not {status} with"
            f" {say}:\n{told[-3000:]}"
        )
    return told


def shell(command: str, room: str | None = None) -> tuple[int, str]:
    """A command's status, and what it printed."""
    ran = subprocess.run(
        ["bash", "-c", command],
        cwd=room,
        stdout=subprocess.PIPE,
        stderr=subprocess.STDOUT,
        timeout=600,
    )
    return ran.returncode, ran.stdout.decode(errors="replace")


def same(what: str, found: object, wanted: object) -> None:
    """Two things have to be equal."""
    if found != wanted:
        raise Wrong(f"{what}: {found!r} and not {wanted!r}")


def write(path: str, text: str = "") -> None:
    """Writes a file."""
    with open(path, "w", encoding="utf-8") as it:
        it.write(text)


def read(path: str) -> str:
    """What a file holds."""
    with open(path, encoding="utf-8") as it:
        return it.read()


def left(room: str, *but: str) -> list[str]:
    """What stands in a room besides what should."""
    return sorted(set(os.listdir(room)) - set(but))


def attributes(tree: str) -> str:
    """Each entry of a tree with its kind, mode, owners, time and target."""
    return shell("find . -printf '%p %y %m %U %G %T@ %l\\n' | LC_ALL=C sort", tree)[1]


# ---- real trees

TREES = [
    "/etc",
    "/usr/share/zoneinfo",
    "/usr/share/perl",
    "/usr/lib/python3",
    os.path.dirname(os.__file__) + "/email",
    os.path.dirname(os.__file__) + "/test/support",
    "/usr/include/linux",
    "/var/lib/dpkg",
    "/usr/share/bash-completion",
    "/usr/share/doc",
]


def trees(room: str) -> str:
    """Import, a run that does nothing, export: each tree comes back as it was."""
    write(f"{room}/dir", "dir\n")
    write(f"{room}/nothing")
    count = entries = links = large = 0
    for tree in TREES:
        if not os.path.isdir(tree):
            continue
        for name in ("copy", "folder", "out", "back"):
            shell(f"rm -rf {room}/{name}*")
        shell(f"cp -a {tree} {room}/copy")
        offenders = shell(
            (
                "find copy ! -type d ! -type f ! -type l -printf '/%P\\n' -o -type f -size"
                " +1048576c -printf '/%P\\n'"
            ),
            room,
        )[1].splitlines()
        total = int(
            shell(
                (
                    "find copy -type f -size -1048577c -printf '%s\\n' | awk '{ n += $1 } END {"
                    " print n + 0 }'"
                ),
                room,
            )[1]
        )
        if total > 67_000_000:
            tool(
                "import",
                "copy",
                "folder",
                "--as",
                tree,
                status=4,
                say=["--only narrows what is taken"],
                room=room,
            )
            large += 1
            continue
        if offenders:
            told = tool(
                "import",
                "copy",
                "folder",
                "--as",
                tree,
                status=1,
                say=["none is; --leave-out"],
                room=room,
            )
            for path in offenders:
                if f": {path} (" not in told and f": {path}: " not in told:
                    raise Wrong(f"{tree}: {path} is not told")
            same("left behind", left(room, "dir", "nothing", "copy"), [])
            large += len(offenders)
            tool("import", "copy", "folder", "--as", tree, "--leave-out", room=room)
            # The way back has all but what was told; what is too much is taken out of the copy,
            # from the attributes' list.
            taken = {
                line.split(" ")[0] for line in read(f"{room}/folder.attributes").splitlines()[2:]
            }
            for at, folders, files in os.walk(f"{room}/copy", topdown=False):
                below = at[len(f"{room}/copy") :]
                before = os.lstat(at)
                for n in files + folders:
                    if spelled(f"{below}/{n}") not in taken:
                        if os.path.isdir(f"{at}/{n}") and not os.path.islink(f"{at}/{n}"):
                            shutil.rmtree(f"{at}/{n}")
                        else:
                            os.unlink(f"{at}/{n}")
                os.utime(at, ns=(before.st_atime_ns, before.st_mtime_ns))
        else:
            tool("import", "copy", "folder", "--as", tree, room=room)
        same(
            "the run",
            shell(f"{PROGRAM} run dir folder out nothing", room),
            (0, "forest report 1\nentries 0\nretries 0\nend\n"),
        )
        tool("export", "--attributes", "folder.attributes", "out", "back", room=room)
        same(f"{tree}, by diff", shell("diff -r --no-dereference copy back", room), (0, ""))
        same(
            f"{tree}, modes, owners and times",
            attributes(f"{room}/copy") == attributes(f"{room}/back"),
            True,
        )
        count += 1
        entries += int(shell("find copy | wc -l", room)[1])
        links += int(shell("find copy -type l | wc -l", room)[1])
    return (
        f"{count} real trees of {entries:,} entries, {links:,} of them links, came back as they"
        f" were; {large} entries and trees that can't be taken were told"
    )


def spelled(path: str) -> str:
    """A path as the lists of attributes spell it."""
    return "".join(
        chr(b) if 0x21 <= b <= 0x7E and b != 0x25 else f"%{b:02X}" for b in os.fsencode(path)
    )


# ---- hostile trees


def as_nobody() -> None:
    """Gives up the rights of root."""
    os.setgid(NOBODY)
    os.setuid(NOBODY)


def refused_tree(
    room: str,
    name: str,
    make: Callable[[str], object],
    status: int,
    say: Sequence[str],
    words: Sequence[str] = (),
    preexec_fn: Callable[[], None] | None = None,
) -> None:
    """A tree that import refuses with these words.

    It is left as it was, with nothing made.
    """
    tree = os.path.join(room, name)
    os.mkdir(tree)
    write(f"{tree}/good", "good")
    make(tree)
    before = attributes(tree)
    tool("import", tree, f"{room}/f", *words, status=status, say=say, preexec_fn=preexec_fn)
    same(f"{name}: what is left", left(room, name), [])
    same(f"{name}: the tree", attributes(tree) == before, True)
    shell(f"rm -rf {room}/*")


def deep(tree: str, names: int) -> None:
    """Makes directories within each other."""
    os.makedirs(os.path.join(tree, *["d"] * names))


def full_of(tree: str, number: int, size: int) -> None:
    """Makes files of a size."""
    for i in range(number):
        with open(f"{tree}/{i:03d}", "wb") as it:
            it.truncate(size)


def hostile(room: str) -> str:
    """Trees that can't be taken, or only in part; folders that can't be exported."""
    tries = 0

    def bad(
        name: str,
        make: Callable[[str], object],
        status: int,
        say: Sequence[str],
        preexec_fn: Callable[[], None] | None = None,
    ) -> None:
        nonlocal tries
        refused_tree(room, name, make, status, say, preexec_fn=preexec_fn)
        tries += 1

    def unreadable(t: str) -> None:
        os.mkdir(f"{t}/shut", 0o700)
        write(f"{t}/key")
        os.chmod(f"{t}/key", 0o600)

    def folder_of_a_name(t: str) -> None:
        os.mkdir(os.fsencode(t) + b"/\xff")
        open(os.fsencode(t) + b"/\xff/x", "wb").write(b"abcd")

    def link_text(t: str) -> None:
        os.symlink("/".join(["x"] * 65), f"{t}/l")
        os.symlink(b"\xff", f"{t}/m")

    def clash(t: str) -> None:
        os.mkdir(f"{t}/usr")
        write(f"{t}/usr/x")
        os.symlink("/usr/x", f"{t}/l")

    bad("fifo", lambda t: os.mkfifo(f"{t}/a\npipe"), 1, ['"/a\\npipe": a FIFO'])
    bad("socket", lambda t: socket.socket(socket.AF_UNIX).bind(f"{t}/s"), 1, ["/s: a socket"])
    if os.geteuid() == 0:
        bad(
            "device",
            lambda t: os.mknod(f"{t}/null", stat.S_IFCHR | 0o666, os.makedev(1, 3)),
            1,
            ["/null: a character device"],
        )
        bad(
            "unreadable",
            unreadable,
            1,
            ["/key (0 bytes): can't be read", "/shut: can't be read: Permission denied"],
            preexec_fn=as_nobody,
        )
    bad(
        "name",
        lambda t: open(os.fsencode(t) + b"/\xff\xfe", "wb").write(b"abc"),
        1,
        ['"/\\xff\\xfe" (3 bytes): its name is no UTF-8'],
    )
    bad("folder of a name", folder_of_a_name, 1, ['"/\\xff": its name'])
    bad(
        "table",
        lambda t: write(f"{t}/.forest-links"),
        1,
        ["/.forest-links (0 bytes): a name that txforest keeps"],
    )
    bad(
        "large",
        lambda t: full_of(t, 2, 1_048_577),
        1,
        [
            "/000 (1,048,577 bytes): a file above 1 MiB",
            "/001 (1,048,577 bytes)",
            "2 entries can't be taken",
        ],
    )
    bad(
        "together",
        lambda t: full_of(t, 66, 1_048_576),
        4,
        ["the program takes at most 100,000 and 67,108,864; --only narrows what is taken"],
    )
    bad("deep", lambda t: deep(t, 66), 1, ["/d/d: more than 64 names deep"])
    bad(
        "link text",
        link_text,
        1,
        ["/l: a link to x/x", '/m: a link to "\\xff", which is no text of a link'],
    )
    bad(
        "clash",
        clash,
        1,
        ["/l: a link to /usr/x leads out of the tree, and in the folder it would lead to /usr/x"],
    )

    # What is left out is told, and the rest comes back.
    tree = f"{room}/tree"
    os.makedirs(f"{tree}/d")
    os.mkfifo(f"{tree}/d/p")
    for name in ["a b", "a%b", 'a"b', "a\nb", "a\\b", " ", "é", "-x", "*"]:
        write(f"{tree}/d/{name}", name)
        os.symlink(name, f"{tree}/to {name}")
    for name, text in {
        "loop": "loop",
        "one": "two",
        "two": "one",
        "up": "..",
        "slash": "d/",
        "double": "d//p",
        "here": "./d",
        "root": "/",
        "out": "../elsewhere",
        "in": f"{tree}/d",
        "self": ".",
        "gone": "x/y",
    }.items():
        os.symlink(text, f"{tree}/{name}")
    write(f"{tree}/run")
    os.chmod(f"{tree}/run", 0o4750)
    os.chmod(f"{tree}/d", 0o2711)
    write(f"{tree}/secret")
    os.chmod(f"{tree}/secret", 0o600)
    try:
        os.setxattr(f"{tree}/run", "user.note", b"a %\n")
    except OSError:
        pass
    tool(
        "import",
        "--leave-out",
        tree,
        f"{room}/f",
        say=[
            "/d/p: a FIFO",
            "/root: a link to / leads out of the tree, and in the folder it would lead to /",
            "/up: a link to .. leads out",
            "/out: a link to ../elsewhere leads out of the tree; it is kept",
        ],
    )
    shell("rm tree/d/p tree/root tree/up; touch -r f/d tree/d; touch -r f tree", room)
    same("the table", read(f"{room}/f/.forest-links").startswith("version 2\n"), True)
    same("a flag", "/run *" in read(f"{room}/f/.forest-links").splitlines(), True)
    same(
        "an absolute link into the tree",
        "/in -> /d" in read(f"{room}/f/.forest-links").splitlines(),
        True,
    )
    same("a mode in the folder", stat.S_IMODE(os.lstat(f"{room}/f/secret").st_mode), 0o600)
    write(
        f"{room}/dir",
        (
            '<d : dir, <s : ("secret" :: file), <r : ("run" :: file), <n : ("new" :: file), ("d" ::'
            ' <m : ("made" :: file), ("ln" :: link)>)>>>>'
        ),
    )
    write(
        f"{room}/s",
        (
            'txn { into next into down store("new") up next into down store(false) up next into'
            ' down store("x") up next down into down store("y") store(true) up next down'
            ' store("/d/made") }'
        ),
    )
    tool("import", "--no-flags", tree, f"{room}/plain")
    same("a table without flags", read(f"{room}/plain/.forest-links").startswith("/"), True)
    same(
        "the run",
        shell(f"{PROGRAM} run dir f out s", room)[1].split("\n")[2],
        "entry 0 shell 0 txn 0 done",
    )
    tool("export", "--attributes", f"{room}/f.attributes", f"{room}/out", f"{room}/back")
    same(
        "the back tree",
        shell("diff -r --no-dereference tree back", room)[1].splitlines(),
        [
            "Only in back/d: ln",
            "Only in back/d: made",
            "Only in back: new",
            "diff -r --no-dereference tree/secret back/secret",
            "0a1",
            "> new",
            "\\ No newline at end of file",
        ],
    )
    modes = {
        name: f"{stat.S_IMODE(os.lstat(f'{room}/back/{name}').st_mode):o}"
        for name in ("run", "secret", "new", "d", "d/made")
    }
    same(
        "modes", modes, {"run": "4640", "secret": "600", "new": "644", "d": "2711", "d/made": "700"}
    )
    same(
        "further attributes",
        [(n, os.getxattr(f"{room}/back/run", n)) for n in os.listxattr(f"{room}/back/run")],
        [(n, os.getxattr(f"{tree}/run", n)) for n in os.listxattr(f"{tree}/run")],
    )
    same("rights in the folder", oct(os.lstat(f"{room}/f/run").st_mode & 0o7777), "0o750")
    same("a new link", os.readlink(f"{room}/back/d/ln"), "../d/made")
    tool("export", f"{room}/plain", f"{room}/plainback")
    same("without flags", attributes(f"{room}/plainback") == attributes(tree), True)
    # Into the tree itself: only what OUT changed; and not without what was kept of it.
    shell("cp -a tree standing", room)
    tool("export", "out", "standing", status=6, say=["--replace"], room=room)
    tool(
        "export",
        "--replace",
        "out",
        "standing",
        status=2,
        say=["nobody knows what OUT changed"],
        room=room,
    )
    tool("export", "--attributes", "f.attributes", "--replace", "out", "standing", room=room)
    modes = {
        name: f"{stat.S_IMODE(os.lstat(f'{room}/standing/{name}').st_mode):o}"
        for name in ("run", "secret", "new", "d", "d/made")
    }
    same(
        "modes there",
        modes,
        {"run": "4640", "secret": "600", "new": "644", "d": "2711", "d/made": "700"},
    )
    same(
        "what differs",
        [
            line
            for line in shell("diff -r --no-dereference tree standing", room)[1].splitlines()
            if line.startswith("Only")
        ],
        ["Only in standing/d: ln", "Only in standing/d: made", "Only in standing: new"],
    )
    tool("import", tree, f"{tree}/d/f", status=2, say=["lies in the tree itself"])
    tool("import", tree, f"{room}/out", status=6, say=["something stands there"])
    tool("import", f"{room}/none", f"{room}/x", status=2, say=["no folder stands there"])
    tool("export", f"{room}/out", f"{room}/out/x", status=2, say=["lies in the folder itself"])
    os.symlink("x", f"{room}/out/link")
    tool(
        "export",
        "out",
        "x",
        status=4,
        say=["/link (1 byte): a symbolic link to x; links stand in the table"],
        room=room,
    )
    return (
        f"{tries + 12} hostile trees and folders were told with their paths, or came back as they"
        " were"
    )


# ---- apply

COUNT = '("n" :: file)\n'
PLUS = "txn { down fetch n : str store(text((int(n) + 1))) }\n"


def counted(room: str) -> None:
    """A folder with a count, its description, and a script that adds one."""
    os.makedirs(f"{room}/f")
    write(f"{room}/f/n", "0")
    write(f"{room}/d", COUNT)
    write(f"{room}/s", PLUS)


STAMPED = r"(f\.before-|live\.)\d{8}T\d{6}(-\d{6})?"


def together(room: str) -> str:
    """100 jobs from 8 processes at once, in each way to commit.

    Another looks at the tree all the time.
    """
    seen = 0
    ways: list[list[str]] = [
        [],
        ["--exchange", "--before", "5"],
        ["--link", "live", "--before", "5"],
    ]
    for way in ways:
        shutil.rmtree(room)
        counted(room)
        target = "live" if "--link" in way else "f"
        words = " ".join(way if "--link" in way else [*way, "f"])
        if target == "live":
            os.symlink("f", f"{room}/live")
        done, looks = threading.Event(), 0
        wrong: list[str] = []

        def look() -> None:
            nonlocal looks
            while not done.is_set():
                try:
                    folder = os.open(f"{room}/{target}", os.O_RDONLY)
                    number = os.open("n", os.O_RDONLY, dir_fd=folder)
                    if not os.read(number, 9).isdigit():
                        wrong.append("an empty count")
                    os.close(number)
                    os.close(folder)
                except OSError as error:
                    wrong.append(str(error))
                looks += 1
                time.sleep(0.001)

        watcher = threading.Thread(target=look)
        watcher.start()
        jobs = [13] * 4 + [12] * 4
        line = f"for i in $(seq $JOBS); do {TOOLS}/txforest-apply {words} d s || exit 1; done"
        running = [
            subprocess.Popen(
                ["bash", "-c", line],
                cwd=room,
                env={**os.environ, "JOBS": str(n)},
                stdout=subprocess.PIPE,
                stderr=subprocess.STDOUT,
            )
            for n in jobs
        ]
        for job in running:
            told = job.communicate(timeout=600)[0].decode()
            same(f"a job: {told[-500:]}", job.returncode, 0)
        done.set()
        watcher.join()
        same("the count", read(f"{room}/{target}/n"), "100")
        same("each look", wrong[:3], [])
        same(
            "trees of before",
            len([n for n in os.listdir(room) if re.fullmatch(STAMPED, n)]),
            {0: 0, 3: 5, 4: 6}[len(way)],
        )
        seen += looks
    return (
        f"three times 100 jobs from 8 processes at once lost no change; {seen:,} looks in between"
        " saw a whole count"
    )


def generation(folder: str) -> int:
    """The generation of a folder whose files all hold the same number.

    It is an error where the folder is not whole.
    """
    found = {read(f"{folder}/d{i // 10}/f{i}") for i in range(50)}
    if len(found) != 1:
        raise Wrong(f"{folder} is not whole: {found}")
    return int(found.pop())


def killed(room: str, times: int = 99) -> str:
    """A kill at a random moment leaves the old or the new tree.

    It is whole once the next job has settled it; where the commit is one step, at once.
    """
    write(f"{room}/d", "<d : dir, {(x :: <e : dir, {(n :: file) | n in e}>) | x in d}>")
    write(f"{room}/none")
    old = new = cleared = 0
    spent: dict[str, float] = {}
    ways: list[list[str]] = [[], ["--exchange"], ["--link"]]
    for number in range(times):
        way = ways[number % 3]
        key = "".join(way)
        target = f"{room}/{'live' if way == ['--link'] else 'f'}{number % 3}"
        if not os.path.lexists(target):
            where = target + ".first" if way == ["--link"] else target
            for i in range(50):
                os.makedirs(f"{where}/d{i // 10}", exist_ok=True)
                write(f"{where}/d{i // 10}/f{i}", "0")
            if way == ["--link"]:
                os.symlink(os.path.basename(where), target)
        before = generation(target)
        body = " ".join(
            f'into next to("d{i // 10}") down into next to("f{i}") down store("{before + 1}") top'
            for i in range(50)
        )
        write(f"{room}/s", f"txn {{ {body} }}")
        words = [f"{TOOLS}/txforest-apply", *way, target, "d", "s"]
        at = spent.get(key)
        started = time.monotonic()
        job = subprocess.Popen(
            words,
            cwd=room,
            stdout=subprocess.DEVNULL,
            stderr=subprocess.DEVNULL,
            start_new_session=True,
        )
        if at is None:
            same("the first job", job.wait(60), 0)
            spent[key] = time.monotonic() - started
            new += 1
            continue
        # Half of the kills fall anywhere, half in the last quarter, where the commit is.
        time.sleep(random.uniform(0.02 if number % 2 else at * 0.75, at * 1.05))
        if number % 4:
            job.send_signal(signal.SIGKILL)
        else:
            os.killpg(job.pid, signal.SIGKILL)
        job.wait(60)
        if way:
            generation(target)
        there = [
            n for n in os.listdir(room) if n.startswith(f".{os.path.basename(target)}.txforest-")
        ]
        tool("apply", *way, target, "d", "none", room=room)
        after = generation(target)
        same("the generation", after in (before, before + 1), True)
        old, new = old + (after == before), new + (after == before + 1)
        same(
            "what is left",
            [n for n in os.listdir(room) if n.startswith(f".{os.path.basename(target)}.txforest-")],
            [],
        )
        cleared += len(there)
        for name in os.listdir(room):
            if ".before-" in name or re.fullmatch(r"live\d\.\d{8}T[\d-]+", name):
                generation(f"{room}/{name}")
    return (
        f"{times} kills at random moments left {old} times the old and {new} times the new tree"
        f" whole; {cleared} broken places were settled"
    )


HOOK = """
import os, runpy, signal, sys
kill_at, tool = int(sys.argv[1]), sys.argv[2]
sys.argv = sys.argv[2:]
sys.path.insert(0, os.path.dirname(tool))
EVENTS = (
    "os.rename", "os.mkdir", "os.symlink", "os.remove", "os.rmdir", "os.chmod", "os.utime",
    "os.chown", "subprocess.Popen",
)
WRITES = os.O_WRONLY | os.O_RDWR | os.O_CREAT
count = 0
def hook(event, given):
    global count
    if event in EVENTS or event == "open" and given[2] & WRITES:
        if count == kill_at:
            os.kill(os.getpid(), signal.SIGKILL)
        count += 1
sys.addaudithook(hook)
runpy.run_path(tool, run_name="__main__")
"""


def steps(room: str) -> str:
    """A kill before each single call that changes something, of import and export.

    Then somebody settles.
    """
    write(f"{room}/hook.py", HOOK)
    write(f"{room}/d", '<a : ("a" :: file), ("d/b" :: file)>')
    write(f"{room}/none")
    kills = ended = 0
    environment = {**os.environ, "PYTHONDONTWRITEBYTECODE": "1"}
    make = (
        "chmod -R u+w f* g* 2> /dev/null; rm -rf f* g* .f* .g* out; mkdir -p f/d; printf 1 > f/a;"
        " printf 1 > f/d/b"
    )
    for name, words, before in [
        ("import", ["f", "g"], "true"),
        (
            "export",
            ["--attributes", "g.attributes", "out", "fresh"],
            f"{TOOLS}/txforest-import f g > told; cp -r g out",
        ),
        (
            "export",
            ["--attributes", "g.attributes", "--replace", "out", "f"],
            (
                f"{TOOLS}/txforest-import f g > told; cp -r g out; printf 2 > out/a; printf 2 >"
                " out/d/b"
            ),
        ),
    ]:
        for at in range(1000):
            shell(f"{make}; {before}", room)
            ran = subprocess.run(
                [
                    sys.executable,
                    "-B",
                    f"{room}/hook.py",
                    str(at),
                    f"{TOOLS}/txforest-{name}",
                    *words,
                ],
                cwd=room,
                env=environment,
                stdout=subprocess.PIPE,
                stderr=subprocess.STDOUT,
            )
            if ran.returncode == 0:
                break
            same(
                f"{name} {words}, killed before call {at}: {ran.stdout.decode()}",
                ran.returncode,
                -signal.SIGKILL,
            )
            kills += 1
            target = f"{room}/{words[-1]}"
            found: tuple[str, str] | None
            if "--replace" in words:
                tool("apply", "--settle", "f", room=room, env=environment)
                found = read(f"{target}/a"), read(f"{target}/d/b")
                same(
                    f"{words}, killed before call {at}, leaves {found}",
                    found in [("1", "1"), ("2", "2")],
                    True,
                )
                ended += found == ("2", "2")
                same("what is left", [n for n in os.listdir(room) if n.startswith(".f.")], [])
            else:
                found = (
                    (read(f"{target}/a"), read(f"{target}/d/b"))
                    if os.path.lexists(target)
                    else None
                )
                same(
                    f"{words}, killed before call {at}, leaves {found}",
                    found in [None, ("1", "1")],
                    True,
                )
                if found is None:
                    tool(name, *words, room=room, env=environment)
                    same(
                        "what is left",
                        [n for n in os.listdir(room) if n.startswith(f".{words[-1]}.")],
                        [],
                    )
    return (
        f"{kills} kills of import and export, before each call that changes something: the tree or"
        f" folder was there whole or not at all, {ended} times as soon as it was settled"
    )


def refusals(room: str) -> str:
    """What apply refuses leaves the folder and its surroundings as they were."""
    counted(room)
    before = attributes(f"{room}/f")
    write(f"{room}/stops", "txn { down down }\ntxn { abort }\n" + PLUS)
    write(f"{room}/empties", "txn { down remove }\n")
    write(f"{room}/bad", "txn {")
    write(f"{room}/g")
    os.symlink("f", f"{room}/live")
    tries: list[tuple[tuple[str, ...], int, list[str]]] = [
        (
            ("--in-place", "f", "d", "stops"),
            1,
            [
                "stops: transaction 0 stopped 1 1 NoStep",
                "stops: transaction 1 aborted",
                "2 transactions not done",
            ],
        ),
        (("--in-place", "f", "d", "empties"), 10, ["has no value by d"]),
        (("--in-place", "f", "d", "bad"), 3, ["txforest: bad: Unexpected 5"]),
        (("--in-place", "f", "none", "s"), 5, ["none: nothing stands there"]),
        (("g", "d", "s"), 2, ["no directory that can be read"]),
        (("live", "d", "s"), 2, ["but a symbolic link to"]),
        (("--link", "f", "d", "s"), 2, ["no symbolic link to a folder"]),
        (("/", "d", "s"), 2, ["nothing can stand beside it"]),
        (("d", "s"), 2, ["usage"]),
        (("--exchange", "f", "--before", "-1", "d", "s"), 2, ["of 0 or more"]),
        (("--in-place", "f", "d"), 2, ["usage"]),
    ]
    for words, status, say in tries:
        tool("apply", *words, status=status, say=say, room=room)
        same("the folder", attributes(f"{room}/f") == before, True)
        same(
            "what is left",
            left(room, "f", "d", "s", "g", "bad", "none", "stops", "empties", "live", "f.lock"),
            [],
        )
    shell("mkdir f/sub; ln -s .. f/sub/back", room)
    tool(
        "apply",
        "--link",
        "f/sub/back",
        "d",
        "s",
        status=2,
        say=["lies in the folder itself"],
        room=room,
    )
    shell("rm -r f/sub", room)
    tool(
        "apply",
        "--in-place",
        "f",
        "--allow-stopped",
        "d",
        "stops",
        room=room,
        say=["entry 2 shell 0 txn 2 done"],
    )
    same("what went on", read(f"{room}/f/n"), "1")
    # A job that changes nothing leaves even the folder's number; one that waits too long says so.
    number = os.stat(f"{room}/f").st_ino
    write(f"{room}/nothing")
    tool("apply", "--in-place", "f", "d", "nothing", room=room)
    same("the folder itself", os.stat(f"{room}/f").st_ino, number)
    holder = subprocess.Popen(["flock", f"{room}/f.lock", "sleep", "30"])
    time.sleep(0.3)
    tool(
        "apply",
        "--in-place",
        "f",
        "--wait",
        "0.2",
        "d",
        "s",
        status=11,
        say=["another job holds the lock"],
        room=room,
    )
    holder.kill()
    holder.wait()
    shell("pkill -P $$ sleep; true")
    # A report that can't be printed is told, and the status says that the change is in place.
    for number, sink in enumerate(("> /dev/full", "| true"), 2):
        status, told = shell(
            f"set -o pipefail; (sleep 0.2; {TOOLS}/txforest-apply --in-place f d s) {sink}", room
        )
        same(
            f"a report {sink}",
            (status, read(f"{room}/f/n"), "could not be printed" in told),
            (0, str(number), True),
        )
    # Modes, owners, times and access lists stay; new entries get those of their directory.
    shell(
        (
            "rm -rf f*; mkdir -m 750 f; printf 7 > f/n; printf key > f/key; chmod 600 f/key; chmod"
            " 2750 f; touch -d 2001-02-03 f/key f/n"
        ),
        room,
    )
    write(f"{room}/more", '<n : ("n" :: file), <k : ("key" :: file), ("new/file" :: file)>>')
    write(f"{room}/m", 'txn { into down store("8") up next into next down store("x") }')
    tool("apply", "--in-place", "f", "more", "m", room=room)
    modes = {
        n: f"{stat.S_IMODE(os.lstat(f'{room}/f/{n}').st_mode):o}"
        for n in (".", "key", "n", "new", "new/file")
    }
    same("modes", modes, {".": "2750", "key": "600", "n": "644", "new": "2750", "new/file": "640"})
    same("the time of what is as it was", int(os.lstat(f"{room}/f/key").st_mtime), 981158400)
    same("the time of what changed", os.lstat(f"{room}/f/n").st_mtime > 1e9, True)
    # A signal that asks to end leaves nothing behind.
    for delay in (0.05, 0.1, 0.2, 0.3):
        job = subprocess.Popen(
            [f"{TOOLS}/txforest-apply", "--in-place", "f", "more", "m"],
            cwd=room,
            stdout=subprocess.DEVNULL,
            stderr=subprocess.DEVNULL,
        )
        time.sleep(delay)
        job.terminate()
        job.wait(60)
        same("what a signal leaves", [n for n in os.listdir(room) if n.startswith(".")], [])
    return (
        f"{len(tries) + 10} jobs that are refused changed nothing; modes, owners and times stayed"
    )


def full(room: str) -> str:
    """A full disk, in each tool that writes: the cause is told, and nothing is left half done."""
    if os.geteuid() != 0 or shell(f"mount -t tmpfs -o size=1m,nr_inodes=64 none {room}")[0]:
        return "a full disk was not tried: a file system can't be mounted here"
    try:
        with tempfile.TemporaryDirectory(prefix="tools-") as other:
            os.makedirs(f"{other}/big")
            full_of(f"{other}/big", 3, 700_000)
            os.makedirs(f"{other}/many")
            full_of(f"{other}/many", 100, 1)
            for name in ("big", "many"):
                tool(
                    "import",
                    f"{other}/{name}",
                    f"{room}/f",
                    status=9,
                    say=["No space left on device"],
                )
                tool(
                    "export",
                    f"{other}/{name}",
                    f"{room}/t",
                    status=9,
                    say=["No space left on device"],
                )
                same("what is left", left(room), [])
            os.mkdir(f"{room}/f")
            with open(f"{room}/f/a", "wb") as it:
                it.write(b"x" * 600_000)
            write(f"{room}/d", '("a" :: file)')
            write(f"{room}/s", 'txn { down fetch a : str store((a ++ "y")) }')
            tool(
                "apply",
                "--in-place",
                "f",
                "d",
                "s",
                status=9,
                say=["No space left on device"],
                room=room,
            )
            same("what is left", left(room, "f", "d", "s", "f.lock"), [])
            same("the folder", os.path.getsize(f"{room}/f/a"), 600_000)
    finally:
        shell(f"umount {room}")
    return "a full disk stopped import, export and apply, which left all as it was"


# ---- explain


def explain(room: str) -> str:
    """Broken texts, folders and runs, each explained with its line and column, or its path."""
    shutil.copytree(CONFIG, room, dirs_exist_ok=True)
    texts = [
        ('("services" : file)', "t:1:13: Unexpected 12", "expected `::`"),
        ('<s : ("a" :: file),\n {(m :: file) | n in lines(s)}>', "t:2:4: Unknown m", "no name m"),
        ("dir $", "t:1:5: BadToken 4", "no token"),
        ("<x : dir, <x : dir, dir>>", "t:1:12: Repeated x", "another name"),
        (
            "<x : dir, (x :: file)>",
            "t:1:12: TypeDiffers str names",
            "of shape names, and str is expected",
        ),
        ("<dir : file, dir>", "t:1:2: Unexpected 1", "`dir` is a word of the language"),
        ('{dir | x in ("a" only x)}', "t:1:23: Unexpected 22", "takes a glob"),
        ('("a\n" :: file)', "t:1:2: BadToken 1", "no closing quote"),
        ("opt(" * 70, "t:1:257: TooNested 256", "at most 64 deep"),
        ("", "t:1:1: Unexpected 0", "expected a description"),
        ("(01 :: file)", "t:1:2: BadToken 1", "leading zero"),
        (" " * 65537, "t: TooLarge", "65,536 bytes"),
        ("pred((1 = 2))", "t:1:9: Unexpected 8", "equality is =="),
        ("def f() = dir\nf(1)", "t:2:1: Unknown f", "f takes 0 arguments; here is 1"),
        ("g()", "t:1:1: Unknown g", "no definition of g"),
        ("def f() = dir def f() = dir dir", "t:1:19: Repeated f", "defined already"),
        ("def f(n : int, n : str) = dir dir", "t:1:16: Repeated n", "another name"),
        ('def f(n : int) = dir f("a")', "t:1:24: TypeDiffers int str", "int is expected"),
        ("<def : dir, dir>", "t:1:2: Unexpected 1", "`def` is a word of the language"),
    ]
    for text, head, hint in texts:
        write(f"{room}/t", text)
        tool("explain", "t", status=1, say=[head, hint], room=room)
    scripts = [
        ("txn { if ((1 == 1)) { } }", "t:1:25: Unexpected 24", "an `if` has an `else`"),
        ('txn {\n  let x = "a" ++ "b" }', "t:2:15: Unexpected 20", "brackets of its own"),
        ("txn { set y = 2 }", "t:1:11: Unknown y", "scripts do not see"),
        ("txn { fetch x : text }", "t:1:17: Unexpected 16", "a shape"),
        ("txn { try x print(x) }", "t:1:13: Unexpected 12", "a move or an edit"),
        ("txn { store(1 }", "t:1:15: Unexpected 14", "expected `)`"),
    ]
    for text, head, hint in scripts:
        write(f"{room}/t", text)
        tool("explain", "--scripts", "t", status=1, say=[head, hint], room=room)
    folders = [
        ("ln -s a f/l", "f: /l (1 byte): a symbolic link to a"),
        ("mkfifo f/p", "f: /p (0 bytes): a FIFO"),
        ("truncate -s 1048577 f/big", "f: /big (1,048,577 bytes): a file has at most"),
        (
            "printf '/l -> a\\n/l -> b\\n' > f/.forest-links",
            "f/.forest-links:2: BadTable 2: the line before has the same path",
        ),
        (
            "printf '/b -> a\\n/a -> b\\n' > f/.forest-links",
            ":2: BadTable 2: its path comes before /b",
        ),
        ("printf '/a b -> a\\n' > f/.forest-links", ":1: BadTable 1: it is no `PATH -> TARGET`"),
        ("printf '/x/y -> a\\n' > f/.forest-links", ":1: BadTable 1: /x is no directory"),
        ("printf '/l -> a' > f/.forest-links", ":1: BadTable 1: the line has no line feed"),
        (
            "printf 'version 2\\n/l -> a\\n' > f/.forest-links",
            ":1: BadTable 1: it is of version 2 and has no line",
        ),
        (
            "printf 'version 2\\n/api *\\n' > f/.forest-links",
            ":2: BadTable 2: a directory stands there, and no file",
        ),
        (
            "printf '/services -> a\\n' > f/.forest-links",
            ":1: BadTable 1: a file or a directory stands there",
        ),
        ("printf '/l -> a//b\\n' > f/.forest-links", ":1: BadTable 1: a//b is no text of a link"),
        (
            "printf '/%%6c -> a\\n' > f/.forest-links",
            ":1: BadTable 1: /%6c is not as the program spells it",
        ),
        ("mkdir f/.forest-links", "f/.forest-links: it is no file"),
    ]
    for command, head in folders:
        shell(f"rm -rf f; cp -r folder f; {command}", room)
        tool("explain", "description", "f", status=1, say=[head], room=room)
    values = [
        (
            "echo mail >> f/services",
            "description:2:51: no value at /mail/port",
            "/ has no entry mail",
        ),
        (
            "rm f/api/port; mkdir f/api/port",
            "no value at /api/port",
            "a directory stands at /api/port",
        ),
        (
            "rm f/services; printf '/services -> gone\\n' > f/.forest-links",
            "description:2:21: no value at /services",
            "/ has no entry gone",
        ),
        ("printf 'a/../b' > f/services", "no value at /", '"a/../b" is no path below'),
    ]
    for command, *hints in values:
        shell(f"rm -rf f; cp -r folder f; {command}", room)
        tool("explain", "description", "f", status=1, say=hints, room=room)
    write(f"{room}/p", '<r : ("api/replicas" :: file), pred((int(r) < 2))>')
    tool(
        "explain",
        "p",
        "folder",
        status=1,
        say=["p:1:32: no value at /", "2 is not below 2", 'r = "2\\n"'],
        room=room,
    )
    write(
        f"{room}/c",
        (
            'def all(n : names) = {(k :: pair_of()) | k in n} def pair_of() = <p : ("port" ::'
            ' file), ("gone" :: file)> <s : ("services" :: file), all(lines(s))>'
        ),
    )
    tool(
        "explain",
        "c",
        "folder",
        status=1,
        say=["no value at /api/gone", "/api has no entry gone"],
        room=room,
    )
    told = tool("explain", "--walk", "c", "folder", room=room)
    same(
        "a walk into a call",
        [line.split("  ")[0] for line in told.splitlines()][-3:],
        [
            'into next into to("api") down into into down',
            'into next into to("api") down into into next',
            'into next into to("api") down into into next down',
        ],
    )
    write(f"{room}/stops", "".join(f"txn {{ {body.replace('§', '')} }}\n" for body, _ in STOPS))
    told = tool(
        "explain",
        "description",
        "folder",
        "stops",
        status=1,
        say=[f"0 transactions done, {len(STOPS)} not done"],
        room=room,
    )
    for line, (body, say) in enumerate(STOPS, 1):
        column = len("txn { ") + body.index("§") + 1
        piece = re.search(rf"(?ms)^stops:{line}:{column}: .*?(?=^stops:|^\d+ trans)", told)
        if not piece or say not in piece[0]:
            raise Wrong(f"stop {line} is not told by column {column} and {say}:\n{told}")
    shell(f"{PROGRAM} run description folder out stops > report", room)
    same(
        "by the report",
        tool(
            "explain", "--report", "report", "description", "folder", "stops", status=1, room=room
        ),
        told,
    )
    tool(
        "explain",
        "--report",
        "report",
        "description",
        "folder",
        "add",
        status=2,
        say=["not of these scripts"],
        room=room,
    )
    tool(
        "explain", "description", "folder", "add", say=["1 transaction done, 0 not done"], room=room
    )
    tool("explain", "description", "folder", say=["has a value"], room=room)
    walk = tool("explain", "--walk", "description", "folder", room=room).splitlines()
    same(
        "a walk",
        [line.split("  ")[0] for line in walk[-2:]],
        ['into next to("api") down into next', 'into next to("api") down into next down'],
    )
    tool("explain", "none", status=5, say=["nothing stands there"], room=room)
    return (
        f"{len(texts) + len(scripts)} broken texts, {len(folders)} folders,"
        f" {len(values) + 1} missing values and {len(STOPS)} transactions that stop are explained"
        " with their line and column, or their path"
    )


# Transactions that stop, with § before the command that is told, and what is said of it.
STOPS = [
    (
        'into next to("api") down into down §next',
        "`next` goes on from a part of a pair or an element",
    ),
    ('into next to("web") down into down fetch p : str §print(int("x"))', '"x" is no number'),
    ('into next §to("foo")', 'no "foo" is in the set {"api", "web"}'),
    ("into down §fetch x : names", "gives str or bool; the command asks for names"),
    ("into down §store(empty)", "stored: {}"),
    ('into next to("api") down into down remove §fetch x : str', "/api has no entry port"),
    ('into next to("api") down §create', "it stood at /api"),
    ("into down §create", "a file stands at /services"),
    ("§remove", "the root is not removed"),
    ('into next to("web") down into down remove §remove', "/web has no entry port"),
    ("into down fetch l : str §abort", "`abort` ends the transaction"),
    ("into down remove up §next", "at /services: no file stands there"),
    ("§up", "`up` takes back a `down`; the last step is none"),
    ('into next to("web") §next', 'nothing is greater than "web" in the set'),
]


# ---- schedules and pictures


def outcomes(room: str) -> str:
    """The outcomes of the examples, each by all orders of their transactions."""
    found = []
    examples: list[tuple[str, list[str], int | None]] = [
        ("rota", ["ann-off", "ben-off"], 2),
        ("config", ["add", "scale", "check"], 4),
        ("projects", ["count", "log", "turn"], 2),
        ("records", ["add", "careless"], None),
        ("releases", ["release", "use", "half"], None),
    ]
    for example, scripts, wanted in examples:
        folder = os.path.join(TOP, "examples", example)
        ran = subprocess.run(
            [f"{TOOLS}/txforest-schedules", "description", "folder", *scripts],
            cwd=folder,
            stdout=subprocess.PIPE,
            stderr=subprocess.STDOUT,
            timeout=300,
        )
        told = ran.stdout.decode()
        number = len(re.findall(r"(?m)^outcome \d+: ", told))
        if ran.returncode not in (0, 1) or wanted not in (None, number) or number < 1:
            raise Wrong(f"{example}: {told}")
        for schedule in re.findall(r"(?m)^  schedule (.*)$", told):
            shutil.rmtree(f"{room}/out", ignore_errors=True)
            same(
                f"{example} by {schedule}",
                subprocess.run(
                    [PROGRAM, "trace", "description", "folder", f"{room}/out", schedule, *scripts],
                    cwd=folder,
                    stdout=subprocess.DEVNULL,
                ).returncode,
                0,
            )
        found.append(number)
    counted(f"{room}/c")
    write(f"{room}/c/s", PLUS * 12)
    tool(
        "schedules",
        "--limit",
        "50",
        "d",
        "f",
        "s",
        "s",
        room=f"{room}/c",
        say=["50 orders at random, of 2704156"],
    )
    tool("schedules", "d", "f", "none", status=5, room=f"{room}/c")
    return f"{sum(found)} outcomes of the five examples, each with a schedule that leads to it"


def replays(room: str) -> str:
    """The schedules of reports of threaded runs: each leads to that report byte for byte."""
    counted(f"{room}/c")
    shell("printf 0 > c/f/m", room)
    write(f"{room}/c/d", '{(k :: file) | k in (one("n") union one("m"))}')
    step = 'to("{0}") down fetch n : str store(text((int(n) + 1))) top '
    look = 'to("{0}") down fetch m : str print(m) '
    draw = random.Random(2)
    for i in range(4):
        write(
            f"{room}/c/s{i}",
            "".join(
                "txn { "
                + (
                    step + look.replace("fetch m", "fetch o").replace("print(m)", "print(o)")
                ).format(draw.choice("nm"))
                + "}\n"
                for _ in range(15)
            ),
        )
    found = 0
    for _ in range(12):
        shell("rm -rf out; $TXFOREST run d f out s0 s1 s2 s3 > report", f"{room}/c")
        found += len(re.findall(r"(?m)^retry", read(f"{room}/c/report")))
        status, told = shell(
            (
                f"{TOOLS}/txforest-schedules --of report d f s0 s1 s2 s3 2> schedule | sed -n"
                " '/^forest report/,$p' | cmp - report"
            ),
            f"{room}/c",
        )
        same(f"a replay: {told}", status, 0)
    write(
        f"{room}/c/report",
        read(f"{room}/c/report").replace(
            "retries 0\n", 'retries 1\nretry shell 0 txn 0 entry 59 path "/n"\n'
        ),
    )
    tool(
        "schedules",
        "--of",
        "report",
        "d",
        "f",
        "s0",
        "s1",
        "s2",
        status=2,
        say=["the report is not of these scripts"],
        room=f"{room}/c",
    )
    return f"12 reports of runs on threads, with {found} retries, came again by a schedule"


def pictures(room: str) -> str:
    """Pictures of the examples' traces and reports, and one of 10,000 events.

    The large one is drawn in time, and both kinds in a browser.
    """
    drawn = 0
    for example in ("rota", "config", "projects", "records", "releases"):
        for text in (
            read(os.path.join(TOP, "examples", example, "report")),
            re.sub(
                r"(?s)\A.*?(?=forest report 1)",
                "",
                read(os.path.join(TOP, "examples", example, "report")),
            ),
        ):
            write(f"{room}/r", text)
            svg = tool("picture", "r", room=room)
            xml.dom.minidom.parseString(svg)
            counts = {
                "look": svg.count('class="look"'),
                "settled": svg.count('class="settled"'),
                "conflict": svg.count('class="cross"'),
            }
            wanted = {word: len(re.findall(rf"(?m)^{word} \d", text)) for word in counts}
            if not any(wanted.values()):
                wanted = {
                    "look": 0,
                    "settled": len(re.findall(r"(?m)^entry ", text)),
                    "conflict": len(re.findall(r"(?m)^retry ", text)),
                }
            same(f"{example}: what is drawn", counts, wanted)
            same("titles", svg.count("<title") >= sum(wanted.values()), True)
            tool("picture", "--html", "--names", "a,b", "r", "-o", "p.html", room=room)
            drawn += 2
    write(f"{room}/bad", "look 0 /a 0\n")
    tool(
        "picture",
        "bad",
        status=2,
        say=["bad: line 1: this is not `look K PATH POSITION`"],
        room=room,
    )
    write(f"{room}/bad", "jump\nforest report 1\nend\n")
    tool(
        "picture",
        "bad",
        status=2,
        say=["bad: line 1: this is not an event or the begin of a report"],
        room=room,
    )
    counted(f"{room}/c")
    write(f"{room}/c/s", PLUS * 500)
    draw = random.Random(1)
    schedule = ",".join(str(draw.randrange(5)) for _ in range(8000))
    status, trace = shell(f"{PROGRAM} trace d f out {schedule} s s s s s", f"{room}/c")
    same("the large trace", status, 0)
    events = len(re.findall(r"(?m)^(look|settled|conflict) \d", trace))
    write(f"{room}/large", trace)
    started = time.monotonic()
    tool("picture", "--html", "large", "-o", "large.html", room=room)
    spent = time.monotonic() - started
    same(
        f"{events} events in below two seconds ({spent:.1f} s)",
        events >= 10_000 and spent < 2,
        True,
    )
    browser = (
        shutil.which("chromium")
        or shutil.which("chromium-browser")
        or shutil.which("google-chrome")
    )
    if not browser:
        return f"{drawn} pictures, and one of {events:,} events in {spent:.1f} s; no browser here"
    for page in ("p.html", "large.html"):
        status, told = shell(
            (
                f"HOME={room} {browser} --headless --no-sandbox --disable-gpu"
                f" --window-size=1200,1600 --screenshot={room}/shot.png"
                f" file://{room}/{page} 2>/dev/null; test -s shot.png"
            ),
            room,
        )
        same(f"a browser on {page}", status, 0)
        os.unlink(f"{room}/shot.png")
    return (
        f"{drawn} pictures, and one of {events:,} events in {spent:.1f} s; a headless browser drew"
        " them"
    )


# ---- what is installed


def installed(room: str) -> str:
    """`install` into a folder of one's own, what it put there, and `--uninstall`."""
    prefix = f"{room}/with space"
    status, told = shell(f"'{TOP}/install' '{prefix}'")
    same(f"install: {told}", status, 0)
    files = [os.path.join(at, name) for at, _, names in os.walk(prefix) for name in names]
    programs = sorted(os.listdir(f"{prefix}/bin"))
    tools = [name for name in os.listdir(TOOLS) if name.startswith("txforest-")]
    same("the programs", programs, sorted(["txforest", *tools]))
    bare = {key: value for key, value in os.environ.items() if key != "TXFOREST"}
    shutil.copytree(CONFIG, f"{room}/c")
    for name in NAMES:
        ran = subprocess.run(
            [f"{prefix}/bin/txforest-{name}", "--help"], stdout=subprocess.PIPE, text=True, env=bare
        )
        same(f"{name} --help", (ran.returncode, "exit status:" in ran.stdout), (0, True))
        same(
            f"{name} without words",
            subprocess.run(
                [f"{prefix}/bin/txforest-{name}", *(["-x"] if name == "picture" else [])],
                stderr=subprocess.DEVNULL,
                stdin=subprocess.DEVNULL,
                env=bare,
            ).returncode,
            2,
        )
    applied = subprocess.run(
        [f"{prefix}/bin/txforest-apply", "--in-place", "folder", "description", "add"],
        cwd=f"{room}/c",
        env=bare,
        stdout=subprocess.DEVNULL,
    )
    same(
        "apply with the installed program",
        (applied.returncode, read(f"{room}/c/folder/db/port")),
        (0, "5432\n"),
    )
    pages = [f for f in files if re.search(r"/man\d/", f)]
    missing = []
    if shutil.which("mandoc"):
        for page in pages:
            same(f"mandoc -T lint {page}", shell(f"mandoc -T lint -W warning '{page}'"), (0, ""))
    else:
        missing.append("mandoc")
    if shutil.which("man"):
        for page in pages:
            same(
                f"man -l {page}",
                shell(
                    f"MANPAGER=cat man -l '{page}' 2>&1 | grep -c -i txforest | grep -vx 0 >"
                    " /dev/null"
                ),
                (0, ""),
            )
    share = f"{prefix}/share"
    status, told = shell(
        f"source '{share}/bash-completion/completions/txforest' && COMP_WORDS=(txforest ru)"
        " COMP_CWORD=1 && _txforest && echo ${COMPREPLY[*]}; complete -p txforest txforest-apply"
        " txforest-import > /dev/null"
    )
    same("bash completion", (status, told), (0, "run\n"))
    for name, words in (
        ("zsh", f"zsh -n '{share}/zsh/site-functions/_txforest'"),
        ("fish", f"fish --no-execute '{share}/fish/vendor_completions.d/txforest.fish'"),
    ):
        if shutil.which(name):
            same(f"{name} completion", shell(words), (0, ""))
        else:
            missing.append(name)
    same("again", shell(f"'{TOP}/install' '{prefix}'")[0], 0)
    write(f"{prefix}/share/mine", "mine")
    status, told = shell(f"'{TOP}/install' --uninstall '{prefix}'")
    same(f"uninstall: {told}", status, 0)
    same(
        "what is left",
        [os.path.join(at, name) for at, _, names in os.walk(prefix) for name in names],
        [f"{prefix}/share/mine"],
    )
    same("uninstall twice", shell(f"'{TOP}/install' --uninstall '{prefix}'")[0], 1)
    return (
        f"{len(files)} files installed, {len(pages)} manual pages among them, and all taken back"
        + (f"; not tried: {', '.join(missing)}" if missing else "")
    )


PARTS: list[Callable[[str], str]] = [
    trees,
    hostile,
    together,
    killed,
    steps,
    refusals,
    full,
    explain,
    outcomes,
    replays,
    pictures,
    installed,
]


def main() -> None:
    """Runs the parts that are asked for, or all."""
    os.environ["TXFOREST"] = os.path.abspath(os.environ["TXFOREST"])
    wanted = sys.argv[1:] or [part.__name__ for part in PARTS]
    for part in PARTS:
        if part.__name__ in wanted:
            with tempfile.TemporaryDirectory(prefix="tools-") as base:
                inside = os.path.join(base, "room")
                os.mkdir(inside)
                os.chmod(base, 0o755)
                os.chmod(inside, 0o777)
                started = time.monotonic()
                try:
                    print(
                        f"{part.__name__}: {part(inside)} ({time.monotonic() - started:.0f} s)",
                        flush=True,
                    )
                except Wrong as wrong:
                    sys.exit(f"{part.__name__}: {wrong}")


if __name__ == "__main__":
    main()

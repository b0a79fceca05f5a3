"""Tries txforest-do and `import txforest` with the program.

usage: anyjob.py [PART [WORD..]]..   with TXFOREST set to the program

Each part prints a line with what it counted, and it ends with 1 at the first thing that is not as
it should be. What needs root, or a kernel that lets one make name spaces, is left out and said so.
"""

from __future__ import annotations

import fcntl
import os
import shlex
import shutil
import stat
import struct
import subprocess
import sys
import tempfile
import time
import traceback
from collections.abc import Callable
from typing import Any

TOP = os.path.dirname(os.path.dirname(os.path.abspath(__file__)))
TOOLS = os.path.join(TOP, "tools")
DO = os.path.join(TOOLS, "txforest-do")
sys.path[:0] = [TOOLS, os.path.join(TOP, "checks")]


class Wrong(Exception):
    """Something is not as it should be."""


def histories(room: str, kind: str = "traced", count: str = "20", first: str = "0") -> str:
    """Random histories, replayed."""
    import anyjob_histories

    wrong, told = anyjob_histories.histories(kind, int(count), int(first), None, room)
    if wrong >= 0:
        raise Wrong(told)
    return f"{kind}: {told}"


def faults(room: str, count: str = "200") -> str:
    """The histories show the faults that are planted into the tool."""
    import anyjob_histories

    found = []
    for kind in "traced", "python":
        for fault in anyjob_histories.FAULTS:
            top = os.path.join(room, f"{kind} {fault}")
            os.mkdir(top)
            number, _ = anyjob_histories.histories(kind, int(count), 0, fault, top)
            if number < 0:
                raise Wrong(f"{kind}, {fault}: not seen in {count} histories")
            found.append(f"{kind} {fault} in history {number + 1}")
    return ", ".join(found)


def kills(room: str, part: str = "7") -> str:
    """A leader that is killed at each step, and before each so-manieth system call."""
    import anyjob_steps

    told, wrong = anyjob_steps.kills(room, int(part))
    if wrong:
        raise Wrong(wrong)
    return told


def moments(room: str, count: str = "20") -> str:
    """Jobs that are killed at random moments."""
    import anyjob_steps

    told, wrong = anyjob_steps.at_random(room, int(count))
    if wrong:
        raise Wrong(wrong)
    return told


def run(words: list[str], room: str, status: int = 0, say: str = "", **more: Any) -> str:
    """Runs a command in a room, which has to end with a status and to say some words."""
    quiet = subprocess.DEVNULL
    ran = subprocess.run(
        words, cwd=room, stdin=quiet, stdout=subprocess.PIPE, stderr=subprocess.STDOUT, **more
    )
    told: str = ran.stdout.decode(errors="replace")
    if ran.returncode != status or say not in told or "Traceback" in told:
        raise Wrong(f"{words}: status {ran.returncode}, not {status} with {say!r}: {told[-2000:]}")
    return told


def write(path: str, text: str) -> None:
    """Writes a file, and makes the directories above it."""
    os.makedirs(os.path.dirname(path), exist_ok=True)
    with open(path, "w", encoding="utf-8") as file:
        file.write(text)


def read(path: str) -> str:
    """What a file holds."""
    with open(path, encoding="utf-8") as file:
        return file.read()


def rota(room: str, rounds: str = "10") -> str:
    """Write skew between two shell scripts: each leaves if the other is there, at once."""
    write(f"{room}/spec", '<a : ("ann" :: file), ("ben" :: file)>\n')
    both = refused = 0
    kinds = ["--trace", "--whole", "--only=*"]
    for number in range(int(rounds)):
        for top in "tree", "plain":
            for name in "ann", "ben":
                write(f"{room}/{top}/{name}", "on\n")
        leave = 'if [ "$(cat {1})" = on ]; then sleep 0.2; echo off > {0}; fi'
        scripts = [leave.format(*names) for names in (("ann", "ben"), ("ben", "ann"))]
        words = [DO, kinds[number % 3], "tree", "spec", "--", "sh", "-c"]
        for top, each in (("tree", words), ("plain", ["sh", "-c"])):
            where = room if top == "tree" else f"{room}/plain"
            pipe = subprocess.PIPE
            jobs = [subprocess.Popen([*each, it], cwd=where, stderr=pipe) for it in scripts]
            told = b"".join(job.communicate()[1] for job in jobs)
            if any(job.returncode for job in jobs):
                raise Wrong(f"statuses {[job.returncode for job in jobs]}: {told!r}")
            on = [read(f"{room}/{top}/{name}") for name in ("ann", "ben")].count("on\n")
            if top == "plain":
                both += on == 0
            elif on != 1:
                raise Wrong(f"{on} on call, told {told!r}")
            else:
                refused += b"was changed by another job: run again" in told
    plain = f"the plain scripts leave nobody {both} times"
    return f"{rounds} rounds: one stays each time, {refused} conflicts told; {plain}"


def sh(
    room: str, script: str, *options: str, status: int = 0, say: str = "", **more: Any
) -> str:
    """A shell script as a job on the tree of a room."""
    words = [DO, *options, "tree", "spec", "--", "sh", "-c", script]
    return run(words, room, status, say, **more)


def statuses(room: str) -> str:
    """Each status, and what is kept then."""
    write(f"{room}/spec", '<a : ("a" :: file), pred((int(a) < 5))>\n')
    write(f"{room}/tree/a", "1\n")
    write(f"{room}/odd", "no description")
    count = 0

    def expect(status: int, words: list[str], say: str = "", kept: str = "1\n") -> None:
        nonlocal count
        told = run([DO, *words], room, status, say)
        if read(f"{room}/tree/a") != kept or os.listdir(f"{room}/tree") != ["a"]:
            raise Wrong(f"{words}: keeps {os.listdir(f'{room}/tree')}: {told}")
        count += 1

    def job(status: int, script: str, *options: str, say: str = "", kept: str = "1\n") -> None:
        expect(status, [*options, "tree", "spec", "--", "sh", "-c", script], say, kept)

    kinds: list[list[str]] = [
        [],
        ["--trace"],
        ["--whole"],
        ["--only=*"],
        ["--hold"],
        ["--tries=1"],
    ]
    for options in kinds:
        job(3, "echo 2 > a; echo x > b; exit 3", *options)
        job(122, "echo 7 > a", *options, say="has no value")
        job(122, "rm a", *options, say="has no value")
        job(0, "echo said; echo 1 > a", *options, say="said")
        job(137, "echo 2 > a; kill -9 $$", *options)
        job(124, "mkfifo p", *options, say="neither file, directory nor link")
    expect(127, ["tree", "spec", "--", "no-such-command"], "No such file")
    expect(126, ["tree", "spec", "--", "/dev/null"], "Permission denied")
    expect(124, ["tree", "odd", "--", "sh", "-c", "echo 2 > a"], "Unexpected 3")
    expect(125, ["tree", "nothing", "--", "true"], "nothing")
    expect(125, ["nothing", "spec", "--", "true"], "nothing")
    expect(125, ["tree", "spec"], "usage")
    job(124, "echo 2 > b", "--only=a", say="no --only names it")
    with open(f"{room}/tree.lock", "w", encoding="utf-8") as lock:
        fcntl.flock(lock, fcntl.LOCK_EX)
        job(123, "echo 2 > a", "--wait=0.2", say="holds the lock")
    inner = f"{DO} $OLDPWD/tree $OLDPWD/spec -- sh -c 'echo 2 > a'; cat a; echo 3 > a"
    job(121, f"cat a; cd {room}; cd - >/dev/null; {inner}", "--tries=1", kept="2\n")
    job(0, "echo 1 > a")
    job(0, "echo 1 > a; echo 2 > b; rm b", "--tries=3")
    return f"{count} jobs end as they should, and keep what they should"


def streams(room: str) -> str:
    """Input is the same at each try; output that is held back comes once; what stays is ended."""
    write(f"{room}/spec", "dir\n")
    write(f"{room}/tree/a", "1\n")
    again = f"{{ : > {room}/again; echo 2 > {room}/tree/a; }}"
    script = f"cat; cat a; [ -e {room}/again ] || {again}; :>b"
    words = [DO, "--hold", "tree", "spec", "--", "sh", "-c", script]
    gives: list[dict[str, Any]] = [
        {"input": b"given\n"},
        {"stdin": open(os.path.join(room, "spec"), "rb")},
    ]
    for give in gives:
        ran = subprocess.run(words, cwd=room, capture_output=True, check=True, **give)
        first = b"given\n" if "input" in give else b"dir\n"
        if ran.stdout != first + b"2\n" or b"run again" not in ran.stderr:
            raise Wrong(f"{ran}")
        os.unlink(f"{room}/again")
        write(f"{room}/tree/a", "1\n")
    begun = time.monotonic()
    told = sh(room, "sleep 100 & echo 1 > c", say="ended with it: sleep")
    if time.monotonic() - begun > 60 or read(f"{room}/tree/c") != "1\n":
        raise Wrong(told)
    sh(room, "(sleep 0.3; echo late > d) & :")
    if read(f"{room}/tree/d") != "late\n":
        raise Wrong("what a command starts and does not wait for is lost")
    return "the same input at each try, held output once, what stays is told and ended"


def meanwhile(room: str) -> str:
    """Jobs that change something and change it back while a command runs: what it saw of that is
    never kept."""
    write(f"{room}/spec", "dir\n")
    cases = [
        ("cat a", "rm a", "cat a", "echo 1 > a"),
        ("ls d/x", "rm -r d", "cat d/x", "mkdir d; echo 1 > d/x"),
        ("test -d d", "rm -r d", "ls d", "mkdir d; echo 1 > d/x"),
        ("test -d d", "rm -r d; ln -s a d", "ls d", "rm d; mkdir d; echo 1 > d/x"),
        ("test -e a", "rm a", "echo 2 >> a", "echo 1 > a"),
        (":", "echo 1 > new", "! test -e new", "rm new"),
        (":", "mkdir d/new", "! ls d | grep -q new", "rmdir d/new"),
    ]
    again = 0
    for option in "--trace", "--whole", "--only=*", "--plain":
        env = {**os.environ, "TXFOREST_FUSE": f"{room}/no-device"} if option == "--plain" else None
        options = [option] if env is None else []
        for looks, change, look, back in cases:
            shutil.rmtree(f"{room}/tree", ignore_errors=True)
            write(f"{room}/tree/a", "1\n")
            write(f"{room}/tree/d/x", "1\n")
            job = f"{DO} {room}/tree {room}/spec -- sh -c"
            script = f"[ -e {room}/once ] || first=yes; : > {room}/once; {looks}\n"
            script += f"[ ! $first ] || {job} {shlex.quote(change)}\n"
            script += f"{look} || echo odd > saw\n"
            script += f"[ ! $first ] || {job} {shlex.quote(back)}; rm -f saw.tmp"
            told = sh(room, script, *options, env=env)
            os.unlink(f"{room}/once")
            if os.path.exists(f"{room}/tree/saw"):
                raise Wrong(f"{option} {change}: what was seen meanwhile is kept: {told}")
            again += "run again" in told
    write(f"{room}/tree/a", "1\n")
    change = f"{DO} {room}/tree {room}/spec -- sh -c 'rm a; ln -s d/x a'"
    told = sh(room, f"find . -type f > found; [ -e {room}/once ] || {change}; : > {room}/once")
    if "./a\n" in read(f"{room}/tree/found"):
        raise Wrong(f"a name whose kind was another is kept as a file: {told}")
    count = 4 * len(cases)
    return f"{count} jobs among others that change back: nothing of it is kept, {again} again"


def access_list(default: bool = False) -> bytes:
    """An access list as the kernel has it: the group 4711 may read, besides what 0640 gives."""
    entries = [(1, 6, -1), (4, 4, -1), (8, 4, 4711), (16, 4, -1), (32, 5 if default else 0, -1)]
    return struct.pack("<I", 2) + b"".join(struct.pack("<HHi", *entry) for entry in entries)


CAPABLE = struct.pack("<IIIII", 0x02000000 | 1, 1 << 13, 0, 0, 0)  # cap_net_raw=ep
ACL, DEFAULT = "system.posix_acl_access", "system.posix_acl_default"


def rights(room: str) -> dict[str, tuple[object, ...]]:
    """The modes, owners and extended attributes of all that stands in the tree of a room."""
    found: dict[str, tuple[object, ...]] = {}
    for above, folders, files in os.walk(f"{room}/tree"):
        for path in (above, *(os.path.join(above, name) for name in folders + files)):
            it = os.lstat(path)
            names = sorted(os.listxattr(path, follow_symlinks=False))
            kept = tuple((n, os.getxattr(path, n, follow_symlinks=False)) for n in names)
            where = os.path.relpath(path, f"{room}/tree")
            found[where] = (oct(it.st_mode), it.st_uid, it.st_gid, kept)
    return found


def attribute_changes(is_root: bool) -> list[tuple[str, bool]]:
    """Changes of modes, owners, lists and attributes alone, as what Python does in the copy, and
    whether they are carried; else they are refused."""
    found = [
        ('os.chmod("a", 0o600)', True),
        ('os.chmod("a", 0o755)', True),
        ('os.chmod("d", 0o750)', True),
        ('os.chmod("d/e", 0o2711)', True),
        ('os.chmod(".", 0o711)', False),
        ('os.setxattr("a", "user.new", b"1")', True),
        ('os.setxattr("a", "user.kept", b"other")', True),
        ('os.removexattr("a", "user.kept")', True),
        ('os.removexattr("a", "user.kept"); open("a", "a").write("more")', True),
        ('os.setxattr("d", "user.x", b"1")', False),
        ('os.removexattr("d/e", "user.held")', False),
        ('os.setxattr("d/e", "user.held", b"other")', False),
        ('os.mkdir("n"); os.setxattr("n", "user.x", b"1")', False),
        ('os.mkdir("n", 0o711); open("n/f", "w").close(); os.chmod("n/f", 0o640)', True),
        (f'os.setxattr("a", "{ACL}", {access_list()!r})', True),
        (f'os.setxattr("d", "{ACL}", {access_list()!r})', False),
        (f'os.setxattr("d", "{DEFAULT}", {access_list(True)!r})', False),
    ]
    if is_root:
        found += [
            ('os.chown("a", 12, 34)', True),
            ('os.chown("d", 12, 34)', True),
            ('os.mkdir("n"); os.chown("n", 12, 34)', True),
            ('open("n", "w").close(); os.chown("n", 12, 34)', True),
            (f'os.setxattr("a", "security.capability", {CAPABLE!r})', True),
            ('os.setxattr("a", "trusted.x", b"1")', True),
            (f'os.removexattr("listed", "{ACL}")', True),
            ('open("listed", "a").write("more")', True),
            (f'os.removexattr("open", "{DEFAULT}")', False),
            ('os.mkdir("open/n"); open("open/f", "w").close()', True),
        ]
    return found


def attributes(room: str, *options: str) -> str:
    """Modes, owners, access lists, extended attributes alone: each is carried or refused, and what
    others have changed meanwhile stays."""
    write(f"{room}/spec", "dir\n")
    is_root = os.getuid() == 0
    carried = refused = 0
    for option in options or ("--trace", "--whole", "--only=*"):
        for change, is_carried in attribute_changes(is_root):
            shutil.rmtree(f"{room}/tree", ignore_errors=True)
            for path in "a", "listed", "d/x", "d/e/y", "open/z":
                write(f"{room}/tree/{path}", "1\n")
            os.setxattr(f"{room}/tree/a", "user.kept", b"yes")
            os.setxattr(f"{room}/tree/d/e", "user.held", b"yes")
            os.setxattr(f"{room}/tree/listed", ACL, access_list())
            os.setxattr(f"{room}/tree/open", DEFAULT, access_list(True))
            before = rights(room)
            shutil.copytree(f"{room}/tree", f"{room}/plain/tree", symlinks=True)
            for name in before:
                it = os.lstat(f"{room}/tree/{name}")
                os.chown(f"{room}/plain/tree/{name}", it.st_uid, it.st_gid)
            python = [sys.executable, "-c", f"import os; {change}"]
            run(python, f"{room}/plain/tree")
            wanted = rights(f"{room}/plain")
            shutil.rmtree(f"{room}/plain")
            status = 0 if is_carried else 124
            say = "" if is_carried else "is not carried"
            told = run([DO, option, "tree", "spec", "--", *python], room, status, say)
            now = rights(room)
            odd = {path for path in wanted | now if wanted.get(path) != now.get(path)}
            if is_carried and not odd <= {"open/f", "open/n"}:
                path = min(odd)
                raise Wrong(f"{option} {change}: {now.get(path)}, not {wanted.get(path)}: {told}")
            if not is_carried and now != before:
                raise Wrong(f"{option} {change}: is refused, and the tree is another: {told}")
            carried, refused = carried + is_carried, refused + (not is_carried)
        modes(room, option)
        attributes_of_two(room, option)
    as_plain = "are carried as plain commands make them"
    return f"{carried} changes of rights alone {as_plain}, {refused} refused"


def modes(room: str, option: str) -> None:
    """A job that changes something in a directory leaves a mode that another job has given it."""
    for mode in 0o700, 0o755:
        now = f"{room}/tree/d"
        sh(room, f"echo 3 > d/x; chmod {mode:o} {now}", option)
        if os.stat(now).st_mode & 0o777 != mode:
            raise Wrong(f"{option}: another job's mode of a directory is undone")


def attributes_of_two(room: str, option: str) -> None:
    """Two jobs at once that change attributes of a file, or one of them its content: both stay."""
    now = f"{room}/tree/a"
    for what, change in (
        ("user.one", "os.setxattr('a', 'user.one', b'1')"),
        ("more", "open('a', 'a').write('more')"),
    ):
        first = f"os.path.exists('{room}/{what}') or os.mknod('{room}/{what}') or"
        other = f"os.setxattr('{now}', 'user.not-{what}', b'2')"
        python = f"import os; {change}; {first} {other}"
        run([DO, option, "tree", "spec", "--", sys.executable, "-c", python], room)
        found = [*os.listxattr(now), read(now)]
        if f"user.not-{what}" not in found or not any(it.endswith(what) for it in found):
            raise Wrong(f"{option} {change}: {found}")
        os.unlink(f"{room}/{what}")


def counts(room: str, count: str = "400", processes: str = "8") -> str:
    """Counts by several processes in one file, by the interface: none is lost."""
    write(f"{room}/spec", '<n : ("n" :: file), pred((0 < (int(n) + 1)))>\n')
    write(f"{room}/tree/n", "0\n")
    each = int(count) // int(processes)
    pids = []
    begun = time.monotonic()
    for _ in range(int(processes)):
        pid = os.fork()
        if not pid:
            status = 1
            try:
                import txforest

                @txforest.transactional(f"{room}/tree", f"{room}/spec", tries=3)
                def one(t: txforest.Transaction) -> None:
                    t.write("n", f"{int(t.read('n')) + 1}\n")

                for _ in range(each):
                    one()
                status = 0
            except BaseException:
                traceback.print_exc()
            os._exit(status)
        pids.append(pid)
    ended = [os.waitpid(pid, 0)[1] for pid in pids]
    found = int(read(f"{room}/tree/n"))
    if any(ended) or found != each * int(processes):
        raise Wrong(f"{found} of {each * int(processes)} counted, statuses {ended}")
    seconds = time.monotonic() - begun
    return f"{found:,} counts by {processes} processes, none lost, in {seconds:.0f} s"


def as_user(room: str, words: list[str], fuse: bool, spaces: bool, **more: Any) -> str:
    """Runs a command as a plain user, with or without a device of FUSE and name spaces."""
    device = f"{room}/fuse"
    if not os.path.exists(device):
        os.mknod(device, 0o666 | stat.S_IFCHR, os.makedev(10, 229))
        os.chmod(device, 0o666)
    env = {**os.environ, "TXFOREST_FUSE": device if fuse else f"{room}/no-device", "HOME": room}
    user = ["setpriv", "--reuid=65534", "--regid=65534", "--clear-groups"]
    if not spaces:  # nobody makes a user's name space in a changed root
        os.makedirs(f"{room}/root", exist_ok=True)
        root = f"{room}/root"
        bind = f'mount --rbind / {root} && cd {root}{room} && exec chroot {root} "$@"'
        inner = [*user, "sh", "-c", f'cd {room}; exec "$@"', "sh", *words]
        return run(["unshare", "-m", "sh", "-c", bind, "sh", *inner], room, env=env, **more)
    return run([*user, *words], room, env=env, **more)


def users(room: str) -> str:
    """As a plain user, with and without FUSE and name spaces; without the queue."""
    if os.getuid():
        return "left out: only root can run jobs as another user"
    os.chmod(room, 0o755)
    found = []
    for fuse, spaces, word in (
        (True, True, "traced"),
        (False, True, "plain"),
        (True, False, "plain"),
    ):
        own = f"{room}/{fuse}{spaces}"
        write(f"{own}/spec", "dir\n")
        write(f"{own}/tree/a", "1\n")
        write(f"{own}/tree/d/x", "1\n")
        os.symlink("d/x", f"{own}/tree/l")
        run(["chown", "-R", "-h", "65534:65534", own], room)
        os.mkdir(f"{own}/root")
        script = "cat l; echo 2 >> a; chmod +x a; rm -r d; mkdir d; echo 3 > d/y; ln -sfn d/y l"
        words = [DO, "--verbose", "--log", "log", "tree", "spec", "--", "sh", "-c", script]
        told = as_user(own, words, fuse, spaces)
        lines = read(f"{own}/log").split()
        state = [read(f"{own}/tree/a"), os.listdir(f"{own}/tree/d"), os.readlink(f"{own}/tree/l")]
        if state != ["1\n2\n", ["y"], "d/y"] or f"do:{word}:1" not in lines:
            raise Wrong(f"{fuse} {spaces}: {state} {lines}: {told}")
        if os.stat(f"{own}/tree/a").st_uid != 65534:
            raise Wrong("the owner is another")
        for option in "--only=a", "--whole":
            as_user(own, [DO, option, "tree", "spec", "--", "sh", "-c", "echo 4 > a"], fuse, spaces)
        if word == "plain":
            trace = [DO, "--trace", "tree", "spec", "--", "true"]
            as_user(own, trace, fuse, spaces, status=124, say="makes no such copy")
        found.append(word)
    kinds = ", ".join(found)
    return f"as a plain user: {kinds} (without the device, without name spaces); {two_users(room)}"


def two_users(room: str, count: int = 8) -> str:
    """Two users count at once in a tree of root's that both may write: none is lost. The lock has
    to be root's."""
    own = f"{room}/both"
    write(f"{own}/spec", "dir\n")
    write(f"{own}/tree/n", "0\n")
    write(f"{own}/tree.lock", "")
    for path, mode in (("", 0o1777), ("/tree", 0o777), ("/tree/n", 0o666)):
        os.chmod(own + path, mode)
    words = [DO, "tree", "spec", "--", "sh", "-c", "v=$(cat n); echo $((v + 1)) > n"]
    user = ["setpriv", "--reuid=65534", "--regid=65534", "--clear-groups"]
    both = (words, [*user, *words])
    quiet = subprocess.DEVNULL
    for _ in range(count):
        jobs = [subprocess.Popen(each, cwd=own, stderr=quiet) for each in both]
        if any([job.wait() for job in jobs]):
            raise Wrong(f"two users: statuses {[job.returncode for job in jobs]}")
    if read(f"{own}/tree/n") != f"{2 * count}\n":
        raise Wrong(f"two users: {read(f'{own}/tree/n')} of {2 * count} counted")
    return f"two users at once, {2 * count} counts, none lost"


def systems(room: str) -> str:
    """On the file systems that can be mounted here."""
    if os.getuid():
        return "left out: only root can mount"
    found = []
    for name in "tmpfs", "ext4", "xfs", "btrfs", "overlay":
        at = f"{room}/{name}"
        os.mkdir(at)
        if name == "tmpfs":
            mount = f"mount -t tmpfs none {at}"
        elif name == "overlay":
            parts = [f"{room}/{part}" for part in ("lower", "upper", "work")]
            mount = (
                f"mkdir {' '.join(parts)}; mount -t overlay none {at} -o "
                f"lowerdir={parts[0]},upperdir={parts[1]},workdir={parts[2]}"
            )
        else:
            image = f"{room}/{name}.image"
            mount = f"truncate -s 400M {image}; mkfs.{name} -q {image}; mount -o loop {image} {at}"
            if shutil.which(f"mkfs.{name}") is None:
                found.append(f"{name} left out: no mkfs.{name}")
                continue
        run(["sh", "-ec", mount], room)
        try:
            found.append(f"{name} {on_system(at)}")
        finally:
            run(["umount", at], room)
    at = f"{room}/mounted"
    run(["sh", "-ec", f"mkdir -p {at}/tree; mount -t tmpfs none {at}/tree"], room)
    try:
        found.append(f"a mount {on_system(at)}")
    finally:
        run(["umount", f"{at}/tree"], room)
    return ", ".join(found)


def on_system(at: str) -> str:
    """Jobs on a tree of one file system; how the copy was made."""
    write(f"{at}/spec", "dir\n")
    write(f"{at}/tree/a", "0\n")
    write(f"{at}/tree/d/e/f", "0\n")
    script = "v=$(cat a); echo $((v + 1)) > a; rm -r d; mkdir -p d/g; echo $v > d/g/h; ln -sfn d l"
    script += "; ls -a > names"
    words = [DO, "--log", "log", "tree", "spec", "--", "sh", "-c", script]
    jobs = [subprocess.Popen(words, cwd=at, stderr=subprocess.DEVNULL) for _ in range(3)]
    if any([job.wait() for job in jobs]):
        raise Wrong(f"{at}: statuses {[job.returncode for job in jobs]}")
    for option in "--whole", "--only=*":
        sh(at, script, option)
    if read(f"{at}/tree/a") != "5\n" or os.listdir(f"{at}/tree/d/g") != ["h"]:
        raise Wrong(f"{at}: {read(f'{at}/tree/a')}")
    if read(f"{at}/tree/names").split() != [".", "..", "a", "d", "l", "names"]:
        raise Wrong(f"{at}: {read(f'{at}/tree/names')}")
    return read(f"{at}/log").split()[6].split(":")[1]


def costs(room: str, rounds: str = "5", *sizes: str) -> str:
    """Processor time of one job, beside its peers."""
    import anyjob_costs

    found = [int(size) for size in sizes] or [100, 10_000, 60_000]
    return anyjob_costs.costs(room, found, int(rounds))


def together(room: str, *pairs: str) -> str:
    """Processor time of jobs at once, beside their peers; a pair is FILES:JOBS."""
    import anyjob_costs

    found = pairs or ("100:8", "100:64", "10000:64", "60000:64")
    numbers = [(int(it.split(":")[0]), int(it.split(":")[1])) for it in found]
    told = anyjob_costs.together(room, numbers, ["traced", "python", "flock"])
    few = [pair for pair in numbers if pair[0] * pair[1] <= 100_000]
    return told + ("\n" + anyjob_costs.together(room, few, ["git"]) if few else "")


PARTS: dict[str, Callable[..., str]] = {
    "statuses": statuses,
    "streams": streams,
    "meanwhile": meanwhile,
    "attributes": attributes,
    "rota": rota,
    "counts": counts,
    "users": users,
    "systems": systems,
    "histories": histories,
    "faults": faults,
    "kills": kills,
    "moments": moments,
    "costs": costs,
    "together": together,
}


def main(words: list[str]) -> int:
    """Runs the parts that the words name."""
    todo: list[list[str]] = []
    for word in words:
        if word in PARTS:
            todo.append([word])
        elif todo:
            todo[-1].append(word)
        else:
            sys.exit(f"{word}: no part; there are {', '.join(PARTS)}")
    for name, *more in todo or [[name] for name in PARTS]:
        with tempfile.TemporaryDirectory(prefix="anyjob-", dir=os.environ.get("ROOM")) as room:
            try:
                print(f"{name}: {PARTS[name](room, *more)}", flush=True)
            except Wrong as wrong:
                print(f"{name}: WRONG: {wrong}", flush=True)
                return 1
    return 0


if __name__ == "__main__":
    sys.exit(main(sys.argv[1:]))

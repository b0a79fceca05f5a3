"""Runs the built program on what a hostile user, disk or machine may give it.

usage: hostile.py PROGRAM [PART...]

Each try has a stage of its own, and has to go as stage.py says. Prints how many tries each part
made, and ends with 1 at the first that goes otherwise.
"""

from __future__ import annotations

import contextlib
import os
import random
import re
import resource
import shutil
import signal
import socket
import stat
import subprocess
import sys
import tempfile
import threading
import time
from collections import Counter
from collections.abc import Callable
from typing import Any

import edges
from deep import AROUND, BODIES, CALLS, WALKED, deep
from repository import model
from stage import (
    DESCRIPTIONS,
    DONE,
    FILE_LIMIT,
    FILES,
    FOLDER,
    JOURNAL,
    LINKS,
    MEMORY,
    READ,
    SCRIPTS,
    TAKEN,
    TEXT,
    TEXT_LIMIT,
    USAGE,
    WRITE,
    Stage,
    Wrong,
)

Child = subprocess.Popen[bytes]

QUOTED_A, ADDED = '"a"', ' ++ "")'

VIEWS = ["views", "spec", "in", "out", "views", "script"]


def broken_texts() -> None:
    """Good texts, each with every byte left out, doubled and turned into others."""
    for texts, name in ((DESCRIPTIONS, "spec"), (SCRIPTS, "script")):
        words = ["show", "spec", "in"] if name == "spec" else None
        for text in texts:
            good = text.encode()
            with Stage(table=LINKS) as stage:
                for i, byte in enumerate(good):
                    turned = [bytes([byte ^ bit]) for bit in (0x01, 0x20, 0x80)]
                    for piece in (b"", bytes([byte, byte]), *turned, b"\0"):
                        stage.put(name, good[:i] + piece + good[i + 1 :])
                        status, _ = stage.run({DONE, TEXT}, words)
                        if status == DONE and os.path.isdir(stage.out):
                            subprocess.run(["rm", "-r", stage.out], check=True)


def nested(open_: str, inner: str, close: str, depth: int) -> str:
    """A form in itself, `depth` times."""
    return open_ * depth + inner + close * depth


def limits() -> None:
    """Texts, names, files, folders, links, schedules and scripts at their limits, and beyond."""
    show = ["show", "spec", "in"]
    for size, allowed in ((TEXT_LIMIT, {DONE}), (TEXT_LIMIT + 1, {TEXT}), (1 << 24, {TEXT})):
        with Stage(description=DESCRIPTIONS[1] + " " * (size - len(DESCRIPTIONS[1]))) as stage:
            stage.run(allowed, show)
        with Stage(script=SCRIPTS[0] + " " * (size - len(SCRIPTS[0]))) as stage:
            stage.run(allowed)
    for depth, allowed in ((63, {DONE}), (64, {TEXT}), (16_000, {TEXT})):
        with Stage(description=nested("opt(", "file", ")", depth)) as stage:
            stage.run(allowed, show)
    # The deepest values and walks: calls 64 deep, each of as many forms as nest.
    deep = f"def f() = {nested('opt(', 'f()', ')', 62)} f()"
    with Stage(description=deep) as stage:
        stage.run({DONE}, show)
    with Stage(description=deep, script="txn { validate v print(v) }") as stage:
        stage.run({DONE})
    with Stage(description="def f() = f() f()", script=f"txn {{ {'into ' * 13_000} }}") as stage:
        stage.run({DONE})
    many = " ".join(f"def f{i}() = f{i + 1}()" for i in range(2_000))
    for last, allowed in (("def f2000() = dir f0()", {DONE}), ("f0()", {TEXT})):
        with Stage(description=f"{many} {last}") as stage:
            stage.run(allowed, show)
    args = ", ".join(["1"] * 5_000)
    params = ", ".join(f"x{i} : int" for i in range(5_000))
    with Stage(description=f"def f({params}) = dir dir") as stage:
        stage.run({DONE, TEXT}, show)
    with Stage(description=f"def f() = dir f({args})") as stage:
        stage.run({TEXT}, show)
    for depth in (62, 63, 64, 9_000):
        with Stage(description=f"({nested('(', QUOTED_A, ADDED, depth)} :: file)") as stage:
            stage.run({DONE} if depth < 63 else {TEXT}, show)
        with Stage(
            script=f"txn {{ {nested('if (true) { ', 'print(1)', ' } else { }', depth)} }}"
        ) as stage:
            stage.run({DONE, TEXT})
    for size, allowed in ((FILE_LIMIT, {DONE}), (FILE_LIMIT + 1, {FOLDER})):
        with Stage(files={"a": b"x" * size}) as stage:
            stage.run(allowed)
    for length, allowed in ((255, {DONE}),):
        with Stage(files={"n" * length: b"", "a": b"1"}) as stage:
            stage.run(allowed)
    for depth, allowed in ((64, {DONE, FOLDER}), (65, {FOLDER})):
        with Stage(files={"/".join(["d"] * (depth - 1) + ["a"]): b"1", "a": b""}) as stage:
            stage.run(allowed)
    with Stage(files={f"{i:03}": b"x" * FILE_LIMIT for i in range(64)} | {"zz": b"1"}) as stage:
        stage.run({FOLDER})
    for count, allowed in ((64, {DONE}), (65, {USAGE})):
        with Stage() as stage:
            stage.run(allowed, ["trace", "spec", "in", "out", "none", *["script"] * count])
    for count, allowed in ((63, {DONE}), (64, {USAGE})):
        with Stage() as stage:
            stage.run(allowed, ["views", "spec", "in", "out", "views", *["script"] * count])
    for schedule in (
        "",
        "0,",
        ",0",
        "00",
        "01",
        "1",
        "-1",
        "+0",
        "4294967296",
        "0 ,0",
        "none,0",
        "None",
        "0,0x1",
    ):
        with Stage() as stage:
            stage.run({USAGE}, ["trace", "spec", "in", "out", schedule, "script"])
    with Stage() as stage:
        stage.run({DONE}, ["trace", "spec", "in", "out", ",".join(["0"] * 30_000), "script"])
    many = "txn{}" * (TEXT_LIMIT // 5)
    rest = "txn{}" * (100_000 - 7 * (TEXT_LIMIT // 5))
    for last, allowed in ((rest, {DONE}), (rest + "txn{}", {TEXT})):
        with Stage(script=many) as stage:
            stage.put("last", last)
            stage.run(allowed, ["trace", "spec", "in", "out", "none", *["script"] * 7, "last"])
            subprocess.run(["rm", "-rf", stage.out], check=True)
            stage.put("views", many)
            stage.run(allowed, ["views", "spec", "in", "out", "views", *["script"] * 7, "last"])


def tables() -> None:
    """Tables of links, good and broken."""
    good = [b"", LINKS, b"/l -> a\n/m -> ../x\n", b"/a%20b -> ../x\n/cur -> p\n"]
    for text in good:
        with Stage(table=text) as stage:
            stage.run({DONE, FOLDER})
    for text in (
        b"/l -> a",
        b"/%6C -> a\n",
        b"/l  -> a\n",
        b"/ -> a\n",
        b"/l -> a/\n",
        b"/a/l -> a\n",
        b"/a -> a\n",
        b"/m -> a\n/l -> a\n",
        b"\n",
        b"/l -> \n",
        b"/l\0 -> a\n",
        b"\xff\n",
        b"/l -> a\r\n",
        b"/gone/l -> a\n",
        b"/l -> " + b"a" * 4_097 + b"\n",
        b"/l -> " + b"/".join([b"a"] * 65) + b"\n",
        b"/" + b"n" * 256 + b" -> a\n",
    ):
        with Stage(table=text) as stage:
            stage.run({FOLDER})
    flags = b"version 2\n/a *\n/cur -> d\n/d/e/y *\n"
    with Stage(table=flags) as stage:
        stage.run({DONE})
    for i, byte in enumerate(flags):
        for piece in (
            b"",
            bytes([byte, byte]),
            bytes([byte ^ 1]),
            bytes([byte ^ 0x20]),
            b"\n",
            b"\0",
        ):
            with Stage(table=flags[:i] + piece + flags[i + 1 :]) as stage:
                stage.run({DONE, FOLDER})
    for text in (
        b"version 2\n",
        b"version 2\n/cur -> d\n",
        b"version 2\n/a *",
        b"version 1\n/a *\n",
        b"version 3\n/a *\n",
        b"/a *\n",
        b"version 2\n/a *\n/a *\n",
        b"version 2\n/d *\n",
        b"version 2\n/gone *\n",
        b"version 2\n/cur -> d\n/cur *\n",
        b"version 2\n/n *\n/a *\n",
        b"version 2\nversion 2\n/a *\n",
        b"version 2\n/ *\n",
        b"version 2\n/a  *\n",
        b"version 2\n/a **\n",
    ):
        with Stage(table=text) as stage:
            stage.run({FOLDER})
    full = b"".join(b"/%05d -> a\n" % i for i in range(50_000))
    with Stage(table=full) as stage:
        stage.run({DONE, FOLDER})
    with Stage(files={"a": b"1", ".forest-links/x": b""}) as stage:
        stage.run({FOLDER})


def strange_entries() -> None:
    """Links, pipes, sockets and devices in FOLDER, and in the place of each word."""
    makers: dict[str, Callable[[str], object]] = {
        "symbolic link": lambda path: os.symlink("a", path),
        "dangling link": lambda path: os.symlink("gone", path),
        "link to itself": lambda path: os.symlink("s", path),
        "pipe": os.mkfifo,
        "socket": lambda path: socket.socket(socket.AF_UNIX).bind(path),
    }
    if os.geteuid() == 0:
        makers["device"] = lambda path: os.mknod(path, 0o600 | stat.S_IFCHR, os.makedev(1, 3))
    for make in makers.values():
        for name in ("s", "d/s"):
            with Stage() as stage:
                with contextlib.suppress(PermissionError):
                    make(stage.path(f"in/{name}"))
                    stage.run({FOLDER})
    for line in (["run", "spec", "in", "out", "script"], VIEWS):
        for word in {"spec", "views", "script", "in"} & {*line}:
            for other in ("gone", "in", "in/d", "/dev/null", "/dev/zero", "/proc/self/mem", "."):
                with Stage() as stage:
                    words = [line[0], *(other if it == word else it for it in line[1:])]
                    stage.run({DONE, TEXT, FOLDER, READ, TAKEN, WRITE}, words, keeps=other != ".")
        for out, allowed in (
            ("in", {TAKEN}),
            ("spec", {TAKEN}),
            ("gone/out", {WRITE}),
            ("/dev/null", {TAKEN}),
            ("spec/out", {WRITE}),
        ):
            with Stage() as stage:
                stage.run(allowed, [out if word == "out" else word for word in line])
        with Stage() as stage:
            os.symlink("gone", stage.path("out"))
            stage.run({TAKEN, WRITE}, line)


def words() -> None:
    """Command lines of no form."""
    lines: tuple[list[Any], ...] = (
        [],
        ["run"],
        ["run", "spec", "in", "out"],
        ["Run", "spec", "in", "out", "script"],
        ["--help"],
        ["--version"],
        ["-"],
        ["run", "spec", "in", "out", "-x"],
        ["run", "spec", "in", "out", ""],
        ["show", "spec"],
        ["show", "spec", "in", "out"],
        ["trace", "spec", "in", "out", "script"],
        ["run", "spec", "in", "out", *["script"] * 65],
        [b"\xff"],
        ["nothing", "spec"],
        ["views"],
        VIEWS[:-1],
        [*VIEWS[:4], "", "script"],
        [*VIEWS[:4], "-", "script"],
        [*VIEWS, ""],
        ["View", *VIEWS[1:]],
    )
    for line in lines:
        with Stage() as stage:
            stage.run({USAGE}, line)


def outputs() -> None:
    """Standard outputs that are closed, full, slow, or go away."""
    hello = 'txn { print("hello") }' * 2_000
    for line in (["run", "spec", "in", "out", "script"], VIEWS):
        with Stage(script=hello) as stage, open("/dev/full", "wb") as full:
            stage.run({WRITE, TEXT}, line, stdout=full)
        with Stage() as stage:
            stage.run({WRITE}, line, preexec_fn=lambda: os.close(1), stdout=None)
        with Stage(script=hello) as stage:
            read, write = os.pipe()
            os.close(read)
            stage.run({WRITE, TEXT}, line, stdout=write)
            os.close(write)
        with Stage(script=hello) as stage:

            def slowly(child: Child) -> None:
                assert child.stdout is not None
                for _ in range(20):
                    time.sleep(0.01)
                    child.stdout.read(512)

            stage.run({DONE, TEXT}, line, meanwhile=slowly)


def places() -> None:
    """Folders that can't be read or written, that are full, and that others change meanwhile."""
    if os.geteuid() == 0:
        nobody: dict[str, Any] = {"user": 65534, "group": 65534, "extra_groups": []}
        for name in ("spec", "script", "views", "in", "in/a", "in/d"):
            with Stage() as stage:
                os.chmod(stage.path(name), 0)
                stage.run({READ, WRITE}, VIEWS, **nobody)
                if name != "views":
                    stage.run({READ, WRITE}, **nobody)
        with Stage() as stage:
            stage.run({WRITE}, **nobody)
        with Stage() as stage:
            small = stage.path("small")
            os.mkdir(small)
            mounted = subprocess.run(
                ["mount", "-t", "tmpfs", "-o", "size=64k", "tmpfs", small],
                stderr=subprocess.DEVNULL,
            )
            if mounted.returncode == 0:
                try:
                    stage.put("in/big", b"x" * 500_000)
                    stage.run({WRITE}, ["run", "spec", "in", "small/out", "script"], keeps=False)
                finally:
                    subprocess.run(["umount", small], check=True)
    for _ in range(20):
        with Stage(files={f"d{i}/f{j}": b"x" * 100 for i in range(20) for j in range(20)}) as stage:
            ended = threading.Event()

            def removing() -> None:
                for i in range(20):
                    for j in range(20):
                        with contextlib.suppress(OSError):
                            os.remove(stage.path(f"in/d{i}/f{j}"))
                        if ended.is_set():
                            return

            thread = threading.Thread(target=removing)
            stage.run({DONE, FOLDER, READ}, keeps=False, meanwhile=lambda _: thread.start())
            ended.set()
            thread.join()


def machine() -> None:
    """Little memory, few open files, and signals that stop and wake the program."""
    for size in (1 << 20, 1 << 22, 1 << 24, 1 << 26, 1 << 28):
        for given in (
            FILES,
            {"a": b"x" * FILE_LIMIT, **{f"{i}": b"y" * 10_000 for i in range(500)}},
        ):
            with Stage(files=given) as stage:

                def little(size: int = size) -> None:
                    resource.setrlimit(resource.RLIMIT_DATA, (size, size))

                for line in (["run", "spec", "in", "out", "script"], VIEWS):
                    stage.run({DONE, READ, WRITE, MEMORY}, line, preexec_fn=little)
                    subprocess.run(["rm", "-rf", stage.out], check=True)
    for count in (4, 5, 6, 8, 16):
        with Stage() as stage:

            def few(count: int = count) -> None:
                resource.setrlimit(resource.RLIMIT_NOFILE, (count, count))

            stage.run({DONE, READ, WRITE}, preexec_fn=few)
    with Stage(files={f"d{i}/f{j}": b"x" * 100 for i in range(30) for j in range(50)}) as stage:

        def stopping(child: Child) -> None:
            for _ in range(50):
                with contextlib.suppress(ProcessLookupError):
                    child.send_signal(signal.SIGSTOP)
                    child.send_signal(signal.SIGCONT)
                    child.send_signal(signal.SIGWINCH)
                time.sleep(0.001)

        stage.run({DONE, FOLDER}, meanwhile=stopping)


# Four shells count in a file each, and each view adds the counts up: what it prints is the number
# of entries after which it looked.
SHELLS, COUNTS, LOOKS = 4, 150, 12
COUNTED = '<d : dir, {(n :: file) | n in (d only "c*")}>'
COUNT = 'txn { into next to("c%d") down fetch n : str store(text((int(n) + 1))) }\n'
ADDED_UP = (
    "txn { into next let sum = 0 fetch all : names each n in (all)"
    " { to(n) down fetch x : str set sum = (sum + int(x)) up out } print(sum) }\n"
)
SUMS = re.compile(rb"view (\d+) at (\d+) done\nprint (\d+)\n")


def counting() -> tuple[Stage, list[str]]:
    """A stage for counts with views beside them, and its words."""
    stage = Stage(
        files={f"c{k}": b"0" for k in range(SHELLS)}
        | {f"d/f{i}": b"x" * 1_000 for i in range(200)},
        description=COUNTED,
    )
    stage.put("views", ADDED_UP * LOOKS)
    scripts = [f"s{k}" for k in range(SHELLS)]
    for k, script in enumerate(scripts):
        stage.put(script, COUNT % k * COUNTS)
    return stage, [*VIEWS[:5], *scripts]


def files_below(folder: str) -> dict[str, bytes]:
    """The files below a folder."""
    found: dict[str, bytes] = {}
    for at, _, names in os.walk(folder):
        for name in names:
            with open(os.path.join(at, name), "rb") as it:
                found[os.path.relpath(os.path.join(at, name), folder)] = it.read()
    return found


def counted_whole(stage: Stage) -> dict[str, bytes]:
    """What the scripts make."""
    return files_below(stage.path("in")) | {f"c{k}": b"%d" % COUNTS for k in range(SHELLS)}


def check_counted(stage: Stage, printed: bytes) -> None:
    """That all was counted and printed, and that each view saw what its entries had counted."""
    _, _, views = printed.partition(b"\nend\n")
    seen = [tuple(map(int, found)) for found in SUMS.findall(views)]
    if (
        [j for j, _, _ in seen] != list(range(LOOKS))
        or any(i != told for _, i, told in seen)
        or not printed.endswith(b"\nend\n")
    ):
        raise Wrong(f"the views saw {views!r}")
    if files_below(stage.out) != counted_whole(stage):
        raise Wrong("OUT is not what the scripts make")


def check_broken_off(stage: Stage, printed: bytes) -> str:
    """What a run leaves that was broken off.

    OUT is absent, or a part of the whole; or it is whole, and then lines may be printed.
    """
    left = files_below(stage.out) if os.path.isdir(stage.out) else None
    whole = counted_whole(stage)
    if left and not all(
        name in whole and whole[name].startswith(content) for name, content in left.items()
    ):
        raise Wrong("OUT is no part of what the scripts make")
    if printed and (
        left != whole or not printed.startswith(b"forest report 1\n") or not printed.endswith(b"\n")
    ):
        state = "whole" if left == whole else "not whole"
        raise Wrong(f"printed is {printed[-200:]!r}, and OUT is {state}")
    return "absent" if left is None else "whole" if left == whole else "in part"


def views_and_signals() -> None:
    """Views beside counts, ended by a signal or stopped and woken: OUT absent, in part, whole."""
    chance = random.Random(1)
    left: Counter[str] = Counter()
    begin = time.monotonic()
    stage, line = counting()
    with stage:
        check_counted(stage, stage.run({DONE}, line)[1])
    whole = time.monotonic() - begin
    for number in (signal.SIGTERM, signal.SIGKILL, signal.SIGINT, signal.SIGHUP):
        for _ in range(60):
            stage, line = counting()
            with stage:

                def ending(child: Child, number: int = number) -> None:
                    time.sleep(chance.random() * whole * 1.2)
                    child.send_signal(number)

                status, printed = stage.run({DONE, -number}, line, meanwhile=ending)
                if status == DONE:
                    check_counted(stage, printed)
                    left["ended before"] += 1
                else:
                    left[f"OUT {check_broken_off(stage, printed)}"] += 1
    for _ in range(40):
        stage, line = counting()
        with stage:

            def pausing(child: Child) -> None:
                while child.poll() is None and chance.random() < 0.98:
                    time.sleep(chance.random() * whole / 20)
                    child.send_signal(signal.SIGSTOP)
                    time.sleep(chance.random() * whole / 20)
                    child.send_signal(signal.SIGCONT)

            check_counted(stage, stage.run({DONE}, line, meanwhile=pausing)[1])
    print(f"        {', '.join(f'{n} {what}' for what, n in sorted(left.items()))}")


def number_in_letters(i: int) -> str:
    """A short name for a number."""
    digits = "abcdefghijklmnopqrstuvwxyz"
    return digits[i // 676 % 26] + digits[i // 26 % 26] + digits[i % 26] + "_"


def pairs_of(calls: list[str], depth: int = 0) -> str:
    """Calls side by side, in pairs that nest as little as they can."""
    if len(calls) == 1:
        return calls[0]
    half = len(calls) // 2
    return f"<x{depth}:{pairs_of(calls[:half], depth + 1)},{pairs_of(calls[half:], depth + 1)}>"


def of_default_stack() -> None:
    """Gives a child a stack of 8 MiB."""
    resource.setrlimit(
        resource.RLIMIT_STACK, (8 << 20, resource.getrlimit(resource.RLIMIT_STACK)[1])
    )


def each_command(stage: Stage, allowed: set[int]) -> bytes:
    """Runs every command that reads a description; gives what `show` prints.

    Each has a stack of 8 MiB and a minute.
    """
    printed: bytes | None = None
    for line in (
        ["show", "spec", "in"],
        ["run", "spec", "in", "out", "script", "script"],
        ["trace", "spec", "in", "out", "none", "script", "script"],
        ["watch", "spec", "in", "out", "none", "script", "script"],
        ["views", "spec", "in", "out", "script", "script", "script"],
    ):
        ran = stage.run(allowed, line, preexec_fn=of_default_stack, seconds=60)
        subprocess.run(["rm", "-rf", stage.out], check=True)
        printed = ran[1] if printed is None else printed
    assert printed is not None
    return printed


def definitions() -> None:
    """Deep bodies, thousands of definitions and arguments, endless calls, by each command."""
    deepest = "/".join(["in", *["d"] * 64])
    for name, forms in BODIES.items():
        for calls, valid in (
            (CALLS - 1, b"valid yes\nvalue true\n"),
            (CALLS, b"valid yes\nvalue true\n"),
            (CALLS + 1, b"valid no\n"),
        ):
            text, moves = deep(forms, calls)
            with Stage(files={}, description=text, script=f"txn {{ {WALKED % moves} }}") as stage:
                os.makedirs(stage.path(deepest))
                printed = each_command(stage, {DONE})
                if printed != valid:
                    told = f"{calls} calls in each of which {AROUND} forms nest"
                    raise Wrong(f"{told}, of the kind {name}: {printed!r}")
    called = [number_in_letters(i) for i in range(4_000)]

    def ring(names: list[str], last: str) -> str:
        defs = [f"def {a}()={b}()" for a, b in zip(names, [*names[1:], last])]
        return " ".join(defs) + f" {names[0]}()"

    for text, allowed in (
        (ring(called[:3_200], called[0]), {DONE}),
        (ring(called[:3_200], called[3_199]), {DONE}),
        (ring(called[:3_200], "none"), {TEXT}),
        (" ".join(f"def {a}()=dir" for a in called) + f" {called[-1]}()", {DONE}),
        (
            " ".join(f"def {a}()=dir" for a in called[:2_000])
            + pairs_of([f"{a}()" for a in called[:2_000]]),
            {DONE},
        ),
        ("def f()=dir " * 5_000 + "f()", {TEXT}),
        (" ".join(f"def {a}()=dir" for a in [*called, called[0]]) + " dir", {TEXT}),
    ):
        with Stage(
            description=text, script=f"txn {{ validate v print(v) {'into ' * 70} }}"
        ) as stage:
            each_command(stage, allowed)
    for count in (100, 1_000, 2_000):
        names = called[:count]
        params, args = ",".join(f"{a}:int" for a in names), ",".join(names)
        for first in (f"({names[0]} + 1)", f"({names[-1]} - 1)"):
            text = f"def f({params})=g({args}) def g({params})=f({first}{args[len(names[0]) :]})"
            text += f" f({','.join('0' * count)})"
            with Stage(
                description=text, script=f"txn {{ validate v print(v) {'into ' * 70} }}"
            ) as stage:
                each_command(stage, {DONE})
    for text in (
        "def f() = g() def g() = h() def h() = f() f()",
        'def f(s : str) = g((s ++ s)) def g(s : str) = f((s ++ s)) f("ab")',
        'def f(s : str) = g((s ++ "b")) def g(s : str) = f((s ++ "a"))'
        ' <x : ("long" :: file), f(x)>',
        'def f(s : names) = g((s union one("b"))) def g(s : names) = f((s minus one("b")))'
        ' <x : ("lines" :: file), f(lines(x))>',
        "def f(s : names, n : int) = g((s union one(text(n))), (n + 1))"
        " def g(s : names, n : int) = f((s union one(text(n))), (n + 1)) f(empty, 0)",
        'def f(n : int) = <d : dir, {(k :: g((n + 1))) | k in (d only "?")}>'
        ' def g(n : int) = <d : dir, {(k :: f((n + 1))) | k in (d only "?")}> f(0)',
        'def f(n : int) = ("d" :: g((n + 1))) def g(n : int) = <x : f((n + 1)), f((n + 1))> f(0)',
        "def f(n : int) = g((n - 9223372036854775807)) def g(n : int) = f((n - 1)) f(0)",
    ):
        more = {
            "long": b"x" * (FILE_LIMIT - 40),
            "lines": b"".join(b"%x\n" % i for i in range(150_000)),
        }
        for table in (b"/d/d/d -> /\n", b"/d/d/d -> ../d\n", b"/d/d/d -> d\n"):
            with Stage(
                files={"a": b"1", "d/d/a": b"1", **more},
                table=table,
                description=text,
                script=f"txn {{ validate v print(v) {'into next ' * 9} }} txn {{ {'into ' * 70} }}",
            ) as stage:
                each_command(stage, {DONE})


def generated() -> None:
    """Cases from numbers at their limits and beyond, into places free, taken and missing."""
    for command in ("gen", "large"):
        for number in ("0", "7", "4294967295"):
            with Stage() as stage:
                stage.run({DONE}, [command, number, "out"])
        for number in (
            "4294967296",
            "99999999999999999999",
            "007",
            "00",
            "+7",
            "-7",
            "7 ",
            " 7",
            "0x7",
            "7.0",
            "",
            "seven",
        ):
            with Stage() as stage:
                stage.run({USAGE}, [command, number, "out"])
        for line in (
            [command],
            [command, "7"],
            [command, "7", "out", "more"],
            [command, "out", "7"],
            [command, "7", ""],
            [command, "7", "-o"],
        ):
            with Stage() as stage:
                stage.run({USAGE}, line)
        for out, allowed in (
            ("in", {TAKEN}),
            ("spec", {TAKEN}),
            ("gone/out", {WRITE}),
            ("/dev/null", {TAKEN}),
            ("spec/out", {WRITE}),
        ):
            with Stage() as stage:
                stage.run(allowed, [command, "7", out])
        with Stage() as stage, open("/dev/full", "wb") as full:
            stage.run({WRITE}, [command, "7", "out"], stdout=full)


def journals() -> None:
    """Journals with each byte changed, cut short, too long, and in places that are none."""
    script = 'txn { down fetch x : str store((x ++ "1")) }' * 3
    recover = ["recover", "spec", "in", "log", "out", "script", "script"]
    records = b"".join(
        b"\1" + bytes([0, 0, 0, k, 0, 0, 0, j]) for k, j in ((0, 0), (1, 0), (0, 1), (1, 1), (1, 2))
    )
    good = records + b"\0"
    images = [
        good[:i] + bytes([b]) + good[i + 1 :]
        for i in range(len(good))
        for b in (0, 1, 2, 3, 128, 255)
        if b != good[i]
    ]
    images += [good[:i] for i in range(len(good))] + [
        b"",
        records + records,
        records + os.urandom(5_000),
        os.urandom(5_000),
        b"\1" * 1_000_000,
    ]
    for image in images:
        with Stage(script=script) as stage:
            stage.put("log", image)
            status, printed = stage.run({DONE, JOURNAL}, recover)
            if (status == JOURNAL) != (printed == b"" and not os.path.lexists(stage.out)):
                raise Wrong(
                    f"{recover}: status {status} from {image[:90]!r}, and {printed!r} is printed"
                )
    for name in ("in", "gone/log", "/dev/zero", "/proc/self/mem"):
        for command, words in (
            ("recover", recover),
            ("journal", ["journal", "spec", "in", "out", "log", "none", "script"]),
        ):
            with Stage() as stage:
                stage.run(
                    {READ, WRITE, TAKEN, JOURNAL, MEMORY}
                    - {WRITE if command == "recover" else READ},
                    [name if word == "log" else word for word in words],
                )
    with Stage() as stage:
        stage.put("log", b"\0")
        stage.run({TAKEN}, ["journal", "spec", "in", "out", "log", "none", "script"])
    with Stage(script='txn { print("hello") }' * 2_000) as stage, open("/dev/full", "wb") as full:
        stage.run(
            {WRITE},
            ["journal", "spec", "in", "out", "log", "none", "script"],
            stdout=full,
            keeps=False,
        )


def reports() -> None:
    """Changed reports: `audit` says yes to none that the model refuses."""
    scripts = [
        'txn { into down fetch a : str up next down store((a ++ "0")) print(a) }',
        'txn { into next down fetch b : str up prev down store((b ++ "0")) print(b) }' * 2,
    ]
    spec, files = '<x : ("x" :: file), ("y" :: file)>', {"x": b"1", "y": b"2"}
    audit = ["audit", "spec", "in", "report", "script", "second"]
    with Stage(files=files, description=spec, script=scripts[0]) as stage:
        stage.put("second", scripts[1])
        root, plan, store = (
            model.read_description(spec.encode()),
            [model.read_script(text.encode()) for text in scripts],
            model.load(stage.path("in")),
        )
        _, good = stage.run(
            {DONE}, ["trace", "spec", "in", "out", "0,1,0,1,1,0,1", "script", "second"]
        )
        good = good[good.index(b"forest report") :]
        subprocess.run(["rm", "-r", stage.out], check=True)
        chance = random.Random(1)
        changed = [
            good[:i] + bytes([b]) + good[i + 1 :]
            for i in range(len(good))
            for b in {good[i] ^ 1, good[i] ^ 0x20, 48 + chance.randrange(10), 10} - {good[i]}
        ]
        for _ in range(500):
            a, b, c = sorted(chance.randrange(len(good) + 1) for _ in range(3))
            changed.append(good[:a] + good[b:c] + good[a:b] + good[c:])
        for report in changed + [
            b"",
            good * 2,
            good[:-1],
            os.urandom(10_000),
            b"forest report 18446744073709551616\n",
        ]:
            stage.put("report", report)
            _, printed = stage.run({DONE}, audit)
            if printed.decode() != model.audit(root, plan, store, report):
                raise Wrong(f"{audit}: {printed!r} of {report!r}")
        for other in ("gone", "in", "/dev/zero"):
            stage.run({TEXT, READ}, [other if word == "report" else word for word in audit])


PARTS = (
    words,
    broken_texts,
    limits,
    tables,
    strange_entries,
    outputs,
    places,
    machine,
    views_and_signals,
    definitions,
    generated,
    journals,
    reports,
    edges.descriptors,
    edges.devices,
    edges.file_sizes,
    edges.stacks,
)


def main() -> None:
    """Does the parts, with a copy of the program that other users may run too."""
    with tempfile.TemporaryDirectory(prefix="hostile-program-") as folder:
        os.chmod(folder, 0o755)
        Stage.program = shutil.copy(sys.argv[1], os.path.join(folder, "txforest"))
        os.chmod(Stage.program, 0o755)
        do_parts(sys.argv[2:])


def do_parts(wanted: list[str]) -> None:
    """Does the parts that are named, or all, and tells how many tries each made."""
    for part in PARTS:
        if wanted and part.__name__ not in wanted:
            continue
        first, Stage.longest = Stage.tries, 0.0
        try:
            part()
        except Wrong as wrong:
            sys.exit(f"{part.__name__}: {wrong}")
        told = f"{Stage.tries - first:6} tries: {(part.__doc__ or '').rstrip('.')}"
        print(f"{told}; the longest took {Stage.longest:.1f} s", flush=True)
    print(f"{Stage.tries:6} tries, each with an allowed status and nothing else changed")


if __name__ == "__main__":
    main()

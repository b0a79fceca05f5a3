"""Proves the program and the crates below it, and prints the path of the executable.

A gate of their own, which stands beside the repository, proves them side by side. With no change
since the last time nothing is proved again. One that works there holds a lock, and a second waits.

Meanwhile standard error says how far it is. A signal that ends it ends the gate too.
"""

from __future__ import annotations

import fcntl
import hashlib
import os
import select
import shutil
import signal
import subprocess
import sys
import time
from collections.abc import Iterator
from contextlib import contextmanager
from types import FrameType
from typing import IO, NoReturn

from progress import Progress, Ticker, weights_of

TOP = os.path.dirname(os.path.dirname(os.path.realpath(__file__)))
ROOM = os.path.join(os.environ.get("XDG_CACHE_HOME") or os.path.expanduser("~/.cache"), "txforest")
PROGRAM = os.path.join(ROOM, "crates", "txforest", "out", "txforest")
WEIGHTS = os.path.join(os.path.dirname(os.path.realpath(__file__)), "weights")
LEFT_OUT = ("out", "must-fail")
ENDING = (signal.SIGINT, signal.SIGTERM, signal.SIGHUP)
# A proof on so many bytes of memory side by side.
OF_PROOF = 2**31
AT_ONCE = 65_536
# `rt` keeps nothing if the disk has less room.
KEEPS_FROM = 5_000 * 2**20


class Ended(Exception):
    """A signal ended it."""

    def __init__(self, number: int) -> None:
        super().__init__(number)
        self.number = number


def read(path: str) -> bytes:
    with open(path, "rb") as file:
        return file.read()


def write(path: str, content: bytes) -> None:
    with open(path, "wb") as file:
        file.write(content)


def crate_lines() -> dict[str, str]:
    """The lines of crates.txt, by the crates that they name."""
    lines = [
        line
        for line in read(os.path.join(TOP, "crates.txt")).decode().splitlines()
        if line and not line.startswith("#")
    ]
    return {line.split(":")[0].split()[0]: line for line in lines}


def needed(name: str, lines: dict[str, str]) -> set[str]:
    """A crate and all below it."""
    found, left = set(), [name]
    while left:
        crate = left.pop()
        if crate in lines and crate not in found:
            found.add(crate)
            left += lines[crate].split(":")[1].split()
    return found


def files_of(crate: str) -> Iterator[str]:
    for at, folders, names in os.walk(os.path.join(TOP, "crates", crate)):
        folders[:] = sorted(it for it in folders if it not in LEFT_OUT)
        for name in sorted(names):
            yield os.path.relpath(os.path.join(at, name), TOP)


def contents() -> dict[str, bytes]:
    """What the gate is run on: paths with what they hold."""
    lines = crate_lines()
    crates = sorted(needed("txforest", lines))
    found = {
        "crates.txt": "".join(lines[it] + "\n" for it in crates).encode(),
        "HANDLES": read(os.path.join(TOP, "HANDLES")),
    }
    for crate in crates:
        found.update((path, read(os.path.join(TOP, path))) for path in files_of(crate))
    return found


def state_of(files: dict[str, bytes]) -> bytes:
    kit = subprocess.run(["rt", "version"], capture_output=True, check=True).stdout
    state = hashlib.sha256(kit)
    for path, content in files.items():
        state.update(f"{path} {len(content)}\n".encode() + content)
    return state.hexdigest().encode()


@contextmanager
def held() -> Iterator[None]:
    """Holds the lock of the room, ROOM.lock, and tells if another one works there."""
    os.makedirs(os.path.dirname(ROOM), exist_ok=True)
    with open(f"{ROOM}.lock", "w") as lock:
        try:
            fcntl.flock(lock, fcntl.LOCK_EX | fcntl.LOCK_NB)
        except BlockingIOError:
            print(f"another one builds in {ROOM}; waiting", file=sys.stderr, flush=True)
            fcntl.flock(lock, fcntl.LOCK_EX)
        yield


def lay_out(files: dict[str, bytes]) -> None:
    shutil.rmtree(ROOM, ignore_errors=True)
    for path, content in files.items():
        to = os.path.join(ROOM, path)
        os.makedirs(os.path.dirname(to), exist_ok=True)
        write(to, content)
    subprocess.run(["git", "init", "-q", ROOM], check=True)


def below_of(lines: dict[str, str], names: set[str]) -> dict[str, list[str]]:
    """For each of these crates those of the repository on which it stands."""
    return {name: [it for it in lines[name].split(":")[1].split() if it in names] for name in names}


def lanes() -> int:
    """How many proofs run side by side here: one a processor, as many as memory holds."""
    memory = os.sysconf("SC_PAGE_SIZE") * os.sysconf("SC_PHYS_PAGES")
    return max(min(len(os.sched_getaffinity(0)), memory // OF_PROOF), 1)


def raise_ended(number: int, _: FrameType | None) -> NoReturn:
    """Ends by an exception, so that what was started can be ended too."""
    raise Ended(number)


@contextmanager
def gate() -> Iterator[IO[bytes]]:
    """Runs the gate, and gives what it prints. It ends with this block, however that ends.

    What `rt` has started ends with `rt`.
    """
    for number in ENDING:
        if signal.getsignal(number) is not signal.SIG_IGN:
            signal.signal(number, raise_ended)
    ran = subprocess.Popen(
        ["rt", "ci"], cwd=ROOM, stdout=subprocess.PIPE, stderr=subprocess.STDOUT, bufsize=0
    )
    try:
        assert ran.stdout is not None
        yield ran.stdout
        if ran.wait():
            sys.exit(f"not proved: {ROOM}/log says why")
    finally:
        for number in ENDING:
            signal.signal(number, signal.SIG_IGN)
        ran.kill()
        ran.wait()


def lines_of(source: IO[bytes], ticker: Ticker) -> Iterator[str]:
    """The lines of a source as they come; an empty text whenever the ticker has to speak."""
    left = b""
    while True:
        if not select.select([source], [], [], ticker.rest())[0]:
            yield ""
            continue
        came = os.read(source.fileno(), AT_ONCE)
        if not came:
            return
        *whole, left = (left + came).split(b"\n")
        yield from (f"{line.decode(errors='replace')}\n" for line in whole)


def keeps() -> bool:
    """Whether `rt` keeps each crate that it has proved for the next run.

    It does so beside the kit, if it may write there and the disk has room.
    """
    told = subprocess.run(["rt", "doc"], capture_output=True, text=True, check=True).stdout
    kit = os.path.dirname(told.strip())
    kept = os.path.join(os.path.dirname(kit), "rattle-kept")
    return os.access(kept, os.W_OK | os.X_OK) and shutil.disk_usage(kept).free >= KEEPS_FROM


def follow(progress: Progress, ticker: Ticker) -> None:
    """Runs the gate, and tells how far it is."""
    with open(os.path.join(ROOM, "log"), "w", 1) as log, gate() as source:
        for line in lines_of(source, ticker):
            log.write(line)
            words = line.split()
            if line.startswith("rt: ") and words[2:] == ["proved"]:
                progress.is_proved(words[1], ticker.now())
            elif line.startswith("rt: ") and words[2:4] == ["is", "kept:"]:
                progress.is_kept(words[1])
            ticker.tick(progress.told)


def prove(progress: Progress) -> None:
    """Proves all crates, or says how far it came where a signal ends it."""
    ticker = Ticker(sys.stderr, shutil.get_terminal_size().columns, time.monotonic)
    try:
        try:
            follow(progress, ticker)
        finally:
            ticker.end()
    except Ended as ended:
        print(f"stopped: {progress.told_at_end(keeps())}", file=sys.stderr)
        sys.exit(128 + ended.number)


def main() -> None:
    if shutil.which("rt") is None:
        sys.exit("rt, which proves and builds the program, is not on the PATH: README says more")
    files = contents()
    state, kept = state_of(files), os.path.join(ROOM, "state")
    with held():
        if not (os.path.isfile(kept) and os.path.isfile(PROGRAM) and read(kept) == state):
            lay_out(files)
            lines = crate_lines()
            below = below_of(lines, needed("txforest", lines))
            prove(Progress(weights_of(read(WEIGHTS).decode()), below, lanes()))
            write(kept, state)
    print(PROGRAM)


if __name__ == "__main__":
    try:
        main()
    except KeyboardInterrupt:
        sys.exit(128 + signal.SIGINT)

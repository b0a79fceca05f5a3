"""Threaded runs of random scripts; for each report a schedule by which `trace` prints it.

usage: replays.py PROGRAM [SEED] [COUNT]

Each case has three to eight scripts that count in four files, so that most runs have retries. Ends
with 1 at the first report for which `txforest-schedules --of` finds no schedule whose trace ends
with the report byte for byte.
"""

from __future__ import annotations

import os
import random
import subprocess
import sys
import tempfile

TOP = os.path.dirname(os.path.dirname(os.path.realpath(__file__)))
TOOL = os.path.join(TOP, "tools", "txforest-schedules")
FILES = "abcd"
SPEC = '{(n :: file) | n in lines("a\\nb\\nc\\nd\\n")}\n'
GOES = 12  # how often a case runs at most until it has a retry


def write(path: str, text: str) -> str:
    """A file, and its path."""
    with open(path, "w", encoding="ascii") as file:
        file.write(text)
    return path


def transaction(choice: random.Random) -> str:
    """A transaction that reads up to three files, and counts in one."""
    read = choice.sample(FILES, choice.randint(1, 3))
    looks = "".join(f'to("{it}") down fetch {it}{i} : str up out ' for i, it in enumerate(read))
    count = 'down fetch old : str store((text((int(old) + 1)) ++ "\\n")) print(old)'
    return f'txn {{ {looks}to("{choice.choice(FILES)}") {count} }}\n'


def retries_of(report: bytes) -> int:
    """How many retries a report has."""
    return int(report.split(b"\nretries ")[1].split(b"\n")[0])


def reported(program: str, words: list[str], room: str) -> bytes:
    """The report of a threaded run that has a retry, or of the last one of some."""
    report = b""
    for go in range(GOES):
        spec, folder, *scripts = words
        out = os.path.join(room, f"out{go}")
        ran = subprocess.run(
            [program, "run", spec, folder, out, *scripts], capture_output=True, check=True
        )
        report = ran.stdout
        if retries_of(report):
            break
    return report


def case(program: str, choice: random.Random) -> int:
    """One case; answers how many retries its report has."""
    with tempfile.TemporaryDirectory() as room:
        folder = os.path.join(room, "in")
        os.mkdir(folder)
        for name in FILES:
            write(os.path.join(folder, name), "0\n")
        words = [write(os.path.join(room, "spec"), SPEC), folder]
        for shell in range(choice.choice([3, 4, 6, 8])):
            text = "".join(transaction(choice) for _ in range(choice.randint(10, 120)))
            words.append(write(os.path.join(room, f"s{shell}"), text))
        report = reported(program, words, room)
        path = os.path.join(room, "report")
        with open(path, "wb") as file:
            file.write(report)
        found = subprocess.run(
            [sys.executable, "-B", TOOL, "--of", path, *words],
            capture_output=True,
            env={**os.environ, "TXFOREST": program},
        )
        if found.returncode or not found.stdout.endswith(report):
            sys.stderr.buffer.write(report + found.stderr)
            sys.exit("no schedule was found for this report")
        return retries_of(report)


def numbers(words: list[str]) -> tuple[int, int]:
    """The seed and the number of cases."""
    return int(words[0]) if words else 1, int(words[1]) if len(words) > 1 else 100


def main() -> None:
    program = sys.argv[1]
    seed, count = numbers(sys.argv[2:])
    choice = random.Random(seed)
    retries = [case(program, choice) for _ in range(count)]
    print(f"{count} reports, {sum(retries)} retries: for each a schedule whose trace has it")


if __name__ == "__main__":
    main()

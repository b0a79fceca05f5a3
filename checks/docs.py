"""Runs the commands that documents show, and follows the links between documents.

usage: docs.py PROGRAM DOCUMENT..

A line `<!-- stage FOLDER -->` begins a stage: a fresh copy of that folder of the repository, or an
empty folder for `-`. In a block of kind `console` a line that begins with `$ ` is a command, lines
that begin with `> ` go on with it, and the others are what it prints. A block of kind `sh` is
commands that can be pasted as they are. A block of kind `text` right behind it is what they print;
without one they print nothing. Standard error is printed too. `txforest` stands for PROGRAM, and
the tools are on the PATH.

Then every link of every page is followed, in the repository and once `./install` has put the pages
elsewhere; each folder of examples/ has its paragraph; and the words of the language and of the
commands are the same wherever they are listed. Ends with 1 at the first fault, which it shows.
"""

from __future__ import annotations

import os
import re
import shutil
import subprocess
import sys
import tempfile
from collections.abc import Iterator

import words_of_language
from repository import TOP

BLOCKS = re.compile(
    r"<!-- stage (\S+) -->"
    r"|^```console\n(.*?)^```$"
    r"|^```sh\n(.*?)^```$(?:\n\n^```text\n(.*?)^```$)?",
    re.DOTALL | re.MULTILINE,
)
FENCED = re.compile(r"(?ms)^```.*?^```$")
LINK = re.compile(r"\]\(([^()\s]+)\)")
SECONDS = 120


def text_of(path: str) -> str:
    """What a file holds."""
    with open(path, encoding="utf-8") as it:
        return it.read()


# ---- commands


def commands_of(block: str) -> list[tuple[str, str]]:
    """The commands of a console block, each with what it is to print."""
    found: list[tuple[str, str]] = []
    for line in block.splitlines():
        if line.startswith("$ "):
            found.append((line[2:], ""))
            continue
        command, printed = found[-1]
        if line.startswith("> ") and not printed:
            found[-1] = (f"{command}\n{line[2:]}", "")
        else:
            found[-1] = (command, f"{printed}{line}\n")
    return found


def steps_of(text: str) -> Iterator[tuple[str, str, str]]:
    """The stages, commands and scripts of a page: which of them, its text, and what it prints."""
    for folder, console, script, printed in BLOCKS.findall(text):
        if folder:
            yield "stage", folder, ""
        elif script:
            yield "script", script, printed
        else:
            for command, wanted in commands_of(console):
                yield "command", command, wanted


def run(program: str, document: str, room: str) -> int:
    """Runs the commands of a document; answers how many there were."""
    os.mkdir(f"{room}/bin")
    os.symlink(program, f"{room}/bin/txforest")
    path = f"{room}/bin:{TOP}/tools:{os.environ['PATH']}"
    words = {**os.environ, "PATH": path, "TXFOREST": program, "LC_ALL": "C.UTF-8"}
    stage, count = room, 0
    for kind, text, wanted in steps_of(text_of(os.path.join(TOP, document))):
        if kind == "stage":
            stage = f"{room}/{len(os.listdir(room))}"
            if text == "-":
                os.mkdir(stage)
            else:
                shutil.copytree(os.path.join(TOP, text), stage)
            continue
        ran = subprocess.run(
            ["bash", "-c", text],
            cwd=stage,
            env=words,
            stdin=subprocess.DEVNULL,
            stdout=subprocess.PIPE,
            stderr=subprocess.STDOUT,
            text=True,
            timeout=SECONDS,
        )
        if ran.stdout != wanted:
            sys.exit(f"{document}: $ {text}\n--- prints\n{ran.stdout}--- and not\n{wanted}")
        if kind == "command":
            count += 1
        else:
            count += sum(not line.startswith((" ", "#", "}")) for line in outside(text))
    return count


def outside(script: str) -> Iterator[str]:
    """The lines of a script that are no part of a here-document."""
    end: str | None = None
    for line in script.splitlines():
        if end is None:
            if line.strip():
                yield line
            found = re.search(r"<<'?(\w+)'?", line)
            end = found[1] if found else None
        elif line == end:
            end = None


# ---- links


def anchors(text: str) -> set[str]:
    """The anchors that the headings of a page make."""
    heads = re.findall(r"(?m)^#+ (.*)$", FENCED.sub("", text))
    return {re.sub(r"[^\w\- ]", "", head.lower()).replace(" ", "-") for head in heads}


def has_part(path: str, anchor: str) -> bool:
    """Whether a file has what stands behind the `#` of a link to it: of a page a heading, of any
    other file a line, as `L20`."""
    text = text_of(path)
    if path.endswith(".md"):
        return anchor in anchors(text)
    line = re.fullmatch(r"L([1-9][0-9]*)", anchor)
    return line is not None and int(line[1]) <= text.count("\n")


def links(top: str, document: str) -> int:
    """Follows the links of a page that stands below a folder; answers how many there were."""
    page = os.path.join(top, document)
    found = LINK.findall(FENCED.sub("", text_of(page)))
    for link in found:
        if re.match(r"https?:", link):
            continue
        path, _, anchor = link.partition("#")
        there = os.path.normpath(os.path.join(os.path.dirname(page), path)) if path else page
        if not os.path.exists(there) or not there.startswith(top + os.sep):
            sys.exit(f"{page}: the link {link} leads nowhere")
        if anchor and not has_part(there, anchor):
            sys.exit(f"{page}: the link {link} leads to no such part")
    return len(found)


def pages_below(top: str) -> list[str]:
    """The pages of a folder of documents."""
    pages = ["README.md", "SECURITY.md", "bench/README.md", "examples/README.md"]
    return pages + sorted(f"docs/{name}" for name in os.listdir(os.path.join(top, "docs")))


def links_installed(program: str) -> int:
    """Follows the links of the pages that `./install` puts elsewhere; how many there are."""
    with tempfile.TemporaryDirectory(prefix="docs-") as prefix:
        words = {**os.environ, "TXFOREST": program}
        install = [os.path.join(TOP, "install"), prefix]
        subprocess.run(install, env=words, stdout=subprocess.DEVNULL, check=True)
        top = os.path.join(os.path.realpath(prefix), "share", "doc", "txforest")
        return sum(links(top, page) for page in pages_below(top))


def examples_told() -> int:
    """Holds the paragraphs of examples/README.md against the folders there; how many they are."""
    folder = os.path.join(TOP, "examples")
    found = sorted(it.name for it in os.scandir(folder) if it.is_dir())
    told = re.findall(r"(?m)^\*\*\[(\w+)\]\(\1\)\*\*:", text_of(os.path.join(folder, "README.md")))
    if sorted(told) != found:
        sys.exit(f"examples/README.md tells of {sorted(told)}, and there are {found}")
    return len(found)


def main() -> None:
    """Does all of it."""
    program, documents = os.path.abspath(sys.argv[1]), sys.argv[2:]
    count = 0
    for document in documents:
        with tempfile.TemporaryDirectory(prefix="docs-", ignore_cleanup_errors=True) as room:
            count += run(program, document, room)
    followed = sum(links(TOP, page) for page in pages_below(TOP))
    installed = links_installed(program)
    print(f"{count} commands print what the documents show")
    print(f"{followed} links lead somewhere, and {installed} of the installed pages")
    print(f"{examples_told()} examples have their paragraph")
    words_of_language.main()


if __name__ == "__main__":
    main()

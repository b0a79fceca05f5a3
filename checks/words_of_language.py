"""Holds lists of words against each other: of the language, of the commands, of the tools.

usage: words_of_language.py

The words that the language keeps stand in the parser, in the model, in LANGUAGE, and in the
grammars of two kinds of editors. The program's commands stand in its own table, in three
completions, in the manual page, in README and in FORMATS. The tools and their options stand beside
each other in tools/, in three completions, in their manual pages and in README. Ends with 1 if one
list has a word that another one lacks, and says which. Before that one word is taken out of each
list, in a copy: each time the check has to tell it.
"""

from __future__ import annotations

import json
import os
import re
import shutil
import subprocess
import sys
import tempfile
from collections.abc import Callable, Iterator
from typing import NamedTuple

from repository import TOP, model

Words = set[str]


class List(NamedTuple):
    """A list of words: the file where it stands, and how it is read from the file's text."""

    file: str
    read: Callable[[str], Words]


def inside(pattern: str, words: str = r"[\w-]+") -> Callable[[str], Words]:
    """Reads the words in the first group of every place that a pattern matches."""
    found = re.compile(pattern, re.MULTILINE | re.DOTALL)
    return lambda text: {word for it in found.findall(text) for word in re.findall(words, it)}


def keywords_of_textmate(text: str) -> Words:
    r"""The words of a grammar's patterns of the form `\b(a|b)\b`."""
    found: Words = set()
    for pattern in json.loads(text)["patterns"]:
        words = re.fullmatch(r"\\b\(([a-z|]+)\)\\b", pattern.get("match", ""))
        found |= set(words[1].split("|")) if words else set()
    return found - {"def"}


OPTION = r"(?<=--)[\w-]+"
BASH = "tools/completion/txforest.bash"
ZSH = "tools/completion/_txforest"
FISH = "tools/completion/txforest.fish"

KEYWORDS = [
    List("crates/fx_parse/src/keyword.rt", inside(r'^ +Keyword::\w+ => b"(\w+)"')),
    List("tools/txforest/model/tokens.py", inside(r"^KEPT = set\((.*?)\.split")),
    List("docs/LANGUAGE.md", inside(r"^```\n(file dir link .*?)^```$")),
    List(
        "editors/vim/syntax/txforest.vim",
        inside(r"^syntax keyword (?!forestDefinition)\w+ ([a-z ]+)$"),
    ),
    List("editors/textmate/txforest.tmLanguage.json", keywords_of_textmate),
]
COMMANDS = [
    List("crates/fx_words/src/form.rt", inside(r'^ +CommandName::\w+ => "(\w+)"')),
    List(BASH, inside(r'compgen -W "(run [a-z ]+)"')),
    List(ZSH, inside(r"_values 'command' (.*?);;", r"(?<=')[a-z]+(?=\[)")),
    List(FISH, inside(r"-eq 1' -a '(.*?)'$", r'[a-z]+(?=\\t")')),
    List("tools/man/txforest.1", inside(r"^\.Nm\n\.Cm (\w+)$")),
    List("README.md", inside(r"^\| `txforest ([a-z]+) ")),
    List("docs/FORMATS.md", inside(r"^txforest ([a-z]+) [A-Z]")),
]


def tools_of(top: str) -> Words:
    """The tools beside the program."""
    return {name for name in os.listdir(os.path.join(top, "tools")) if name.startswith("txforest-")}


TOOLS = [
    List(BASH, inside(r"^complete -F _txforest_tool ([^\n]*)$")),
    List(ZSH, inside(r"^#compdef txforest ([^\n]*)$")),
    List(FISH, inside(r"^complete -c (txforest-\w+)")),
    List("README.md", inside(r"^\| `(txforest-\w+)")),
]


def text_of(top: str, file: str) -> str:
    """What a file of the repository holds."""
    with open(os.path.join(top, file), encoding="utf-8") as it:
        return it.read()


def differences(top: str, what: str, lists: list[List], wanted: Words) -> Iterator[str]:
    """What lists lack, and what they have too much."""
    for it in lists:
        found = it.read(text_of(top, it.file))
        if found != wanted:
            lacks, more = " ".join(sorted(wanted - found)), " ".join(sorted(found - wanted))
            told = f"lacks {lacks}" * bool(lacks) + " and " * bool(lacks and more)
            yield f"{it.file}: of {what} it {told}{f'has {more} besides' if more else ''}"


def options_of(tool: str) -> Words:
    """The options that a tool's `--help` tells, but those that each tool has."""
    ran = subprocess.run(
        [os.path.join(TOP, "tools", tool), "--help"], capture_output=True, text=True, check=True
    )
    found = re.findall(r"(?m)^  (?:-\w(?: \S+)?, )?--([\w-]+)", ran.stdout)
    return set(found) - {"help", "version"}


def option_faults(top: str, tool: str) -> Iterator[str]:
    """What the completions and the page of a tool do not say of its options."""
    wanted = options_of(tool)
    page = f"tools/man/{tool}.1"
    if not os.path.exists(os.path.join(top, page)):
        yield f"{page}: not there"
        return
    lists = [
        List(BASH, inside(rf'{tool}\) options="--help(.*?)"', OPTION)),
        List(ZSH, inside(rf"^{tool}\)(.*?);;", OPTION)),
        List(FISH, inside(rf"^complete -c {tool} [^\n]*?-l ([\w-]+)")),
        List(page, inside(r"^\.It (?:Fl \w Ar \w+ , )?Fl -([\w-]+)")),
    ]
    yield from differences(top, f"the options of {tool}", lists, wanted)


def faults(top: str) -> Iterator[str]:
    """What is wrong with the lists of a repository."""
    yield from differences(top, "the kept words", KEYWORDS, set(model.KEPT))
    commands = COMMANDS[0].read(text_of(top, COMMANDS[0].file))
    yield from differences(top, "the commands", COMMANDS, commands)
    yield from differences(top, "the tools", TOOLS, tools_of(top))
    for tool in sorted(tools_of(top)):
        yield from option_faults(top, tool)


def planted() -> int:
    """Takes a word out of each list, in a copy that is whole otherwise; how often that was told."""
    count = 0
    changed = [*((it, "fetch") for it in KEYWORDS), *((it, "audit") for it in COMMANDS)]
    changed += [(it, "txforest-picture") for it in TOOLS]
    files = {it.file for it, _ in changed}
    with tempfile.TemporaryDirectory(prefix="words-") as top:
        for file in files:
            os.makedirs(os.path.join(top, os.path.dirname(file)), exist_ok=True)
            shutil.copyfile(os.path.join(TOP, file), os.path.join(top, file))
        for it, word in changed:
            text = text_of(top, it.file)
            with open(os.path.join(top, it.file), "w", encoding="utf-8") as file_:
                file_.write(re.sub(rf"(?<![\w-]){word}(?![\w-])", f"x{word}", text))
            wanted = it.read(text)
            if not list(differences(top, "words", [it], wanted)):
                sys.exit(f"{it.file}: a list without {word} is not told")
            with open(os.path.join(top, it.file), "w", encoding="utf-8") as file_:
                file_.write(text)
            count += 1
    return count


def main() -> None:
    """Tells every difference, or how much was compared."""
    count = planted()
    found = list(faults(TOP))
    if found:
        sys.exit("\n".join(found))
    words = len(model.KEPT)
    print(
        f"{words} kept words in {len(KEYWORDS)} lists, the commands in {len(COMMANDS)}, and"
        f" {len(tools_of(TOP))} tools in {len(TOOLS)} with their options; {count} planted"
        " differences were told"
    )


if __name__ == "__main__":
    main()

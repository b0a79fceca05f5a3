"""Counts the long sentences of the documents, and the comments of the crates that name nothing.

usage: words.py [--most PERCENT] [--longest COUNT] [PAGE..]

A sentence is long if it has more than 30 words. The pages are README.md, bench/README.md,
docs/*.md and the manual pages of tools/man; PAGE.. are others in their place. Code, headings and
the targets of links are left out; a piece of code inside a sentence counts as one word. The cells
of tables are counted apart: they are printed, and no part of the share.

A comment names nothing if it begins with 'The same': it does not say what is the same.

Prints a line for each page, then the longest sentences, then the comments with their places. Ends
with 1 if more than PERCENT of the sentences are long (5 without the option), and with 2 if a page
is not there.
"""

import argparse
import pathlib
import re
import sys
from collections.abc import Iterable, Iterator
from typing import NamedTuple

LONG = 30
TOP = pathlib.Path(__file__).resolve().parent.parent
PROSE = set("Em Sy No Ql Dq Sq Pq Nm Ar Cm Fl Li Pa Xr Ev Ic".split())
WORD = re.compile(r"[A-Za-z0-9'’.-]+")
END = re.compile(
    r"(?:(?<=[.!?:;])|(?<=[.!?][*)])|(?<=[.!?]\*\*))\s+(?=[A-Z*\[(])"  # a word that begins one
    r"|(?<=[.!?])\s+(?=`)"  # or code
)


class Sentence(NamedTuple):
    """One sentence of a page: how many words it has, and whether it stands in a table."""

    page: str
    length: int
    text: str
    in_table: bool


def blocks_of(text: str) -> Iterator[tuple[str, bool]]:
    """The paragraphs, items and cells of a page in Markdown, each as one line; true for a cell."""
    text = re.sub(r"(?ms)^```.*?^```$", "", text)
    text = re.sub(r"<!--.*?-->", " ", text, flags=re.DOTALL)
    block: list[str] = []
    for line in (*text.split("\n"), ""):
        line = line.strip()
        item = re.match(r"([-*>]|\d+\.)\s+", line)
        if not line or line.startswith(("|", "#")) or item:
            yield " ".join(block), False
            block = []
        if line.startswith("|"):
            for cell in re.split(r"(?<!\\)\|", line):
                yield cell.strip(), True
        elif line and not line.startswith("#"):
            block.append(line[item.end() :] if item else line)


def manual_blocks_of(text: str) -> Iterator[tuple[str, bool]]:
    """The paragraphs of a manual page, each as one line; a macro stands for its arguments."""
    block: list[str] = []
    literal = False
    for line in (*text.split("\n"), ".Pp"):
        macro = re.match(r"\.([A-Z][a-z]) ?(.*)", line)
        if macro and macro[1] in ("Bd", "Ed"):
            literal = macro[1] == "Bd"
        if literal:
            continue
        if not macro:
            block.append(line)
        elif macro[1] in PROSE:
            words = [word for word in macro[2].split() if word not in PROSE]
            block.append(" ".join(words) or macro[1])
        else:
            yield re.sub(r"\s+([.,;:])(?=\s|$)", r"\1", " ".join(block)), False
            block = []


def sentences_of(page: pathlib.Path) -> list[Sentence]:
    """The sentences of a page that have more than two words."""
    text = page.read_text(encoding="utf-8")
    manual = page.suffix in (".1", ".5")
    found = []
    for block, in_table in manual_blocks_of(text) if manual else blocks_of(text):
        block = re.sub(r"`[^`]*`", "`code`", re.sub(r"\]\([^)]*\)", "]", block))
        for sentence in END.split(block):
            length = len(WORD.findall(sentence))
            if length > 2:
                found.append(Sentence(name_of(page), length, sentence, in_table))
    return found


def name_of(path: pathlib.Path) -> str:
    """The path from the top of the repository, or as it is if it lies elsewhere."""
    path = path.resolve()
    return str(path.relative_to(TOP)) if path.is_relative_to(TOP) else str(path)


def pages() -> list[pathlib.Path]:
    """The pages of the repository."""
    manuals = [page for page in sorted(TOP.glob("tools/man/*")) if page.suffix in (".1", ".5")]
    return [TOP / "README.md", TOP / "bench/README.md", *sorted(TOP.glob("docs/*.md")), *manuals]


def nameless(sources: Iterable[pathlib.Path]) -> Iterator[str]:
    """The comments that begin with 'The same', each behind its place."""
    for source in sources:
        for number, line in enumerate(source.read_text(encoding="utf-8").split("\n"), 1):
            found = re.search(r"//[/!]? (The same\b.*)", line)
            if found:
                yield f"{name_of(source)}:{number}: {found[1]}"


def long_of(sentences: Iterable[Sentence]) -> int:
    """How many of the sentences are long."""
    return sum(sentence.length > LONG for sentence in sentences)


def told(name: str, sentences: list[Sentence]) -> str:
    """The line that tells the counts of a page or of all pages."""
    prose = [sentence for sentence in sentences if not sentence.in_table]
    cells = [sentence for sentence in sentences if sentence.in_table]
    longest = max((sentence.length for sentence in prose), default=0)
    counts = f"{len(prose)} sentences, {long_of(prose)} of more than {LONG} words"
    return f"{name}: {counts}, longest {longest}; in tables {len(cells)}, {long_of(cells)}"


def main() -> int:
    """Counts, prints, and answers the exit status."""
    parser = argparse.ArgumentParser(description="Counts the long sentences of the documents.")
    parser.add_argument(
        "--most",
        type=float,
        default=5.0,
        metavar="PERCENT",
        help="how many of the sentences may be long (5)",
    )
    parser.add_argument(
        "--longest",
        type=int,
        default=10,
        metavar="COUNT",
        help="how many of the longest sentences are printed (10)",
    )
    parser.add_argument("pages", nargs="*", type=pathlib.Path, metavar="PAGE")
    words = parser.parse_args()
    for page in words.pages:
        if not page.is_file():
            print(f"words.py: {page}: no such page", file=sys.stderr)
            return 2
    every: list[Sentence] = []
    for page in words.pages or pages():
        sentences = sentences_of(page)
        print(told(name_of(page), sentences))
        every += sentences
    for sentence in sorted(every, key=lambda one: -one.length)[: words.longest]:
        if sentence.length > LONG:
            print(f"  {sentence.length} {sentence.page}: {sentence.text}")
    comments = list(nameless(sorted(TOP.glob("crates/*/src/**/*.rt"))))
    print(f"comments 'The same ..' in the crates: {len(comments)}")
    for comment in comments:
        print(f"  {comment}")
    prose = [sentence for sentence in every if not sentence.in_table]
    share = 100 * long_of(prose) / max(len(prose), 1)
    print(f"{told('all', every)}; {share:.1f} % are long")
    return 1 if share > words.most else 0


if __name__ == "__main__":
    sys.exit(main())

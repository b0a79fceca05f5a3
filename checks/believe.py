#!/usr/bin/env python3
"""The page of all that a reader must believe, made from the sources.

believe.py            writes the page to standard output
believe.py --check    ends with 1 if docs/BELIEVE.md is not that page, and says what is stale
believe.py --counts   tells definitions and lines of the contract, by command, and the page's words

`--repo FOLDER` takes the sources of another clone. Status 2: the words are wrong.
"""

from __future__ import annotations

import argparse
import sys
from pathlib import Path

from believe.counts import counts
from believe.names import Failed, World
from believe.page import last_first, page, stale, words
from believe.plan import PLAN


def main() -> int:
    """Runs the program by its words."""
    parser = argparse.ArgumentParser(description=__doc__.split("\n", maxsplit=1)[0])
    asked = parser.add_mutually_exclusive_group()
    asked.add_argument("--check", action="store_true", help="end with 1 if the page is stale")
    asked.add_argument("--counts", action="store_true", help="tell definitions and lines")
    here = Path(__file__).resolve().parent.parent
    parser.add_argument("--repo", type=Path, default=here, help="the clone whose sources are read")
    args = parser.parse_args()
    try:
        world = World(args.repo)
        if args.counts:
            print(*counts(world), sep="\n")
        text = page(world, PLAN)
    except Failed as failure:
        print(f"believe.py: {failure}", file=sys.stderr)
        return 1
    if args.check:
        told = stale(args.repo, text)
        print(*told, sep="\n", end="\n" if told else "", file=sys.stderr)
        return 1 if told else 0
    if args.counts:
        last = last_first(PLAN)
        read = words(text, last)
        print(f"words outside the folds: {read.first} in sections 0 to {last}, {read.all} in all")
        return 0
    sys.stdout.write(text)
    return 0


if __name__ == "__main__":
    sys.exit(main())

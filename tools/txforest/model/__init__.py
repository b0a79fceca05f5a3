"""The meaning of descriptions, scripts, runs, reports and audits, written a second time.

It is written apart from the program, plainly and slowly. `checks/compare.py` holds the program
against it, and the tools take from it what they know of the meaning.

A module stands on those before it in MODULES. A name is looked for there, in this order, when it is
first asked for. A tool that counts its milliseconds imports from the module itself.
"""

from __future__ import annotations

from importlib import import_module
from typing import Any

MODULES = (
    "limits",
    "refusals",
    "spelling",
    "store",
    "table",
    "trees",
    "tokens",
    "grammar",
    "check",
    "expr",
    "values",
    "moves",
    "edits",
    "txn",
    "reports",
    "reading",
    "run",
    "journal",
    "audits",
    "folder",
    "cases",
)


def __getattr__(name: str) -> Any:
    """The module of this name, or what the first of the modules that has this name calls so."""
    if name in MODULES:
        return import_module(f".{name}", __name__)
    if not name.startswith("__"):
        for module in MODULES:
            found = vars(import_module(f".{module}", __name__))
            if name in found:
                globals()[name] = found[name]
                return found[name]
    raise AttributeError(f"module {__name__!r} has no attribute {name!r}")

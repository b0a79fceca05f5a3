"""The tools around the program txforest: how jobs get into a live tree and out of it.

The commands `txforest-NAME` are thin files over the modules of this package. Nothing here works on
import, and nothing beside the standard library is needed.

For programs in Python: `transactional`, `attempts` and `transaction` run transactions on a tree of
plain files; txforest.interface says how.
"""

from __future__ import annotations

TYPE_CHECKING = False
if TYPE_CHECKING:
    from .interface import (
        Conflict,
        Failed,
        NoValue,
        Transaction,
        TreePath,
        attempts,
        transaction,
        transactional,
    )

__all__ = [
    "Conflict",
    "Failed",
    "NoValue",
    "Transaction",
    "TreePath",
    "attempts",
    "transaction",
    "transactional",
]


def __getattr__(name: str) -> object:
    """The names of the interface, loaded at their first use: a tool's start counts."""
    if name in __all__:
        from . import interface

        return getattr(interface, name)
    raise AttributeError(f"module {__name__!r} has no attribute {name!r}")

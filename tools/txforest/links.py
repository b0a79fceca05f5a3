"""Symbolic links of a real tree, and their texts in the table of a folder.

Paths are tuples of names, as bytes. In a folder an absolute text begins at the folder's root.
"""

from __future__ import annotations

TYPE_CHECKING = False
if TYPE_CHECKING:
    from collections.abc import Callable, Mapping

    Path = tuple[bytes, ...]

TABLE = b".forest-links"
STEPS = 40  # how many links one path may follow
NAMES = 64  # how many names a link's text may have
LENGTH = 4096  # how many bytes


def names_of(text: bytes) -> list[bytes]:
    """The names of a path's text, however many slashes stand between them."""
    return [name for name in text.split(b"/") if name]


def is_name(name: bytes) -> bool:
    """Whether the program takes a name."""
    if not 1 <= len(name) <= 255 or name in (b".", b"..", TABLE) or b"\0" in name:
        return False
    try:
        name.decode()
    except UnicodeDecodeError:
        return False
    return True


def is_link_text(text: bytes) -> bool:
    """Whether the table can have a text: single slashes, names of UTF-8, at most 64 of them."""
    if text == b"/":
        return True
    parts = text[text[:1] == b"/" :].split(b"/")
    good = all(part in (b".", b"..") or is_name(part) for part in parts)
    return good and len(parts) <= NAMES and len(text) <= LENGTH


def link_text(target: bytes, root: bytes) -> bytes:
    """The text that a link has in a folder which stands for the tree `root`.

    Slashes are single, and an absolute one into the tree begins at the folder.
    """
    names, above = names_of(target), names_of(root)
    if not target.startswith(b"/"):
        return b"/".join(names)
    return b"/" + b"/".join(names[len(above) :] if names[: len(above)] == above else names)


def real_text(path: Path, text: bytes) -> bytes:
    """The text of a link in a tree for its text in a folder. An absolute one goes by way of `..`,
    so that it leads to the same place wherever the tree stands."""
    if not text.startswith(b"/"):
        return text
    return b"/".join([b".."] * (len(path) - 1) + names_of(text)) or b"."


def leads_out(targets: Mapping[Path, bytes], root: bytes, path: Path) -> bool:
    """Whether the way of a link leaves the tree `root`, at its own text or at that of a link on the
    way. `targets` are the texts of all links as they stand in the tree."""
    above, here, followed = names_of(root), path[:-1], 0
    rest = [targets[path]]
    while rest:
        part = rest.pop(0)
        if b"/" in part:
            names = names_of(part)
            if part.startswith(b"/"):
                if names[: len(above)] != above:
                    return True
                here, names = (), names[len(above) :]
            rest = names + rest
        elif part == b"..":
            if not here:
                return True
            here = here[:-1]
        elif part != b".":
            there = (*here, part)
            if there not in targets:
                here = there
            elif followed == STEPS:
                return False
            else:
                followed += 1
                rest = [targets[there], *rest]
    return False


def lands(
    kind: Callable[[Path], str | None], texts: Mapping[Path, bytes], path: Path
) -> Path | None:
    """Where the way of a link ends in a folder, or nothing if nothing stands there.

    `kind` says of a path `d`, `f`, `l` or nothing; `texts` are the links' texts in the folder.
    """
    here: Path = ()
    rest, followed = list(path), 0
    while rest:
        part = rest.pop(0)
        if part in (b".", b""):
            continue
        if part == b"..":
            here = here[:-1]
            continue
        there = (*here, part)
        found = kind(there) if len(there) <= NAMES else None
        if found is None or found == "f" and rest:
            return None
        if found == "l":
            followed += 1
            if followed > STEPS or there not in texts:
                return None
            text = texts[there]
            here = () if text.startswith(b"/") else here
            rest = names_of(text) + rest
            continue
        here = there
    return here

"""A whole tree once more: what is taken of it as copies with all their attributes, what is left
out as further names of the same files."""

from __future__ import annotations

import os
import stat

from . import calls
from .calls import DIR, FILE
from .place import Tree, listed
from .survey import Survey
from .terminal import many
from .view import copy_file, next_folder


def copy_tree(tree: Tree, found: Survey, place: int, told: list[str]) -> None:
    """Makes the copy `made` in a place. Raises Changed if an entry is another than the survey
    found."""
    os.mkdir("made", 0o700, dir_fd=place)
    made = os.open("made", DIR, dir_fd=place)
    above, source, target = "", tree.root, made
    linked = refused = 0
    clones = os.fstat(tree.root).st_dev == os.fstat(made).st_dev
    entries: list[tuple[str, os.stat_result | None]] = [
        *((path, it) for path, it in found.taken.items() if path),
        *((it.path, None) for it in found.left),
    ]
    try:
        for path, seen in entries:
            front, _, name = path.rpartition("/")
            if front != above:
                source, target = next_folder(tree.root, made, front, source, target)
                above = front
            if seen is None:
                carry(source, target, name)
            elif stat.S_ISDIR(seen.st_mode):
                os.mkdir(name, 0o700, dir_fd=target)
            elif stat.S_ISLNK(seen.st_mode):
                refused += copy_link(source, target, name, seen)
            else:
                clones = copy_file(source, target, name, seen, path, clones)
                refused += give(source, target, name, seen)
                linked += seen.st_nlink > 1
        for path, seen in reversed(entries):
            if seen is not None and stat.S_ISDIR(seen.st_mode):
                front, _, name = path.rpartition("/")
                source, target = next_folder(tree.root, made, front, source, target)
                refused += give(source, target, name, seen)
        refused += give_open(tree.root, made, found.taken[""])
    finally:
        if source != tree.root:
            os.close(source)
            os.close(target)
        if target != made:
            os.close(made)
    if linked:
        told.append(
            f"{many(linked, 'file')} with further hard links: each is a file of its own from now on"
        )
    if refused:
        told.append(f"{many(refused, 'owner or attribute', 'owners or attributes')} not given")


def carry(source: int, target: int, name: str) -> None:
    """Takes what is left out along: files as further names, directories with all in them."""
    it = os.stat(name, dir_fd=source, follow_symlinks=False)
    if not stat.S_ISDIR(it.st_mode):
        os.link(name, name, src_dir_fd=source, dst_dir_fd=target, follow_symlinks=False)
        return
    os.mkdir(name, 0o700, dir_fd=target)
    inside = calls.PLAIN.down(source, [os.fsencode(name)])
    made = calls.PLAIN.down(target, [os.fsencode(name)])
    try:
        for inner in os.listdir(inside):
            carry(inside, made, inner)
    finally:
        os.close(inside)
        os.close(made)
    give(source, target, name, it)


def copy_link(source: int, target: int, name: str, it: os.stat_result) -> int:
    """A symbolic link once more; answers how much of it was refused."""
    os.symlink(os.readlink(name, dir_fd=source), name, dir_fd=target)
    refused = 0
    try:
        os.chown(name, it.st_uid, it.st_gid, dir_fd=target, follow_symlinks=False)
    except PermissionError:
        refused = 1
    times = (it.st_atime_ns, it.st_mtime_ns)
    os.utime(name, ns=times, dir_fd=target, follow_symlinks=False)
    return refused


def give(source: int, target: int, name: str, it: os.stat_result) -> int:
    """Gives a copy the owner, the attributes, the mode and the times of what it is a copy of;
    answers how many of them were refused."""
    old = os.open(name, FILE, dir_fd=source)
    try:
        new = os.open(name, FILE, dir_fd=target)
        try:
            return give_open(old, new, it)
        finally:
            os.close(new)
    finally:
        os.close(old)


def give_open(old: int, new: int, it: os.stat_result) -> int:
    """The same for what is open."""
    refused = 0
    now = os.fstat(new)
    if (now.st_uid, now.st_gid) != (it.st_uid, it.st_gid):
        try:
            os.fchown(new, it.st_uid, it.st_gid)
        except PermissionError:
            refused += 1
    for key in listed(old):
        try:
            os.setxattr(new, key, os.getxattr(old, key))
        except OSError:
            refused += 1
    os.fchmod(new, stat.S_IMODE(it.st_mode))
    os.utime(new, ns=(it.st_atime_ns, it.st_mtime_ns))
    return refused

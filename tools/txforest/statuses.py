"""The statuses with which a tool ends, and the exception that carries one."""

from __future__ import annotations


class Status:
    """What a tool's status says. A number from 3 to 8 is the program's own, with its line.

    Plain numbers: the module enum costs each start of a tool.
    """

    DONE = 0
    NOT_DONE = 1  # a transaction stopped or was aborted; nothing was changed
    USAGE = 2  # the words have no form of this tool, or what they name is refused
    TEXT = 3  # the program refused a text
    FOLDER = 4  # the program refused the folder
    UNREAD = 5  # the program could not read a text or the folder
    NOT_EMPTY = 6  # something stands where the output should go
    UNWRITTEN = 7  # the program could not write
    NO_MEMORY = 8  # memory was refused, to the program or to the tool
    SYSTEM = 9  # the system refused something; nothing was changed
    NO_VALUE = 10  # the result has no value by the description; nothing was changed
    LOCKED = 11  # the lock was not had in time; nothing was changed
    CHANGING = 12  # somebody who takes no lock keeps changing the tree; nothing was changed
    CONFLICT = 13  # in place, but a path that somebody else changed was not written over
    UNFINISHED = 14  # committed, but something of it waits for the next job


class Failed(Exception):
    """The tool ends with a status, and tells these lines."""

    def __init__(self, status: int, *lines: str) -> None:
        super().__init__(*lines)
        self.status = status
        self.lines = lines

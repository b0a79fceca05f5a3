"""The limits of texts, folders and values, spelled apart from those of the program on purpose."""

TEXT_LIMIT = 65_536
"""Bytes of a description or a script."""

FILE_LIMIT = 1_048_576
"""Bytes of a file, and of a text that an expression gives."""

NODES = 100_000
"""Nodes of a folder, the folder itself counted."""

LOADED = 67_108_864
"""Bytes of all files and link texts of a folder."""

WEIGHT = 33_554_432
"""Bytes of a union: those of its texts, and one more for each text."""

TABLE_LIMIT = 33_554_432
"""Bytes of a folder's table."""

TXNS_LIMIT = 100_000
"""Transactions of all scripts of a run."""

RECORDS_LIMIT = 100_000
"""Records of a journal."""

LEVELS = 64
"""How deep forms, printed values and paths nest."""

UNFOLDED = 64
"""A call with this many calls around it has no value, and no address goes into it."""

LINKS = 40
"""How many links a path may lead through."""

INT = range(-(2**63), 2**63)
"""The integers of the language."""

RECURSION = 50_000
"""Python's own limit while trees are read and valued.

A value is up to 64 calls deep, and each call up to 62 forms.
"""

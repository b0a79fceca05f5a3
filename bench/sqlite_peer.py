"""SQLite by Python's sqlite3, which does the same counts, appends and insertions as shells do.

It works in memory on one thread, or in a file with a journal (WAL, without sync) on a thread for
each shell. Each step is a transaction.
"""

from __future__ import annotations

import os
import sqlite3
import tempfile
import threading
import time

from measure import since

Step = tuple[int, "str | None"]
"""A counter, and what is appended to its log; None if it counts."""


def made(connection: sqlite3.Connection, counters: int) -> None:
    """Makes the tables."""
    connection.execute("CREATE TABLE counts (id INTEGER PRIMARY KEY, n INTEGER)")
    connection.execute("CREATE TABLE logs (id INTEGER, name TEXT, PRIMARY KEY (id, name))")
    connection.executemany("INSERT INTO counts VALUES (?, 0)", [(i,) for i in range(counters)])


def do(connection: sqlite3.Connection, counter: int, text: str | None) -> None:
    """Does a step."""
    connection.execute("BEGIN IMMEDIATE")
    if text is None:
        (n,) = connection.execute("SELECT n FROM counts WHERE id = ?", (counter,)).fetchone()
        connection.execute("UPDATE counts SET n = ? WHERE id = ?", (n + 1, counter))
    else:
        connection.execute("INSERT INTO logs VALUES (?, ?)", (counter, text))
    connection.execute("COMMIT")


def do_all(connection: sqlite3.Connection, steps: list[Step]) -> None:
    """Does steps, each again until it is done."""
    for counter, text in steps:
        while True:
            try:
                do(connection, counter, text)
                break
            except sqlite3.OperationalError:
                if connection.in_transaction:
                    connection.execute("ROLLBACK")


def in_memory(counters: int, shells: list[list[Step]]) -> float:
    """The seconds of all steps, in memory on one thread."""
    connection = sqlite3.connect(":memory:", isolation_level=None)
    made(connection, counters)
    begin = time.monotonic()
    for steps in shells:
        do_all(connection, steps)
    return since(begin)


def insertions(there: int, count: int) -> float:
    """Adds `count` names to a table of names in memory, a transaction each.

    It tells seconds of processor.
    """
    connection = sqlite3.connect(":memory:", isolation_level=None)
    connection.execute("CREATE TABLE names (name TEXT PRIMARY KEY)")
    connection.executemany("INSERT INTO names VALUES (?)", [(f"f{i:05}",) for i in range(there)])
    begin = time.process_time()
    for i in range(count):
        connection.execute("BEGIN IMMEDIATE")
        connection.execute("INSERT INTO names VALUES (?)", (f"a{i:04}",))
        connection.execute("COMMIT")
    return since(begin, time.process_time)


def look_ups(there: int, name: str, count: int) -> float:
    """Looks a name up `count` times in a table of names in memory, a transaction each.

    It tells seconds of processor.
    """
    connection = sqlite3.connect(":memory:", isolation_level=None)
    connection.execute("CREATE TABLE names (name TEXT PRIMARY KEY, text TEXT)")
    rows = [(f"f{i:05}", "") for i in range(there)]
    connection.executemany("INSERT INTO names VALUES (?, ?)", rows)
    begin = time.process_time()
    for _ in range(count):
        connection.execute("BEGIN")
        connection.execute("SELECT text FROM names WHERE name = ?", (name,)).fetchone()
        connection.execute("COMMIT")
    return since(begin, time.process_time)


def connected(path: str) -> sqlite3.Connection:
    """A connection to a file with a WAL, without sync."""
    connection = sqlite3.connect(path, timeout=60, isolation_level=None)
    connection.execute("PRAGMA journal_mode=WAL")
    connection.execute("PRAGMA synchronous=OFF")
    return connection


def with_journal(counters: int, shells: list[list[Step]]) -> float:
    """The seconds of all steps, in a file on a thread for each shell."""
    with tempfile.TemporaryDirectory() as scratch:
        path = os.path.join(scratch, "db")
        first = connected(path)
        made(first, counters)
        first.close()

        def work(steps: list[Step]) -> None:
            connection = connected(path)
            do_all(connection, steps)
            connection.close()

        threads = [threading.Thread(target=work, args=(steps,)) for steps in shells]
        begin = time.monotonic()
        for thread in threads:
            thread.start()
        for thread in threads:
            thread.join()
        return since(begin)


def with_reader(rows: int, writers: int, each: int) -> tuple[float, float]:
    """The seconds of writers that count, and those of a reader beside them.

    Each writer is a thread that counts `each` times in a row of its own. The reader looks at every
    row in one transaction.
    """
    with tempfile.TemporaryDirectory() as scratch:
        path = os.path.join(scratch, "db")
        first = connected(path)
        made(first, rows + writers)
        first.close()
        reading: list[float] = []

        def work(steps: list[Step]) -> None:
            connection = connected(path)
            do_all(connection, steps)
            connection.close()

        def look() -> None:
            connection = connected(path)
            begin = time.monotonic()
            connection.execute("BEGIN")
            for _ in connection.execute("SELECT id, n FROM counts"):
                pass
            connection.execute("COMMIT")
            reading.append(since(begin))
            connection.close()

        reader = threading.Thread(target=look)
        threads = [
            threading.Thread(target=work, args=([(rows + i, None)] * each,)) for i in range(writers)
        ]
        begin = time.monotonic()
        for thread in [*threads, reader]:
            thread.start()
        for thread in threads:
            thread.join()
        seconds = since(begin)
        reader.join()
        return seconds, reading[0]

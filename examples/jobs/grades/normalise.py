"""Scales all grades so that the best one is 100.

usage: PYTHONPATH=$(txforest-do --python) python3 normalise.py TREE DESCRIPTION
"""

import sys

import txforest


@txforest.transactional(*sys.argv[1:])
def normalise(t: txforest.Transaction) -> str:
    """One transaction: it reads each grade, and runs again if one of them, or a name, changes."""
    grades = {path: int(path.read_text()) for path in (t / ".").iterdir()}
    best = max(grades.values())
    for path, grade in grades.items():
        path.write_text(f"{grade * 100 // best}\n")
    return f"{len(grades)} grades, of which {best} was the best"


if __name__ == "__main__":
    print(normalise())

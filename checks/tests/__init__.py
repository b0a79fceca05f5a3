"""Unit tests of the checks: no program is needed.

`python3 -B -m unittest discover -s tests -t .` in `checks` runs them.
"""

"""Where the repository stands, and the second program of the meaning from its tools' package."""

import os
import sys

TOP = os.path.dirname(os.path.dirname(os.path.abspath(__file__)))
sys.path.insert(0, os.path.join(TOP, "tools"))

from txforest import model  # noqa: E402

__all__ = ["TOP", "model"]

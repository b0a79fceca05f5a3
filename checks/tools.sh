#!/usr/bin/env bash
# Builds the program and tries the tools with it on real trees of the machine and on hostile ones, and what `install` puts in
# place. Prints what it counted; ends with 1 at the first thing that is not as it should be. What needs a program that is
# missing here, or root, is left out and said so. It is no part of the gate.
# usage: tools.sh [PART...]
set -eu
top=$(cd "$(dirname "$0")/.." && pwd)
TXFOREST=$("$top/bench/build.sh")
export TXFOREST
exec python3 -B "$top/checks/tools.py" "$@"

#!/usr/bin/env bash
# Builds the program and tries what carries jobs into a live tree: kills, power cuts, refused calls, races, each way in which
# data was lost once, real trees, file systems, costs. Prints what it counted; ends with 1 at the first thing that is not as it
# should be. What needs root, or a program that is missing here, is left out and said so. It is no part of the gate.
# usage: live.sh [PART[=NUMBER]...]
set -eu
top=$(cd "$(dirname "$0")/.." && pwd)
TXFOREST=$("$top/bench/build.sh")
export TXFOREST
exec python3 -B "$top/checks/live.py" "$@"

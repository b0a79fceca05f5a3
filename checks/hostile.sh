#!/usr/bin/env bash
# Builds the program and runs it on what a hostile user, disk or machine may give it. It is no part of the gate. Its last
# line is the number of tries; it ends with 1 at the first that ends by a signal, hangs, has a status that it may not have,
# or changes anything but OUT.
# usage: hostile.sh [PART...]
set -eu
top=$(cd "$(dirname "$0")/.." && pwd)
program=$("$top/bench/build.sh")
exec python3 "$top/checks/hostile.py" "$program" "$@"

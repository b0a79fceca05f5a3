#!/usr/bin/env bash
# Builds the program and runs it on small inputs again and again, each time with another call for memory, for a thread or to
# the system that goes wrong (faults.c, which goes before the C library; `rt try --fail-alloc` knows memory alone, and builds
# anew for each call). Its last line is the number of runs; it ends with 1 at the first that is not as it should be. It wants
# a C compiler, and is no part of the gate.
# usage: refused_memory.sh [INPUT...]
set -eu
top=$(cd "$(dirname "$0")/.." && pwd)
program=$("$top/bench/build.sh")
fresh=$(mktemp -d)
trap 'rm -rf "$fresh"' EXIT
${CC:-cc} -O2 -Wall -shared -fPIC -o "$fresh/faults.so" "$top/checks/faults.c" -ldl
python3 -B "$top/checks/faults.py" "$program" "$fresh/faults.so" "$@"

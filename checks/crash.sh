#!/usr/bin/env bash
# Builds the program and stops `journal` at every moment of its record of writes and syncs (crash.c, which goes before the C
# library), with writes that are torn by random, and by kill -9 at random moments, on a disk and in memory: `recover` has to
# give the folder after a front of the order that holds every commit that was told. Its last line is the number of images and
# kills; it ends with 1 at the first that is not so. It wants a C compiler and Python 3.10, and is no part of the gate.
# usage: crash.sh [SEED] [KILLS]
set -eu
top=$(cd "$(dirname "$0")/.." && pwd)
program=$("$top/bench/build.sh")
fresh=$(mktemp -d)
trap 'rm -rf "$fresh"' EXIT
${CC:-cc} -O2 -Wall -shared -fPIC -o "$fresh/crash.so" "$top/checks/crash.c" -ldl
python3 -B "$top/checks/crash.py" "$program" "$fresh/crash.so" "$@"

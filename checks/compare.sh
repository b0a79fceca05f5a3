#!/usr/bin/env bash
# Builds the program and holds it against a second program of the same meaning on random inputs. It is no part of the gate.
# usage: compare.sh [SEED] [COUNT] [COMMAND..]     every command where none is named
set -eu
top=$(cd "$(dirname "$0")/.." && pwd)
program=$("$top/bench/build.sh")
exec python3 -B "$top/checks/compare.py" "$program" "$@"

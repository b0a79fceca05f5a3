#!/usr/bin/env bash
# Builds the program and measures it beside its peers; prints one table. README.md says how to read it.
# usage: all.sh [--instructions] [BENCH[=SIZE,..]..]
set -eu
here=$(cd "$(dirname "$0")" && pwd)
TXFOREST=$("$here/build.sh")
export TXFOREST
exec python3 -B "$here/all.py" "$@"

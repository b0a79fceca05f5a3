#!/usr/bin/env bash
# Makes a release of the proved program, installs it in an empty root, and runs there what README shows. It needs root, and is no
# part of the gate.
set -eu
top=$(cd "$(dirname "$0")/.." && pwd)
program=$("$top/bench/build.sh")
exec python3 -B "$top/checks/release.py" "$program"

#!/usr/bin/env bash
# Builds the program and tries txforest-do and `import txforest` with it: each status, streams, attributes, users, file systems,
# random histories that are run again one after another, faults that are planted, kills at each step, and what jobs cost.
# Prints what it counted; ends with 1 at the first thing that is not as it should be. It is no part of the gate.
# usage: anyjob.sh [PART [WORD...]]...
set -eu
top=$(cd "$(dirname "$0")/.." && pwd)
TXFOREST=$("$top/bench/build.sh")
export TXFOREST
if [ $# -gt 0 ]; then exec python3 -B "$top/checks/anyjob.py" "$@"; fi
for kind in traced python; do python3 -B "$top/checks/anyjob.py" histories $kind 800; done
for kind in whole plain only; do python3 -B "$top/checks/anyjob.py" histories $kind 150; done
python3 -B "$top/checks/anyjob.py" statuses streams meanwhile attributes rota 40 counts 10000 users systems
python3 -B "$top/checks/anyjob.py" faults kills 1 moments 100 costs together

#!/usr/bin/env bash
# Checks the model of lock, place, intent, queue and answers (checks/models/queue.pml) with spin: all ways in which two jobs and
# two settlers go on, with kills and a power cut between any two steps. Then each fault that the model has to find, one by one.
# Prints what was counted; ends with 1 at the first thing that is not as it should be, and with 0 where spin is missing.
# usage: models.sh [KILLS]   (1; more take hours)
set -eu
top=$(cd "$(dirname "$0")" && pwd)
for program in spin cc; do
    command -v "$program" >/dev/null || { echo "models.sh: $program is missing here, so no model was checked"; exit; }
done
room=$(mktemp -d)
trap 'rm -rf "$room"' EXIT
cd "$room"
cp "$top/models/queue.pml" .

check() { # OPTION..: the states that were gone through; fails where a promise does not hold
    rm -f pan pan.* queue.pml.trail
    spin -a "$@" queue.pml >generated || { cat generated >&2; exit 1; }
    cc -O2 -DSAFETY -DCOLLAPSE -DMEMLIM=6000 -w -o pan pan.c
    nice ./pan -m200000 -w26 >told
    grep -q 'max search depth too small\|memory limit' told && { cat told >&2; exit 1; }
    sed -n 's/^ *\([0-9.e+]*\) states, stored.*/\1/p' told
    grep -q 'errors: 0' told
}

states=$(check "-DKILLS=${1:-1}") || { echo "models.sh: a promise does not hold:" >&2; cat "$room/told" >&2; exit 1; }
found=0
for fault in $(sed -n 's/^#ifn\?def \([A-Z_]*\)$/\1/p' queue.pml | sort -u | grep -v '^KILLS$'); do
    if check "-DKILLS=1" "-D$fault" >/dev/null; then
        echo "models.sh: the fault $fault is not found" >&2
        exit 1
    fi
    found=$((found + 1))
done
echo "two jobs and two settlers, ${1:-1} kill and a power cut between any two steps: $states states, each promise holds; $found faults are found"

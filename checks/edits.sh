#!/usr/bin/env bash
# Tries the wrong bodies of checks/edits, which the prover has to refuse, of the named crates or of all. It works in a clone of the last commit, where
# what lies below the crates is proved first, so it takes hours. It is no part of the gate.
# usage: edits.sh [CRATE...]
set -eu
edits=$(cd "$(dirname "$0")/edits" && pwd)
fresh=$(mktemp -d)
trap 'rm -rf "$fresh"' EXIT
git clone -q "$edits/../.." "$fresh/txforest"
cd "$fresh/txforest"
[ $# -gt 0 ] || set -- $(ls "$edits")
for crate; do
    mkdir -p "crates/$crate/must-fail"
    cp "$edits/$crate"/* "crates/$crate/must-fail"
done
rt must-fail "$@"

#!/usr/bin/env bash
# Proves and builds the program, and prints the path of the executable. A TXFOREST that is set is taken as it is.
set -eu
if [ -n "${TXFOREST:-}" ]; then
    echo "$TXFOREST"
    exit
fi
exec python3 -B "$(dirname "$0")/build.py"

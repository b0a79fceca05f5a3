#!/usr/bin/env bash
# Builds the program and runs it where no test of the gate can: over a folder with a name that is not UTF-8, into a
# standard output that fails, and with its texts from pipes of the shell. Prints a line for each, and ends with 1 where one
# is not as it should be.
set -eu
top=$(cd "$(dirname "$0")/.." && pwd)
program=$("$top/bench/build.sh")
example="$top/examples/first"
fresh=$(mktemp -d)
trap 'rm -rf "$fresh"' EXIT

run() { # DESCRIPTION FOLDER OUT SCRIPT
    local status=0
    "$program" run "$1" "$2" "$3" "$4" 2>"$fresh/line" || status=$?
    echo "$status" >"$fresh/status"
}

expect() { # WHAT STATUS LINE
    if [ "$(cat "$fresh/status")" != "$2" ] || [ "$(cat "$fresh/line")" != "$3" ]; then
        echo "$1: status $(cat "$fresh/status"), $(cat "$fresh/line")"
        exit 1
    fi
    echo "$1: status $2"
}

cp -r "$example/folder" "$fresh/strange"
touch "$fresh/strange/$(printf '\377')"
run "$example/description" "$fresh/strange" "$fresh/none" "$example/script" >"$fresh/printed"
expect "a name that is not UTF-8" 5 "txforest: read fault"
if [ -s "$fresh/printed" ] || [ -e "$fresh/none" ]; then
    echo "a name that is not UTF-8: something was printed or written"
    exit 1
fi

run "$example/description" "$example/folder" "$fresh/out" "$example/script" >/dev/full
expect "a standard output that fails" 7 "txforest: write fault"
diff -r "$example/folder" "$fresh/out"

run "$example/description" "$example/folder" "$fresh/files" "$example/script" >"$fresh/printed"
expect "texts from files" 0 ""
run <(cat "$example/description") "$example/folder" "$fresh/pipes" /dev/stdin <"$example/script" >"$fresh/piped"
expect "a text from a shell's pipe and one from standard input" 0 ""
(sleep 0.1; cat "$example/script") | run "$example/description" "$example/folder" "$fresh/late" /dev/stdin >>"$fresh/piped"
expect "a text from a pipe that is written late" 0 ""
cat "$fresh/printed" "$fresh/printed" | diff - "$fresh/piped"
diff -r "$example/folder" "$fresh/pipes"
diff -r "$example/folder" "$fresh/late"

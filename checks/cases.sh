#!/usr/bin/env bash
# The answers of the cases stand beside them: what test_calls, test_cases, test_low, test_moves and test_real are given is
# what they must print. Ends with 1 where two files differ, and shows where.
set -eu
crates=$(cd "$(dirname "$0")/../crates" && pwd)
for program in test_calls test_cases test_low test_moves test_real; do
    diff "$crates/$program/stdin" "$crates/$program/stdout"
done

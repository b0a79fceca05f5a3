#!/usr/bin/env bash
# Ends with 0 if the report is one of a run of these scripts over this folder, and with 1 if not, which a job that tests a change can wait for.
# usage: check.sh PROGRAM DESCRIPTION FOLDER REPORT SCRIPT...
set -u
program=$1
shift
line=$("$program" audit "$@") || exit 1
echo "$line"
[ "$line" = "audit yes" ]

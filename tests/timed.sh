#!/usr/bin/env bash
# Runs a command, and adds to a file how long it took. Usage: tests/timed.sh FILE COMMAND..
set -u
file=$1
shift
TIMEFORMAT="$*: %lR by the clock, %lU and %lS of a processor"
{ time "$@" 2>&3; } 3>&2 2>> "$file"
ended=$?
tail -n 1 "$file"
exit $ended

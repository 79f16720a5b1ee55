#!/bin/sh
# Makes each allocation, read and write of the program fail in turn: in a replay, in a check, on one connection with two requests, and
# in one turn of an edge. Also makes accepts and thread starts fail. Prints how many failures it tried and their outcomes; an outcome
# that docs/FORMATS.md doesn't state is an error. Takes half a minute. Run after `rt ci` or `rt run`. Skipped if gcc or python3 is
# missing.
set -u
cd "$(dirname "$0")/.."

. scripts/servers.sh
need gcc
need python3

gcc -shared -fPIC -O2 -o "$work/failing_calls.so" scripts/c/failing_calls.c -ldl || fail "failing_calls.c doesn't build"
python3 scripts/python/faults.py "$program" "$work/failing_calls.so" "${UPSTREAM_PORT:-14742}" "${EDGE_PORT:-13563}" || fail "another outcome"
echo "${0##*/}: passed"

#!/bin/sh
# Shows how each command ends when its environment fails. Covers each read and write of a replay, a check, an explanation, a load and
# an upstream's input lines; a port that is taken; and an upstream that is unreachable or sends bad replies. Also covers the host names
# of an edge, polls of an unchanged state, an edge that serves without its upstream, and a connection that is kept over its turns.
# Takes at most a minute. Run after `rt ci` or `rt run`. Skipped if python3 is missing.
set -u
cd "$(dirname "$0")/.."

. scripts/servers.sh
need python3

same "the ends" "" "$(python3 scripts/python/ends.py "$program" "${EDGE_PORT:-13763}" "${UPSTREAM_PORT:-14942}" 2>&1)"
echo "${0##*/}: passed"

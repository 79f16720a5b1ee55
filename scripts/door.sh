#!/bin/sh
# Shows that slow clients don't delay others, at an upstream and at an edge with 4 workers. Covers slow heads, slow bodies, slow
# readers, many idle connections, requests split at each byte, kept connections with a round trip of 40 ms, an upstream that trickles, a
# server that is stopped for a moment, and a log that nobody reads. A well-behaved client waits at most 2 seconds, and no request on a
# kept connection fails. One late answer fails a scenario, unless the machine stalled: a plain server in Python is polled all the time,
# and a scenario is repeated if each of its late answers came while that server's answer was late too. The last line says so then.
# Also shows how a server ends that can't accept connections any more, or can't wait for events on them; left out if gcc is missing.
# Takes about a minute. Run after `rt ci` or `rt run`. Skipped if python3 or curl is missing.
set -u
cd "$(dirname "$0")/.."

. scripts/servers.sh
need curl
need python3

lifetime=400
ulimit -n 8192 2>/dev/null || ulimit -n "$(ulimit -H -n)"
upstream_port=${UPSTREAM_PORT:-15142}
edge_port=${EDGE_PORT:-13963}

start "$program" upstream --port "$upstream_port" --secret s --environments dev \
    --client-tokens '*:dev.client' --frontend-tokens '*:dev.front' <examples/upstream-shop.jsonl >/dev/null
upstream=$last
wait_for "$upstream_port" "the upstream"
start "$program" edge --port "$edge_port" --upstream "127.0.0.1:$upstream_port" --upstream-tokens '*:dev.client' \
    --tokens '*:dev.client,*:dev.front' --workers 4 --interval 1 </dev/null >/dev/null
edge=$last
wait_for "$edge_port" "the edge"

library=
if command -v gcc >/dev/null 2>&1; then
    library=$work/failing_door.so
    gcc -shared -fPIC -O2 -o "$library" scripts/c/failing_door.c -ldl || fail "failing_door.c doesn't build"
fi
python3 scripts/python/door.py "$upstream_port" "$upstream" "$edge_port" "$edge" "$program" $library >"$work/found" 2>&1
tail -n 1 "$work/found"
same "slow clients" "" "$(sed '$d' "$work/found")"
echo "${0##*/}: passed"

#!/bin/sh
# Tests an edge with 4 workers and 40 clients that keep their connections open. Most clients poll once a second, some never send a byte,
# some are idle after a request, and some send a byte a second. Each poll is answered within 3 seconds. The test runs for
# KEEPALIVE_SECONDS seconds, 60 by default. Run after `rt ci` or `rt run`. Skipped if python3 or curl is missing.
set -u
cd "$(dirname "$0")/.."

. scripts/servers.sh
need curl
need python3

seconds=${KEEPALIVE_SECONDS:-60}
lifetime=$((seconds + 60))
upstream_port=${UPSTREAM_PORT:-14842}
edge_port=${EDGE_PORT:-13663}

start "$program" upstream --port "$upstream_port" --secret s --environments dev \
    --client-tokens '*:dev.client' --frontend-tokens '*:dev.front' <examples/upstream-shop.jsonl >/dev/null
wait_for "$upstream_port" "the upstream"
start "$program" edge --port "$edge_port" --upstream "127.0.0.1:$upstream_port" --upstream-tokens '*:dev.client' \
    --tokens '*:dev.client,*:dev.front' --workers 4 --interval 1 </dev/null >/dev/null
wait_for "$edge_port" "the edge"

python3 scripts/python/keepalive.py "$edge_port" "$seconds" >"$work/polls" 2>&1
tail -n 1 "$work/polls"
same "clients that keep their links" "" "$(sed '$d' "$work/polls")"
echo "${0##*/}: passed"

#!/bin/sh
# Tests an edge with 16 workers under load. A slow or idle connection delays no other one while a worker is free. A reset ends only its own
# connection. After 2,000 connections in sequence and 64 at once, its memory has grown by at most 4 MiB. A late answer is asked for again
# if that of a plain server in Python was late at the same time, as in door.sh. Run after `rt ci` or `rt run`. Skipped if python3 or curl
# is missing.
set -u
cd "$(dirname "$0")/.."

. scripts/servers.sh
need curl
need python3

upstream_port=${UPSTREAM_PORT:-14642}
edge_port=${EDGE_PORT:-13463}

start "$program" upstream --port "$upstream_port" --secret s --environments dev \
    --client-tokens '*:dev.client' --frontend-tokens '*:dev.front' <examples/upstream-shop.jsonl >/dev/null
wait_for "$upstream_port" "the upstream"
start "$program" edge --port "$edge_port" --upstream "127.0.0.1:$upstream_port" --upstream-tokens '*:dev.client' \
    --tokens '*:dev.client,*:dev.front' --workers 16 --interval 1 </dev/null >/dev/null
edge=$last
wait_for "$edge_port" "the edge"

same "concurrent connections" "" "$(python3 scripts/python/workers.py "$edge_port" "$edge" 16 2>&1)"
echo "${0##*/}: passed"

#!/bin/sh
# Tests an edge behind a server that imitates Unleash (scripts/python/unleash.py), in feed mode and in delta mode: the first toggles, a
# change, and the counts that the edge reports. Run after `rt ci` or `rt run`. Skipped if python3 or curl is missing.
set -u
cd "$(dirname "$0")/.."

. scripts/servers.sh
need curl
need python3

server_port=${UPSTREAM_PORT:-15242}
edge_port=${EDGE_PORT:-14063}
client='*:development.client'
front='*:development.front'

# prints the names of the features that are on at the edge with the variant `blue`, each followed by a space
on() {
    ask "$edge_port" "$front" /api/frontend | grep -o '"name":"[a-z]*","variant":{"enabled":true,"feature_enabled":true,"name":"blue"' |
        sed 's/"name":"\([a-z]*\)".*/\1/' | tr '\n' ' '
}

# waits until exactly these features are on at the edge: the names, each followed by a space, and a description for error messages
comes() {
    tries=0
    until test "$(on)" = "$1"; do
        tries=$((tries + 1))
        test "$tries" -lt 200 || fail "$2 by $mode: $(on), log: $(cat "$work/log")"
        sleep 0.1
    done
}

for mode in feed delta; do
    start python3 scripts/python/unleash.py "$server_port" </dev/null >/dev/null
    server=$last
    wait_for "$server_port" "the server"
    start "$program" edge --port "$edge_port" --upstream "127.0.0.1:$server_port" --upstream-tokens "$client" \
        --tokens "$client,$front" --interval 1 --mode "$mode" </dev/null >/dev/null
    edge=$last
    wait_for "$edge_port" "the edge"
    comes 'shown ' "the first state"
    curl --silent --request POST --data '{}' "http://127.0.0.1:$server_port/next" >"$work/next"
    comes 'changed shown ' "a change"
    same "a report" 202 "$(ask "$edge_port" "$client" /api/client/metrics --output /dev/null --write-out '%{http_code}' \
        --data '{"appName":"shop","bucket":{"start":"2024-01-01T10:05:00Z","stop":"2024-01-01T10:06:00Z","toggles":{"shown":{"yes":2,"no":1}}}}')"
    tries=0
    until test "$(curl --silent "http://127.0.0.1:$server_port/reports")" = 1; do
        tries=$((tries + 1))
        test "$tries" -lt 200 || fail "the counts don't reach the server by $mode"
        sleep 0.1
    done
    kill "$server" "$edge"
    wait "$server" "$edge" 2>/dev/null
done
echo "${0##*/}: passed"

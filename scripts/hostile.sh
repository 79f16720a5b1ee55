#!/bin/sh
# Tests hostile input: deeply nested documents, long numbers, heads in many pieces, many requests at once, and connections that are reset,
# half closed, or left open for the 30 seconds that a server waits. Each input gets the status that docs/FORMATS.md states, memory doesn't
# grow by more than 4 MiB, and the next connection is served. Takes half a minute. Run after `rt ci` or `rt run`. Skipped if python3 or curl
# is missing.
set -u
cd "$(dirname "$0")/.."

. scripts/servers.sh
need curl
need python3

upstream_port=${UPSTREAM_PORT:-14542}
edge_port=${EDGE_PORT:-13363}

start "$program" upstream --port "$upstream_port" --secret s --environments dev \
    --client-tokens '*:dev.client' --frontend-tokens '*:dev.front' <examples/upstream-shop.jsonl >/dev/null
upstream=$last
wait_for "$upstream_port" "the upstream"
start "$program" edge --port "$edge_port" --upstream "127.0.0.1:$upstream_port" --upstream-tokens '*:dev.client' \
    --tokens '*:dev.client,*:dev.front' </dev/null >/dev/null
edge=$last
wait_for "$edge_port" "the edge"

same "hostile bytes" "" "$(python3 scripts/python/hostile.py "$upstream_port" "$upstream" "$edge_port" "$edge" 2>&1)"

# hostile lines, test files, and questions for `explain`, on the standard input
deep() {
    head -c 100000 /dev/zero | tr '\0' '['
    head -c 100000 /dev/zero | tr '\0' ']'
}
digits() {
    head -c "$1" /dev/zero | tr '\0' 1
}

# prints a command's output and its status
ending() {
    printed=$(timeout 60 "$program" "$@")
    echo "$printed $?"
}

# prints the output and the status of an upstream that reads its input as lines of commands
obeying() {
    ending upstream --port "$((upstream_port + 1))" --secret s --environments dev --client-tokens '*:dev.c' --frontend-tokens '*:dev.f'
}

same "a line of brackets" "refused: line 1: NotJson 3" "$(deep | ending replay)"
same "a line with brackets" "refused: line 1: NotJson 3" "$( (printf '{"op":"ask","target":"/","more":' && deep && echo '}') | ending replay)"
same "a line with a long number" "refused: line 1: NotWhole now 3" "$( (printf '{"op":"ask","target":"/","now":' && digits 300 && echo '}') | ending replay)"
same "a line with a number past all" "refused: line 1: NotJson 3" "$( (printf '{"op":"ask","target":"/","now":' && digits 1000 && echo '}') | ending replay)"
same "a command of brackets" "refused: line 1: NotJson 3" "$(deep | obeying)"
same "a command with a long number" "refused: line 1: NotWhole id 3" "$( (printf '{"command":"remove-segment","environment":"dev","id":' && digits 300 && echo '}') | obeying)"
same "a command with a number past all" "refused: line 1: NotJson 3" "$( (printf '{"command":"remove-segment","environment":"dev","id":' && digits 1000 && echo '}') | obeying)"
same "a test file of brackets" "refused: NotJson 3" "$(deep | ending check)"
same "a question of brackets" "refused: NotJson 3" "$(deep | ending explain)"
echo "${0##*/}: passed"

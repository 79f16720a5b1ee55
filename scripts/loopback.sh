#!/bin/sh
# Tests `upstream` and `edge` over real sockets: starts both on loopback ports, puts features with curl, and compares what both serve.
# Takes at most a minute, and stops the servers that it started. Run after `rt ci` or `rt run`, which build the program. Skipped if
# curl is missing.
set -u
cd "$(dirname "$0")/.."

. scripts/servers.sh
need curl

upstream_port=${UPSTREAM_PORT:-14242}
edge_port=${EDGE_PORT:-13063}

put() {
    ask "$upstream_port" s /commands --data "{\"command\":\"put-feature\",\"environment\":\"dev\",\"feature\":{\"name\":\"$1\",\"enabled\":true,\"strategies\":[{\"name\":\"default\"}]}}"
}

toggle() {
    printf '{"enabled":true,"impressionData":false,"name":"%s","variant":{"enabled":false,"feature_enabled":true,"name":"disabled"}}' "$1"
}

# ---- an upstream alone, which ends after nine connections; it reads one command from its input
start "$program" upstream --port "$upstream_port" --secret s --environments dev \
    --client-tokens '*:dev.client' --frontend-tokens '*:dev.front' --connections 9 <examples/upstream-commands.jsonl >"$work/printed"
upstream=$last
wait_for "$upstream_port" "the upstream"

same "a command" '{"number":2}' "$(put b)"
same "a command without the secret" '{"error":"UnknownToken"}' "$(ask "$upstream_port" x /commands --data '{"command":"remove-feature","environment":"dev","name":"a"}')"
same "a refused command" '{"error":"NoSuchFeature"}' "$(ask "$upstream_port" s /commands --data '{"command":"remove-feature","environment":"dev","name":"c"}')"
same toggles "{\"toggles\":[$(toggle a),$(toggle b)]}" "$(ask "$upstream_port" '*:dev.front' /api/frontend)"

# a feed that the client already has, by its tag, is not sent again
tag=$(ask "$upstream_port" '*:dev.client' /api/client/features --dump-header - --output /dev/null | tr -d '\r' | sed -n 's/^ETag: //p')
test -n "$tag" || fail "the feed has no tag"
same "a feed that is known" 304 "$(ask "$upstream_port" '*:dev.client' /api/client/features --header "If-None-Match: $tag" --output /dev/null --write-out '%{http_code}')"

# the toggles are the same after a replay of the upstream's feed, and after a replay of its hydration
replayed() {
    printf '{"op":"tokens","tokens":[{"token":"*:dev.front","type":"frontend"}]}\n{"op":"%s","environment":"dev","%s":%s}\n%s\n' "$1" "$1" \
        "$(ask "$upstream_port" '*:dev.client' "$2")" '{"op":"ask","token":"*:dev.front","target":"/api/frontend"}' | "$program" replay
}
replay="1: tokens generation 1 front 1
2: apply number 2 front 2
3: front 2 status 200 tag - body {\"toggles\":[$(toggle a),$(toggle b)]}"
same "a feed that is replayed" "$replay" "$(replayed feed /api/client/features)"
same "a hydration that is replayed" "$replay" "$(replayed batch /api/client/delta)"

wait "$upstream"
same "the status" 0 "$?"
same "what is printed" "connections 9" "$(cat "$work/printed")"

# ---- an upstream that keeps its commands in a database (`--keep sqlite`), and an edge
start "$program" upstream --port "$upstream_port" --secret s --environments dev --keep sqlite \
    --client-tokens '*:dev.client' --frontend-tokens '*:dev.front' <examples/upstream-commands.jsonl >/dev/null
upstream=$last
wait_for "$upstream_port" "the second upstream"
start "$program" edge --port "$edge_port" --upstream "127.0.0.1:$upstream_port" --upstream-tokens '*:dev.client' \
    --tokens '*:dev.client,*:dev.front' --interval 1 >/dev/null
wait_for "$edge_port" "the edge"

same "another command" '{"number":2}' "$(put b)"

# the edge refreshes once a second
tries=0
until test "$(ask "$edge_port" '*:dev.front' /api/frontend)" = "{\"toggles\":[$(toggle a),$(toggle b)]}"; do
    tries=$((tries + 1))
    test "$tries" -lt 200 || fail "the edge isn't refreshed"
    sleep 0.1
done

# compares the status and body of both servers' answers: the path, the token, and further arguments for curl; ignores the object `meta` of a
# feed, since its tag differs from server to server
alike() {
    path=$1
    token=$2
    shift 2
    ask "$upstream_port" "$token" "$path" --write-out ' %{http_code}' "$@" | sed 's/"meta":{[^}]*},//' >"$work/upstream"
    ask "$edge_port" "$token" "$path" --write-out ' %{http_code}' "$@" | sed 's/"meta":{[^}]*},//' >"$work/edge"
    same "$path" "$(cat "$work/upstream")" "$(cat "$work/edge")"
}

report='{"appName":"shop","bucket":{"start":"2024-01-01T10:05:00Z","stop":"2024-01-01T10:06:00Z","toggles":{"a":{"yes":2,"no":1}}}}'
alike /internal-backstage/health -
alike /edge/validate - --data '{"tokens":["*:dev.front","*:dev.other"]}'
alike /api/client/features '*:dev.client'
alike /api/client/features/b '*:dev.client'
alike /api/client/features/z '*:dev.client'
alike /api/client/delta '*:dev.client'
alike /api/frontend '*:dev.front'
alike /api/proxy/all '*:dev.front' --data '{"context":{"userId":"7"}}'
alike /api/client/metrics '*:dev.client' --data "$report"
alike /api/client/metrics/bulk '*:dev.client' --data '{"applications":[],"metrics":[]}'
alike /api/client/register '*:dev.client' --data '{}'
alike /api/frontend/client/metrics '*:dev.front' --data "$report"
alike /api/frontend/client/register '*:dev.front' --data '{}'
alike /api/frontend '*:dev.client'
alike /api/nothing '*:dev.front'

# the log names the address where the edge listens; the edge also accepts IPv6 if the machine has it
grep -q "^listening at .*:$edge_port\$" "$work/log" || fail "the log doesn't name where the edge listens"
if grep -q '^0\{31\}1 ' /proc/net/if_inet6 2>/dev/null; then
    same "health over IPv6" '{"status":"OK"}' "$(curl --silent --max-time 5 "http://[::1]:$edge_port/internal-backstage/health")"
fi

# ---- an upstream that lost its state: it has only the command of its input again, and its numbers start at 1 again
begin_again() {
    kill "$upstream"
    wait "$upstream" 2>/dev/null
    start "$program" upstream --port "$upstream_port" --secret s --environments dev \
        --client-tokens '*:dev.client' --frontend-tokens '*:dev.front' "$@" <examples/upstream-commands.jsonl >/dev/null
    upstream=$last
    wait_for "$upstream_port" "the upstream that began again"
}

# if its epoch is still that of the lost state, the upstream is behind the edge, so the edge keeps its own state
begin_again
for turn in 1 2 3; do
    sleep 1
    same "what an edge keeps, turn $turn" "{\"toggles\":[$(toggle a),$(toggle b)]}" "$(ask "$edge_port" '*:dev.front' /api/frontend)"
done

# in a later epoch the edge follows the upstream
begin_again --epoch 1
tries=0
until test "$(ask "$edge_port" '*:dev.front' /api/frontend)" = "{\"toggles\":[$(toggle a)]}"; do
    tries=$((tries + 1))
    test "$tries" -lt 200 || fail "the edge doesn't follow into a later epoch"
    sleep 0.1
done
alike /api/client/delta '*:dev.client'
echo "loopback: passed"

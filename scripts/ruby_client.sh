#!/bin/sh
# Tests the Unleash client for Ruby, an older client without support for segments, against the upstream and against the edge. What the
# client evaluates from a server's feed equals what that server evaluates for a browser. A feed that the client already has is not sent
# again. The counts of the edge's client reach the upstream. Run after `rt ci` or `rt run`. Skipped if ruby, its package `unleash` or curl
# is missing.
set -u
cd "$(dirname "$0")/.."

. scripts/servers.sh
need curl
need ruby
ruby -e 'require "unleash"' 2>/dev/null || {
    echo "${0##*/}: skipped, since ruby has no package unleash"
    exit 0
}

upstream_port=${UPSTREAM_PORT:-14342}
relay_port=${RELAY_PORT:-14343}
edge_port=${EDGE_PORT:-13163}

start "$program" upstream --port "$upstream_port" --secret s --environments dev \
    --client-tokens '*:dev.client' --frontend-tokens '*:dev.front' <examples/upstream-shop.jsonl >/dev/null
wait_for "$upstream_port" "the upstream"
start ruby scripts/ruby/relay.rb "$relay_port" "$upstream_port" >"$work/relayed" </dev/null
wait_for "$relay_port" "the relay"
start "$program" edge --port "$edge_port" --upstream "127.0.0.1:$relay_port" --upstream-tokens '*:dev.client' \
    --tokens '*:dev.client,*:dev.front' --interval 1 </dev/null >/dev/null
wait_for "$edge_port" "the edge"

for port in "$upstream_port" "$edge_port"; do
    ruby scripts/ruby/application.rb "http://127.0.0.1:$port" '*:dev.client' '*:dev.front' >"$work/printed" 2>"$work/faults"
    same "the application at $port" 'a feed that is known: 304' "$(cat "$work/printed")"
done

# the edge sends the counts in its next turn
sleep 2
grep -q '"featureName":"open","no":0,"timestamp":"[^"]*","variants":{},"yes":20}' "$work/relayed" || fail "no count of the feature open"
grep -q '"featureName":"closed","no":20,"timestamp":"[^"]*","variants":{},"yes":0}' "$work/relayed" || fail "no count of the feature closed"
echo "${0##*/}: passed"

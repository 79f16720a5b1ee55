#!/bin/sh
# Tests `follow` over real sockets. It follows an edge that is behind an upstream: one feature is turned off between two turns, and
# another one moves out of the project that the token sees. Then `follow` makes one turn directly behind the upstream, and one with no
# upstream. Stops the servers that it started, and takes at most a minute. Run after `rt ci` or `rt run`, which build the program.
# Skipped if curl is missing.
set -u
cd "$(dirname "$0")/.."

. scripts/servers.sh
need curl

upstream_port=${UPSTREAM_PORT:-14252}
edge_port=${EDGE_PORT:-13073}

start "$program" upstream --port "$upstream_port" --secret s --environments dev --client-tokens '*:dev.client,a:dev.client' \
    <examples/upstream-commands.jsonl >/dev/null
wait_for "$upstream_port" "the upstream"
start "$program" edge --port "$edge_port" --upstream "127.0.0.1:$upstream_port" --upstream-tokens '*:dev.client' \
    --tokens '*:dev.client,a:dev.client' --interval 1 >/dev/null
wait_for "$edge_port" "the edge"

# Starts following a feature behind the edge: the token, the feature, and the number of turns. A change that is put after the first turn
# must be at the edge before the second one. That takes about a second; the interval is much longer, for a busy machine.
begin() {
    : >"$work/turns"
    start "$program" follow --upstream "127.0.0.1:$edge_port" --token "$1" --feature "$2" --turns "$3" --interval 8 >"$work/turns"
    follower=$last
    tries=0
    until test -s "$work/turns"; do
        tries=$((tries + 1))
        test "$tries" -lt 200 || fail "no turn is printed"
        sleep 0.1
    done
}

put() {
    ask "$upstream_port" s /commands --data "{\"command\":\"put-feature\",\"environment\":\"dev\",\"feature\":$1}"
}

# the feature is turned off once the first turn is printed; the edge fetches the change within a second, before the second turn
begin '*:dev.client' a 3
same "a command" '{"number":2}' "$(put '{"name":"a","enabled":false}')"
wait "$follower"
same "the status" 0 "$?"
same "the turns" 'turn 1 published number 1 on true
turn 2 published number 2 on false
turn 3 unchanged number 2 on false' "$(cat "$work/turns")"

# asks the edge for the delta with a token that sees only the project `a`
seen() {
    ask "$edge_port" a:dev.client /api/client/delta --dump-header "$work/head" "$@"
}

# a feature moves from the project `a` to `b`, again between two turns
same "a feature of a project" '{"number":3}' "$(put '{"name":"m","project":"a","enabled":true}')"
tries=0
until seen | grep -q '"name":"m"'; do
    tries=$((tries + 1))
    test "$tries" -lt 200 || fail "the edge isn't refreshed"
    sleep 0.1
done
tag=$(tr -d '\r' <"$work/head" | sed -n 's/^ETag: //p')
begin a:dev.client m 2
same "the same feature in another project" '{"number":4}' "$(put '{"name":"m","project":"b","enabled":true}')"
wait "$follower"
same "the turns of a feature that moves away" 'turn 1 published number 3 on true
turn 2 published number 4 on -' "$(cat "$work/turns")"
same "the edge's delta for the move" '{"after":3,"events":[{"eventId":4,"featureName":"m","project":"a","type":"feature-removed"}]}' \
    "$(seen --header "If-None-Match: $tag")"
same "the edge's hydration without the feature" '{"events":[{"eventId":4,"features":[],"segments":[],"type":"hydration"}]}' "$(seen)"

# follows a feature for one turn at a port, and prints the program's output and then its status
one_turn() {
    "$program" follow --upstream "127.0.0.1:$1" --token '*:dev.client' --feature "$2" --mode "$3" </dev/null 2>"$work/told"
    echo "status $?"
}

same "a feed" 'turn 1 published number 4 on false
status 0' "$(one_turn "$upstream_port" a feed)"
same "a feature that isn't there" 'turn 1 published number 4 on -
status 0' "$(one_turn "$upstream_port" z delta)"
same "a server that isn't there" 'turn 1 fault number - on -
status 0' "$(one_turn 1 a delta)"
same "the error stream" 'upstream 127.0.0.1:1: unreachable: Connection refused (os error 111)' "$(cat "$work/told")"
same "bad words" 'unl_edge: bad words
status 2' "$(one_turn "$upstream_port" a other)"
echo "follow: passed"

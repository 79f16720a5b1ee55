#!/bin/sh
# Tests the files under deploy/. systemd-analyze verifies the units and their sandboxing; this part is skipped without it. The command
# of each unit runs with the arguments shown at the top of the unit, read from a file, so that no secret is on the command line. The
# edge serves its upstream's features. If a docker daemon runs, the image is built, and a container ends within 8 seconds of
# `docker stop`. scripts/nginx.sh tests nginx.conf. Run after `rt ci` or `rt run`. Skipped if curl is missing.
set -u
cd "$(dirname "$0")/.."

. scripts/servers.sh
need curl

keeping=${KEEPING:-crates/unl_durable_upstream/out/unl_durable_upstream}
test -x "$keeping" || (cd crates/unl_durable_upstream && rt run </dev/null >/dev/null 2>&1)
test -x "$keeping" || fail "the program of unl_durable_upstream isn't built"

upstream_port=${UPSTREAM_PORT:-15042}
edge_port=${EDGE_PORT:-13863}
mkdir "$work/bin" "$work/units"
cp "$program" "$work/bin/unl_edge"
cp "$keeping" "$work/bin/unl_durable_upstream"

# prints a unit of deploy/, with the paths and the upstream's port replaced by those of this script: the name of the unit
unit() {
    sed -e "s#/usr/local/bin#$work/bin#; s#/etc/unl/#$work/#; s#127.0.0.1:4242#127.0.0.1:$upstream_port#" "deploy/$1.service"
}

# ---- the units, as systemd-analyze judges them
systemd() {
    systemd-analyze verify "$work"/units/*.service >"$work/verified" 2>&1 || fail "systemd refuses a unit: $(cat "$work/verified")"
    same "what systemd-analyze prints about the units" "" "$(grep 'units/unl-' "$work/verified")"
    for file in "$work"/units/*.service; do
        systemd-analyze security --offline=true --threshold=20 "$file" >"$work/exposure" 2>&1 ||
            fail "a unit is too open: $(tail -n 1 "$work/exposure")"
    done
}

sed 's/"dev"/"production"/' examples/upstream-commands.jsonl >"$work/commands.jsonl"
for name in unl-edge unl-upstream unl-durable-upstream; do
    unit "$name" >"$work/units/$name.service"
done
if command -v systemd-analyze >/dev/null 2>&1; then
    systemd
else
    echo "${0##*/}: the units are not shown to systemd, since systemd-analyze is not there"
fi

# ---- the command of each unit, as systemd would run it: the name of the unit, a port, and a file for the input
run_unit() {
    {
        sed -n 's/^#     //p' "deploy/$1.service"
        echo "--port=$2"
    } >"$work/$1.words"
    unit "$1" | sed -n 's/^ExecStart=/exec /p' | sed 's/\$\$/$/g; s/%%/%/g' >"$work/$1.sh"
    export UNL_EDGE_WORDS_FILE="$work/$1.words" STATE_DIRECTORY="$work"
    start sh "$work/$1.sh" <"$3" >/dev/null
    unset UNL_EDGE_WORDS_FILE
    wait_for "$2" "$1"
    for child in $(cat "/proc/$last/task/$last/children"); do
        same "secrets among the arguments of $1" "" "$(tr '\0' ' ' <"/proc/$child/cmdline" | grep -o SECRET)"
    done
}

run_unit unl-upstream "$upstream_port" "$work/commands.jsonl"
run_unit unl-durable-upstream "$((upstream_port + 1))" /dev/null
run_unit unl-edge "$edge_port" /dev/null
same "a command" '{"number":1}' "$(ask "$((upstream_port + 1))" SECRET /commands --data "$(cat "$work/commands.jsonl")")"
same "the edge's features" '["a"]' \
    "$(ask "$edge_port" '*:production.SECRET' /api/client/features | sed 's/.*"name":"\([^"]*\)","project".*/["\1"]/')"

# ---- the image
if docker info >/dev/null 2>&1; then
    cp deploy/Dockerfile "$work/bin/"
    docker build --quiet --tag unl-edge-test "$work/bin" >"$work/image" 2>&1 || fail "no image is built: $(cat "$work/image")"
    docker run --rm unl-edge-test 2>&1 | grep -q '^usage: unl_edge' || fail "the image doesn't run the edge"
    container=$(docker run --detach --rm unl-edge-test unl_edge upstream --secret s --environments dev --client-tokens '*:dev.c')
    begun=$(date +%s)
    docker stop "$container" >/dev/null
    test "$(($(date +%s) - begun))" -lt 8 || fail "the image doesn't end at a stop"
    docker rmi unl-edge-test >/dev/null
else
    echo "${0##*/}: the image is skipped, since docker or its daemon is not there"
fi
echo "${0##*/}: passed"

#!/bin/sh
# Runs each case in examples/cases through the program, and compares the output and exit status with those that the case states. The
# comment at the top of examples/cases/replay.cases describes the format of a case. Run after `rt ci` or `rt run`, which build the
# program. The variable PROGRAM names another program to test.
set -uf
cd "$(dirname "$0")/.."

program=${PROGRAM:-crates/unl_edge/out/unl_edge}
test -x "$program" || (cd crates/unl_edge && rt run -- replay </dev/null >/dev/null 2>&1)
split=$(mktemp -d)
trap 'rm -rf "$split"' EXIT

# Writes four files for the N-th case: N.words (the arguments), N.in (the input), N.status and N.out (the expected status and output).
set +f
cat examples/cases/*.cases | awk -v to="$split" '
    function ended(text) {
        if (lines && text ~ /\\$/ && part == "in") return substr(text, 1, length(text) - 1)
        return lines ? text "\n" : ""
    }
    function leave() {
        if (part != "") printf "%s", ended(text) > (to "/" count "." part)
        close(to "/" count "." part)
        text = ""; lines = 0
    }
    part == "" && /^\$( |$)/ { count++; print substr($0, 3) > (to "/" count ".words"); close(to "/" count ".words"); part = "in"; next }
    part == "in" && /^= / { leave(); print substr($0, 3) > (to "/" count ".status"); close(to "/" count ".status"); part = "out"; next }
    part == "out" && /^$/ { leave(); part = ""; next }
    part == "" { next }
    /^    / && lines { text = text substr($0, 5); next }
    { text = lines ? text "\n" $0 : $0; lines++ }
    END { leave() }
'
set -f

count=0
while test -f "$split/$((count + 1)).words"; do
    count=$((count + 1))
    timeout 60 "$program" $(cat "$split/$count.words") <"$split/$count.in" >"$split/printed" 2>"$split/told"
    status=$?
    cmp -s "$split/printed" "$split/$count.out" && test "$status" = "$(cat "$split/$count.status")" || {
        echo "cases: case $count ended with $status, on"
        cat "$split/$count.words" "$split/$count.in" "$split/printed" "$split/told"
        exit 1
    }
done
test "$count" -gt 0 || exit 1
echo "cases: $count passed"

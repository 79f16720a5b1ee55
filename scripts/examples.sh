#!/bin/sh
# Runs each example that has a .out file next to it, and compares the output with that file: explain.json through `explain`, other
# .json files through `check`, .jsonl files through `replay`. Run after `rt ci` or `rt run`, which build the program. The variable
# PROGRAM names another program to test.
set -u
cd "$(dirname "$0")/.."

program=${PROGRAM:-crates/unl_edge/out/unl_edge}
test -x "$program" || (cd crates/unl_edge && rt run -- replay </dev/null >/dev/null 2>&1)
printed=$(mktemp)
trap 'rm -f "$printed"' EXIT

count=0
for expected in examples/*.out; do
    name=${expected%.out}
    if test "$name" = examples/explain; then
        "$program" explain <"$name.json" >"$printed"
    elif test -f "$name.json"; then
        "$program" check <"$name.json" >"$printed"
    else
        "$program" replay <"$name.jsonl" >"$printed"
    fi
    cmp "$printed" "$expected" || {
        echo "examples: $name prints something else"
        exit 1
    }
    count=$((count + 1))
done
echo "examples: $count passed"

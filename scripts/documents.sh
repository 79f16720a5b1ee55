#!/bin/sh
# Runs the lines after a `$` in README and OPERATING, and compares what they print with the output shown there. Also checks that each
# input under examples/ has an output file, or a name that begins with `upstream-` as an input of the command `upstream`. Run after
# `rt ci` or `rt run`. Skipped if python3 or curl is missing, or if the script can't get a network namespace and a port of the
# documents is taken.
set -u
cd "$(dirname "$0")/.."

. scripts/servers.sh
need curl
need python3

keeping=${KEEPING:-crates/unl_durable_upstream/out/unl_durable_upstream}
test -x "$keeping" || (cd crates/unl_durable_upstream && rt run </dev/null >/dev/null 2>&1)
test -x "$keeping" || fail "the program of unl_durable_upstream isn't built"

for file in examples/*.json examples/*.jsonl; do
    name=$(basename "$file")
    case $name in
    upstream-*) ;;
    *) test -f "${file%.*}.out" || fail "$file has no output, and doesn't begin with the command that takes it" ;;
    esac
done

alone="unshare --net --map-root-user"
if ! $alone true 2>/dev/null; then
    alone=
    for port in 4242 4243 3063; do
        curl --silent --max-time 2 --output /dev/null "http://127.0.0.1:$port/" && {
            echo "${0##*/}: skipped, since port $port is taken"
            exit 0
        }
    done
fi
for document in README.md docs/OPERATING.md; do
    $alone python3 scripts/python/documents.py "$document" "$program" "$keeping" || fail "$document shows other output"
done
echo "${0##*/}: passed"

#!/bin/sh
# Tests what both programs write to the error stream for arguments that they refuse, by a table of expected first lines and arguments.
# Whatever the fault, the output is `PROGRAM: bad words` and the status is 2. Also tests `--version`, arguments from a file, and what the
# durable upstream writes about its database file. Run after `rt ci` or `rt run`.
set -uf
cd "$(dirname "$0")/.."

. scripts/servers.sh

keeping=${KEEPING:-crates/unl_durable_upstream/out/unl_durable_upstream}
test -x "$keeping" || (cd crates/unl_durable_upstream && rt run </dev/null >/dev/null 2>&1)
test -x "$keeping" || fail "the program of unl_durable_upstream isn't built"
count=0

# checks the first line on the error stream for these arguments: the expected line, then the arguments
writes() {
    line=$1
    shift
    timeout 20 "$runs" "$@" >"$work/printed" 2>"$work/errors" </dev/null
    same "the status at '$*'" 2 "$?"
    same "what is printed at '$*'" "${runs##*/}: bad words" "$(cat "$work/printed")"
    same "what is written at '$*'" "$line" "$(head -n 1 "$work/errors")"
    count=$((count + 1))
}

runs=$program
edge="edge --upstream h:1 --upstream-tokens *:e.s"
writes "unl_edge: no command is given"
writes "unl_edge: the first argument names no command" egde
writes "usage: unl_edge COMMAND [--OPTION VALUE ..]" --help
writes "unl_edge replay: argument 2 is not an option" replay x
writes "usage: unl_edge load --seed N --count N" load --help
writes "unl_edge load: --count is missing" load --seed 1
writes "unl_edge load: --seed is given twice" load --seed 1 --seed=2
writes "unl_edge load: --count has no value after it; one that begins with a hyphen is written --OPTION=VALUE" load --seed 1 --count
writes "unl_edge load: there is no option --counts" load --seed 1 --counts 2
writes "unl_edge load: --count is no number: 1 to 1000000" load --seed 1 --count=x
writes "unl_edge load: --count is out of range: 1 to 1000000" load --count 0 --seed 1
writes "unl_edge check: --now is out of range: 0 to 100000000000000" check --now 100000000000001
writes "unl_edge edge: --upstream is missing" edge
writes "unl_edge edge: --workers is out of range: 1 to 16" $edge --tokens '*:e.s' --workers 17
writes "unl_edge edge: --mode has a bad value: delta or feed" $edge --tokens '*:e.s' --mode feeds
writes "unl_edge edge: --tokens is an empty list: 1 to 1024 tokens" $edge --tokens ', ,'
writes "unl_edge edge: --tokens has a bad item 2: 1 to 1024 tokens" $edge --tokens '*:e.s,,x'
writes "unl_edge edge: --upstream has a bad value: a host, a colon, and a port of 1 to 65535" \
    edge --upstream h:0 --upstream-tokens '*:e.s' --tokens '*:e.s'
writes "unl_edge edge: --upstream-tokens has too many items, or two alike: 1 to 8 tokens of different environments" \
    edge --upstream h:1 --upstream-tokens '*:e.s,*:e.t' --tokens '*:e.s'
writes "unl_edge upstream: --secret has a bad value: not empty, no line break or NUL in it" upstream --secret= --environments e
writes "unl_edge upstream: --client-tokens and --frontend-tokens have a token in common, or more than 1024" \
    upstream --secret s --environments e --client-tokens a:e.s --frontend-tokens a:e.s
writes "unl_edge follow: --token has a bad value: PROJECT:ENVIRONMENT.SECRET of at most 512 bytes" follow --upstream h:1 --token x --feature f
kit=$(sed -n 's/.*(`rt version` said `\(rattle-kit-[^ ]*\) logic \([0-9a-f]*\)`.*/\1 of the logic \2/p' README.md)
writes "unl_edge 1.0.0, proved with $kit" --version

runs=$keeping
writes "unl_durable_upstream: the first argument must be the path of the database"
writes "usage: unl_durable_upstream FILE --secret TEXT --environments LIST" --help
writes "unl_durable_upstream: --secret is missing" "$work/kept.db"
writes "unl_durable_upstream: --environments has too many items, or two alike: 1 to 8 different names of at most 255 bytes" \
    "$work/kept.db" --secret s --environments e,e

# arguments from a file come after those of the command line
printf '%s\n' 'load' '' '--seed=1' '--count' '10000' >"$work/words"
export UNL_EDGE_WORDS_FILE="$work/words"
same "arguments out of a file" "features 1000 asks 10000 on 5097 off 4903" "$("$program")"
printf '%s\n' '--count=10000' >"$work/words"
same "arguments out of both" "features 1000 asks 10000 on 5097 off 4903" "$("$program" load --seed 1)"
runs=$program
export UNL_EDGE_WORDS_FILE="$work/none"
writes "UNL_EDGE_WORDS_FILE: $work/none: No such file or directory (os error 2)" load --seed 1 --count 1
runs=$keeping
writes "UNL_EDGE_WORDS_FILE: $work/none: No such file or directory (os error 2)" "$work/kept.db"
unset UNL_EDGE_WORDS_FILE

# the database: the error names a file that can't be opened, and a warning names a file that is newer than the epoch
runs=$keeping
"$keeping" "$work/none/kept.db" --secret s --environments dev >"$work/printed" 2>"$work/errors" </dev/null
same "the status of a file that can't be opened" 8 "$?"
same "what is written of it" "$work/none/kept.db: unable to open database file" "$(cat "$work/errors")"
: >"$work/kept.db"
"$keeping" "$work/kept.db" --port "${UPSTREAM_PORT:-15342}" --epoch 5 --secret s --environments dev >"$work/printed" 2>"$work/errors" </dev/null &
started=$!
tries=0
until grep -q listening "$work/errors"; do
    tries=$((tries + 1))
    test "$tries" -lt 100 || fail "the upstream doesn't listen: $(cat "$work/errors")"
    sleep 0.1
done
same "what is written at a start" "warning: changed at N, after the epoch 5
0 commands, epoch 5" "$(sed -n "s#^$work/kept.db: \(warning: changed at\) [0-9]*\(, after the epoch 5\):.*#\1 N\2#p; /commands/p" "$work/errors")"
echo "${0##*/}: passed ($count refusals)"

# Helpers shared by the tests over real sockets. The tests source this file at the top of the repository. They start their servers on
# loopback ports with `start`; the servers are stopped when the script ends.

work=$(mktemp -d)
started=
trap 'kill $started 2>/dev/null; rm -rf "$work"' EXIT

fail() {
    echo "${0##*/}: $1"
    exit 1
}

# skips the whole script, with status 0, if a tool is missing
need() {
    command -v "$1" >/dev/null 2>&1 || {
        echo "${0##*/}: skipped, since $1 is not there"
        exit 0
    }
}

# compares the result of a step with the expected one: the label, the expected text, the result
same() {
    test "$2" = "$3" || fail "$1: expected $2, got $3"
}

# where `rt ci` and `rt run` leave the program; the variable PROGRAM names another program to test
program=${PROGRAM:-crates/unl_edge/out/unl_edge}
test -x "$program" || (cd crates/unl_edge && rt run -- replay </dev/null >/dev/null 2>&1)
test -x "$program" || fail "the program isn't built"

# Starts a command in the background. The command reads the standard input of this function, passed on as descriptor 3, since a shell
# gives a background command an empty standard input. Sets `last` to the process id. The error stream is appended to `$work/log`. The
# command is stopped after `lifetime` seconds (600 by default), in case the script is killed: longer than a script takes, however slow.
start() {
    exec 3<&0
    timeout "${lifetime:-600}" "$@" <&3 3<&- 2>>"$work/log" &
    last=$!
    exec 3<&-
    started="$started $last"
}

# Sends a request: the port, the token, the path, and then further arguments for curl. The server closes the connection after its
# answer, so a server with `--connections` counts it once, however long curl takes to close its own side.
ask() {
    port=$1
    token=$2
    path=$3
    shift 3
    curl --silent --max-time 20 --header "Authorization: $token" --header 'Connection: close' "$@" "http://127.0.0.1:$port$path"
}

# waits until the server at a port answers its health check, for some 20 seconds: the port, and the server's name in error messages
wait_for() {
    tries=0
    until ask "$1" - /internal-backstage/health >"$work/health" 2>/dev/null; do
        tries=$((tries + 1))
        test "$tries" -lt 200 || fail "$2 doesn't listen"
        sleep 0.1
    done
    same "$2's health" '{"status":"OK"}' "$(cat "$work/health")"
}

#!/bin/sh
# Tests the durable upstream, which keeps its commands in a database file, over real sockets. It is killed ten times at random moments
# and restarted. Each acknowledged command (status 200) is in the file with its number, the numbers have no gaps, and the file has no
# other command except those in flight at a kill. Database files that other programs made are opened, or their bad rows are refused. A
# file that can't grow any more keeps all acknowledged commands. Takes at most a minute, and stops the servers that it started. Run
# after `rt ci`, or after `rt run` in crates/unl_durable_upstream. Skipped if curl is missing. The parts that need another reader or
# writer of database files are skipped if neither sqlite3 nor python3's sqlite3 module is installed.
set -u
cd "$(dirname "$0")/.."

. scripts/servers.sh
need curl

keeping=${KEEPING:-crates/unl_durable_upstream/out/unl_durable_upstream}
test -x "$keeping" || (cd crates/unl_durable_upstream && rt run </dev/null >/dev/null 2>&1)
test -x "$keeping" || fail "the program of unl_durable_upstream isn't built"

port=${UPSTREAM_PORT:-14272}
file=$work/kept.db
kills=0
sent=0
: >"$work/acknowledged"
: >"$work/unanswered"

# starts the upstream directly, without `timeout` around it, so that a kill hits the upstream itself
begin() {
    "$keeping" "$file" --port "$port" --secret s --environments dev --client-tokens '*:dev.client' "$@" </dev/null >"$work/printed" 2>>"$work/log" &
    server=$!
    started=$server
}

# kills the upstream after a random delay of at most 255 ms
kill_soon() {
    moment=$(($(od -An -N1 -tu1 /dev/urandom)))
    (
        sleep "$(printf '0.%03d' "$moment")"
        kill -KILL "$server"
    ) &
    killer=$!
    started="$server $killer"
}

begin
wait_for "$port" "the upstream"
kill_soon
until test "$sent" -ge 200 && test "$kills" -ge 10; do
    sent=$((sent + 1))
    reply=$(ask "$port" s /commands --data "{\"command\":\"put-feature\",\"environment\":\"dev\",\"feature\":{\"name\":\"f$sent\",\"enabled\":true}}")
    number=$(echo "$reply" | sed -n 's/^{"number":\([0-9]*\)}$/\1/p')
    if test -n "$number"; then
        echo "$number f$sent" >>"$work/acknowledged"
        continue
    fi
    echo "f$sent" >>"$work/unanswered"
    wait "$server" 2>/dev/null
    same "how it ended" 137 "$?"
    wait "$killer"
    kills=$((kills + 1))
    begin
    wait_for "$port" "the upstream that was killed"
    test "$kills" -ge 10 || kill_soon
done
same "the number of kills" 10 "$(wc -l <"$work/unanswered" | tr -d ' ')"

# every acknowledged command is in the feed, and the feed has nothing that was never sent
ask "$port" '*:dev.client' /api/client/features | grep -o '"name":"f[0-9]*"' | sed 's/"name":"\(.*\)"/\1/' | sort >"$work/shown"
sed 's/.* //' "$work/acknowledged" | sort | comm -23 - "$work/shown" >"$work/lost"
same "what was lost" "" "$(cat "$work/lost")"
sed 's/.* //' "$work/acknowledged" | cat - "$work/unanswered" | sort | comm -13 - "$work/shown" >"$work/other"
same "what nobody put" "" "$(cat "$work/other")"

# a clean exit after one connection
kill -KILL "$server"
wait "$server" 2>/dev/null
begin --connections 1
wait_for "$port" "the upstream of one link"
wait "$server"
same "the status" 0 "$?"
same "what is printed" "connections 1" "$(cat "$work/printed")"

# the rows of the file, read by an independent reader
query="SELECT place, json_extract(text, '\$.feature.name') FROM kept ORDER BY place"
if command -v sqlite3 >/dev/null 2>&1; then
    sql() {
        sqlite3 -separator ' ' "$@"
    }
elif python3 -c 'import sqlite3' 2>/dev/null; then
    sql() {
        python3 -c 'import sqlite3, sys
with sqlite3.connect(sys.argv[1]) as file:
    for text in sys.argv[2].split(";"):
        for row in file.execute(text):
            print(*row)' "$@"
    }
else
    echo "${0##*/}: the rows are skipped, since neither sqlite3 nor its module for python3 is there"
    exit 0
fi
sql "$file" "$query" >"$work/rows" || fail "the file can't be read"
same "a gap in the places" "" "$(awk '$1 != NR' "$work/rows")"
same "acknowledged commands that aren't at their number" "" "$(grep -vxF -f "$work/rows" "$work/acknowledged")"
more=$(($(wc -l <"$work/rows") - $(wc -l <"$work/acknowledged")))
test "$more" -le 10 || fail "$more rows more than were acknowledged"

# `opened` makes a database file with SQL statements and passes it to `over`, which runs the upstream on a file and prints the
# upstream's output and status
opened() {
    rm -f "$work"/made.db*
    sql "$work/made.db" "$1" || fail "the file can't be made"
    over "$work/made.db"
}
over() {
    timeout 20 "$keeping" "$1" --port "$port" --secret s --environments dev --client-tokens '*:dev.client' --connections 1 </dev/null 2>>"$work/log"
    echo "status $?"
}

table='CREATE TABLE kept (place INTEGER PRIMARY KEY, text TEXT NOT NULL)'
put='{"command":"put-feature","environment":"dev","feature":{"name":"a","enabled":true}}'
remove='{"command":"remove-segment","environment":"dev","id":4}'
failed='unl_durable_upstream: the keeper failed
status 8'
# the expected refusal of the row at a place
refused() { printf 'refused: row %s\nstatus 3' "$1"; }
same "no first row" "$(refused 1)" "$(opened "$table; INSERT INTO kept VALUES (2, '$put')")"
same "a row that is no command" "$(refused 1)" "$(opened "$table; INSERT INTO kept VALUES (1, '{}')")"
same "a command that is refused" "$(refused 1)" "$(opened "$table; INSERT INTO kept VALUES (1, '$remove')")"
same "a row that is missing" "$(refused 2)" "$(opened "$table; INSERT INTO kept VALUES (1, '$put'), (3, '$put')")"
same "a second row that is none" "$(refused 2)" "$(opened "$table; INSERT INTO kept VALUES (1, '$put'), (2, '{}')")"
same "a place below 1" "$failed" "$(opened "$table; INSERT INTO kept VALUES (0, '$put')")"
same "a row that holds a blob" "$failed" "$(opened "$table; INSERT INTO kept VALUES (1, x'61')")"
same "another table" "$failed" "$(opened "CREATE TABLE kept (text TEXT)")"
echo "no database" >"$work/text.db"
over "$work/text.db" >"$work/printed"
same "a file that is no database" "status 8" "$(tail -n 1 "$work/printed")"

# a file with a good row that another program made, and the rows of further commands after it
file=$work/good.db
sql "$file" "$table; INSERT INTO kept VALUES (1, '$put')" || fail "the file can't be made"
begin --connections 5
wait_for "$port" "the upstream of a good row"
ask "$port" '*:dev.client' /api/client/features | grep -q '"name":"a"' || fail "a good row isn't shown"
for command in '{"command":"remove-feature","environment":"dev","name":"a"}' \
    '{"command":"put-segment","environment":"dev","segment":{"constraints":[],"id":4}}' "$remove"; do
    put="$put
$command"
    ask "$port" s /commands --data "$command" | grep -q number || fail "a command after a good row is refused"
done
wait "$server"
same "the rows of commands" "$put" "$(sql "$file" "SELECT text FROM kept ORDER BY place")"

# a file that can't grow any more: the next command is refused, and acknowledged commands are there after a restart
file=$work/full.db
(
    trap '' XFSZ
    ulimit -f 800
    exec "$keeping" "$file" --port "$port" --secret s --environments dev --client-tokens '*:dev.client'
) </dev/null >"$work/printed" &
server=$!
started=$server
wait_for "$port" "the upstream of a file that may not grow"
count=0
put_next() {
    ask "$port" s /commands --data "{\"command\":\"put-feature\",\"environment\":\"dev\",\"feature\":{\"name\":\"f$count\",\"enabled\":true}}"
}
while reply=$(put_next) && test "$reply" = "{\"number\":$((count + 1))}"; do
    count=$((count + 1))
done
same "a command that can't be kept" '{"error":"KeeperFault"}' "$reply"
test "$count" -gt 0 || fail "no command was kept"
features() {
    ask "$port" '*:dev.client' /api/client/features | grep -o '"name":"f[0-9]*"' | wc -l | tr -d ' '
}
same "what is shown then" "$count" "$(features)"
kill -KILL "$server"
wait "$server" 2>/dev/null
begin
wait_for "$port" "the upstream of a file that may grow again"
more_shown=$(($(features) - count))
test "$more_shown" -eq 0 || test "$more_shown" -eq 1 || fail "$more_shown features more than were acknowledged"
echo "keeping: passed ($(wc -l <"$work/acknowledged" | tr -d ' ') commands acknowledged, $more more kept, $kills kills)"

#!/bin/sh
# Tests limits that only long inputs reach: the features and segments of an environment, the events that it keeps, the keys of a
# metrics book and of a bulk report, and the bytes and lines of an input. Run after `rt ci` or `rt run`, which build the program. The
# variable PROGRAM names another program to test.
set -u
cd "$(dirname "$0")/.."

program=${PROGRAM:-crates/unl_edge/out/unl_edge}
test -x "$program" || (cd crates/unl_edge && rt run -- replay </dev/null >/dev/null 2>&1)

# same WHAT EXPECTED PRINTED: ends the script with status 1 if the expected text is not the printed one
same() {
    test "$2" = "$3" || {
        echo "limits: $1: it printed"
        echo "$3"
        exit 1
    }
}

# Puts 10,000 different features. The 10,001st command puts one of them again, and the 10,002nd puts one feature too many.
put() {
    awk 'BEGIN {
        for (number = 0; number < 10002; number++) {
            name = number == 10000 ? "f7" : "f" number
            printf "{\"command\":\"put-feature\",\"environment\":\"dev\",\"feature\":{\"name\":\"%s\",\"enabled\":false}}\n", name
        }
    }' | "$program" upstream --environments dev --secret s
    echo "status $?"
}
same "features" 'refused: line 10002: TooMany
status 3' "$(put)"

# Puts 1,000 different segments, then one of them again, then one segment too many.
segments() {
    awk 'BEGIN {
        for (id = 0; id < 1002; id++) {
            printf "{\"command\":\"put-segment\",\"environment\":\"dev\",\"segment\":{\"id\":%d}}\n", id == 1000 ? 999 : id
        }
    }' | "$program" upstream --environments dev --secret s
    echo "status $?"
}
same "segments" 'refused: line 1002: TooMany
status 3' "$(segments)"

# Sends batches to three environments, and then asks each for its delta since the number 0 and since the number 1. Prints the status,
# the number of events and the number of hydrations of each answer. An environment keeps 1,000 events. The first one gets 1,001. So does
# the second one, in which two events have the number 1: both are dropped. The third one gets 1,000.
window() {
    awk '
        function batch(environment, count, twice) {
            printf "{\"op\":\"batch\",\"environment\":\"%s\",\"batch\":{\"events\":[", environment
            print "{\"type\":\"hydration\",\"eventId\":0}]}}"
            printf "{\"op\":\"batch\",\"environment\":\"%s\",\"batch\":{\"after\":0,\"events\":[", environment
            for (event = 1; event <= count; event++) {
                number = event == 1 ? 1 : event - twice
                printf "%s{\"type\":\"segment-removed\",\"eventId\":%d,\"segmentId\":1}", (event == 1 ? "" : ","), number
            }
            print "]}}"
        }
        function ask(place, environment, since) {
            printf "{\"op\":\"ask\",\"token\":\"*:%s.c\",\"target\":\"/api/client/delta\",", environment
            printf "\"tag\":\"\\\"0000000000000000-1-%d-%d\\\"\"}\n", place, since
        }
        BEGIN {
            printf "{\"op\":\"tokens\",\"tokens\":[{\"token\":\"*:a.c\",\"type\":\"client\"},"
            print "{\"token\":\"*:b.c\",\"type\":\"client\"},{\"token\":\"*:c.c\",\"type\":\"client\"}]}"
            batch("a", 1001, 0); batch("b", 1001, 1); batch("c", 1000, 0)
            for (place = 0; place < 3; place++) for (since = 0; since < 2; since++) ask(place, substr("abc", place + 1, 1), since)
        }' | "$program" replay | awk '/ status / { print $5, gsub(/"eventId"/, "&"), gsub(/"hydration"/, "&") }'
}
same "events that are kept" '200 1 1
200 1000 0
200 1 1
200 999 0
200 1000 0
200 999 0' "$(window)"

# Sends five reports: of the features f0 to f9999, of g0 (the book is full), of f0, of g0, and of 10,001 features, one too many for a
# report. Then sends the metrics: first as many keys as fit into 1,048,576 bytes, which makes room for g0, then the rest. At last
# nothing is left to send.
report() {
    awk '
        function report(letter, count) {
            printf "{\"op\":\"ask\",\"method\":\"POST\",\"token\":\"*:dev.c\",\"target\":\"/api/client/metrics\",\"body\":\""
            printf "{\\\"appName\\\":\\\"shop\\\",\\\"bucket\\\":{\\\"start\\\":\\\"2024-01-01T10:05:00Z\\\",\\\"toggles\\\":{"
            for (number = 0; number < count; number++) printf "%s\\\"%s%d\\\":{}", number ? "," : "", letter, number
            print "}}}\"}"
        }
        function sent() { print "{\"op\":\"metrics\",\"environment\":\"dev\"}" }
        BEGIN {
            print "{\"op\":\"tokens\",\"tokens\":[{\"token\":\"*:dev.c\",\"type\":\"client\"}]}"
            report("f", 10000); report("g", 1); report("f", 1); report("g", 1); report("f", 10001)
            sent(); report("g", 1); sent(); sent()
        }' | "$program" replay | awk '{ keys = gsub(/"appName"/, "&") } / metrics \{/ { $0 = $1 " sent " keys } { print }'
}
same "keys" '1: tokens generation 1 front 1
2: front 1 status 202 tag - body 
3: front 1 status 503 tag - body {"error":"MetricsFull"}
4: front 1 status 202 tag - body 
5: front 1 status 503 tag - body {"error":"MetricsFull"}
6: front 1 status 400 tag - body {"error":"BadReport"}
7: sent 8395
8: front 1 status 202 tag - body 
9: sent 1606
10: metrics -' "$(report)"

# Runs a command on an input of a given number of bytes, none of which is valid in JSON.
long() {
    head -c "$2" /dev/zero | tr '\0' '\377' | "$program" "$1"
    echo "status $?"
}
for command in check explain; do
    same "the longest input of $command" 'refused: NotJson
status 3' "$(long "$command" 16777216)"
    same "an input of $command that is too long" 'refused: TooLarge
status 3' "$(long "$command" 16777217)"
done

# Runs a replay with one line more than the limit.
lines() {
    yes '{"op":"ask","target":"/"}' | head -n 1000001 | "$program" replay | tail -n 2
}
same "lines" '1000000: front 0 status 404 tag - body {"error":"NoSuchRoute"}
refused: line 1000001: TooManyLines' "$(lines)"
echo "limits: passed"

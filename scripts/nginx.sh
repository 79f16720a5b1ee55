#!/bin/sh
# Tests nginx in front of two edges, with deploy/nginx.conf at other ports. Over TLS a browser gets the CORS headers and its features. A
# feed that the client already has is not sent again: nginx sends all requests with one token to the same edge. Run after `rt ci` or `rt
# run`. Skipped if nginx, openssl or curl is missing, or if nginx can't run here.
set -u
cd "$(dirname "$0")/.."

. scripts/servers.sh
need curl
need nginx
need openssl
echo 'events {} http {}' >"$work/nginx.conf"
nginx -t -p "$work" -c "$work/nginx.conf" -e "$work/errors" -g "pid $work/nginx.pid;" 2>/dev/null || {
    echo "${0##*/}: skipped, since nginx can't run here"
    exit 0
}

upstream_port=${UPSTREAM_PORT:-14442}
edge_port=${EDGE_PORT:-13263}
tls_port=${TLS_PORT:-13643}

start "$program" upstream --port "$upstream_port" --secret s --environments dev \
    --client-tokens '*:dev.client' --frontend-tokens '*:dev.front' <examples/upstream-shop.jsonl >/dev/null
wait_for "$upstream_port" "the upstream"
start "$program" edge --port "$edge_port" --upstream "127.0.0.1:$upstream_port" --upstream-tokens '*:dev.client' \
    --tokens '*:dev.client,*:dev.front' </dev/null >/dev/null
wait_for "$edge_port" "the edge"
second_port=$((edge_port + 1))
start "$program" edge --port "$second_port" --upstream "127.0.0.1:$upstream_port" --upstream-tokens '*:dev.client' \
    --tokens '*:dev.client,*:dev.front' </dev/null >/dev/null
wait_for "$second_port" "the second edge"

openssl req -x509 -newkey rsa:2048 -nodes -days 1 -subj /CN=localhost -addext subjectAltName=IP:127.0.0.1 \
    -keyout "$work/key.pem" -out "$work/certificate.pem" 2>/dev/null || fail "openssl made no certificate"
sed -e "s/3443/127.0.0.1:$tls_port/" -e "s/3063/$edge_port/" -e "s/# server 127.0.0.1:3064/server 127.0.0.1:$second_port/" deploy/nginx.conf >"$work/nginx.conf"
start nginx -p "$work" -c "$work/nginx.conf" -e "$work/errors" -g "daemon off; pid $work/nginx.pid;" </dev/null

# sends a request through nginx: the token, the path, and then further arguments for curl
through() {
    token=$1
    path=$2
    shift 2
    curl --silent --max-time 5 --cacert "$work/certificate.pem" --header "Authorization: $token" "$@" "https://127.0.0.1:$tls_port$path"
}

tries=0
until through - /internal-backstage/health >"$work/health" 2>/dev/null; do
    tries=$((tries + 1))
    test "$tries" -lt 50 || fail "nginx doesn't listen: $(cat "$work/errors")"
    sleep 0.1
done
same "the health" '{"status":"OK"}' "$(cat "$work/health")"

# prints the value of a header of the last reply
header() {
    tr -d '\r' <"$work/head" | sed -n "s/^$1: //Ip"
}

same "a CORS preflight request" 204 "$(through - /api/frontend --request OPTIONS --header 'Origin: https://shop.example' \
    --header 'Access-Control-Request-Method: GET' --dump-header "$work/head" --output /dev/null --write-out '%{http_code}')"
same "the allowed origin" '*' "$(header Access-Control-Allow-Origin)"
for name in authorization content-type if-none-match unleash-appname unleash-sdk unleash-connection-id; do
    header Access-Control-Allow-Headers | grep -q "$name" || fail "a browser may not send $name"
done

for query in userId=7 userId=9 ''; do
    same "the features for $query" "$(ask "$edge_port" '*:dev.front' "/api/frontend?$query")" "$(through '*:dev.front' "/api/frontend?$query")"
done
same "a wrong token" '{"error":"UnknownToken"} 403' "$(through '*:dev.other' /api/frontend --write-out ' %{http_code}' --dump-header "$work/head")"
same "the allowed origin of a refusal" '*' "$(header Access-Control-Allow-Origin)"

# several concurrent connections: nginx uses a connection of its own to an edge for each concurrent request, so none waits for another
for number in 1 2 3 4 5 6 7 8; do
    through '*:dev.front' /api/frontend >"$work/side-$number" &
    sides="${sides-} $!"
done
wait $sides
for number in 1 2 3 4 5 6 7 8; do
    same "the features on connection $number" "$(ask "$edge_port" '*:dev.front' /api/frontend)" "$(cat "$work/side-$number")"
done

through '*:dev.client' /api/client/features --dump-header "$work/head" --output /dev/null
tag=$(header ETag)
test -n "$tag" || fail "the feed has no tag"
for poll in 1 2 3 4 5 6; do
    same "a feed that is known, poll $poll" 304 \
        "$(through '*:dev.client' /api/client/features --header "If-None-Match: $tag" --output /dev/null --write-out '%{http_code}')"
done
echo "${0##*/}: passed"

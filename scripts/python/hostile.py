"""Sends hostile bytes over sockets. Each input gets the status that docs/FORMATS.md states, and the server serves the next connection.

Arguments: the port of an upstream and the id of the process that started it, and the same for an edge. Prints each unexpected answer,
and a line if a server's memory grew by more than SLACK. The tokens are `*:dev.client` and `*:dev.front`, the secret is `s`.
"""
import sys

from wire import HEALTH, answered, connect, memory_of, replies, request, reset, rest_of, started_by, statuses

DEEP = b"[" * 100_000 + b"]" * 100_000
LONG = b"1" * 1_000
ROUNDS = 5
# the memory that an allocator may retain between rounds, in KiB
SLACK = 4_096
# how long to wait for the end of a connection that the server drops after 30 seconds, in seconds
LATER = 50

CLIENT, FRONT, SECRET = b"*:dev.client", b"*:dev.front", b"s"
REPORT = b'{"appName":"a","bucket":{"start":"2024-01-01T10:05:00Z","toggles":{"a":{"yes":%s}}}}'
FIELDS = [b"X-%d: y\r\n" % number for number in range(50)]

# a name, the expected statuses, and the pieces to send
ROWS = [
    ("a context of 100,000 brackets", [400], [request(b"/api/frontend", FRONT, DEEP)]),
    ("a context with such a property", [400], [request(b"/api/frontend", FRONT, b'{"properties":{"a":%s}}' % DEEP)]),
    ("a report of 100,000 brackets", [400], [request(b"/api/client/metrics", CLIENT, DEEP)]),
    ("texts of tokens of 100,000 brackets", [400], [request(b"/edge/validate", body=DEEP)]),
    ("a userId of 1,000 digits", [400], [request(b"/api/frontend", FRONT, b'{"userId":%s}' % LONG)]),
    ("a count of 1,000 digits", [400], [request(b"/api/client/metrics", CLIENT, REPORT % LONG)]),
    ("a Content-Length of 1,000 digits", [400], [request(b"/internal-backstage/health", fields=b"Content-Length: %s\r\n" % LONG)]),
    ("a Content-Length that is too large", [413], [request(b"/internal-backstage/health", fields=b"Content-Length: 1048577\r\n")]),
    ("65 fields", [431], [request(b"/internal-backstage/health", fields=b"X: y\r\n" * 64)]),
    ("a head without an end", [431], [b"GET / HTTP/1.1\r\nHost: h\r\nX: " + b"y" * 10_000]),
    ("a body in chunks", [411], [request(b"/edge/validate", fields=b"Transfer-Encoding: chunked\r\n") + b"0\r\n\r\n"]),
    ("a body in chunks that has a length too", [411], [request(b"/edge/validate", fields=b"Transfer-Encoding: chunked\r\n", body=b"0\r\n\r\n")]),
    ("two lengths", [400], [request(b"/edge/validate", fields=b"Content-Length: 2\r\n", body=b"{}")]),
    ("two hosts", [400], [request(b"/internal-backstage/health", fields=b"Host: i\r\n")]),
    ("bytes that are no request", [400], [b"\x16\x03\x01\x02\x00\x01\x00\x01\xfc\x03\x03" * 10]),
    ("a query with broken escapes", [200], [request(b"/api/frontend?userId=%zz&%=%&=&&a", FRONT)]),
    ("a token behind the word Bearer", [200], [request(b"/api/frontend", b"Bearer " + FRONT)]),
    ("1,000 requests at once", [200] * 1_000, [HEALTH * 1_000]),
    ("1,001 requests at once", [200] * 1_000, [HEALTH * 1_001]),
    ("half a request", [], [HEALTH[:20]]),
    ("half a body", [], [request(b"/edge/validate", body=b"{}")[:-1]]),
    ("a request and half of one", [200], [HEALTH + HEALTH[:20]]),
    ("nothing", [], []),
    ("a command of 100,000 brackets", {"upstream": [400], "edge": [404]}, [request(b"/commands", SECRET, DEEP)]),
]

# 30 bytes before the value of a field
LONG_FIELD = b"GET /no HTTP/1.1\r\nHost: x\r\na: "

# heads that are refused, and the status. A head that breaks two rules gets the status of the first one
HEADS = [
    (b"GET / HTTP/2.0\r\n", 400),
    (b"GET  / HTTP/1.1\r\n", 400),
    (b"GET / HTTP/1.1\r\nHost : x\r\n", 400),
    (b"POST / HTTP/1.1\r\nHost: x\r\nTransfer-Encoding: chunked\r\n\r\n", 411),
    (b"POST / HTTP/1.1\r\nHost: x\r\nContent-Length: 5\r\nTransfer-Encoding: chunked\r\n\r\nabcde", 411),
    (b"POST / HTTP/1.1\r\nTransfer-Encoding: chunked\r\n\r\n", 411),
    (b"POST / HTTP/1.1\r\nHost: x\r\nContent-Length: 1\r\nContent-Length: 1\r\n\r\nab", 400),
    (b"POST / HTTP/1.1\r\nHost: x\r\nContent-Length: +5\r\n\r\nabcde", 400),
    (b"POST / HTTP/1.1\r\nHost: x\r\nContent-Length: 5,5\r\n\r\nabcde", 400),
    (b"POST / HTTP/1.1\r\nHost: x\r\nContent-Length:\r\n\r\n", 400),
    (b"POST / HTTP/1.1\r\nHost: x\r\nContent-Length: 00000000000000000001\r\n\r\na", 400),
    (b"GET / HTTP/1.1\r\n\r\n", 400),
    (b"GET / HTTP/1.1\r\nHost: x\r\nHOST: x\r\n\r\n", 400),
    (b"GET / HTTP/1.1\r\nContent-Length: 1048577\r\n\r\n", 400),
    (b"GET / HTTP/1.1\r\nHost: x\r\nContent-Length: 1048577\r\n\r\n", 413),
    (b"GET / HTTP/1.1\r\nHost: x\r\nContent-Length: 9999999999999999999\r\n\r\n", 413),
    (b"GET / HTTP/1.0\r\nContent-Length: 1048577\r\nContent-Encoding: gzip\r\n\r\n", 413),
    (b"GET / HTTP/1.0\r\nContent-Encoding: gzip\r\n\r\n", 415),
    (b"GET / HTTP/1.0\r\nContent-Encoding: identity\r\nContent-Encoding: gzip\r\n\r\n", 415),
    (b"GET / HTTP/1.0\r\nContent-Encoding: gzip\r\nExpect: 100-continue\r\n\r\n", 415),
    (b"GET / HTTP/1.0\r\nContent-Encoding: Identity\r\nExpect: anything\r\n\r\n", 417),
    (b"GET / HTTP/1.0\r\nexpect: 100-continue\r\n\r\n", 417),
    (b"GET / HTTP/1.0\r\nContent-Length: 2\r\nExpect: 100-continue\r\n\r\na", 417),
    (b"GET / HTTP/1.0\r\n" + b"a: b\r\n" * 65 + b"\r\n", 431),
    (b"GET / HTTP/1.0\r\nExpect: x\r\n" + b"a: b\r\n" * 64 + b"\r\n", 431),
    (b"GET / HTTP/1.0\r\nExpect: x\r\n" + b"a: b\r\n" * 63 + b"\r\n", 417),
    (b"GET / HTTP/1.0\r\na: " + b"b" * 8_173 + b"\r\n\r\n", 431),
    (b"GET /" + b"a" * 8_187, 431),
    (LONG_FIELD + b"b" * 8_162, 431),
    (LONG_FIELD + b"b" * 8_159 + b"\r\n\r\n", 431),
]

# bytes that end a connection without a refusal, and the number of answered requests
ENDS = [
    (b"GET", 0),
    (b"GET /no HTTP/1.1\r\nHost: x\r\n", 0),
    (b"POST / HTTP/1.1\r\nHost: x\r\nContent-Length: 3\r\n\r\nab", 0),
    (b"POST / HTTP/1.1\r\nHost: x\r\nContent-Length: 3\r\n\r\nabc", 1),
    (b"POST / HTTP/1.1\r\nHost: x\r\nContent-Length: 3\r\n\r\nabcGET", 1),
    (b"GET /no HTTP/1.1\r\nHost: x\r\nConnection: keep-alive, Close\r\n\r\n" * 2, 1),
    (b"GET /no HTTP/1.0\r\n\r\n" * 2, 1),
    (b"GET /no HTTP/1.0\r\nConnection: Keep-Alive\r\n\r\n" * 2, 2),
    (b"GET /no HTTP/1.0\r\nConnection: x\r\nConnection: keep-alive\r\n\r\n" * 2, 1),
    (LONG_FIELD + b"b" * 8_161, 0),
    (LONG_FIELD + b"b" * 8_158 + b"\r\n\r\n", 1),
]

JSON = b"Content-Type: application/json\r\nContent-Length: "
HEALTHY = b'HTTP/1.1 200 OK\r\n' + JSON + b'15\r\n\r\n{"status":"OK"}'
NO_ROUTE = b'HTTP/1.1 404 Not Found\r\n' + JSON + b'23\r\n\r\n{"error":"NoSuchRoute"}'

# requests, and the whole text of the replies. In the last row, the body of the first request is itself the text of a request
REPLIES = [
    (b"GET /api/nothing HTTP/1.0\r\n\r\n",
     b'HTTP/1.1 404 Not Found\r\n' + JSON + b'23\r\nConnection: close\r\n\r\n{"error":"NoSuchRoute"}'),
    (request(b"/api/frontend"), b'HTTP/1.1 401 Unauthorized\r\n' + JSON + b'19\r\n\r\n{"error":"NoToken"}'),
    (request(b"/api/frontend", b"t"), b'HTTP/1.1 403 Forbidden\r\n' + JSON + b'24\r\n\r\n{"error":"UnknownToken"}'),
    (request(b"/api/frontend", CLIENT), b'HTTP/1.1 403 Forbidden\r\n' + JSON + b'21\r\n\r\n{"error":"WrongKind"}'),
    (b"PUT /api/frontend HTTP/1.1\r\nHost: x\r\n\r\n",
     b'HTTP/1.1 405 Method Not Allowed\r\n' + JSON + b'21\r\nAllow: GET, POST\r\n\r\n{"error":"BadMethod"}'),
    (b"HEAD /internal-backstage/health?x HTTP/1.1\r\nHost: x\r\n\r\n",
     b'HTTP/1.1 405 Method Not Allowed\r\n' + JSON + b'21\r\nAllow: GET\r\nConnection: close\r\n\r\n{"error":"BadMethod"}'),
    (HEADS[3][0], b"HTTP/1.1 411 Length Required\r\nContent-Length: 0\r\nConnection: close\r\n\r\n"),
    (request(b"/no", body=HEALTH) + HEALTH, NO_ROUTE + HEALTHY),
]


def check(name, is_as, found):
    if found != is_as:
        print(f"{name}: expected {is_as[:3]}, got {found[:3]} ({len(found)})")


def play(server, port):
    for name, expected, pieces in ROWS:
        is_as = expected[server] if isinstance(expected, dict) else expected
        check(f"{server}, {name}", is_as, answered(port, *pieces))
    for head, status in HEADS:
        check(f"{server}, {head[:99]}", [status], answered(port, head))
    for pieces, count in ENDS:
        check(f"{server}, {pieces[:99]}", [404] * count, answered(port, pieces))
    for asked, text in REPLIES:
        check(f"{server}, {asked}", [text], [replies(port, asked)])
    # one field per packet, and one byte per packet
    head = b"GET /internal-backstage/health HTTP/1.1\r\nHost: h\r\n"
    check(f"{server}, a field a packet", [200], answered(port, head, *FIELDS, b"\r\n", pause=0.001))
    check(f"{server}, a byte a packet", [200], answered(port, *[HEALTH[at : at + 1] for at in range(len(HEALTH))], pause=0.001))
    # connections that are reset: at once, within a head, within a body, and while replies are in transit
    for pieces in [[], [HEALTH[:20]], [request(b"/edge/validate", body=b"{}")[:-1]], [request(b"/api/frontend", FRONT) * 900]]:
        reset(port, *pieces)
        check(f"{server}, after a reset", [200], answered(port, HEALTH))


def leave_open(port):
    """A connection that sends part of a head, and then neither sends more nor closes."""
    link = connect(port, LATER)
    link.sendall(HEALTH[:20])
    return link


def play_half_open(servers):
    """Leaves a connection to each server open. The server serves the next connection, and ends the open one without an answer."""
    links = [leave_open(port) for _, port, _ in servers]
    for (server, port, _), link in zip(servers, links):
        check(f"{server}, after a connection that stays open", [200], answered(port, HEALTH, timeout=LATER))
        with link:
            check(f"{server}, a link that stays open", [], statuses(rest_of(link)))


def main(words):
    processes = [started_by(int(word)) for word in words[1::2]]
    servers = list(zip(["upstream", "edge"], map(int, words[0::2]), processes))
    for server, port, _ in servers:
        play(server, port)
    before = [memory_of(process) for _, _, process in servers]
    for _ in range(ROUNDS):
        for server, port, _ in servers:
            play(server, port)
    play_half_open(servers)
    for (server, _, process), held in zip(servers, before):
        if memory_of(process) > held + SLACK:
            print(f"{server}: {memory_of(process)} KiB after {ROUNDS} rounds, and {held} before them")


main(sys.argv[1:])

"""Shows how commands end when their environment fails, what they print, and what they request from an upstream.

Arguments: the program, a port for it to listen at, and a port for its upstream. Prints each difference from the expected result. An
input fails after a prefix of its bytes, an output fails past a size limit, and connections and upstreams follow the tables below.
"""
import itertools
import json
import re
import resource
import socket
import subprocess
import sys
import tempfile
import threading
from concurrent.futures import ThreadPoolExecutor

from wire import HEALTH, Upstream, connect, message_of, reply_of, request, rest_of, within

PROGRAM, PORT, UPSTREAM_PORT = sys.argv[1], int(sys.argv[2]), int(sys.argv[3])
UPSTREAM = f"127.0.0.1:{UPSTREAM_PORT}"
DONE, BAD_WORDS, REFUSED, READ_FAULT, WRITE_FAULT, DOOR_FAULT = 0, 2, 3, 4, 5, 7


def check(name, is_as, found):
    if found != is_as:
        print(f"{name}: expected {is_as}, got {found}")


# ---- a program between an input and an output


def failing_after(front):
    """An input that yields these bytes and then fails: one end of a socket pair, whose other end is closed with bytes unread."""
    given, other = socket.socketpair()
    given.send(b"unread")
    other.sendall(front)
    other.close()
    return given


def in_pieces(text, most):
    """An input that yields at most `most` bytes per read, and then its end."""
    given, other = socket.socketpair(socket.AF_UNIX, socket.SOCK_SEQPACKET)

    def send():
        with other:
            for at in range(0, len(text), most):
                other.send(text[at : at + most])

    threading.Thread(target=send, daemon=True).start()
    return given


def whole(text):
    given = tempfile.TemporaryFile()
    given.write(text)
    given.seek(0)
    return given


class Run:
    """The program with an input, and an output that holds at most `room` bytes. Writes past that limit fail."""

    def __init__(self, words, source, room=1_000_000):
        self.printed = tempfile.TemporaryFile()
        with source:
            self.process = subprocess.Popen(
                [PROGRAM, *words], stdin=source, stdout=self.printed, stderr=subprocess.DEVNULL, restore_signals=False,
                preexec_fn=lambda: resource.setrlimit(resource.RLIMIT_FSIZE, (room, room)))

    def ended(self):
        """Waits for the end. Returns the output and the status."""
        status = self.process.wait(timeout=60)
        self.printed.seek(0)
        return self.printed.read(), status

    def lives(self):
        return self.process.poll() is None


def ran(words, source, room=1_000_000):
    return Run(words, source, room).ended()


def each_cutting(words, text, printed, status):
    for most in [1, 7, 83, 4_096]:
        check(f"{words}, {most} bytes a read", (printed, status), ran(words, in_pieces(text, most)))


def each_failing_read(words, text, printed_of):
    """Runs the program once for each prefix of a text, on an input that fails after that prefix."""
    def one(count):
        return ran(words, failing_after(text[:count]))

    with ThreadPoolExecutor(4) as runs:
        for count, found in enumerate(runs.map(one, range(len(text) + 1))):
            check(f"{words}, a read that fails after {count} bytes", (printed_of(text[:count]), READ_FAULT), found)


def each_failing_write(words, text, printed, status):
    """Runs the program once for each proper prefix of its output, with room for just that prefix, and once with room for all."""
    def one(room):
        return ran(words, whole(text), room)

    with ThreadPoolExecutor(4) as runs:
        for room, found in enumerate(runs.map(one, range(len(printed)))):
            check(f"{words}, room for {room} bytes", (printed[:room], WRITE_FAULT), found)
    check(f"{words}, room for all", (printed, status), ran(words, whole(text), len(printed)))


LINES = (b'{"op":"tokens","tokens":[{"token":"*:dev.s1","type":"frontend","projects":["*"]}]}\n'
         b'{"op":"batch","environment":"dev","batch":{"events":[{"type":"hydration","eventId":1,"features":['
         b'{"name":"a","enabled":true,"strategies":[{"name":"default"}]}],"segments":[]}]}}\n'
         b'{"op":"ask","token":"*:dev.s1","target":"/api/frontend","now":0,"word":0}\n')
A_IS_ON = (b'{"toggles":[{"enabled":true,"impressionData":false,"name":"a","variant":{"enabled":false,"feature_enabled":true,'
           b'"name":"disabled"}}]}')
ANSWERS = (b'1: tokens generation 1 front 1\n2: apply number 1 front 2\n3: front 2 status 200 tag - body ' + A_IS_ON + b'\n')
NO_LINE = b'refused: line 4: NotJson\n'
TESTS = b'{"state":{},"tests":[{"toggleName":"a","expectedResult":true}]}'
REPORT = b'fail 1 "" expected true given false\npassed 0 failed 1\n'
ABSENT = b'{"state":{},"feature":"z"}'


def answered_of(front):
    """The answers to the complete lines in a prefix of LINES."""
    return b"".join(ANSWERS.splitlines(keepends=True)[: front.count(b"\n")])


def play_inputs():
    nothing = lambda front: b""
    each_cutting(["replay"], LINES, ANSWERS, DONE)
    each_failing_read(["replay"], LINES, answered_of)
    each_failing_write(["replay"], LINES, ANSWERS, DONE)
    each_failing_write(["replay"], LINES + b"{\n", ANSWERS + NO_LINE, REFUSED)
    each_cutting(["check"], TESTS, REPORT, 1)
    each_failing_read(["check"], TESTS, nothing)
    each_failing_write(["check"], TESTS, REPORT, 1)
    each_failing_write(["check"], b"{", b"refused: NotJson\n", REFUSED)
    each_cutting(["explain"], ABSENT, b"null\n", DONE)
    each_failing_read(["explain"], ABSENT, nothing)
    each_failing_write(["explain"], ABSENT, b"null\n", DONE)
    each_failing_write(["explain"], b"", b"refused: NotJson\n", REFUSED)
    each_failing_write(["other"], b"", b"unl_edge: bad words\n", BAD_WORDS)
    load = ["load", "--seed", "1", "--count", "1"]
    each_failing_write(load, b"", ran(load, whole(b""))[0], DONE)


# ---- segments that are inlined for an older client

# Rows: for each of two strategies, the number of its own constraints and the ids of its segments; then the number of constraints of the
# segment 7, the only one there is; then whether each strategy has at most 100 constraints after inlining. A segment counts each time that
# its id is named, and an id without a segment counts as one constraint.
WRITTEN_OUT = [
    ((59, [7]), (0, []), 41, True),
    ((60, [7]), (0, []), 41, False),
    ((100, [7]), (100, []), 0, True),
    ((99, [8]), (99, [9]), 0, True),
    ((100, [8]), (100, [9, 9]), 0, False),
    ((20, [7, 7]), (0, [7, 8]), 40, True),
    ((21, [7, 7]), (0, [7, 7, 7]), 40, False),
    ((20, [7, 7]), (0, [7, 8, 7, 7]), 40, False),
]


def constraints(count):
    return [{"contextName": "c", "operator": "IN"}] * count


def strategy(own, ids=()):
    return {"name": "s", "constraints": constraints(own), "segments": list(ids)}


def play_segments():
    for one, other, shared, fits in WRITTEN_OUT:
        features = [{"name": "b", "enabled": True, "strategies": [strategy(*other)]},
                    {"name": "a", "enabled": True, "strategies": [strategy(0), strategy(*one)]}]
        state = {"type": "hydration", "eventId": 1, "features": features, "segments": [{"id": 7, "constraints": constraints(shared)}]}
        lines = [{"op": "tokens", "tokens": [{"token": "*:dev.c", "type": "client"}]},
                 {"op": "batch", "environment": "dev", "batch": {"events": [state]}},
                 {"op": "ask", "target": "/api/client/features", "token": "*:dev.c", "spec": "4.1.9"}]
        printed, status = ran(["replay"], whole("\n".join(map(json.dumps, lines)).encode()))
        told = b"3: front 2 status 200 " if fits else b'3: front 2 status 503 tag - body {"error":"TooManyConstraints"}\n'
        check(f"{one} {other} {shared}", (True, DONE), (printed.splitlines(keepends=True)[2].startswith(told), status))


# ---- an upstream, at a port

OF_UPSTREAM = ["upstream", "--port", str(PORT), "--secret", "s", "--environments", "dev", "--client-tokens", "*:dev.c",
               "--frontend-tokens", "*:dev.f"]
PUT_A = b'{"command":"put-feature","environment":"dev","feature":{"name":"a","enabled":true,"strategies":[{"name":"default"}]}}\n'
TOGGLES = request(b"/api/frontend", b"*:dev.f")
TWO = b"connections 2\n"


def asked(run, text):
    """Sends a request on a new connection, once the program listens. Returns the reply. The request asks the program to close the
    connection, which then counts once. One that stays open counts again if it pauses before its client ends it."""
    line, rest = text.split(b"\r\n", 1)
    with within(lambda: connect(PORT), run.lives) as link:
        link.sendall(line + b"\r\nConnection: close\r\n" + rest)
        return reply_of(link)


def served(words, source, room=1_000_000):
    """Requests the toggles on two connections. Returns both reply bodies, the program's output and its status."""
    run = Run([*words, "--connections", "2"], source, room)
    replies = [asked(run, TOGGLES)[1] for _ in range(2)]
    return replies, *run.ended()


NONE = b'{"toggles":[]}'


def play_upstreams():
    check("an upstream", ([NONE, NONE], TWO, DONE), served(OF_UPSTREAM, whole(b"")))
    check("an upstream of a line", ([A_IS_ON, A_IS_ON], TWO, DONE), served(OF_UPSTREAM, whole(PUT_A)))
    each_failing_read(OF_UPSTREAM, PUT_A, lambda front: b"")
    each_failing_write(OF_UPSTREAM, b"{}\n", b"refused: line 1: Missing command\n", REFUSED)
    for room in [0, len(TWO) - 1]:
        found = served(OF_UPSTREAM, whole(PUT_A), room)
        check("an upstream whose output fails", ([A_IS_ON, A_IS_ON], TWO[:room], WRITE_FAULT), found)
    with socket.create_server(("", PORT)):
        check("an upstream at a taken port", (b"", DOOR_FAULT), ran(OF_UPSTREAM, whole(PUT_A)))


# ---- commands and other requests on one connection, in sequence

CLIENT, FRONT = b"*:dev.c", b"*:dev.f"
PUT_IN_A = b'{"command":"put-feature","environment":"dev","feature":{"name":"a","project":"A","enabled":true}}'
REMOVE_A = b'{"command":"remove-feature","environment":"dev","name":"a"}'
REMOVE_7 = b'{"command":"remove-segment","environment":"dev","id":7}'
SEGMENT_4 = b'{"constraints":[],"id":4}'


def put_segment(of):
    return b'{"command":"put-segment","environment":"dev","segment":{"id":%d}}' % of


PUT_4 = put_segment(4)


def error(name):
    return b'{"error":"%s"}' % name


def number(count):
    return b'{"number":%d}' % count


def feed(count, segments):
    """A feed without features. Its tag begins with a random number, which is left out and not compared."""
    return (b'{"features":[],"meta":{"etag":"\\"-1-0-%d\\"","revisionId":%d},"query":{"environment":"dev","projects":["*"]},'
            b'"segments":[%s],"version":2}' % (count, count, segments))


def command(text, token=b"s"):
    return request(b"/commands", token, text)


# requests, with the status and the body of the reply
ASKED = [
    (request(b"/commands"), 405, error(b"BadMethod")),
    (request(b"/commands?x", body=b"{}"), 401, error(b"NoToken")),
    (command(b"{}", CLIENT), 403, error(b"UnknownToken")),
    (command(b'{"command":"put"}'), 400, error(b"BadBody")),
    (command(b"{"), 400, error(b"BadBody")),
    (request(b"/api/client/features", CLIENT), 200, feed(0, b"")),
    (command(PUT_IN_A), 200, number(1)),
    (request(b"/api/frontend", FRONT), 200, A_IS_ON),
    (command(REMOVE_A), 200, number(2)),
    (command(REMOVE_A), 404, error(b"NoSuchFeature")),
    (command(REMOVE_A.replace(b"dev", b"qa")), 404, error(b"NoSuchEnvironment")),
    (command(REMOVE_7), 404, error(b"NoSuchSegment")),
    (command(PUT_4), 200, number(3)),
    (request(b"/api/client/features", CLIENT), 200, feed(3, SEGMENT_4)),
    (request(b"/api/client/delta", CLIENT), 200,
     b'{"events":[{"eventId":3,"features":[],"segments":[%s],"type":"hydration"}]}' % SEGMENT_4),
]
HEALTHY = b'{"status":"OK"}'
AT_ONCE = command(PUT_4) + command(REMOVE_7) + HEALTH
REPLIES = b"".join(
    b"HTTP/1.1 %s\r\nContent-Type: application/json\r\nContent-Length: %d\r\n\r\n%s" % (status, len(body), body)
    for status, body in [(b"200 OK", number(1)), (b"404 Not Found", error(b"NoSuchSegment")), (b"200 OK", HEALTHY)])


def play_commands():
    run = Run([*OF_UPSTREAM, "--connections", "1"], whole(b""))
    with within(lambda: connect(PORT), run.lives) as link:
        for asked_for, status, body in ASKED:
            link.sendall(asked_for)
            head, found = message_of(link)
            check(f"{asked_for}", (status, body), (int(head[9:12] or 0), re.sub(rb'\\"[0-9a-f]{16}-', rb'\\"-', found)))
            check(f"{asked_for}, the Allow header", status == 405, b"\r\nAllow: POST\r\n" in head)
    check("an upstream of one link", (b"connections 1\n", DONE), run.ended())
    run = Run([*OF_UPSTREAM, "--connections", "1"], whole(b""))
    with within(lambda: connect(PORT), run.lives) as link:
        link.sendall(AT_ONCE)
        link.shutdown(socket.SHUT_WR)
        check("commands at once", REPLIES, rest_of(link))
    check("an upstream of commands at once", (b"connections 1\n", DONE), run.ended())


def play_most_segments():
    """Checks that an environment with the maximum number of segments refuses another one, and accepts one of them again."""
    run = Run([*OF_UPSTREAM, "--connections", "1"], whole(b"".join(put_segment(of) + b"\n" for of in range(1_000))))
    with within(lambda: connect(PORT), run.lives) as link:
        for of, status, body in [(1_000, 409, error(b"TooMany")), (999, 200, number(1_001))]:
            link.sendall(command(put_segment(of)))
            check(f"the segment {of}", (status, body), reply_of(link))
    check("an upstream of a thousand segments", (b"connections 1\n", DONE), run.ended())


# ---- an edge behind an upstream with scripted replies


def reply(body, status=b"200 OK", fields=b""):
    return b"HTTP/1.1 %s\r\n%s\r\n%s" % (status, fields, body)


def hydration(number, features, fields=b""):
    return reply(b'{"events":[{"type":"hydration","eventId":%d,"features":[%s]}]}' % (number, features), fields=fields)


BOOK = reply(b'{"tokens":[{"token":"*:dev.f","type":"frontend","projects":["*"]}]}')
CLIENT_BOOK = reply(b'{"tokens":[{"token":"*:dev.c","type":"client","projects":["*"]}]}')
ON = b'{"name":"a","enabled":true}'
OFF = b'{"name":"a","enabled":false}'
FEED = reply(b'{"features":[%s],"meta":{"revisionId":5}}' % ON)
TAKEN = reply(b"", b"202 Accepted", b"Content-Length: 0\r\n")


def of_edge(*more, tokens="*:dev.f"):
    return ["edge", "--port", str(PORT), "--upstream", UPSTREAM, "--upstream-tokens", "*:dev.c", "--tokens", tokens,
            "--interval", "1", *more]


BUSY = reply(b"", b"503 Service Unavailable")


def replies_by_path(states, books=(), bulks=()):
    """An upstream's replies, by the path of the request. Token books, states and replies to metrics are sent in sequence. After the
    last one, the book is BOOK, the last state is repeated, and metrics are accepted."""
    coming, of_books, of_bulks = iter(states), iter(books), iter(bulks)
    last = None

    def reply_to(asked_for):
        nonlocal last
        if asked_for.startswith(b"POST /edge/validate "):
            return next(of_books, BOOK)
        if asked_for.startswith(b"POST /api/client/metrics/bulk "):
            return next(of_bulks, TAKEN)
        last = next(coming, last)
        return last
    return reply_to


def head_of(method, path):
    return b"%s %s HTTP/1.0\r\nHost: %s\r\n" % (method, path, UPSTREAM.encode())


def play_edges():
    for words, state, path in [([], hydration(5, ON), b"/api/client/delta"), (["--mode", "feed"], FEED, b"/api/client/features")]:
        with Upstream(UPSTREAM_PORT, replies_by_path([state])) as upstream:
            check("an edge", ([A_IS_ON, A_IS_ON], TWO, DONE), served(of_edge(*words), whole(b"")))
            heads = [head_of(b"POST", b"/edge/validate"), head_of(b"GET", path) + b"Authorization: *:dev.c\r\n"]
            check("what an edge asks", True, all(map(bytes.startswith, upstream.asked, heads)))
    with Upstream(UPSTREAM_PORT, replies_by_path([hydration(5, ON)])):
        for room in [0, len(TWO) - 1]:
            found = served(of_edge(), whole(b""), room)
            check("an edge whose output fails", ([A_IS_ON, A_IS_ON], TWO[:room], WRITE_FAULT), found)
    # an upstream that has no state yet
    with Upstream(UPSTREAM_PORT, replies_by_path([BUSY])):
        found = served(of_edge(), whole(b""))
        check("an edge behind an upstream that has nothing", ([b'{"error":"NotReady"}'] * 2, TWO, DONE), found)
    with socket.create_server(("", PORT)):
        check("an edge at a taken port", (b"", DOOR_FAULT), ran(of_edge(), whole(b"")))


# features by name, with the host names in their strategy; the strategy of the third one has no such parameter
HOSTS = {b"a": "db.local, WEB.LOCAL", b"b": "db.local,web.local.org", b"c": None, b"d": "", b"e": "db.local,, Web.Local"}
ON_HOSTS = [("Web.local", [b"a", b"e"]), ("wEB.local", [b"a", b"e"]), ("web.local.org", [b"b"]), ("web.loca", []), (None, [])]


def play_hosts():
    def of_host(name, hosts):
        parameters = {} if hosts is None else {"hostNames": hosts}
        strategies = [{"name": "applicationHostname", "parameters": parameters}]
        return json.dumps({"name": name.decode(), "enabled": True, "strategies": strategies}).encode()

    state = hydration(5, b",".join(of_host(*feature) for feature in HOSTS.items()))
    for host, on in ON_HOSTS:
        with Upstream(UPSTREAM_PORT, replies_by_path([state])):
            replies, *_ = served(of_edge(*(["--host", host] if host else [])), whole(b""))
        check(f"the host {host}", [on] * 2, [re.findall(rb'"name":"([a-e])"', reply) for reply in replies])


# the headers that an SDK sends besides its token and its tag
OF_SDK = (b"User-Agent: shop\r\nUNLEASH-APPNAME: shop\r\nUNLEASH-INSTANCEID: i-1\r\nUnleash-Client-Spec: 5.1.0\r\n"
          b"Accept-Encoding: gzip, deflate\r\nConnection: keep-alive\r\n")


def play_polls():
    """Checks that polls of an unchanged state are answered with 304, also if their bytes arrive in pieces."""
    # the book is the same in each turn, so that it doesn't matter how many turns are made meanwhile
    with Upstream(UPSTREAM_PORT, replies_by_path([hydration(5, ON)], itertools.repeat(CLIENT_BOOK))):
        run = Run(of_edge("--connections", "1", tokens="*:dev.c"), whole(b""))
        with within(lambda: connect(PORT), run.lives) as link:
            link.sendall(request(b"/api/client/features", CLIENT))
            head, _ = message_of(link)
            tag = re.search(rb"ETag: (.*)\r\n", head)[1]
            poll = request(b"/api/client/features", CLIENT, fields=OF_SDK + b"If-None-Match: %s\r\n" % tag)
            for most in [1, 64, 4_096]:
                for at in range(0, len(poll), most):
                    link.sendall(poll[at : at + most])
                unchanged = b"HTTP/1.1 304 Not Modified\r\nETag: %s\r\n\r\n" % tag
                check(f"a poll, {most} bytes at once", unchanged, message_of(link)[0])
        check("an edge of polls", (b"connections 1\n", DONE), run.ended())


def play_waiting():
    """Checks connections of an edge whose upstream is unreachable: one that is served while another one is in the middle of a request, and
    100 connections, up to 16 at once, with 4 workers."""
    run = Run(of_edge("--connections", "2", "--workers", "2"), whole(b""))
    with within(lambda: connect(PORT), run.lives) as first:
        first.sendall(HEALTH[:20])
        check("a connection while another one waits", 200, asked(run, HEALTH)[0])
        first.sendall(HEALTH[20:])
        check("the connection that waited", 200, reply_of(first)[0])
    check("an edge of two links", (TWO, DONE), run.ended())

    run = Run(of_edge("--connections", "100", "--workers", "4"), whole(b""))
    with ThreadPoolExecutor(16) as clients:
        found = list(clients.map(lambda _: asked(run, HEALTH)[0], range(100)))
    check("a hundred links", [200] * 100, found)
    check("an edge of a hundred links", (b"connections 100\n", DONE), run.ended())


REPORT_OF_A = (b'{"appName":"shop","bucket":{"start":"2024-01-01T10:05:00Z","toggles":{"a":{"yes":2,"no":1,"variants":{}}}}}')


def play_turns():
    """Keeps a connection open over several turns. Once the feature was seen to be off, a turn gets no token book, and turns the
    feature on. The next turn gets an unreadable token book. Another connection sends metrics. A turn sends them to the upstream, which
    refuses them once, so the next turn sends them again."""
    was_off, had_no_book = threading.Event(), threading.Event()

    def books():
        while not was_off.is_set():
            yield BOOK
        had_no_book.set()
        yield BUSY
        yield reply(b"[]")

    def states():
        while not had_no_book.is_set():
            yield hydration(5, OFF)
        yield hydration(6, ON)

    with Upstream(UPSTREAM_PORT, replies_by_path(states(), books(), [BUSY])) as upstream:
        run = Run(of_edge("--connections", "3", "--workers", "2"), whole(b""))
        with within(lambda: connect(PORT), run.lives) as kept:
            kept.sendall(TOGGLES)
            check("before the turn", (200, NONE), reply_of(kept))
            was_off.set()
            check("the same link, after the turn", True, within(lambda: shows(kept, A_IS_ON), run.lives))
            report = request(b"/api/frontend/client/metrics", b"*:dev.f", REPORT_OF_A, b"Content-Type: application/json\r\n")
            check("a report", 202, asked(run, report)[0])
            told = within(lambda: told_of(upstream, 2), run.lives) or [b""]
            check("the metrics sent to the upstream", True, b'"featureName":"a","no":1,' in told[0] and b'"yes":2' in told[0])
            check("the metrics sent again", [told[0]] * 2, told)
        check("a link after the turns", 200, asked(run, HEALTH)[0])
        # the kept connection counts again each time it continues after a moment without a request
        printed, status = run.ended()
        check("an edge over turns", (True, DONE), (int(printed.removeprefix(b"connections ")) >= 3, status))
        check("metrics sent a third time", None, told_of(upstream, 3))


def shows(link, toggles):
    """Requests the toggles on a connection. True if the reply has these toggles, else None."""
    link.sendall(TOGGLES)
    return reply_of(link) == (200, toggles) or None


def told_of(upstream, count):
    """The metrics requests that an upstream received, or None if there are fewer than `count`."""
    told = [text for text in upstream.asked if text.startswith(b"POST /api/client/metrics/bulk ")]
    return told if len(told) >= count else None


# ---- `follow` behind an upstream with scripted replies

TAG = b'ETag: "t"\r\n'
FOR_7 = b'{"name":"a","enabled":true,"strategies":[{"name":"userWithId","parameters":{"userIds":"7"}}]}'
ON_AT_5 = hydration(5, ON, TAG)
FOR_7_AT_5 = hydration(5, FOR_7, TAG)
SAME = reply(b"", b"304 Not Modified")
OFF_AT_6 = reply(b'{"after":5,"events":[{"type":"feature-updated","eventId":6,"feature":%s}]}' % OFF)
FROM_8 = reply(b'{"after":8,"events":[{"type":"segment-removed","eventId":9,"segmentId":1}]}')
EPOCH_2 = reply(b'{"epoch":2,"events":[{"type":"hydration","eventId":1,"features":[%s]}]}' % ON)
BAD = reply(b"{}")
SHORT = reply(b'{"events":[', fields=b"Content-Length: 46\r\n")

# further arguments, the replies (None resets the connection), and the expected output
TURNS = [
    (["--context", "userId=7"], [FOR_7_AT_5, SAME, OFF_AT_6],
     b"turn 1 published number 5 on true\nturn 2 unchanged number 5 on true\nturn 3 published number 6 on false\n"),
    (["--context", "userId=8"], [FOR_7_AT_5], b"turn 1 published number 5 on false\n"),
    ([], [None, BUSY], b"turn 1 fault number - on -\nturn 2 refused 503 number - on -\n"),
    (["--mode", "feed"], [FEED], b"turn 1 published number 5 on true\n"),
    ([], [ON_AT_5, FROM_8, OFF_AT_6],
     b"turn 1 published number 5 on true\nturn 2 gap number 5 on true\nturn 3 held number 5 on true\n"),
    ([], [ON_AT_5, ON_AT_5, hydration(4, ON)],
     b"turn 1 published number 5 on true\nturn 2 repeat number 5 on true\nturn 3 old number 5 on true\n"),
    ([], [EPOCH_2, BAD], b"turn 1 published number 2.1 on true\nturn 2 bad number 2.1 on true\n"),
    (["--feature", "b"], [ON_AT_5, ON_AT_5], b"turn 1 published number 5 on -\nturn 2 repeat number 5 on -\n"),
]


def of_follow(turns, *more):
    feature = [] if "--feature" in more else ["--feature", "a"]
    return ["follow", "--upstream", UPSTREAM, "--token", "*:dev.c", "--interval", "1", "--turns", str(turns), *feature, *more]


def followed(words, replies, room=1_000_000):
    coming = iter(replies)
    with Upstream(UPSTREAM_PORT, lambda _: next(coming, None)) as upstream:
        return ran(words, whole(b""), room), upstream.asked


def play_turns_of_follow():
    for more, replies, printed in TURNS:
        found, _ = followed(of_follow(len(replies), *more), replies)
        check(f"{more}, {len(replies)} turns", (printed, DONE), found)
    # a request has a tag only if the follower has a state and the turn before didn't fail
    _, texts = followed(of_follow(3), [ON_AT_5, SAME, SAME])
    first = head_of(b"GET", b"/api/client/delta") + b"Authorization: *:dev.c\r\n"
    second = first + b'If-None-Match: "t"\r\n'
    close = b"Connection: close\r\n\r\n"
    check("the requests of a follower", [first + close, second + close, second + close], texts)
    for reply_to_second in [None, SHORT]:
        _, texts = followed(of_follow(3), [ON_AT_5, reply_to_second, SAME])
        check("the requests after a fault", [first + close, second + close, first + close], texts)
    printed = b"turn 1 published number 5 on true\n"
    for room in [0, len(printed) - 1]:
        found, _ = followed(of_follow(1), [ON_AT_5], room)
        check(f"a follower with room for {room} bytes", (printed[:room], WRITE_FAULT), found)


# ---- arguments that are hard to pass from a shell, and long ones

OF_EDGE = ["edge", "--port", str(PORT), "--upstream", UPSTREAM, "--upstream-tokens", "*:dev.s", "--tokens"]
OF_FOLLOW = ["follow", "--upstream", UPSTREAM, "--token", "*:dev.s", "--feature", "f"]
OF_UPSTREAM_AT = ["upstream", "--port", str(PORT), "--secret", "s", "--environments"]
AWAY = b"turn 1 fault number - on -\n"

# arguments, and the status: accepted arguments fail at a port that is taken, or at an upstream that isn't there
WORDS = [
    ([*OF_EDGE, "a:dev.s\ns"], BAD_WORDS),
    ([*OF_EDGE, "a:dev.s", "--host", "a\nb"], BAD_WORDS),
    (["edge", "--upstream", "u\rp:1", "--upstream-tokens", "*:dev.s", "--tokens", "a:dev.s"], BAD_WORDS),
    (["upstream", "--secret", "a\nb", "--environments", "dev"], BAD_WORDS),
    (["follow", "--upstream", UPSTREAM, "--token", "*:dev.s\n", "--feature", "f"], BAD_WORDS),
    ([*OF_EDGE, "a:d." + "x" * 508], DOOR_FAULT),
    ([*OF_EDGE, "a:d." + "x" * 509], BAD_WORDS),
    ([*OF_UPSTREAM_AT, "x" * 255], DOOR_FAULT),
    ([*OF_UPSTREAM_AT, "x" * 256], BAD_WORDS),
    ([*OF_FOLLOW, "--context", "userId=" + "x" * 4_096], DONE),
    ([*OF_FOLLOW, "--context", "userId=" + "x" * 4_097], BAD_WORDS),
]


def play_words():
    printed = {BAD_WORDS: b"unl_edge: bad words\n", DOOR_FAULT: b"", DONE: AWAY}
    with socket.create_server(("", PORT)):
        for words, status in WORDS:
            check(f"{words}", (printed[status], status), ran(words, whole(b"")))


# ---- replies of an upstream, whole and in pieces

BATCH = b'{"events":[{"type":"hydration","eventId":5,"features":[%s]}]}' % ON
LENGTH = b"Content-Length: %d\r\n" % len(BATCH)
PUBLISHED, UNCHANGED, NOT_READ = b"published number 5 on true", b"unchanged number - on -", b"bad number - on -"
OK = b"HTTP/1.1 200 OK\r\n"
FIELD = b"HTTP/1.1 200 OK\r\na: "
MOST = 16_777_216

# replies, and what a turn prints for them; the last four rows are at the limits of a head, and just past them
REPLIES_READ = [
    (OK + LENGTH + b"\r\n" + BATCH, PUBLISHED),
    (OK + LENGTH + b"\r\n" + BATCH + b"more", PUBLISHED),
    (OK + b"Content-Length: %019d\r\n\r\n" % len(BATCH) + BATCH + b"more", PUBLISHED),
    (b"HTTP/1.0 404\n\nabc", b"refused 404 number - on -"),
    (b"\r\n" + OK + b'ETag: "a"\r\netag: "b"\r\n\r\n' + BATCH, PUBLISHED),
    (OK + b'X: y\r\neTAG:  W/"a b" \r\n\r\n' + BATCH, PUBLISHED),
    (OK + b"ETag:\r\n\r\n" + BATCH, PUBLISHED),
    (b"HTTP/1.1 304 Not Modified\r\nContent-Length: 3\r\nETag: x\r\n\r\n", UNCHANGED),
    (b"HTTP/1.1 304 Not Modified\r\nContent-Length: 9999999999999999999\r\n\r\nabc", UNCHANGED),
    (OK + LENGTH + b"\r\n" + BATCH[:-1], NOT_READ),
    (OK + b"Content-Length: 9999999999999999999\r\n\r\n" + BATCH, NOT_READ),
    (b"HTTP/2.0 200 OK\r\n\r\n" + BATCH, NOT_READ),
    (b"HTTP/1.1 20 OK\r\n\r\n" + BATCH, NOT_READ),
    (OK + b"ETag : x\r\n\r\n" + BATCH, NOT_READ),
    (OK + b"transfer-encoding: identity\r\n\r\n" + BATCH, NOT_READ),
    (b"HTTP/1.1 304 Not Modified\r\nTransfer-Encoding: chunked\r\n\r\n", NOT_READ),
    (OK + LENGTH + LENGTH.lower() + b"\r\n" + BATCH, NOT_READ),
    (OK + LENGTH.replace(b": ", b": +") + b"\r\n" + BATCH, NOT_READ),
    (b"HTTP/1.1 304 Not Modified\r\nContent-Length:\r\n\r\n", NOT_READ),
    (OK + b"Content-Length: %020d\r\n\r\n" % len(BATCH) + BATCH, NOT_READ),
    (OK + b"a: b\r\n" * 64 + b"\r\n" + BATCH, PUBLISHED),
    (OK + b"a: b\r\n" * 65 + b"\r\n" + BATCH, NOT_READ),
    (FIELD + b"b" * 8_168 + b"\r\n\r\n" + BATCH, PUBLISHED),
    (FIELD + b"b" * 8_169 + b"\r\n\r\n" + BATCH, NOT_READ),
]

# replies with long bodies, each sent in one piece
LONG_REPLIES = [
    (OK + b"\r\n" + BATCH.ljust(MOST), PUBLISHED),
    (OK + b"Content-Length: %d\r\n\r\n" % MOST + BATCH.ljust(MOST) + b"a", PUBLISHED),
    (OK + b"\r\n" + BATCH.ljust(MOST + 1), NOT_READ),
    (OK + b"Content-Length: %d\r\n\r\n" % (MOST + 1) + BATCH, NOT_READ),
]


def turn_of(text, most):
    """Runs one turn with a reply that arrives in pieces of at most `most` bytes. Returns the output and the status."""
    pieces = [text[at : at + most] for at in range(0, len(text), most)]
    with Upstream(UPSTREAM_PORT, lambda _: pieces):
        return ran(of_follow(1), whole(b""))


def play_replies():
    for text, told in REPLIES_READ:
        for most in [7, 100_000] if len(text) < 300 else [100_000]:
            check(f"{text[:99]}, {most} at once", (b"turn 1 %s\n" % told, DONE), turn_of(text, most))
    # each proper prefix of a reply
    text = OK + LENGTH + b"\r\n" + BATCH
    for count in range(1, len(text)):
        check(f"{count} bytes of a reply", (b"turn 1 %s\n" % NOT_READ, DONE), turn_of(text[:count], count))
    for text, told in LONG_REPLIES:
        check(f"{text[:99]}", (b"turn 1 %s\n" % told, DONE), turn_of(text, len(text)))


def main():
    play_words()
    play_inputs()
    play_segments()
    play_upstreams()
    play_commands()
    play_most_segments()
    play_edges()
    play_hosts()
    play_polls()
    play_waiting()
    play_turns()
    play_turns_of_follow()
    play_replies()


main()

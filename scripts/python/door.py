"""Shows that slow clients don't delay others: a well-behaved client waits at most 2 seconds, whatever else is connected.

A play is one scenario of slow clients. One late answer fails it, unless the machine stalled. To tell the two apart, a control runs
concurrently with all plays: a plain server in a process of its own, which a client polls all the time. A late answer is no fault only
if an answer of the control was late at the same time. If that holds for all late answers of a play, the play is repeated, and the last
line says so.

Arguments: the port of an upstream and the id of the process that started it, the same for an edge behind it with 4 workers, the
program, and, if a C compiler is there, failing_door.c as a library. Prints each fault, and in the last line the times of the slowest
answers. The tokens are `*:dev.client` and `*:dev.front`. With the single argument `control` this script is the control's plain server,
and prints its port.
"""
import asyncio
import http.client
import http.server
import os
import signal
import socket
import socketserver
import subprocess
import sys
import threading
import time

import door_end
from wire import HEALTH, answered, connect, reply_of, request, started_by, within

# the limit for an answer, in seconds
SOON = 2.0
# how long each kind of slow client stays connected, in seconds
EACH = 5.0
# the time after which a client stops waiting for an answer, in seconds
GIVES_UP = 10
# how often a play is made at most, if the machine stalls each time
MOST_PLAYS = 10
# the time limit for an answer of the control, in seconds: if the machine stalls for longer, the control fails and so does the test
MOST_STALL = 120
IDLE = 2_000
SESSIONS, REQUESTS, ONE_WAY = 25, 200, 0.02
FEED = request(b"/api/client/features", b"*:dev.client")
REPORT = request(b"/edge/validate", body=b'{"tokens":["*:dev.client"]}')
notes, waits, repeated = [], [0.0], []


class Plain(http.server.BaseHTTPRequestHandler):
    """The plain server of the control: a thread for each connection, and an answer to each request."""
    protocol_version = "HTTP/1.1"

    def do_GET(self):
        self.send_response(200)
        self.send_header("Content-Length", "0")
        self.end_headers()

    def log_message(self, *_):
        pass


def serve_plainly():
    server = socketserver.ThreadingTCPServer(("127.0.0.1", 0), Plain)
    server.daemon_threads = True
    print(server.server_address[1], flush=True)
    server.serve_forever()


def asked_twice(kept, port, timeout):
    """Sends a health request on a kept connection, and then one on a new connection. Returns the statuses of the replies."""
    kept.sendall(HEALTH)
    return [reply_of(kept)[0], *answered(port, HEALTH, timeout=timeout)]


class Control(threading.Thread):
    """Starts a plain server in a process of its own, and polls it just as the tested servers are polled. Notes when answers were late: not
    there `soon` seconds after the one before. The pause between two polls counts, so that no stall of this process goes unnoticed."""

    def __init__(self, soon=SOON):
        super().__init__(daemon=True)
        self.soon = soon
        self.over = threading.Event()
        self.server = subprocess.Popen([sys.executable, __file__, "control"], stdout=subprocess.PIPE)
        self.port = int(self.server.stdout.readline())
        self.slowest = 0.0
        # for each answer that was late, the time of the answer before and its own
        self.late = []
        # the time of the last answer
        self.begun = time.monotonic()

    def run(self):
        kept = connect(self.port, MOST_STALL)
        while not self.over.wait(0.05):
            asked = time.monotonic()
            found = asked_twice(kept, self.port, MOST_STALL)
            ended = time.monotonic()
            assert found == [200, 200]
            self.slowest = max(self.slowest, ended - asked)
            if ended - self.begun > self.soon:
                self.late.append((self.begun, ended))
            self.begun = ended

    def stop(self):
        """Ends the polls and then the server, so that no poll fails."""
        self.over.set()
        self.join()
        self.server.kill()

    def was_late(self, begun, ended):
        """Whether an answer of the control was late at some time between these two. Waits for an answer after `ended`."""
        while self.is_alive() and self.begun <= ended:
            time.sleep(0.01)
        return any(first < ended and begun < last for first, last in self.late)


control = None


def poll(port, until, late):
    """Polls the port until the time `until`. Appends each poll to `late` that is late or not answered with 200: begin, end, description."""
    kept = connect(port)
    while time.monotonic() < until:
        begun = time.monotonic()
        try:
            found = asked_twice(kept, port, GIVES_UP)
        except OSError as fault:
            found = [fault]
            kept = connect(port)
        ended = time.monotonic()
        waits.append(ended - begun)
        if found != [200, 200] or ended - begun > SOON:
            late.append((begun, ended, f"{found} after {ended - begun:.2f} s"))
        time.sleep(0.05)
    kept.close()


def polled(port, links, step):
    """Polls the port while `step` is applied to each of the connections repeatedly. Returns the late answers, as `poll` notes them."""
    late = []
    until = time.monotonic() + EACH
    polling = threading.Thread(target=poll, args=(port, until, late))
    polling.start()
    while time.monotonic() < until:
        begun = time.monotonic()
        for link in links:
            try:
                step(link)
            except OSError:
                pass
        time.sleep(max(0.0, 0.2 - (time.monotonic() - begun)))
    polling.join()
    for link in links:
        link.close()
    return late


def judged(name, play):
    """Makes a play, which returns its late answers, and notes those that came while the control was in time. If there are late answers but
    none of these, the play is repeated, up to MOST_PLAYS times in all."""
    for _ in range(MOST_PLAYS):
        late = play()
        faults = [note for begun, ended, note in late if not control.was_late(begun, ended)]
        notes.extend(f"{name}: {note}" for note in faults)
        if faults or not late:
            return
        repeated.append(name)
    notes.append(f"{name}: the machine stalled in each of {MOST_PLAYS} plays")


def opened(port, count, text):
    links = [connect(port) for _ in range(count)]
    for link in links:
        link.sendall(text)
    return links


def slow_reader(port, text):
    link = socket.socket()
    link.setsockopt(socket.SOL_SOCKET, socket.SO_RCVBUF, 4_096)
    link.connect(("127.0.0.1", port))
    link.setblocking(False)
    try:
        link.send(text)
    except BlockingIOError:
        pass
    return link


def silent(link):
    """A step that sends nothing."""


def slow_clients(port):
    body = REPORT.replace(b"Content-Length: 27", b"Content-Length: 9000")
    head = b"GET / HTTP/1.1\r\nHost: h\r\nX: "
    readers = lambda: [slow_reader(port, FEED * 900) for _ in range(16)]
    rows = [
        ("slow heads", lambda: opened(port, 48, head), lambda link: link.send(b"y" * 8)),
        ("slow bodies", lambda: opened(port, 48, body), lambda link: link.send(b" " * 8)),
        ("slow readers", readers, lambda link: link.recv(64)),
        ("idle links", lambda: opened(port, IDLE // 2, HEALTH), silent),
    ]
    for name, links, step in rows:
        judged(f"{name} at port {port}", lambda: polled(port, links(), step))


def cut_at(port, at, text):
    """Sends three requests in two pieces, far enough apart that the worker returns the connection to the door in between."""
    try:
        found = answered(port, text[:at], text[at:], pause=0.04)
    except OSError as fault:
        found = fault
    if found != [200, 200, 200]:
        notes.append(f"port {port}: requests cut at {at}: {found}")


def cut_everywhere(port):
    text = HEALTH + REPORT + HEALTH
    for first in range(1, len(text), 16):
        cuts = [threading.Thread(target=cut_at, args=(port, at, text)) for at in range(first, min(first + 16, len(text)))]
        for cut in cuts:
            cut.start()
        for cut in cuts:
            cut.join()


class Delay:
    """A proxy to a port that delays each byte by ONE_WAY seconds."""

    def __init__(self, port):
        self.port = port
        self.connections = 0
        self.loop = asyncio.new_event_loop()
        self.at = asyncio.run_coroutine_threadsafe
        threading.Thread(target=self.loop.run_forever, daemon=True).start()
        server = self.at(asyncio.start_server(self.serve, "127.0.0.1", 0), self.loop).result()
        self.here = server.sockets[0].getsockname()[1]

    async def serve(self, reader, writer):
        self.connections += 1
        there, back = await asyncio.open_connection("127.0.0.1", self.port)
        await asyncio.gather(self.pass_on(reader, back), self.pass_on(there, writer))
        self.connections -= 1

    async def pass_on(self, reader, writer):
        try:
            while piece := await reader.read(65_536):
                self.loop.call_later(ONE_WAY, writer.write, piece)
        except ConnectionError:
            pass
        self.loop.call_later(ONE_WAY, writer.close)


def session(port, method, path, body, headers):
    """Sends REQUESTS requests on one kept connection, which is never reopened."""
    link = http.client.HTTPConnection("127.0.0.1", port, timeout=10)
    link.connect()
    link.auto_open = 0
    for number in range(REQUESTS):
        try:
            link.request(method, path, body, headers)
            reply = link.getresponse()
            reply.read()
            if reply.status != 200:
                notes.append(f"session at {path}: {reply.status}")
        except (OSError, http.client.HTTPException) as fault:
            notes.append(f"session at {path}: request {number}: {fault!r}")
            return
    link.close()


def sessions(port, method, path, body, headers):
    """Runs sessions with a round trip of 40 ms, many more than there are workers. No request fails."""
    proxy = Delay(port)
    running = [threading.Thread(target=session, args=(proxy.here, method, path, body, headers)) for _ in range(SESSIONS)]
    for one in running:
        one.start()
    for one in running:
        one.join()
    within(lambda: proxy.connections == 0)


def asked_once(port):
    """Sends a health request once the server listens. Returns a list: the answer as `poll` notes it if it is late or not 200."""
    within(lambda: connect(port).close() or True)
    begun = time.monotonic()
    try:
        found = answered(port, HEALTH, timeout=GIVES_UP)
    except OSError as fault:
        found = fault
    ended = time.monotonic()
    waits.append(ended - begun)
    in_time = found == [200] and ended - begun <= SOON
    return [] if in_time else [(begun, ended, f"{found} after {ended - begun:.2f} s")]


def full_log(program, port):
    """Checks that an edge answers although its error stream is a full pipe that nobody reads."""
    reading, writing = os.pipe()
    os.set_blocking(writing, False)
    try:
        while True:
            os.write(writing, b"x" * 4_096)
    except BlockingIOError:
        os.set_blocking(writing, True)
    words = ["edge", "--port", str(port), "--upstream", "127.0.0.1:1", "--upstream-tokens", "*:dev.c", "--tokens", "*:dev.c"]
    edge = subprocess.Popen([program, *words], stdin=subprocess.DEVNULL, stdout=subprocess.DEVNULL, stderr=writing)
    judged("an edge with a full log", lambda: asked_once(port))
    edge.kill()
    edge.wait()
    os.close(reading)
    os.close(writing)


class Trickling(threading.Thread):
    """An upstream that answers each request with an endless trickle, a byte every half second. Notes how long the client waits."""

    def __init__(self):
        super().__init__(daemon=True)
        self.listener = socket.create_server(("127.0.0.1", 0))
        self.port = self.listener.getsockname()[1]
        self.waited = []

    def run(self):
        while True:
            threading.Thread(target=self.give, args=self.listener.accept()[:1], daemon=True).start()

    def give(self, link):
        begun = time.monotonic()
        try:
            link.recv(65_536)
            link.sendall(b"HTTP/1.1 200 OK\r\nContent-Length: 100000\r\n\r\n")
            while True:
                link.sendall(b" ")
                time.sleep(0.5)
        except OSError:
            self.waited.append(time.monotonic() - begun)


def trickled(program, port):
    """Checks an edge with two slots behind a trickling upstream: its first exchange fails after 30 seconds, and then it serves promptly."""
    upstream = Trickling()
    upstream.start()
    words = ["edge", "--port", str(port), "--upstream", f"127.0.0.1:{upstream.port}", "--tokens", "*:dev.c"]
    words += ["--upstream-tokens", "*:dev.c,*:prod.c"]
    begun = time.monotonic()
    edge = subprocess.Popen([program, *words], stdin=subprocess.DEVNULL, stdout=subprocess.DEVNULL, stderr=subprocess.DEVNULL)
    within(lambda: upstream.waited, seconds=60)
    ended = time.monotonic()
    # The exchange begins after `begun`, so it was too short if `ended` comes too soon. The upstream may notice its begin late, and its
    # end too: it took too long only if the control was in time.
    if not upstream.waited or ended - begun < 29 or upstream.waited[0] > 33 and not control.was_late(begun, ended):
        notes.append(f"an upstream that trickles: {upstream.waited}")
    judged("an edge behind an upstream that trickles", lambda: asked_once(port))
    edge.kill()
    edge.wait()


def stopped(port, process):
    """Stops a server for a moment, and checks that it answers afterwards."""
    os.kill(process, signal.SIGSTOP)
    time.sleep(0.2)
    os.kill(process, signal.SIGCONT)
    judged(f"a server at port {port} after a stop", lambda: asked_once(port))


def pipelined(port):
    """Runs 12 clients, each of which sends 1,001 requests at once on one connection. Each client gets at least 1,000 answers, which is the
    limit of a link."""
    def play():
        try:
            found = answered(port, HEALTH * 1_001)
        except OSError as fault:
            found = [fault]
        if found not in ([200] * 1_000, [200] * 1_001):
            notes.append(f"port {port}: {len(found)} answers to 1,001 requests at once")

    clients = [threading.Thread(target=play) for _ in range(12)]
    for client in clients:
        client.start()
    for client in clients:
        client.join()


def main(words):
    global control
    upstream, edge, program = int(words[0]), int(words[2]), words[4]
    control = Control()
    control.start()
    trickling = threading.Thread(target=trickled, args=(program, edge + 1))
    trickling.start()
    ending = door_end.begin(notes, program, edge + 3, words[5]) if len(words) > 5 else []
    full_log(program, edge + 2)
    for port, process in [(upstream, words[1]), (edge, words[3])]:
        stopped(port, started_by(int(process)))
        pipelined(port)
        cut_everywhere(port)
    sides = [threading.Thread(target=slow_clients, args=(port,)) for port in (upstream, edge)]
    for side in sides:
        side.start()
    for side in sides:
        side.join()
    sessions(edge, "GET", "/api/frontend", None, {"Authorization": "*:dev.front"})
    sessions(upstream, "POST", "/edge/validate", '{"tokens":[]}', {"Content-Type": "application/json"})
    for check in (trickling, *ending):
        check.join()
    if not control.is_alive():
        notes.append("the control failed")
    control.stop()
    for note in notes[:20]:
        print(note)
    again = f"; played again, since the machine stalled: {', '.join(repeated)}" if repeated else ""
    print(f"the slowest answer took {max(waits):.2f} s, the control's {control.slowest:.2f} s{again}")


if __name__ == "__main__":
    if sys.argv[1:] == ["control"]:
        serve_plainly()
    else:
        main(sys.argv[1:])

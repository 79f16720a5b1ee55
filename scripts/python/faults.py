"""faults.py PROGRAM SHIM UPSTREAM_PORT EDGE_PORT: runs the program with one failing call, for each call in turn.

SHIM is scripts/c/failing_calls.c, built as a library for LD_PRELOAD. Each allocation, read and write fails once: in a replay, in a
check, on one connection of an upstream with two requests, and in one turn of an edge before one connection. The second accept of an
upstream and of an edge fails once, and so does the start of each of the first three threads of an edge. Prints how many failures it tried
and their outcomes. Exits with status 1 if an outcome is not one of those that docs/FORMATS.md states.
"""
import collections
import concurrent.futures
import os
import queue
import socket
import subprocess
import sys
import tempfile
import threading
import time

PROGRAM, SHIM, UPSTREAM_PORT, EDGE_PORT = sys.argv[1], sys.argv[2], int(sys.argv[3]), int(sys.argv[4])
DONE, READ_FAULT, WRITE_FAULT, OUT_OF_MEMORY, DOOR_FAULT = 0, 4, 5, 6, 7
# the number of concurrent runs of an edge; they are concurrent since each takes a second or more, the interval between two turns
AT_ONCE = 8
# a limit for what a server does in about a second, in seconds; it allows for a machine that stalls for some seconds
LONG = 20
INTERNAL = b'HTTP/1.1 500 Internal Server Error\r\nContent-Length: 0\r\nConnection: close\r\n\r\n'
failures = []


def started(words, source, **calls):
    """Starts the program with an input, and with settings of SHIM that make calls fail."""
    settings = dict(os.environ, LD_PRELOAD=SHIM, **{name: str(value) for name, value in calls.items()})
    return subprocess.Popen([PROGRAM, *words], stdin=source, stdout=subprocess.PIPE, stderr=subprocess.DEVNULL, env=settings)


def ran(words, path, **calls):
    """Runs the program on a file. Returns its output and status."""
    with open(path, 'rb') as source:
        process = started(words, source, **calls)
        return process.communicate(timeout=20)[0], process.returncode


def counted(run):
    """The number of allocations of a run, the number of its reads and writes, and its result."""
    with tempfile.NamedTemporaryFile() as counts:
        given = run(COUNT_CALLS=counts.name)
        allocations, moves = open(counts.name).read().split()
    return int(allocations), int(moves), given


def swept(name, run, allowed, at_once=1):
    """Makes each call of a run fail in turn. `allowed` says whether an outcome is allowed. Then makes a run in which each read and write
    moves one byte, which must give the same result as a normal run."""
    allocations, moves, whole = counted(run)
    for kind, count in (('FAIL_MEMORY', allocations), ('FAIL_IO', moves)):
        came = collections.Counter()
        with concurrent.futures.ThreadPoolExecutor(at_once) as runs:
            for number, given in enumerate(runs.map(lambda number: run(**{kind: number}), range(1, count + 1)), 1):
                came[given[-1]] += 1
                if not allowed(kind, given, whole):
                    failures.append(f'{name}: {kind}={number} gave {given}')
        print(f'{name}: {kind} of {count}: ' + ', '.join(f'{many} times {status}' for status, many in sorted(came.items())))
    given = run(SHORT_IO=1)
    if given != whole:
        failures.append(f'{name}: one byte a call gave {given}')


def of_input(kind, given, whole):
    """Whether an outcome of a command over an input is allowed: its output is a prefix of the normal output, and its status is the
    normal one or that of the fault. With the normal status, the output is complete."""
    statuses = {whole[1], OUT_OF_MEMORY} if kind == 'FAIL_MEMORY' else {whole[1], READ_FAULT, WRITE_FAULT}
    return given[1] in statuses and whole[0].startswith(given[0]) and (given[1] != whole[1] or given[0] == whole[0])


ASK = b'GET /internal-backstage/health HTTP/1.1\r\nHost: x\r\n\r\n'
TOGGLES = b'GET /api/frontend HTTP/1.1\r\nHost: x\r\nAuthorization: *:dev.front\r\nConnection: close\r\n\r\n'


def exchanged(process, port):
    """A server's answers to two requests on one connection. None if the server ends, or refuses to connect for LONG seconds. Empty if the
    connection fails."""
    until = time.monotonic() + LONG
    while time.monotonic() < until:
        if process.poll() is not None:
            return None
        try:
            with socket.create_connection(('127.0.0.1', port), timeout=LONG) as link:
                link.sendall(ASK + TOGGLES)
                answer = b''
                while piece := link.recv(65536):
                    answer += piece
                return answer
        except ConnectionRefusedError:
            time.sleep(0.002)
        except (ConnectionError, TimeoutError):
            return b''
    return None


def served(words, ports, path='/dev/null'):
    """A function that runs a server for one connection at one of these ports. It returns what was received on each connection that was
    tried (at most five), the server's output and its status."""
    free = queue.Queue()
    for port in ports:
        free.put(port)

    def run(**calls):
        port = free.get()
        try:
            return run_at(port, **calls)
        finally:
            free.put(port)

    def run_at(port, **calls):
        with open(path, 'rb') as source:
            process = started([*words, '--port', str(port), '--connections', '1'], source, **calls)
            answers = []
            for _ in range(5):
                answer = exchanged(process, port)
                if answer is not None:
                    answers.append(answer)
                # A server that has answered ends, an edge after its interval. One that hasn't may wait for another connection.
                try:
                    process.wait(timeout=LONG if answer else 0.5)
                    break
                except subprocess.TimeoutExpired:
                    pass
            process.kill()
            return answers, process.communicate()[0], process.returncode
    return run


HEALTHY = b'HTTP/1.1 200 OK\r\nContent-Type: application/json\r\nContent-Length: 15\r\n\r\n{"status":"OK"}'
REFUSALS = (b'{"error":"UnknownToken"}', b'{"error":"NotReady"}')


def is_answer(kind, answer, whole):
    """Whether a connection may receive this answer. If an allocation fails: complete answers, perhaps followed by the text of the
    internal error. If a read or write fails: a prefix of the normal answers; or, if an edge's request to its upstream failed, the first
    answer and then a refusal (UnknownToken or NotReady)."""
    if kind == 'FAIL_IO':
        unasked = answer.startswith(HEALTHY) and answer.endswith(REFUSALS)
        return whole.startswith(answer) or unasked
    return answer in (b'', HEALTHY, whole, INTERNAL, HEALTHY + INTERNAL)


def of_server(kind, given, whole):
    """Whether an outcome of a server with one connection is allowed: it serves the connection; or it runs out of memory before or
    after that, for a thread, or for the only connection that its door may accept; or its input or output fails."""
    answers, printed, status = given
    statuses = {DONE, OUT_OF_MEMORY, DOOR_FAULT} if kind == 'FAIL_MEMORY' else {DONE, READ_FAULT, WRITE_FAULT}
    served_it = all(is_answer(kind, answer or b'', whole[0][0]) for answer in answers)
    return status in statuses and served_it and whole[1].startswith(printed) and (status != DONE or printed == whole[1])


def without_link(words, path='/dev/null'):
    """Runs a server whose second accept fails. Returns what its first connection received, its output and its status."""
    with open(path, 'rb') as source:
        process = started([*words, '--connections', '2'], source, FAIL_ACCEPT=2)
        answer = exchanged(process, UPSTREAM_PORT)
        return answer, process.communicate(timeout=20)[0], process.returncode


def without_thread(words, number):
    """Runs a server that can't start the thread with this number. Returns its output and its status."""
    with open('/dev/null', 'rb') as source:
        process = started(words, source, FAIL_THREAD=number)
        return process.communicate(timeout=20)[0], process.returncode


def tried(name, expected, given):
    print(f'{name}: {given[-1]}')
    if given not in expected:
        failures.append(f'{name}: gave {given}')


def cut_or(whole):
    """The allowed outcomes of a server whose second accept fails: the first connection receives its normal answers, or nothing if it was
    not served yet."""
    return [(answer, b'', DOOR_FAULT) for answer in (whole, b'')]


BOOK = b'{"tokens":[{"projects":["*"],"token":"*:dev.client","type":"client"},{"projects":["*"],"token":"*:dev.front","type":"frontend"}]}'
STATE = (b'{"events":[{"eventId":3,"features":[{"enabled":true,"name":"a","strategies":[{"name":"default"}]}],"segments":[],'
         b'"type":"hydration"}]}')


def is_whole(request):
    """Whether these bytes are a complete request: a head, and a body of its Content-Length if it has one."""
    head, end, body = request.partition(b'\r\n\r\n')
    if not end:
        return False
    lengths = [int(line.split(b':')[1]) for line in head.lower().split(b'\r\n') if line.startswith(b'content-length:')]
    return len(body) >= sum(lengths)


def upstream_of(port):
    """Starts a server that answers the requests of an edge, in its own thread."""
    def answer(link):
        with link:
            request = b''
            # Read the body too: a client that is still sending would lose the answer when the connection is closed.
            while not is_whole(request):
                piece = link.recv(65536)
                if not piece:
                    return
                request += piece
            body = BOOK if b'/edge/validate' in request else STATE
            link.sendall(b'HTTP/1.1 200 OK\r\nContent-Type: application/json\r\nContent-Length: %d\r\n\r\n' % len(body) + body)

    def serve():
        while True:
            link, _ = listener.accept()
            try:
                answer(link)
            except OSError:
                pass

    listener = socket.create_server(('127.0.0.1', port))
    threading.Thread(target=serve, daemon=True).start()


def main():
    swept('replay', lambda **calls: ran(['replay'], 'examples/first.jsonl', **calls), of_input)
    swept('check', lambda **calls: ran(['check'], 'examples/check.json', **calls), of_input)
    upstream = ['upstream', '--secret', 's', '--environments', 'dev', '--client-tokens', '*:dev.client', '--frontend-tokens', '*:dev.front']
    swept('a connection', served(upstream, [UPSTREAM_PORT], 'examples/upstream-commands.jsonl'), of_server)
    upstream_of(UPSTREAM_PORT + 1)
    edge = ['edge', '--upstream', f'127.0.0.1:{UPSTREAM_PORT + 1}', '--upstream-tokens', '*:dev.client', '--tokens', '*:dev.client,*:dev.front',
            '--workers', '2', '--interval', '1']
    swept('a turn of an edge', served(edge, range(EDGE_PORT, EDGE_PORT + AT_ONCE)), of_server, AT_ONCE)
    link = [*upstream, '--port', str(UPSTREAM_PORT)]
    at_once = [*edge, '--port', str(UPSTREAM_PORT)]
    whole = served(upstream, [UPSTREAM_PORT], 'examples/upstream-commands.jsonl')()[0][0]
    tried('an upstream without a second link', cut_or(whole), without_link(link, 'examples/upstream-commands.jsonl'))
    whole = served(edge, [EDGE_PORT])()[0][0]
    tried('an edge without a second link', cut_or(whole), without_link(at_once))
    for number in (1, 2, 3):
        tried(f'an edge without its thread {number}', [(b'', DOOR_FAULT)], without_thread(at_once, number))
    for failure in failures[:20]:
        print(failure)
    sys.exit(1 if failures else 0)


main()

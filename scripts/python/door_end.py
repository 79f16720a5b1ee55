"""Checks how a server ends whose door fails: it answers the requests on the connections that are there, and ends with status 7.

`begin` starts the checks in threads: three of an upstream and three of an edge, at six ports. They need failing_door.c as a library, and
append what is wrong to the list `notes`.
"""
import os
import signal
import subprocess
import tempfile
import threading
import time

from wire import HEALTH, SOON, answered, connect, reply_of, rest_of, statuses, within

# how long a server gets for what no answer shows, in seconds: a moment would do, unless the machine stalls
CALM = 4.0


def started(program, command, port, library, **calls):
    """Starts a server, and returns when it answers. `calls` sets FAIL_ACCEPT or FAIL_WAIT to a path: such calls fail once it exists."""
    words = [program, command, "--port", str(port)]
    if command == "edge":
        words += ["--upstream", "127.0.0.1:1", "--upstream-tokens", "*:dev.c", "--tokens", "*:dev.c", "--workers", "2"]
        # an edge ends after the interval in which its door has ended
        words += ["--interval", "1"]
    else:
        words += ["--secret", "s", "--environments", "dev", "--client-tokens", "*:dev.c", "--frontend-tokens", "*:dev.f"]
    settings = dict(os.environ, LD_PRELOAD=library, **calls)
    quiet = subprocess.DEVNULL
    server = subprocess.Popen(words, stdin=quiet, stdout=quiet, stderr=quiet, env=settings)
    within(lambda: answered(port, HEALTH) == [200])
    return server


def last_answer(link):
    """Reads until the server closes the connection. Returns the statuses of the replies, or the error of a read."""
    try:
        found = statuses(rest_of(link))
        link.close()
        return found
    except OSError as fault:
        return fault


def ends_in_time(name, notes, server, begun, least, most):
    """Checks that a server ends with status 7, from `least` to `most` seconds after the time `begun`."""
    try:
        status = server.wait(timeout=SOON + most)
    except subprocess.TimeoutExpired:
        server.kill()
        status = None
    took = time.monotonic() - begun
    if status != 7 or not least <= took <= most:
        notes.append(f"{name}: status {status} after {took:.1f} s")


def accepting_fails(notes, program, command, port, library, is_silent):
    """Checks a server whose accepts fail: it serves the connections that are there, closes each after its answer, and ends once none is
    left. Connections that stay silent (`is_silent`) are closed after 30 seconds."""
    name = f"{command} that can't accept"
    with tempfile.TemporaryDirectory() as folder:
        path = os.path.join(folder, "fails")
        server = started(program, command, port, library, FAIL_ACCEPT=path)
        links = [connect(port) for _ in range(3)]
        for link in links:
            link.sendall(HEALTH)
            reply_of(link)
        links[1].sendall(HEALTH[:9])
        silent = [connect(port) for _ in range(3 if is_silent else 0)]
        answered(port, HEALTH)
        # For a moment after its answer a link waits for a further request. If accepting failed meanwhile, the link would be closed.
        time.sleep(CALM)
        open(path, "w").close()
        begun = time.monotonic()
        connect(port).close()
        time.sleep(CALM)
        for link, rest in zip(links, (HEALTH, HEALTH[9:], HEALTH)):
            link.sendall(rest)
            if (found := last_answer(link)) != [200]:
                notes.append(f"{name}: {found}")
        ends_in_time(name, notes, server, begun, *((29, 50) if is_silent else (0, 20)))
        if any(last_answer(link) != [] for link in silent):
            notes.append(f"{name}: a silent connection is not closed")


def waiting_fails(notes, program, command, port, library):
    """Checks a server whose waits for events fail: it answers the requests that have arrived, closes all connections, and ends."""
    name = f"{command} that can't wait"
    with tempfile.TemporaryDirectory() as folder:
        path = os.path.join(folder, "fails")
        server = started(program, command, port, library, FAIL_WAIT=path)
        links = [connect(port) for _ in range(80)]
        for link in links:
            link.sendall(HEALTH)
            reply_of(link)
        silent_one = connect(port)
        answered(port, HEALTH)
        time.sleep(CALM)
        # The server is stopped so that one wait, the last that succeeds, reports all requests.
        os.kill(server.pid, signal.SIGSTOP)
        for link in links:
            link.sendall(HEALTH)
        open(path, "w").close()
        begun = time.monotonic()
        os.kill(server.pid, signal.SIGCONT)
        found = [last_answer(link) for link in links]
        if found != [[200]] * len(links):
            notes.append(f"{name}: {found}")
        ends_in_time(name, notes, server, begun, 0, 20)
        if last_answer(silent_one) != []:
            notes.append(f"{name}: a silent connection is not closed")


def begin(notes, program, port, library):
    """Starts all checks, and returns their threads."""
    checks = []
    for at, command in enumerate(("upstream", "edge")):
        words = (notes, program, command, port + 3 * at, library)
        checks.append(threading.Thread(target=waiting_fails, args=words))
        for more, is_silent in enumerate((False, True), 1):
            words = (notes, program, command, port + 3 * at + more, library, is_silent)
            checks.append(threading.Thread(target=accepting_fails, args=words))
    for check in checks:
        check.start()
    return checks

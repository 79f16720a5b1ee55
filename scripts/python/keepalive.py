"""Runs more clients with kept connections than an edge has workers. Each poll is answered in time, whatever the other clients do.

Arguments: the port of the edge, and the number of seconds to poll. Prints each fault, and in the last line the number of polls and of
their connections, and the slowest and the median time of a poll.
"""
import socket
import sys
import threading
import time

from door import Control
from wire import connect, request, statuses

TOGGLES = request(b"/api/frontend", b"*:dev.front")
POLLING, SILENT, IDLE, SLOW = 28, 4, 4, 4
# the interval between two polls, and between two bytes of a slow client, in seconds
EACH = 1.0
# the limit for a poll, in seconds
SOON = 3.0
control = Control(SOON)


def whole(reply):
    """Whether a reply is complete, by the Content-Length in its head."""
    head, end, body = reply.partition(b"\r\n\r\n")
    lengths = [line for line in head.split(b"\r\n") if line.lower().startswith(b"content-length:")]
    return bool(end) and len(body) >= int(lengths[0].split(b":")[1])


def asked(link):
    """The reply to a request on a connection, or None if the server closes the connection instead."""
    try:
        link.sendall(TOGGLES)
        reply = b""
        while not whole(reply):
            piece = link.recv(65_536)
            if not piece:
                return None
            reply += piece
        return reply
    except (ConnectionResetError, BrokenPipeError):
        return None


class Client:
    """A client that keeps its connection, and opens a new one if the server closes it."""
    # how long it waits for the server, in seconds
    patience = 20.0

    def __init__(self, port, until, notes):
        self.port, self.until, self.notes = port, until, notes
        self.link = None
        self.links = 0

    def open(self):
        self.close()
        self.link = connect(self.port, self.patience)
        self.links += 1

    def close(self):
        if self.link is not None:
            self.link.close()
        self.link = None

    def ask(self):
        """Sends a request on the kept connection, or on a new one if that was closed. Retries until the limit for a poll."""
        begun = time.monotonic()
        while time.monotonic() < begun + SOON:
            if self.link is None:
                self.open()
            reply = asked(self.link)
            if reply is not None:
                return statuses(reply)
            self.close()
        return []

    def rest(self, until):
        """Waits until the time `until`, or until the server closes the connection."""
        while self.link is not None and (left := until - time.monotonic()) > 0:
            self.link.settimeout(left)
            try:
                if not self.link.recv(1):
                    self.close()
            except socket.timeout:
                break
            except ConnectionResetError:
                self.close()
        if self.link is not None:
            self.link.settimeout(self.patience)


class Polling(Client):
    """Polls at an interval. A poll that is late or fails is no fault if the control was late at the same time."""
    patience = SOON

    def run(self):
        place = time.monotonic()
        while place < self.until:
            begun = time.monotonic()
            try:
                found = self.ask()
            except OSError as fault:
                found = [str(fault)]
            ended = time.monotonic()
            took = ended - begun
            self.notes.append(took)
            if (found != [200] or took > SOON) and not control.was_late(begun, ended):
                print(f"a poll took {took:.2f} seconds and got {found}")
            place = max(place + EACH, time.monotonic())
            time.sleep(max(0.0, place - time.monotonic()))


class Silent(Client):
    """Repeatedly opens a connection and sends nothing."""

    def run(self):
        while time.monotonic() < self.until:
            self.open()
            self.rest(self.until)


class Idle(Client):
    """Repeatedly sends one request and then keeps its connection idle."""

    def run(self):
        while time.monotonic() < self.until:
            self.ask()
            self.rest(self.until)
            time.sleep(EACH)


class Slow(Client):
    """Sends a request at one byte per second, and starts again when the server closes the connection."""

    def run(self):
        while time.monotonic() < self.until:
            self.open()
            for at in range(len(TOGGLES)):
                try:
                    self.link.sendall(TOGGLES[at : at + 1])
                except OSError:
                    break
                self.rest(time.monotonic() + EACH)
                if self.link is None or time.monotonic() > self.until:
                    break


def main(words):
    port, until = int(words[0]), time.monotonic() + float(words[1])
    kinds = [Slow] * SLOW + [Silent] * SILENT + [Idle] * IDLE + [Polling] * POLLING
    times = []
    clients = [kind(port, until, times) for kind in kinds]
    threads = [threading.Thread(target=client.run) for client in clients]
    control.start()
    for thread in threads:
        thread.start()
    for thread in threads:
        thread.join()
    if not control.is_alive():
        print("the control failed")
    control.stop()
    polls = sum(client.links for client in clients if isinstance(client, Polling))
    times.sort()
    print(f"{len(times)} polls on {polls} links, the slowest took {times[-1]:.2f} seconds, half of them {times[len(times) // 2]:.3f}")


main(sys.argv[1:])

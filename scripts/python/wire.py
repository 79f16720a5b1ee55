"""Helpers shared by the tests over sockets: requests, connections, and the memory of a process."""
import os
import socket
import struct
import threading
import time

# The limit for an answer, in seconds. It allows for a machine that stalls for some seconds. It is below 30 seconds, after which a server
# ends by itself a connection that should have ended before.
SOON = 20


def connect(port, timeout=SOON):
    link = socket.create_connection(("127.0.0.1", port), timeout=timeout)
    link.setsockopt(socket.IPPROTO_TCP, socket.TCP_NODELAY, 1)
    return link


def rest_of(link):
    """All bytes until the server closes the connection. A server that leaves bytes unread resets it, which counts as a close."""
    parts = []
    try:
        while part := link.recv(65_536):
            parts.append(part)
    except ConnectionResetError:
        pass
    return b"".join(parts)


def statuses(replies):
    """The statuses of replies whose bodies don't contain the text `HTTP/1.1`."""
    return [int(part[1:4]) for part in replies.split(b"HTTP/1.1")[1:]]


def replies(port, *pieces, pause=0.0, timeout=SOON):
    """Sends the pieces on a new connection, and then closes its sending side. Returns all bytes that the server sends."""
    with connect(port, timeout) as link:
        for piece in pieces:
            link.sendall(piece)
            time.sleep(pause)
        link.shutdown(socket.SHUT_WR)
        return rest_of(link)


def answered(port, *pieces, pause=0.0, timeout=SOON):
    """Sends the pieces on a new connection. Returns the statuses of the replies."""
    return statuses(replies(port, *pieces, pause=pause, timeout=timeout))


def request(path, token=b"", body=None, fields=b""):
    head = b"%s %s HTTP/1.1\r\nHost: h\r\n" % (b"GET" if body is None else b"POST", path)
    if token:
        head += b"Authorization: %s\r\n" % token
    if body is not None:
        fields += b"Content-Length: %d\r\n" % len(body)
    return head + fields + b"\r\n" + (body or b"")


def cut_off(link):
    """Resets a connection."""
    link.setsockopt(socket.SOL_SOCKET, socket.SO_LINGER, struct.pack("ii", 1, 0))
    link.close()


def reset(port, *pieces):
    """Sends the pieces and resets the connection, without reading any reply."""
    link = connect(port)
    for piece in pieces:
        link.sendall(piece)
    cut_off(link)


def within(try_it, lives=lambda: True, seconds=SOON):
    """Retries until a try returns a true value, and returns that. None after `seconds` seconds, or once `lives` is false. A refused
    connection counts as a failed try."""
    until = time.monotonic() + seconds
    while time.monotonic() < until and lives():
        try:
            if found := try_it():
                return found
        except ConnectionRefusedError:
            pass
        time.sleep(0.01)
    return None


def message_of(link):
    """Reads a request or reply from a connection, with a body of its Content-Length. Returns its head and its body, which are shorter if
    the connection ends early."""
    text = b""
    length = None
    while length is None or len(text) < length:
        part = link.recv(65_536)
        if not part:
            break
        text += part
        if length is None and b"\r\n\r\n" in text:
            head = text[: text.index(b"\r\n\r\n") + 4]
            fields = [field.split(b":", 1) for field in head.split(b"\r\n")[1:-2]]
            length = len(head) + sum(int(value) for name, value in fields if name.lower() == b"content-length")
    head, _, body = text.partition(b"\r\n\r\n")
    return head + b"\r\n\r\n", body


def reply_of(link):
    """Reads a reply with a Content-Length. Returns its status and its body."""
    head, body = message_of(link)
    return int(head[9:12] or 0), body


class Upstream:
    """A server at a port that answers each connection's request with the result of `reply_to`: a list is sent in pieces, and None
    resets the connection. Keeps the requests in `asked`."""

    def __init__(self, port, reply_to):
        self.listener = socket.create_server(("127.0.0.1", port))
        self.reply_to = reply_to
        self.asked = []
        self.serving = threading.Thread(target=self.serve, daemon=True)
        self.serving.start()

    def serve(self):
        while True:
            try:
                link, _ = self.listener.accept()
            except OSError:
                return
            with link:
                text = b"".join(message_of(link))
                self.asked.append(text)
                self.give(link, self.reply_to(text))

    @staticmethod
    def give(link, reply):
        link.setsockopt(socket.IPPROTO_TCP, socket.TCP_NODELAY, 1)
        try:
            if isinstance(reply, list):
                for piece in reply:
                    link.sendall(piece)
                    time.sleep(0.001)
            elif reply:
                link.sendall(reply)
            else:
                cut_off(link)
        except ConnectionError:
            # the client closed the connection before the end of the reply
            pass

    def __enter__(self):
        return self

    def __exit__(self, *_):
        self.listener.shutdown(socket.SHUT_RDWR)
        self.listener.close()
        self.serving.join()


HEALTH = request(b"/internal-backstage/health")


def status_of(process, field):
    """The number in a field of /proc/PROCESS/status."""
    with open(f"/proc/{process}/status") as lines:
        return next(int(line.split()[1]) for line in lines if line.startswith(f"{field}:"))


def parent_of(process):
    """The parent of a process, or None if the process has ended meanwhile."""
    try:
        return status_of(process, "PPid")
    except OSError:
        return None


def started_by(process):
    """The first child that is found of a process."""
    others = (int(name) for name in os.listdir("/proc") if name.isdigit())
    return next(other for other in others if parent_of(other) == process)


def memory_of(process):
    """The resident memory of a process, in KiB."""
    return status_of(process, "VmRSS")

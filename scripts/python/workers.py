"""Tests an edge with many workers under load, over sockets. A slow, idle or reset connection delays no other one, and connections that
ended leave at most SLACK in memory.

Arguments: the port of the edge, the id of the process that started it, and the number of its workers. Prints each fault.
"""
import sys
import threading
import time

from door import Control
from wire import HEALTH, answered, connect, memory_of, reply_of, request, reset, started_by

FRONT = b"*:dev.front"
TOGGLES = request(b"/api/frontend", FRONT)
CLOSING = request(b"/api/frontend", FRONT, fields=b"Connection: close\r\n")
AT_ONCE = 64
# the limit for an answer while other connections are open, in seconds
SOON = 1.0
# how often an answer is asked for at most, if the machine stalls each time
MOST_TRIES = 10
# the memory that an allocator may retain, in KiB
SLACK = 4_096
control = Control(SOON)


def check(name, is_as, found):
    if found != is_as:
        print(f"{name}: expected {is_as}, got {found}")


def soon(port, name):
    """Checks that an answer arrives within the limit. One that is late while the control's is late too is asked for again."""
    for _ in range(MOST_TRIES):
        begun = time.monotonic()
        check(name, [200], answered(port, CLOSING))
        ended = time.monotonic()
        if ended - begun <= SOON:
            return
        if not control.was_late(begun, ended):
            print(f"{name}: an answer took {ended - begun:.2f} seconds")
            return
    print(f"{name}: the machine stalled {MOST_TRIES} times")


def drip(link, ended):
    """Sends a request at one byte per second, until the time for a request is over and the server closes the connection."""
    for at in range(len(TOGGLES)):
        if ended.wait(1.0):
            return
        try:
            link.sendall(TOGGLES[at : at + 1])
        except ConnectionError:
            return


def beside_slow_links(port, workers):
    """Opens one fewer connection than there are workers, each of them slow, silent, or idle after a request. Others are served in time."""
    links = [connect(port) for _ in range(workers - 1)]
    ended = threading.Event()
    slow = threading.Thread(target=drip, args=(links[0], ended))
    slow.start()
    for link in links[1::2]:
        link.sendall(TOGGLES)
        check("a link that stays", 200, reply_of(link)[0])
    for _ in range(50):
        soon(port, "beside slow links")
    ended.set()
    slow.join()
    for link in links:
        link.close()


def one_after_the_other(port, count):
    for _ in range(count):
        check("one link of many", [200], answered(port, CLOSING))


def at_once(port):
    """Sends a request on each of AT_ONCE connections at once, as many as may wait for a worker. All are answered."""
    given = [None] * AT_ONCE

    def ask(place):
        given[place] = answered(port, CLOSING)

    threads = [threading.Thread(target=ask, args=(place,)) for place in range(AT_ONCE)]
    for thread in threads:
        thread.start()
    for thread in threads:
        thread.join()
    check("links at once", [[200]] * AT_ONCE, given)


def in_mid_reply(port):
    """Resets a connection while its replies are in transit. Only that connection ends."""
    with connect(port) as other:
        other.sendall(HEALTH)
        check("another connection before a reset", 200, reply_of(other)[0])
        reset(port, TOGGLES * 900)
        other.sendall(HEALTH)
        check("the same connection after the reset", 200, reply_of(other)[0])
    soon(port, "after a reset")


def main(words):
    port, process, workers = int(words[0]), started_by(int(words[1])), int(words[2])
    control.start()
    for _ in range(5):
        at_once(port)
        in_mid_reply(port)
    one_after_the_other(port, 200)
    before = memory_of(process)
    beside_slow_links(port, workers)
    one_after_the_other(port, 2_000)
    for _ in range(10):
        at_once(port)
        in_mid_reply(port)
    after = memory_of(process)
    if after > before + SLACK:
        print(f"{after} KiB resident after all connections, and {before} before them")
    if not control.is_alive():
        print("the control failed")
    control.stop()


main(sys.argv[1:])

"""Measures the memory and processor time of an edge and its upstream, and prints the tables of docs/OPERATING.md:
python3 bench/sizing.py [PROGRAM]

Memory is the resident size of both after the edge's first turn and at least a hundred answers of each kind, and the edge's peak after a
later epoch was installed.
Processor time is user plus system time: the edge's up to its first feed, and the mean over many requests. The features are
those of bench/generate.py. Both programs listen on loopback, at the ports in EDGE_PORT and UPSTREAM_PORT. Takes two minutes on an idle
machine.
"""
import http.client
import json
import os
import subprocess
import sys
import tempfile
import time

import generate

PROGRAM = os.path.abspath(sys.argv[1] if len(sys.argv) > 1 else "crates/unl_edge/out/unl_edge")
EDGE, UPSTREAM = int(os.environ.get("EDGE_PORT", "13963")), int(os.environ.get("UPSTREAM_PORT", "15142"))
CLIENT, FRONT = "*:dev.client", "*:dev.front"
TICKS = os.sysconf("SC_CLK_TCK")


def resident(process, key="VmRSS"):
    """The resident memory of a process in MiB, or its peak with the key VmHWM."""
    with open(f"/proc/{process.pid}/status") as file:
        return next(int(line.split()[1]) for line in file if line.startswith(key)) / 1024


def used(process):
    """The processor time of a process so far, in milliseconds."""
    with open(f"/proc/{process.pid}/stat") as file:
        fields = file.read().rsplit(")", 1)[1].split()
    return (int(fields[11]) + int(fields[12])) * 1000 / TICKS


def ask(port, token, path, tag=None):
    link = http.client.HTTPConnection("127.0.0.1", port, timeout=60)
    link.request("GET", path, headers={"Authorization": token, **({"If-None-Match": tag} if tag else {})})
    reply = link.getresponse()
    body = reply.read()
    link.close()
    return reply.status, reply.headers["ETag"], body


def ready(port, token):
    until = time.time() + 120
    while time.time() < until:
        try:
            if ask(port, token, "/api/client/features")[0] == 200:
                return
        except OSError:
            pass
        time.sleep(0.05)
    sys.exit(f"no feed comes at port {port}")


def commands(features):
    segments = max(1, features // 100)
    for number in range(1, segments + 1):
        yield {"command": "put-segment", "environment": "dev", "segment": generate.segment(number)}
    for place in range(features):
        yield {"command": "put-feature", "environment": "dev", "feature": generate.feature(place, segments)}


def started(arguments, lines=()):
    with tempfile.TemporaryFile("w+") as file:
        file.writelines(json.dumps(line) + "\n" for line in lines)
        file.seek(0)
        return subprocess.Popen([PROGRAM, *arguments], stdin=file, stdout=subprocess.DEVNULL, stderr=subprocess.DEVNULL)


def upstream(features, tokens):
    process = started(["upstream", "--port", str(UPSTREAM), "--epoch", str(time.time_ns()), "--secret", "s", "--environments", "dev",
                       "--client-tokens", ",".join([CLIENT, *tokens]), "--frontend-tokens", FRONT], commands(features))
    ready(UPSTREAM, CLIENT)
    return process


def edge(tokens, *more):
    process = started(["edge", "--port", str(EDGE), "--upstream", f"127.0.0.1:{UPSTREAM}", "--upstream-tokens", CLIENT,
                       "--tokens", ",".join([CLIENT, FRONT, *tokens]), *more])
    ready(EDGE, CLIENT)
    return process


def end(*processes):
    for process in processes:
        process.kill()
        process.wait()


def cost(process, count, token, path, tag=None):
    """The mean processor time of one answer, in milliseconds."""
    before = used(process)
    for _ in range(count):
        ask(EDGE, token, path, tag)
    return (used(process) - before) / count


def of_features(features):
    above = upstream(features, [])
    below = edge([], "--interval", "1")
    first = used(below)
    _, tag, feed = ask(EDGE, CLIENT, "/api/client/features")
    toggles = ask(EDGE, FRONT, "/api/frontend?userId=7&properties[country]=de")[2]
    known = cost(below, 500, CLIENT, "/api/client/features", tag)
    whole = cost(below, 100, CLIENT, "/api/client/features")
    front = cost(below, 100, FRONT, "/api/frontend?userId=7&properties[country]=de")
    memory = f"{resident(above):.0f} MiB | {resident(below):.0f} MiB"
    end(above)
    above = upstream(features, [])
    while ask(EDGE, CLIENT, "/api/client/features")[1] == tag:
        time.sleep(0.5)
    memory += f", {resident(below, 'VmHWM'):.0f} MiB"
    print(f"| {features:,} | {len(feed) / 1e6:.2f} MB | {memory} | {first:.0f} ms | {known:.2f} ms "
          f"| {front:.1f} ms, {len(toggles) / 1e3:.0f} kB | {whole:.1f} ms |")
    end(above, below)


def of_workers():
    above = upstream(1000, [])
    for workers in (1, 4, 16):
        below = edge([], "--workers", str(workers))
        print(f"workers {workers}: {resident(below):.1f} MiB")
        end(below)
    end(above)


def of_tokens():
    for count in (2, 1000):
        tokens = [f"project{number}:dev.client{number}" for number in range(count - 2)]
        above = upstream(1000, tokens)
        below = edge(tokens, "--interval", "1")
        time.sleep(9)
        before, moment = used(below), time.time()
        time.sleep(10)
        turn = (used(below) - before) / (time.time() - moment)
        print(f"tokens {count}: {resident(below):.1f} MiB, {turn:.2f} ms of a processor for a turn that brings nothing")
        end(above, below)


def of_links():
    above = upstream(1000, [])
    below = edge([])
    before = resident(below)
    links = []
    for _ in range(500):
        link = http.client.HTTPConnection("127.0.0.1", EDGE, timeout=5)
        try:
            link.request("GET", "/api/client/features", headers={"Authorization": CLIENT, "If-None-Match": '"x"'})
            link.getresponse().read()
            links.append(link)
        except OSError:
            break
    print(f"{len(links)} kept connections: {(resident(below) - before) * 1024 / max(1, len(links)):.1f} KiB each")
    end(above, below)


def main():
    print("| features | a feed | an upstream | an edge, at most | first turn | a known feed (304) | toggles of a browser | a feed |")
    print("|---:|---:|---:|---:|---:|---:|---:|---:|")
    for features in (100, 1000, 10000):
        of_features(features)
    of_workers()
    of_tokens()
    of_links()


if __name__ == "__main__":
    main()

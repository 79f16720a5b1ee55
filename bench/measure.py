"""Measures the program, and prints the tables of docs/PERFORMANCE.md: python3 bench/measure.py [PROGRAM]

Instructions are those of one line of a replay, counted by callgrind: the median over the lines of a kind. Growth is the exponent
from 1,000 to 10,000 features, so 1 means linear. Counts are repeatable within one percent on any machine with the same instruction
set. Seconds are the minimum of five runs, and memory is the maximum. Needs valgrind. Takes two minutes.
"""
import glob
import math
import os
import re
import statistics
import subprocess
import sys
import tempfile

import generate

PROGRAM = os.path.abspath(sys.argv[1] if len(sys.argv) > 1 else "crates/unl_edge/out/unl_edge")
SIZES = [100, 1000, 10000]
RUNS = 5
# without this, valgrind counts each byte of a large copy as an instruction
PLAIN = {"GLIBC_TUNABLES": "glibc.cpu.x86_rep_stosb_threshold=1000000000:glibc.cpu.x86_rep_movsb_threshold=1000000000"}


def counts_of(lines):
    """The number of instructions of each line: callgrind dumps its counts before each write, and each line is answered by one."""
    with tempfile.TemporaryDirectory() as folder:
        callgrind = ["valgrind", "--tool=callgrind", "--dump-before=write", f"--callgrind-out-file={folder}/out"]
        subprocess.run([*callgrind, PROGRAM, "replay"], stdin=lines, stdout=subprocess.DEVNULL, stderr=subprocess.DEVNULL,
                       env={**os.environ, **PLAIN}, check=True)
        files = sorted(glob.glob(f"{folder}/out.*"), key=lambda file: int(file.rsplit(".", 1)[1]))
        return [int(re.search(r"^summary: (\d+)", open(file, errors="replace").read(), re.MULTILINE)[1]) for file in files]


def spelled(kinds):
    """A temporary file with the lines of all kinds."""
    lines = tempfile.TemporaryFile("w+")
    lines.writelines(generate.text_of(line) for each in kinds.values() for line in each)
    lines.seek(0)
    return lines


def medians(size):
    """The median number of instructions of a line, for each kind."""
    kinds = generate.kinds(size)
    counts = counts_of(spelled(kinds))
    if len(counts) < sum(map(len, kinds.values())):
        sys.exit(f"{len(counts)} counts of {size} features: each line is to be answered by one write")
    found, at = {}, 0
    for kind, lines in kinds.items():
        found[kind] = statistics.median_low(counts[at : at + len(lines)])
        at += len(lines)
    return found


def instructions():
    columns = [medians(size) for size in SIZES]
    print("| a line of a replay | " + " | ".join(f"{size:,} features" for size in SIZES) + " | growth |")
    print("|---" + "|---:" * (len(SIZES) + 1) + "|")
    for kind in columns[0]:
        counts = [column[kind] for column in columns]
        growth = math.log10(counts[-1] / counts[-2])
        print(f"| {kind} | " + " | ".join(f"{count:,}" for count in counts) + f" | {growth:.2f} |")


def seconds():
    size = SIZES[-1]
    lines = spelled(generate.kinds(size))
    times, peaks = [], []
    for _ in range(RUNS):
        lines.seek(0)
        started = subprocess.Popen([PROGRAM, "replay"], stdin=lines, stdout=subprocess.DEVNULL)
        used = os.wait4(started.pid, 0)[2]
        times.append(used.ru_utime)
        peaks.append(used.ru_maxrss / 1024)
    print(f"\nAll these lines over {size:,} features: {min(times):.2f} seconds, at most {max(peaks):.0f} MiB of memory.")


instructions()
seconds()

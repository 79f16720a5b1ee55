"""Runs the commands of a document in sequence in one shell, and compares the output of each: documents.py DOCUMENT PROGRAM..

A command is an indented line that begins with `$ `. A line that ends with a backslash continues in the next line. The indented lines
after a command are its expected standard output. There `..` matches any text within a line, and a line with only `..` matches any
lines. Each program is linked to the path where `rt run` leaves it. Commands run in a temporary folder, which is removed at the end.
Servers listen at the ports that the document names, so scripts/documents.sh makes sure that these ports are free.
"""
import fcntl
import os
import re
import signal
import socket
import struct
import subprocess
import sys
import tempfile

SECONDS = 240
# A `sleep` of a document gives a server the time to start or to follow. Here it takes this many seconds longer, for a busy machine.
LONGER = 4
MARK = "--- the command in this place has ended:"


def commands_of(text):
    """Pairs of a command and its expected lines, which end where other text begins."""
    found, goes_on, lines = [], False, iter(text.splitlines())
    for line in lines:
        text = line.strip()
        if not line.startswith("    "):
            goes_on = goes_on and not text
        elif text.startswith("$ "):
            while text.endswith("\\"):
                text = text[:-1] + next(lines).strip()
            found.append((text[2:], []))
            goes_on = True
        elif goes_on:
            found[-1][1].append(text)
    return found


def pattern_of(lines):
    """A pattern for the output that the lines of a document allow."""
    parts = []
    for line in lines:
        if line == "..":
            parts.append(r"(?:.*\n)*?")
        else:
            parts.append(".*?".join(map(re.escape, re.split(r" ?(?<!\.)\.\.(?!\.) ?", line))) + r"\n")
    return re.compile("".join(parts) + r"\Z")


def run(folder, commands):
    """Runs the commands. Returns the standard output of each one, and the error stream of all."""
    text = f"sleep() {{ command sleep $(($1 + {LONGER})); }}\n"
    text += "".join(f"{command}\necho; echo '{MARK}'\n" for command, _ in commands)
    environment = {**os.environ, "TMPDIR": folder}
    shell = subprocess.Popen(["sh"], cwd=folder, stdin=subprocess.PIPE, stdout=subprocess.PIPE, stderr=subprocess.PIPE, text=True,
                             env=environment, start_new_session=True)
    timer = subprocess.Popen(["sh", "-c", f"sleep {SECONDS}; kill -KILL -{shell.pid}"], start_new_session=True)
    try:
        script = os.path.join(folder, "commands.sh")
        with open(script, "w") as file:
            file.write(text + "exit\n")
        printed, told = shell.communicate(". ./commands.sh\n")
    finally:
        for group in (timer.pid, shell.pid):
            try:
                os.killpg(group, signal.SIGKILL)
            except ProcessLookupError:
                pass
    return printed.split(f"{MARK}\n"), told


def offer(folder, top, programs):
    """Links the repository's folders into `folder`, and the programs to the paths where `rt run` leaves them."""
    for name in ("examples", "deploy", "docs", "scripts", "bench"):
        os.symlink(os.path.join(top, name), os.path.join(folder, name))
    for program in programs:
        name = os.path.basename(program)
        place = os.path.join(folder, "crates", name, "out")
        os.makedirs(place)
        os.symlink(os.path.abspath(program), os.path.join(place, name))


def loopback():
    """Brings up the loopback interface, which is down in a new network namespace."""
    with socket.socket() as end:
        wanted = struct.pack("16sH14x", b"lo", 1)
        try:
            fcntl.ioctl(end, 0x8914, wanted)
        except OSError:
            pass


def main():
    loopback()
    document, programs = sys.argv[1], sys.argv[2:]
    with open(document) as file:
        commands = commands_of(file.read())
    if not commands:
        sys.exit(f"{document} has no command")
    with tempfile.TemporaryDirectory() as folder:
        offer(folder, os.getcwd(), programs)
        printed, told = run(folder, commands)
    for (command, lines), text in zip(commands, printed):
        text = text.rstrip("\n") + "\n" if text.strip() else ""
        if not pattern_of(lines).match(text):
            sys.exit(f"{document}: {command}\nmust print\n" + "\n".join(lines) + f"\nbut printed\n{text}\nand on the error stream\n{told}")
    if len(printed) <= len(commands):
        sys.exit(f"{document}: the shell ended at command {len(printed)}: {told}")
    print(f"{document}: {len(commands)} commands")


if __name__ == "__main__":
    main()

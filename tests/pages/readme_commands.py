#!/usr/bin/env python3
"""Runs the commands of README.md as they are pasted, in a fresh clone of what is committed here, and says how each ended.

    tests/pages/readme_commands.py [WORD..]     # those that hold one of the words, else all; in README's order

It needs what the README says, is not part of the gate, and takes as long as the longest of them: hours where nothing is proved yet. A
command that serves until Ctrl-C is left to come up, is asked for its page or its greeting, and gets its Ctrl-C. The clone stands in a
folder of its own, which goes away with the script. The last line is `N passed, M failed`; the status is 1 where one failed.
"""
import pathlib
import re
import signal
import socket
import subprocess
import sys
import tempfile
import time

ROOT = pathlib.Path(__file__).resolve().parents[2]
# what begins a line of an indented block that is a command and not an answer
PROGRAMS = ("make ", "rt ", "crates/", "apt-get ")
# the commands that serve until Ctrl-C, with the port where they do: the Makefile's two and the README's own
SERVES = {"make serve": 8080, "make demo-page": 8000, "crates/bridge_server/out/bridge_server serve": 8080}
COMES_UP_WITHIN = 120
ENDS_WITHIN = 60


def commands():
    """What a reader would paste, each without its comment."""
    lines = (ROOT / "README.md").read_text(encoding="utf-8").splitlines()
    blocks = (line[4:] for line in lines if line.startswith("    "))
    return [re.split(r"\s+#\s", line)[0].strip() for line in blocks if line.startswith(PROGRAMS)]


def request(port):
    """The first line of what is answered to a request for the page, or nothing."""
    try:
        with socket.create_connection(("127.0.0.1", port), timeout=5) as stream:
            # a handshake (RFC 6455, 1.3): a server without a page ends what is none
            stream.sendall(b"GET / HTTP/1.1\r\nHost: 127.0.0.1\r\nUpgrade: websocket\r\nConnection: Upgrade\r\n"
                           b"Sec-WebSocket-Key: dGhlIHNhbXBsZSBub25jZQ==\r\nSec-WebSocket-Version: 13\r\n\r\n")
            return stream.recv(1000).split(b"\r\n")[0].decode()
    except OSError:
        return ""


def ended(process):
    """The status of a server to which Ctrl-C was typed: each process of its terminal gets it."""
    try:
        return process.wait(ENDS_WITHIN)
    except subprocess.TimeoutExpired:
        return None


def serves(command, port, clone):
    """Whether it answers at its port, and ends by Ctrl-C."""
    process = subprocess.Popen(["bash", "-c", command], cwd=clone, stdin=subprocess.DEVNULL, start_new_session=True)
    end = time.monotonic() + COMES_UP_WITHIN
    answer = ""
    while not answer and process.poll() is None and time.monotonic() < end:
        time.sleep(0.5)
        answer = request(port)
    print(f"answered: {answer or 'nothing'}")
    subprocess.run(["pkill", "-INT", "--session", str(process.pid)], check=False)
    status = ended(process)
    if status is None:
        subprocess.run(["pkill", "-KILL", "--session", str(process.pid)], check=False)
    print(f"ended: {'not within the time' if status is None else f'by status {status}'}")
    return answer.startswith("HTTP/1.1 ") and status is not None


def is_right(command, clone):
    for beginning, port in SERVES.items():
        if command.startswith(beginning):
            return serves(command, port, clone)
    return subprocess.run(["bash", "-c", command], cwd=clone, stdin=subprocess.DEVNULL, check=False).returncode == 0


def main():
    signal.signal(signal.SIGINT, signal.SIG_DFL)
    wanted = [command for command in commands() if not sys.argv[1:] or any(word in command for word in sys.argv[1:])]
    failed = []
    with tempfile.TemporaryDirectory() as folder:
        clone = pathlib.Path(folder, "bridge_server")
        subprocess.run(["git", "clone", "--quiet", str(ROOT), str(clone)], check=True)
        for command in wanted:
            print(f"== {command}", flush=True)
            begun = time.monotonic()
            right = is_right(command, clone)
            print(f"{'ok     ' if right else 'FAILED '} {command} ({time.monotonic() - begun:.0f} s)", flush=True)
            failed += [] if right else [command]
    print(f"{len(wanted) - len(failed)} passed, {len(failed)} failed")
    return 1 if failed else 0


if __name__ == "__main__":
    sys.exit(main())

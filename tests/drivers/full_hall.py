#!/usr/bin/env python3
"""Fills a server: as many clients at once as it may have, and as many connections one after another.

    python3 tests/drivers/full_hall.py crates/bridge_server/out/bridge_server [CLIENTS]

10,000 clients, or so many as are said, sign in at a server of four displays that has room for no more, and stay. One more is told so; of those who
are there two hundred are asked, and answered at once; one who leaves makes room for another; all of them go at once, and their files and places are
free again. Then 10,000 connections come one after another, of which each ends as soon as it is there or in the midst of its handshake. What is
wanted comes from docs/RUNNING.md, never from the program. Each client is an open file to the program and to this script: where the system allows
fewer (`ulimit -Hn`), there are fewer clients, and it is said how many. Python alone is needed. Each line is a check: 'ok', or 'FAILED' with what
came. The status is 1 where one failed. It takes some ten seconds.
"""
import random
import socket
import struct
import sys
import time

from checks import check, status, tell
from raw_client import NOT_SIGNED_IN, STATUS, TEXT, Client, Ended, Server, files_allowed, frame, head, is_served

PROGRAM = sys.argv[1] if len(sys.argv) > 1 else "crates/bridge_server/out/bridge_server"
CLIENTS = int(sys.argv[2]) if len(sys.argv) > 2 else 10_000
DISPLAYS = 4
# the program's files beside its clients, and this script's
OTHER_FILES = 400
HELLO = frame(TEXT, b'{"hello":"d","token":"abc"}')
GREETED = b'\x81\x0d{"hello":"d"}'
ASKED = 200
# within how many seconds each of these is answered, and all places are free again, on a machine that has much to do
AT_ONCE, SOON = 2, 30
# what a client that is signed in and idle may take of the program's memory, in KiB, and what may come and go besides
PER_CLIENT, BESIDES = 8, 2048


def heard(stream, end):
    """What comes until it ends so."""
    got = b""
    while not got.endswith(end):
        more = stream.recv(4096)
        if not more:
            break
        got += more
    return got


def some_who_come(server, count):
    """So many clients, who come at once and sign in with the packet that asks to be let in."""
    streams = []
    for _ in range(count):
        streams.append(server.stream(60))
        streams[-1].sendall(head(request="GET /session HTTP/1.1") + HELLO)
    heads = [heard(stream, GREETED) for stream in streams]
    return streams, [got[:60] for got in heads if not (got.startswith(b"HTTP/1.1 101 ") and got.endswith(GREETED))]


def reset(stream):
    stream.setsockopt(socket.SOL_SOCKET, socket.SO_LINGER, struct.pack("ii", 1, 0))
    stream.close()


def until(found, seconds=SOON):
    """Waits until something is so, and says whether it came to be."""
    deadline = time.monotonic() + seconds
    while time.monotonic() < deadline:
        if found():
            return True
        time.sleep(0.1)
    return found()


def ask(stream):
    """How long the answer to a question takes, or None where another comes."""
    begun = time.monotonic()
    stream.sendall(frame(TEXT, STATUS.encode()))
    first, size = stream.recv(2)
    length = size if size < 126 else int.from_bytes(stream.recv(2), "big")
    got = b""
    while len(got) < length:
        got += stream.recv(length - len(got))
    return time.monotonic() - begun if first == 0x81 and b'"status"' in got else None


def all_at_once(server, count):
    resident, files = server.resident(), server.files()
    there, others, begun = [], [], time.monotonic()
    # of all clients a tenth may be such as haven't signed in yet
    lot = max(1, count // 20)
    while len(there) < count:
        came, wrong = some_who_come(server, min(lot, count - len(there)))
        there += came
        others += wrong
    took = time.monotonic() - begun
    check(f"{count} clients come and sign in ({took:.1f} s)", [], others[:3])
    each = (server.resident() - resident) / count
    tell(f"{each:.2f} KiB of the program's memory each; it has {server.resident()} KiB, {server.threads()} threads and {server.files()} files")
    check("which take little each", True, each <= PER_CLIENT)
    check("and no thread each: the program has its own and one a display, and without workers no more", 1 + DISPLAYS, server.threads())
    one_more = server.stream(10)
    one_more.sendall(head())
    got = heard(one_more, b"\r\n\r\n")
    check("one more is told that there is no room, and ended", (b"HTTP/1.1 503 Service Unavailable", b""), (got.split(b"\r\n")[0], one_more.recv(100)))
    waits = [ask(stream) for stream in random.Random(count).sample(there, min(ASKED, count))]
    check(f"of those who are there {len(waits)} are asked and answered at once ({max((wait for wait in waits if wait), default=0):.3f} s at most)", True,
          None not in waits and max(waits) < AT_ONCE)
    there.pop().close()
    check("one who leaves makes room", True, until(lambda: is_served(server, 5)))
    for stream in there:
        reset(stream)
    check("all go at once, and their files are closed", True, until(lambda: server.files() <= files + 1))
    check("the next is served", True, is_served(server, 10))
    return files


def one_after_another(server, count, files):
    resident = server.resident()
    begun = time.monotonic()
    for number in range(count):
        stream = server.stream(10)
        if number % 2:
            stream.sendall(head()[:number % 150])
        reset(stream)
    took = time.monotonic() - begun
    check(f"after {count} connections that ended as soon as they were there the next is served ({took:.1f} s)", True, until(lambda: is_served(server, 10)))
    check("no file of theirs is open still", True, until(lambda: server.files() <= files + 1))
    grown = server.resident() - resident
    check(f"and none of their memory is kept ({grown} KiB more)", True, grown <= BESIDES)


def main():
    files = files_allowed()
    count = min(CLIENTS, files - OTHER_FILES)
    if count < CLIENTS:
        tell(f"the system allows {files} open files: {count} clients in place of {CLIENTS}")
    with Server(PROGRAM, "--displays", DISPLAYS, "--workers", 0, "--clients", count, "--idle", 600) as server:
        try:
            check("nobody is there at first", NOT_SIGNED_IN, Client(server, 10).ask(STATUS))
            one_after_another(server, CLIENTS, all_at_once(server, count))
        except (Ended, OSError) as fault:
            check("each connection is there as long as it has to be", None, repr(fault))
        check("and the program runs on", None, server.process.poll())
    return status()


if __name__ == "__main__":
    sys.exit(main())

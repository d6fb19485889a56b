#!/usr/bin/env python3
"""Says how many queries a second one client of `bridge_server serve` gets answered, over one connection, one after another.

    /usr/bin/python3 benches/connection_rate.py [PROGRAM] [SECONDS]

Python's standard library is enough. Each rate stands beside that of a message that is no request, measured just after it on the same
connection: it is refused before anything is looked up, so it is the least that a message can cost over the same socket and library.
"""
import pathlib
import socket
import struct
import subprocess
import sys
import tempfile
import time

sys.path[:0] = [str(pathlib.Path(__file__).resolve().parent.parent / "tests" / folder) for folder in ("runs",)]
from write_stored_runs import BOARDS, USERS, text_of  # noqa: E402

PROGRAM = sys.argv[1] if len(sys.argv) > 1 else "crates/bridge_server/out/bridge_server"
SECONDS = float(sys.argv[2]) if len(sys.argv) > 2 else 3.0
QUESTIONS = [
    ("one board", {"ask": "board", "board": 1}),
    ("the status", {"ask": "status"}),
    ("the list of boards", {"ask": "list"}),
]
NO_REQUEST = {}
HANDSHAKE = ("GET / HTTP/1.1\r\nHost: 127.0.0.1\r\nUpgrade: websocket\r\nConnection: Upgrade\r\n"
             "Sec-WebSocket-Key: dGhlIHNhbXBsZSBub25jZQ==\r\nSec-WebSocket-Version: 13\r\n\r\n").encode()


def frame(text):
    """A whole text with a mask of zeros."""
    payload = text.encode()
    length = bytes([0x80 | len(payload)]) if len(payload) < 126 else b"\xfe" + struct.pack(">H", len(payload))
    return b"\x81" + length + bytes(4) + payload


def exactly(stream, count):
    got = b""
    while len(got) < count:
        part = stream.recv(count - len(got))
        if not part:
            raise SystemExit("the connection ended")
        got += part
    return got


def answer(stream):
    head = exactly(stream, 2)
    length = head[1] & 0x7F
    if length == 126:
        length = struct.unpack(">H", exactly(stream, 2))[0]
    elif length == 127:
        length = struct.unpack(">Q", exactly(stream, 8))[0]
    return exactly(stream, length)


def rate(stream, question):
    sent = frame(question)
    stream.setsockopt(socket.IPPROTO_TCP, socket.TCP_NODELAY, 1)
    count, start = 0, time.perf_counter()
    while time.perf_counter() - start < SECONDS:
        stream.sendall(sent)
        answer(stream)
        count += 1
    return count / (time.perf_counter() - start)


def free_port():
    with socket.socket() as free:
        free.bind(("127.0.0.1", 0))
        return free.getsockname()[1]


def connected(port):
    """A stream after the handshake. The program may not listen yet."""
    for _ in range(500):
        try:
            stream = socket.create_connection(("127.0.0.1", port))
            break
        except ConnectionRefusedError:
            time.sleep(0.01)
    else:
        raise SystemExit("nobody listens")
    stream.sendall(HANDSHAKE)
    head = b""
    while b"\r\n\r\n" not in head:
        head += exactly(stream, 1)
    return stream


def measure(words, port, hello):
    """Starts a program that serves one client, greets it with this text, and measures each question."""
    program = subprocess.Popen(words)
    with connected(port) as stream:
        stream.sendall(frame(hello))
        answer(stream)
        for name, question in QUESTIONS:
            asked, least = rate(stream, text_of(question)), rate(stream, text_of(NO_REQUEST))
            print(f"{asked:10.0f} a second: {name}; {least:.0f} of what is no request, {100 * asked / least:.0f} in 100 of that")
    if program.wait(timeout=10):
        raise SystemExit(f"the server ended with status {program.returncode}")


def main():
    with tempfile.TemporaryDirectory() as name:
        session, deals = pathlib.Path(name) / "session.json", pathlib.Path(name) / "deals.pbn"
        session.write_text(text_of({"budget": 0, "per_set": 1, "rounds": 3, "tables": 3, "users": USERS}))
        deals.write_text(BOARDS)
        port = free_port()
        words = [PROGRAM, "serve", "--session", str(session), "--deals", str(deals), "--port", str(port),
                 "--displays", "1", "--connections", "1"]
        measure(words, port, '{"hello":"d","token":"abc"}')


main()

#!/usr/bin/env python3
"""Calls `bridge_server serve` over real sockets, as clients of another make do, and says what it found.

    /usr/bin/python3 tests/drivers/websocket_client.py crates/bridge_server/out/bridge_server

It needs Debian's package python3-websockets (10.4 or later), and is not part of the gate. It starts the program for each part with a
session of three tables, on a port that is free, and stops it again. Each line that it writes is a check: 'ok', or 'FAILED' with what came.
The status is 1 where one failed. What is wanted comes from docs/PROTOCOL.md, docs/RUNNING.md and RFC 6455, never from the program.
"""
import asyncio
import json
import pathlib
import random
import signal
import socket
import struct
import subprocess
import sys
import tempfile
import time

import websockets

sys.path[:0] = [str(pathlib.Path(__file__).resolve().parents[1] / folder) for folder in ("runs",)]
from checks import check, status
from raw_client import NOTHING_IS_KEPT, without_serving
from write_stored_runs import BOARDS, FOUR_SPADES, USERS, confirm, enter, text_of

PROGRAM = sys.argv[1] if len(sys.argv) > 1 else "crates/bridge_server/out/bridge_server"
SESSION = {"budget": 0, "per_set": 1, "rounds": 3, "tables": 3, "users": USERS}
DENIED = {"denied": {"board": 1, "rule": 5, "table": 1, "why": "your pair has still to play this board"}, "version": 0}
HANDSHAKE = ("GET / HTTP/1.1\r\nHost: 127.0.0.1\r\nUpgrade: websocket\r\nConnection: Upgrade\r\n"
             "Sec-WebSocket-Key: dGhlIHNhbXBsZSBub25jZQ==\r\nSec-WebSocket-Version: 13\r\n\r\n").encode()


def free_port():
    with socket.socket() as listener:
        listener.bind(("127.0.0.1", 0))
        return listener.getsockname()[1]


class Server:
    """The program, serving so many connections (0: for ever) of a session."""

    def __init__(self, connections, *more, session=None, deals=BOARDS):
        self.folder = tempfile.TemporaryDirectory()
        folder = pathlib.Path(self.folder.name)
        (folder / "session.json").write_text(text_of(session or SESSION))
        (folder / "deals.pbn").write_text(deals)
        self.port = free_port()
        self.process = subprocess.Popen(
            [PROGRAM, "serve", "--session", str(folder / "session.json"), "--deals", str(folder / "deals.pbn"), "--port", str(self.port),
             "--displays", "1", "--connections", str(connections), *more],
            stdin=subprocess.DEVNULL, stdout=subprocess.PIPE, stderr=subprocess.PIPE)

    def socket(self):
        for _ in range(500):
            try:
                return socket.create_connection(("127.0.0.1", self.port), timeout=10)
            except ConnectionRefusedError:
                time.sleep(0.01)
        raise SystemExit("the program doesn't listen")

    def address(self):
        return f"ws://127.0.0.1:{self.port}/"

    def __enter__(self):
        return self

    def __exit__(self, *_):
        if self.process.poll() is None:
            self.process.send_signal(signal.SIGTERM)
            self.process.wait()
        self.process.stdout.close()
        self.process.stderr.close()
        self.folder.cleanup()

    def ended(self, what):
        try:
            status = self.process.wait(timeout=10)
        except subprocess.TimeoutExpired:
            status = "still running"
        check(f"{what}: the program ends with status 0", 0, status)
        check(f"{what}: and writes that nothing is kept", (b"", NOTHING_IS_KEPT), (self.process.stdout.read(), without_serving(self.process.stderr.read())))


async def connect(server):
    for _ in range(500):
        try:
            return await websockets.connect(server.address(), compression=None, max_size=None, open_timeout=10)
        except OSError:
            await asyncio.sleep(0.01)
    raise SystemExit("the program doesn't listen")


async def ask(client, message):
    await client.send(message if isinstance(message, (str, bytes)) else text_of(message))
    return json.loads(await asyncio.wait_for(client.recv(), 10))


def frame(opcode, payload, masked=True, first=0x80):
    head = bytes([first | opcode])
    length = len(payload)
    bit = 0x80 if masked else 0
    if length < 126:
        head += bytes([bit | length])
    elif length < 65536:
        head += bytes([bit | 126]) + struct.pack(">H", length)
    else:
        head += bytes([bit | 127]) + struct.pack(">Q", length)
    if not masked:
        return head + payload
    mask = random.randbytes(4)
    return head + mask + bytes(byte ^ mask[at % 4] for at, byte in enumerate(payload))


def rest_of(stream):
    """All that comes until the stream ends, and whether it was reset."""
    got = b""
    try:
        while part := stream.recv(65536):
            got += part
    except ConnectionResetError:
        return got, True
    return got, False


def shaken(server):
    """A stream after the handshake, and the head that answered it."""
    stream = server.socket()
    stream.sendall(HANDSHAKE)
    head = b""
    while b"\r\n\r\n" not in head:
        head += stream.recv(1)
    return stream, head


async def a_session():
    """Signing in, a denial, a result that is entered and confirmed, the board; then the end."""
    with Server(1) as server:
        client = await connect(server)
        check("a query before hello", {"error": "NotSignedIn"}, await ask(client, {"ask": "status"}))
        check("hello with a wrong token", {"error": "NotKnown"}, await ask(client, {"hello": "n1", "token": "abd"}))
        check("hello", {"hello": "n1"}, await ask(client, {"hello": "n1", "token": "abc"}))
        check("a board that is still to play", DENIED, await ask(client, {"ask": "board", "board": 1}))
        check("a board that there isn't", {"error": "NoSuchBoard", "version": 0}, await ask(client, {"ask": "board", "board": 4}))
        check("hello as the scorer", {"hello": "k"}, await ask(client, {"hello": "k", "token": "abc"}))
        check("Enter", {"answers": ["ok"], "first": 1, "last": 1, "version": 1}, await ask(client, {"do": [enter(1, 1, FOUR_SPADES)]}))
        check("Confirm", {"answers": ["ok"], "first": 2, "last": 2, "version": 2}, await ask(client, {"do": [confirm(1, 1, FOUR_SPADES)]}))
        check("hello as the player", {"hello": "n1"}, await ask(client, {"hello": "n1", "token": "abc"}))
        board = {"board": {"deal": "N:AKQJT98765432... .AKQJT98765432.. ..AKQJT98765432. ...AKQJT98765432", "dealer": "N", "number": 1, "vul": "none"},
                 "version": 2}
        check("the board that was played", board, await ask(client, {"ask": "board", "board": 1}))
        pong = await client.ping(b"still there")
        await asyncio.wait_for(pong, 10)
        check("a ping is answered", True, pong.done())
        await client.close(1000)
        check("the close is answered with its code", 1000, client.close_code)
        server.ended("after the one connection")


async def hostile_messages():
    """Messages that are no request, of every size, on one connection."""
    with Server(0) as server:
        client = await connect(server)
        for what, message in [("an empty text", ""), ("a text that is cut", '{"ask":"bo'), ("a binary message", b'{"ask":"status"}'),
                              ("an empty binary message", b""), ("200 levels of nesting", "[" * 200 + "]" * 200),
                              ("an object 200 levels deep", '{"a":' * 200 + "1" + "}" * 200),
                              ("65,536 bytes of blanks", " " * 65536)]:
            check(what, {"error": "Malformed"}, await ask(client, message))
        check("a filter 200 levels deep", {"error": "Malformed"},
              await ask(client, '{"ask":"list","filter":' + '{"not":' * 200 + '{"vul":"both"}' + "}" * 200 + "}"))
        check("an unknown word", {"error": "UnknownRequest"}, await ask(client, {"ask": "weather"}))
        check("a bad field", {"error": "BadField"}, await ask(client, {"ask": "board", "board": "1"}))
        check("a message with as", {"error": "BadField"}, await ask(client, {"as": "n1", "ask": "board", "board": 1}))
        check("65,537 bytes", {"error": "TooLong"}, await ask(client, " " * 65537))
        blank = text_of({"hello": "n1", "token": "abc"})
        check("65,536 bytes that are a request", {"hello": "n1"}, await ask(client, blank + " " * (65536 - len(blank))))
        await client.send("{" * 65538)
        code = None
        try:
            await asyncio.wait_for(client.recv(), 10)
        except websockets.ConnectionClosed:
            code = client.close_code
        # 1006: the stream was reset before the code was read, which the server can't prevent.
        check("65,538 bytes end the connection, as too big (1009)", True, code in (1009, 1006))
        print(f"        code {code}")
        client = await connect(server)
        check("the next connection is served, with nobody signed in", {"error": "NotSignedIn"}, await ask(client, {"ask": "status"}))
        parts = ['{"hello":', '"n1","to', 'ken":"abc"}']
        await client.send(iter(parts))
        check("a text in three fragments", {"hello": "n1"}, json.loads(await client.recv()))
        await client.close()


def broken_frames():
    """What no client sends that keeps to RFC 6455. Each ends its own connection, and the next is served."""
    cases = [
        ("a frame that is cut", frame(1, b"0123456789")[:9], None),
        ("a stream that ends without a close", b"", None),
        ("an unmasked frame", frame(1, b"{}", masked=False), 1002),
        ("a reserved opcode", frame(3, b""), 1002),
        ("a reserved bit", frame(1, b"{}", first=0xC0), 1002),
        ("a continuation of nothing", frame(0, b"{}"), 1002),
        ("a text that is no UTF-8", frame(1, b"\xff\xfe"), 1007),
        ("a ping of 126 bytes", frame(9, b"p" * 126), 1002),
        ("a length of 2^63", b"\x81\xff" + struct.pack(">Q", 2**63) + b"\0\0\0\0", 1002),
        ("a length of 2^40", b"\x81\xff" + struct.pack(">Q", 2**40) + b"\0\0\0\0", 1009),
        ("a close with a code that may not be sent", frame(8, struct.pack(">H", 1005)), 1002),
        ("a message of fragments that is too long", b"".join([frame(1, b"a" * 40000, first=0), frame(0, b"a" * 40000, first=0)]), 1009),
    ]
    with Server(0) as server:
        for what, bytes_sent, code in cases:
            stream, head = shaken(server)
            check(f"{what}: the handshake", (True, True),
                  (head.startswith(b"HTTP/1.1 101 "), b"s3pPLMBiTxaQ9kYGzzhZRbK+xOo=" in head))
            stream.sendall(bytes_sent)
            stream.shutdown(socket.SHUT_WR)
            got, was_reset = rest_of(stream)
            # A stream that has ended hears no code. A reset before the code is read can't be prevented.
            heard = struct.unpack(">H", got[2:4])[0] if got[:1] == b"\x88" and len(got) >= 4 else None
            check(f"{what}: the connection ends, with code {code}", code, code if was_reset and not got else heard)
            stream.close()


def failed_handshakes():
    """What is no handshake lets nobody in; the last connection is served, with a message in one packet with its request, and then the
    program ends."""
    requests = [
        ("a page", b"GET / HTTP/1.1\r\nHost: 127.0.0.1\r\n\r\n"),
        ("another method", HANDSHAKE.replace(b"GET", b"POST")),
        ("another version", HANDSHAKE.replace(b"Version: 13", b"Version: 8")),
        ("a key that is none", HANDSHAKE.replace(b"dGhlIHNhbXBsZSBub25jZQ==", b"abc")),
        ("no request", b"\0\1\2\3\r\n\r\n"),
        ("nothing", b""),
        ("a head that is cut", HANDSHAKE[:60]),
        ("a head of 100,000 bytes", HANDSHAKE[:-2] + b"A: " + b"a" * 100_000 + b"\r\n\r\n"),
    ]
    with Server(len(requests) + 1) as server:
        for what, request in requests:
            stream = server.socket()
            try:
                stream.sendall(request)
                stream.shutdown(socket.SHUT_WR)
            except OSError:
                pass
            got, _ = rest_of(stream)
            check(f"{what}: no handshake", False, got.startswith(b"HTTP/1.1 101 "))
            stream.close()
        stream = server.socket()
        stream.sendall(HANDSHAKE + frame(1, text_of({"hello": "n1", "token": "abc"}).encode()))
        head = b""
        while b"\r\n\r\n" not in head:
            head += stream.recv(1)
        check("a frame right behind a head is read after it", True, head.startswith(b"HTTP/1.1 101 "))
        text = b""
        while len(text) < 16:
            text += stream.recv(16 - len(text))
        check("and the next connection is served", b'\x81\x0e{"hello":"n1"}', text)
        stream.sendall(frame(8, struct.pack(">H", 1000)))
        got, _ = rest_of(stream)
        check("its close is answered", b"\x88\x02\x03\xe8", got)
        server.ended("after the last connection")


def statuses():
    """The program's words, its files and its port."""
    with tempfile.TemporaryDirectory() as name:
        folder = pathlib.Path(name)
        session, deals = folder / "session.json", folder / "deals.pbn"
        session.write_text(text_of(SESSION))
        deals.write_text(BOARDS)
        (folder / "bad.json").write_text("{")
        (folder / "pbn.json").write_text(text_of({**SESSION, "pbn": BOARDS}))
        (folder / "long.json").write_text(text_of(SESSION) + " " * 1_048_576)
        (folder / "none.pbn").write_text("")
        (folder / "long.pbn").write_text(BOARDS + " " * (16_777_217 - len(BOARDS)))
        (folder / "full.pbn").write_text(BOARDS + " " * (16_777_216 - len(BOARDS)))
        (folder / "two.json").write_text(text_of({**SESSION, "tables": 2}))
        busy = socket.socket()
        busy.bind(("127.0.0.1", 0))
        busy.listen()
        port = str(busy.getsockname()[1])

        def run(*words):
            done = subprocess.run([PROGRAM, *words], stdin=subprocess.DEVNULL, capture_output=True, timeout=900)
            return done.returncode, done.stdout, done.stderr

        def serve(session_file, deals_file, *more):
            return run("serve", "--session", str(session_file), "--deals", str(deals_file), "--port", port, *more)

        def fault(name):
            return 1, b"", f"bridge_server: {name}\n".encode()

        def unread(path, why):
            return 3, b"", f"bridge_server: Unread ({path}: {why})\n".encode()

        nothing, missing, long = folder / "nothing", "there is no such file or folder", folder / "long.pbn"
        taken = 3, b"", NOTHING_IS_KEPT + f"bridge_server: NotListening (port {port}: another program listens there)\n".encode()

        check("no file of the session", unread(nothing, missing), serve(nothing, deals))
        check("no file of the deals", unread(nothing, missing), serve(session, nothing))
        check("a folder", unread(folder, "it is a folder"), serve(folder, deals))
        check("neither file", unread(nothing, missing), serve(nothing, folder / "none"))
        check("a bad session and no deals", unread(nothing, missing), serve(folder / "bad.json", nothing))
        check("a bad session", fault("Malformed"), serve(folder / "bad.json", deals))
        check("a session with deals in it", fault("BadField"), serve(folder / "pbn.json", deals))
        check("a session that is too long", fault("TooLong"), serve(folder / "long.json", deals))
        check("two tables", fault("BadTables"), serve(folder / "two.json", deals))
        check("no deals", fault("MissingBoard(1)"), serve(session, folder / "none.pbn"))
        check("deals of 16,777,217 bytes", unread(long, "it is too long"), serve(session, long))
        check("a port that is taken", taken, serve(session, deals))
        check("16,777,216 bytes, and a port that is taken", taken, serve(session, folder / "full.pbn"))
        for words in [("serve",), ("serve", "--session", "s", "--deals", "d", "--port", "0"), (), ("scripts",),
                      *(("serve", "--session", "s", "--deals", "d", "--port", "1", *more) for more in (
                          ("--displays", "33"), ("--clients", "0"), ("--clients", "10001"), ("--listen", "localhost"), ("--listen", "127.0.0")))]:
            status, out, err = run(*words)
            check(f"bad words: {' '.join(words)}", (2, b"", True), (status, out, err.startswith(b"error: ")))
        for words in [("--help",), ("serve", "--help"), ("help",)]:
            status, out, err = run(*words)
            check(f"help: {' '.join(words)}", (0, True, b""), (status, b"Usage: bridge_server" in out, err))
        busy.close()


def addresses():
    """Where clients can come: at the address that the words name and no other, and that others can is told."""
    in_clear = b"bridge_server: other computers can come: without TLS in front of it tokens travel in clear\n"
    for listened, reached, text in (("127.0.0.1", "127.0.0.1", "127.0.0.1"), ("127.0.0.2", "127.0.0.2", "127.0.0.2"),
                                    ("0.0.0.0", "127.0.0.3", "0.0.0.0"), ("::1", "::1", "[::1]"), ("::", "::1", "[::]")):
        if ":" in listened and not pathlib.Path("/proc/net/if_inet6").exists():
            print(f"        this computer has no IPv6, so {listened} isn't tried")
            continue
        with Server(1, "--listen", listened) as server:
            for _ in range(500):
                try:
                    stream = socket.create_connection((reached, server.port), timeout=10)
                    break
                except OSError:
                    time.sleep(0.01)
            elsewhere = socket.socket()
            came = elsewhere.connect_ex(("127.0.0.9", server.port)) == 0
            elsewhere.close()
            stream.close()
            try:
                server.process.wait(timeout=10)
            except subprocess.TimeoutExpired:
                server.process.terminate()
            out, err = server.process.communicate()
            told = in_clear if listened in ("0.0.0.0", "::") else b""
            serves = f"bridge_server: serves at {text}:{server.port}: 3 tables, 1 displays, 2 workers, no journal\n".encode()
            check(f"--listen {listened}: who comes to {reached} is taken, and what it serves at is told", (b"", NOTHING_IS_KEPT + told + serves), (out, err))
            check(f"--listen {listened}: whether who comes to another address is taken", told != b"", came)
    # 192.0.2.0/24 is nobody's (RFC 5737)
    with Server(1, "--listen", "192.0.2.1") as server:
        out, err = server.process.communicate(timeout=60)
        check("an address that this computer hasn't", (3, b"", NOTHING_IS_KEPT + f"bridge_server: NotListening (port {server.port}: this computer hasn't that address)\n".encode()),
              (server.process.returncode, out, err))


async def main():
    await a_session()
    await hostile_messages()
    broken_frames()
    failed_handshakes()
    addresses()
    statuses()


asyncio.run(main())
sys.exit(status())

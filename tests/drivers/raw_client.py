"""A client of `bridge_server serve` that writes and reads the bytes of RFC 6455 itself, and the program that it calls.

The tests of what no library would send are made of it: tests/drivers/hold_ups.py, tests/drivers/conformance.py and tests/drivers/load.py. Python alone is
needed. A frame of the server is read strictly: unmasked, no reserved bit, its length in the shortest form (5.1, 5.2).
"""
import os
import pathlib
import re
import resource
import signal
import socket
import struct
import subprocess
import sys
import tempfile
import threading
import time

sys.path[:0] = [str(pathlib.Path(__file__).resolve().parents[1] / folder) for folder in ("runs",)]
from write_stored_runs import BOARDS, RANKS, SUITS, USERS, text_of

SESSION = {"budget": 0, "per_set": 1, "rounds": 3, "tables": 3, "users": USERS}
NOT_SIGNED_IN = '{"error":"NotSignedIn"}'
STATUS = '{"ask":"status"}'
CONTINUATION, TEXT, BINARY, CLOSE, PING, PONG = 0, 1, 2, 8, 9, 10
# the standard's own example (1.3): a key, and what answers it
KEY, ACCEPT = "dGhlIHNhbXBsZSBub25jZQ==", "s3pPLMBiTxaQ9kYGzzhZRbK+xOo="
FIELDS = {"Host": "127.0.0.1", "Upgrade": "websocket", "Connection": "Upgrade", "Sec-WebSocket-Key": KEY,
          "Sec-WebSocket-Version": "13"}
MASK = bytes.fromhex("37fa213d")
# the program's status where another listens at its port
PORT_IS_TAKEN = 3
# what a server without a journal writes on standard error, once its session is open (docs/RUNNING.md)
NOTHING_IS_KEPT = b"bridge_server: without --journal nothing is kept when the server ends\n"
# how it serves, in a line behind that
SERVES = re.compile(rb"^bridge_server: serves at 127\.0\.0\.1:\d+: \d+ tables, \d+ displays, \d+ workers, (no journal|journal .* at version \d+)\n", re.M)


def without_serving(err):
    """What a server wrote on standard error, without the line that tells how it serves."""
    return SERVES.sub(b"", err, count=1)


GIVEN, GIVING = set(), threading.Lock()


def free_port():
    """A port at which nothing listens, and which no other server of this test was given."""
    with GIVING:
        while True:
            with socket.socket() as listener:
                listener.bind(("127.0.0.1", 0))
                port = listener.getsockname()[1]
            if port not in GIVEN:
                GIVEN.add(port)
                return port


def waiting(port):
    """How many connections wait there to be accepted, or nothing where nothing listens. It isn't asked by a connection, which
    would be counted."""
    place = f"0100007F:{port:04X}"
    for line in pathlib.Path("/proc/net/tcp").read_text().splitlines()[1:]:
        row = line.split()
        if row[1] == place and row[3] == "0A":
            return int(row[4].split(":")[1], 16)
    return None


def files_allowed():
    """As many open files as the system lets this process and what it starts have, each client being one; and how many that are."""
    _soft, hard = resource.getrlimit(resource.RLIMIT_NOFILE)
    resource.setrlimit(resource.RLIMIT_NOFILE, (hard, hard))
    return hard


def heeds_signals():
    """A shell in the background lets what it starts ignore SIGINT."""
    signal.signal(signal.SIGINT, signal.SIG_DFL)


class Server:
    """The program with a session, at a port that is free."""

    def __init__(self, program, *words, session=None, deals=BOARDS, env=None):
        self.folder = tempfile.TemporaryDirectory()
        folder = pathlib.Path(self.folder.name)
        (folder / "session.json").write_text(text_of(session or SESSION))
        (folder / "deals.pbn").write_text(deals)
        self.words = [program, "serve", "--session", str(folder / "session.json"), "--deals", str(folder / "deals.pbn"), *map(str, words)]
        # a port that was free a moment ago may be taken by another server of the test, or by a client's end: then another one
        tries = 10
        while not self.comes_up(env):
            ended, tries = self.ended(), tries - 1
            if ended[0] != PORT_IS_TAKEN or not tries:
                self.folder.cleanup()
                raise SystemExit(f"the program doesn't listen: {ended}")

    def comes_up(self, env):
        """Starts the program at a port that is free, and says whether it listens there."""
        self.port = free_port()
        self.process = subprocess.Popen([*self.words, "--port", str(self.port)], env=env, preexec_fn=heeds_signals,
                                        stdin=subprocess.DEVNULL, stdout=subprocess.PIPE, stderr=subprocess.PIPE)
        deadline = time.monotonic() + 60
        while waiting(self.port) is None:
            if self.process.poll() is not None or time.monotonic() > deadline:
                return False
            time.sleep(0.01)
        return True

    def stream(self, seconds=10, room=None):
        """A stream to the program, which takes so many bytes that aren't read yet."""
        stream = socket.socket()
        if room:
            stream.setsockopt(socket.SOL_SOCKET, socket.SO_RCVBUF, room)
        stream.settimeout(seconds)
        stream.connect(("127.0.0.1", self.port))
        stream.setsockopt(socket.IPPROTO_TCP, socket.TCP_NODELAY, 1)
        return stream

    def resident(self):
        """How many KiB of memory the program has."""
        return self.counted("VmRSS")

    def threads(self):
        """How many threads the program has."""
        return self.counted("Threads")

    def counted(self, name):
        """A number of the program's that the system tells."""
        lines = pathlib.Path(f"/proc/{self.process.pid}/status").read_text().splitlines()
        return next(int(line.split()[1]) for line in lines if line.startswith(f"{name}:"))

    def files(self):
        """How many files the program has open, each client being one."""
        return len(os.listdir(f"/proc/{self.process.pid}/fd"))

    def ended(self):
        """The status of the program, which is ended if it runs, and what it wrote but for how it serves."""
        if self.process.poll() is None:
            self.process.terminate()
        out, err = self.process.communicate(timeout=30)
        return self.process.returncode, out, without_serving(err)

    def stopped(self):
        """The same, and the session's files go away."""
        ended = self.ended()
        self.folder.cleanup()
        return ended

    def __enter__(self):
        return self

    def __exit__(self, *_):
        if not self.process.stdout.closed:
            self.stopped()


def some_deals(rng, count):
    """So many deals in PBN, each of which has the pack dealt anew."""
    pack = [(suit, rank) for suit in SUITS for rank in RANKS]
    texts = []
    for number in range(1, count + 1):
        rng.shuffle(pack)
        hands = [".".join("".join(rank for rank in RANKS if (suit, rank) in pack[13 * k:13 * k + 13]) for suit in SUITS) for k in range(4)]
        texts.append(f'[Board "{number}"]\n[Deal "N:{" ".join(hands)}"]\n\n')
    return "".join(texts)


def head(fields=None, more=(), request="GET / HTTP/1.1"):
    """The head of a handshake. A field whose value is None is left out."""
    given = {**FIELDS, **(fields or {})}
    lines = [request, *(f"{name}: {value}" for name, value in given.items() if value is not None), *more]
    return ("\r\n".join(lines) + "\r\n\r\n").encode("latin-1")


def masked(payload, mask):
    return bytes(byte ^ mask[place % 4] for place, byte in enumerate(payload))


def frame(opcode, payload=b"", last=True, reserved=0, mask=MASK, length=None, width=None):
    """A client's frame. `length` is what its head says, and `width` the bits that say it (7, 16 or 64)."""
    size = len(payload) if length is None else length
    width = width or (7 if size < 126 else 16 if size < 65_536 else 64)
    first = (0x80 if last else 0) | reserved << 4 | opcode
    bit = 0 if mask is None else 0x80
    start = bytes([first, bit | {7: size, 16: 126, 64: 127}[width]])
    start += b"" if width == 7 else struct.pack(">H" if width == 16 else ">Q", size)
    return start + (payload if mask is None else mask + masked(payload, mask))


def close(code=None, reason=b""):
    return frame(CLOSE, b"" if code is None else struct.pack(">H", code) + reason)


class Ended(Exception):
    """The stream ended (`end`), was reset (`reset`), or nothing came in time (`silence`)."""


class Client:
    """A client after its handshake, which is answered as RFC 6455 says."""

    def __init__(self, server, seconds=10, room=None, request=None):
        self.stream, self.bytes = server.stream(seconds, room), b""
        self.stream.sendall(request or head())
        self.answer = self.whole_head()
        status, *lines = self.answer.decode("latin-1").split("\r\n")
        fields = {name.lower(): value for name, value in (line.split(": ", 1) for line in lines if line)}
        if not status.startswith("HTTP/1.1 101 ") or fields.get("sec-websocket-accept") != ACCEPT:
            raise AssertionError(f"no handshake: {self.answer!r}")

    def send(self, data):
        self.stream.sendall(data)

    def receive(self):
        """More bytes, of which there is one at least."""
        try:
            more = self.stream.recv(262_144)
        except (ConnectionResetError, BrokenPipeError):
            raise Ended("reset") from None
        except TimeoutError:
            raise Ended("silence") from None
        if not more:
            raise Ended("end")
        self.bytes += more

    def whole_head(self):
        while b"\r\n\r\n" not in self.bytes:
            self.receive()
        whole, _, self.bytes = self.bytes.partition(b"\r\n\r\n")
        return whole

    def exactly(self, count):
        while len(self.bytes) < count:
            self.receive()
        taken, self.bytes = self.bytes[:count], self.bytes[count:]
        return taken

    def next(self):
        """The next frame of the server: its opcode and its payload."""
        first, size = self.exactly(2)
        assert first & 0x70 == 0 and first & 0x80 and not size & 0x80, (first, size)
        if size == 126:
            size, = struct.unpack(">H", self.exactly(2))
            assert size > 125, size
        elif size == 127:
            size, = struct.unpack(">Q", self.exactly(8))
            assert size > 65_535, size
        return first & 15, self.exactly(size)

    def ask(self, message):
        """The text that answers a message, which is a text or an object."""
        self.send(frame(TEXT, (message if isinstance(message, str) else text_of(message)).encode()))
        opcode, payload = self.next()
        assert opcode == TEXT, (opcode, payload)
        return payload.decode()

    def rest(self):
        """All frames that still come, and how the stream ends."""
        frames = []
        try:
            while True:
                frames.append(self.next())
        except Ended as end:
            return frames, str(end)

    def leave(self):
        """Ends the connection as RFC 6455 has it, and says whether the server does so too."""
        self.send(close(1000))
        heard = self.rest()
        self.stream.close()
        return heard == ([(CLOSE, struct.pack(">H", 1000))], "end")


def is_served(server, seconds=10):
    """Whether a client is served within this time, with nobody signed in, and its close is answered."""
    try:
        client = Client(server, seconds)
        return client.ask(STATUS) == NOT_SIGNED_IN and client.leave()
    except (Ended, OSError, AssertionError):
        return False

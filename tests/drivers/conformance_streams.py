"""A part of tests/drivers/conformance.py: how streams end."""
import json
import socket
import struct
import time

from conformance_cases import GREETED, HELLO, MALFORMED, Played, heard, note
from raw_client import STATUS, TEXT, Client, frame, head


def reset(stream):
    stream.setsockopt(socket.SOL_SOCKET, socket.SO_LINGER, struct.pack("ii", 1, 0))
    stream.close()


def leaves(what, begin, end):
    """A client that is gone; what is to be seen is that the next one is served."""
    stream = begin()
    time.sleep(0.01)
    end(stream)
    note(what, None, None)


def streams():
    """Clients that are gone in the middle of anything."""
    def begun(data):
        def begin():
            stream = Played.server.stream()
            stream.sendall(data)
            return stream
        return begin

    def shaken(data):
        def begin():
            client = Client(Played.server)
            client.send(data)
            return client.stream
        return begin

    for how, end in (("ends", socket.socket.close), ("is reset", reset)):
        for data in (b"", head()[:60], head()):
            leaves(f"a stream that {how} after {len(data)} bytes of a handshake", begun(data), end)
        for count in (0, 1, 2, 5, 6, 20):
            leaves(f"a stream that {how} after {count} bytes of a frame", shaken(frame(TEXT, HELLO)[:count]), end)
        leaves(f"a stream that {how} with 2,000 answers unread", shaken(frame(TEXT, STATUS.encode()) * 2_000), end)
    frames, end = heard(frame(TEXT, HELLO) + frame(TEXT, b"x"), ends=True)
    note("two texts before the client's half of the stream ends are answered", ([GREETED, MALFORMED], "end"), (frames[:2], end))
    for _ in range(100):
        Played.server.stream().close()
    note("100 streams that end at once", None, None)
    halves = [begun(head()[:60])() for _ in range(100)]
    note("beside 100 halves of a head", None, None)
    for stream in halves:
        stream.close()
    standing = versions_after_a_reset()
    note("two commands before a reset stand", 2, standing)


def versions_after_a_reset():
    """By how much the version is higher after a client that sent two commands and was reset."""
    def version(client):
        client.ask({"hello": "d", "token": "abc"})
        return json.loads(client.ask(STATUS))["version"]

    client = Client(Played.server)
    before = version(client)
    client.send(b"".join(frame(TEXT, b'{"do":[{"board":1,"cmd":"%s"}]}' % word) for word in (b"Hold", b"Release")))
    time.sleep(0.2)
    reset(client.stream)
    client = Client(Played.server)
    after = version(client)
    client.leave()
    return after - before

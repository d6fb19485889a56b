"""A case of tests/drivers/conformance.py: what a client sends to the one server, what comes of it, and whether the next client is served."""
import socket
import struct
import time

from raw_client import CLOSE, TEXT, Client, close, is_served

HELLO = b'{"hello":"n1","token":"abc"}'
GREETED, MALFORMED, TOO_LONG, NOT_KNOWN = (
    (TEXT, text) for text in (b'{"hello":"n1"}', b'{"error":"Malformed"}', b'{"error":"TooLong"}', b'{"error":"NotKnown"}'))


class Played:
    """The server that has all cases, how many there were, and which of them failed."""
    server = None
    cases = 0
    failed = []


def note(what, wanted, got):
    """A case: what was wanted has come, and the next client is served."""
    Played.cases += 1
    if not is_served(Played.server):
        got = f"{got}, and the next client isn't served"
    if wanted != got:
        Played.failed.append(what)
        print(f"FAILED  {what}\n        wanted {wanted!r}\n        got    {got!r}", flush=True)


def closing(code, reason=b""):
    return CLOSE, struct.pack(">H", code) + reason


def heard(sent, pause=0.0, seconds=10, ends=False):
    """What comes after a handshake of what is sent, in a piece or in pieces."""
    client = Client(Played.server, seconds)
    try:
        for piece in [sent] if isinstance(sent, bytes) else sent:
            client.send(piece)
            time.sleep(pause)
        if ends:
            client.stream.shutdown(socket.SHUT_WR)
    except OSError:
        pass
    frames, end = client.rest()
    client.stream.close()
    return frames, end


def answered(what, sent, *frames, **how):
    """A client that sends this and a close hears these frames and a close."""
    pieces = [sent] if isinstance(sent, bytes) else list(sent)
    note(what, ([*frames, closing(1000)], "end"), heard([*pieces, close(1000)], **how))


def ended(what, sent, code, *frames, **how):
    """A connection ends with this code, after these frames. Where bytes of the client stand unread the stream may be reset, and the
    code lost (docs/RUNNING.md)."""
    got = heard(sent, **how)
    wanted = [*frames, closing(code)], "end"
    note(what, wanted, wanted if got[1] == "reset" and got[0] in (wanted[0], wanted[0][:-1]) else got)


def padded(count, text=HELLO):
    return text + b" " * (count - len(text))

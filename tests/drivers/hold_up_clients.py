"""The clients of tests/drivers/hold_ups.py. Each answers its stream, and what it goes on doing."""
from raw_client import CLOSE, CONTINUATION, NOT_SIGNED_IN, PING, STATUS, TEXT, Client, frame, head

# as docs/RUNNING.md has them, in seconds: to shake hands, to sign in, to take an answer, and unread after a greeting that is refused
HANDSHAKE, GREETING, ANSWER, HELD = 10, 10, 30, 1
# what --idle says here, where that is waited for, and where it isn't
IDLE, LONG_IDLE = 4, 300
OWN_ORIGIN = "https://bridge.example.org"
SIGNS_IN, SIGNED_IN = {"hello": "a", "token": "abc"}, '{"hello":"a"}'


def until_ended(stream):
    """What still comes of a stream."""
    heard = b""
    try:
        while more := stream.recv(65_536):
            heard += more
    except ConnectionResetError:
        pass
    except TimeoutError:
        return heard + b" and no end"
    return heard


def slowly(pieces, pause):
    """A thing to do beside: sends one piece after another, until the server has ended the connection."""
    def send(stream, ended):
        for piece in pieces:
            if ended.wait(pause):
                return
            try:
                stream.sendall(piece)
            except OSError:
                return
    return send


def says_nothing(server):
    return server.stream(60), None


def half_a_handshake(server):
    stream = server.stream(60)
    stream.sendall(head()[:60])
    return stream, None


def a_byte_at_times(server):
    stream = server.stream(60)
    return stream, slowly([bytes([byte]) for byte in head(more=["X-Long: " + "a" * 500])], 0.5)


def a_head_without_an_end(server):
    stream = server.stream(60)
    stream.sendall(head()[:-2] + b"X-Long: ")
    return stream, slowly([b"a" * 256] * 200, 0.2)


def a_head_of_100_kb(server):
    stream = server.stream(60)
    stream.sendall(head(more=["X-Long: " + "a" * 100_000]))
    return stream, None


def nothing_after_the_handshake(server):
    return Client(server, 60).stream, None


def nothing_after_a_message(server):
    client = Client(server, 60)
    assert client.ask(STATUS) == NOT_SIGNED_IN
    return client.stream, None


def pings_as_a_stranger(server):
    client = Client(server, 60)
    return client.stream, slowly([frame(PING, b"here")] * 200, 0.5)


def asks_as_a_stranger(server):
    client = Client(server, 60)
    return client.stream, slowly([frame(TEXT, STATUS.encode())] * 200, 0.5)


def signed_in(server, **more):
    client = Client(server, 60, **more)
    assert client.ask(SIGNS_IN) == SIGNED_IN
    return client


def asks(client):
    return '"status"' in client.ask(STATUS)


def nothing_after_signing_in(server):
    return signed_in(server).stream, None


def half_a_frame(server):
    client = signed_in(server)
    client.send(frame(TEXT, STATUS.encode())[:9])
    return client.stream, None


def a_frame_byte_by_byte(server):
    return signed_in(server).stream, slowly([bytes([byte]) for byte in frame(TEXT, b" " * 60_000)], 0.5)


def fragments_without_an_end(server):
    client = signed_in(server)
    client.send(frame(TEXT, b"", last=False))
    return client.stream, slowly([frame(CONTINUATION, b"", last=False)] * 200, 0.5)


def floods_with_fragments(server):
    """Sends empty parts of a message without a pause: what is read of it never comes to a message."""
    client = signed_in(server)
    client.send(frame(TEXT, b"", last=False))
    return client.stream, slowly([frame(CONTINUATION, b"", last=False) * 10_000] * 10_000, 0)


def pump(client, piece):
    """Sends the same for ever and reads nothing, until the server takes no more."""
    client.stream.settimeout(3)
    try:
        while True:
            client.send(piece)
    except (TimeoutError, ConnectionError):
        client.stream.settimeout(60)


def reads_no_answer(server):
    client = signed_in(server, room=4096)
    pump(client, frame(TEXT, b'{"ask":"accounts"}') * 500)
    return client.stream, None


def reads_no_pong(server):
    # with as much room as the system gives: where the room of so many small answers shrinks under those that are on their way, the system
    # takes no note of what the other side can take again, and both wait
    client = signed_in(server)
    pump(client, frame(PING, b"p" * 125) * 500)
    return client.stream, None


def breaks_a_rule(server):
    client = Client(server, 60)
    client.send(frame(3))
    return client.stream, None


def closes_and_stays(server):
    client = Client(server, 60)
    client.send(frame(CLOSE, b"\x03\xe8"))
    return client.stream, None


def another_origin(server):
    stream = server.stream(60)
    stream.sendall(head({"Origin": "https://evil.example.org"}))
    return stream, None


def is_403(heard):
    return heard.startswith(b"HTTP/1.1 403 Forbidden\r\n") and heard.endswith(b"\r\n\r\n")


def is_431(heard):
    return heard.startswith(b"HTTP/1.1 431 Request Header Fields Too Large\r\n")


def is_pongs(heard):
    return len(heard) > 0 and heard == b"\x8a\x04here" * (len(heard) // 6)


def is_not_signed_in(heard):
    answer = frame_of_server(NOT_SIGNED_IN)
    return len(heard) > 0 and heard == answer * (len(heard) // len(answer))


def frame_of_server(text):
    return bytes([0x81, len(text)]) + text.encode()


# who it is, what it does, after how many seconds it is ended, and what it hears (None: it doesn't read)
HOLD_UPS = [
    ("connects and says nothing", says_nothing, LONG_IDLE, HANDSHAKE, b""),
    ("sends half a handshake", half_a_handshake, LONG_IDLE, HANDSHAKE, b""),
    ("sends its handshake a byte every half second", a_byte_at_times, LONG_IDLE, HANDSHAKE, b""),
    ("sends a head that doesn't end", a_head_without_an_end, LONG_IDLE, HANDSHAKE, b""),
    ("sends a head of 100 kB", a_head_of_100_kb, LONG_IDLE, 0, is_431),
    ("says nothing after the handshake", nothing_after_the_handshake, LONG_IDLE, GREETING, b""),
    ("says nothing after a message, and never signs in", nothing_after_a_message, LONG_IDLE, GREETING, b""),
    ("pings and never signs in", pings_as_a_stranger, LONG_IDLE, GREETING, is_pongs),
    ("asks and never signs in", asks_as_a_stranger, LONG_IDLE, GREETING, is_not_signed_in),
    ("says nothing after it has signed in", nothing_after_signing_in, IDLE, IDLE, b""),
    ("sends half a frame", half_a_frame, IDLE, IDLE, b""),
    ("sends a frame a byte every half second", a_frame_byte_by_byte, IDLE, IDLE, b""),
    ("sends a fragment every half second, and never the last", fragments_without_an_end, IDLE, IDLE, b""),
    ("floods with fragments", floods_with_fragments, IDLE, IDLE, b""),
    ("asks and reads no answer", reads_no_answer, LONG_IDLE, ANSWER, None),
    ("pings and reads no pong", reads_no_pong, LONG_IDLE, ANSWER, None),
    ("breaks a rule and stays", breaks_a_rule, LONG_IDLE, 0, b"\x88\x02\x03\xea"),
    ("closes and stays", closes_and_stays, LONG_IDLE, 0, b"\x88\x02\x03\xe8"),
    ("comes from an origin that isn't allowed", another_origin, LONG_IDLE, 0, is_403),
]

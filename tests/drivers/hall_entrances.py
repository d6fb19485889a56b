"""Who is let in, for tests/drivers/hold_ups.py: by what origin, in a crowd, as a stranger, and where there is no room."""
import pathlib
import time

from checks import check
from hold_up_clients import OWN_ORIGIN, SIGNED_IN, SIGNS_IN, asks, is_403, signed_in, until_ended
from raw_client import NOT_SIGNED_IN, STATUS, Client, Server, head, is_served

# how many clients come at once: more than a listening socket has room for that isn't told how many
CROWD = 400
LET_IN, FULL = b"HTTP/1.1 101 Switching Protocols", b"HTTP/1.1 503 Service Unavailable"
# what a handshake says of its origin, and whether it may go on, where only OWN_ORIGIN may
ORIGINS = [
    ([], True), ([OWN_ORIGIN], True), ([OWN_ORIGIN, OWN_ORIGIN], True), (["https://evil.example.org"], False), (["null"], False),
    ([OWN_ORIGIN + "/"], False), ([OWN_ORIGIN + ".evil.example.org"], False), (["http://bridge.example.org"], False),
    ([OWN_ORIGIN + ":443"], False), ([OWN_ORIGIN, "null"], False), (["null", OWN_ORIGIN], False), ([""], False),
    (["https://bridge.example"], False), ([f"{OWN_ORIGIN} https://evil.example.org"], False),
]


def answered(server, origins):
    """The first line that answers a handshake with these lines of origins, and whether the stream ends without it."""
    stream = server.stream(10)
    stream.sendall(head(more=[f"Origin: {origin}" for origin in origins]))
    heard = b""
    while b"\r\n\r\n" not in heard:
        more = stream.recv(65_536)
        if not more:
            break
        heard += more
    ends = is_403(heard) and until_ended(stream) == b""
    stream.close()
    return heard.split(b"\r\n")[0].decode("latin-1"), ends


def origins(program):
    """An origin that isn't the allowed one fails the handshake; with no allowed one named, any will do."""
    accepted, refused = ("HTTP/1.1 101 Switching Protocols", False), ("HTTP/1.1 403 Forbidden", True)
    with Server(program, "--displays", 1, "--workers", 0, "--origin", OWN_ORIGIN) as server:
        for origin, allowed in ORIGINS:
            check(f"a handshake with the origins {origin}, where {OWN_ORIGIN} may", accepted if allowed else refused, answered(server, origin))
        check("after these the next is served", True, is_served(server))
    with Server(program, "--displays", 1, "--workers", 0) as server:
        for origin, _ in ORIGINS:
            check(f"a handshake with the origins {origin}, where any may", accepted, answered(server, origin))
        check("after these the next is served", True, is_served(server))


def crowd(program):
    """A crowd comes at once, and each of them is served, beside the one who was there."""
    room = int(pathlib.Path("/proc/sys/net/core/somaxconn").read_text())
    many = min(CROWD, room)
    with Server(program, "--displays", 1, "--workers", 0, "--clients", 10_000) as server:
        first, streams, lines = Client(server, 10), [], []
        for _ in range(many):
            streams.append(server.stream(10))
            streams[-1].sendall(head())
        for stream in streams:
            lines.append(stream.recv(65_536).split(b"\r\n")[0])
        check(f"{many} clients come at once, and each is served", [LET_IN] * many, lines)
        check("the one before them is served on", NOT_SIGNED_IN, first.ask(STATUS))
        for stream in streams:
            stream.close()


def first_line(server):
    """The first line that answers a handshake, its stream, and whether that ends."""
    stream = server.stream(10)
    stream.sendall(head())
    heard = stream.recv(65_536)
    line = heard.split(b"\r\n")[0]
    return line, stream, b" 101 " not in line and until_ended(stream) == b""


def strangers(program):
    """Of forty clients four may be strangers: one more is told so and ended, until one has signed in or gone."""
    with Server(program, "--displays", 2, "--workers", 0, "--clients", 40) as server:
        there = [Client(server, 10) for _ in range(4)]
        line, stream, ends = first_line(server)
        check("a fifth stranger of forty clients is told that there is no room, and ended", (FULL, True), (line, ends))
        check("who signs in makes room", SIGNED_IN, there[0].ask(SIGNS_IN))
        there.append(Client(server, 10))
        check("until another has come", FULL, first_line(server)[0])
        there.pop().leave()
        check("and again once that one has gone", True, is_served(server, 10))
        check("those who are there are served on", [True] + [False] * 3, [asks(client) for client in there])


def is_served_soon(server):
    """Whether a client is served within ten seconds: the display of the one that has gone may still have to count it, while another display accepts."""
    until = time.monotonic() + 10
    while time.monotonic() < until:
        if is_served(server, 10):
            return True
        time.sleep(0.05)
    return False


def full(program):
    """One more than there may be is told so and ended, until one has gone."""
    with Server(program, "--displays", 2, "--workers", 0, "--clients", 3) as server:
        there = [signed_in(server) for _ in range(3)]
        line, stream, ends = first_line(server)
        check("a fourth client of three is told that there is no room, and ended", (FULL, True), (line, ends))
        check("the three are served on", [True] * 3, [asks(client) for client in there])
        there.pop().leave()
        check("once one has gone another is served", True, is_served_soon(server))

#!/usr/bin/env python3
"""Plays the clients that would keep others from being served, and says how long each of them is there.

    python3 tests/drivers/hold_ups.py crates/bridge_server/out/bridge_server

Each client has a server of its own with one display, and beside it a scorer who is signed in and asks all along: he must be answered
at once, whatever the other does, until that one's connection has ended. What is wanted is the table "Who hears what" of
docs/RUNNING.md, never what the program did. All servers run at once, on 127.0.0.1; it takes about three quarters of a minute. Each
line is a check: 'ok', or 'FAILED' with what came. The status is 1 where one failed.
"""
import signal
import sys
import threading
import time

from checks import check, status
from hall_entrances import crowd, full, origins, strangers
from hold_up_clients import GREETING, HANDSHAKE, HELD, HOLD_UPS, IDLE, OWN_ORIGIN, asks, signed_in, until_ended
from raw_client import BINARY, PING, PONG, STATUS, TEXT, Server, frame, is_served
from signalled_server import signalled, stopped

PROGRAM = sys.argv[1] if len(sys.argv) > 1 else "crates/bridge_server/out/bridge_server"
# how much later than its time an end may come on a machine that has much to do, and where the server has first to fill what the
# system holds of answers
LATE, LATE_FOR_ANSWERS = 8, 60
# within how many seconds the scorer beside is answered, on a machine that has much to do
AT_ONCE = 2


def asks_all_along(server, stop, waits):
    """A scorer who asks again and again, and how many seconds each answer took."""
    client = signed_in(server)
    while not stop.is_set():
        begun = time.monotonic()
        if '"status"' not in client.ask(STATUS):
            waits.append("another answer")
        waits.append(time.monotonic() - begun)
        time.sleep(0.02)
    client.leave()


def until_asked(waits, count):
    """Waits until the scorer has had so many answers."""
    deadline = time.monotonic() + 60
    while len(waits) < count and time.monotonic() < deadline:
        time.sleep(0.01)


def until_unwritable(stream):
    """Waits until the server has ended the connection of a client that doesn't read."""
    stream.settimeout(1)
    while True:
        try:
            stream.sendall(b"\0")
        except TimeoutError:
            pass
        except OSError:
            return None
        time.sleep(0.1)


def hold_up(what, begin, idle, seconds, heard):
    """How long a client is there, what it hears meanwhile, and how long another waits for an answer beside it."""
    with Server(PROGRAM, "--displays", 1, "--workers", 0, "--idle", idle, "--origin", OWN_ORIGIN) as server:
        ended, stop, waits = threading.Event(), threading.Event(), []
        scorer = threading.Thread(target=asks_all_along, args=(server, stop, waits), daemon=True)
        scorer.start()
        until_asked(waits, 1)
        begun = time.monotonic()
        stream, goes_on = begin(server)
        if goes_on:
            threading.Thread(target=goes_on, args=(stream, ended), daemon=True).start()
        came = until_ended(stream) if heard is not None else until_unwritable(stream)
        took = time.monotonic() - begun
        ended.set()
        late = LATE if heard is not None else LATE_FOR_ANSWERS
        check(f"who {what}: it is ended after about {seconds} s ({took:.1f} s)", True, seconds - 1 <= took <= seconds + late)
        if callable(heard):
            check(f"who {what}: it hears what it has to ({came[:60]!r})", True, heard(came))
        elif heard is not None:
            check(f"who {what}: it hears {heard!r}, and then the end", heard, came)
        until_asked(waits, len(waits) + 2)
        stop.set()
        scorer.join(30)
        longest = max((wait for wait in waits if not isinstance(wait, str)), default=float("inf"))
        check(f"who {what}: another is answered at once all along ({len(waits)} times, the slowest {longest:.3f} s)", True,
              len(waits) > seconds and longest < AT_ONCE and "another answer" not in waits)
        stream.close()
        check(f"who {what}: the next one is served as well", True, is_served(server, 30))


def stays(what, send):
    """A client that says something in time is served on."""
    with Server(PROGRAM, "--displays", 1, "--workers", 0, "--idle", IDLE) as server:
        client = signed_in(server)
        until = time.monotonic() + 4 * IDLE
        heard = []
        while time.monotonic() < until:
            heard.append(send(client))
            time.sleep(IDLE / 3)
        check(f"who {what} every {IDLE / 3:.1f} s stays, and is answered each time", {True}, set(heard))
        check(f"who {what}: it is answered still, after {4 * IDLE} s", True, asks(client))
        check(f"who {what}: and its close is answered", True, client.leave())


def pings(client):
    client.send(frame(PING, b"here"))
    return client.next() == (PONG, b"here")


def sends_what_is_no_text(client):
    client.send(frame(BINARY, b"?"))
    return client.next() == (TEXT, b'{"error":"Malformed"}')


def guesses():
    """After a greeting that is refused a connection isn't read for a second, and no other waits for it."""
    with Server(PROGRAM, "--displays", 1, "--workers", 0) as server:
        other, client = signed_in(server), signed_in(server)
        for token in ("abd", "abe"):
            begun = time.monotonic()
            answers = [client.ask({"hello": "a", "token": token})]
            beside = other.ask(STATUS)
            meanwhile = time.monotonic() - begun
            answers.append(client.ask(STATUS))
            took = time.monotonic() - begun
            check(f"a guess is answered at once, and the next message after about {HELD} s ({took:.2f} s)", (True, True, True),
                  ("NotKnown" in answers[0], '"status"' in answers[1], HELD <= took <= HELD + LATE))
            check(f"another is answered meanwhile ({meanwhile:.2f} s)", (True, True), ('"status"' in beside, meanwhile < HELD))


def tablets():
    """33 clients who have signed in and say nothing keep nobody from anything, and are served on."""
    with Server(PROGRAM, "--workers", 0) as server:
        there = [signed_in(server) for _ in range(33)]
        begun = time.monotonic()
        check("beside 33 who have signed in and say nothing the next is served", True, is_served(server, 10))
        took = time.monotonic() - begun
        check(f"and at once ({took:.2f} s)", True, took < AT_ONCE)
        time.sleep(HANDSHAKE + GREETING + 2)
        check(f"the 33 are served still, {HANDSHAKE + GREETING + 2} s later", [True] * 33, [asks(client) for client in there])
        for client in there:
            client.stream.close()


def main():
    tasks = [threading.Thread(target=hold_up, args=row) for row in HOLD_UPS]
    tasks += [threading.Thread(target=stays, args=row) for row in
              (("sends a ping", pings), ("sends a message", asks), ("sends a binary message", sends_what_is_no_text))]
    tasks.append(threading.Thread(target=tablets))
    for task in tasks:
        task.start()
    origins(PROGRAM)
    crowd(PROGRAM)
    strangers(PROGRAM)
    full(PROGRAM)
    guesses()
    for task in tasks:
        task.join()
    for number in (signal.SIGTERM, signal.SIGINT):
        signalled(PROGRAM, number)
    stopped(PROGRAM)
    return status()


if __name__ == "__main__":
    sys.exit(main())

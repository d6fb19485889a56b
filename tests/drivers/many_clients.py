#!/usr/bin/env python3
"""Calls `bridge_server serve` by many clients at once, and compares each reply with the plain model of tests/models/session_model.py.

    /usr/bin/python3 tests/drivers/many_clients.py crates/bridge_server/out/bridge_server
    /usr/bin/python3 tests/drivers/many_clients.py PROGRAM --seed 7 --seconds 5 [PART ..]

It needs Debian's package python3-websockets (10.4 or later), and is not part of the gate. It takes about half a minute. The parts are
`8`, `32`, `silent`, `closing`, `solver`, `memory` and `handshake`; without a word all of them run.

In `8` and `32` so many clients are served at once, in a session of the first edition and of the second. Some send batches, the others
ask queries of every kind as fast as they can.
Afterwards the batches are put in the order of their receipts and replayed in the model: it must answer each batch as the server
did, and each reply must be, byte for byte, what the model replies at the version that the reply names. What the clients send comes
from the seed; how they fall among one another doesn't, so a run can't be had again.

Each line is a check: 'ok', or 'FAILED' with what came; indented lines tell what was seen. The status is 1 where a check failed. What
is wanted comes from docs/PROTOCOL.md, docs/POLICY.md, docs/RUNNING.md and RFC 6455, never from the program.
"""
import argparse
import asyncio
import os
import pathlib
import random
import resource
import signal
import socket
import subprocess
import sys
import tempfile
import time

import websockets

sys.path[:0] = [str(pathlib.Path(__file__).resolve().parents[1] / folder) for folder in ("runs",)]
from checks import check, status, tell
from compared_talks import compare
from random_session import BOARDS, CLIENTS, EDITIONS, USERS, deal_text, pbn_text, session_of, some_hands
from raw_client import NOTHING_IS_KEPT, without_serving
from talking_clients import ask, conversations, signed_in, whole_audit
from write_stored_runs import WHOLE_SUITS, text_of

# ---- the program

def free_port():
    with socket.socket() as listener:
        listener.bind(("127.0.0.1", 0))
        return listener.getsockname()[1]


class Server:
    """The program, serving a session."""

    def __init__(self, session, deals, *words, most_addresses=None):
        self.folder = tempfile.TemporaryDirectory()
        folder = pathlib.Path(self.folder.name)
        (folder / "session.json").write_text(text_of(session))
        (folder / "deals.pbn").write_text(pbn_text(deals))
        self.port = free_port()
        self.process = subprocess.Popen(
            [PROGRAM, "serve", "--session", str(folder / "session.json"), "--deals", str(folder / "deals.pbn"), "--port", str(self.port),
             *map(str, words)],
            stdin=subprocess.DEVNULL, stdout=subprocess.PIPE, stderr=subprocess.PIPE,
            preexec_fn=most_addresses and (lambda: resource.setrlimit(resource.RLIMIT_AS, (most_addresses, most_addresses))))

    def address(self):
        return f"ws://127.0.0.1:{self.port}/"

    def __enter__(self):
        return self

    def __exit__(self, *_):
        if self.process.poll() is None:
            self.process.send_signal(signal.SIGTERM)
            self.process.wait()
        self.process.stdout.close()
        self.process.stderr.close()
        self.folder.cleanup()

    def stream(self):
        """A stream to the program, on which nothing was said yet; or None, where it ends instead of listening."""
        for _ in range(500):
            try:
                return socket.create_connection(("127.0.0.1", self.port), timeout=10)
            except ConnectionRefusedError:
                if self.process.poll() is not None:
                    return None
                time.sleep(0.01)
        return None

    def listens(self):
        stream = self.stream()
        if stream:
            stream.close()
            time.sleep(0.1)
        return stream is not None and self.process.poll() is None

    def status_within(self, seconds):
        try:
            return self.process.wait(timeout=seconds)
        except subprocess.TimeoutExpired:
            return "still running"


# ---- clients at once

def many(count, seed, seconds):
    writers, readers = CLIENTS[count]
    rng = random.Random(seed * 100 + count)
    hands = [some_hands(rng) for _ in BOARDS]
    clients = [(name, number < len(writers), rng.random()) for number, name in enumerate(writers + readers)]
    title, edition = f"{count} clients", EDITIONS[count]
    with Server(session_of(edition), [deal_text(one) for one in hands], "--displays", count, "--workers", 2) as server:
        told = conversations(server.address(), hands, clients, edition, seconds)
        check(f"{title}: all were signed in at once, and each was served to its end", [], [one for one in told if isinstance(one, str)])
        talks = [talk for one in told if not isinstance(one, str) for talk in one]
        audit = asyncio.run(whole_audit(server.address()))
        check(f"{title}: the program still runs", None, server.process.poll())
    compare(title, talks, audit, hands, edition)


# ---- the other parts

def small_session(budget=0, tables=3, per_set=1, rounds=3):
    return {"budget": budget, "per_set": per_set, "rounds": rounds, "tables": tables, "users": USERS[:10]}


def some_deals(seed, count):
    rng = random.Random(seed)
    return [deal_text(some_hands(rng)) for _ in range(count)]


HANDSHAKE = (b"GET / HTTP/1.1\r\nHost: 127.0.0.1\r\nUpgrade: websocket\r\nConnection: Upgrade\r\n"
             b"Sec-WebSocket-Key: dGhlIHNhbXBsZSBub25jZQ==\r\nSec-WebSocket-Version: 13\r\n")


def head_of(stream):
    head = b""
    while b"\r\n\r\n" not in head:
        part = stream.recv(1)
        if not part:
            break
        head += part
    return head


async def is_served(address, seconds):
    """Whether a client is served within this time."""
    try:
        client = await signed_in(address, "d", seconds)
    except (asyncio.TimeoutError, OSError, websockets.WebSocketException):
        return False
    served = "status" in await ask(client, {"ask": "status"})
    await client.close()
    return served


async def silent(seed):
    """Clients that say nothing keep nobody from anything, though there is one display."""
    with Server(small_session(), some_deals(seed, 3), "--displays", 1, "--workers", 0) as server:
        streams = [server.stream() for _ in range(3)]
        streams[1].sendall(HANDSHAKE[:60])
        streams[2].sendall(HANDSHAKE + b"\r\n")
        head_of(streams[2])
        await asyncio.sleep(0.2)
        fourth = await signed_in(server.address(), "d")
        check("silent: beside three clients that say nothing a fourth is served", True, "status" in await ask(fourth, {"ask": "status"}))
        check("silent: and a fifth", True, await is_served(server.address(), 5))
        streams[0].close()
        check("silent: and the next, once one of the silent clients has left", True, await is_served(server.address(), 5))
        check("silent: the fourth is served still", True, "status" in await ask(fourth, {"ask": "status"}))
        await fourth.close()
        for stream in streams[1:]:
            stream.close()


async def closing(seed):
    """The program ends although jobs still wait."""
    session = small_session(2_000_000, 8, 8, 7)
    with Server(session, some_deals(seed, 64), "--displays", 3, "--workers", 2, "--connections", 1) as server:
        clients = [await signed_in(server.address(), "d") for _ in range(3)]
        check("closing: three clients are served", [True] * 3, ["status" in await ask(client, {"ask": "status"}) for client in clients])
        waiting = [(await ask(clients[0], {"ask": "analysis", "board": board}))["analysis"]["tricks"] is None for board in range(1, 65)]
        for client in clients[:2]:
            await client.close()
        check("closing: the program runs on as long as one is there", True, "status" in await ask(clients[2], {"ask": "status"}))
        await clients[2].close()
        left = time.monotonic()
        check("closing: it ends with status 0 within 10 s after the last one", 0, server.status_within(10))
        tell(f"{time.monotonic() - left:.2f} s after; {sum(waiting)} of 64 boards weren't solved then")
        check("closing: and writes that nothing is kept", (b"", NOTHING_IS_KEPT), (server.process.stdout.read(), without_serving(server.process.stderr.read())))


async def solver(seed):
    """Double-dummy tables come while clients are served."""
    # Each player has a whole suit: who declares in a suit wins 13 tricks if the side holds it, else none; without trumps whoever
    # leads wins them all.
    whole = {"E": [0, 13, 0, 13, 0], "N": [13, 0, 13, 0, 0], "S": [13, 0, 13, 0, 0], "W": [0, 13, 0, 13, 0]}
    deals = ["N:" + WHOLE_SUITS, *some_deals(seed, 4)]
    with Server(small_session(10**18, 5), deals, "--displays", 4, "--workers", 2) as server:
        readers = [await signed_in(server.address(), name) for name in ("d", "d2")]
        begun, asked, slowest, found = time.monotonic(), 0, 0.0, {}
        while time.monotonic() < begun + 60 and len(found) < 3:
            for board in range(1, 6):
                sent = time.monotonic()
                reply = await ask(readers[asked % 2], {"ask": "analysis", "board": board})
                slowest, asked = max(slowest, time.monotonic() - sent), asked + 1
                if reply["analysis"]["tricks"] and board not in found:
                    found[board] = round(time.monotonic() - begun, 1), reply
            await asyncio.sleep(0.05)
        check("solver: the tables of three of five boards came while clients were served", True, len(found) >= 3)
        tell(f"seconds after which each was seen: { {board: seen for board, (seen, _) in found.items()} }; "
             f"{asked} queries meanwhile, the slowest {1000 * slowest:.1f} ms")
        newest = max((reply["version"] for _, reply in found.values()), default=0)
        queries = [{"ask": "analysis", "board": board, "since": newest} for board in found]
        both = [[(await ask(reader, query))["analysis"] for query in queries] for reader in readers]
        check("solver: both readers are told the same numbers", both[0], both[1])
        check("solver: and they are those that came first", [reply["analysis"] for _, reply in found.values()], both[0])
        first = found[1][1]["analysis"]["tricks"] if 1 in found else None
        check("solver: where each player has a whole suit, they are as worked by hand", whole, first)
        rows = (await ask(readers[0], {"audit": {"from": 1, "limit": 1000}}))["audit"]
        solved = {int(row[3]) for row in rows if row[1:3] == [None, "Solved"]}
        check("solver: the audit tells each of them", set(), set(found) - solved)
        for reader in readers:
            await reader.close()


async def as_many_as_there_can(address, most):
    """Clients that are served at once, so many as there can be, and what comes of the next."""
    clients = []
    while len(clients) < most:
        try:
            clients.append(await signed_in(address, "d", 0.3))
        except asyncio.TimeoutError:
            return clients, "the next waits"
        except (AssertionError, OSError, websockets.WebSocketException) as fault:
            return clients, f"the next is ended ({type(fault).__name__})"
    return clients, "no more tried"


def threads_of(process):
    """How many threads a program has."""
    lines = pathlib.Path(f"/proc/{process.pid}/status").read_text().splitlines()
    return next(int(line.split()[1]) for line in lines if line.startswith("Threads:"))


async def memory(seed):
    """Without room for every thread there are fewer displays, which serve all clients, or the program ends with status 4; it never crashes."""
    most, seen = 33, []
    for megabytes in (3, 4, 8, 9, 10, 12, 16, 20, 24, 28, 32, 36, 40, 64, 128):
        with Server(small_session(), some_deals(seed, 3), "--displays", 32, "--workers", 2, most_addresses=megabytes << 20) as server:
            clients, more, threads = [], "", 0
            if server.listens():
                clients, more = await as_many_as_there_can(server.address(), most)
                threads = threads_of(server.process)
            told = {text_of(await ask(client, {"ask": "status"})) for client in clients} - {'{"error":"OutOfMemory"}'}
            for client in clients:
                await client.close()
            await asyncio.sleep(0.05)
            status = server.process.poll()
            # Below 8 MiB there is no room for the program itself, and it doesn't begin: the loader ends with 127, or the system ends it by
            # a signal, where the program's segments had no room.
            ended = {127, -signal.SIGSEGV, -signal.SIGKILL} if megabytes < 8 else {4}
            check(f"memory: with {megabytes} MiB of addresses it runs on, and tells all the same, or it "
                  + ("never began" if megabytes < 8 else "ended with status 4"), (True, True),
                  (status is None or (status in ended and not clients), len(told) <= 1))
            seen.append((megabytes, status, len(clients), threads, more))
    for megabytes, status, count, threads, more in seen:
        tell(f"{megabytes:3} MiB: " + (f"{threads} threads, {count} clients at once, {more}" if status is None else f"status {status}"))
    # the program's own thread, its displays and workers, and one that enters what these find
    all_threads = 1 + 32 + 2 + 1
    counts = {megabytes: (count, threads) for megabytes, status, count, threads, _ in seen if status is None}
    check("memory: a limit leaves displays out, and the others serve all clients", True,
          any(count == most and threads < all_threads for count, threads in counts.values()))
    check("memory: with room for all threads all run", [(most, all_threads)] * 2, [counts.get(64), counts.get(128)])


async def handshake(seed):
    """The longest head is answered on a display's thread, and the next client is served. It has 64 fields and 16 KiB."""
    lines = [b"X-%03d: " % number + b"v" * 264 + b"\r\n" for number in range(59)]
    lines[-1] = b"X-last: " + b"v" * (16_384 - len(HANDSHAKE) - len(b"".join(lines[:-1])) - 12) + b"\r\n"
    head = HANDSHAKE + b"".join(lines) + b"\r\n"
    assert len(head) == 16_384, len(head)
    with Server(small_session(), some_deals(seed, 3), "--displays", 2, "--workers", 0, "--connections", 4) as server:
        for turn in (1, 2):
            streams = [server.stream() for _ in range(2)]
            for stream in streams:
                stream.sendall(head)
            check(f"handshake: a head of 64 fields and {len(head)} bytes is answered, beside another, turn {turn}", [True] * 2,
                  [head_of(stream).startswith(b"HTTP/1.1 101 ") for stream in streams])
            for stream in streams:
                stream.close()
        check("handshake: and so are the next clients", [True] * 2, [await is_served(server.address(), 5) for _ in range(2)])
        for _ in range(2):
            stream = server.stream()
            stream.close()
        check("handshake: the program ends with status 0", 0, server.status_within(10))


def main():
    for count in CLIENTS:
        if not PARTS or str(count) in PARTS:
            many(count, SEED, SECONDS)
    for part in (silent, closing, solver, memory, handshake):
        if not PARTS or part.__name__ in PARTS:
            asyncio.run(part(SEED))
    sys.exit(status())


if __name__ == "__main__":
    words = argparse.ArgumentParser(allow_abbrev=False)
    words.add_argument("program", nargs="?", default="crates/bridge_server/out/bridge_server")
    words.add_argument("parts", nargs="*", help="8, 32, silent, closing, solver, memory, handshake")
    words.add_argument("--seed", type=int, default=int.from_bytes(os.urandom(2), "big"))
    words.add_argument("--seconds", type=float, default=4)
    given = words.parse_intermixed_args()
    PROGRAM, PARTS, SEED, SECONDS = given.program, given.parts, given.seed, given.seconds
    if strange := set(PARTS) - {"8", "32", "silent", "closing", "solver", "memory", "handshake"}:
        words.error(f"no such part: {', '.join(strange)}")
    print(f"        seed {SEED}, {SECONDS:g} s of traffic in each of the first two parts")
    main()

"""Clients of tests/drivers/many_clients.py, on Debian's python3-websockets: each sends what its sender says, and keeps all that was said."""
import asyncio
import json
import multiprocessing
import pathlib
import sys
import time

import websockets

sys.path[:0] = [str(pathlib.Path(__file__).resolve().parents[1] / folder) for folder in ("runs",)]
from random_session import Sender, users_of
from write_stored_runs import text_of

PROCESSES = 3


async def connect(address, seconds=10):
    for _ in range(500):
        try:
            return await websockets.connect(address, compression=None, max_size=None, open_timeout=seconds, close_timeout=min(seconds, 1),
                                            ping_interval=None)
        except ConnectionRefusedError:
            await asyncio.sleep(0.01)
    raise SystemExit("the program doesn't listen")


async def ask(client, message):
    await client.send(text_of(message))
    return json.loads(await asyncio.wait_for(client.recv(), 10))


async def signed_in(address, name, seconds=10):
    client = await connect(address, seconds)
    greeting = await ask(client, {"hello": name, "token": "abc"})
    assert greeting == {"hello": name}, greeting
    return client


class Conversation:
    """One client's connection, and all that was said on it: what was sent, by whom, and what came."""

    def __init__(self, sender, client):
        self.sender, self.client, self.said = sender, client, []

    async def say(self, message):
        await self.client.send(text_of(message))
        answer = await self.client.recv()
        self.said.append((self.sender.name, message, answer))
        self.sender.hear(json.loads(answer))

    async def read(self, until, greets):
        rng = self.sender.rng
        while time.time() < until:
            if greets and rng.random() < 0.03:
                name = rng.choice([account["name"] for account in users_of(self.sender.edition)])
                await self.client.send(text_of({"hello": name, "token": "abc"}))
                answer = await self.client.recv()
                assert answer == text_of({"hello": name}), answer
                self.sender.name = name
            await self.say(self.sender.query())

    async def write(self, begin, until):
        """Batches and queries."""
        sender, last = self.sender, until - begin
        while time.time() < until:
            await self.say({"do": sender.batch_after((time.time() - begin) / last)})
            for _ in range(sender.rng.randint(0, 2)):
                await self.say(sender.query())
            await self.say({"ask": "status"})
            await asyncio.sleep(sender.rng.random() * 0.03)


async def converse(address, hands, clients, edition, all_in, seconds):
    """What these clients said and heard. Each is (its name, whether it writes, its seed)."""
    talks = []
    for name, writes, seed in clients:
        first = "a2" if name == "*" else name
        talks.append((Conversation(Sender(first, hands, seed, edition), await signed_in(address, first)), name, writes))
    all_in.wait(30)
    begin = time.time()
    until = begin + seconds
    turns = [talk.write(begin, until) if writes else talk.read(until, name == "*") for talk, name, writes in talks]
    await asyncio.wait_for(asyncio.gather(*turns), seconds + 30)
    for talk, _, _ in talks:
        await talk.client.close()
    return [talk.said for talk, _, _ in talks]


def in_a_process(pipe, *words):
    try:
        pipe.send(asyncio.run(converse(*words)))
    except BaseException as fault:
        pipe.send(repr(fault))


def conversations(address, hands, clients, edition, seconds):
    """The conversations of all these clients, which several processes hold; nobody begins before all are signed in."""
    context = multiprocessing.get_context("fork")
    all_in, started = context.Barrier(PROCESSES), []
    for number in range(PROCESSES):
        own, other = context.Pipe()
        process = context.Process(target=in_a_process, args=(other, address, hands, clients[number::PROCESSES], edition, all_in, seconds))
        process.start()
        started.append((process, own))
    told = [own.recv() if own.poll(seconds + 60) else "a process said nothing" for _, own in started]
    for process, _ in started:
        process.join()
    return told


async def whole_audit(address):
    """The journal as a director reads it, once nothing was entered any more for half a second."""
    client = await signed_in(address, "d")
    rows, quiet = [], 0
    while quiet < 5:
        got = (await ask(client, {"audit": {"from": len(rows) + 1, "limit": 1000}}))["audit"]
        rows, quiet = rows + got, 0 if got else quiet + 1
        await asyncio.sleep(0 if got else 0.1)
    await client.close()
    return rows

#!/usr/bin/env python3
"""Many connections, one after another and beside one another, for a minute against a server of four displays, while scorers write.

    /usr/bin/python3 tests/drivers/load.py crates/bridge_server/out/bridge_server [SECONDS] [SEED] [AT_ONCE]

It needs Debian's package python3-websockets, as tests/drivers/many_clients.py does; both have the senders of tests/drivers/random_session.py. 1,000
clients, or so many as are said, are there at once: each connects, greets, asks, leaves, and comes again as somebody else, and half of them stay
and ask every two seconds. Six more stay, and send batches. Then every batch and every reply is compared with the plain model, byte for byte; no
message may be without its answer, the memory of the program may grow by its journal alone, and in the end it serves still. Each line is a check:
'ok', or 'FAILED' with what came. The status is 1 where one failed.
"""
import asyncio
import json
import multiprocessing
import pathlib
import random
import sys
import threading
import time

sys.path[:0] = [str(pathlib.Path(__file__).resolve().parents[1] / folder) for folder in ("runs",)]
from checks import check, status, tell
from compared_talks import compare
from random_session import BOARDS, CLIENTS, PER_SET, ROUNDS, TABLES, USERS, Sender, deal_text, pbn_text, some_hands
from raw_client import NOTHING_IS_KEPT, Client, Ended, Server, files_allowed
from talking_clients import whole_audit
from write_stored_runs import text_of

PROGRAM = sys.argv[1] if len(sys.argv) > 1 else "crates/bridge_server/out/bridge_server"
SECONDS = float(sys.argv[2]) if len(sys.argv) > 2 else 60
SEED = int(sys.argv[3]) if len(sys.argv) > 3 else 2026
AT_ONCE = int(sys.argv[4]) if len(sys.argv) > 4 else 1000
DISPLAYS, PROCESSES = 4, 3
# of so many clients a tenth may be there who haven't signed in yet, and all may come in one moment
PLACES = min(10_000, 10 * (AT_ONCE + 10))
WRITERS = CLIENTS[32][0]
# What an entry of the journal may take in all that keeps it, what a client may, whose longest answer is kept for the next, and what may come
# and go besides, in KiB.
PER_ENTRY, PER_CLIENT, BESIDES = 1, 8, 2048
# how long a client waits for an answer at most, on a machine whose clients need most of it; and between two questions
MOST_SECONDS, PAUSE = 60, 2


class Port:
    """Where the server is that another process started."""

    def __init__(self, port):
        self.port = port

    stream = Server.stream


class Talk:
    """A connection, and all that was said on it."""

    def __init__(self, server, sender):
        self.sender, self.said = sender, []
        self.client = Client(server, MOST_SECONDS)
        greeting = self.client.ask({"hello": sender.name, "token": "abc"})
        assert greeting == text_of({"hello": sender.name}), greeting

    def say(self, message):
        answer = self.client.ask(message)
        self.said.append((self.sender.name, message, answer))
        self.sender.hear(json.loads(answer))


def read(server, hands, seed, until, stays):
    """A client that asks again and again; it stays, or comes each time as somebody else."""
    rng, talks = random.Random(seed), []
    names = [account["name"] for account in USERS]
    time.sleep(rng.random() * PAUSE)
    while time.time() < until:
        sender = Sender(rng.choice(names), hands, rng.random())
        talk = Talk(server, sender)
        talks.append(talk.said)
        for _ in range(1_000_000 if stays else rng.randint(1, 6)):
            talk.say(sender.query())
            time.sleep(PAUSE * (0.8 + 0.4 * rng.random()))
            if time.time() > until:
                break
        assert talk.client.leave(), "the close isn't answered"
    return talks


def write(server, hands, name, seed, begin, until):
    """A client that stays and sends batches."""
    talk = Talk(server, Sender(name, hands, seed))
    while time.time() < until:
        talk.say({"do": talk.sender.batch_after((time.time() - begin) / (until - begin))})
        talk.say({"ask": "status"})
        time.sleep(talk.sender.rng.random() * 0.4)
    assert talk.client.leave(), "the close isn't answered"
    return [talk.said]


def in_threads(tasks):
    """What comes of each task, which is run in a thread of its own."""
    told = [None] * len(tasks)

    def run(place, task, words):
        try:
            told[place] = task(*words)
        except (Ended, OSError, AssertionError) as fault:
            told[place] = repr(fault)

    threads = [threading.Thread(target=run, args=(place, *task)) for place, task in enumerate(tasks)]
    for thread in threads:
        thread.start()
    for thread in threads:
        thread.join()
    return told


def in_a_process(pipe, tasks):
    pipe.send(in_threads(tasks))


def in_processes(tasks):
    """The same, in several processes."""
    context, started = multiprocessing.get_context("fork"), []
    for number in range(PROCESSES):
        own, other = context.Pipe()
        process = context.Process(target=in_a_process, args=(other, tasks[number::PROCESSES]))
        process.start()
        started.append((process, own))
    return [one for _, own in started for one in (own.recv() if own.poll(SECONDS + 2 * MOST_SECONDS) else ["a process said nothing"])]


def watch(server, until, seen):
    """How much memory the program has, each second."""
    while time.time() < until:
        seen.append(server.resident())
        time.sleep(1)


def main():
    rng = random.Random(SEED)
    hands = [some_hands(rng) for _ in BOARDS]
    session = {"budget": 0, "per_set": PER_SET, "rounds": ROUNDS, "tables": TABLES, "users": USERS}
    tell(f"seed {SEED}, {SECONDS:g} s, {AT_ONCE} clients at once")
    files_allowed()
    with Server(PROGRAM, "--displays", DISPLAYS, "--clients", PLACES, "--workers", 2, session=session, deals=pbn_text([deal_text(one) for one in hands])) as server:
        begin, port, memory = time.time(), Port(server.port), []
        until = begin + SECONDS
        tasks = [(write, (port, hands, name, rng.random(), begin, until)) for name in WRITERS]
        tasks += [(read, (port, hands, rng.random(), until, number % 2 == 0)) for number in range(AT_ONCE)]
        watching = threading.Thread(target=watch, args=(server, until, memory))
        watching.start()
        told = in_processes(tasks)
        watching.join()
        check("each client was served to its end, each time it came", [], [one for one in told if not isinstance(one, list)])
        talks = [talk for one in told if isinstance(one, list) for talk in one]
        # how many there are is a matter of the processors; with a fifth of what four of them do it is still a load
        replies = sum(map(len, talks))
        check(f"there were some connections and replies for each minute ({len(talks)}, {replies})", True,
              len(talks) >= AT_ONCE * (1 + SECONDS / 60) and replies >= AT_ONCE * 6 * SECONDS / 60)
        audit = asyncio.run(whole_audit(f"ws://127.0.0.1:{server.port}/"))
        third = memory[len(memory) // 3]
        grown = max(memory[len(memory) // 3:]) - third
        check(f"memory is flat: {third} KiB after a third of the time, and at most {grown} KiB more", True,
              grown <= BESIDES + PER_ENTRY * len(audit) + PER_CLIENT * AT_ONCE)
        last = [Client(server, 10) for _ in range(8 * DISPLAYS)]
        check("it serves still", [text_of({"hello": "d"})] * 8 * DISPLAYS, [client.ask({"hello": "d", "token": "abc"}) for client in last])
        check("and each close is answered", [True] * 8 * DISPLAYS, [client.leave() for client in last])
        check("the program runs on and has written that nothing is kept", (-15, b"", NOTHING_IS_KEPT), server.stopped())
    compare("load", talks, audit, hands)
    return status()


if __name__ == "__main__":
    sys.exit(main())

"""A server that is told by a signal to end, or to stop and go on, for tests/drivers/hold_ups.py."""
import json
import pathlib
import random
import signal
import sys
import threading
import time

sys.path[:0] = [str(pathlib.Path(__file__).resolve().parents[1] / folder) for folder in ("runs",)]
from checks import check
from hold_up_clients import until_ended
from raw_client import NOTHING_IS_KEPT, NOT_SIGNED_IN, STATUS, Client, Ended, Server, is_served, some_deals
from write_query_runs import hold, release
from write_stored_runs import USERS


def enters(server, name, stop, receipts):
    """A director who has a board held and released by one batch after another."""
    client = Client(server, 10)
    try:
        assert client.ask({"hello": name, "token": "abc"}) == f'{{"hello":"{name}"}}'
        while not stop.is_set():
            receipts.append(json.loads(client.ask({"do": [hold(1), release(1)] * 8})))
    except (Ended, OSError) as end:
        receipts.append(str(end) if isinstance(end, Ended) else "reset")


def signalled(program, number):
    """SIGTERM and SIGINT end the program at once, with clients and workers at work."""
    session = {"budget": 10**18, "per_set": 8, "rounds": 7, "tables": 8, "users": USERS}
    name = signal.Signals(number).name
    with Server(program, "--displays", 4, "--workers", 2, session=session, deals=some_deals(random.Random(number), 64)) as server:
        stop, told = threading.Event(), [[], []]
        scorers = [threading.Thread(target=enters, args=(server, "d", stop, receipts), daemon=True) for receipts in told]
        for scorer in scorers:
            scorer.start()
        silent = [server.stream(10), Client(server, 10).stream]
        until = time.monotonic() + 30
        while time.monotonic() < until and min(map(len, told)) < 20:
            time.sleep(0.1)
        begun = time.monotonic()
        server.process.send_signal(number)
        server.process.wait(30)
        took = time.monotonic() - begun
        status, out, err = server.stopped()
        stop.set()
        for scorer in scorers:
            scorer.join(10)
        check(f"{name}: ends the program at once ({took:.2f} s) and writes that nothing is kept", (-number, b"", NOTHING_IS_KEPT, True), (status, out, err, took < 3))
        check(f"{name}: who says nothing hears the end", [b"", b""], [until_ended(stream) for stream in silent])
        ends = [receipts.pop() for receipts in told]
        check(f"{name}: who is at work hears the end", [True, True], [end in ("end", "reset") for end in ends])
        check_receipts(name, [receipt for receipts in told for receipt in receipts])


def check_receipts(name, receipts):
    """Of the batches whose receipts were heard each was entered whole, and none in the midst of another."""
    check(f"{name}: batches were under way ({len(receipts)})", True, len(receipts) >= 38)
    receipts.sort(key=lambda receipt: receipt["version"])
    strange, before = [], 0
    for receipt in receipts:
        accepted = receipt["answers"].count("ok")
        whole = (receipt["last"], receipt["last"] - receipt["first"] + 1) == (receipt["version"], accepted) if accepted else receipt["first"] == 0
        if not whole or (accepted and receipt["first"] <= before):
            strange.append(receipt)
        before = receipt["version"]
    check(f"{name}: each receipt that was heard is of a batch that was entered whole", [], strange[:3])


def stopped(program):
    """A program that was stopped and goes on serves the next clients, whatever came of the one on which it waited."""
    with Server(program, "--displays", 1, "--workers", 0) as server:
        client = Client(server, 10)
        check("SIGSTOP: a client is served before", NOT_SIGNED_IN, client.ask(STATUS))
        for number in (signal.SIGSTOP, signal.SIGCONT):
            time.sleep(0.3)
            server.process.send_signal(number)
        client.stream.close()
        check("SIGCONT: the next client is served", True, is_served(server))
        check("SIGCONT: and the program runs on", None, server.process.poll())

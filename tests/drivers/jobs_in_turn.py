#!/usr/bin/env python3
"""In which order a server's workers find what is wanted, over real sockets: what a confirmed play costs before the tables of boards that
wait, and the tables of boards that are played sooner before those of later rounds. And that a worker that waits asks for no processor.

    tests/drivers/jobs_in_turn.py PROGRAM [SEED]

One worker finds one thing after another, so the audit tells the order. Python alone is needed.
"""
import json
import os
import pathlib
import random
import sys
import time

sys.path[:0] = [str(pathlib.Path(__file__).resolve().parents[1] / folder) for folder in ("runs",)]
from checks import check, status, tell
from raw_client import Client, Server, some_deals
from write_stored_runs import FOUR_SPADES, SUITS, USERS, confirm, enter

ROOT = pathlib.Path(__file__).resolve().parents[2]
# more visits than any table takes
VISITS = 10**15
SECONDS = 300
# how long a server is watched that has nothing to do, and how many hundredths of a second of a processor are none: a clock's tick or two
WATCHED, FEW_TICKS = 3.0, 2


def signed_in(server, name):
    client = Client(server, SECONDS)
    assert json.loads(client.ask({"hello": name, "token": "abc"})) == {"hello": name}
    return client


def entries(client):
    """The audit's rows, as far as there are any."""
    rows = []
    while True:
        more = json.loads(client.ask({"audit": {"from": len(rows) + 1, "limit": 1000}}))["audit"]
        rows += more
        if len(more) < 1000:
            return rows


def once(client, is_enough):
    """The audit's rows once they are enough."""
    end = time.monotonic() + SECONDS
    while time.monotonic() < end:
        rows = entries(client)
        if is_enough(rows):
            return rows
        time.sleep(0.05)
    raise SystemExit(f"after {SECONDS} s there is only {rows}")


def solved(rows):
    """The boards whose tables were found, in their order."""
    return [int(row[3]) for row in rows if row[2] == "Solved"]


def accepted(client, *commands):
    """Sends a batch, all of which is accepted."""
    answer = json.loads(client.ask({"do": list(commands)}))
    assert answer["answers"] == ["ok"] * len(commands), answer


# ---- what a play costs

def first_trick(deals, board):
    """The cards of a first trick that East leads to: the lowest of a suit that all four hold, or the play can't be counted."""
    hands = deals.split("\n\n")[board - 1].split('"N:')[1].split('"')[0].split(" ")
    by_suit = [hand.split(".") for hand in hands]
    suit = next(place for place in range(4) if all(hand[place] for hand in by_suit))
    return [SUITS[suit] + by_suit[place][suit][-1] for place in (1, 2, 3, 0)]


def costs(program, rng):
    """Thirty boards wait for one worker when a result with a play is confirmed."""
    deals = some_deals(rng, 30)
    session = {"budget": VISITS, "per_set": 6, "rounds": 5, "tables": 5, "users": USERS}
    with Server(program, "--workers", 1, session=session, deals=deals) as server:
        scorer, director = signed_in(server, "k"), signed_in(server, "d")
        accepted(scorer, enter(1, 1, FOUR_SPADES, first_trick(deals, 1)), confirm(1, 1, FOUR_SPADES))
        rows = once(director, lambda rows: any(row[2] == "Analysed" for row in rows))
        words = [row[2] for row in rows]
        confirmed, analysed = words.index("Confirm"), words.index("Analysed")
        check("costs: they come while most boards are still to be solved", True, len(solved(rows)) < 25)
        check("costs: at most the table on which the worker was comes before them", True, len(solved(rows[confirmed:analysed])) <= 1)
        tell(f"{len(solved(rows[:confirmed]))} tables had come before Confirm, {len(solved(rows[confirmed:analysed]))} came before the costs")
        reply = json.loads(director.ask({"ask": "costs", "table": 1, "board": 1}))
        check("costs: and they are of the four cards", 4, len(reply["costs"]["costs"]))


# ---- tables of boards

def turns(program, rng):
    """A Howell of five tables: of nine sets of boards four aren't played in the first round."""
    rows = json.loads((ROOT / "examples/movements/howell_5.json").read_text())
    first = {}
    for played, _, board_set, *_ in rows:
        first[board_set] = min(played, first.get(board_set, played))
    sets = len(first)
    expected = sorted(range(1, sets + 1), key=lambda board: (first[board], board))
    session = {"budget": VISITS, "per_set": 1, "rounds": 9, "tables": 5, "movement": rows, "users": USERS}
    with Server(program, "--workers", 1, session=session, deals=some_deals(rng, sets)) as server:
        director = signed_in(server, "d")
        rows = once(director, lambda rows: len(solved(rows)) == sets)
        check("tables: those of boards of this round come first, and then as they are played", expected, solved(rows))
        check("tables: which isn't the order of their numbers", True, expected != sorted(expected))
        idle("whose worker has found all", server)
    with Server(program, "--workers", 0, session=session, deals=some_deals(rng, sets)) as server:
        signed_in(server, "d")
        idle("without workers", server)


# ---- a server that has nothing to do

def ticks(server):
    """How long the program had a processor, in hundredths of a second."""
    fields = pathlib.Path(f"/proc/{server.process.pid}/stat").read_text().rsplit(")", 1)[1].split()
    return (int(fields[11]) + int(fields[12])) * 100 // os.sysconf("SC_CLK_TCK")


def idle(which, server):
    time.sleep(0.5)
    before = ticks(server)
    time.sleep(WATCHED)
    used = ticks(server) - before
    check(f"idle: a server {which} asks for no processor", True, used <= FEW_TICKS)
    tell(f"{used} hundredths of a second in {WATCHED:g} s")


def main(program, seed="1"):
    rng = random.Random(int(seed))
    costs(program, rng)
    turns(program, rng)
    return status()


if __name__ == "__main__":
    sys.exit(main(*sys.argv[1:]))

#!/usr/bin/env python3
"""Writes the parts of the stored runs of crates/bridge_server_stored_runs that ask queries in sections of other sizes: `largest`,
`128 boards`, `half table` and `a board that nobody plays`.

    python3 tests/runs/write_section_runs.py

The answers are worked out as those of tests/runs/write_query_runs.py are.
"""
import pathlib
import sys

sys.path[:0] = [str(pathlib.Path(__file__).resolve().parents[1] / folder) for folder in ("models",)]
from session_model import Session
from write_query_runs import CLOSE, DEALS, EVERYBODY, FINALISE, NEXT, STATUS_0, Run, correct, hold, played, rule, void
from write_stored_runs import FOUR_SPADES, SESSION, USERS, confirm, contract, enter, game, text_of, user

# ---- the largest session: its longest answers

PACK = [suit + rank for suit in "SHDC" for rank in "AKQJT98765432"]


def largest_run(per_set=4):
    """Sixteen tables, 256 users with the longest names; 64 of them are seated, and the others have each role but one."""
    users = [user(f"{side}{pair}{place}".rjust(32, "-"), "Contestant", f"{side}{pair}", place)
             for side in ("NS", "EW") for pair in range(1, 17) for place in side]
    users += [user(f"{number}".rjust(32, "_"), "Administrator") for number in range(192 - len("ds"))]
    for one in users:
        one["roles"] += ["Member", "Spectator"] + ([] if "pair" in one else ["Scorer", "Director"])
    users += [user("d", "Director"), user("s", "Spectator")]
    pbn = "".join(game(board, "N") for board in range(1, 16 * per_set + 1))
    opening = text_of({"budget": 0, "pbn": pbn, "per_set": per_set, "rounds": 15, "tables": 16, "users": users})
    return Run(opening, Session(16, 15, per_set, users, [DEALS[0]] * 16 * per_set))


def everybody_passes_out():
    """The plain model, by hand: each pair plays 60 boards at which 15 tables pass out, and earns 14 units of 28 on each."""
    session = Session(16, 15, 4, [user("d", "Director")], [DEALS[0]] * 64)
    for board in session.boards:
        for row in session.scheduled[board]:
            session.accept(enter(row[1], board, "pass"))
            session.accept(confirm(row[1], board, "pass"))
    ranked = [[side + str(number), 84000, 168000] for side in ("NS", "EW") for number in range(1, 17)]
    assert session.reply("d", {"ask": "ranking"}) == {"ranking": ranked}


def write_largest():
    everybody_passes_out()
    run = largest_run()
    administrator, pair = "189".rjust(32, "_"), "NS16N".rjust(32, "-")
    run.ask(administrator, "accounts")
    run.ask("s", "status")
    run.accept(administrator, *[{"cmd": "AddInheritance", "junior": junior, "senior": senior} for senior, junior in (
        ("Director", "Member"), ("Administrator", "Director"), ("Administrator", "Scorer"), ("Administrator", "Spectator"),
        ("Scorer", "Spectator"), ("Contestant", "Spectator"))])
    # every board is ruled at each of its fifteen tables, round by round; then those of two sets were played after all
    for number in range(1, 16):
        if number > 1:
            run.accept("d", NEXT)
        cells = [(row[1], (row[2] - 1) * 4 + k) for row in run.session.rows if row[0] == number for k in (1, 2, 3, 4)]
        run.accept("d", *[rule(table, board, 60, 30 + number, 99) for table, board in cells])
    results = [contract("N", 4, "S", 0, tricks) for tricks in range(14)] + [contract("E", 7, "N", 2, 0)]
    for board in range(1, 9):
        tables = [row[1] for row in run.session.scheduled[board]]
        run.accept("d", *[correct(table, board, results[(k + board) % 15]) for k, table in enumerate(tables)])
    run.accept("d", correct(16, 61, FOUR_SPADES, PACK))
    for name in ("s", pair, "d"):
        run.ask(name, "ranking")
    run.ask("s", "traveller", board=1)
    run.ask("s", "traveller", board=64)
    run.ask("s", "board", {"deal": DEALS[0], "dealer": "W", "number": 64, "vul": "ew"}, board=64)
    run.ask("d", "play", {"board": 61, "cards": PACK, "table": 16}, table=16, board=61)
    run.ask("d", "costs", {"board": 61, "costs": "pending", "table": 16}, table=16, board=61)
    run.ask(pair, "reason", {"board": 61, "code": 0, "table": 16}, table=16, board=61)
    run.ask("d", "reason", {"board": 60, "code": 99, "table": 1}, table=1, board=60)
    run.ask("s", "list", {"boards": list(range(1, 65)), "more": False})
    run.ask("s", "list", {"boards": list(range(1, 64)), "more": True}, limit=63)
    run.ask("s", "list", {"boards": list(range(1, 65)), "more": False},
            filter={"and": [{"not": {"and": [{"made": True}, {"strain": "H"}]}}] * 16})
    run.accept("d", *[hold(board) for board in range(1, 65)])
    run.ask("s", "status")
    run.ask("s", "list", {"boards": [], "more": False})
    run.ask("s", "ranking", [[side + str(number), 0, 0] for side in ("NS", "EW") for number in range(1, 17)])
    run.ask("d", "list", {"boards": list(range(1, 65)), "more": False})
    run.ask(administrator, "accounts")
    run.write("largest")


def write_128_boards():
    """The same with eight boards in a set: each table rules its boards of each of the fifteen rounds."""
    run = largest_run(8)
    pair = "NS16N".rjust(32, "-")
    run.ask("d", "list", {"boards": list(range(1, 65)), "more": True})
    run.ask("d", "list", {"boards": list(range(65, 129)), "more": False}, **{"from": 65})
    run.ask("d", "board", "NoSuchBoard", board=129)
    run.ask("s", "board", (8, 2), board=128)
    for number in range(1, 16):
        if number > 1:
            run.accept("d", NEXT)
        cells = [(row[1], (row[2] - 1) * 8 + k) for row in run.session.rows if row[0] == number for k in range(1, 9)]
        for first in range(0, len(cells), 64):
            run.accept("d", *[rule(table, board, 60, 30 + number, 99) for table, board in cells[first:first + 64]])
    run.ask("s", "board", {"deal": DEALS[0], "dealer": "W", "number": 128, "vul": "ew"}, board=128)
    run.ask("s", "list", {"boards": list(range(65, 129)), "more": False}, **{"from": 65})
    run.ask("s", "status")
    for name in ("s", pair, "d"):
        run.ask(name, "traveller", board=128)
        run.ask(name, "ranking")
    for table, board in ((2, 128), (16, 121)):
        run.accept("d", correct(table, board, FOUR_SPADES, PACK))
        run.ask(pair, "play", board=board, table=table)
    run.accept("d", void(2, 128))
    run.ask("s", "board", (8, 2), board=128)
    for first in (1, 65):
        run.accept("d", *[hold(board) for board in range(first, first + 64)])
    run.ask("s", "list", {"boards": [], "more": False})
    run.ask("s", "ranking", [[side + str(number), 0, 0] for side in ("NS", "EW") for number in range(1, 17)])
    run.write("128 boards")


# ---- a half table

def half_table_run(rounds):
    """Three tables without the East-West pair 3: who would meet it sits out."""
    opening = SESSION.replace('"budget":0', '"absent":"EW3","budget":0', 1).replace('"rounds":3', f'"rounds":{rounds}', 1)
    return Run(opening, Session(3, rounds, 1, USERS, DEALS, "EW3"))


def write_half_table():
    run = half_table_run(3)
    # table 3 would play board 3 in the first round, table 1 board 2 in the second, and table 2 board 1 in the third
    run.ask("n1", "status", {"absent": "EW3", **STATUS_0})
    for table, board in ((3, 3), (1, 2), (2, 1)):
        run.refuse("k", enter(table, board, FOUR_SPADES), "NoSuchCell")
        run.ask("d", "play", "NoSuchCell", table=table, board=board)
    # NS1 doesn't play board 2, which the tables 2 and 3 play; NS3 is at none of the tables of board 3
    run.ask("n1", "board", (6, 2), board=2)
    run.ask("n1", "board", (5, 1), board=3)
    run.ask("n2", "board", (6, 1), board=1)
    run.ask("n1", "ranking", [["NS1", 0, 0], ["NS2", 0, 0], ["NS3", 0, 0], ["EW1", 0, 0], ["EW2", 0, 0]])
    run.refuse("d", {"cmd": "Seat", "name": "n1", "pair": "EW3", "place": "E"}, "NoSuchPair")
    # NS1 beats NS3 at board 1; the others are all even. EW1 and EW2 play three boards, the others two
    run.accept("k", *played(1, 1, FOUR_SPADES), *played(2, 2, FOUR_SPADES))
    run.accept("d", NEXT)
    run.accept("k", *played(3, 1, "pass"), *played(2, 3, "pass"))
    for name in EVERYBODY:
        run.ask_all(name, (1, 2, 3), [(1, 1), (3, 1), (2, 2), (2, 3)])
    run.accept("d", NEXT)
    run.accept("k", *played(3, 2, FOUR_SPADES), *played(1, 3, "pass"))
    run.ask("d", "status", {"absent": "EW3", **STATUS_0, "live": [[1, 3], [2, 3], [1, 2]], "round": 3})
    # by what was earned of what could be: 75, 66.7, 50, 33.3 and 25 of a hundred
    run.ask("s", "ranking", [["NS1", 300, 400], ["EW2", 400, 600], ["NS2", 200, 400], ["EW1", 200, 600], ["NS3", 100, 400]])
    run.ask("s", "list", {"boards": [1, 2, 3], "more": False})
    for name in EVERYBODY:
        run.ask_all(name, (1, 2, 3), [(1, 1), (3, 1), (2, 2), (3, 2), (1, 3), (2, 3)])
    run.accept("d", CLOSE)
    run.accept("d", FINALISE)
    run.ask("n1", "board", {"deal": DEALS[2], "dealer": "S", "number": 3, "vul": "ew"}, board=3)
    run.write("half table")

    # in one round nobody plays board 3: no table has still to, so that it is complete
    run = half_table_run(1)
    run.ask("s", "traveller", {"board": 3, "rows": []}, board=3)
    run.ask("s", "board", {"deal": DEALS[2], "dealer": "S", "number": 3, "vul": "ew"}, board=3)
    run.ask("n1", "board", {"deal": DEALS[2], "dealer": "S", "number": 3, "vul": "ew"}, board=3)
    run.ask("n1", "board", (5, 1), board=1)
    run.refuse("k", enter(3, 3, FOUR_SPADES), "NoSuchCell")
    run.refuse("d", rule(3, 3, 60, 40, 1), "NoSuchCell")
    run.ask("s", "list", {"boards": [3], "more": False})
    run.accept("k", *played(1, 1, FOUR_SPADES), *played(2, 2, FOUR_SPADES))
    run.accept("d", CLOSE)
    for name in EVERYBODY:
        run.ask_all(name, (1, 2, 3), [(1, 1), (2, 2)])
    run.write("a board that nobody plays")


if __name__ == "__main__":
    write_half_table()
    write_largest()
    write_128_boards()

#!/usr/bin/env python3
"""Writes the part `filters` of the stored runs of crates/bridge_server_stored_runs: lists by each kind of filter, and each bad one.

    python3 tests/runs/write_filter_runs.py

The answers are worked out as those of tests/runs/write_query_runs.py are.
"""
import pathlib
import sys

sys.path[:0] = [str(pathlib.Path(__file__).resolve().parents[1] / folder) for folder in ("models",)]
from session_model import Session
from write_query_runs import CLOSE, DEALS, NEXT, Run, played, rule, void
from write_stored_runs import FOUR_SPADES, contract, game, text_of, user


def filters_run():
    """Four tables and sixteen boards, so that each marking and each dealer is there; two rounds."""
    users = [user("a", "Administrator"), user("d", "Director"), user("s", "Spectator"), user("n1", "Contestant", "NS1", "N"),
             user("e2", "Contestant", "EW2", "E")]
    pbn = "".join(game(board, "N") for board in range(1, 17))
    opening = text_of({"budget": 0, "pbn": pbn, "per_set": 4, "rounds": 2, "tables": 4, "users": users})
    return Run(opening, Session(4, 2, 4, users, [DEALS[0]] * 16))


def bounds(least, most, **more):
    return {"max": most, "min": least, **more}


def nested(depth):
    """A filter of this depth, around one atom."""
    inner = {"vul": "none"}
    for _ in range(depth - 1):
        inner = {"not": inner}
    return inner


NOT_A_FILTER = [
    None, True, 5, "vul", [], {}, {"vul": "none", "dealer": "N"}, {"vul": "None"}, {"vul": "love"}, {"vul": None}, {"dealer": "n"}, {"dealer": "X"},
    {"xor": []}, {"not": []}, {"not": {}}, {"not": None}, {"and": {}}, {"and": []}, {"or": []}, {"and": [{"vul": "none"}] * 33},
    {"or": [{"vul": "none"}] * 33}, {"and": [5]}, {"or": [{"vul": "none"}, {"made": 1}]},
    {"level": 4}, {"level": {"max": 4}}, {"level": {"min": 4}}, {"level": bounds(0, 14)}, {"level": bounds(14, 13)}, {"level": bounds(-1, 13)},
    {"level": bounds(0, 13, step=1)}, {"level": bounds("0", 13)}, {"strain": "NT"}, {"strain": 1}, {"doubled": 3}, {"doubled": "1"}, {"doubled": -1},
    {"made": "true"}, {"made": None}, {"score": 420}, {"score": {"max": 1}}, {"score": {"min": 1}}, {"score": bounds(-10001, 0)},
    {"score": bounds(0, 10001)}, {"score": bounds(-10000, 1e300)}, {"score": bounds(0.5, 1)}, {"score": bounds(0, 1, by="N")},
    {"dd": bounds(0, 13)}, {"dd": bounds(0, 13, by="N")}, {"dd": bounds(0, 13, strain="S")}, {"dd": {"by": "N", "max": 13, "strain": "S"}},
    {"dd": {"by": "N", "min": 13, "strain": "S"}}, {"dd": bounds(0, 14, by="N", strain="S")}, {"dd": bounds(14, 13, by="N", strain="S")},
    {"dd": bounds(0, 13, by="X", strain="S")}, {"dd": bounds(0, 13, by="N", strain="NT")}, {"dd": bounds(0, 13, by="N", strain="S", level=1)},
    nested(9), nested(101), {"and": [nested(8)]}, {"or": [{"vul": "none"}, nested(8)]},
    {"and": [{"and": [{"vul": "none"}] * 32}, {"made": True}]}, {"and": [{"or": [{"doubled": 2}] * 8}] * 5},
    {"or": [{"and": []}]}, {"and": {"made": True}}, {"and": [{"made": True}, 7]}, {"not": [{"made": True}]}, {"xor": [{"made": True}]},
    {"level": bounds(4.0, 4)}, {"doubled": "2"}, "made",
]
NOT_A_LIST = [{"from": 256}, {"from": -1}, {"from": "1"}, {"from": None}, {"limit": 0}, {"limit": 65}, {"limit": 256}, {"limit": None}, {"board": 1},
              {"table": 1}, {"boards": []}]


def write_filters():
    run = filters_run()
    for wanted in NOT_A_FILTER:
        run.error(text_of({"as": "d", "ask": "list", "filter": wanted}), "BadField")
    for members in NOT_A_LIST:
        run.error(text_of({"as": "d", "ask": "list", **members}), "BadField")
    for atom in ('"score":{"max":-0,"min":0}', '"score":{"max":0,"min":-0}', '"level":{"max":4,"min":-0}'):
        run.error('{"as":"d","ask":"list","filter":{%s}}' % atom, "BadField")

    def listed(wanted, boards, name="d"):
        run.ask(name, "list", {"boards": boards, "more": False}, filter=wanted)

    # marks alone, before there is any result (Law 2)
    listed({"vul": "none"}, [1, 8, 11, 14])
    listed({"vul": "ns"}, [2, 5, 12, 15])
    listed({"vul": "ew"}, [3, 6, 9, 16])
    listed({"vul": "both"}, [4, 7, 10, 13])
    for place, first in (("N", 1), ("E", 2), ("S", 3), ("W", 4)):
        listed({"dealer": place}, list(range(first, 17, 4)))
    listed({"and": [{"vul": "ns"}, {"dealer": "N"}]}, [5])
    listed({"not": {"or": [{"vul": "ns"}, {"dealer": "N"}, {"dealer": "E"}, {"dealer": "S"}]}}, [4, 8, 16])
    listed({"made": False}, [])
    listed({"not": {"made": False}}, list(range(1, 17)))
    # the limits: depth 8, lists of 32, 32 atoms
    listed(nested(8), [board for board in range(1, 17) if board not in (1, 8, 11, 14)])
    listed({"and": [nested(7)]}, [1, 8, 11, 14])
    listed({"and": [{"not": {"vul": "none"}}] * 32}, [board for board in range(1, 17) if board not in (1, 8, 11, 14)])
    listed({"or": [{"made": True}] * 31 + [{"dealer": "W"}]}, [4, 8, 12, 16])
    listed({"or": [{"and": [{"dealer": "N"}] * 16}, {"and": [{"dealer": "E"}] * 16}]}, [1, 2, 5, 6, 9, 10, 13, 14])
    listed({"and": [{"or": [{"doubled": 2}] * 8}] * 4}, [])
    # results in the first round: each table plays its own four boards; vulnerable against not, doubled or not, made or not
    results = {1: FOUR_SPADES, 2: contract("S", 1, "N", 1, 7), 3: contract("E", 6, "H", 2, 11), 4: "pass",
               5: contract("W", 7, "D", 0, 13), 6: contract("N", 2, "C", 0, 8), 7: contract("S", 7, "N", 2, 0), 8: contract("E", 3, "N", 0, 9)}
    for board, result in results.items():
        run.accept("d", *played(1 + (board - 1) // 4, board, result))
    run.accept("d", rule(3, 9, 60, 40, 7))
    scores = {1: 420, 2: 180, 3: 400, 4: 0, 5: -1440, 6: 90, 7: -7600, 8: -400}
    for board, score in scores.items():
        listed({"score": bounds(score, score)}, [board])
        listed({"score": bounds(score, score - 1)}, [])
    listed({"score": bounds(-10000, 10000)}, list(range(1, 9)))
    listed({"score": bounds(-10000, -400)}, [5, 7, 8])
    listed({"level": bounds(0, 13)}, [1, 2, 3, 5, 6, 7, 8])
    listed({"level": bounds(7, 7)}, [5, 7])
    listed({"level": bounds(2, 4)}, [1, 6, 8])
    listed({"level": bounds(4, 2)}, [])
    listed({"level": bounds(8, 13)}, [])
    for strain, boards in (("S", [1]), ("H", [3]), ("D", [5]), ("C", [6]), ("N", [2, 7, 8])):
        listed({"strain": strain}, boards)
    for doubled, boards in ((0, [1, 5, 6, 8]), (1, [2]), (2, [3, 7])):
        listed({"doubled": doubled}, boards)
    listed({"made": True}, [1, 2, 5, 6, 8])
    listed({"made": False}, [3, 7])
    # no board has its table yet: no atom on it holds, and its contrary does
    for least, most in ((0, 13), (13, 0)):
        listed({"dd": bounds(least, most, by="N", strain="S")}, [])
        listed({"not": {"dd": bounds(least, most, by="W", strain="N")}}, list(range(1, 17)))
    # what isn't shown makes no atom true and no contrary either: a contestant is shown what his pair has played
    listed({"not": {"made": True}}, [3, 4], "n1")
    listed({"score": bounds(-10000, 10000)}, [1, 2, 3, 4], "n1")
    listed({"not": {"level": bounds(7, 7)}}, [6, 8], "e2")
    listed({"level": bounds(7, 7)}, [5, 7], "e2")
    listed({"vul": "both"}, [], "s")
    # each atom looks for a result of its own: in the second round boards 1 to 4 come to table 4, and 5 to 8 to table 1
    run.accept("d", NEXT)
    run.accept("d", *played(4, 1, contract("W", 2, "H", 1, 6)), *played(1, 5, "pass"))
    two_results = {"and": [{"level": bounds(4, 4)}, {"strain": "H"}, {"doubled": 1}, {"made": True}, {"made": False}]}
    listed(two_results, [1])
    listed(two_results, [1], "s")
    listed({"and": [{"score": bounds(0, 0)}, {"score": bounds(-1440, -1440)}]}, [5])
    # pages: from a number on, so many at most, and whether another board that would be listed follows
    for start, limit, boards, more in ((0, 64, [1, 2, 5, 6, 8], False), (1, 1, [1], True), (2, 3, [2, 5, 6], True), (2, 4, [2, 5, 6, 8], False),
                                       (8, 1, [8], False), (9, 1, [], False), (255, 64, [], False)):
        run.ask("d", "list", {"boards": boards, "more": more}, filter={"made": True}, limit=limit, **{"from": start})
    run.ask("d", "list", {"boards": list(range(1, 17)), "more": False})
    run.ask("d", "list", {"boards": [16], "more": False}, **{"from": 16})
    run.ask("d", "list", {"boards": list(range(1, 16)), "more": True}, limit=15)
    run.ask("s", "list", {"boards": [1, 5], "more": False})
    run.ask("s", "list", {"boards": [1], "more": True}, limit=1)
    filters_to_the_end(run)
    run.write("filters")


def filters_to_the_end(run):
    """A pair that isn't scheduled on a board, and a cell that loses its result when play has ended."""
    run.ask("n1", "board", (6, 2), board=10)
    run.ask("n1", "board", (5, 1), board=6)
    run.ask("e2", "analysis", (6, 2), board=9)
    run.ask("e2", "analysis", (5, 3), board=13)
    run.ask("n1", "play", "NoSuchCell", table=3, board=1)
    run.ask("n1", "traveller", {"board": 1, "rows": [
        {"ew": "EW1", "ns": "NS1", "points": 2, "result": FOUR_SPADES, "score": 420, "table": 1},
        {"ew": "EW3", "ns": "NS4", "points": 0, "result": contract("W", 2, "H", 1, 6), "score": 300, "table": 4}]}, board=1)
    left = [(row[1], board) for board in run.session.boards for row in run.session.scheduled[board] if (row[1], board) not in run.session.results]
    run.accept("d", *[rule(table, board, 50, 50, 1) for table, board in left])
    run.ask("n1", "board", {"deal": DEALS[0], "dealer": "E", "number": 10, "vul": "both"}, board=10)
    run.ask("n1", "reason", (11, 3), table=3, board=10)
    run.ask("n1", "play", (10, 3), table=3, board=10)
    for name in ("n1", "e2", "s", "a", "d"):
        run.ask(name, "ranking")
    run.accept("d", CLOSE)
    run.ask("n1", "play", {"board": 10, "cards": [], "table": 3}, table=3, board=10)
    run.accept("d", void(3, 9), void(4, 2))
    run.ask("n1", "play", (6, 3), table=3, board=9)
    run.ask("n1", "play", (12, 4), table=4, board=2)
    run.ask("n1", "costs", (9, 4), table=4, board=2)
    run.ask("n1", "reason", (11, 4), table=4, board=2)
    run.ask("s", "play", (8, 4), table=4, board=2)
    run.ask("d", "play", {"board": 2, "cards": None, "table": 4}, table=4, board=2)
    run.ask("n1", "status")
    run.ask("n1", "ranking")


if __name__ == "__main__":
    write_filters()

#!/usr/bin/env python3
"""Writes the parts `solver`, `solver, second edition` and `solver, par` of the stored runs of crates/bridge_server_stored_runs: what a solver tells a
session, between its messages.

    python3 tests/runs/write_solved_run.py

The deals give each player a whole suit, so every number is worked by hand: who holds trumps takes all thirteen tricks, and without
trumps the side that leads takes all. Each line that is given stands beside the line that is wanted.
"""
import pathlib
import sys

sys.path[:0] = [str(pathlib.Path(__file__).resolve().parents[1] / folder) for folder in ("models",)]
from par_model import par_of
from stored_runs import put
from write_stored_runs import SECOND_SESSION, SESSION, text_of

RESULT = {"by": "N", "doubled": 0, "level": 4, "strain": "S", "tricks": 10}
CELL = {"table": 1, "board": 1}
# Spades, hearts, diamonds, clubs, no trump: North has the spades of board 1, East the hearts, South the diamonds, West the clubs.
TABLE = {"N": [13, 0, 13, 0, 0], "S": [13, 0, 13, 0, 0], "E": [0, 13, 0, 13, 0], "W": [0, 13, 0, 13, 0]}
# East's hearts lead, South and West discard, North ruffs: North and South take all tricks whatever is played.
RUFF = ["HA", "D2", "C2", "S2"]
rows = []


def told(line, wanted):
    rows.append((line, wanted))


def asked(name, wanted, version, **message):
    rows.append((text_of({"as": name, **message}), text_of({**wanted, "version": version})))


def done(name, version, *commands):
    answers = {"answers": ["ok"] * len(commands), "first": version - len(commands) + 1, "last": version, "version": version}
    rows.append((text_of({"as": name, "do": list(commands)}), text_of(answers)))


def costs(wanted, version):
    asked("d", {"costs": {"board": 1, "costs": wanted, "table": 1}}, version, ask="costs", **CELL)


def listed(name, boards, version, **filtered):
    asked(name, {"list": {"boards": boards, "more": False}}, version, ask="list", **filtered)


def tricks(by, strain, least, most):
    return {"filter": {"dd": {"by": by, "max": most, "min": least, "strain": strain}}}


def many(strain, holds):
    atom = tricks("N", strain, 10, 13)["filter"]
    return {"filter": atom if holds else {"not": atom}}


# How a contestant is denied a board that is still to be played: by rule 5, which names the own table.
told("check n1 1 5 1", "true")
told("check n1 1 8 1", "false")
told("check n1 1 5 2", "false")

# A play whose first card isn't East's: it has no costs, and that is what is found of it.
done("k", 2, {"cmd": "Enter", "play": ["S2"], "result": RESULT, **CELL}, {"cmd": "Confirm", "result": RESULT, **CELL})
# Of this state a copy decides as the state does.
told("decide n1 1", "allowed")
told("decide n2 1", "rule 5")
costs("pending", 2)
told("analyse 4 1 1 S2", "NoSuchCell")
told("analyse 2 1 1 S2", "NotLive")
told("analyse 1 1 1 S3", "StrangePlay")
told("analyse 1 1 2 S2", "StrangePlay")
told("analyse 1 1 1 S2", "ok")
costs({"not_a_play": 1}, 3)
told("analyse 1 1 1 S2", "AlreadySolved")

# A board's table, before the contestant's board is complete and where it is shown.
listed("n1", [1], 3)
listed("n1", [1], 3, **many("S", False))
listed("d", [], 3, **many("S", True))
asked("d", {"analysis": {"board": 1, "tricks": None}}, 3, ask="analysis", board=1)
told("solve 1 2", "StrangeDeal")
told("solve 4 1", "NoSuchBoard")
told("solve 1 1", "ok")
told("solve 1 1", "AlreadySolved")
asked("d", {"analysis": {"board": 1, "tricks": TABLE}}, 4, ask="analysis", board=1)
asked("n1", {"denied": {"board": 1, "rule": 9, "table": 2, "why": "analysis waits until the board is complete"}}, 4, ask="analysis", board=1)
listed("n1", [1], 4)
listed("n1", [1], 4, **many("S", False))
listed("n1", [], 4, **many("S", True))
listed("d", [1], 4, **many("S", True))
listed("d", [2, 3], 4, **many("S", False))
listed("d", [], 4, **many("H", True))
for by, strain, least, most, boards in (("E", "H", 13, 13, [1]), ("S", "D", 0, 12, []), ("W", "C", 1, 13, [1]), ("W", "N", 1, 13, []), ("W", "N", 0, 0, [1]),
                                        ("E", "H", 13, 0, [])):
    listed("d", boards, 4, **tricks(by, strain, least, most))

# What takes the result away takes its costs with it.
done("d", 5, {"cmd": "Correct", "play": RUFF, "result": RESULT, **CELL})
costs("pending", 5)
told("analyse 1 1 1 S2", "StrangePlay")
told("analyse 1 1 1 HA D2 C2 S3", "StrangePlay")
told("analyse 1 1 1 " + " ".join(RUFF), "ok")
costs([0, 0, 0, 0], 6)
done("d", 7, {"cmd": "Correct", "play": [], "result": RESULT, **CELL})
costs([], 7)
done("d", 8, {"cmd": "Correct", "play": RUFF, "result": {**RESULT, "level": 5}, **CELL})
told("analyse 1 1 1 " + " ".join(RUFF), "StrangePlay")
done("d", 9, {"cmd": "Rule", "ew": 40, "ns": 60, "reason": 7, **CELL})
told("analyse 1 1 1 " + " ".join(RUFF), "StrangePlay")
costs([], 9)
done("d", 10, {"cmd": "Void", **CELL})
told("analyse 1 1 1 " + " ".join(RUFF), "NotLive")

# The solver tells in every phase, and the audit names it as null.
told("solve 2 2", "ok")
asked("a", {"audit": [[3, None, "Analysed", "1/1"], [4, None, "Solved", "1"], [5, "d", "Correct", "1/1"]]}, 11, audit={"from": 3, "limit": 3})
asked("a", {"audit": [[11, None, "Solved", "2"]]}, 11, audit={"from": 11, "limit": 1000})



def write(part, session):
    put(part, session + "\n" + "".join(line + "\n" for line, _ in rows), "".join(wanted + "\n" for _, wanted in rows))


write("solver", SESSION)

# In the second edition rules have other numbers from the fourth on, and a table is shown to a commentator as soon as it is found.
rows.clear()
for line, holds in (("n1 1 6 1", "true"), ("n1 1 5 1", "false"), ("n1 1 6 2", "false"), ("s 1 9 1", "true"), ("s 1 8 1", "false"), ("k 1 8 0", "true"),
                    ("c 1 9 1", "false"), ("c 1 4 0", "false"), ("c 1 13 1", "false")):
    told(f"check {line}", holds)
for name, decided in (("n1", "rule 6"), ("s", "rule 9"), ("k", "rule 8"), ("c", "allowed"), ("d", "allowed"), ("stranger", "rule 1")):
    told(f"decide {name} 1", decided)
told("solve 1 1", "ok")
asked("c", {"analysis": {"board": 1, "tricks": TABLE}}, 1, ask="analysis", board=1)
asked("s", {"denied": {"board": 1, "rule": 9, "table": 1, "why": "the board isn't complete"}}, 1, ask="analysis", board=1)
listed("c", [1], 1, **many("S", True))
listed("c", [2, 3], 1, **many("S", False))
listed("s", [], 1, **many("S", False))
done("k", 3, {"cmd": "Enter", "play": RUFF, "result": RESULT, **CELL}, {"cmd": "Confirm", "result": RESULT, **CELL})
told("analyse 1 1 1 " + " ".join(RUFF), "ok")
costs([0, 0, 0, 0], 4)
asked("c", {"denied": {"board": 1, "rule": 11, "table": 1, "why": "the play of others waits until the session is closed"}}, 4, ask="costs", **CELL)
asked("n1", {"denied": {"board": 1, "rule": 10, "table": 2, "why": "analysis waits until the board is complete"}}, 4, ask="analysis", board=1)
# Under an embargo the solver tells on, and the directors alone see it.
done("d", 5, {"cmd": "Embargo"})
told("solve 2 2", "ok")
for line, holds in (("c 1 4 0", "true"), ("c 1 4 1", "false"), ("n1 1 4 0", "true"), ("n1 1 6 1", "false"), ("d 1 4 0", "false")):
    told(f"check {line}", holds)
for name, decided in (("n1", "rule 4"), ("s", "rule 4"), ("k", "rule 4"), ("c", "rule 4"), ("d", "allowed")):
    told(f"decide {name} 1", decided)
listed("c", [], 6, **many("S", False))
listed("d", [1], 6, **many("S", True))
asked("c", {"denied": {"board": 1, "rule": 4, "table": 0, "why": "the session is under embargo"}}, 6, ask="analysis", board=1)
done("d2", 7, {"cmd": "Lift"})
listed("c", [1], 7, **many("S", True))
asked("a", {"audit": [[4, None, "Analysed", "1/1"], [5, "d", "Embargo", ""], [6, None, "Solved", "2"], [7, "d2", "Lift", ""]]}, 7,
      audit={"from": 4, "limit": 9})
write("solver, second edition", SECOND_SESSION)

# Par: who holds the spades makes all thirteen tricks in them, which nothing outranks but seven no trump, in which declarer takes no
# trick: so on each board that side bids seven spades. Whoever of the two is the last to call does, since to pass costs the first
# nothing. Boards 1 and 3: North and South. Board 2: East and West. None of them is vulnerable there (Law 2). Par is told to whom the
# analysis is.
rows.clear()
OTHER_TABLE = {"N": TABLE["E"], "S": TABLE["W"], "E": TABLE["N"], "W": TABLE["S"]}


def par(board, score, declarer):
    result = {"by": declarer, "doubled": 0, "level": 7, "strain": "S", "tricks": 13}
    return {"par": {"board": board, "result": result, "score": score}}


def pending(board):
    return {"par": {"board": board, "result": None, "score": None}}


# 7 times 30, a game of 300, and a grand slam of 1000
pars = {1: par(1, 1510, "S"), 2: par(2, -1510, "W"), 3: par(3, 1510, "N")}
for board, numbers in ((1, TABLE), (2, OTHER_TABLE), (3, TABLE)):
    assert par_of(numbers, board) == {member: pars[board]["par"][member] for member in ("result", "score")}, par_of(numbers, board)
asked("c", pending(1), 0, ask="par", board=1)
asked("d", pending(1), 0, ask="par", board=1)
told("solve 1 1", "ok")
asked("c", pars[1], 1, ask="par", board=1)
asked("c", {"analysis": {"board": 1, "tricks": TABLE}}, 1, ask="analysis", board=1)
asked("d", pars[1], 1, ask="par", board=1)
asked("d", pending(2), 1, ask="par", board=2)
for name, number, table, why in (("n1", 6, 1, "your pair has still to play this board"), ("s", 9, 1, "the board isn't complete"),
                                 ("k", 8, 0, "neither a contestant nor a spectator")):
    for word in ("par", "analysis"):
        asked(name, {"denied": {"board": 1, "rule": number, "table": table, "why": why}}, 1, ask=word, board=1)
done("k", 3, {"cmd": "Enter", "result": RESULT, **CELL}, {"cmd": "Confirm", "result": RESULT, **CELL})
for word in ("par", "analysis"):
    asked("n1", {"denied": {"board": 1, "rule": 10, "table": 2, "why": "analysis waits until the board is complete"}}, 3, ask=word, board=1)
done("d", 4, {"cmd": "Embargo"})
told("solve 2 2", "ok")
told("solve 3 3", "ok")
for word in ("par", "analysis"):
    asked("c", {"denied": {"board": 2, "rule": 4, "table": 0, "why": "the session is under embargo"}}, 6, ask=word, board=2)
asked("d", pars[2], 6, ask="par", board=2)
asked("d", pars[3], 6, ask="par", board=3)
done("d", 7, {"cmd": "Lift"})
asked("c", pars[3], 7, ask="par", board=3)
done("d", 11, {"cmd": "NextRound"}, {"cmd": "NextRound"},
     *({"cmd": "Rule", "board": 1, "ew": 40, "ns": 60, "reason": 7, "table": table} for table in (2, 3)))
for name in ("n1", "n2", "s"):
    asked(name, pars[1], 11, ask="par", board=1)
done("d", 12, {"cmd": "Hold", "board": 1})
for word in ("par", "analysis"):
    asked("n1", {"denied": {"board": 1, "rule": 5, "table": 0, "why": "the board is held"}}, 12, ask=word, board=1)
asked("d", pars[1], 12, ask="par", board=1)
write("solver, par", SECOND_SESSION)

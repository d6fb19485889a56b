#!/usr/bin/env python3
"""Writes the parts of the stored runs of crates/bridge_server_stored_runs that are about the editions of the policy: sessions of the
second edition, and what the first answers to what is new in the second.

    python3 tests/runs/write_edition_runs.py

Each has a script, and what must be written. The answers are worked out twice, and never by the program: by the plain model of
tests/models/judged_session.py, and by hand, for each command and where an answer stands beside a query below.
"""
import pathlib
import sys

sys.path[:0] = [str(pathlib.Path(__file__).resolve().parents[1] / folder) for folder in ("models",)]
from account_commands import EMBARGO, LIFT, add, assign, deassign, disinherit, inherit
from commentator_parts import write_changed_commentator, write_commentator_who_plays
from embargo_parts import write_all_roles, write_embargo
from judged_run import OK, JudgedRun
from judged_session import JudgedSession
from second_edition import (ALL_ROLES, BOARD_1, BOARD_2, NEITHER, NO_ACCOUNT, NO_MEMBER, NOT_DIRECTORS, ROLES_MORE, UNDER_EMBARGO,
                            second_edition)
from write_query_runs import (ABOUT_TABLES, ACCOUNTS_0, CLOSE, DEALS, FINALISE, NEXT, NOTHING_EARNED, R420_ROW, STATUS_0, hold, played, release,
                              rule, void)
from write_stored_runs import FOUR_SPADES, SESSION, USERS, do

ACCOUNTS = {"inherits": [*ACCOUNTS_0["inherits"], ["Commentator", "Spectator"]], "users": [*ACCOUNTS_0["users"], ["c", ["Commentator"]]]}


# ---- a session of the second edition from its opening

def write_second_edition():
    run = second_edition()
    # a commentator is shown what is still played, with its analysis; the rules after the third have numbers higher by one
    run.says('{"as":"c","ask":"board","board":1}',
             '{"board":{"deal":"N:AKQJT98765432... .AKQJT98765432.. ..AKQJT98765432. ...AKQJT98765432","dealer":"N","number":1,"vul":"none"},"version":0}')
    run.says('{"as":"c","ask":"analysis","board":1}', '{"analysis":{"board":1,"tricks":null},"version":0}')
    run.says('{"as":"n1","ask":"board","board":1}',
             '{"denied":{"board":1,"rule":6,"table":1,"why":"your pair has still to play this board"},"version":0}')
    run.says('{"as":"s","ask":"board","board":1}', '{"denied":{"board":1,"rule":9,"table":1,"why":"the board isn\'t complete"},"version":0}')
    run.says('{"as":"k","ask":"board","board":1}',
             '{"denied":{"board":1,"rule":8,"table":0,"why":"neither a contestant nor a spectator"},"version":0}')
    run.says('{"as":"zz","ask":"board","board":1}', '{"denied":{"board":0,"rule":1,"table":0,"why":"no such account"},"version":0}')
    run.ask_hands(1, d=BOARD_1, d2=BOARD_1, c=BOARD_1, a=NEITHER, n2=(6, 2))
    # the status has the edition, and that there is no embargo; the accounts have the role and its place
    run.says('{"as":"n1","ask":"status"}', '{"status":{"edition":2,"embargo":false,"held":[],"live":[[],[],[]],"marks":["N none","E ns","S ew"],'
             '"per_set":1,"phase":"Running","round":1,"rounds":3,"seats":[["n1","NS1","N"],["n2","NS2","N"]],"tables":3},"version":0}')
    run.ask("a", "accounts", ACCOUNTS)
    run.ask("c", "accounts", (3, 0))
    for name, boards in (("n1", []), ("s", []), ("k", []), ("c", [1, 2, 3]), ("d", [1, 2, 3])):
        run.ask(name, "list", {"boards": boards, "more": False})
    run.ask("c", "ranking", NOTHING_EARNED)
    # what concerns one table stays with its pairs, as for a spectator of a complete board
    for ask, denial in (("play", (11, 1)), ("costs", (11, 1)), ("reason", (12, 1))):
        run.ask("c", ask, denial, table=1, board=1)
    run.do("k", *played(1, 1, FOUR_SPADES, ["SA"]), OK, OK)
    for name, answer in (("c", {"board": 1, "rows": [R420_ROW]}), ("s", (9, 2)), ("n2", (6, 2))):
        run.ask(name, "traveller", answer, board=1)
    for ask, denial in (("play", (11, 2)), ("costs", (10, 2)), ("reason", (12, 2))):
        run.ask("n1", ask, denial, table=2, board=1)
    run.ask("n1", "analysis", (10, 2), board=1)
    run.ask("n1", "costs", (10, 2), table=1, board=1)
    run.ask("c", "list", {"boards": [1], "more": False}, filter={"made": True})
    run.ask("c", "list", {"boards": [2, 3], "more": False}, filter={"not": {"made": True}})
    run.ask("s", "list", {"boards": [], "more": False}, filter={"not": {"made": True}})
    # two results are ranked for a commentator and a director, and for nobody else
    run.do("d", NEXT, OK)
    run.do("k", *played(3, 1, "pass"), OK, OK)
    two = [["NS1", 200, 200], ["EW2", 200, 200], ["NS3", 0, 200], ["EW1", 0, 200], ["NS2", 0, 0], ["EW3", 0, 0]]
    for name, ranked in (("c", two), ("d", two), ("n1", two), ("s", NOTHING_EARNED), ("n2", NOTHING_EARNED)):
        run.ask(name, "ranking", ranked)
    # what is no message of this edition either
    for message in ('{"as":"d","do":[{"cmd":"embargo"}]}', '{"as":"d","do":[{"cmd":"Lift"},{"cmd":"Unlift"}]}', '{"as":"d","ask":"embargo"}'):
        run.says(message, '{"error":"UnknownRequest"}')
    for message in ('{"as":"d","do":[{"board":1,"cmd":"Embargo"}]}', '{"as":"d","do":[{"cmd":"Lift","name":"c"}]}', '{"do":[{"cmd":"Embargo"}]}',
                    '{"as":"a","do":[{"cmd":"Assign","name":"s","role":"commentator"}]}', '{"as":"d","ask":"status","edition":2}'):
        run.says(message, '{"error":"BadField"}')
    run.write("second edition")


# ---- incomplete boards when play has ended, and a half table

def write_second_edition_end():
    run = second_edition()
    run.do("d", NEXT, NEXT, *[rule(row[1], row[2], 50, 50, 1) for row in run.session.rows], CLOSE, *[OK] * 12)
    run.do("d", void(2, 1), OK)
    # of a board that lost a result a commentator is shown the play of others, their reasons never, and nothing where there is no result
    for name, denials in (("s", ((9, 2), (9, 2), (9, 2))), ("n2", ((6, 2), (6, 2), (6, 2))), ("n1", ((13, 2), (10, 2), (12, 2))), ("c", ((13, 2), (13, 2), (12, 2)))):
        for ask, denial in zip(ABOUT_TABLES, denials):
            run.ask(name, ask, denial, table=2, board=1)
    run.ask("c", "play", {"board": 1, "cards": [], "table": 1}, table=1, board=1)
    run.ask("c", "costs", {"board": 1, "costs": [], "table": 1}, table=1, board=1)
    run.ask("n1", "costs", (10, 2), table=1, board=1)
    run.ask("c", "reason", (12, 1), table=1, board=1)
    run.ask("n1", "reason", {"board": 1, "code": 1, "table": 1}, table=1, board=1)
    run.ask("c", "analysis", {"board": 1, "tricks": None}, board=1)
    run.ask("n1", "analysis", (10, 2), board=1)
    run.do("d", FINALISE, EMBARGO, FINALISE, "NotAllLive", OK, "NotAllLive")
    run.do("d", rule(2, 1, 0, 0, 9), FINALISE, OK, OK)
    run.ask_hands(1, c=UNDER_EMBARGO, n1=UNDER_EMBARGO, d=BOARD_1)
    run.do("d", LIFT, OK)
    run.ask("c", "costs", {"board": 1, "costs": [], "table": 2}, table=2, board=1)
    run.ask_everything(["s", "c", "n2"], [(2, 1)])
    run.write("second edition's end")


def write_second_half_table():
    run = second_edition(absent="EW3")
    run.says('{"as":"c","ask":"status"}', '{"status":{"absent":"EW3","edition":2,"embargo":false,"held":[],"live":[[],[],[]],"marks":["N none","E ns",'
             '"S ew"],"per_set":1,"phase":"Running","round":1,"rounds":3,"seats":[["n1","NS1","N"],["n2","NS2","N"]],"tables":3},"version":0}')
    run.ask_hands(2, n1=(7, 2), n2=(6, 2), c=BOARD_2)
    run.ask("c", "ranking", [row for row in NOTHING_EARNED if row[0] != "EW3"])
    run.ask("c", "play", "NoSuchCell", table=3, board=3)
    run.do("d", EMBARGO, OK)
    run.ask_everything(["n1", "s", "c", "d"], [(1, 1), (2, 2)])
    run.write("half table of the second edition")


# ---- par, which is shown as the analysis is

PENDING = {"board": 1, "result": None, "score": None}


def ask_par(run, names):
    """Who is told a board's analysis is told its par, and who is denied the one is denied the other for the same rule, with its table."""
    for name in names:
        for board in (1, 2, 3, 4):
            replies = [run.session.reply(name, {"ask": ask, "board": board}) for ask in ("analysis", "par")]
            assert replies[0] == replies[1] or ("analysis" in replies[0] and "par" in replies[1]), (name, board, replies)
            for ask in ("analysis", "par"):
                run.ask(name, ask, board=board)


def write_par():
    run = second_edition(*ROLES_MORE)
    run.says('{"as":"c","ask":"par","board":1}', '{"par":{"board":1,"result":null,"score":null},"version":0}')
    run.says('{"as":"n1","ask":"par","board":1}',
             '{"denied":{"board":1,"rule":6,"table":1,"why":"your pair has still to play this board"},"version":0}')
    run.says('{"as":"n1","ask":"par","board":4,"since":9}', '{"error":"NoSuchBoard","version":0}')
    run.says('{"as":"n1","ask":"par","board":1,"since":9}', '{"error":"Behind","version":0}')
    for name, denial in (("n2", (6, 2)), ("s", (9, 1)), ("k", NEITHER), ("a", NEITHER), ("m", NEITHER), ("x", NO_MEMBER), ("zz", NO_ACCOUNT)):
        run.ask(name, "par", denial, board=1)
    ask_par(run, ALL_ROLES)
    # whoever played the board waits for the others, as for the analysis, and commentators don't
    run.do("k", *played(1, 1, FOUR_SPADES), OK, OK)
    for name, answer in (("n1", (10, 2)), ("s", (9, 2)), ("c", PENDING), ("ca", PENDING), ("d", PENDING), ("k", NEITHER)):
        run.ask(name, "par", answer, board=1)
    run.do("d", NEXT, OK)
    run.do("k", *played(3, 1, "pass"), OK, OK)
    run.ask("n1", "par", (10, 2), board=1)
    ask_par(run, ALL_ROLES)
    # of a complete board it is shown to all who watch or play it, unless the director holds it or there is an embargo
    run.do("d", NEXT, rule(2, 1, 60, 40, 7), OK, OK)
    for name in ("n1", "n2", "s", "c"):
        run.ask(name, "par", PENDING, board=1)
    run.do("d", hold(1), OK)
    run.says('{"as":"n1","ask":"par","board":1}', '{"denied":{"board":1,"rule":5,"table":0,"why":"the board is held"},"version":8}')
    ask_par(run, ALL_ROLES)
    run.do("d", release(1), EMBARGO, OK, OK)
    for name in NOT_DIRECTORS:
        run.ask(name, "par", UNDER_EMBARGO, board=1)
    run.ask("d", "par", PENDING, board=1)
    ask_par(run, ALL_ROLES)
    run.do("d", LIFT, *[rule(row[1], row[2], 50, 50, 1) for row in run.session.rows if row[2] > 1], OK, *[OK] * 6)
    run.do("d", CLOSE, FINALISE, OK, OK)
    ask_par(run, ALL_ROLES)
    # a board's number, and no other member
    for message in ('{"as":"d","ask":"Par","board":1}', '{"as":"d","ask":"pars","board":1}', '{"as":"d","ask":"optimum","board":1}'):
        run.says(message, '{"error":"UnknownRequest"}')
    for message in ('{"as":"d","ask":"par"}', '{"as":"d","ask":"par","board":256}', '{"as":"d","ask":"par","board":"1"}', '{"ask":"par","board":1}',
                    '{"as":"d","ask":"par","board":1,"table":1}', '{"as":"d","ask":"par","board":1,"dealer":"N"}',
                    '{"as":"d","ask":"par","board":1,"since":-1}'):
        run.says(message, '{"error":"BadField"}')
    run.write("par")


# ---- the first edition, which has nothing of this

def write_first_edition(part, said):
    opening = SESSION.replace('"budget":0', '"budget":0,"edition":1', 1) if said else SESSION
    run = JudgedRun(opening, JudgedSession(3, 3, 1, USERS, DEALS))
    run.says('{"as":"d","do":[{"cmd":"Embargo"}]}', '{"error":"UnknownRequest"}')
    for message in (do("d", LIFT), do("d", NEXT, EMBARGO), do("n1", EMBARGO), do("zz", LIFT), do("d", {**EMBARGO, "board": 1}),
                    do("a", assign("s", "Commentator"), EMBARGO), '{"do":[{"cmd":"Lift"}]}'):
        run.says(message, '{"error":"UnknownRequest"}')
    for message in ('{"as":"d","ask":"par","board":1}', '{"as":"zz","ask":"par","board":1}', '{"ask":"par","board":256}'):
        run.says(message, '{"error":"UnknownRequest"}')
    for command in (assign("s", "Commentator"), assign("zz", "Commentator"), deassign("s", "Commentator"), inherit("Commentator", "Spectator"),
                    inherit("Director", "Commentator"), disinherit("Commentator", "Spectator"), disinherit("Commentator", "Commentator")):
        for name in ("a", "n1"):
            run.says(do(name, command), '{"error":"BadField"}')
    run.ask("n1", "status", STATUS_0)
    run.ask("a", "accounts", ACCOUNTS_0)
    run.says('{"as":"n1","ask":"board","board":1}',
             '{"denied":{"board":1,"rule":5,"table":1,"why":"your pair has still to play this board"},"version":0}')
    run.says('{"as":"s","ask":"board","board":1}', '{"denied":{"board":1,"rule":8,"table":1,"why":"the board isn\'t complete"},"version":0}')
    run.ask("c", "board", (1, 0), board=1)
    run.do("a", add("c"), assign("c", "Spectator"), OK, OK)
    run.do("d", hold(1), OK)
    run.ask_hands(1, c=(4, 0), n1=(4, 0), d=BOARD_1)
    run.ask_everything(["n1", "s", "k", "a", "c"], [(1, 1)])
    run.write(part)


if __name__ == "__main__":
    write_second_edition()
    write_embargo()
    write_all_roles()
    write_commentator_who_plays()
    write_changed_commentator()
    write_second_edition_end()
    write_second_half_table()
    write_par()
    write_first_edition("first edition", False)
    write_first_edition("first edition by its number", True)

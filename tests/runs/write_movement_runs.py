#!/usr/bin/env python3
"""Writes the parts of the stored runs of crates/bridge_server_stored_runs that are about movements which their object names: those whose
name begins with `a Howell`, and `496 rows`, `an arrow switch`, `share and relay` and `a web`.

    python3 tests/runs/write_movement_runs.py

The answers are worked out twice, and never by the program: by the plain model of tests/models/judged_session.py, and by hand, for each command and
where an answer stands beside a query below. Which objects open a session is told by tests/runs/write_movement_objects.py.
"""
import pathlib
import re
import sys

sys.path[:0] = [str(pathlib.Path(__file__).resolve().parents[1] / folder) for folder in ("models",)]
from account_commands import seat
from judged_run import OK, JudgedRun
from judged_session import JudgedSession
from write_query_runs import CLOSE, FINALISE, NEXT, correct, hold, played, release, rule, void
from write_stored_runs import FOUR_SPADES, WHOLE_SUITS, contract, enter, game, text_of, user

FIVE_MADE = contract("N", 4, "S", 0, 11)
USERS = [user("a", "Administrator"), user("d", "Director"), user("k", "Scorer"), user("s", "Spectator"),
         user("n1", "Contestant", "NS1", "N"), user("e1", "Contestant", "EW1", "E")]
EVERYBODY = ["a", "d", "k", "s", "n1", "e1", "zz"]
# A Howell of three tables: each pair meets each other and plays each set once, and in the first round all tables play set 1.
HOWELL = [
    [1, 1, 1, "NS1", "EW1"], [1, 2, 1, "NS2", "EW2"], [1, 3, 1, "NS3", "EW3"],
    [2, 1, 2, "EW3", "NS1"], [2, 2, 5, "EW1", "NS2"], [2, 3, 3, "NS3", "EW2"],
    [3, 1, 4, "NS1", "EW2"], [3, 2, 3, "EW3", "EW1"], [3, 3, 2, "NS3", "NS2"],
    [4, 1, 5, "NS3", "NS1"], [4, 2, 2, "EW1", "EW2"], [4, 3, 4, "EW3", "NS2"],
    [5, 1, 3, "NS1", "NS2"], [5, 2, 4, "EW1", "NS3"], [5, 3, 5, "EW2", "EW3"],
]
# as the status tells it: by set, and then by table
TOLD = [
    [1, 1, 1, "NS1", "EW1"], [1, 2, 1, "NS2", "EW2"], [1, 3, 1, "NS3", "EW3"],
    [2, 1, 2, "EW3", "NS1"], [4, 2, 2, "EW1", "EW2"], [3, 3, 2, "NS3", "NS2"],
    [5, 1, 3, "NS1", "NS2"], [3, 2, 3, "EW3", "EW1"], [2, 3, 3, "NS3", "EW2"],
    [3, 1, 4, "NS1", "EW2"], [5, 2, 4, "EW1", "NS3"], [4, 3, 4, "EW3", "NS2"],
    [4, 1, 5, "NS3", "NS1"], [2, 2, 5, "EW1", "NS2"], [5, 3, 5, "EW2", "EW3"],
]
# each player has a whole suit: who has the spades is named first, and the deal is told from North on
FIRST = "NESWN"
DEALS = ["N:" + " ".join((WHOLE_SUITS.split() * 2)[4 - "NESW".index(first):][:4]) for first in FIRST]
MARKS = ["N none", "E ns", "S ew", "W both", "N ns"]
BOARDS = [{"deal": deal, "dealer": mark[0], "number": number, "vul": mark[2:]} for number, (deal, mark) in enumerate(zip(DEALS, MARKS), 1)]
MEMBERS = {"budget": 0, "pbn": "".join(game(board, first) for board, first in enumerate(FIRST, 1)), "per_set": 1, "rounds": 5, "tables": 3,
           "users": USERS}
SESSION = {**MEMBERS, "movement": HOWELL, "shared_by": 3}
STATUS = {"held": [], "live": [[]] * 5, "marks": MARKS, "movement": TOLD, "per_set": 1, "phase": "Running", "round": 1, "rounds": 5,
          "seats": [["n1", "NS1", "N"], ["e1", "EW1", "E"]], "tables": 3}


def howell_run(absent=None, **members):
    half_table = {} if absent is None else {"absent": absent}
    found = {**SESSION, **half_table, **members}
    return JudgedRun(text_of(found), JudgedSession(3, 5, 1, USERS, DEALS, absent, movement=found["movement"]))


def nothing_earned(*pairs):
    return [[pair, 0, 0] for pair in pairs]


SIX_PAIRS = "NS1", "NS2", "NS3", "EW1", "EW2", "EW3"


def ask_everybody(run, boards, cells):
    for name in EVERYBODY:
        run.ask_all(name, boards, cells)


def confirm_pass(run, *cells):
    for table, board in cells:
        run.do("k", *played(table, board, "pass"), OK, OK)


# ---- a session to its end, in which every pair but one changes its side

def first_rounds(run):
    """From the opening to a result on board 2, which a pair that began East-West played North-South."""
    run.ask("n1", "board", (5, 1), board=2)
    run.ask("e1", "board", (5, 2), board=2)
    run.ask("s", "board", (8, 1), board=2)
    run.ask("n1", "ranking", nothing_earned(*SIX_PAIRS))
    run.ask("n1", "status", STATUS)
    run.do("k", *played(1, 1, FOUR_SPADES), OK, OK)
    for name, answer in (("n1", BOARDS[0]), ("e1", BOARDS[0]), ("s", (8, 2))):
        run.ask(name, "board", answer, board=1)
    run.do("k", *played(2, 1, FIVE_MADE), OK, OK)
    run.do("k", *played(3, 1, FOUR_SPADES), OK, OK)
    run.ask("s", "traveller", {"board": 1, "rows": [
        {"ew": "EW1", "ns": "NS1", "points": 1, "result": FOUR_SPADES, "score": 420, "table": 1},
        {"ew": "EW2", "ns": "NS2", "points": 4, "result": FIVE_MADE, "score": 450, "table": 2},
        {"ew": "EW3", "ns": "NS3", "points": 1, "result": FOUR_SPADES, "score": 420, "table": 3}]}, board=1)
    run.do("d", NEXT, OK)
    run.do("k", *played(1, 2, FOUR_SPADES), OK, OK)
    run.ask("n1", "board", BOARDS[1], board=2)
    run.ask("e1", "board", (5, 2), board=2)
    run.ask("s", "board", (8, 2), board=2)
    run.ask("n1", "traveller", {"board": 2, "rows": [
        {"ew": "NS1", "ns": "EW3", "points": 0, "result": FOUR_SPADES, "score": 620, "table": 1}]}, board=2)
    assert run.version == 9


def to_the_end(run):
    run.ask("n1", "play", {"board": 2, "cards": [], "table": 1}, table=1, board=2)
    run.ask("n1", "play", (10, 2), table=2, board=2)
    run.do("k", enter(1, 3, "pass"), enter(2, 6, "pass"), enter(2, 2, "pass"), "RoundNotStarted", "NoSuchCell", "RoundNotStarted")
    run.do("d", seat("e1", "NS4", "N"), seat("e1", "EW2", "N"), seat("e1", "EW2", "E"), "NoSuchPair", "WrongDirection", "AlreadySeated")
    ask_everybody(run, range(1, 6), [(1, 2), (2, 2), (3, 2), (2, 4)])
    confirm_pass(run, (2, 5), (3, 3))
    # EW1 sat North-South on board 5, and sits at table 2 for it; NS1 plays it in the fourth round at table 1
    run.ask("e1", "board", BOARDS[4], board=5)
    run.ask("n1", "board", (5, 1), board=5)
    run.ask("e1", "play", {"board": 5, "cards": [], "table": 2}, table=2, board=5)
    for cells in (((1, 4), (2, 3), (3, 2)), ((1, 5), (2, 2), (3, 4)), ((1, 3), (2, 4), (3, 5))):
        run.do("d", NEXT, OK)
        confirm_pass(run, *cells)
    assert run.version == 34
    run.do("d", NEXT, "NoMoreRounds")
    run.ask("s", "traveller", {"board": 2, "rows": [
        {"ew": "NS1", "ns": "EW3", "points": 4, "result": FOUR_SPADES, "score": 620, "table": 1},
        {"ew": "EW2", "ns": "EW1", "points": 1, "result": "pass", "score": 0, "table": 2},
        {"ew": "NS2", "ns": "NS3", "points": 1, "result": "pass", "score": 0, "table": 3}]}, board=2)
    run.ask("s", "ranking", [["NS2", 1300, 2000], ["EW3", 1300, 2000], ["EW1", 1000, 2000], ["EW2", 900, 2000], ["NS3", 800, 2000],
                             ["NS1", 700, 2000]])
    # a ruling for the pair that sits North-South, which is EW3, and for the one that sits East-West, NS1
    run.do("d", rule(1, 2, 70, 20, 7), OK)
    run.ask("n1", "reason", {"board": 2, "code": 7, "table": 1}, table=1, board=2)
    run.ask("e1", "reason", (11, 1), table=1, board=2)
    # of board 2 two results were played, and the top is two units: EW3 earns 140 in place of 400, NS1 40 in place of none, and each of the
    # others 100 of 200 in place of 100 or 300 of 400
    run.ask("s", "ranking", [["NS2", 1100, 1800], ["EW3", 1040, 1800], ["EW1", 1000, 1800], ["NS3", 800, 1800], ["NS1", 740, 1800],
                             ["EW2", 700, 1800]])
    ask_everybody(run, range(1, 6), [(1, 2), (2, 2), (3, 5)])
    run.do("d", CLOSE, OK)
    run.ask("e1", "play", {"board": 2, "cards": [], "table": 1}, table=1, board=2)
    run.do("d", FINALISE, correct(1, 2, "pass"), OK, "WrongPhase")
    run.ask("k", "status", {**STATUS, "live": [[1, 2, 3]] * 5, "phase": "Final", "round": 5})


def whole_howell(**members):
    run = howell_run(**members)
    first_rounds(run)
    to_the_end(run)
    return run


def write_howells():
    run = whole_howell()
    run.write("a Howell")
    # a list's order changes nothing
    other = whole_howell(movement=[HOWELL[place * 7 % 15] for place in range(15)])
    assert other.wanted == run.wanted and other.given != run.given
    other.write("a Howell, its rows in another order")


# ---- a void, a hold, and who sat there

def write_void():
    run = howell_run()
    first_rounds(run)
    # NS1 was shown board 2 where it sat East-West, and plays it there no more
    run.do("d", void(1, 2), OK)
    assert run.version == 10
    run.ask("n1", "board", (5, 1), board=2)
    run.do("k", enter(1, 2, FOUR_SPADES), "Spoiled(n1)")
    run.do("d", rule(1, 2, 60, 40, 3), OK)
    run.ask("n1", "traveller", {"board": 2, "rows": [{"ew": "NS1", "ns": "EW3", "ruling": [60, 40], "table": 1}]}, board=2)
    # a contestant who loses the seat is shown nothing that is played, and takes another pair's cells with it
    run.do("d", hold(2), {"cmd": "Unseat", "name": "n1"}, release(2), OK, OK, OK)
    run.ask("n1", "board", (6, 2), board=2)
    run.do("d", seat("n1", "NS2", "N"), OK)
    run.ask("n1", "board", (5, 3), board=2)
    run.do("k", *played(2, 5, "pass"), OK, OK)
    run.do("d", NEXT, OK)
    run.do("k", enter(3, 2, "pass"), "Spoiled(n1)")
    run.do("k", *played(2, 3, "pass"), *played(1, 4, "pass"), OK, OK, OK, OK)
    ask_everybody(run, range(1, 6), [(1, 2), (2, 5), (3, 2)])
    run.write("a Howell, a void")


# ---- a pair that is absent

def write_absent():
    run = howell_run("EW3")
    rows = [row for row in TOLD if "EW3" not in row]
    run.ask("n1", "status", {"absent": "EW3", **STATUS, "movement": rows})
    run.ask("s", "ranking", nothing_earned("NS1", "NS2", "NS3", "EW1", "EW2"))
    run.do("d", seat("e1", "EW3", "E"), "NoSuchPair")
    for table, board in ((3, 1), (1, 2), (2, 3), (3, 4), (3, 5)):
        run.do("k", enter(table, board, "pass"), "NoSuchCell")
        run.ask("d", "play", "NoSuchCell", table=table, board=board)
    # who would meet EW3 doesn't play that board: NS1 board 2, EW1 board 3
    run.ask("n1", "board", (6, 2), board=2)
    run.ask("e1", "board", (6, 1), board=3)
    run.ask("e1", "board", (5, 2), board=2)
    confirm_pass(run, (1, 1), (2, 1))
    run.ask("s", "board", BOARDS[0], board=1)
    for cells in (((2, 5), (3, 3)), ((1, 4), (3, 2)), ((1, 5), (2, 2)), ((1, 3), (2, 4))):
        run.do("d", CLOSE, NEXT, "NotAllLive", OK)
        confirm_pass(run, *cells)
    run.ask("n1", "board", BOARDS[1], board=2)
    run.ask("s", "status", {"absent": "EW3", **STATUS, "movement": rows, "live": [[1, 2], [2, 3], [1, 3], [1, 2], [1, 2]], "round": 5})
    # each of the five plays four boards, at two tables each
    run.ask("s", "ranking", [[pair, 400, 800] for pair in ("NS1", "NS2", "NS3", "EW1", "EW2")])
    ask_everybody(run, range(1, 6), [(1, 1), (2, 2)])
    run.do("d", CLOSE, OK)
    run.write("a Howell, an absent pair")


# ---- as many rows as there can be: 32 pairs meet in 31 rounds, and in each round all tables play one set

def name_of(place):
    return f"NS{place + 1}" if place < 16 else f"EW{place - 15}"


def all_meet_all():
    """One pair stays and the others go round it, so that each two meet once."""
    rows = []
    for r in range(31):
        couples = [(31, r), *(((r + k) % 31, (r - k) % 31) for k in range(1, 16))]
        rows += [[r + 1, table, r + 1, name_of(one), name_of(other)] for table, (one, other) in enumerate(couples, 1)]
    return rows


def write_496_rows():
    users = [*USERS[:4], user("n16", "Contestant", "NS16", "N"), user("e16", "Contestant", "EW16", "W")]
    rows, deals = all_meet_all(), [DEALS[0]] * 124
    found = {"budget": 0, "movement": rows, "pbn": "".join(game(board, "N") for board in range(1, 125)), "per_set": 4, "rounds": 31,
             "shared_by": 16, "tables": 16, "users": users}
    run = JudgedRun(text_of(found), JudgedSession(16, 31, 4, users, deals, movement=rows))
    sixteen = ["N none", "E ns", "S ew", "W both", "N ns", "E ew", "S both", "W none", "N ew", "E both", "S none", "W ns", "N both", "E none",
               "S ns", "W ew"]
    run.ask("s", "status", {**STATUS, "live": [[]] * 124, "marks": (sixteen * 8)[:124], "movement": rows, "per_set": 4, "rounds": 31,
                            "seats": [["n16", "NS16", "N"], ["e16", "EW16", "W"]], "tables": 16})
    everybody = [name_of(place) for place in range(32)]
    run.ask("d", "ranking", nothing_earned(*everybody))
    # EW16 stays at table 1 and meets NS16 in round 16, at boards 61 to 64
    run.ask("n16", "board", (5, 1), board=61)
    run.ask("e16", "board", (5, 1), board=124)
    run.ask("s", "board", "NoSuchBoard", board=125)
    run.do("k", enter(1, 5, "pass"), enter(16, 125, "pass"), "RoundNotStarted", "NoSuchCell")
    for number in range(1, 32):
        rulings = [rule(table, 4 * number, 60, 40, 1) for table in range(1, 17)]
        commands = rulings if number == 31 else [*rulings, NEXT]
        run.do("d", *commands, *[OK] * len(commands))
    run.ask("s", "board", {"deal": DEALS[0], "dealer": "W", "number": 124, "vul": "ns"}, board=124)
    run.do("d", *[correct(table, 124, contract("E", 3, "C", 0, 9) if table % 2 else "pass") for table in range(1, 17)], *[OK] * 16)
    # vulnerable or not, three clubs by East made are 110: each of eight beats none and equals seven, each pass beats eight and equals seven
    run.ask("s", "traveller", board=124)
    for name in ("s", "n16", "d"):
        run.ask(name, "ranking")
        run.ask(name, "status")
        run.ask(name, "list", {"boards": [*range(4, 125, 4)], "more": False} if name != "d" else {"boards": [*range(1, 65)], "more": True})
    run.do("d", NEXT, "NoMoreRounds")
    run.write("496 rows")


# ---- movements that have a word: who plays which set at tables 1, 2, .., round by round

SWITCHED = """
    NS1-EW1:1  NS2-EW2:2  NS3-EW3:3
    NS1-EW3:2  NS2-EW1:3  NS3-EW2:1
    EW2-NS1:3  EW3-NS2:1  EW1-NS3:2"""
SHARE_AND_RELAY = """
    NS1-EW1:1  NS2-EW2:2  NS3-EW3:4  NS4-EW4:1
    NS1-EW4:2  NS2-EW1:3  NS3-EW2:1  NS4-EW3:2
    NS1-EW3:3  NS2-EW4:4  NS3-EW1:2  NS4-EW2:3
    NS1-EW2:4  NS2-EW3:1  NS3-EW4:3  NS4-EW1:4"""
WEB = """
    NS1-EW1:1  NS2-EW2:2  NS3-EW3:3  NS4-EW4:2  NS5-EW5:1  NS6-EW6:5
    NS1-EW6:2  NS2-EW1:3  NS3-EW2:4  NS4-EW3:1  NS5-EW4:5  NS6-EW5:4
    NS1-EW5:3  NS2-EW6:4  NS3-EW1:5  NS4-EW2:5  NS5-EW3:4  NS6-EW4:3
    NS1-EW4:4  NS2-EW5:5  NS3-EW6:1  NS4-EW1:4  NS5-EW2:3  NS6-EW3:2
    NS1-EW3:5  NS2-EW4:1  NS3-EW5:2  NS4-EW6:3  NS5-EW1:2  NS6-EW2:1"""


def rows_of(text):
    """The rows of such a text, by set and then by table."""
    rows = []
    for number, line in enumerate(text.split("\n")[1:], 1):
        for table, (ns, ew, which) in enumerate((re.split("[-:]", each) for each in line.split()), 1):
            rows.append([number, table, int(which), ns, ew])
    return sorted(rows, key=lambda row: (row[2], row[1]))


def worded_run(word, text, switched=0, absent=None):
    """A session of a movement with a word, which has as many boards as the deals above, or fewer, and the status that it opens with."""
    rows = rows_of(text)
    tables, rounds, sets = (max(row[place] for row in rows) for place in (1, 0, 2))
    members = {"budget": 0, "movement": word, "pbn": MEMBERS["pbn"], "per_set": 1, "rounds": rounds, "tables": tables, "users": USERS,
               **({"switched": switched} if switched else {}), **({"absent": absent} if absent else {})}
    run = JudgedRun(text_of(members), JudgedSession(tables, rounds, 1, USERS, DEALS[:sets], absent, movement=word, switched=switched))
    half_table = {"absent": absent} if absent else {}
    status = {**half_table, **STATUS, "live": [[]] * sets, "marks": MARKS[:sets], "movement": [row for row in rows if absent not in row],
              "rounds": rounds, "tables": tables}
    run.ask("n1", "status", status)
    return run, status


def play_rounds(run, status, results=()):
    """Each round is passed out, but for these results; in the last nobody has still to play."""
    told = dict(results)
    for number in range(1, status["rounds"] + 1):
        if number > 1:
            run.do("d", NEXT, OK)
        for row in sorted(status["movement"]):
            if row[0] == number:
                run.do("k", *played(row[1], row[2], told.get((row[1], row[2]), "pass")), OK, OK)
        ask_everybody(run, range(1, len(status["live"]) + 1), [tuple(status["movement"][number][1:3])])
    run.do("d", CLOSE, OK)


def write_arrow_switch():
    run, status = worded_run("mitchell", SWITCHED, 1)
    play_rounds(run, status, {(1, 1): FOUR_SPADES, (2, 1): FIVE_MADE, (3, 1): FOUR_SPADES}.items())
    # of board 1 NS1 and NS3 earn 100 of 400, EW1 and EW2 300; at table 2 EW3 sits North-South, and earns all
    run.ask("s", "ranking", [["EW3", 800, 1200], ["EW1", 700, 1200], ["EW2", 700, 1200], ["NS1", 500, 1200], ["NS3", 500, 1200],
                             ["NS2", 400, 1200]])
    run.ask("n1", "traveller", {"board": 1, "rows": [
        {"ew": "EW1", "ns": "NS1", "points": 1, "result": FOUR_SPADES, "score": 420, "table": 1},
        {"ew": "NS2", "ns": "EW3", "points": 4, "result": FIVE_MADE, "score": 450, "table": 2},
        {"ew": "EW2", "ns": "NS3", "points": 1, "result": FOUR_SPADES, "score": 420, "table": 3}]}, board=1)
    run.write("an arrow switch")


def write_share_and_relay():
    run, status = worded_run("share_and_relay", SHARE_AND_RELAY)
    # tables 1 and 4 share board 1, and each opens it to its own pairs; board 3 rests
    run.do("k", *played(4, 1, "pass"), enter(3, 3, "pass"), OK, OK, "RoundNotStarted")
    run.ask("n1", "board", (5, 1), board=1)
    run.do("d", void(4, 1), rule(4, 1, 50, 50, 1), OK, OK)
    run.do("k", enter(4, 1, "pass"), "AlreadyLive")
    for name in ("n1", "s", "d"):
        run.ask(name, "ranking", nothing_earned(*(f"{side}{number}" for side in ("NS", "EW") for number in range(1, 5))))
    run.write("share and relay")

    run, status = worded_run("share_and_relay", SHARE_AND_RELAY, absent="EW4")
    play_rounds(run, status)
    # EW4's rows are left out: of each board three tables pass out, and every other pair earns half of its tops
    run.ask("s", "ranking", [["NS1", 600, 1200], ["NS2", 600, 1200], ["NS3", 600, 1200], ["NS4", 600, 1200], ["EW1", 800, 1600],
                             ["EW2", 800, 1600], ["EW3", 800, 1600]])
    run.write("share and relay, an absent pair")


def write_web():
    run, status = worded_run("web", WEB)
    play_rounds(run, status)
    run.ask("s", "ranking", [[f"{side}{number}", 2500, 5000] for side in ("NS", "EW") for number in range(1, 7)])
    run.write("a web")


def write_worded_howell():
    """A Howell of three tables by its word: the answers are those of its list."""
    listed, found = whole_howell(), {**MEMBERS, "movement": "howell"}
    by_word = JudgedRun(text_of(found), JudgedSession(3, 5, 1, USERS, DEALS, movement="howell"))
    first_rounds(by_word)
    to_the_end(by_word)
    assert by_word.wanted == listed.wanted and by_word.given[1:] == listed.given[1:]
    by_word.write("a Howell, by its word")


if __name__ == "__main__":
    write_howells()
    write_worded_howell()
    write_arrow_switch()
    write_share_and_relay()
    write_web()
    write_void()
    write_absent()
    write_496_rows()

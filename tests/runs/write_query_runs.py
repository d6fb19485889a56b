#!/usr/bin/env python3
"""Writes the parts of the stored runs of crates/bridge_server_stored_runs that ask queries: `queries`, `session end`,
`one world` and `other world`. Those of filters and of other sections are written by tests/runs/write_filter_runs.py and write_section_runs.py.

    python3 tests/runs/write_query_runs.py

Each has a script, and what must be written. The answers are worked out twice, and never by the
program: by the plain model of tests/models/session_model.py, and, where an answer stands beside a query below, by hand.
"""
import pathlib
import sys

sys.path[:0] = [str(pathlib.Path(__file__).resolve().parents[1] / folder) for folder in ("models",)]
from session_model import Session
from write_stored_runs import (BOARDS, FOUR_SPADES, SESSION, USERS, WHOLE_SUITS, Script, confirm, contract, do, enter, game, text_of)

DEALS = [f"N:{WHOLE_SUITS}", "N:...AKQJT98765432 AKQJT98765432... .AKQJT98765432.. ..AKQJT98765432.",
         "N:..AKQJT98765432. ...AKQJT98765432 AKQJT98765432... .AKQJT98765432.."]
STATUS_0 = {"held": [], "live": [[], [], []], "marks": ["N none", "E ns", "S ew"], "per_set": 1, "phase": "Running", "round": 1, "rounds": 3,
            "seats": [["n1", "NS1", "N"], ["n2", "NS2", "N"]], "tables": 3}
ACCOUNTS_0 = {"inherits": [["Spectator", "Member"], ["Contestant", "Member"], ["Scorer", "Member"], ["Administrator", "Member"],
                           ["Director", "Scorer"], ["Director", "Spectator"]],
              "users": [["a", ["Administrator"]], ["d", ["Director"]], ["d2", ["Director"]], ["k", ["Scorer"]], ["s", ["Spectator"]],
                        ["n1", ["Contestant"]], ["n2", ["Contestant"]]]}
NOTHING_EARNED = [["NS1", 0, 0], ["NS2", 0, 0], ["NS3", 0, 0], ["EW1", 0, 0], ["EW2", 0, 0], ["EW3", 0, 0]]
R420_ROW = {"ew": "EW1", "ns": "NS1", "points": 0, "result": FOUR_SPADES, "score": 420, "table": 1}
EVERYBODY = ["n1", "n2", "s", "k", "a", "d", "zz"]
ABOUT_ALL, ABOUT_BOARDS, ABOUT_TABLES = ["status", "list", "ranking", "accounts"], ["board", "traveller", "analysis"], ["play", "costs", "reason"]


def rule(table, board, ns, ew, reason):
    return {"board": board, "cmd": "Rule", "ew": ew, "ns": ns, "reason": reason, "table": table}


def correct(table, board, result, play=None):
    return {**enter(table, board, result, play), "cmd": "Correct"}


def void(table, board):
    return {"board": board, "cmd": "Void", "table": table}


def hold(board):
    return {"board": board, "cmd": "Hold"}


def release(board):
    return {"board": board, "cmd": "Release"}


def played(table, board, result, play=None):
    return [enter(table, board, result, play), confirm(table, board, result)]


NEXT, CLOSE, FINALISE = {"cmd": "NextRound"}, {"cmd": "Close"}, {"cmd": "Finalise"}


class Run(Script):
    """A script with a plain session beside it, which says what each query is answered."""

    def __init__(self, opening, session):
        super().__init__(opening)
        self.session = session

    def accept(self, actor, *commands):
        """A batch of commands that are all accepted."""
        for command in commands:
            self.session.accept(command)
        self.batch(do(actor, *commands), *["ok"] * len(commands))

    def refuse(self, actor, command, refusal):
        self.batch(do(actor, command), refusal)

    def ask(self, name, ask, by_hand=None, since=None, **members):
        """A query. By hand it is answered what stands under its word, or a denial's rule and table, or the name of an error."""
        query = {"ask": ask, **members, **({} if since is None else {"since": since})}
        reply = {word: value for word, value in self.session.reply(name, query).items() if word != "version"}
        if isinstance(by_hand, tuple):
            assert (reply.get("denied", {}).get("rule"), reply.get("denied", {}).get("table")) == by_hand, (name, query, reply)
        elif isinstance(by_hand, str):
            assert reply == {"error": by_hand}, (name, query, reply)
        elif by_hand is not None:
            assert reply == {ask: by_hand}, (name, query, reply)
        self.query(text_of({"as": name, **query}), **reply)

    def ask_all(self, name, boards, cells):
        """Every query, about all these boards and cells."""
        for ask in ABOUT_ALL:
            self.ask(name, ask)
        for board in boards:
            for ask in ABOUT_BOARDS:
                self.ask(name, ask, board=board)
        for table, board in cells:
            for ask in ABOUT_TABLES:
                self.ask(name, ask, table=table, board=board)


def small_run():
    return Run(SESSION, Session(3, 3, 1, USERS, DEALS))


# ---- every query in a small session, allowed and denied

def at_the_opening(run):
    run.ask("n1", "status", STATUS_0)
    run.ask("a", "accounts", ACCOUNTS_0)
    for name in ("d", "d2"):
        run.ask(name, "accounts", ACCOUNTS_0)
    for name in ("n1", "k", "s"):
        run.ask(name, "accounts", (3, 0))
    for name, denial in (("n1", (5, 1)), ("n2", (5, 2)), ("s", (8, 1)), ("k", (7, 0)), ("a", (7, 0)), ("zz", (1, 0))):
        for ask in ABOUT_BOARDS:
            run.ask(name, ask, denial, board=1)
        for ask in ABOUT_TABLES:
            run.ask(name, ask, denial, table=2, board=1)
    for ask in ABOUT_ALL:
        run.ask("zz", ask, (1, 0))
    # to a director everything is shown that there is
    run.ask("d", "board", {"deal": DEALS[0], "dealer": "N", "number": 1, "vul": "none"}, board=1)
    run.ask("d", "traveller", {"board": 1, "rows": []}, board=1)
    run.ask("d", "analysis", {"board": 1, "tricks": None}, board=1)
    run.ask("d", "play", {"board": 1, "cards": None, "table": 2}, board=1, table=2)
    run.ask("d", "costs", {"board": 1, "costs": None, "table": 2}, board=1, table=2)
    run.ask("d", "reason", {"board": 1, "code": None, "table": 2}, board=1, table=2)
    run.ask("d", "list", {"boards": [1, 2, 3], "more": False})
    run.ask("n1", "list", {"boards": [], "more": False})
    run.ask("s", "ranking", NOTHING_EARNED)


def before_the_rules(run):
    """No such board or cell, then a version that isn't there yet, then a denial."""
    for board in (0, 4, 255):
        for ask in ABOUT_BOARDS:
            run.ask("zz", ask, "NoSuchBoard", board=board, since=1)
    for table, board in ((0, 1), (4, 1), (1, 0), (1, 4), (255, 255)):
        for ask in ABOUT_TABLES:
            run.ask("d", ask, "NoSuchCell", table=table, board=board, since=1)
    for name in ("zz", "d"):
        for ask in ABOUT_ALL:
            run.ask(name, ask, "Behind", since=1)
        for ask in ABOUT_BOARDS:
            run.ask(name, ask, "Behind", board=3, since=2**64 - 1)
        for ask in ABOUT_TABLES:
            run.ask(name, ask, "Behind", table=3, board=3, since=1)


def after_a_result(run):
    run.accept("k", enter(1, 1, FOUR_SPADES))
    run.ask("n1", "board", (5, 1), board=1)
    run.accept("k", confirm(1, 1, FOUR_SPADES))
    run.ask("n1", "board", {"deal": DEALS[0], "dealer": "N", "number": 1, "vul": "none"}, board=1, since=2)
    run.ask("n1", "traveller", {"board": 1, "rows": [R420_ROW]}, board=1)
    run.ask("n1", "analysis", (9, 2), board=1)
    run.ask("n1", "play", {"board": 1, "cards": [], "table": 1}, table=1, board=1)
    run.ask("n1", "costs", (9, 2), table=1, board=1)
    run.ask("n1", "reason", {"board": 1, "code": 0, "table": 1}, table=1, board=1)
    run.ask("n1", "play", (10, 2), table=2, board=1)
    run.ask("n1", "costs", (9, 2), table=2, board=1)
    run.ask("n1", "reason", (11, 2), table=2, board=1)
    run.ask("d", "costs", {"board": 1, "costs": [], "table": 1}, table=1, board=1)
    run.ask("s", "status")
    # lists: what isn't shown is in none, whatever a filter says of it
    not_ten = {"not": {"dd": {"by": "N", "max": 13, "min": 10, "strain": "S"}}}
    run.ask("n1", "list", {"boards": [1], "more": False})
    run.ask("n1", "list", {"boards": [1], "more": False}, filter=not_ten)
    run.ask("n2", "list", {"boards": [], "more": False})
    run.ask("d", "list", {"boards": [1, 2], "more": True}, limit=2)
    run.ask("n1", "list", {"boards": [1], "more": False}, filter={"or": [{"level": {"max": 4, "min": 4}}, {"vul": "both"}]})
    run.ask("n1", "list", {"boards": [], "more": False}, filter={"and": [{"made": True}, {"score": {"max": 419, "min": -10000}}]})
    run.ask("d", "list", {"boards": [2], "more": True}, **{"from": 2, "limit": 1})
    run.ask("n2", "list", {"boards": [], "more": False}, filter={"vul": "none"})
    run.ask("n1", "ranking", NOTHING_EARNED)
    # an audit, and the accounts
    run.query('{"as":"a","audit":{"from":1,"limit":10}}', audit=[[1, "k", "Enter", "1/1"], [2, "k", "Confirm", "1/1"]])
    run.error('{"as":"n1","audit":{"from":1,"limit":10}}', "NotPermitted")
    run.ask("n1", "accounts", (3, 0))


def after_a_ruling(run):
    run.accept("d", void(1, 1))
    run.ask("n1", "board", (5, 1), board=1)
    run.refuse("k", enter(1, 1, FOUR_SPADES), "Spoiled(n1)")
    run.accept("d", rule(1, 1, 60, 40, 7))
    run.ask("n1", "traveller", {"board": 1, "rows": [{"ew": "EW1", "ns": "NS1", "ruling": [60, 40], "table": 1}]}, board=1)
    run.ask("n1", "reason", {"board": 1, "code": 7, "table": 1}, table=1, board=1)
    run.refuse("d", rule(1, 1, 101, 40, 7), "BadRuling")
    run.ask("n1", "play", {"board": 1, "cards": [], "table": 1}, table=1, board=1)
    run.ask("d", "costs", {"board": 1, "costs": [], "table": 1}, table=1, board=1)
    # a ruling makes no atom on results true
    for atom in ({"made": True}, {"made": False}, {"score": {"max": 10000, "min": -10000}}, {"level": {"max": 13, "min": 0}}):
        run.ask("n1", "list", {"boards": [], "more": False}, filter=atom)
        run.ask("n1", "list", {"boards": [1], "more": False}, filter={"not": atom})
    run.ask("n1", "ranking", NOTHING_EARNED)
    # beside two results that were played, a ruling earns its percentage of their top
    run.accept("d", NEXT)
    run.accept("k", *played(3, 1, FOUR_SPADES, ["SA", "DA", "CA", "HA"]))
    run.accept("d", NEXT)
    run.accept("k", *played(2, 1, contract("N", 4, "S", 0, 9), ["S2"]))
    run.ask("s", "ranking", [["NS3", 200, 200], ["EW3", 200, 200], ["NS1", 120, 200], ["EW1", 80, 200], ["NS2", 0, 200], ["EW2", 0, 200]])
    rows = [{"ew": "EW1", "ns": "NS1", "ruling": [60, 40], "table": 1},
            {"ew": "EW3", "ns": "NS2", "points": 0, "result": contract("N", 4, "S", 0, 9), "score": -50, "table": 2},
            {"ew": "EW2", "ns": "NS3", "points": 2, "result": FOUR_SPADES, "score": 420, "table": 3}]
    for name in ("s", "n1", "n2", "d"):
        run.ask(name, "traveller", {"board": 1, "rows": rows}, board=1)
    for name in ("s", "n1"):
        run.ask(name, "analysis", {"board": 1, "tricks": None}, board=1)
        run.ask(name, "costs", (10, 3), table=3, board=1)
        run.ask(name, "play", (10, 3), table=3, board=1)
        run.ask(name, "reason", (11, 3), table=3, board=1)
    run.ask("n1", "costs", {"board": 1, "costs": [], "table": 1}, table=1, board=1)
    run.ask("n2", "play", {"board": 1, "cards": ["S2"], "table": 2}, table=2, board=1)
    for name in ("n2", "d"):
        run.ask(name, "costs", {"board": 1, "costs": "pending", "table": 2}, table=2, board=1)
    run.ask("d", "play", {"board": 1, "cards": ["SA", "DA", "CA", "HA"], "table": 3}, table=3, board=1)


def after_changes_of_accounts(run):
    digest = USERS[0]["digest"]
    run.accept("a", {"cmd": "AddUser", "digest": digest, "name": "v"})
    for ask in ABOUT_ALL:
        run.ask("v", ask, (2, 0))
    for ask in ABOUT_BOARDS:
        run.ask("v", ask, (2, 0), board=1)
    for ask in ABOUT_TABLES:
        run.ask("v", ask, (2, 0), board=1, table=1)
    run.accept("a", {"cmd": "Assign", "name": "v", "role": "Director"}, {"cmd": "Assign", "name": "v", "role": "Member"},
               {"cmd": "AddInheritance", "junior": "Spectator", "senior": "Administrator"},
               {"cmd": "DeleteInheritance", "junior": "Member", "senior": "Scorer"})
    run.ask("v", "accounts")
    run.ask("k", "status", (2, 0))
    run.ask("a", "list", {"boards": [1], "more": False})
    # who has lost his seat, or has one in a pair that has its result
    run.accept("d", {"cmd": "Unseat", "name": "n2"})
    run.ask("n2", "board", (6, 1), board=2)
    run.ask("n2", "traveller", {"board": 1, "rows": run.session.ask_traveller("d", {"board": 1})["rows"]}, board=1)
    run.ask("n2", "play", (10, 2), table=2, board=1)
    run.ask("n2", "reason", (11, 2), table=2, board=1)
    run.accept("d", {"cmd": "Seat", "name": "n2", "pair": "EW2", "place": "W"})
    run.ask("n2", "play", {"board": 1, "cards": ["SA", "DA", "CA", "HA"], "table": 3}, table=3, board=1)
    run.ask("n2", "board", (5, 2), board=2)
    run.ask("n2", "status")
    # a held board, in each query
    run.accept("d", hold(1), hold(3))
    for name in ("n1", "n2", "s", "a"):
        for ask in ABOUT_BOARDS:
            run.ask(name, ask, (4, 0), board=1)
        for ask in ABOUT_TABLES:
            run.ask(name, ask, (4, 0), board=1, table=3)
        run.ask(name, "list", {"boards": [], "more": False})
        run.ask(name, "ranking", NOTHING_EARNED)
        run.ask(name, "status")
    run.ask("d", "ranking", [["NS3", 200, 200], ["EW3", 200, 200], ["NS1", 120, 200], ["EW1", 80, 200], ["NS2", 0, 200], ["EW2", 0, 200]])
    run.ask_all("d", [1, 2], [(1, 1), (2, 1)])


def write_queries():
    run = small_run()
    at_the_opening(run)
    before_the_rules(run)
    after_a_result(run)
    after_a_ruling(run)
    after_changes_of_accounts(run)
    run.write("queries")


# ---- a session to its end: on board 1 four spades by North with ten, eleven and ten tricks, the others passed out

FIVE_MADE = contract("N", 4, "S", 0, 11)
ENDED = [["NS2", 800, 1200], ["EW1", 700, 1200], ["EW2", 700, 1200], ["NS1", 500, 1200], ["NS3", 500, 1200], ["EW3", 400, 1200]]


def play_all(run, on_board_1):
    """Each cell is entered and confirmed in its round; what board 1 gives at a table is a result and a play."""
    for number in (1, 2, 3):
        if number > 1:
            run.accept("d", NEXT)
        for turn, table, which, _, _ in run.session.rows:
            if turn == number:
                run.accept("k", *played(table, which, *(on_board_1[table - 1] if which == 1 else ("pass", None))))
                yield


AS_PLAYED = [(FOUR_SPADES, None), (FIVE_MADE, None), (FOUR_SPADES, None)]


def write_session_end():
    run = small_run()
    steps = play_all(run, AS_PLAYED)
    next(steps)
    run.ask("n1", "ranking", NOTHING_EARNED)
    next(steps)
    run.ask("n1", "ranking", NOTHING_EARNED)
    run.refuse("d", CLOSE, "NotAllLive")
    list(steps)
    assert run.version == 20
    run.ask("s", "ranking", ENDED)
    run.ask("s", "analysis", {"board": 1, "tricks": None}, board=1)
    run.ask("n1", "costs", {"board": 1, "costs": [], "table": 1}, table=1, board=1)
    run.ask("n1", "play", (10, 2), table=2, board=1)
    run.ask("n1", "reason", (11, 2), table=2, board=1)
    run.refuse("d", NEXT, "NoMoreRounds")
    run.accept("d", CLOSE)
    run.ask("n1", "play", {"board": 1, "cards": [], "table": 2}, table=2, board=1)
    run.ask("n1", "costs", {"board": 1, "costs": [], "table": 2}, table=2, board=1)
    run.ask("n1", "reason", (11, 2), table=2, board=1)
    run.ask("k", "status")
    run.accept("d", FINALISE)
    run.refuse("d", correct(1, 1, FIVE_MADE), "WrongPhase")
    run.ask("k", "status")
    for name in EVERYBODY:
        run.ask_all(name, [1, 2, 3], [(1, 1), (2, 1), (3, 2)])
    run.write("session end")


# ---- two sessions that differ in what is hidden alone: to whom it is hidden, both give the same bytes

def world(deal, on_board_1, play, reason):
    """A session in which board 1 has this deal and these results; board 2 was played so at table 3, and board 3 ruled for this reason."""
    pbn = game(1, deal) + game(2, "E") + game(3, "S")
    deals = [{"N": DEALS[0], "E": DEALS[1], "S": DEALS[2]}[deal], *DEALS[1:]]
    return Run(SESSION.replace(text_of(BOARDS), text_of(pbn)), Session(3, 3, 1, USERS, deals)), on_board_1, play, reason


def ask_to_whom_it_is_hidden(run, names):
    for name in names:
        run.ask_all(name, [1, 2, 3], [(table, board) for board in (1, 2, 3) for table in (1, 2, 3)])
        for atom in ({"made": True}, {"level": {"max": 6, "min": 6}}, {"score": {"max": 10000, "min": 1}}, {"strain": "H"}, {"doubled": 2}):
            run.ask(name, "list", filter=atom)
            run.ask(name, "list", filter={"not": atom})


def run_world(run, on_board_1, play, reason):
    steps = play_all(run, on_board_1)
    for _ in range(3):
        next(steps)
    # board 1 has a result at table 1 alone: the pairs of that table may see it, and nobody else
    ask_to_whom_it_is_hidden(run, ["n2", "s", "k", "a", "zz"])
    list(steps)
    run.accept("d", hold(1))
    run.ask("s", "ranking", [[pair, 400, 800] for pair in ("NS1", "NS2", "NS3", "EW1", "EW2", "EW3")])
    # what was played at another table, and why it was ruled
    run.accept("d", correct(3, 2, contract("N", 1, "C", 0, 7), play), rule(3, 3, 60, 30, reason))
    ask_to_whom_it_is_hidden(run, ["n1", "n2", "s", "k", "a", "zz"])
    return run


def write_worlds():
    heavy = [(contract("E", 6, "H", 2, 12), ["S2"]), (contract("W", 7, "N", 1, 0), ["C3", "CA"]), ("pass", None)]
    one = run_world(*world("N", AS_PLAYED, ["SA"], 7))
    other = run_world(*world("S", heavy, ["D4", "D5"], 99))
    assert one.wanted == other.wanted and one.given != other.given
    one.write("one world")
    other.write("other world")


if __name__ == "__main__":
    write_queries()
    write_session_end()
    write_worlds()

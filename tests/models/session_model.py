"""A plain model of a session of either edition, for the stored runs: what each command does, and what each query is answered.

It follows docs/POLICY.md and docs/PROTOCOL.md rule by rule, with the Laws of Duplicate Bridge 2017 where they name them, and
keeps nothing but what a session's commands say. It is slow and knows nothing of the program. Who plays what is in
tests/models/movements.py, and what a command is refused for in tests/models/judged_session.py.
"""
from functools import cmp_to_key

from movements import movement_of
from protocol_tables import ROLES, of_edition

# the sets of separation, by their names, each with the role that it keeps apart from contestants
SEPARATED = dict(sorted((name, word) for word, role in ROLES.items() for name in role.apart))
# the fourth rule is the second edition's alone
WHY = [
    "no such account", "not a member", "accounts are for administrators and directors", "the session is under embargo", "the board is held",
    "your pair has still to play this board", "the board isn't complete and you don't play it",
    "neither a contestant nor a spectator", "the board isn't complete", "analysis waits until the board is complete",
    "the play of others waits until the session is closed", "reasons are for the pairs concerned", "there is no result here",
]
# Law 2: who deals boards 1 to 4, and who is vulnerable on boards 1 to 16
DEALERS = "NESW"
VULNERABLE = {"none": (1, 8, 11, 14), "ns": (2, 5, 12, 15), "ew": (3, 6, 9, 16), "both": (4, 7, 10, 13)}
HANDS_OF = {"board": "Hands", "traveller": "Hands", "analysis": "Analysis", "par": "Analysis", "play": "Play", "costs": "Cost", "reason": "Reason"}


def roles_of(edition):
    return list(of_edition(ROLES, edition))


def opening_pairs(edition):
    """The pairs of a new session, those over members first."""
    told = [(senior, junior) for senior, role in of_edition(ROLES, edition).items() for junior in role.juniors]
    return sorted(told, key=lambda pair: pair[1] != "Member")


def why(edition, rule):
    """The text of a rule by its number."""
    return WHY[rule - 1 if edition == 2 or rule < 4 else rule]


def dealer_of(board):
    return DEALERS[(board - 1) % 4]


def vulnerability_of(board):
    return next(side for side, boards in VULNERABLE.items() if (board - 1) % 16 + 1 in boards)


def bonus_of(level, odd_tricks, vulnerable):
    game = (500 if vulnerable else 300) if odd_tricks >= 100 else 50
    slam = {6: 750 if vulnerable else 500, 7: 1500 if vulnerable else 1000}.get(level, 0)
    return game + slam


def made_score(level, strain, doubled, over, vulnerable):
    trick = 20 if strain in "CD" else 30
    odd_tricks = (level * trick + (10 if strain == "N" else 0)) * 2**doubled
    overtrick = (200 if vulnerable else 100) * doubled if doubled else trick
    return odd_tricks + bonus_of(level, odd_tricks, vulnerable) + 50 * doubled + over * overtrick


def set_score(doubled, under, vulnerable):
    if not doubled:
        return under * (100 if vulnerable else 50)
    each = [200] + [300] * 12 if vulnerable else [100, 200, 200] + [300] * 10
    return sum(each[:under]) * doubled


def score_of(outcome, board):
    """What a result scores for North-South (Law 77)."""
    if outcome == "pass":
        return 0
    side = "ns" if outcome["by"] in "NS" else "ew"
    vulnerable = vulnerability_of(board) in (side, "both")
    over = outcome["tricks"] - outcome["level"] - 6
    if over >= 0:
        score = made_score(outcome["level"], outcome["strain"], outcome["doubled"], over, vulnerable)
    else:
        score = -set_score(outcome["doubled"], -over, vulnerable)
    return score if side == "ns" else -score


def units_of(score, scores):
    """Two for each other score that this one beats, one for each that it equals (Law 78A); the score itself is among them."""
    return sum(2 * (score > other) + (score == other) for other in scores) - 1


class Session:
    def __init__(self, tables, rounds, per_set, users, deals, absent=None, edition=1, movement=None, switched=0, **notices):
        self.tables, self.rounds, self.per_set, self.deals, self.absent = tables, rounds, per_set, deals, absent
        self.edition, self.embargo = edition, False
        rows, sets, pairs, self.is_named = movement_of(tables, rounds, movement, switched)
        self.boards = range(1, sets * per_set + 1)
        self.rows = sorted(row for row in rows if absent not in row[3:])
        self.playing = [pair for pair in pairs if pair != absent]
        self.scheduled = {board: [row for row in sorted(self.rows, key=lambda row: row[1]) if row[2] == (board - 1) // per_set + 1]
                          for board in self.boards}
        self.users = {user["name"]: set(user["roles"]) for user in users}
        self.seats = {user["name"]: (user["pair"], user["place"]) for user in users if "pair" in user}
        self.shown_names = {user["name"]: user["shown"] for user in users if "shown" in user}
        assert notices.keys() <= {"title", "date", "reasons"}
        self.notices = notices
        self.pairs = opening_pairs(edition)
        self.phase, self.round, self.version = "Running", 1, 0
        self.held, self.entered, self.results = set(), {}, {}

    # ---- what a command does that is accepted

    def accept(self, command):
        self.do(command)
        self.version += 1

    def do(self, command):
        getattr(self, "do_" + command["cmd"].lower())(command)

    def do_enter(self, command):
        self.entered[command["table"], command["board"]] = (command["result"], command.get("play", []))

    def do_confirm(self, command):
        cell = command["table"], command["board"]
        outcome, play = self.entered.pop(cell)
        assert outcome == command["result"]
        self.results[cell] = {"outcome": outcome, "play": play, "reason": 0}

    def do_correct(self, command):
        cell = command["table"], command["board"]
        assert cell in self.results
        self.results[cell] = {"outcome": command["result"], "play": command.get("play", []), "reason": 0}

    def do_rule(self, command):
        cell = command["table"], command["board"]
        self.entered.pop(cell, None)
        self.results[cell] = {"ruling": [command["ns"], command["ew"]], "play": [], "reason": command["reason"]}

    def do_void(self, command):
        del self.results[command["table"], command["board"]]

    def do_hold(self, command):
        self.held.add(command["board"])

    def do_release(self, command):
        self.held.remove(command["board"])

    def do_seat(self, command):
        self.seats[command["name"]] = (command["pair"], command["place"])

    def do_unseat(self, command):
        del self.seats[command["name"]]

    def do_nextround(self, command):
        self.round += 1

    def do_close(self, command):
        assert all(not self.awaited(board) for board in self.boards)
        self.phase = "Closed"

    def do_finalise(self, command):
        assert all(not self.awaited(board) for board in self.boards)
        self.phase = "Final"

    def do_adduser(self, command):
        self.users[command["name"]] = set()

    def do_rename(self, command):
        self.shown_names.pop(command["name"], None)
        if command["shown"]:
            self.shown_names[command["name"]] = command["shown"]

    def do_assign(self, command):
        self.users[command["name"]].add(command["role"])

    def do_deassign(self, command):
        self.users[command["name"]].remove(command["role"])

    def do_addinheritance(self, command):
        self.pairs.append((command["senior"], command["junior"]))

    def do_deleteinheritance(self, command):
        self.pairs.remove((command["senior"], command["junior"]))

    def do_embargo(self, command):
        self.embargo = True

    def do_lift(self, command):
        self.embargo = False

    # ---- who may see what

    def authorized(self, name):
        """The roles that are assigned to the user, and all that they inherit."""
        found = set(self.users.get(name, ()))
        while more := {junior for senior, junior in self.pairs if senior in found} - found:
            found |= more
        return found

    def awaited(self, board):
        """The tables that are scheduled to play the board and have no result on it."""
        return [row[1] for row in self.scheduled[board] if (row[1], board) not in self.results]

    def denial(self, name, kind, board=0, table=0):
        """The first rule that forbids the fact, and the table that it names; or None."""
        if name not in self.users:
            return 1, 0
        roles = self.authorized(name)
        if "Member" not in roles:
            return 2, 0
        if kind == "Accounts":
            return None if roles & {"Administrator", "Director"} else (3, 0)
        if kind == "Public" or "Director" in roles:
            return None
        pair = self.seats.get(name, ("none", "none"))[0]
        own = [row[1] for row in self.scheduled[board] if pair in row[3:]]
        awaited, contestant, commentator = self.awaited(board), "Contestant" in roles, "Commentator" in roles
        least, first_own = min(awaited, default=0), own[0] if own else 0
        rules = [
            *([(self.embargo, 0)] if self.edition == 2 else []),
            (board in self.held, 0),
            (contestant and first_own in awaited, first_own),
            (contestant and not own and awaited, least),
            (not contestant and "Spectator" not in roles, 0),
            (not contestant and not commentator and awaited, least),
            (kind in ("Analysis", "Cost") and not commentator and awaited, least),
            (kind in ("Play", "Cost") and table not in own and self.phase == "Running", table),
            (kind == "Reason" and table not in own, table),
            (table and (table, board) not in self.results, table),
        ]
        return next(((number, named) for number, (forbids, named) in enumerate(rules, 4) if forbids), None)

    def sees(self, name, kind, board, table=0):
        return self.denial(name, kind, board, table) is None

    def shown_results(self, name, board):
        """The results on a board that the user may see, with their rows of the movement, table by table."""
        return [(row, self.results[row[1], board]) for row in self.scheduled[board]
                if (row[1], board) in self.results and self.sees(name, "Result", board, row[1])]

    # ---- what a query is answered

    def reply(self, name, query):
        ask, board, table = query["ask"], query.get("board"), query.get("table")
        if table is None and board is not None and board not in self.boards:
            return {"error": "NoSuchBoard"}
        if table is not None and table not in [row[1] for row in self.scheduled.get(board, [])]:
            return {"error": "NoSuchCell"}
        if self.version < query.get("since", 0):
            return {"error": "Behind"}
        kind = "Accounts" if ask == "accounts" else HANDS_OF.get(ask, "Public")
        denied = self.denial(name, kind, board, table or 0)
        if denied:
            rule, named = denied
            return {"denied": {"board": board if rule > 3 else 0, "rule": rule, "table": named, "why": why(self.edition, rule)}}
        return {ask: getattr(self, "ask_" + ask)(name, query)}

    def ask_status(self, name, query):
        live = [[row[1] for row in self.scheduled[board] if (row[1], board) in self.results] for board in self.boards]
        seats = [[name, *self.seats[name]] for name in self.users if name in self.seats]
        half_table = {} if self.absent is None else {"absent": self.absent}
        second = {"edition": 2, "embargo": self.embargo} if self.edition == 2 else {}
        marks = [f"{dealer_of(board)} {vulnerability_of(board)}" for board in self.boards]
        named = {"movement": sorted(map(list, self.rows), key=lambda row: (row[2], row[1]))} if self.is_named else {}
        names = [[name, self.shown_names[name]] for name in self.users if name in self.shown_names]
        shown = {"names": names} if names else {}
        return {**half_table, **second, "held": sorted(self.held), "live": live, "marks": marks, **named, **shown, "per_set": self.per_set,
                "phase": self.phase, "round": self.round, "rounds": self.rounds, "seats": seats, "tables": self.tables, **self.notices}

    def ask_board(self, name, query):
        board = query["board"]
        return {"deal": self.deals[board - 1], "dealer": dealer_of(board), "number": board, "vul": vulnerability_of(board)}

    def ask_traveller(self, name, query):
        board = query["board"]
        shown = self.shown_results(name, board)
        scores = [score_of(result["outcome"], board) for _, result in shown if "outcome" in result]
        rows = []
        for (_, table, _, ns, ew), result in shown:
            row = {"ew": ew, "ns": ns, "table": table}
            if "ruling" in result:
                row["ruling"] = result["ruling"]
            else:
                score = score_of(result["outcome"], board)
                row |= {"points": units_of(score, scores), "result": result["outcome"], "score": score}
            rows.append(row)
        return {"board": board, "rows": rows}

    def ask_analysis(self, name, query):
        return {"board": query["board"], "tricks": None}

    def ask_par(self, name, query):
        """Nothing yet, as an analysis: a script solves no board. What par is says tests/models/par_model.py."""
        return {"board": query["board"], "result": None, "score": None}

    def about_table(self, query, member, value_of):
        result = self.results.get((query["table"], query["board"]))
        return {"board": query["board"], member: None if result is None else value_of(result), "table": query["table"]}

    def ask_play(self, name, query):
        return self.about_table(query, "cards", lambda result: result["play"])

    def ask_costs(self, name, query):
        return self.about_table(query, "costs", lambda result: "pending" if result["play"] else [])

    def ask_reason(self, name, query):
        return self.about_table(query, "code", lambda result: result["reason"])

    def ask_list(self, name, query):
        wanted = query.get("filter", {"and": []})
        listed = [board for board in self.boards if board >= query.get("from", 1)
                  and self.sees(name, "Hands", board) and self.holds(wanted, board, self.shown_outcomes(name, board))]
        limit = query.get("limit", 64)
        return {"boards": listed[:limit], "more": len(listed) > limit}

    def ask_ranking(self, name, query):
        earned, tops = {}, {}
        for board in self.boards:
            if self.sees(name, "Hands", board):
                self.add_earnings(board, self.shown_results(name, board), earned, tops)
        standings = [[pair, earned.get(pair, 0), tops.get(pair, 0)] for pair in self.playing]
        return sorted(standings, key=cmp_to_key(ranks_before))

    def ask_accounts(self, name, query):
        users = [[user, [role for role in ROLES if role in self.users[user]]] for user in self.users]
        return {"inherits": [list(pair) for pair in self.pairs], "users": users}

    # ---- rankings and filters

    def add_earnings(self, board, shown, earned, tops):
        scores = [score_of(result["outcome"], board) for _, result in shown if "outcome" in result]
        top = 2 * (len(scores) - 1) if scores else 0
        for (_, _, _, ns, ew), result in shown:
            if "ruling" in result:
                for_ns, for_ew = (percentage * top for percentage in result["ruling"])
            else:
                for_ns = 100 * units_of(score_of(result["outcome"], board), scores)
                for_ew = 100 * top - for_ns
            for pair, earning in ((ns, for_ns), (ew, for_ew)):
                earned[pair] = earned.get(pair, 0) + earning
                tops[pair] = tops.get(pair, 0) + 100 * top

    def shown_outcomes(self, name, board):
        return [result["outcome"] for _, result in self.shown_results(name, board) if "outcome" in result]

    def holds(self, wanted, board, outcomes):
        (word, value), = wanted.items()
        if word == "and":
            return all(self.holds(member, board, outcomes) for member in value)
        if word == "or":
            return any(self.holds(member, board, outcomes) for member in value)
        if word == "not":
            return not self.holds(value, board, outcomes)
        played = [outcome for outcome in outcomes if outcome != "pass"]
        return {
            "vul": lambda: vulnerability_of(board) == value,
            "dealer": lambda: dealer_of(board) == value,
            "level": lambda: any(value["min"] <= outcome["level"] <= value["max"] for outcome in played),
            "strain": lambda: any(outcome["strain"] == value for outcome in played),
            "doubled": lambda: any(outcome["doubled"] == value for outcome in played),
            "made": lambda: any((outcome["tricks"] >= outcome["level"] + 6) == value for outcome in played),
            "score": lambda: any(value["min"] <= score_of(outcome, board) <= value["max"] for outcome in outcomes),
            "dd": lambda: False,  # no board has its double-dummy table in a script
        }[word]()


def ranks_before(one, other):
    """By percentage, pairs without tops last; then in the order of sides and numbers, in which the list stands already."""
    if (one[2] == 0) != (other[2] == 0):
        return 1 if one[2] == 0 else -1
    return other[1] * one[2] - one[1] * other[2]

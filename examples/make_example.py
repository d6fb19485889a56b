#!/usr/bin/env python3
# Writes the examples of this folder: club.pbn and session.json, howell.pbn and howell.json, and each script with its answers.
#
#     python3 examples/make_example.py
#
# It gives the same files each time. The answers are worked out here by the rules that docs/POLICY.md and
# docs/PROTOCOL.md state, and not by the program. Nothing is built or tested with it but the example.
import fractions
import hashlib
import json
import pathlib

TABLES, ROUNDS, PER_SET = 8, 7, 3
BOARDS = TABLES * PER_SET
SUITS, RANKS = "SHDC", "AKQJT98765432"
STAFF = [("ada", ["Administrator"]), ("dora", ["Director", "Administrator"]), ("sam", ["Scorer"]), ("vera", ["Spectator"])]
NORTH_SOUTH = "anna ben carla dirk emma finn greta hugo ines jan klara leo mona nils olga paul".split()
EAST_WEST = "rosa stig tilda ulf wanda yves zoe adam berta cyril della ernst frida gert hanna ivan".split()


# Cards: a shuffle by SHA-256, so that each version of Python deals the same.
def numbers(seed):
    count = 0
    while True:
        for byte in hashlib.sha256(f"{seed} {count}".encode()).digest():
            yield byte
        count += 1


def below(limit, stream):
    while True:
        byte = next(stream)
        if byte < 256 // limit * limit:
            return byte % limit


def deal_of(board):
    stream = numbers(f"example board {board}")
    cards = [suit + rank for suit in SUITS for rank in RANKS]
    for last in range(51, 0, -1):
        other = below(last + 1, stream)
        cards[last], cards[other] = cards[other], cards[last]
    return {place: cards[13 * i : 13 * i + 13] for i, place in enumerate("NESW")}


def hand_text(cards):
    return ".".join("".join(rank for rank in RANKS if suit + rank in cards) for suit in SUITS)


def deal_text(deal, first="N"):
    order = "NESW"[("NESW".index(first)) :] + "NESW"[: "NESW".index(first)]
    return first + ":" + " ".join(hand_text(deal[place]) for place in order)


# Marks by Law 2.
def dealer_of(board):
    return "NESW"[(board - 1) % 4]


def vulnerability_of(board):
    at = (board - 1) % 16 + 1
    for name, of in (("none", (1, 8, 11, 14)), ("ns", (2, 5, 12, 15)), ("ew", (3, 6, 9, 16)), ("both", (4, 7, 10, 13))):
        if at in of:
            return name


# The movement: a row for each round, table and board.
def rows():
    for r in range(ROUNDS):
        for t in range(TABLES):
            seat = [e for e in range(TABLES) if (e + r + (1 if TABLES % 2 == 0 and 2 * r >= TABLES else 0)) % TABLES == t]
            for k in range(PER_SET):
                yield {
                    "round": r + 1,
                    "table": t + 1,
                    "board": (t + r) % TABLES * PER_SET + k + 1,
                    "ns": f"NS{t + 1}",
                    "ew": f"EW{seat[0] + 1}",
                }


ROWS = list(rows())


# Another one, for small clubs: a Howell of five tables, whose rows stand in movements/howell_5.json. A pair is named by the
# place where it begins, and sits on either side later.
HOWELL_TABLES, HOWELL_ROUNDS = 5, 9
HOWELL = json.loads((pathlib.Path(__file__).parent / "movements" / "howell_5.json").read_text())
HOWELL_BOARDS = HOWELL_ROUNDS * PER_SET


def howell_rows():
    for number, table, which, ns, ew in HOWELL:
        for k in range(PER_SET):
            yield {"round": number, "table": table, "board": (which - 1) * PER_SET + k + 1, "ns": ns, "ew": ew}


# A plausible contract: the side with more points bids its longest suit, as high as the points say.
def result_of(board, deal):
    points = {p: sum("0JQKA".index(c[1]) if c[1] in "JQKA" else 0 for c in deal[p]) for p in deal}
    if points["N"] + points["S"] > points["E"] + points["W"]:
        side = "NS"
    else:
        side = "EW"
    lengths = {s: sum(c[0] == s for p in side for c in deal[p]) for s in SUITS}
    best = max(SUITS, key=lambda s: (lengths[s], -SUITS.index(s)))
    total = sum(points[p] for p in side)
    strain = best if lengths[best] >= 8 else "N"
    by = max(side, key=lambda p: (sum(c[0] == strain for c in deal[p]), points[p]))
    level = 1 if total < 22 else 2 if total < 24 else 3 if strain == "N" or total < 25 else 5 if strain in "DC" else 4
    tricks = 6 + level + (below(4, numbers(f"example tricks {board}")) - 1)
    return {"by": by, "doubled": 0, "level": level, "strain": strain, "tricks": min(tricks, 13)}


# The score for North and South by Law 77, of contracts that aren't doubled.
def score_of(result, board):
    by_ns = result["by"] in "NS"
    vulnerable = vulnerability_of(board) in ("both", "ns" if by_ns else "ew")
    level, over = result["level"], result["tricks"] - 6 - result["level"]
    later = 20 if result["strain"] in "DC" else 30
    if over < 0:
        score = over * (100 if vulnerable else 50)
    else:
        trick_points = later * level + (10 if result["strain"] == "N" else 0)
        score = trick_points + later * over
        score += (500 if vulnerable else 300) if trick_points >= 100 else 50
        score += {6: 750 if vulnerable else 500, 7: 1500 if vulnerable else 1000}.get(level, 0)
    return score if by_ns else -score


# The users of a session of so many tables, and the session.
def users(tables):
    for name, roles in STAFF:
        yield {"digest": digest_of(name), "name": name, "roles": roles}
    for names, side, places in ((NORTH_SOUTH, "NS", "NS"), (EAST_WEST, "EW", "EW")):
        for i, name in enumerate(names[: 2 * tables]):
            yield {
                "digest": digest_of(name),
                "name": name,
                "pair": f"{side}{i // 2 + 1}",
                "place": places[i % 2],
                "roles": ["Contestant"],
            }


def digest_of(name):
    return hashlib.sha256(f"{name}-example".encode()).hexdigest()


USERS = list(users(TABLES))
DEALS = {board: deal_of(board) for board in range(1, HOWELL_BOARDS + 1)}
RESULTS = {board: result_of(board, DEALS[board]) for board in range(1, HOWELL_BOARDS + 1)}


def session():
    return {"budget": 200000000, "per_set": PER_SET, "rounds": ROUNDS, "tables": TABLES, "users": USERS}


def howell_session():
    return {**session(), "movement": HOWELL, "rounds": HOWELL_ROUNDS, "tables": HOWELL_TABLES, "users": list(users(HOWELL_TABLES))}


def pbn(boards):
    marks = {"none": "None", "ns": "NS", "ew": "EW", "both": "All"}
    text = "% PBN 2.1\n"
    for board in range(1, boards + 1):
        dealer = dealer_of(board)
        text += f'[Event "Example"]\n[Board "{board}"]\n[Dealer "{dealer}"]\n'
        text += f'[Vulnerable "{marks[vulnerability_of(board)]}"]\n[Deal "{deal_text(DEALS[board], dealer)}"]\n\n'
    return text


# What the club's server answers, by the rules of docs/POLICY.md for a board that isn't held.
class Club:
    def __init__(self, users, rows):
        self.users, self.rows, self.boards = users, rows, range(1, max(row["board"] for row in rows) + 1)
        self.live, self.entered, self.round, self.version = {}, {}, 1, 0

    def denied(self, name, board):
        user = next((u for u in self.users if u["name"] == name), None)
        if user is None:
            return 1, 0, 0, "no such account"
        cells = [row for row in self.rows if row["board"] == board]
        waiting = [row["table"] for row in cells if (row["table"], board) not in self.live]
        if "Director" in user["roles"]:
            return None
        if "Contestant" in user["roles"]:
            own = [row["table"] for row in cells if user["pair"] in (row["ns"], row["ew"])]
            if own and own[0] in waiting:
                return 5, board, own[0], "your pair has still to play this board"
            if not own and waiting:
                return 6, board, min(waiting), "the board isn't complete and you don't play it"
            return None
        if "Spectator" not in user["roles"]:
            return 7, board, 0, "neither a contestant nor a spectator"
        if waiting:
            return 8, board, min(waiting), "the board isn't complete"
        return None

    def ask(self, message):
        if message["ask"] == "status":
            return {"status": self.status(), "version": self.version}
        if message["ask"] == "ranking":
            return {"ranking": self.ranking(message["as"]), "version": self.version}
        board = message["board"]
        if board not in self.boards:
            return {"error": "NoSuchBoard", "version": self.version}
        denied = self.denied(message["as"], board)
        if denied:
            rule, at_board, table, why = denied
            return {"denied": {"board": at_board, "rule": rule, "table": table, "why": why}, "version": self.version}
        if message["ask"] == "board":
            shown = {"deal": deal_text(DEALS[board]), "dealer": dealer_of(board), "number": board, "vul": vulnerability_of(board)}
            return {"board": shown, "version": self.version}
        return {"traveller": {"board": board, "rows": self.traveller(board)}, "version": self.version}

    def traveller(self, board):
        cells = [row for row in sorted(self.rows, key=lambda row: row["table"]) if row["board"] == board and (row["table"], board) in self.live]
        lines = []
        for row in cells:
            result = self.live[row["table"], board]
            lines.append({"ew": row["ew"], "ns": row["ns"], "result": result, "score": score_of(result, board), "table": row["table"]})
        for line in lines:
            others = [other["score"] for other in lines if other is not line]
            line["points"] = sum(2 if line["score"] > s else 1 if line["score"] == s else 0 for s in others)
        return lines

    # Of a Howell, with its rows by set and then by table.
    def status(self):
        return {
            "held": [],
            "live": [sorted(table for table, of in self.live if of == board) for board in self.boards],
            "marks": [f"{dealer_of(board)} {vulnerability_of(board)}" for board in self.boards],
            "movement": sorted(HOWELL, key=lambda row: (row[2], row[1])),
            "per_set": PER_SET,
            "phase": "Running",
            "round": self.round,
            "rounds": HOWELL_ROUNDS,
            "seats": [[user["name"], user["pair"], user["place"]] for user in self.users if "pair" in user],
            "tables": HOWELL_TABLES,
        }

    # By which part of the tops was earned, of the boards that the user may see; then North-South first, and by number.
    def ranking(self, name):
        pairs = sorted({user["pair"] for user in self.users if "pair" in user}, key=lambda pair: ("NSEW".index(pair[:2]), int(pair[2:])))
        earned, tops = dict.fromkeys(pairs, 0), dict.fromkeys(pairs, 0)
        for board in self.boards:
            lines = [] if self.denied(name, board) else self.traveller(board)
            top = 2 * (len(lines) - 1)
            for line in lines:
                for pair, units in ((line["ns"], line["points"]), (line["ew"], top - line["points"])):
                    earned[pair] += 100 * units
                    tops[pair] += 100 * top
        part = lambda pair: fractions.Fraction(earned[pair], tops[pair]) if tops[pair] else -1
        return [[pair, earned[pair], tops[pair]] for pair in sorted(pairs, key=part, reverse=True)]

    def command(self, command):
        if command["cmd"] == "NextRound":
            self.round += 1
            return "ok"
        cell, result = (command["table"], command["board"]), command["result"]
        row = next((row for row in self.rows if (row["table"], row["board"]) == cell), None)
        if row is None:
            return "NoSuchCell"
        if row["round"] > self.round:
            return "RoundNotStarted"
        if cell in self.live:
            return "AlreadyLive"
        if command["cmd"] == "Enter":
            self.entered[cell] = result
            return "ok"
        if cell not in self.entered:
            return "NothingEntered"
        if self.entered[cell] != result:
            return "Mismatch"
        self.live[cell] = result
        return "ok"

    def do(self, message):
        if message["as"] != ("dora" if message["do"][0]["cmd"] == "NextRound" else "sam"):
            answers = ["NotPermitted" for command in message["do"]]
        else:
            answers = [self.command(command) for command in message["do"]]
        accepted = answers.count("ok")
        first = self.version + 1 if accepted else 0
        self.version += accepted
        return {"answers": answers, "first": first, "last": self.version if accepted else 0, "version": self.version}

    def answer(self, message):
        return self.do(message) if "do" in message else self.ask(message)


def enter(kind, board, table, result=None):
    return {"board": board, "cmd": kind, "result": result or RESULTS[board], "table": table}


def messages():
    ask = lambda name, board, what="board": {"as": name, "ask": what, "board": board}
    do = lambda name, commands: {"as": name, "do": commands}
    first = [row for row in ROWS if row["round"] == 1]
    boards = [[row for row in first if (row["board"] - 1) % PER_SET == k] for k in range(PER_SET)]
    # Nobody sees a board that is still to be played; the director sees all.
    yield from (ask("anna", 1), ask("vera", 1), ask("sam", 1), ask("guest", 1), ask("dora", 1))
    # The first boards are entered. What isn't confirmed is shown to nobody; who confirms something else is told so.
    yield do("sam", [enter("Enter", row["board"], row["table"]) for row in boards[0]])
    yield ask("anna", 1)
    other = dict(RESULTS[1], tricks=RESULTS[1]["tricks"] - 1)
    yield do("sam", [enter("Confirm", 1, 1, other)])
    yield do("sam", [enter("Confirm", row["board"], row["table"]) for row in boards[0]])
    yield from (ask("anna", 1), ask("anna", 1, "traveller"), ask("rosa", 1), ask("carla", 1), ask("vera", 1))
    # A player may enter nothing, and no result comes before its round.
    yield do("anna", [enter("Enter", 2, 1)])
    yield do("sam", [enter("Enter", 4, 1)])
    # The rest of the round.
    for row in boards[1:]:
        yield do("sam", [enter("Enter", cell["board"], cell["table"]) for cell in row])
        yield do("sam", [enter("Confirm", cell["board"], cell["table"]) for cell in row])
    # After the round: own boards, the next set's, and a board that the pair doesn't play in this session.
    yield from (ask("anna", 3), ask("anna", 3, "traveller"), ask("anna", 4), ask("anna", 22), ask("vera", 3), ask("dora", 25))


def howell_messages():
    ask = lambda name, board, what="board": {"as": name, "ask": what, "board": board}
    do = lambda name, commands: {"as": name, "do": commands}
    told = lambda cells: [enter(kind, row["board"], row["table"]) for kind in ("Enter", "Confirm") for row in cells]
    in_round = lambda number, k: [row for row in howell_rows() if row["round"] == number and (row["board"] - 1) % PER_SET == k]
    # Who plays what stands in the status. In the first round each pair sits where its name says.
    yield from ({"as": "anna", "ask": "status"}, ask("anna", 1), ask("greta", 1))
    for k in range(PER_SET):
        yield do("sam", told(in_round(1, k)))
    yield from (ask("anna", 1), ask("anna", 1, "traveller"), ask("rosa", 1))
    # In the second, EW2 and NS3 play the first set at table 2, and EW2 sits North-South. They see it when they have played it.
    yield from (do("sam", [enter("Enter", 1, 2)]), do("dora", [{"cmd": "NextRound"}]), ask("tilda", 1), ask("emma", 1))
    better = dict(RESULTS[1], tricks=RESULTS[1]["tricks"] + 1)
    yield do("sam", [enter("Enter", 1, 2, better), enter("Confirm", 1, 2, better)])
    yield from (ask("tilda", 1), ask("emma", 1, "traveller"), ask("vera", 1))
    for k in range(1, PER_SET):
        yield do("sam", told(in_round(2, k)))
    # Each pair meets each other once, so there is one list of winners; a player's counts the boards that he may see.
    yield from ({"as": "dora", "ask": "ranking"}, {"as": "tilda", "ask": "ranking"}, ask("anna", 28))


# The shortest example: three tables and three boards, each player with a whole suit. North of pair 1 asks for board 1, a
# scorer enters and confirms the result of her table, and she asks again.
def one_board():
    suits = ["." * i + RANKS + "." * (3 - i) for i in range(4)]
    deal = "N:" + " ".join(suits)
    pbn_text = "".join(f'[Board "{board}"]\n[Deal "{"NES"[board - 1]}:{" ".join(suits)}"]\n\n' for board in (1, 2, 3))
    player = lambda table: {"pair": f"NS{table}", "place": "N", "roles": ["Contestant"]}
    staff = {"a": {"roles": ["Administrator"]}, "k": {"roles": ["Scorer"]}, "n1": player(1), "n2": player(2)}
    people = [dict(of, digest=digest_of(name), name=name) for name, of in staff.items()]
    opening = {"budget": 0, "pbn": pbn_text, "per_set": 1, "rounds": 3, "tables": 3, "users": people}
    result = {"by": "N", "doubled": 0, "level": 4, "strain": "S", "tricks": 10}
    ask = {"as": "n1", "ask": "board", "board": 1}
    messages = [ask, {"as": "k", "do": [enter("Enter", 1, 1, result), enter("Confirm", 1, 1, result)]}, ask]
    denied = {"board": 1, "rule": 5, "table": 1, "why": "your pair has still to play this board"}
    answers = [
        {"denied": denied, "version": 0},
        {"answers": ["ok", "ok"], "first": 1, "last": 2, "version": 2},
        {"board": {"deal": deal, "dealer": "N", "number": 1, "vul": "none"}, "version": 2},
    ]
    return [opening, *messages], answers


def compact(value):
    return json.dumps(value, separators=(",", ":"), sort_keys=True)


def main():
    here = pathlib.Path(__file__).parent
    (here / "club.pbn").write_text(pbn(BOARDS))
    (here / "session.json").write_text(spread(session()))
    write(here / "first_round", *played(session(), ROWS, BOARDS, messages()))
    (here / "howell.pbn").write_text(pbn(HOWELL_BOARDS))
    (here / "howell.json").write_text(spread(howell_session()))
    write(here / "howell", *played(howell_session(), list(howell_rows()), HOWELL_BOARDS, howell_messages()))
    write(here / "one_board", *([compact(value) for value in values] for values in one_board()))


# A session object with a line for each member, each user and each round of a movement.
def spread(found):
    def lines(parts):
        return "[\n    " + ",\n    ".join(parts) + "\n  ]"

    texts = {key: str(value) for key, value in found.items()}
    texts["users"] = lines(map(compact, found["users"]))
    if "movement" in found:
        rounds = [[row for row in found["movement"] if row[0] == number] for number in range(1, found["rounds"] + 1)]
        texts["movement"] = lines(",".join(map(compact, rows)) for rows in rounds)
    return "{\n" + ",\n".join(f'  "{key}": {texts[key]}' for key in sorted(texts)) + "\n}\n"


# The lines of a script, and of its answers.
def played(found, rows, boards, messages):
    club, script, answers = Club(found["users"], rows), [compact(dict(found, pbn=pbn(boards)))], []
    for message in messages:
        script.append(compact(message))
        answers.append(compact(club.answer(message)))
    return script, answers


def write(path, script, answers):
    path.with_suffix(".script").write_text("".join(line + "\n" for line in script))
    path.with_suffix(".answers").write_text("".join(line + "\n" for line in answers))


if __name__ == "__main__":
    main()

"""A session of six tables with random deals and plays, its plain model, and what its clients send at random.

tests/drivers/many_clients.py, tests/drivers/load.py, tests/drivers/fuzz_texts.py and tests/journals/journal_kills.py take their sessions and their messages from here. All
of it comes from a seed.
"""
import pathlib
import random
import sys

sys.path[:0] = [str(pathlib.Path(__file__).resolve().parents[1] / folder) for folder in ("models", "runs")]
from judged_session import JudgedSession
from session_model import DEALERS, Session, roles_of
from write_query_runs import CLOSE, FINALISE, NEXT, correct, hold, release, rule, void
from write_stored_runs import DIGEST, RANKS, SUITS, confirm, contract, enter, user

TABLES, ROUNDS, PER_SET = 6, 5, 2
BOARDS = range(1, TABLES * PER_SET + 1)
USERS = [
    user("a", "Administrator"), user("a2", "Administrator"), user("d", "Director"), user("d2", "Director"),
    user("k", "Scorer"), user("k2", "Scorer"), user("k3", "Scorer"), user("s", "Spectator"), user("s2", "Spectator"), user("m", "Member"),
    *(user(f"n{table}", "Contestant", f"NS{table}", "N") for table in (1, 2, 3, 4)),
    *(user(f"e{table}", "Contestant", f"EW{table}", "E") for table in (1, 2, 3)),
    user("c", "Contestant"), user("c2", "Contestant"),
]
SECOND_USERS = [*USERS, user("t", "Commentator"), user("t2", "Commentator")]
# Whose roles and seats the writers change; the others keep theirs, so that there is always who directs, scores and looks at an audit.
CHANGED = ["s2", "m", "c", "c2", "n2", "n4", "e2", "e3", "x1", "x2", "x3"]
SECOND_CHANGED = [*CHANGED, "t2", "t2"]
AUDITORS = ["a", "a2", "d", "d2"]
SCORERS = {"k", "k2", "k3"}
# Who writes and who reads. A `*` greets as another user now and then.
CLIENTS = {
    8: (["d", "k", "a"], ["n1", "e2", "s", "d2", "*"]),
    32: (["d", "d2", "k", "k2", "k3", "a"],
         ["n1", "t", "n2", "n3", "n4", "e1", "t", "e2", "e3", "s", "t2", "s2", "m", "c", "c2", "d", "d2", "k", "a", "a2", *"******"]),
}
EDITIONS = {8: 1, 32: 2}
EMBARGO, LIFT = {"cmd": "Embargo"}, {"cmd": "Lift"}
# names to show, which the second edition gives; the empty text takes a name away
SHOWN = ["", "Anna Müller", "Ben \"Ace\" Roth", "水" * 21, "x" * 64]
SEATS_IN_TURN = "NESW"


# ---- deals and plays

def some_hands(rng):
    """A deal of the whole pack: the cards of each of the four hands."""
    pack = [suit + rank for suit in SUITS for rank in RANKS]
    rng.shuffle(pack)
    return {place: set(pack[13 * k:13 * k + 13]) for k, place in enumerate(SEATS_IN_TURN)}


def deal_text(hands):
    texts = [".".join("".join(rank for rank in RANKS if suit + rank in hands[place]) for suit in SUITS) for place in SEATS_IN_TURN]
    return "N:" + " ".join(texts)


def pbn_text(deals):
    return "".join(f'[Board "{number}"]\n[Deal "{deal}"]\n\n' for number, deal in enumerate(deals, 1))


def winner_of(trick, strain):
    """Whose card wins a trick: the highest trump, else the highest card of the suit that was led (Law 44E and F)."""
    led = trick[0][1][0]
    suit = strain if any(card[0] == strain for _, card in trick) else led
    return min((RANKS.index(card[1]), place) for place, card in trick if card[0] == suit)[1]


def first_wrong(hands, outcome, play):
    """Which card of a play, counted from 1, is the first that its player doesn't hold or that doesn't follow suit; or None."""
    left = {place: set(cards) for place, cards in hands.items()}
    turn = SEATS_IN_TURN[(SEATS_IN_TURN.index(outcome["by"]) + 1) % 4]
    trick = []
    for number, card in enumerate(play, 1):
        may_follow = trick and any(own[0] == trick[0][1][0] for own in left[turn])
        if card not in left[turn] or (may_follow and card[0] != trick[0][1][0]):
            return number
        left[turn].remove(card)
        trick.append((turn, card))
        turn = SEATS_IN_TURN[(SEATS_IN_TURN.index(turn) + 1) % 4]
        if len(trick) == 4:
            turn, trick = winner_of(trick, outcome["strain"]), []
    return None


def some_play(rng, hands, outcome):
    """A few cards that can be played so, and then, in most plays, one that can't."""
    pack = [suit + rank for suit in SUITS for rank in RANKS]
    play = []
    for _ in range(rng.randint(0, 6)):
        rng.shuffle(pack)
        play.append(next(card for card in pack if card not in play and first_wrong(hands, outcome, play + [card]) is None))
    if rng.random() < 0.7:
        rng.shuffle(pack)
        play.append(next(card for card in pack if card not in play and first_wrong(hands, outcome, play + [card])))
    return play


# ---- the session, and the model with what its solver finds without a visit

def users_of(edition):
    return SECOND_USERS if edition == 2 else USERS


def session_of(edition, **more):
    """The session object; one of the first edition names none."""
    named = {"edition": 2} if edition == 2 else {}
    return {"budget": 0, **named, "per_set": PER_SET, "rounds": ROUNDS, "tables": TABLES, "users": users_of(edition), **more}


class SolvedSession(JudgedSession):
    """The plain model of this session, whose solver finds no more than which card couldn't be played."""

    def __init__(self, hands, edition):
        super().__init__(TABLES, ROUNDS, PER_SET, users_of(edition), [deal_text(one) for one in hands], edition=edition)
        self.hands = hands

    def analyse(self, table, board):
        """What the solver finds of a play without a single visit: that a card of it couldn't be played."""
        result = self.results[table, board]
        result["costs"] = {"not_a_play": first_wrong(self.hands[board - 1], result["outcome"], result["play"])}
        assert result["costs"]["not_a_play"], "the solver has counted a play without a visit"
        self.version += 1
        self.known.clear()
        self.note(None, "Analysed", f"{table}/{board}")

    def ask_costs(self, name, query):
        costs = self.results.get((query["table"], query["board"]), {}).get("costs")
        return {"board": query["board"], "costs": costs, "table": query["table"]} if costs else super().ask_costs(name, query)


# ---- what clients send

class Sender:
    """A client of a seed of its own, that remembers the newest version and the newest status that it was told."""

    def __init__(self, name, hands, seed, edition=1):
        self.name, self.hands, self.rng, self.edition = name, hands, random.Random(seed), edition
        self.rows = Session(TABLES, ROUNDS, PER_SET, USERS, []).rows
        self.cells = [(row[1], board, row[0]) for row in self.rows for board in BOARDS if (board - 1) // PER_SET + 1 == row[2]]
        self.version, self.round, self.live, self.phase = 0, 1, set(), "Running"
        self.entered = []

    def hear(self, answer):
        self.version = answer.get("version", self.version)
        status = answer.get("status")
        if status:
            self.round, self.phase = status["round"], status["phase"]
            self.live = {(table, board) for board, tables in zip(BOARDS, status["live"]) for table in tables}

    # ---- queries

    def query(self):
        rng = self.rng
        if self.name in AUDITORS and rng.random() < 0.05:
            first = rng.choice([1, max(1, self.version - 20), self.version + 1, rng.randint(1, self.version + 1)])
            return {"audit": {"from": first, "limit": rng.choice([1, 5, 40])}}
        ask = rng.choice(["status", "board", "traveller", "analysis", "play", "costs", "reason", "list", "list", "ranking", "accounts"])
        query = {"ask": ask}
        if ask in ("board", "traveller", "analysis"):
            query["board"] = rng.randint(0, BOARDS[-1] + 1)
        elif ask in ("play", "costs", "reason"):
            query["table"], query["board"] = rng.choice(self.cells)[:2] if rng.random() < 0.9 else (rng.randint(0, 7), rng.randint(0, 13))
        elif ask == "list":
            query |= self.some_list()
        if rng.random() < 0.3:
            newest = self.version
            query["since"] = rng.choice([0, newest, newest, newest + 1, newest + rng.randint(1, 30), max(0, newest - 5)])
        return query

    def some_list(self):
        rng, more = self.rng, {}
        if rng.random() < 0.8:
            more["filter"] = self.some_filter(3)
        if rng.random() < 0.3:
            more["from"] = rng.randint(0, 14)
        if rng.random() < 0.3:
            more["limit"] = rng.randint(1, 13)
        return more

    def some_filter(self, depth):
        rng = self.rng
        word = rng.choice(["and", "or", "not"]) if depth and rng.random() < 0.5 else None
        if word == "not":
            return {word: self.some_filter(depth - 1)}
        return {word: [self.some_filter(depth - 1) for _ in range(rng.randint(1, 3))]} if word else self.some_atom()

    def some_atom(self):
        rng = self.rng
        least, most = sorted(rng.choices(range(14), k=2))
        low, high = sorted(rng.choices(range(-1000, 1000, 10), k=2))
        return rng.choice([
            {"vul": rng.choice(["none", "ns", "ew", "both"])}, {"dealer": rng.choice(DEALERS)}, {"level": {"max": most, "min": least}},
            {"strain": rng.choice("SHDCN")}, {"doubled": rng.randint(0, 2)}, {"made": rng.random() < 0.5}, {"score": {"max": high, "min": low}},
            {"dd": {"by": rng.choice(SEATS_IN_TURN), "max": most, "min": least, "strain": rng.choice("SHDCN")}},
        ])

    # ---- batches

    def batch(self):
        size = self.rng.choice([1, 1, 2, 3, 4, 6, 8, 16, 64])
        commands = []
        while len(commands) < size:
            commands += self.some_commands()
        return commands[:size]

    def batch_after(self, gone):
        """A batch after such a part of the time. Who is called `d` starts the rounds, closes the session late, and ends its
        corrections."""
        if self.name == "d":
            if gone > 0.85 and self.phase == "Closed":
                return [FINALISE]
            if gone > 0.7 and self.phase == "Running":
                return self.closing()
            if gone > 0.13 * self.round and self.round < ROUNDS:
                return [NEXT]
        return self.batch()

    def some_commands(self):
        rng = self.rng
        if rng.random() < 0.04:
            return rng.choice([self.scoring, self.directing, self.administering])()
        if self.name in ("a", "a2"):
            return self.administering()
        return self.scoring() if self.name in SCORERS or rng.random() < 0.2 else self.directing()

    def some_cell(self, live):
        """A cell that had a result, or had none, when the status was last told; now and then any other."""
        rng = self.rng
        likely = [cell[:2] for cell in self.cells if cell[2] <= self.round and (cell[:2] in self.live) == live]
        if likely and rng.random() < 0.9:
            return rng.choice(likely)
        return rng.choice(self.cells)[:2] if rng.random() < 0.9 else (rng.randint(0, 7), rng.randint(0, 13))

    def some_result(self, board):
        """A result, and the play that is told with it."""
        rng = self.rng
        if rng.random() < 0.1:
            return "pass", ["SA"] if rng.random() < 0.1 else None
        level = rng.randint(1, 7)
        tricks = min(13, level + 6 + rng.randint(-3, 2)) if rng.random() < 0.9 else rng.randint(0, 13)
        result = contract(rng.choice(SEATS_IN_TURN), level, rng.choice("SHDCN"), rng.choice([0, 0, 0, 1, 2]), tricks)
        if rng.random() < 0.04:
            return result, ["SA", "SA"]
        return result, some_play(rng, self.hands[board - 1], result) if board in BOARDS and rng.random() < 0.4 else None

    def scoring(self):
        rng = self.rng
        table, board = self.some_cell(False)
        result, play = self.some_result(board)
        told = [enter(table, board, result, play), confirm(table, board, result)]
        kind = rng.random()
        if kind < 0.7:
            return told
        if kind < 0.8:
            self.entered.append(told[1])
            return told[:1]
        if kind < 0.9 and self.entered:
            return [rng.choice(self.entered)]
        return [told[1]]

    def directing(self):
        rng = self.rng
        table, board = self.some_cell(True)
        name = rng.choice(self.changed() + ["n1", "d2", "zz"])
        pair = rng.choice(["NS", "EW"]) + str(rng.randint(1, 7))
        place = rng.choice(pair[:2] if rng.random() < 0.9 else SEATS_IN_TURN)
        return [rng.choice([
            correct(table, board, *self.some_result(board)), correct(table, board, *self.some_result(board)),
            void(table, board), void(table, board), rule(table, board, rng.randint(0, 101), rng.randint(0, 101), rng.randint(0, 100)),
            rule(*self.some_cell(False), 60, 40, 7), hold(rng.randint(1, 12)), release(rng.randint(1, 13)), release(rng.randint(0, 12)),
            {"cmd": "Seat", "name": name, "pair": pair, "place": place}, {"cmd": "Seat", "name": name, "pair": pair, "place": place},
            {"cmd": "Unseat", "name": name}, NEXT if rng.random() < 0.05 else hold(rng.randint(1, 12)),
            CLOSE if rng.random() < 0.2 else FINALISE, *([EMBARGO, LIFT, LIFT] if self.edition == 2 else []),
        ])]

    def changed(self):
        return SECOND_CHANGED if self.edition == 2 else CHANGED

    def administering(self):
        rng = self.rng
        name, role = rng.choice(self.changed() + ["d", "zz"]), rng.choice(roles_of(self.edition))
        if name == "d":
            role = "Contestant"
        senior, junior = rng.sample(roles_of(self.edition), 2)
        pair = {"junior": junior, "senior": senior}
        lasting = rng.choice([("Contestant", "Member"), ("Administrator", "Spectator"), ("Scorer", "Member"),
                              *([("Commentator", "Spectator")] * 2 if self.edition == 2 else [])])
        for_a_while = {"junior": lasting[1], "senior": lasting[0]}
        return rng.choice([
            [{"cmd": "AddUser", "digest": DIGEST, "name": rng.choice(["x1", "x2", "x3", "a b", f"y{rng.randint(1, 60)}"])}],
            [{"cmd": "Assign", "name": name, "role": role}], [{"cmd": "Assign", "name": name, "role": role}],
            [{"cmd": "Deassign", "name": name, "role": role}], [{"cmd": "Deassign", "name": name, "role": role}],
            [{"cmd": "AddInheritance", **pair}, {"cmd": "DeleteInheritance", **pair}] if "Director" != junior and "Director" != senior else [],
            [{"cmd": "DeleteInheritance", **for_a_while}, {"cmd": "AddInheritance", **for_a_while}],
            *([[{"cmd": "Rename", "name": rng.choice([name, "n1", "x1", "zz"]), "shown": rng.choice(SHOWN)}]] if self.edition == 2 else []),
        ])

    def closing(self):
        """All that is awaited is ruled, and the session closed."""
        awaited = [cell[:2] for cell in self.cells if cell[:2] not in self.live][:60]
        return [NEXT] * 3 + [rule(*cell, 50, 40, 9) for cell in awaited] + [CLOSE]

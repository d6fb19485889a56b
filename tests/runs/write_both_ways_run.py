#!/usr/bin/env python3
"""Writes the parts `both ways`, `both ways, each cell`, `both ways, 2,000 commands`, `both ways, second edition`, `both ways, a Howell`
and `both ways, names` of the stored runs of crates/bridge_server_stored_runs: sessions in which every question is answered from what a view keeps and afresh,
after each command, for every user and for a stranger.

    python3 tests/runs/write_both_ways_run.py

What is wanted is how many commands are accepted, and how many replies are the same. Every command that is given is one that the rules
accept (tests/models/judged_session.py), and those of the later parts are drawn with a fixed seed: a table's first result is entered and
confirmed, and from then on it is corrected, ruled or voided and ruled again, since contestants who were shown a board spoil what is
entered there later.
"""
import pathlib
import random
import sys

sys.path[:0] = [str(pathlib.Path(__file__).resolve().parents[1] / folder) for folder in ("models",)]
from judged_session import JudgedSession
from stored_runs import put
from write_movement_runs import DEALS as HOWELL_DEALS
from write_movement_runs import HOWELL
from write_movement_runs import SESSION as HOWELL_SESSION
from write_movement_runs import USERS as HOWELL_USERS
from write_name_runs import ANNA, BEN, NOTICES, named, rename
from write_name_runs import session as session_text
from write_query_runs import DEALS
from write_stored_runs import DIGEST, SECOND_SESSION, SECOND_USERS, SESSION, USERS, text_of

NAMES = ["a", "d", "d2", "k", "s", "n1", "n2", "stranger"]
TABLES = BOARDS = ROUNDS = 3
ATOMS = ({"dd": {"by": "N", "max": 13, "min": 0, "strain": "S"}}, {"vul": "none"})


def result(level, tricks, strain="S", by="N"):
    return {"by": by, "doubled": 0, "level": level, "strain": strain, "tricks": tricks}


def questions(boards, cells):
    asked = [{"ask": word} for word in ("status", "ranking", "list", "accounts")]
    asked += [{"ask": word, "board": board} for word in ("board", "traveller", "analysis") for board in boards]
    asked += [{"ask": word, "board": board, "table": table} for word in ("play", "costs", "reason") for table, board in cells]
    asked += [{"ask": "list", "filter": {"not": ATOMS[0]}}, {"ask": "list", "from": 2, "limit": 1}]
    return [text_of({"as": "d", **each}) for each in asked]


def write(part, asked, commands, edition=1):
    opening, names, users = (SESSION, NAMES, USERS) if edition == 1 else (SECOND_SESSION, [*NAMES, "c"], SECOND_USERS)
    write_session(part, opening, names, JudgedSession(TABLES, ROUNDS, 1, users, DEALS, edition=edition), asked, commands)


def write_session(part, opening, names, session, asked, commands):
    for name, command in commands:
        assert session.batch(name, [command])["answers"] == ["ok"], (name, command)
    given = "\n".join([opening, " ".join(names), *asked, "", *(text_of({"as": name, "do": [command]}) for name, command in commands)])
    moments = len(commands) + 1
    put(part, given + "\n", f"{len(commands)} commands, {moments * len(asked) * len(names)} replies the same\n")


def round_of(table, board):
    """Board sets of one board move down a table each round: table 1 starts with board 1."""
    return (board - table) % BOARDS + 1


def played(outcome):
    """Every table plays every board in its round, and comes to an outcome; and then a board is held, a result voided, ruled and released."""
    commands = []
    for number in range(1, ROUNDS + 1):
        for table in range(1, TABLES + 1):
            board = next(b for b in range(1, BOARDS + 1) if round_of(table, b) == number)
            told = {"board": board, "result": outcome(table, board), "table": table}
            commands += [("k", {"cmd": "Enter", **told}), ("k", {"cmd": "Confirm", **told})]
        if number < ROUNDS:
            commands.append(("d", {"cmd": "NextRound"}))
    cell = {"board": 1, "table": 1}
    return commands + [("d", {"cmd": "Hold", "board": 1}), ("d", {"cmd": "Void", **cell}),
                       ("d", {"cmd": "Rule", "ew": 40, "ns": 60, "reason": 7, **cell}), ("d", {"cmd": "Release", "board": 1})]


class Drawn:
    """A session of which only so much is known as says which commands are accepted."""

    def __init__(self, seed):
        self.draw, self.round = random.Random(seed), 1
        self.entered, self.live, self.fresh, self.held = {}, set(), set(), set()
        self.fresh = {(table, board) for table in range(1, TABLES + 1) for board in range(1, BOARDS + 1)}
        self.watches, self.seated = True, True

    def outcome(self):
        return self.draw.choice(["pass", *(result(self.draw.randint(1, 7), self.draw.randint(0, 13), self.draw.choice("CDHSN"), self.draw.choice("NESW"))
                                                     for _ in range(7))])

    def choices(self):
        """What may come next, each with how it changes what is known."""
        started = [cell for cell in sorted(self.fresh) if round_of(*cell) <= self.round]
        had = [(table, board) for table in range(1, TABLES + 1) for board in range(1, BOARDS + 1) if (table, board) not in self.fresh]
        found = [("Enter", cell) for cell in started] + [("Confirm", cell) for cell in started if cell in self.entered]
        found += [("Rule", cell) for cell in had]
        found += [(word, cell) for cell in sorted(self.live) for word in ("Correct", "Void")]
        found += [("Release" if board in self.held else "Hold", board) for board in range(1, BOARDS + 1)]
        if self.round < ROUNDS and not started:
            found.append(("NextRound", None))
        if not self.fresh:
            found += [("Deassign" if self.watches else "Assign", "s"), ("Unseat" if self.seated else "Seat", "n2")]
        return found

    def command(self):
        word, about = self.draw.choice(self.choices())
        named = {"cmd": word}
        if word in ("Enter", "Confirm", "Correct", "Rule", "Void"):
            named |= {"board": about[1], "table": about[0]}
        if word == "Enter":
            self.entered[about] = named["result"] = self.outcome()
        elif word == "Confirm":
            named["result"] = self.entered[about]
            self.live.add(about)
            self.fresh.discard(about)
        elif word == "Correct":
            named["result"] = self.outcome()
        elif word == "Rule":
            named |= {"ew": self.draw.randint(0, 100), "ns": self.draw.randint(0, 100), "reason": self.draw.randint(1, 99)}
            self.live.add(about)
        elif word == "Void":
            self.live.discard(about)
        elif word in ("Hold", "Release"):
            named["board"] = about
            self.held ^= {about}
        elif word == "NextRound":
            self.round += 1
        elif word in ("Assign", "Deassign"):
            named |= {"name": about, "role": "Spectator"}
            self.watches = not self.watches
        elif word in ("Seat", "Unseat"):
            named |= {"name": about} | ({"pair": "NS2", "place": "N"} if word == "Seat" else {})
            self.seated = not self.seated
        return {"Enter": "k", "Confirm": "k", "Assign": "a", "Deassign": "a"}.get(word, "d"), named


class SecondDrawn(Drawn):
    """The same in the second edition, with embargoes and with changes of who comments, and of whether commentators are spectators."""

    def __init__(self, seed):
        super().__init__(seed)
        self.embargo, self.roles, self.pair = False, {"c": {"Commentator"}, "s": {"Spectator"}}, True

    def command(self):
        kind = self.draw.random()
        if kind < 0.1:
            self.embargo = not self.embargo
            return "d", {"cmd": "Embargo" if self.embargo else "Lift"}
        if kind < 0.14:
            self.pair = not self.pair
            return "a", {"cmd": "AddInheritance" if self.pair else "DeleteInheritance", "junior": "Spectator", "senior": "Commentator"}
        if kind < 0.22:
            name, role = self.draw.choice("cs"), self.draw.choice(["Commentator", "Commentator", "Spectator", "Director"])
            if (name, role) != ("s", "Spectator"):
                has = role in self.roles[name]
                self.roles[name] ^= {role}
                return "a", {"cmd": "Deassign" if has else "Assign", "name": name, "role": role}
        return super().command()


drawn, second_drawn = Drawn(20261126), SecondDrawn(20261127)
SOME = [text_of({"as": "d", "ask": "ranking"}), text_of({"as": "d", "ask": "list"}), text_of({"as": "d", "ask": "traveller", "board": 1})]
ALL_CELLS = [(table, board) for table in range(1, TABLES + 1) for board in range(1, BOARDS + 1)]
write("both ways", questions((1, 2, 3), ((1, 1), (2, 1), (3, 2))), played(lambda table, board: result(4, 8 + table)))
# Four spades by North make ten, eleven and ten tricks, and the other boards are passed out.
write("both ways, each cell", [*questions((1, 2, 3), ALL_CELLS), text_of({"as": "d", "ask": "ranking", "since": 21})],
      played(lambda table, board: result(4, (10, 11, 10)[table - 1]) if board == 1 else "pass"))
write("both ways, 2,000 commands", SOME, [drawn.command() for _ in range(2000)])
write("both ways, second edition", [*SOME, text_of({"as": "d", "ask": "board", "board": 2}), text_of({"as": "d", "ask": "play", "board": 1, "table": 2}),
                                   text_of({"as": "d", "ask": "par", "board": 1})],
      [second_drawn.command() for _ in range(200)], 2)
# A Howell: each cell is played in its round, then a result of a pair that changed its side is voided, ruled and corrected.
howell = JudgedSession(3, 5, 1, HOWELL_USERS, HOWELL_DEALS, movement=HOWELL)
by_round = [[row for row in howell.rows if row[0] == number] for number in range(1, 6)]
howell_commands = []
for rows in by_round:
    howell_commands += [("d", {"cmd": "NextRound"})] if howell_commands else []
    howell_commands += [("k", {"board": row[2], "cmd": word, "result": result(4, 8 + row[1]), "table": row[1]})
                        for row in rows for word in ("Enter", "Confirm")]
howell_commands += [("d", {"cmd": "Hold", "board": 2}), ("d", {"board": 2, "cmd": "Void", "table": 1}), ("d", {"cmd": "Release", "board": 2}),
                    ("d", {"board": 2, "cmd": "Rule", "ew": 40, "ns": 60, "reason": 7, "table": 1}), ("d", {"cmd": "Unseat", "name": "e1"}),
                    ("d", {"cmd": "Seat", "name": "e1", "pair": "EW3", "place": "W"}),
                    ("d", {"board": 2, "cmd": "Correct", "result": "pass", "table": 1})]
write_session("both ways, a Howell", text_of(HOWELL_SESSION), ["a", "d", "k", "s", "n1", "e1", "stranger"], howell,
              questions((1, 2, 5), ((1, 2), (2, 2), (3, 5))), howell_commands)
# Names are given, changed and taken away between the commands of the first round, also of one who isn't a member and of one who is added.
renamed = named([*SECOND_USERS, {"digest": DIGEST, "name": "x", "roles": []}], {"k": "Karl", "x": "Xaver"})
renames = [("n1", ANNA), ("n1", ANNA), ("k", ""), ("n2", BEN), ("x", "Xenia"), ("n1", "Anne"), ("n1", ""), ("s", ""), ("c", BEN)]
play = played(lambda table, board: result(4, 8 + table))
given = [one for command, (name, shown) in zip(play, renames) for one in (("a", rename(name, shown)), command)] + play[len(renames):]
given += [("a", {"cmd": "AddUser", "digest": DIGEST, "name": "v"}), ("a", rename("v", "Vera")), ("a", {"cmd": "Assign", "name": "v", "role": "Member"}),
          ("d", {"cmd": "Embargo"}), ("a", rename("v", "Vera Roth")), ("a", {"cmd": "Deassign", "name": "v", "role": "Member"}), ("a", rename("x", ""))]
write_session("both ways, names", session_text(renamed, 2, **NOTICES), [*NAMES, "c", "x", "v"],
              JudgedSession(TABLES, ROUNDS, 1, renamed, DEALS, edition=2, **NOTICES), questions((1, 2), ((1, 1), (2, 1))), given)

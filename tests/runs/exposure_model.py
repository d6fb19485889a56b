"""The plain model of tests/runs/exposure_rows.py: a session of three tables, who is denied what in it, and who was shown something of which board.

It looks for a user's exposure in every state that the journal led through, at every secret fact of the board, by the rules of the edition
(docs/POLICY.md). Nothing of the program is used.
"""
HANDS = "AKQJT98765432... .AKQJT98765432.. ..AKQJT98765432. ...AKQJT98765432"
DEALS = {1: "N:" + HANDS, 2: "E:" + HANDS, 3: "S:" + HANDS}
SHOWN = {  # the hands of each deal, from North
    1: "N:AKQJT98765432... .AKQJT98765432.. ..AKQJT98765432. ...AKQJT98765432",
    2: "N:...AKQJT98765432 AKQJT98765432... .AKQJT98765432.. ..AKQJT98765432.",
    3: "N:..AKQJT98765432. ...AKQJT98765432 AKQJT98765432... .AKQJT98765432..",
}
MARKS = {1: ("N", "none"), 2: ("E", "ns"), 3: ("S", "ew")}
# who plays what: round, table, board, the number of the East-West pair; North-South pair k stays at table k
ROWS = [(1, 1, 1, 1), (1, 2, 2, 2), (1, 3, 3, 3), (2, 1, 2, 3), (2, 2, 3, 1), (2, 3, 1, 2), (3, 1, 3, 2), (3, 2, 1, 3), (3, 3, 2, 1)]
# why, by the number of the rule in the second edition; the first hasn't the fourth
WHY = {
    2: "not a member",
    4: "the session is under embargo",
    5: "the board is held",
    6: "your pair has still to play this board",
    7: "the board isn't complete and you don't play it",
    8: "neither a contestant nor a spectator",
    9: "the board isn't complete",
}
USERS = [
    ("a", "Administrator", None),
    ("d", "Director", None),
    ("d2", "Director", None),
    ("k", "Scorer", None),
    ("s", "Spectator", None),
    ("n1", "Contestant", ("NS1", "N")),
    ("n2", "Contestant", ("NS2", "N")),
]
INHERITS = [
    ("Spectator", "Member"),
    ("Contestant", "Member"),
    ("Scorer", "Member"),
    ("Administrator", "Member"),
    ("Director", "Scorer"),
    ("Director", "Spectator"),
]
# the second edition has a role more
COMMENTATOR, COMMENTS = ("c", "Commentator", None), ("Commentator", "Spectator")
OK = "ok"


class Model:
    def __init__(self, edition):
        users = USERS + [COMMENTATOR] * (edition - 1)
        self.edition, self.embargo = edition, False
        self.assigned = {name: {role} for name, role, _ in users}
        self.inherits = set(INHERITS + [COMMENTS] * (edition - 1))
        self.seats = {name: at for name, _, at in users if at}
        self.round, self.held, self.live, self.entered = 1, set(), set(), set()
        self.version, self.exposed = 0, set()
        self.look()

    def roles(self, name):
        found = set(self.assigned[name])
        while True:
            more = found | {junior for senior, junior in self.inherits if senior in found}
            if more == found:
                return found
            found = more

    def cells(self, board):
        return sorted((table, f"NS{table}", f"EW{east_west}") for _, table, at, east_west in ROWS if at == board)

    # The first rule that forbids a secret fact, by its number in the second edition, with the table of the evidence. A fact is
    # its kind, its board and its table.
    def denied(self, name, kind, board, table):
        if name not in self.assigned:
            return 1, 0
        roles = self.roles(name)
        if "Member" not in roles:
            return 2, 0
        if "Director" in roles:
            return None
        cells = self.cells(board)
        waiting = [at for at, _, _ in cells if (at, board) not in self.live]
        pair = self.seats.get(name, (None,))[0]
        own = [at for at, north_south, east_west in cells if pair in (north_south, east_west)]
        sits_there = table in own
        contestant, commentator = "Contestant" in roles, "Commentator" in roles
        rules = [
            (4, self.embargo, 0),
            (5, board in self.held, 0),
            (6, contestant and bool(own) and own[0] in waiting, own[0] if own else 0),
            (7, contestant and not own and bool(waiting), min(waiting, default=0)),
            (8, not contestant and "Spectator" not in roles, 0),
            (9, not contestant and not commentator and bool(waiting), min(waiting, default=0)),
            (10, kind in ("Analysis", "Cost") and not commentator and bool(waiting), min(waiting, default=0)),
            (11, kind in ("Play", "Cost") and not sits_there, table),
            (12, kind == "Reason" and not sits_there, table),
            (13, bool(table) and (table, board) not in self.live, table),
        ]
        return next(((number, at) for number, forbids, at in rules if forbids), None)

    # who is allowed some secret fact of which board now is exposed to it from now on
    def look(self):
        for name in self.assigned:
            for board in DEALS:
                facts = [("Hands", board, 0), ("Analysis", board, 0)]
                facts += [(kind, board, table) for kind in ("Result", "Play", "Cost", "Reason") for table, _, _ in self.cells(board)]
                if any(self.denied(name, *fact) is None for fact in facts):
                    self.exposed.add((name, board))

    def spoiler(self, table, board):
        pairs = next(cell[1:] for cell in self.cells(board) if cell[0] == table)
        return next((name for name in self.assigned if self.seats.get(name, (None,))[0] in pairs and (name, board) in self.exposed), None)

    def command(self, actor, command):
        kind, cell = command["cmd"], (command.get("table"), command.get("board"))
        if kind in ("Enter", "Confirm"):
            assert "Scorer" in self.roles(actor) and cell not in self.live
            assert next(r for r, table, board, _ in ROWS if (table, board) == cell) <= self.round
            assert kind == "Enter" or cell in self.entered
            if name := self.spoiler(*cell):
                return f"Spoiled({name})"
            if kind == "Enter":
                self.entered.add(cell)
            else:
                self.entered.discard(cell)
                self.live.add(cell)
            return OK
        needed = "Administrator" if kind in ("AddUser", "Assign", "Deassign", "AddInheritance", "DeleteInheritance") else "Director"
        assert needed in self.roles(actor)
        if kind in ("Assign", "AddInheritance") and self.comments_and_plays(command):
            return "Separation(S4)"
        {
            "Rule": lambda: (self.entered.discard(cell), self.live.add(cell)),
            "Void": lambda: self.live.remove(cell),
            "Hold": lambda: self.held.add(command["board"]),
            "Release": lambda: self.held.remove(command["board"]),
            "Embargo": lambda: setattr(self, "embargo", True),
            "Lift": lambda: setattr(self, "embargo", False),
            "NextRound": lambda: setattr(self, "round", self.round + 1),
            "Seat": lambda: self.seats.__setitem__(command["name"], (command["pair"], command["place"])),
            "Unseat": lambda: self.seats.pop(command["name"]),
            "AddUser": lambda: self.assigned.__setitem__(command["name"], set()),
            "Assign": lambda: self.assigned[command["name"]].add(command["role"]),
            "Deassign": lambda: self.assigned[command["name"]].remove(command["role"]),
            "AddInheritance": lambda: self.inherits.add((command["senior"], command["junior"])),
            "DeleteInheritance": lambda: self.inherits.remove((command["senior"], command["junior"])),
        }[kind]()
        return OK

    # whether a role more makes the user a commentator and a contestant; no pair that is added here does
    def comments_and_plays(self, command):
        if command["cmd"] == "AddInheritance":
            return False
        return {"Commentator", "Contestant"} <= self.roles(command["name"]) | {command["role"]}

    def do(self, actor, commands):
        answers, before = [], self.version
        for command in commands:
            answer = self.command(actor, command)
            answers.append(answer)
            if answer == OK:
                self.version += 1
                self.look()
        ends = {"first": before + 1, "last": self.version} if self.version > before else {"first": 0, "last": 0}
        return {"answers": answers, **ends, "version": self.version}

    def ask(self, name, board):
        denied = self.denied(name, "Hands", board, 0)
        if denied:
            number, table = denied
            told = number if self.edition == 2 or number < 4 else number - 1
            return {"denied": {"board": board if number > 3 else 0, "rule": told, "table": table, "why": WHY[number]}, "version": self.version}
        dealer, vulnerability = MARKS[board]
        return {"board": {"deal": SHOWN[board], "dealer": dealer, "number": board, "vul": vulnerability}, "version": self.version}

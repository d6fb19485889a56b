"""The plain model of tests/models/session_model.py; besides, why it refuses a command, who was shown something of which board, and its journal.

It follows docs/PROTOCOL.md refusal by refusal, and knows nothing of the program. Who may give a command, in which phases, which refusals are
its own and in which order, and what an audit tells of it are read from the tables of that page (tests/models/protocol_tables.py); when a
refusal applies stands here, a method each.
"""
import re

from protocol_tables import COMMANDS, TARGETS, refusals_of, stop
from session_model import SEPARATED, Session, opening_pairs, roles_of

MOST_USERS, MOST_ENTRIES = 256, 60_000


class JudgedSession(Session):
    def __init__(self, *session, **more):
        self.known = {}
        super().__init__(*session, **more)
        self.journal, self.shown = [], set()
        self.look(self.users, self.boards)

    def denial(self, name, kind, board=0, table=0):
        fact = name, kind, board, table
        if fact not in self.known:
            self.known[fact] = super().denial(*fact)
        return self.known[fact]

    def reply(self, name, query):
        """The reply to a query, with the version."""
        key = name, repr(sorted((word, value) for word, value in query.items() if word != "since"))
        if self.version < query.get("since", 0) or key not in self.known:
            reply = {**super().reply(name, query), "version": self.version}
            if reply.get("error") == "Behind":
                return reply
            self.known[key] = reply
        return self.known[key]

    def audit(self, name, wanted):
        """The rows of an audit, or that the user may not see it."""
        if not {"Director", "Administrator"} & self.authorized(name):
            return {"error": "NotPermitted"}
        before = wanted["from"] - 1
        return {"audit": self.journal[before:before + wanted["limit"]], "version": self.version}

    def answer(self, name, message):
        """What a message in a user's name is answered."""
        if "do" in message:
            return self.batch(name, message["do"])
        return self.audit(name, message["audit"]) if "audit" in message else self.reply(name, message)

    # ---- a batch

    def batch(self, actor, commands):
        """The receipt of a batch whose turn has come."""
        before, answers = self.version, []
        for command in commands:
            answers.append(self.refusal(actor, command) or "ok")
            if answers[-1] == "ok":
                self.accept(command)
                self.note(actor, command["cmd"], TARGETS[command["cmd"]].format(**command))
                self.look([command["name"]] if "name" in command else self.users, [command["board"]] if "board" in command else self.boards)
        first, last = (before + 1, self.version) if self.version > before else (0, 0)
        return {"answers": answers, "first": first, "last": last, "version": self.version}

    def note(self, actor, word, subject):
        self.journal.append([self.version, actor, word, subject])

    def accept(self, command):
        super().accept(command)
        self.known.clear()

    def look(self, users, boards):
        """Whoever is allowed the hands of a board now was shown something of it from now on."""
        self.shown |= {(name, board) for name in users for board in boards
                       if board in self.boards and (name, board) not in self.shown and self.sees(name, "Hands", board)}

    # ---- refusals, the first of them that applies

    def refusal(self, actor, command):
        """Why a command is refused: the refusal's name, which a few methods say with what it is about."""
        for cause in refusals_of(command["cmd"]):
            found = self.not_permitted(actor, command) if cause == "NotPermitted" else getattr(self, method_of(cause))(command)
            if found:
                return found if isinstance(found, str) else cause
        return None

    def not_permitted(self, actor, command):
        asked = COMMANDS[command["cmd"]]
        return asked.who[0] not in self.authorized(actor) or self.edition < asked.edition

    def why_no_such_user(self, command):
        """A command that names a user is about an account that there is, but for the one that makes it."""
        return "name" in command and "UserExists" not in COMMANDS[command["cmd"]].refusals and command["name"] not in self.users

    def why_no_such_cell(self, command):
        return "table" in command and self.row_of(command) is None

    def why_no_such_board(self, command):
        return "board" in command and "table" not in command and command["board"] not in self.boards

    def why_wrong_phase(self, command):
        return self.phase not in COMMANDS[command["cmd"]].phases

    def why_round_not_started(self, command):
        return "table" in command and self.round < self.row_of(command)[0]

    def why_journal_full(self, command):
        return self.version == MOST_ENTRIES

    def why_out_of_memory(self, command):
        return False

    # ---- of results

    def row_of(self, command):
        """The row of the movement by which the table plays the board."""
        return next((row for row in self.scheduled.get(command["board"], []) if row[1] == command["table"]), None)

    def live(self, command):
        return (command["table"], command["board"]) in self.results

    def entered_at(self, command):
        return self.entered.get((command["table"], command["board"]))

    def why_bad_result(self, command):
        play = command.get("play", [])
        return len(set(play)) < len(play) or (command["result"] == "pass" and play != [])

    def why_already_live(self, command):
        return self.live(command)

    def why_not_live(self, command):
        return not self.live(command)

    def why_nothing_entered(self, command):
        return self.entered_at(command) is None

    def why_mismatch(self, command):
        return self.entered_at(command)[0] != command["result"]

    def why_bad_ruling(self, command):
        return max(command["ns"], command["ew"]) > 100 or not 1 <= command["reason"] <= 99

    def why_spoiled(self, command):
        """The first user who sits there and was shown something of the board."""
        there = [name for name in self.users if self.seats.get(name, ("", ""))[0] in self.row_of(command)[3:]]
        return next((f"Spoiled({name})" for name in there if (name, command["board"]) in self.shown), None)

    # ---- of boards, of seats and of the session

    def why_already_held(self, command):
        return command["board"] in self.held

    def why_not_held(self, command):
        return command["board"] not in self.held

    def why_already_embargoed(self, command):
        return self.embargo

    def why_not_embargoed(self, command):
        return not self.embargo

    def why_no_such_pair(self, command):
        return command["pair"] not in self.playing

    def why_wrong_direction(self, command):
        return command["place"] not in command["pair"][:2]

    def why_not_contestant(self, command):
        return "Contestant" not in self.authorized(command["name"])

    def why_already_seated(self, command):
        return command["name"] in self.seats

    def why_not_seated(self, command):
        return command["name"] not in self.seats

    def why_seat_taken(self, command):
        return (command["pair"], command["place"]) in self.seats.values()

    def why_no_more_rounds(self, command):
        return self.round == self.rounds

    def why_not_all_live(self, command):
        return any(self.awaited(board) for board in self.boards)

    # ---- of users and their roles

    def why_bad_name(self, command):
        return not re.fullmatch("[A-Za-z0-9_-]{1,32}", command["name"])

    def why_user_exists(self, command):
        return command["name"] in self.users

    def why_too_many_users(self, command):
        return len(self.users) == MOST_USERS

    def why_no_such_role(self, command):
        return not {command[member] for member in ("role", "senior", "junior") if member in command} <= set(roles_of(self.edition))

    def why_already_assigned(self, command):
        return command["role"] in self.users[command["name"]]

    def why_not_assigned(self, command):
        return command["role"] not in self.users[command["name"]]

    def why_cycle(self, command):
        return command["senior"] in reached_from(command["junior"], self.pairs)

    def why_already_there(self, command):
        return (command["senior"], command["junior"]) in self.pairs

    def why_not_there(self, command):
        return (command["senior"], command["junior"]) not in self.pairs

    def why_separation(self, command):
        """The first separated set of roles that somebody would hold."""
        held = self.roles_after(command)
        return next((f"Separation({number})" for number, role in SEPARATED.items()
                     if any({role, "Contestant"} <= roles for roles in held.values())), None)

    def why_still_seated(self, command):
        held = self.roles_after(command)
        return any("Contestant" not in held[name] for name in self.seats)

    def why_last_administrator(self, command):
        return not any("Administrator" in roles for roles in self.roles_after(command).values())

    def roles_after(self, command):
        """What each user would be authorized for."""
        users, pairs = self.users, self.pairs
        self.users, self.pairs = {name: set(roles) for name, roles in users.items()}, list(pairs)
        self.do(command)
        found = {name: self.authorized(name) for name in self.users}
        self.users, self.pairs = users, pairs
        return found


def reached_from(role, pairs):
    """The role, and all that it inherits by these pairs of a senior role and a junior one; by pairs the other way round, all above it."""
    found = {role}
    while more := {junior for senior, junior in pairs if senior in found} - found:
        found |= more
    return found


def method_of(cause):
    return "why" + re.sub("[A-Z]", lambda letter: "_" + letter[0].lower(), cause)


def check_commands():
    """Each command can be done, each of its refusals looked at, and who may give it is who inherits the permission at the opening."""
    upwards = [(junior, senior) for senior, junior in opening_pairs(2)]
    for word, command in COMMANDS.items():
        needed, *more = command.who
        if set(more) != reached_from(needed, upwards) - {needed}:
            stop(command.line, f"{word}: {', '.join(more) or 'nobody'} isn't who is above {needed} when a session is opened")
        for method in ["do_" + word.lower(), *(method_of(cause) for cause in refusals_of(word) if cause != "NotPermitted")]:
            if not hasattr(JudgedSession, method):
                stop(command.line, f"{word}: the model of tests/models/judged_session.py has no method {method}")


check_commands()

#!/usr/bin/env python3
"""Writes the parts `connections` and `connections, second edition` of the stored runs of crates/bridge_server_stored_runs: messages
on connections, and what each is answered.

    python3 tests/runs/write_connection_run.py

It gives the same text each time. The answers are written here by hand, by the rules that docs/PROTOCOL.md and docs/POLICY.md
state, and not by the program.
"""
from stored_runs import put
from write_stored_runs import DIGEST, FOUR_SPADES, SECOND_SESSION, SESSION, confirm, enter, text_of

MOST_BYTES = 65536


BOARD_1 = {"deal": "N:AKQJT98765432... .AKQJT98765432.. ..AKQJT98765432. ...AKQJT98765432", "dealer": "N", "number": 1, "vul": "none"}


class Run:
    def __init__(self, session):
        self.asked, self.told = [session], []

    def say(self, message, answer):
        """A message, as text or as data, and the answer's text or data."""
        self.asked.append(message if isinstance(message, str) else text_of(message))
        self.told.append(answer if isinstance(answer, str) else text_of(answer))

    def fails(self, message, fault):
        self.say(message, {"error": fault})

    def hello(self, name, token="abc", fault=None):
        self.say({"hello": name, "token": token}, {"error": fault} if fault else {"hello": name})

    def end(self):
        """The connection ends, and the next one begins."""
        self.asked.append("")
        self.told.append("")

    def does(self, commands, answers, first, last, version):
        self.say({"do": commands}, {"answers": answers, "first": first, "last": last, "version": version})


def padded(text, size):
    return text + " " * (size - len(text.encode()))


def nested(depth):
    """`not`, so many times, round one atom."""
    formula = '{"made":true}'
    for _ in range(depth):
        formula = '{"not":' + formula + "}"
    return '{"ask":"list","filter":' + formula + "}"


def deep(depth):
    """An object with a member that no query has, whose value is arrays in arrays: with the object they nest so deep."""
    return '{"ask":"status","x":' + "[" * (depth - 1) + "]" * (depth - 1) + "}"


def first_connection(run):
    """What isn't read, and what is asked before anybody has signed in."""
    run.fails('{"ask":"bo', "Malformed")
    run.fails(" ", "Malformed")
    run.fails("[]", "Malformed")
    run.fails(padded('{"ask":"status"}', MOST_BYTES + 1), "TooLong")
    run.fails("x" * (MOST_BYTES + 1), "TooLong")
    run.fails(padded('{"ask":"status"}', MOST_BYTES), "NotSignedIn")
    run.fails({}, "UnknownRequest")
    run.fails({"ask": "weather"}, "UnknownRequest")
    run.fails({"ask": "board", "board": 1, "do": []}, "UnknownRequest")
    run.fails({"ask": "status", "hello": "n1"}, "UnknownRequest")
    run.fails({"do": [{"cmd": "Shuffle"}], "as": "k"}, "UnknownRequest")
    run.fails({"ask": "board", "board": "1"}, "BadField")
    run.fails({"ask": "board", "board": 256}, "BadField")
    run.fails({"ask": "board", "as": "n1", "board": 1}, "BadField")
    run.fails({"as": "k", "do": []}, "BadField")
    run.fails({"as": "d", "audit": {"from": 1, "limit": 10}}, "BadField")
    run.fails({"as": "n1", "hello": "n1", "token": "abc"}, "BadField")
    run.fails({"hello": "n1"}, "BadField")
    run.fails({"hello": "n1", "since": 0, "token": "abc"}, "BadField")
    run.fails({"hello": 5, "token": "abc"}, "BadField")
    run.fails({"hello": "n1", "token": 1}, "BadField")
    run.fails({"hello": "n" * 33, "token": "abc"}, "BadField")
    run.fails({"ask": "list", "filter": {"and": [{"made": True}] * 33}}, "BadField")
    run.fails({"ask": "board", "board": 1}, "NotSignedIn")
    run.fails({"do": []}, "NotSignedIn")
    run.fails({"audit": {"from": 1, "limit": 10}}, "NotSignedIn")


def contestant(run):
    """One who is not known, then n1, who plays board 1 at table 1."""
    run.hello("n1", "abd", "NotKnown")
    run.hello("n1", "", "NotKnown")
    run.hello("zz", "abc", "NotKnown")
    run.hello("n1 ", "abc", "NotKnown")
    run.fails({"ask": "board", "board": 4}, "NotSignedIn")
    run.hello("n1")
    run.say({"ask": "board", "board": 4}, {"error": "NoSuchBoard", "version": 0})
    run.say({"ask": "board", "board": 255}, {"error": "NoSuchBoard", "version": 0})
    run.say({"ask": "board", "board": 0}, {"error": "NoSuchBoard", "version": 0})
    denied = {"denied": {"board": 1, "rule": 5, "table": 1, "why": "your pair has still to play this board"}, "version": 0}
    run.say({"ask": "board", "board": 1}, denied)
    run.say({"ask": "board", "board": 1, "since": 1}, {"error": "Behind", "version": 0})
    run.say(nested(7), {"list": {"boards": [], "more": False}, "version": 0})
    run.fails(nested(8), "BadField")
    run.fails(nested(200), "Malformed")
    run.fails(deep(127), "BadField")
    run.fails(deep(128), "Malformed")
    run.fails({"do": [enter(1, 1, FOUR_SPADES)] * 65}, "BadField")
    run.does([enter(1, 1, FOUR_SPADES)], ["NotPermitted"], 0, 0, 0)
    run.fails({"audit": {"from": 1, "limit": 10}}, "NotPermitted")
    # a refused greeting leaves who is signed in
    run.hello("k", "abd", "NotKnown")
    run.say({"ask": "board", "board": 1}, denied)


def scorer(run):
    """k enters and confirms, then the pair whose table it is looks, and a director."""
    run.fails({"ask": "status"}, "NotSignedIn")
    run.hello("k")
    run.does([enter(1, 1, FOUR_SPADES), enter(4, 1, FOUR_SPADES), confirm(1, 1, FOUR_SPADES)], ["ok", "NoSuchCell", "ok"], 1, 2, 2)
    run.does([], [], 0, 0, 2)
    run.does([enter(1, 2, FOUR_SPADES)], ["RoundNotStarted"], 0, 0, 2)
    # a second greeting changes who is signed in
    run.hello("n1")
    run.say({"ask": "board", "board": 1}, {"board": BOARD_1, "version": 2})
    run.hello("d")
    run.say({"audit": {"from": 1, "limit": 10}}, {"audit": [[1, "k", "Enter", "1/1"], [2, "k", "Confirm", "1/1"]], "version": 2})
    run.does([{"board": 1, "cmd": "Hold"}, {"board": 1, "cmd": "Release"}] * 32, ["ok"] * 64, 3, 66, 66)


def newcomer(run):
    """An account that is added can sign in, and is no member yet."""
    run.hello("v", fault="NotKnown")
    run.hello("a")
    run.does([{"cmd": "AddUser", "digest": DIGEST, "name": "v"}], ["ok"], 67, 67, 67)
    run.hello("v")
    run.say({"ask": "status"}, {"denied": {"board": 0, "rule": 2, "table": 0, "why": "not a member"}, "version": 67})


def commentator(run):
    """In the second edition a commentator is shown what is still played, until a director's embargo."""
    run.fails({"do": [{"cmd": "Embargo"}]}, "NotSignedIn")
    run.fails({"do": [{"cmd": "Embargo", "board": 1}]}, "BadField")
    run.hello("c")
    run.say({"ask": "board", "board": 1}, {"board": BOARD_1, "version": 0})
    run.does([{"cmd": "Embargo"}, {"cmd": "Lift"}], ["NotPermitted"] * 2, 0, 0, 0)
    run.fails({"audit": {"from": 1, "limit": 10}}, "NotPermitted")
    run.hello("d")
    run.does([{"cmd": "Lift"}, {"cmd": "Embargo"}, {"cmd": "Embargo"}], ["NotEmbargoed", "ok", "AlreadyEmbargoed"], 1, 1, 1)
    run.say({"ask": "board", "board": 1}, {"board": BOARD_1, "version": 1})
    run.hello("c")
    run.say({"ask": "board", "board": 1}, {"denied": {"board": 1, "rule": 4, "table": 0, "why": "the session is under embargo"}, "version": 1})
    run.say({"ask": "list"}, {"list": {"boards": [], "more": False}, "version": 1})


def other_roles(run):
    """The embargo is lifted, an administrator takes the role away on the connection of the next."""
    run.hello("d")
    run.does([{"cmd": "Lift"}, {"cmd": "Hold", "board": 1}], ["ok", "ok"], 2, 3, 3)
    run.hello("c")
    run.say({"ask": "board", "board": 1}, {"denied": {"board": 1, "rule": 5, "table": 0, "why": "the board is held"}, "version": 3})
    run.hello("n1")
    run.say({"ask": "board", "board": 2},
            {"denied": {"board": 2, "rule": 6, "table": 1, "why": "your pair has still to play this board"}, "version": 3})
    run.hello("a")
    run.does([{"cmd": "Assign", "name": "n1", "role": "Commentator"}, {"cmd": "Deassign", "name": "c", "role": "Commentator"}], ["Separation(S4)", "ok"], 4, 4, 4)
    run.hello("c")
    run.say({"ask": "status"}, {"denied": {"board": 0, "rule": 2, "table": 0, "why": "not a member"}, "version": 4})
    run.hello("d")
    run.say({"audit": {"from": 1, "limit": 10}},
            {"audit": [[1, "d", "Embargo", ""], [2, "d", "Lift", ""], [3, "d", "Hold", "1"], [4, "a", "Deassign", "c:Commentator"]], "version": 4})


def first_edition(run):
    """What the first edition says to what it hasn't, before anybody has signed in and after."""
    run.fails({"do": [{"cmd": "Embargo"}]}, "UnknownRequest")
    run.fails({"do": [{"cmd": "Assign", "name": "s", "role": "Commentator"}]}, "BadField")
    run.hello("d")
    run.fails({"do": [{"cmd": "Hold", "board": 1}, {"cmd": "Lift"}]}, "UnknownRequest")
    run.fails({"do": [{"cmd": "AddInheritance", "junior": "Spectator", "senior": "Commentator"}]}, "BadField")


def write(part, session, connections):
    run = Run(session)
    for number, connection in enumerate(connections):
        if number:
            run.end()
        connection(run)
    put(part, "".join(line + "\n" for line in run.asked), "".join(line + "\n" for line in run.told))


def main():
    write("connections", SESSION, [first_connection, contestant, scorer, newcomer])
    write("connections, second edition", SECOND_SESSION, [commentator, other_roles])
    write("connections, first edition", SESSION, [first_edition])


if __name__ == "__main__":
    main()

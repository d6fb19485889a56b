#!/usr/bin/env python3
"""Writes the parts `exposure` and `exposure, second edition` of the stored runs of crates/bridge_server_stored_runs: sessions in which
users are shown boards and then sit down to play them.

    tests/runs/exposure_rows.py

Each row below has its answer, worked by hand from the laws of the session and the policy, and why. A plain model of the
session (tests/runs/exposure_model.py) then works each answer out once more. Nothing of the program is used.
"""
import json

from account_commands import EMBARGO, LIFT, add, assign, deassign, disinherit, inherit, seat, unseat
from exposure_model import COMMENTATOR, COMMENTS, DEALS, OK, USERS, Model
from stored_runs import put
from write_stored_runs import DIGEST

R420 = {"by": "N", "doubled": 0, "level": 4, "strain": "S", "tricks": 10}


def enter(table, board):
    return {"board": board, "cmd": "Enter", "result": R420, "table": table}


def confirm(table, board):
    return {"board": board, "cmd": "Confirm", "result": R420, "table": table}


def void(table, board):
    return {"board": board, "cmd": "Void", "table": table}


def rule(table, board):
    return {"board": board, "cmd": "Rule", "ew": 40, "ns": 60, "reason": 7, "table": table}


def hold(board):
    return {"board": board, "cmd": "Hold"}


def release(board):
    return {"board": board, "cmd": "Release"}


NEXT = {"cmd": "NextRound"}


def do(name, *commands_and_answers):
    half = len(commands_and_answers) // 2
    return name, list(commands_and_answers[:half]), list(commands_and_answers[half:])


def ask(name, board, answer):
    return name, board, answer


# In session S, round 1: table 1 plays board 1, table 2 board 2, table 3 board 3. Each row: who, what, and the answer.
SCRIPT = [
    # A board that a pair has played and seen is voided: the pair is denied it, and enters and confirms it no more.
    do("k", enter(1, 1), confirm(1, 1), OK, OK),
    ask("n1", 1, "shown"),
    do("d", void(1, 1), OK),
    ask("n1", 1, (5, 1)),
    do("k", enter(1, 1), "Spoiled(n1)"),
    # Who has left the seat spoils nothing there; who sits down again does. The entry of the meantime can't be confirmed.
    do("d", unseat("n1"), OK),
    do("k", enter(1, 1), OK),
    do("d", seat("n1", "NS1", "N"), OK),
    do("k", confirm(1, 1), "Spoiled(n1)"),
    do("d", rule(1, 1), OK),
    # A director, who is shown every board, becomes a contestant and sits down: exposed since the opening.
    do("k", enter(3, 3), OK),
    do("a", deassign("d", "Director"), assign("d", "Contestant"), OK, OK),
    do("d2", seat("d", "NS3", "N"), OK),
    do("k", confirm(3, 3), "Spoiled(d)"),
    do("k", enter(3, 3), "Spoiled(d)"),
    do("d2", unseat("d"), OK),
    do("k", confirm(3, 3), OK),
    # While board 2 is held, n2's result there shows n2 nothing: after a Void n2 may enter it again.
    do("d2", hold(2), OK),
    do("k", enter(2, 2), confirm(2, 2), OK, OK),
    ask("n2", 2, (4, 0)),
    do("d2", void(2, 2), OK),
    do("k", enter(2, 2), confirm(2, 2), OK, OK),
    # Released and held again in one batch, it was shown to n2 for one version: that is enough.
    do("d2", release(2), hold(2), OK, OK),
    ask("n2", 2, (4, 0)),
    do("d2", void(2, 2), OK),
    do("k", enter(2, 2), "Spoiled(n2)"),
    do("d2", release(2), OK),
    ask("n2", 2, (5, 2)),
    do("k", enter(2, 2), "Spoiled(n2)"),
    # A contestant who joins now was shown nothing of it.
    do("a", add("v"), assign("v", "Contestant"), OK, OK),
    do("d2", unseat("n2"), seat("v", "NS2", "N"), OK, OK),
    do("k", enter(2, 2), confirm(2, 2), OK, OK),
    ask("v", 2, "shown"),
    # Who takes the seat of a pair that has its result is shown the board at once.
    do("d2", seat("n2", "NS3", "N"), OK),
    do("d2", void(3, 3), OK),
    do("k", enter(3, 3), "Spoiled(n2)"),
    do("d2", unseat("n2"), OK),
    do("k", enter(3, 3), confirm(3, 3), OK, OK),
    # A spectator is shown board 1 once it is complete, then plays. Of several the first of the accounts is named.
    do("d2", NEXT, NEXT, OK, OK),
    ask("s", 1, (8, 2)),
    do("k", enter(3, 1), confirm(3, 1), enter(2, 1), confirm(2, 1), OK, OK, OK, OK),
    ask("s", 1, "shown"),
    do("a", assign("s", "Contestant"), OK),
    do("d2", seat("s", "EW3", "E"), OK),
    do("d2", void(2, 1), OK),
    ask("s", 1, (5, 2)),
    do("k", enter(2, 1), "Spoiled(s)"),
    do("d2", unseat("s"), OK),
    do("k", enter(2, 1), "Spoiled(v)"),
    do("d2", unseat("v"), OK),
    do("k", enter(2, 1), confirm(2, 1), OK, OK),
    # A user who was a spectator for one version, and asked for nothing: what counts is what was allowed, not what was asked.
    do("a", add("x"), assign("x", "Spectator"), OK, OK),
    do("a", deassign("x", "Spectator"), OK),
    ask("x", 1, (2, 0)),
    do("d2", void(2, 1), OK),
    do("a", assign("x", "Contestant"), OK),
    ask("x", 1, (6, 2)),
    do("d2", seat("x", "NS2", "N"), OK),
    do("k", enter(2, 1), "Spoiled(x)"),
    do("d2", unseat("x"), OK),
    do("k", enter(2, 1), confirm(2, 1), OK, OK),
    # The board is complete: a pair of the hierarchy shows it to administrators, and is deleted again.
    do("a", add("w"), assign("w", "Administrator"), OK, OK),
    ask("w", 1, (7, 0)),
    do("a", inherit("Administrator", "Spectator"), OK),
    do("a", disinherit("Administrator", "Spectator"), OK),
    ask("w", 1, (7, 0)),
    do("d2", void(2, 1), OK),
    do("a", deassign("w", "Administrator"), assign("w", "Contestant"), OK, OK),
    do("d2", seat("w", "EW3", "W"), OK),
    do("k", enter(2, 1), "Spoiled(w)"),
    # Without a further pair w isn't even a member, and stays exposed.
    do("a", disinherit("Contestant", "Member"), OK),
    ask("w", 1, (2, 0)),
    do("k", enter(2, 1), "Spoiled(w)"),
    do("a", inherit("Contestant", "Member"), OK),
    do("d2", unseat("w"), OK),
    # A contestant who joins while the board is incomplete plays it.
    do("a", add("y"), assign("y", "Contestant"), OK, OK),
    do("d2", seat("y", "EW3", "E"), OK),
    ask("y", 1, (5, 2)),
    do("k", enter(2, 1), confirm(2, 1), OK, OK),
    ask("y", 1, "shown"),
    # A ruling shows the board as any result does, and a Void after it in the same batch takes nothing back.
    do("d2", unseat("y"), void(2, 1), OK, OK),
    do("a", add("u"), assign("u", "Contestant"), OK, OK),
    do("d2", seat("u", "NS2", "N"), rule(2, 1), void(2, 1), OK, OK, OK),
    do("k", enter(2, 1), "Spoiled(u)"),
]

# The same session in the second edition, with a commentator c.
SECOND_SCRIPT = [
    # Whoever commented on the session plays no board of it.
    ask("c", 3, "shown"),
    do("a", assign("c", "Contestant"), "Separation(S4)"),
    do("a", deassign("c", "Commentator"), assign("c", "Contestant"), OK, OK),
    do("d", seat("c", "NS3", "N"), OK),
    ask("c", 3, (6, 3)),
    do("k", enter(3, 3), "Spoiled(c)"),
    do("d", unseat("c"), OK),
    # What a pair was shown before an embargo stays shown.
    do("k", enter(1, 1), confirm(1, 1), OK, OK),
    do("d", EMBARGO, void(1, 1), OK, OK),
    ask("n1", 1, (4, 0)),
    do("k", enter(1, 1), "Spoiled(n1)"),
    # What becomes a result under the embargo shows its pair nothing: after a Void it is entered anew.
    do("k", enter(2, 2), confirm(2, 2), OK, OK),
    ask("n2", 2, (4, 0)),
    do("d", void(2, 2), OK),
    do("k", enter(2, 2), confirm(2, 2), OK, OK),
    # Lifted and embargoed again in one batch, it was shown for one version: that is enough.
    do("d", LIFT, EMBARGO, OK, OK),
    ask("n2", 2, (4, 0)),
    do("d", void(2, 2), OK),
    do("k", enter(2, 2), "Spoiled(n2)"),
    # A user who is a commentator, and scorers who are, under the embargo alone are shown nothing.
    do("a", add("v"), assign("v", "Commentator"), inherit("Scorer", "Commentator"), OK, OK, OK),
    ask("v", 3, (4, 0)),
    ask("k", 3, (4, 0)),
    ask("d", 3, "shown"),
    do("a", disinherit("Scorer", "Commentator"), deassign("v", "Commentator"), assign("v", "Contestant"), OK, OK, OK),
    do("d", seat("v", "NS3", "N"), OK),
    do("d", enter(3, 3), confirm(3, 3), void(3, 3), enter(3, 3), confirm(3, 3), OK, OK, OK, OK, OK),
    do("a", deassign("k", "Scorer"), assign("k", "Contestant"), OK, OK),
    do("d", seat("k", "EW3", "E"), void(3, 3), enter(3, 3), confirm(3, 3), OK, OK, OK, OK),
    # The lifting shows each pair at once what it has played, and an embargo after it takes nothing back.
    do("d", LIFT, OK),
    ask("v", 3, "shown"),
    ask("k", 3, "shown"),
    ask("n1", 3, (6, 1)),
    do("d", EMBARGO, void(3, 3), OK, OK),
    do("d2", enter(3, 3), unseat("k"), enter(3, 3), "Spoiled(k)", OK, "Spoiled(v)"),
    do("d", unseat("v"), LIFT, OK, OK),
    # While there is no embargo a spectator who is a commentator for one version is shown every board that isn't held.
    do("d", hold(2), OK),
    ask("s", 1, (9, 1)),
    do("a", assign("s", "Commentator"), deassign("s", "Commentator"), OK, OK),
    ask("s", 1, (9, 1)),
    do("a", assign("s", "Contestant"), OK),
    do("d", release(2), unseat("n1"), unseat("n2"), seat("s", "NS1", "N"), OK, OK, OK, OK),
    do("d", enter(1, 1), "Spoiled(s)"),
    do("d", unseat("s"), seat("s", "NS2", "N"), OK, OK),
    do("d", enter(2, 2), confirm(2, 2), OK, OK),
    # A pair of the hierarchy makes administrators commentators, and is deleted again.
    do("a", add("w"), assign("w", "Administrator"), OK, OK),
    ask("w", 1, (8, 0)),
    do("a", inherit("Administrator", "Commentator"), OK),
    ask("w", 1, "shown"),
    do("a", disinherit("Administrator", "Commentator"), deassign("w", "Administrator"), assign("w", "Contestant"), OK, OK, OK),
    do("d", seat("w", "EW1", "W"), OK),
    do("d", enter(1, 1), "Spoiled(w)"),
    # A commentator who isn't a spectator is shown nothing, and one who has never been more plays.
    do("a", disinherit(*COMMENTS), inherit("Commentator", "Member"), OK, OK),
    do("a", add("y"), assign("y", "Commentator"), OK, OK),
    ask("y", 1, (8, 0)),
    do("a", deassign("y", "Commentator"), assign("y", "Contestant"), OK, OK),
    do("d", unseat("w"), seat("y", "EW1", "W"), OK, OK),
    do("d", enter(1, 1), confirm(1, 1), OK, OK),
    ask("y", 1, "shown"),
]


def compact(value):
    return json.dumps(value, separators=(",", ":"), sort_keys=True) + "\n"


def session(edition):
    users = [{"digest": DIGEST, "name": name, "roles": [role], **({"pair": at[0], "place": at[1]} if at else {})}
             for name, role, at in USERS + [COMMENTATOR] * (edition - 1)]
    pbn = "".join(f'[Board "{board}"]\n[Deal "{deal}"]\n\n' for board, deal in DEALS.items())
    second = {"edition": 2} if edition == 2 else {}
    return {"budget": 0, **second, "pbn": pbn, "per_set": 1, "rounds": 3, "tables": 3, "users": users}


def write(part, edition, rows):
    model, script, answers = Model(edition), [compact(session(edition))], []
    for name, what, by_hand in rows:
        if isinstance(what, list):
            answer = model.do(name, what)
            assert answer["answers"] == by_hand, (name, what, answer, by_hand)
            script.append(compact({"as": name, "do": what}))
        else:
            answer = model.ask(name, what)
            denied = answer.get("denied")
            assert ((denied["rule"], denied["table"]) if denied else "shown") == by_hand, (name, what, answer, by_hand)
            script.append(compact({"as": name, "ask": "board", "board": what}))
        answers.append(compact(answer))
    put(part, "".join(script), "".join(answers))


write("exposure", 1, SCRIPT)
write("exposure, second edition", 2, SECOND_SCRIPT)

#!/usr/bin/env python3
"""Writes the parts of the stored runs of crates/bridge_server_stored_runs that are about names to show and a session's own texts: `names`,
`names, second edition`, `names, everybody's`, `connections, names` and `session objects, texts to show`.

    python3 tests/runs/write_name_runs.py

The answers are worked out twice, and never by the program: by the plain model of tests/models/judged_session.py, and by hand, for each command and
where an answer stands beside a query below. Why an object opens no session is worked out here, by the rules of docs/SESSION.md.
"""
import json
import pathlib
import sys

sys.path[:0] = [str(pathlib.Path(__file__).resolve().parents[1] / folder) for folder in ("models",)]
from account_commands import EMBARGO, LIFT, add, assign, deassign, seat, unseat
from judged_run import OK, JudgedRun
from judged_session import JudgedSession
from stored_runs import put
from write_connection_run import Run as ConnectionRun
from write_query_runs import ACCOUNTS_0, CLOSE, DEALS, FINALISE, NEXT, R420_ROW, STATUS_0, played, rule
from write_stored_runs import BOARDS, DIGEST, FOUR_SPADES, SECOND_USERS, SESSION, USERS, enter, text_of, user

ANNA, BEN, SMITH = "Anna Müller", 'Ben "Ace" Roth', "水野 \\ אבי"
NAMES = {"n1": ANNA, "n2": BEN, "k": SMITH}
TOLD = [["k", SMITH], ["n1", ANNA], ["n2", BEN]]
NOTICES = {"date": "2026-11-27", "reasons": ["a board that wasn't played in time", "a lead out of turn (Law 54)"], "title": "Friday Pairs"}
NOBODY, NO_MEMBER = (1, 0), (2, 0)


def rename(name, shown):
    return {"cmd": "Rename", "name": name, "shown": shown}


def named(users, names=None):
    """The users with the names to show that some have."""
    names = NAMES if names is None else names
    return [{**one, "shown": names[one["name"]]} if one["name"] in names else one for one in users]


def session(users, edition=1, **notices):
    second = {"edition": 2} if edition == 2 else {}
    return text_of({"budget": 0, "pbn": BOARDS, "per_set": 1, "rounds": 3, "tables": 3, "users": users, **second, **notices})


def run_of(users, edition=1, **notices):
    return JudgedRun(session(users, edition, **notices), JudgedSession(3, 3, 1, users, DEALS, edition=edition, **notices))


# ---- the first edition: who is told the names, and that nothing else tells them

def write_names():
    users = [*named(USERS), user("m", "Member"), {**user("x", "Member"), "roles": [], "shown": "Xaver"}]
    run = run_of(users, **NOTICES)
    told = [*TOLD, ["x", "Xaver"]]
    run.says('{"as":"n1","ask":"status"}',
             '{"status":{"date":"2026-11-27","held":[],"live":[[],[],[]],"marks":["N none","E ns","S ew"],"names":[["k","水野 \\\\ אבי"],'
             '["n1","Anna Müller"],["n2","Ben \\"Ace\\" Roth"],["x","Xaver"]],"per_set":1,"phase":"Running","reasons":["a board that wasn\'t '
             'played in time","a lead out of turn (Law 54)"],"round":1,"rounds":3,"seats":[["n1","NS1","N"],["n2","NS2","N"]],"tables":3,'
             '"title":"Friday Pairs"},"version":0}')
    # every member is told the same, whatever else the member may see; who is no member, or nobody, is told nothing
    for name in ("a", "d", "d2", "k", "s", "n1", "n2", "m"):
        run.ask(name, "status", {**STATUS_0, **NOTICES, "names": told})
    run.ask("x", "status", NO_MEMBER)
    run.ask("zz", "status", NOBODY)
    # a name to show is no name to sign in by, and all else tells the names to sign in by
    run.ask(ANNA, "status", NOBODY)
    run.ask("Xaver", "status", NOBODY)
    run.ask("n1", "board", (5, 1), board=1)
    run.do("k", *played(1, 1, FOUR_SPADES), OK, OK)
    run.do("d", rule(3, 3, 60, 40, 2), OK)
    run.ask("d", "traveller", {"board": 1, "rows": [R420_ROW]}, board=1)
    run.ask("d", "reason", {"board": 3, "code": 2, "table": 3}, table=3, board=3)
    run.ask("a", "accounts", {**ACCOUNTS_0, "users": [*ACCOUNTS_0["users"], ["m", ["Member"]], ["x", []]]})
    run.ask("m", "ranking", [["NS1", 0, 0], ["NS2", 0, 0], ["NS3", 0, 0], ["EW1", 0, 0], ["EW2", 0, 0], ["EW3", 0, 0]])
    # who saw board 1 sits down where it is still to play: the refusal names the user as an audit does
    run.do("d", unseat("n1"), seat("n1", "NS3", "N"), NEXT, OK, OK, OK)
    run.do("k", enter(3, 1, FOUR_SPADES), "Spoiled(n1)")
    run.audit("a", [[1, "k", "Enter", "1/1"], [2, "k", "Confirm", "1/1"], [3, "d", "Rule", "3/3"], [4, "d", "Unseat", "n1"], [5, "d", "Seat", "n1"]],
              **{"from": 1, "limit": 5})
    # names stay with their accounts when others are added, which have none, and seats change
    run.do("a", add("v"), assign("v", "Member"), OK, OK)
    run.ask("v", "status", {**STATUS_0, **NOTICES, "live": [[1], [], [3]], "names": told, "round": 2, "seats": [["n1", "NS3", "N"], ["n2", "NS2", "N"]]})
    run.do("a", deassign("m", "Member"), OK)
    run.ask("m", "status", NO_MEMBER)
    # a command that only the second edition has
    for message in ('{"as":"a","do":[{"cmd":"Rename","name":"n1","shown":"Anna"}]}', '{"as":"a","do":[{"cmd":"Rename"}]}',
                    '{"as":"a","do":[{"cmd":"AddUser","digest":"%s","name":"w"},{"cmd":"Rename","name":"w","shown":"Willi"}]}' % DIGEST):
        run.says(message, '{"error":"UnknownRequest"}')
    # nor has AddUser a name to show
    run.says('{"as":"a","do":[{"cmd":"AddUser","digest":"%s","name":"w","shown":"Willi"}]}' % DIGEST, '{"error":"BadField"}')
    run.ask("d", "status", since=99, by_hand="Behind")
    run.ask("d", "status")
    run.write("names")


# ---- the second edition: names are given, changed and taken away

# what stands for a name to show: the longest, and what Unicode has beside letters
ALLOWED = ["A", "é" * 32, "x" * 64, "水" * 21, "O'Neill, Mary-Jane", "a\u00a0b", "a\u3000b", "=1+1", "\U0001f0a1", "\u200d", "\u00ad", "\ufeff", "\ue000"]
REFUSED = ["x" * 65, "é" * 32 + "x", "水" * 22, " ", " Anna", "Anna ", "\u00a0Anna", "Anna\u3000", "Anna\u2003", "\u1680Anna", "Anna\u205f", "Anna\u202f",
           "An\tna", "An\nna", "\0", "Anna\u007f", "An\u0085na", "An\u009fna", "An\u202ena", "An\u202ana", "An\u2066na", "An\u2069na", "Anna\u200e",
           "\u200fAnna", "An\u061cna", "An\u2028na", "An\u2029na"]
NO_TEXT = ["5", "null", "true", "[]", "{}", '["Anna"]']


def write_second_edition():
    run = run_of(SECOND_USERS, 2)
    status = {**STATUS_0, "edition": 2, "embargo": False}
    run.ask("n1", "status", status)
    run.says('{"as":"a","do":[{"cmd":"Rename","name":"n1","shown":"Anna Müller"}]}', '{"answers":["ok"],"first":1,"last":1,"version":1}')
    run.says('{"as":"n2","ask":"status"}',
             '{"status":{"edition":2,"embargo":false,"held":[],"live":[[],[],[]],"marks":["N none","E ns","S ew"],"names":[["n1","Anna Müller"]],'
             '"per_set":1,"phase":"Running","round":1,"rounds":3,"seats":[["n1","NS1","N"],["n2","NS2","N"]],"tables":3},"version":1}')
    # nobody but an administrator may, not even of oneself; and whether there is such a user is told to nobody else
    for name in ("d", "d2", "k", "s", "n1", "n2", "c", "zz"):
        run.do(name, rename("n1", "Anne"), rename("zz", "Anne"), "NotPermitted", "NotPermitted")
    run.do("a", rename("zz", "Anne"), rename("a b", "Anne"), rename("", ""), rename(ANNA, "Anne"), *["NoSuchUser"] * 4)
    run.ask("c", "status", {**status, "names": [["n1", ANNA]]})
    # one name in place of another, two users of one name, and a name that is another's to sign in by
    run.do("a", rename("n1", BEN), rename("a", BEN), rename("n2", "n1"), OK, OK, OK)
    run.ask("s", "status", {**status, "names": [["a", BEN], ["n1", BEN], ["n2", "n1"]]})
    # the empty text takes a name away, also where there is none
    run.do("a", rename("n2", ""), rename("s", ""), rename("n1", ANNA), rename("n1", ANNA), OK, OK, OK, OK)
    run.ask("s", "status", {**status, "names": [["a", BEN], ["n1", ANNA]]})
    run.do("a", rename("a", ""), rename("n1", ""), OK, OK)
    run.ask("s", "status", status)
    # the members of the command, and what may be shown
    for shown in ALLOWED:
        run.do("a", rename("n2", shown), OK)
        run.ask("k", "status", {**status, "names": [["n2", shown]]})
    for shown in [text_of(one) for one in REFUSED] + NO_TEXT:
        run.says('{"as":"a","do":[{"cmd":"Rename","name":"n2","shown":%s}]}' % shown, '{"error":"BadField"}')
    for message in ('{"as":"a","do":[{"cmd":"Rename","name":"n2"}]}', '{"as":"a","do":[{"cmd":"Rename","shown":"Ben"}]}', '{"as":"a","do":[{"cmd":"Rename"}]}',
                    '{"as":"a","do":[{"cmd":"Rename","digest":"%s","name":"n2","shown":"Ben"}]}' % DIGEST,
                    '{"as":"a","do":[{"cmd":"Rename","name":"n2","shown":"Ben","user":"n2"}]}', '{"as":"a","do":[{"cmd":"Rename","name":5,"shown":"Ben"}]}',
                    '{"as":"a","do":[{"cmd":"Rename","name":"%s","shown":"Ben"}]}' % ("n" * 33),
                    '{"as":"a","do":[{"cmd":"Rename","name":"n1","shown":"Anna"},{"cmd":"Rename","name":"n2","shown":""},{"cmd":"Rename","name":"n2","shown":" "}]}'):
        run.says(message, '{"error":"BadField"}')
    run.says('{"as":"a","do":[{"cmd":"rename","name":"n2","shown":"Ben"}]}', '{"error":"UnknownRequest"}')
    run.says(r'{"as":"a","do":[{"shown":"B\u0065n","name":"n\u0032","cmd":"Rename"}]}', text_of({"answers": [OK], "first": 24, "last": 24, "version": 24}))
    run.ask("k", "status", {**status, "names": [["n2", "Ben"]]})
    # an account that is added has none until it is given one
    run.do("a", add("v"), rename("v", "Vera"), rename("w", "Willi"), add("w"), rename("w", "Willi"), OK, OK, "NoSuchUser", OK, OK)
    run.ask("n1", "status", {**status, "names": [["n2", "Ben"], ["v", "Vera"], ["w", "Willi"]]})
    run.ask("v", "status", NO_MEMBER)
    # an audit tells whose name was changed, and no name
    run.audit("a", [[23, "a", "Rename", "n2"], [24, "a", "Rename", "n2"], [25, "a", "AddUser", "v"], [26, "a", "Rename", "v"], [27, "a", "AddUser", "w"]],
              **{"from": 23, "limit": 5})
    run.audit("n2", **{"from": 1, "limit": 5})
    # names are no secret of a board: they are told, and changed, under an embargo and after play
    run.do("d", EMBARGO, OK)
    run.do("a", rename("n1", ANNA), OK)
    run.ask("n1", "status", {**status, "embargo": True, "names": [["n1", ANNA], ["n2", "Ben"], ["v", "Vera"], ["w", "Willi"]]})
    run.do("d", LIFT, NEXT, NEXT, *[rule(row[1], row[2], 50, 50, 1) for row in run.session.rows], CLOSE, *[OK] * 13)
    run.do("a", rename("n1", "Anne"), rename("zz", ""), OK, "NoSuchUser")
    run.do("d", FINALISE, OK)
    run.do("a", rename("w", ""), rename("n1", ""), OK, OK)
    run.do("d", rename("n1", ANNA), "NotPermitted")
    run.ask("s", "status", {**status, "live": [[1, 2, 3]] * 3, "names": [["n2", "Ben"], ["v", "Vera"]], "phase": "Final", "round": 3})
    run.write("names, second edition")


def write_everybodys():
    """256 users, each with a longest name; and the most that a session's own texts may hold."""
    more = [user(f"u{number}", "Spectator") for number in range(256 - len(SECOND_USERS))]
    users = named([*SECOND_USERS, *more], {one["name"]: "水" * 21 + "x" for one in [*SECOND_USERS, *more]})
    notices = {"date": "9999-12-31", "reasons": ["é" * 100] * 99, "title": "x" * 100}
    run = run_of(users, 2, **notices)
    run.ask("u247", "status")
    run.do("a", rename("u247", ""), rename("u0", "Nora"), OK, OK)
    run.ask("c", "status")
    run.write("names, everybody's")


# ---- on connections

ON_CONNECTIONS = {"n1": ANNA, "n2": "Ben Roth"}
STATUS = {**STATUS_0, **NOTICES, "edition": 2, "embargo": False}


def first_connection(run):
    run.fails({"do": [rename("n1", ANNA)]}, "NotSignedIn")
    run.fails({"do": [{"cmd": "Rename", "name": "n1", "shown": " "}]}, "BadField")
    run.hello("n1")
    run.say({"ask": "status"}, {"status": {**STATUS, "names": [["n1", ANNA], ["n2", "Ben Roth"]]}, "version": 0})
    run.does([rename("n1", "Anna Roth")], ["NotPermitted"], 0, 0, 0)
    run.hello("a")
    run.does([rename("n1", "Anna Roth"), rename("n3", ANNA), rename("n2", "")], ["ok", "NoSuchUser", "ok"], 1, 2, 2)


def second_connection(run):
    run.hello(ANNA, fault="NotKnown")
    run.hello("n2")
    run.say({"ask": "status", "since": 2}, {"status": {**STATUS, "names": [["n1", "Anna Roth"]]}, "version": 2})
    run.hello("d")
    run.say({"audit": {"from": 1, "limit": 10}}, {"audit": [[1, "a", "Rename", "n1"], [2, "a", "Rename", "n2"]], "version": 2})


def write_connections():
    run = ConnectionRun(session(named(SECOND_USERS, ON_CONNECTIONS), 2, **NOTICES))
    first_connection(run)
    run.end()
    second_connection(run)
    put("connections, names", "".join(line + "\n" for line in run.asked), "".join(line + "\n" for line in run.told))


# ---- session objects

def shown_rows(member, most, where):
    """For a member that is a text to show of at most so many bytes: each object's members, and why it isn't opened, or None."""
    allowed = ["A", "x" * most, "é" * (most // 2), ANNA, BEN, SMITH, "a\u00a0b", "\U0001f0a1", "\u200d", "=1+1"]
    refused = ["", "x" * (most + 1), "é" * (most // 2) + "x", *REFUSED[3:]]
    for text in allowed:
        yield where(member, text_of(text)), None
    # escaped, so that who reads the part line by line isn't misled by what Unicode takes for a line's end
    for text in refused:
        yield where(member, json.dumps(text)), "BadField"
    for value in NO_TEXT:
        yield where(member, value), "BadField"
    yield where(member, r'"An\u006ea"'), None
    yield where(member, r'"An\u000ana"'), "BadField"
    yield where(member, r'"An\ud800na"'), "Malformed"


def in_session(member, value):
    return SESSION.replace('"budget":0', f'"budget":0,"{member}":{value}', 1)


def in_user(member, value):
    return SESSION.replace('"name":"n1"', f'"name":"n1","{member}":{value}', 1)


def reason_of(member, value):
    return in_session(member, f'["ok",{value},"ok"]')


NUMBERS = [
    ('"1"', None), ('"0"', None), ('"12345"', None), ('"ABCDEFGHabcdefgh"', None), ('"A1b2C3d4E5f6G7h8"', None),
    ('""', "BadField"), ('"ABCDEFGHabcdefghi"', "BadField"), ('"12-3"', "BadField"), ('"12 3"', "BadField"), ('" 123"', "BadField"), ('"é"', "BadField"),
    ('"１"', "BadField"), ('"12_3"', "BadField"), ("123", "BadField"), ("null", "BadField"), ('["123"]', "BadField"),
]
DATES = [
    ('"2026-11-27"', None), ('"0000-01-01"', None), ('"9999-12-31"', None), ('"2026-02-31"', None),
    ('"2026-00-27"', "BadField"), ('"2026-13-27"', "BadField"), ('"2026-11-00"', "BadField"), ('"2026-11-32"', "BadField"), ('"2026-1-27"', "BadField"),
    ('"2026-11-7"', "BadField"), ('"26-11-27"', "BadField"), ('"2026/11/27"', "BadField"), ('"20261127"', "BadField"), ('"2026-11-27 "', "BadField"),
    ('" 2026-11-27"', "BadField"), ('"2026-11-27T19:30"', "BadField"), ('"27-11-2026"', "BadField"), ('"202é-11-27"', "BadField"), ('""', "BadField"),
    ('"-026-11-27"', "BadField"), ('"2026-11-+7"', "BadField"), ('"٢٠٢٦-١١-٢٧"', "BadField"), ("20261127", "BadField"), ("null", "BadField"),
]
# How many reasons there are, and what else stands in their place.
REASONS = [
    ('["late"]', None), (text_of(["x"] * 99), None), (text_of(["x" * 200] * 99), None), (text_of(["late"] * 2), None),
    ("[]", "BadField"), (text_of(["x"] * 100), "BadField"), ('"late"', "BadField"), ('{"1":"late"}', "BadField"), ("null", "BadField"), ("[[]]", "BadField"),
    ('[["late"]]', "BadField"), ('["late",1]', "BadField"),
]
# Members together, in other places, and beside other faults.
TOGETHER = [
    (session(named(USERS), **NOTICES), None),
    (session(named(SECOND_USERS), 2, **NOTICES), None),
    (session([{**one, "number": "42"} for one in named(USERS, {one["name"]: ANNA for one in USERS})]), None),
    (in_session("shown", '"Anna"'), "BadField"), (in_session("number", '"42"'), "BadField"), (in_session("names", '[["n1","Anna"]]'), "BadField"),
    (in_user("title", '"Friday"'), "BadField"), (in_user("date", '"2026-11-27"'), "BadField"), (in_user("reasons", '["late"]'), "BadField"),
    (in_session("Title", '"Friday"'), "BadField"), (in_user("Shown", '"Anna"'), "BadField"), (in_session("reason", '"late"'), "BadField"),
    (in_user("shown", '" ","shown":"Anna"'), None), (in_user("shown", '"Anna","shown":""'), "BadField"),
    (in_session("title", '"","title":"Friday"'), None), (in_session("date", '"2026-11-27","date":"today"'), "BadField"),
    # a member that is no text to show goes before what the session would play, and before its boards and its users
    (in_user("shown", '"Anna "').replace('"tables":3', '"tables":2'), "BadField"),
    (in_session("title", '" Friday"').replace('"rounds":3', '"rounds":4'), "BadField"),
    (in_session("reasons", '["late"]').replace('"rounds":3', '"rounds":4'), "BadRounds"),
    (in_user("number", '"4 2"').replace('[Board \\"3\\"]', "[Board 3]"), "BadField"),
    (in_user("number", '"42"').replace('"name":"n1"', '"name":"a b"'), "BadName"),
    (in_user("shown", text_of(ANNA)).replace('"name":"n2"', '"name":"n1"'), "UserExists"),
]


def write_objects():
    rows = [*shown_rows("shown", 64, in_user), *shown_rows("title", 100, in_session), *shown_rows("reasons", 200, reason_of)]
    rows += [(in_user("number", value), fault) for value, fault in NUMBERS]
    rows += [(in_session("date", value), fault) for value, fault in DATES]
    rows += [(in_session("reasons", value), fault) for value, fault in REASONS]
    rows += TOGETHER
    ended = ['0 {"error":"NoSuchBoard","version":0}' if fault is None else f"1 bridge_server: {fault}" for _, fault in rows]
    put("session objects, texts to show", "".join(line + "\n" for line, _ in rows), "".join(line + "\n" for line in ended))
    print(f"{len(rows)} session objects")


if __name__ == "__main__":
    write_names()
    write_second_edition()
    write_everybodys()
    write_connections()
    write_objects()

#!/usr/bin/env python3
"""Writes the part `session objects` of the stored runs of crates/bridge_server_stored_runs: which objects open a session, and why the
others don't.

    python3 tests/runs/write_opening_runs.py

That is worked out here, by the rules of docs/SESSION.md, and never by the program. Objects that name their movement have a part of their
own (tests/runs/write_movement_objects.py).
"""
from stored_runs import put
from write_stored_runs import BOARDS, DIGEST, SECOND_SESSION, SESSION, WHOLE_SUITS, game, largest, text_of

# A place in the session object, what stands there instead, and why it isn't opened; or None, where it is.
CHANGES = [
    ('"tables":3', '"tables":3', None),
    ('"tables":3', '"tables":2', "BadTables"),
    ('"rounds":3', '"rounds":4', "BadRounds"),
    ('"per_set":1', '"per_set":9', "BadSets"),
    ('"per_set":1', '"per_set":255', "BadSets"),
    ('"per_set":1', '"per_set":256', "BadField"),
    ('"per_set":1', '"per_set":"1"', "BadField"),
    ('"tables":3', '"tables":3,"tables":2', "BadTables"),
    # too few tables, more rounds than an even number of tables can play, more boards than there is room for
    ('"per_set":1,"rounds":3,"tables":3', '"per_set":1,"rounds":1,"tables":2', "BadTables"),
    ('"per_set":1,"rounds":3,"tables":3', '"per_set":1,"rounds":4,"tables":4', "BadRounds"),
    ('"per_set":1,"rounds":3,"tables":3', '"per_set":8,"rounds":1,"tables":16', "MissingBoard(4)"),
    ('"per_set":1,"rounds":3,"tables":3', '"per_set":9,"rounds":1,"tables":16', "BadSets"),
    # a pair that is absent
    ('"budget":0', '"absent":"EW3","budget":0', None),
    ('"budget":0', '"absent":"EW4","budget":0', "BadPair"),
    ('"budget":0', '"absent":"NS255","budget":0', "BadPair"),
    ('"budget":0', '"absent":"NS256","budget":0', "BadField"),
    ('"budget":0', '"absent":"EW0","budget":0', "BadField"),
    ('"budget":0', '"absent":"EW03","budget":0', "BadField"),
    ('"budget":0', '"absent":null,"budget":0', "BadField"),
    ('"budget":0', '"absent":["EW3"],"budget":0', "BadField"),
    ('"budget":0', '"absent":"NS4","absent":"NS3","budget":0', None),
    ('"per_set":1', '"absent":"NS4","per_set":9', "BadSets"),
    ('"per_set":1,"rounds":3', '"absent":"NS4","per_set":1,"rounds":4', "BadRounds"),
    ('"budget":0', '"absent":"NS1","budget":0', "NoSuchPair"),
    # the budget
    ('"budget":0', '"budget":1000000000000000000', None),
    ('"budget":0', '"budget":"x","budget":7', None),
    ('"budget":0', '"budget":-0', "BadField"),
    ('"budget":0', '"budget":1000000000000000001', "BadField"),
    ('"budget":0', '"budget":0,"edition":1', None),
    ('"budget":0,', "", "BadField"),
    # names and digests
    ('"name":"n1"', '"name":"a b"', "BadName"),
    ('"name":"n1"', '"name":""', "BadName"),
    ('"name":"n1"', '"name":"abcdefghijklmnopqrstuvwxyz0123456"', "BadField"),
    ("}]}", '},{"digest":"%s","name":"","roles":[]}]}' % DIGEST, "BadName"),
    ("}]}", '},{"digest":"%s","name":"a","roles":[]}]}' % DIGEST, "UserExists"),
    ("}]}", '},{"digest":"%s","name":"a","roles":["Member"]}]}' % DIGEST, "UserExists"),
    ('15ad","name":"n1"', '15AD","name":"n1"', None),
    ('15ad","name":"n1"', '15a","name":"n1"', "BadField"),
    ('15ad","name":"n1"', '15ag","name":"n1"', "BadField"),
    # roles, and the separation of roles: S1, S2 and S3 keep Contestant from Director, Scorer and Administrator
    ('["Spectator"]', "[]", None),
    ('["Spectator"]', '["Spectator","Spectator"]', "AlreadyAssigned"),
    ('"d","roles":["Director"]', '"d","roles":["Director","Contestant","Director"]', "AlreadyAssigned"),
    ('"d","roles":["Director"]', '"d","roles":["Director","Contestant"]', "Separation(S1)"),
    ('["Scorer"]', '["Scorer","Contestant"]', "Separation(S2)"),
    ('["Administrator"]', '["Contestant","Administrator"]', "Separation(S3)"),
    ('["Administrator"]', '["Member"]', "LastAdministrator"),
    ('["Spectator"]', '["Commentator"]', "BadField"),
    ('["Spectator"]', '"Spectator"', "BadField"),
    # seats
    ('"NS1"', '"NS4"', "NoSuchPair"),
    ('"NS1"', '"NS0"', "BadField"),
    ('"NS1","place":"N"', '"NS1","place":"E"', "WrongDirection"),
    ('"NS1","place":"N"', '"EW1","place":"S"', "WrongDirection"),
    ('"pair":"NS1","place":"N"', '"place":"N"', "BadField"),
    ('"name":"s"', '"name":"s","pair":"NS3","place":"N"', "NotContestant"),
    ('"NS2"', '"NS1"', "SeatTaken"),
    ("}]}", '},{"digest":"%s","name":"w","pair":"EW3","place":"W","roles":["Contestant"]}]}' % DIGEST, None),
    # no object
    ('{"budget":0', "[", "Malformed"),
    ('{"budget":0', "", "Malformed"),
    ("}]}", "}]", "Malformed"),
    ("}]}", "}]}}", "Malformed"),
]
FIRST = game(1, "N")
# The text of the boards, a part of it at whose first byte a fault stands, and the fault.
TEXTS = [
    ("", None, "MissingBoard(1)"),
    (FIRST, None, "MissingBoard(2)"),
    (FIRST.replace(WHOLE_SUITS, "AKQJT98765432... - - -"), "[Deal", "HiddenHand"),
    (FIRST.replace("AKQJT98765432...", "AKQJT9876543..."), "[Deal", "BadDeal"),
    (FIRST + game(1, "E"), '[Deal "E', "DealConflict"),
    (FIRST.replace("[Deal", '[Vulnerable "Some"]\n[Deal'), "[Vulnerable", "BadMark"),
    ('[Board "##1"]', "[Board", "InheritedForm"),
    ("[Board 1]", "[Board", "BadTag"),
    ("{ note [ here }\n% escape [\n[Board 1]", "[Board", "BadTag"),
    (BOARDS.replace('[Board "3"]', "[Board 3]"), "[Board 3", "BadTag"),
]

# An edition that is another than 1 or 2 is none, and it is looked at before what the session would play.
EDITIONS = [
    ('"budget":0', '"budget":0,"edition":2', None),
    ('"budget":0', '"budget":0,"edition":2,"edition":1', None),
    ('"budget":0', '"budget":0,"edition":0', "BadField"),
    ('"budget":0', '"budget":0,"edition":3', "BadField"),
    ('"budget":0', '"budget":0,"edition":"1"', "BadField"),
    ('"budget":0', '"budget":0,"edition":1.0', "BadField"),
    ('"budget":0', '"budget":0,"edition":-0', "BadField"),
    ('"budget":0', '"budget":0,"edition":01', "Malformed"),
    ('"budget":0', '"budget":0,"edition":null', "BadField"),
    ('"budget":0', '"budget":0,"edition":true', "BadField"),
    ('"budget":0', '"budget":0,"edition":[2]', "BadField"),
    ('"budget":0', '"Edition":2,"budget":0', "BadField"),
    ('"per_set":1,"rounds":3,"tables":3', '"edition":3,"per_set":1,"rounds":3,"tables":2', "BadField"),
    ('"per_set":1,"rounds":3,"tables":3', '"edition":2,"per_set":1,"rounds":3,"tables":2', "BadTables"),
]
# A commentator, whom the first edition doesn't know: S4 keeps Contestant from Commentator.
COMMENTATORS = [
    ('"edition":2', '"edition":2', None),
    ('"edition":2', '"absent":"EW3","edition":2', None),
    ('"edition":2', '"edition":1', "BadField"),
    ('"edition":2,', "", "BadField"),
    ('"edition":2', '"edition":2,"edition":1', "BadField"),
    ('["Commentator"]', '["commentator"]', "BadField"),
    ('["Commentator"]', '"Commentator"', "BadField"),
    ('["Commentator"]', '["Commentator","Spectator"]', None),
    ('["Commentator"]', '["Commentator","Scorer","Director","Administrator"]', None),
    ('["Commentator"]', '["Commentator","Commentator"]', "AlreadyAssigned"),
    ('["Commentator"]', '["Commentator","Contestant","Commentator"]', "AlreadyAssigned"),
    ('["Commentator"]', '["Commentator","Contestant"]', "Separation(S4)"),
    ('["Contestant"]', '["Contestant","Commentator"]', "Separation(S4)"),
    ('["Commentator"]', '["Commentator","Contestant","Scorer"]', "Separation(S2)"),
    ('["Administrator"]', '["Commentator"]', "LastAdministrator"),
    ('"name":"c"', '"name":"c","pair":"NS3","place":"N"', "NotContestant"),
]


def write_openings():
    given, wanted = [], []

    def row(object, fault):
        given.append(object + "\n")
        ended = '0 {"error":"NoSuchBoard","version":0}' if fault is None else f"1 bridge_server: {fault}"
        wanted.append(ended + "\n")

    def changed_rows(session, changes):
        for old, new, fault in changes:
            assert old in session
            row(session.replace(old, new, 1), fault)

    changed_rows(SESSION, CHANGES)
    for text, part, fault in TEXTS:
        place = "" if part is None else f"({text.index(part)})"
        row(SESSION.replace(text_of(BOARDS), text_of(text)), fault + place)
    row("", "Malformed")
    row('{"budget":0', "Malformed")
    row(largest(255), "TooManyUsers")
    row(largest(254), None)
    changed_rows(SESSION, EDITIONS)
    changed_rows(SECOND_SESSION, COMMENTATORS)
    put("session objects", "".join(given), "".join(wanted))


if __name__ == "__main__":
    write_openings()

#!/usr/bin/env python3
"""Writes the parts `session objects, lists of rows` and `session objects, words for movements` of the stored runs of
crates/bridge_server_stored_runs: which objects whose movement is a list of rows or a word open a session, and why the others don't.

    python3 tests/runs/write_movement_objects.py

That is worked out here, by the rules of docs/SESSION.md, and never by the program.
"""
from stored_runs import put
from write_movement_runs import HOWELL, MEMBERS, SESSION, USERS, all_meet_all
from write_stored_runs import game, text_of, user


def with_row(place, *row):
    """The rows with another one at a place, counted from 1."""
    return HOWELL[:place - 1] + [list(row)] + HOWELL[place:]


def without(*names, **members):
    return {name: value for name, value in {**SESSION, **members}.items() if name not in names}


def seated(*users):
    return {"users": [*USERS[:4], *users]}


ONE_ROW = {"movement": HOWELL[:1]}
SHARED_BY_TWO, LONG = {"shared_by": 2}, [HOWELL[0]] * 497
# What stands beside the members of the session above or in place of them, and why it isn't opened; or None, where it is.
LISTS = [
    ({}, None),
    ({"movement": HOWELL[::-1]}, None),
    ({"edition": 2}, None),
    ({"shared_by": 16}, None),
    # what is no list of rows, and what doesn't stand beside one
    *[({"movement": value}, "BadField") for value in (None, True, 5, "", "swiss", {}, [], [5], [[]], ["NS1"], [HOWELL], [None, *HOWELL])],
    *[({"movement": with_row(15, *row)}, "BadField") for row in (
        [1, 1, 1, "NS1"], [1, 1, 1, "NS1", "EW1", "NS2"], [1, 1, "NS1", "EW1"], ["NS1", "EW1", 1, 1, 1], ["5", 3, 5, "EW2", "EW3"],
        [256, 3, 5, "EW2", "EW3"], [5, 256, 5, "EW2", "EW3"], [5, 3, 256, "EW2", "EW3"], [-1, 3, 5, "EW2", "EW3"], [5, 3.0, 5, "EW2", "EW3"],
        [5, 3, None, "EW2", "EW3"], [5, 3, 5, "EW02", "EW3"], [5, 3, 5, "EW2", "EW0"], [5, 3, 5, "EW256", "EW3"], [5, 3, 5, "ew2", "EW3"],
        [5, 3, 5, "EW", "EW3"], [5, 3, 5, "", "EW3"], [5, 3, 5, 2, 3], [5, 3, 5, ["EW2"], "EW3"])],
    ({"movement": LONG[:496]}, "TableTwice(2)"),
    ({"movement": LONG}, "BadField"),
    *[({"shared_by": value}, "BadField") for value in (0, 17, 255, 256, "3", None, 3.0, [3])],
    ({"switched": 1}, "BadField"),
    ({"switched": 0}, "BadField"),
    # the numbers of the movement, each before what comes after it
    ({"tables": 2, "rounds": 0, "per_set": 9}, "BadTables"),
    ({"tables": 17}, "BadTables"),
    ({"tables": 4}, None),
    ({"tables": 16}, None),
    ({"rounds": 0, "per_set": 9}, "BadRounds"),
    ({"rounds": 4}, "OutOfRange(13)"),
    ({"rounds": 6}, None),
    ({"rounds": 255}, None),
    ({"per_set": 9, **SHARED_BY_TWO}, "BadSets"),
    ({"per_set": 0}, "BadSets"),
    ({"per_set": 2}, "MissingBoard(6)"),
    ({"per_set": 8}, "MissingBoard(6)"),
    ({"movement": with_row(15, 5, 3, 6, "EW2", "EW3")}, "MissingBoard(6)"),
    ({"movement": with_row(15, 5, 3, 31, "EW2", "EW3"), "per_set": 4}, "MissingBoard(6)"),
    ({"movement": with_row(15, 5, 3, 31, "EW2", "EW3"), "per_set": 5}, "BadSets"),
    ({"movement": with_row(15, 5, 3, 32, "EW2", "EW3"), **SHARED_BY_TWO}, "BadSets"),
    ({"movement": with_row(15, 5, 3, 255, "EW2", "EW3")}, "BadSets"),
    ({"movement": [[1, 1, 0, "NS1", "EW1"]]}, "BadSets"),
    # each fault of a row, at the first row that has one
    ({"shared_by": 1}, "SharedByTooMany(2)"),
    (SHARED_BY_TWO, "SharedByTooMany(3)"),
    *[({"movement": with_row(2, *row)}, "OutOfRange(2)") for row in (
        [6, 2, 1, "NS2", "EW2"], [0, 2, 1, "NS2", "EW2"], [1, 4, 1, "NS2", "EW2"], [1, 0, 1, "NS2", "EW2"], [1, 2, 0, "NS2", "EW2"],
        [1, 2, 1, "NS17", "EW2"], [1, 2, 1, "NS2", "EW255"], [1, 2, 1, "NS2", "NS2"])],
    ({"movement": with_row(2, 1, 1, 2, "NS2", "EW2")}, "TableTwice(2)"),
    ({"movement": with_row(4, 2, 1, 1, "EW3", "NS1")}, "SetAtTableAgain(4)"),
    ({"movement": with_row(2, 1, 2, 2, "NS1", "EW2")}, "PairTwice(2)"),
    ({"movement": with_row(2, 1, 2, 2, "NS2", "NS1")}, "PairTwice(2)"),
    ({"movement": with_row(2, 1, 2, 2, "EW1", "NS2")}, "PairTwice(2)"),
    ({"movement": with_row(7, 3, 1, 3, "NS3", "EW1")}, "SetAgain(7)"),
    ({"movement": with_row(4, 2, 1, 2, "NS1", "EW1")}, "OpponentsAgain(4)"),
    ({"movement": with_row(4, 2, 1, 2, "EW1", "NS1")}, "OpponentsAgain(4)"),
    ({"movement": with_row(3, 1, 3, 1, "NS3", "EW3"), "shared_by": 2}, "SharedByTooMany(3)"),
    # of several faults the first of the order, and of several rows the first
    ({"movement": with_row(2, 1, 1, 1, "NS1", "EW1")}, "TableTwice(2)"),
    ({"movement": with_row(2, 9, 1, 1, "NS1", "EW1")}, "OutOfRange(2)"),
    ({"movement": with_row(4, 2, 1, 1, "NS1", "EW1")}, "SetAtTableAgain(4)"),
    ({"movement": with_row(4, 1, 3, 2, "NS1", "EW1"), "shared_by": 3}, "TableTwice(4)"),
    ({"movement": with_row(5, 2, 2, 2, "EW3", "NS2")}, "PairTwice(5)"),
    ({"movement": with_row(7, 3, 3, 2, "NS1", "EW3")}, "SetAgain(7)"),
    ({"movement": [HOWELL[0], [2, 2, 1, "NS1", "EW1"]]}, "SetAgain(2)"),
    ({"movement": [*HOWELL[:2], [1, 1, 9, "NS1", "EW1"], [0, 0, 0, "NS1", "NS1"]]}, "TableTwice(3)"),
    ({"movement": with_row(15, 5, 3, 5, "EW2", "NS1")}, "PairTwice(15)"),
    # a pair that is absent is one of the list, whose rows are looked at whole
    ({"absent": "EW3"}, None),
    ({"absent": "NS4"}, "BadPair"),
    ({"absent": "EW16"}, "BadPair"),
    ({"absent": "EW255"}, "BadPair"),
    ({"absent": "EW256"}, "BadField"),
    ({"absent": "NS4", **SHARED_BY_TWO}, "SharedByTooMany(3)"),
    ({"absent": "EW3", **SHARED_BY_TWO}, "SharedByTooMany(3)"),
    ({"absent": "EW3", "movement": with_row(15, 5, 3, 6, "EW2", "EW3")}, "MissingBoard(6)"),
    ({"absent": "NS1"}, "NoSuchPair"),
    # who sits sits in a pair of the list
    (ONE_ROW, None),
    ({**ONE_ROW, **seated(user("n2", "Contestant", "NS2", "N"))}, "NoSuchPair"),
    (seated(user("e16", "Contestant", "EW16", "E")), "NoSuchPair"),
    ({"movement": [[1, 1, 1, "NS16", "EW16"]], **seated(user("e16", "Contestant", "EW16", "E"))}, None),
    ({"movement": [[1, 1, 1, "EW5", "EW4"]], **seated(user("e5", "Contestant", "EW5", "N"))}, "WrongDirection"),
    ({"movement": [[1, 1, 1, "EW5", "EW4"]], **seated(user("e5", "Contestant", "EW5", "W"))}, None),
]
# The same, without some members.
LEFT_OUT = [
    (without("shared_by"), "SharedByTooMany(2)"),
    (without("shared_by", **ONE_ROW), None),
    (without("movement"), "BadField"),
    (without("movement", "shared_by"), "BadRounds"),
    (without("movement", "shared_by", rounds=3), None),
    (without("movement", rounds=3), "BadField"),
    (without("movement", "shared_by", rounds=3, switched=1), "BadField"),
    (without("movement", "shared_by", rounds=3, switched=0), "BadField"),
]


def written(part, objects):
    """A line for each object, with the status with which a script that begins with it ends."""
    texts = [(found if isinstance(found, str) else text_of(found), fault) for found, fault in objects]
    ended = ['0 {"error":"NoSuchBoard","version":0}' if fault is None else f"1 bridge_server: {fault}" for _, fault in texts]
    put(part, "".join(text + "\n" for text, _ in texts), "".join(line + "\n" for line in ended))


def largest(rows):
    users = [user("a", "Administrator")]
    pbn = "".join(game(board, "N") for board in range(1, 32))
    return {**MEMBERS, "movement": rows, "pbn": pbn, "rounds": 31, "shared_by": 16, "tables": 16, "users": users}


def write_lists():
    rows = all_meet_all()
    # the last value of a member counts, and blanks and escapes are as in any JSON
    text = text_of(SESSION)
    texts = [
        (text.replace('"movement":', '"movement":"swiss","movement":'), None),
        (text.replace('"movement":', r'"m\u006fvement" : '), None),
        (text.replace('[1,1,1,"NS1","EW1"]', r'[ 1,1 ,1,"N\u00531","EW1"]'), None),
        (text.replace('"per_set"', '"movement":[],"per_set"'), "BadField"),
        (text.replace("[1,1,1,", "[1,01,1,"), "Malformed"),
        (text.replace("[1,1,1,", "[1,-0,1,"), "BadField"),
        (text.replace("[1,1,1,", "[1,1e0,1,"), "BadField"),
        (text.replace('"movement"', '"Movement"'), "BadField"),
    ]
    whole = [(largest(rows), None), (largest(rows[::-1]), None), (largest([*rows, rows[0]]), "BadField"),
             (largest([*rows[:495], rows[0]]), "TableTwice(496)"), ({**largest(rows), "shared_by": 15}, "SharedByTooMany(16)"),
             ({**largest(rows), "per_set": 5}, "BadSets")]
    written("session objects, lists of rows", [*[({**SESSION, **change}, fault) for change, fault in LISTS], *LEFT_OUT, *texts, *whole])


ALONE = {"budget": 0, "pbn": "".join(game(board, "N") for board in range(1, 17)), "per_set": 1, "users": [user("a", "Administrator")]}
MITCHELL, HOWELL_OF, SHARE, WEB_OF = ALL_WORDS = "mitchell", "howell", "share_and_relay", "web"


def worded(word, tables, rounds, **members):
    return {"movement": word, "tables": tables, "rounds": rounds, **members}


def joined_by(*users):
    return {"users": [*ALONE["users"], *users]}


N6, N7, E6 = user("n6", "Contestant", "NS6", "S"), user("n7", "Contestant", "NS7", "S"), user("e6", "Contestant", "EW6", "E")
WORDS = [
    # no word, and what doesn't stand beside one
    *[(worded(word, 3, 3), "BadField") for word in ("", "Mitchell", "mitchell ", "swiss", "share and relay", "shareandrelay", "HOWELL")],
    *[(worded(word, 6, 5, shared_by=2), "BadField") for word in ALL_WORDS],
    *[(worded(HOWELL_OF, 6, 5, switched=many), "BadField") for many in (0, 1, 5)],
    *[(worded(word, 6, 5, switched=many), None) for word in (MITCHELL, SHARE, WEB_OF) for many in (0, 1, 5)],
    *[(worded(word, 6, 5, switched=many), "BadField") for word in (MITCHELL, SHARE, WEB_OF) for many in (6, 255, 256, "1", None)],
    (worded(MITCHELL, 2, 0, switched=1), "BadField"),
    ({"tables": 6, "rounds": 5, "switched": 1}, "BadField"),
    # the tables of each word
    *[(worded(word, tables, 1), None if tables in fits else "BadTables")
      for word, fits in ((MITCHELL, range(3, 17)), (HOWELL_OF, range(3, 9)), (SHARE, range(4, 17, 2)), (WEB_OF, range(6, 17, 2)))
      for tables in (0, 2, 3, 4, 5, 6, 7, 8, 9, 15, 16, 17)],
    # their rounds: none, the most, and more
    *[(worded(word, tables, rounds), None if rounds in fits else "BadRounds") for word, tables, fits, tried in (
        (MITCHELL, 7, [7], [0, 7, 8]), (MITCHELL, 8, [7], [0, 7, 8]), (HOWELL_OF, 3, [5], [0, 5, 6]), (HOWELL_OF, 5, [6], [0, 6]),
        (HOWELL_OF, 8, [15], [15, 16]), (SHARE, 4, [4], [0, 4, 5]), (SHARE, 8, [5], [5]), (SHARE, 16, [16], [16, 17]),
        (WEB_OF, 6, [3, 5], [0, 3, 4, 5, 6, 7]), (WEB_OF, 14, [5], [5, 8]), (WEB_OF, 16, [3, 15], [2, 3, 15, 16, 17])) for rounds in tried],
    # their boards: a Howell has a set for each round that it can have, a web one for each that it has
    (worded(HOWELL_OF, 8, 1, per_set=2), "MissingBoard(17)"),
    (worded(HOWELL_OF, 8, 1, per_set=9), "BadSets"),
    (worded(HOWELL_OF, 5, 3, per_set=2), "MissingBoard(17)"),
    (worded(HOWELL_OF, 4, 3, per_set=2), None),
    (worded(SHARE, 16, 1, per_set=8), "MissingBoard(17)"),
    (worded(SHARE, 8, 8, per_set=2), None),
    (worded(WEB_OF, 16, 5, per_set=3), None),
    (worded(WEB_OF, 16, 7, per_set=3), "MissingBoard(17)"),
    (worded(WEB_OF, 16, 15, per_set=9), "BadSets"),
    # a pair that is absent is one that begins at a table
    *[(worded(word, 6, 5, absent=pair), None) for word in ALL_WORDS for pair in ("NS6", "EW1")],
    *[(worded(word, 6, 5, absent=pair), "BadPair") for word in ALL_WORDS for pair in ("NS7", "EW16", "EW17")],
    (worded(HOWELL_OF, 6, 12, absent="NS7"), "BadRounds"),
    # and so is one in which somebody sits
    (worded(HOWELL_OF, 6, 5, **joined_by(N6, E6)), None),
    (worded(HOWELL_OF, 6, 5, **joined_by(N7)), "NoSuchPair"),
    (worded(WEB_OF, 6, 5, absent="EW6", **joined_by(E6)), "NoSuchPair"),
    (worded(WEB_OF, 6, 5, edition=2), None),
]


def write_words():
    written("session objects, words for movements", [({**ALONE, **members}, fault) for members, fault in WORDS])


if __name__ == "__main__":
    write_words()
    write_lists()

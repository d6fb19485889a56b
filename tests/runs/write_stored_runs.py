#!/usr/bin/env python3
"""Writes the parts `messages` and `limits` of the stored runs of crates/bridge_server_stored_runs.

    python3 tests/runs/write_stored_runs.py

Each gets what is given, in stdin, and what must be written, in stdout. It gives the same files each time. The answers are
worked out here, by the rules that docs/POLICY.md and docs/PROTOCOL.md state, and not by the program.
"""
import json

from stored_runs import put

DIGEST = "ba7816bf8f01cfea414140de5dae2223b00361a396177a9cb410ff61f20015ad"  # SHA-256 of abc (FIPS 180-2)
SUITS, RANKS = "SHDC", "AKQJT98765432"
# Each player has a whole suit: spades, hearts, diamonds, clubs, from the player who is named first.
WHOLE_SUITS = "AKQJT98765432... .AKQJT98765432.. ..AKQJT98765432. ...AKQJT98765432"


def text_of(value):
    return json.dumps(value, ensure_ascii=False, separators=(",", ":"), sort_keys=True)


def game(board, first):
    return f'[Board "{board}"]\n[Deal "{first}:{WHOLE_SUITS}"]\n\n'


def user(name, role, pair=None, place=None):
    seat = {"pair": pair, "place": place} if pair else {}
    return {"digest": DIGEST, "name": name, "roles": [role], **seat}


BOARDS = game(1, "N") + game(2, "E") + game(3, "S")
USERS = [user("a", "Administrator"), user("d", "Director"), user("d2", "Director"), user("k", "Scorer"), user("s", "Spectator"),
         user("n1", "Contestant", "NS1", "N"), user("n2", "Contestant", "NS2", "N")]
SESSION = text_of({"budget": 0, "pbn": BOARDS, "per_set": 1, "rounds": 3, "tables": 3, "users": USERS})
# the same in the second edition, with a commentator
SECOND_USERS = [*USERS, user("c", "Commentator")]
SECOND_SESSION = text_of({"budget": 0, "edition": 2, "pbn": BOARDS, "per_set": 1, "rounds": 3, "tables": 3, "users": SECOND_USERS})


class Script:
    """The lines of a script and of its answers, and the version that the answers have."""

    def __init__(self, session):
        self.given, self.wanted, self.version = [session + "\n"], [], 0

    def line(self, text, end="\n"):
        self.given.append(text + end)

    def answer(self, value):
        self.wanted.append(text_of(value) + "\n")

    def error(self, message, name, end="\n"):
        self.line(message, end)
        self.answer({"error": name})

    def query(self, message, **reply):
        self.line(message)
        self.answer({**reply, "version": self.version})

    def denied(self, message, rule, why, board=0, table=0):
        self.query(message, denied={"board": board, "rule": rule, "table": table, "why": why})

    def batch(self, message, *answers):
        accepted = answers.count("ok")
        first, self.version = self.version + 1, self.version + accepted
        first, last = (first, self.version) if accepted else (0, 0)
        self.line(message)
        self.answer({"answers": list(answers), "first": first, "last": last, "version": self.version})

    def write(self, part):
        put(part, "".join(self.given), "".join(self.wanted))


def do(actor, *commands):
    return text_of({"as": actor, "do": list(commands)})


def enter(table, board, result, play=None):
    more = {} if play is None else {"play": play}
    return {"board": board, "cmd": "Enter", "result": result, "table": table, **more}


def confirm(table, board, result):
    return {"board": board, "cmd": "Confirm", "result": result, "table": table}


def contract(by, level, strain, doubled, tricks):
    return {"by": by, "doubled": doubled, "level": level, "strain": strain, "tricks": tricks}


FOUR_SPADES = contract("N", 4, "S", 0, 10)
STRANGER = '{"as":"zz","ask":"board","board":1}'
NO_ACCOUNT, NEITHER = "no such account", "neither a contestant nor a spectator"
STILL_TO_PLAY, INCOMPLETE = "your pair has still to play this board", "the board isn't complete"

# Texts that are no JSON object.
MALFORMED = [
    " ", "\t", "[]", '"x"', "null", "5", '{"ask":"bo', '{"ask":', '"x"}',
    '{"as":"zz","ask":"board","board":1',
    '{"as":"n1","ask":"board","board":01}', '{"as":"n1","ask":"board","board":+1}', '{"as":"n1","ask":"board","board":.5}',
    '{"as":"n1","ask":"board","board":1.}', '{"as":"n1","ask":"board","board":1e400}', '{"as":"n1","ask":"board","board":1}}',
    '{"ask":"x"}\r{}',
]
# Objects that ask for nothing, for several things, or for something that there isn't. This goes before a bad member.
UNKNOWN_REQUEST = [
    "{}", '{"ask":"x"}', '{"ask":"weather"}', '{"as":"zz","ask":"weather"}', '{"as":"n1","board":1}',
    '{"as":"n1","ask":"board","board":1,"do":[]}', '{"as":"n1","ask":"board","audit":{},"board":1}',
    '{"as":"n1","hello":"n1","token":"abc"}', '{"as":"zz","hello":"zz","token":"abc"}',
    '{"as":"n1","audit":{"from":1,"limit":1},"do":[]}',
    '{"as":"n1","ask":"Board","board":1}', '{"as":"n1","ask":"Traveller","board":1}',
    '{"as":"n1","ask":"travellers","board":1}', '{"as":"n1","ask":"","board":1}',
    '{"as":"n1","ask":"traveller","board":1,"do":[]}', '{"as":"n1","ask":"Traveller","board":256}',
    '{"as":"n1","ask":"Status"}', '{"as":"n1","ask":"cost","board":1,"table":1}', '{"as":"n1","ask":"hands","board":1}',
    '{"as":"n1","ask":"rankings"}', '{"as":"n1","ask":"account"}', '{"as":"n1","ask":"list ","filter":5}',
    '{"as":"n1","ask":"list","do":[],"filter":{"vul":"none"}}', '{"as":"a","ask":"audit"}',
    '{"as":"k","do":[5,{"board":1,"cmd":"Enter"},{"cmd":"Shuffle"}]}', '{"as":"k","do":[{"cmd":"Shuffle"}]}',
    '{"do":[{"cmd":"enter"}]}',
]
# Members that are missing, too many, or not what they should be.
BAD_FIELD = [
    '{"as":"n1","ask":"board","board":"1"}', '{"as":"n1","ask":"board","board":256}', '{"as":"n1","ask":"board","board":-1}',
    '{"as":"n1","ask":"board","board":-0}', '{"as":"n1","ask":"board","board":1.0}', '{"as":"n1","ask":"board","board":1e3}',
    '{"as":"n1","ask":"board","board":null}', '{"as":"n1","ask":"board"}',
    '{"as":"n1","ask":"board","board":1,"since":18446744073709551616}', '{"as":"n1","ask":"board","board":1,"since":"0"}',
    '{"as":"n1","ask":"board","board":1,"table":1}', '{"ask":"board","board":1}', '{"as":5,"ask":"board","board":1}',
    '{"as":"abcdefghijklmnopqrstuvwxyz0123456","ask":"board","board":1}', '{"ask":5,"as":"n1","board":1}',
    '{"as":"n1","ask":"board","board":1,"board":256}', '{"as":"n1","ask":"traveller","board":256}',
    '{"as":"n1","ask":"traveller","board":"1"}', '{"as":"n1","ask":"traveller"}',
    '{"as":"n1","ask":"traveller","board":1,"since":-1}', '{"as":"n1","ask":"traveller","board":1,"table":1}',
    '{"ask":"traveller","board":1}', '{"as":"n1","ask":"status","board":1}', '{"as":"n1","ask":"status","since":1.0}', '{"ask":"status"}',
    '{"as":"n1","ask":"ranking","limit":1}', '{"as":"a","ask":"accounts","name":"a"}', '{"as":"n1","ask":"analysis"}',
    '{"as":"n1","ask":"analysis","board":1,"table":1}', '{"as":"n1","ask":"analysis","board":256}', '{"as":"n1","ask":"play","board":1}',
    '{"as":"n1","ask":"play","table":1}', '{"as":"n1","ask":"play","board":1,"table":256}', '{"as":"n1","ask":"costs","board":256,"table":1}',
    '{"as":"n1","ask":"costs","board":1,"table":"1"}', '{"as":"n1","ask":"reason","board":1,"reason":7,"table":1}',
    '{"as":"n1","ask":"reason","board":null,"table":1}', '{"ask":"reason","board":1,"table":1}', '{"ask":"list"}',
    '{"do":[]}', '{"as":"k","do":{}}', '{"as":"k","do":[],"since":0}', '{"as":"k","do":[5]}',
    '{"as":"k","do":[{"board":1}]}', '{"as":"k","do":[{"cmd":5}]}', '{"as":"k","do":[{"board":1,"cmd":"Enter","table":1}]}',
    '{"as":"k","do":[{"board":1,"cmd":"Confirm","result":"pass","play":[],"table":1}]}',
    '{"as":"k","do":[{"board":1,"cmd":"Enter","result":"pass","play":["S1"],"table":1}]}',
    '{"as":"k","do":[{"board":1,"cmd":"Enter","result":"pass","play":["AS"],"table":1}]}',
]
# Results that are none.
NO_RESULT = [
    '"passed"', "null", '{"by":"N","doubled":3,"level":4,"strain":"S","tricks":10}',
    '{"by":"N","doubled":0,"level":0,"strain":"S","tricks":10}', '{"by":"N","doubled":0,"level":8,"strain":"S","tricks":10}',
    '{"by":"N","doubled":0,"level":4,"strain":"S","tricks":14}', '{"by":"n","doubled":0,"level":4,"strain":"S","tricks":10}',
    '{"by":"N","doubled":0,"level":4,"strain":"NT","tricks":10}',
    '{"by":"N","doubled":0,"level":4,"made":true,"strain":"S","tricks":10}',
]


def write_messages():
    script = Script(SESSION)
    # what is no request is named, and the script goes on
    for messages, name in ((MALFORMED, "Malformed"), (UNKNOWN_REQUEST, "UnknownRequest"), (BAD_FIELD, "BadField")):
        for message in messages:
            script.error(message, name)
        script.denied(STRANGER, 1, NO_ACCOUNT)
    for result in NO_RESULT:
        script.error('{"as":"k","do":[{"board":1,"cmd":"Enter","result":%s,"table":1}]}' % result, "BadField")
    script.denied(STRANGER, 1, NO_ACCOUNT)
    # how lines end: an empty line is no message, and of several CRs the last alone belongs to the line's end
    for blank in ("", "\r"):
        script.line(blank)
    script.error('{"ask":"x"}', "UnknownRequest", "\r\n")
    script.error("\r", "Malformed", "\r\n")
    script.error("\t", "Malformed", "\r\n")
    # the boards with their marks (Law 2), to directors and to an administrator
    deals = {1: f"N:{WHOLE_SUITS}", 2: "N:...AKQJT98765432 AKQJT98765432... .AKQJT98765432.. ..AKQJT98765432.",
             3: "N:..AKQJT98765432. ...AKQJT98765432 AKQJT98765432... .AKQJT98765432.."}
    for name, board, dealer, vulnerable in (("d", 1, "N", "none"), ("d2", 2, "E", "ns"), ("d", 3, "S", "ew")):
        script.query(text_of({"as": name, "ask": "board", "board": board}),
                     board={"deal": deals[board], "dealer": dealer, "number": board, "vul": vulnerable})
    script.denied('{"as":"a","ask":"board","board":3}', 7, NEITHER, 3)
    # members come in any order, the last of a name counts, and blanks and escapes are as in any JSON
    for message in ('{"board":255,"ask":"board","as":"n1","since":18446744073709551615}', '{"as":"n1","ask":"board","board":0,"since":7}',
                    '{"as":"n1","ask":"traveller","board":255,"since":7}',
                    '{"as":"n1","ask":"board","ask":"traveller","board":0,"since":18446744073709551615}'):
        script.query(message, error="NoSuchBoard")
    for message in (' {"as":"zz","as":"n1","ask":5,"ask":"board","board":256,"board":3} ', '{"as":"n1","ask":"traveller","board":3}'):
        script.denied(message, 5, STILL_TO_PLAY, 3, 1)
    script.denied(r'{"\u0061s":"n\u0031","ask":"board","board":1}', 5, STILL_TO_PLAY, 1, 1)
    script.denied('{"as":"n1","ask":"traveller","board":1}', 5, STILL_TO_PLAY, 1, 1)
    for name in ('"Zoë"', r'"Zo\u00eb"', '"♠♥♦♣♠♥♦♣♠♥"', r'"\ud83c\udca1"'):
        script.denied('{"as":%s,"ask":"board","board":1}' % name, 1, NO_ACCOUNT)
    # why a result is refused, and a batch with no command
    script.batch(do("k"))
    for actor, command, answer in (
        ("n1", enter(1, 1, FOUR_SPADES), "NotPermitted"), ("zz", enter(1, 1, FOUR_SPADES), "NotPermitted"),
        ("n1", enter(2, 2, "pass"), "NotPermitted"), ("k", enter(4, 1, FOUR_SPADES), "NoSuchCell"),
        ("k", enter(1, 2, FOUR_SPADES), "RoundNotStarted"), ("k", confirm(1, 2, FOUR_SPADES), "RoundNotStarted"),
        ("k", enter(1, 1, FOUR_SPADES, ["SA", "SA"]), "BadResult"), ("d", enter(1, 1, "pass", ["SA"]), "BadResult"),
        ("k", confirm(2, 2, FOUR_SPADES), "NothingEntered"), ("k", confirm(2, 2, "pass"), "NothingEntered"),
    ):
        script.batch(do(actor, command), answer)
    # a traveller shows what is confirmed; on board 3 North-South aren't vulnerable, and thirteen tricks short, redoubled, are
    # 200 + 2 * 400 + 10 * 600 = 7,000 to East-West (Law 77)
    grand_slam = contract("S", 7, "N", 2, 0)
    script.query('{"as":"d","ask":"traveller","board":3}', traveller={"board": 3, "rows": []})
    script.batch(do("k", enter(2, 2, "pass"), confirm(2, 2, "pass")), "ok", "ok")
    script.batch(do("k", enter(3, 3, grand_slam)), "ok")
    script.query('{"as":"d","ask":"traveller","board":3}', traveller={"board": 3, "rows": []})
    script.batch(do("k", confirm(3, 3, grand_slam)), "ok")
    row = {"ew": "EW3", "ns": "NS3", "points": 0, "result": grand_slam, "score": -7000, "table": 3}
    script.query('{"as":"d","ask":"traveller","board":3,"since":4}', traveller={"board": 3, "rows": [row]})
    row = {"ew": "EW2", "ns": "NS2", "points": 0, "result": "pass", "score": 0, "table": 2}
    script.query('{"as":"n2","ask":"traveller","board":2}', traveller={"board": 2, "rows": [row]})
    script.denied('{"as":"n1","ask":"traveller","board":2}', 5, STILL_TO_PLAY, 2, 1)
    script.denied('{"as":"s","ask":"traveller","board":2}', 8, INCOMPLETE, 2, 1)
    script.denied('{"as":"k","ask":"traveller","board":2}', 7, NEITHER, 2)
    script.query('{"as":"zz","ask":"traveller","board":2,"since":5}', error="Behind")
    script.query('{"as":"zz","ask":"traveller","board":4,"since":5}', error="NoSuchBoard")
    # only what is entered is confirmed, and once
    script.batch(do("k", enter(1, 1, FOUR_SPADES)), "ok")
    script.batch(do("k", confirm(1, 1, contract("N", 4, "S", 0, 9))), "Mismatch")
    script.batch(do("k", confirm(1, 1, FOUR_SPADES)), "ok")
    script.batch(do("k", confirm(1, 1, FOUR_SPADES)), "AlreadyLive")
    # in the second round table 1 has board 2, and table 2 board 3: each command of a batch is tried
    script.batch(do("d", {"cmd": "NextRound"}), "ok")
    script.batch(do("k", enter(1, 2, "pass"), enter(4, 1, "pass"), confirm(1, 2, "pass")), "ok", "NoSuchCell", "ok")
    script.batch(do("k", enter(2, 3, grand_slam, ["SA", "SA"]), enter(2, 3, grand_slam, ["SA", "HT"])), "BadResult", "ok")
    # a last line that no LF ends: a CR is a byte of the line, and a blank between values
    script.error('{"ask":"x"}', "UnknownRequest", "\r")
    script.write("messages")


def largest(more):
    """A session object of 16 tables and 64 boards: an administrator, a director, and so many spectators."""
    users = [user("a", "Administrator"), user("d", "Director"), *(user(f"u{number}", "Spectator") for number in range(more))]
    pbn = "".join(game(board, "N") for board in range(1, 65))
    return text_of({"budget": 0, "pbn": pbn, "per_set": 4, "rounds": 15, "tables": 16, "users": users})


def write_limits():
    script = Script(largest(254))
    # the last board, to the director and to the last user: table 2 is the first that plays the last set (in round 15)
    script.query('{"as":"d","ask":"board","board":64}',
                 board={"deal": f"N:{WHOLE_SUITS}", "dealer": "W", "number": 64, "vul": "ew"})
    script.denied('{"as":"u253","ask":"board","board":64}', 8, INCOMPLETE, 64, 2)
    script.denied('{"as":"u254","ask":"board","board":64}', 1, NO_ACCOUNT)
    script.query('{"as":"d","ask":"board","board":65}', error="NoSuchBoard")
    # there are 256 accounts; a name that is none, or is taken, is refused for that
    script.batch(do("a", *[{"cmd": "AddUser", "digest": DIGEST, "name": name} for name in ("a b", "u0", "v")]),
                 "BadName", "UserExists", "TooManyUsers")
    # a batch has up to 64 commands; table 1 comes to board 5 in the second round
    for count in (0, 1, 4, 63, 64):
        script.batch(do("d", *[enter(1, 5, "pass")] * count), *["RoundNotStarted"] * count)
    script.error(do("d", *[enter(1, 5, "pass")] * 65), "BadField")
    for count in (4, 64, 64, 64, 64, 64):
        script.batch(do("d", *[enter(1, 1, "pass")] * count), *["ok"] * count)
    # a line of 100,000 bytes is too long for a message, and one of 65,536 isn't, with 64 plays of the whole pack
    script.error("{}".ljust(100_000), "TooLong")
    pack = [suit + rank for suit in SUITS for rank in RANKS]
    message = do("d", *[enter(1, 1, FOUR_SPADES, pack)] * 64).ljust(65_536)
    assert len(message) == 65_536
    script.batch(message, *["ok"] * 64)
    # board 8 (nobody is vulnerable) is played at table 2, then at 1, 16 and 15, and each time the pair of East-West is one
    # from the table before: two spades by East, one trick short, is 50, doubled 100, redoubled 200 (Law 77)
    rows = []
    for table, pair, doubled, points, score in ((2, 2, 0, 2, 50), (1, 16, 1, 4, 100), (16, 14, 2, 6, 200), (15, 12, None, 0, 0)):
        result = "pass" if doubled is None else contract("E", 2, "S", doubled, 7)
        script.batch(do("d", enter(table, 8, result), confirm(table, 8, result), {"cmd": "NextRound"}), "ok", "ok", "ok")
        rows.append({"ew": f"EW{pair}", "ns": f"NS{table}", "points": points, "result": result, "score": score, "table": table})
    script.query('{"as":"d","ask":"traveller","board":8}',
                 traveller={"board": 8, "rows": sorted(rows, key=lambda row: row["table"])})
    script.error("\r", "Malformed", "")
    script.write("limits")


if __name__ == "__main__":
    write_messages()
    write_limits()

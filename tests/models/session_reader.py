"""What a session object and the text of its boards are, by the tables of docs/SESSION.md: a session that opens, or the first refusal
that applies, as the program writes it, with the user whom it is about.

A plain reader beside the program's own, which knows the program by its documents alone. It reads JSON by Python's reader, and the boards
by tests/models/boards_reader.py.
"""
import json
import math
import pathlib
import re

from boards_reader import check_boards
from movements import (LEAST_TABLES, MOST_BOARDS, MOST_PER_SET, MOST_ROWS, MOST_SETS, MOST_TABLES, WORDS, first_misplaced, most_rounds,
                       movement_of)
from refused import Refused
from session_model import SEPARATED, opening_pairs, roles_of
from shown_texts import MOST_REASON, MOST_REASONS, MOST_SHOWN, MOST_TITLE, is_date, is_number, is_shown_text

ROOT = pathlib.Path(__file__).resolve().parents[2]
MOST_BYTES, MOST_VISITS, MOST_LEVELS, MOST_USERS = 1_048_576, 10**18, 127, 256
MEMBERS = ["budget", "per_set", "rounds", "tables", "users"]
MAY_BE_MISSING = ["absent", "date", "edition", "movement", "reasons", "shared_by", "switched", "title"]
# by which tables a movement with a word is played: the least and the most, and whether their number is even
TABLES_OF = {"mitchell": (LEAST_TABLES, MOST_TABLES, False), "howell": (LEAST_TABLES, 8, False), "share_and_relay": (4, MOST_TABLES, True),
             "web": (6, MOST_TABLES, True)}


# ---- the object

class Number(str):
    """A number as it is written: `1.0`, `-0` and `1e3` are no whole numbers."""


def finite(written):
    if math.isinf(float(written)):
        raise ValueError(f"{written[:20]} .. is larger than any number may be")
    return Number(written)


def no_constant(word):
    raise ValueError(f"{word} is no value of JSON")


def depth_of(text):
    deepest = depth = 0
    for mark in re.findall(r'[\[{]|[\]}]', re.sub(r'"(?:\\.|[^"\\])*"', "", text, flags=re.DOTALL)):
        depth += 1 if mark in "[{" else -1
        deepest = max(deepest, depth)
    return deepest


def texts_in(value):
    if isinstance(value, dict):
        yield from value
    for inner in value.values() if isinstance(value, dict) else value if isinstance(value, list) else ():
        yield from texts_in(inner)
    if isinstance(value, str):
        yield value


def object_of(line):
    if len(line) > MOST_BYTES:
        raise Refused("TooLong", f"the session object has {len(line):,} bytes, and may have {MOST_BYTES:,}")
    try:
        text = line.decode()
        if depth_of(text) > MOST_LEVELS:
            raise ValueError(f"values stand more than {MOST_LEVELS} levels deep")
        found = json.loads(text, parse_int=finite, parse_float=finite, parse_constant=no_constant)
        for inner in texts_in(found):
            inner.encode()
    except (ValueError, RecursionError) as fault:
        raise Refused("Malformed", f"this is no JSON object: {fault}") from None
    if not isinstance(found, dict):
        raise Refused("Malformed", "this is a JSON value, and no object")
    return found


# ---- members

# as JSON writes it, so that no sign of it is a terminal's
def quoted(value):
    return json.dumps(value, ensure_ascii=False)


def at_user(number, name):
    return f"user {number} ({quoted(name)})"


def bad(where, what, user=None):
    return Refused("BadField", f"{where}: {what}", user)


def check_names(found, wanted, where, user=None):
    for name in wanted:
        if name not in found:
            raise bad(where, f"the member `{name}` is missing", user)
    for name in found:
        if name not in wanted:
            raise bad(where, f"there is no member {quoted(name)}", user)


def is_whole(value, most, least=0):
    return isinstance(value, Number) and value.isdigit() and len(value) <= 20 and least <= int(value) <= most


def whole(found, name, most, least=0):
    if not is_whole(found[name], most, least):
        raise bad("the session object", f"`{name}` is a whole number from {least} to {most:,}, without quotes, point or sign")
    return int(found[name])


def is_text(value):
    return isinstance(value, str) and not isinstance(value, Number)


def is_pair(value):
    return is_text(value) and bool(re.fullmatch("(NS|EW)[1-9][0-9]{0,2}", value)) and int(value[2:]) <= 255


def is_shown(value, most):
    return is_text(value) and is_shown_text(value, most)


def check_user(found, number, edition):
    if not isinstance(found, dict):
        raise bad(f"user {number}", "a user is an object")
    user = found["name"] if is_text(found.get("name")) else None
    where = f"user {number}" if user is None else at_user(number, user)
    may_be_missing = [name for name in ("number", "shown") if name in found]
    check_names(found, ["digest", "name", "roles"] + (["pair", "place"] if "pair" in found else []) + may_be_missing, where, user)
    if user is None or len(user.encode()) > 32:
        raise bad(where, "`name` is a text of at most 32 bytes", user)
    if not is_text(found["digest"]) or not re.fullmatch("[0-9a-fA-F]{64}", found["digest"]):
        raise bad(where, "`digest` is 64 hexadecimal digits", user)
    if not isinstance(found["roles"], list):
        raise bad(where, "`roles` is a list", user)
    for role in found["roles"]:
        if not is_text(role) or role not in roles_of(edition):
            raise bad(where, f"{quoted(role)} is no role of edition {edition}", user)
    if "pair" in found:
        if not is_pair(found["pair"]):
            raise bad(where, "`pair` is NS or EW and a number from 1 to 255, as NS1", user)
        if not is_text(found["place"]) or found["place"] not in ("N", "E", "S", "W"):
            raise bad(where, "`place` is N, E, S or W", user)
    if "shown" in found and not is_shown(found["shown"], MOST_SHOWN):
        raise bad(where, f"`shown` is a text to show of at most {MOST_SHOWN} bytes", user)
    if "number" in found and not (is_text(found["number"]) and is_number(found["number"])):
        raise bad(where, "`number` is 1 to 16 letters and digits", user)


def edition_of(found):
    return int(found.get("edition", 1))


def is_row(row):
    return isinstance(row, list) and len(row) == 5 and all(is_whole(number, 255) for number in row[:3]) and all(map(is_pair, row[3:]))


def check_movement_members(found):
    """A word or a list of rows, and what may stand beside either."""
    movement = found.get("movement")
    if is_text(movement) and movement not in WORDS:
        raise bad("the session object", f"there is no movement {quoted(movement)}; those with a word are {', '.join(WORDS)}")
    if isinstance(movement, list):
        if not 1 <= len(movement) <= MOST_ROWS:
            raise bad("the session object", f"`movement` has {len(movement)} rows, and may have 1 to {MOST_ROWS}")
        for number, row in enumerate(movement, 1):
            if not is_row(row):
                raise bad("the session object", f"row {number} of `movement` is no list of a round, a table, a set and two pairs")
    elif "movement" in found and not is_text(movement):
        raise bad("the session object", "`movement` is a word or a list of rows")
    if "shared_by" in found:
        if not isinstance(movement, list):
            raise bad("the session object", "`shared_by` stands beside a list of rows alone")
        whole(found, "shared_by", MOST_TABLES, 1)
    if "switched" in found:
        if not is_text(movement) or movement == "howell":
            raise bad("the session object", "`switched` stands beside a word alone, which isn't howell")
        whole(found, "switched", int(found["rounds"]))


def check_notices(found):
    """The session's title, its date, and what the numbers of reasons mean."""
    if "title" in found and not is_shown(found["title"], MOST_TITLE):
        raise bad("the session object", f"`title` is a text to show of at most {MOST_TITLE} bytes")
    if "date" in found and not (is_text(found["date"]) and is_date(found["date"])):
        raise bad("the session object", "`date` is a year, a month and a day, as 2026-11-27")
    if "reasons" in found:
        reasons = found["reasons"]
        if not isinstance(reasons, list) or not 1 <= len(reasons) <= MOST_REASONS:
            raise bad("the session object", f"`reasons` is a list of 1 to {MOST_REASONS} texts")
        for number, reason in enumerate(reasons, 1):
            if not is_shown(reason, MOST_REASON):
                raise bad("the session object", f"text {number} of `reasons` is a text to show of at most {MOST_REASON} bytes")


def check_members(found, deals):
    may_be_missing = [name for name in MAY_BE_MISSING if name in found]
    check_names(found, MEMBERS + may_be_missing + (["pbn"] if deals is None else []), "the session object")
    if "absent" in found and not is_pair(found["absent"]):
        raise bad("the session object", "`absent` is a pair: NS or EW and a number from 1 to 255, as EW9")
    if "edition" in found and not (isinstance(found["edition"], Number) and found["edition"] in ("1", "2")):
        raise bad("the session object", "`edition` is 1 or 2, without quotes or point")
    whole(found, "budget", MOST_VISITS)
    if deals is None and not is_text(found["pbn"]):
        raise bad("the session object", "`pbn` is a text")
    numbers = [whole(found, name, 255) for name in ("tables", "rounds", "per_set")]
    check_movement_members(found)
    check_notices(found)
    if not isinstance(found["users"], list):
        raise bad("the session object", "`users` is a list")
    for number, user in enumerate(found["users"], 1):
        check_user(user, number, edition_of(found))
    return numbers


def plain(movement):
    """A list of rows with numbers in place of what is written."""
    return [(*map(int, row[:3]), *row[3:]) for row in movement] if isinstance(movement, list) else movement


def check_tables(tables, word):
    least, most, even = TABLES_OF[word]
    if not least <= tables <= most or (even and tables % 2):
        which = "an even number from " if even else ""
        raise Refused("BadTables", f"{tables} tables play, and may be {which}{least} to {most}")


def check_rounds(tables, rounds, word):
    most = 255 if word is None else most_rounds(tables, word)
    if not 1 <= rounds <= most or (word == "web" and rounds % 2 == 0):
        which = "an odd number from " if word == "web" else ""
        raise Refused("BadRounds", f"{rounds} rounds are played, and at {tables} tables may be {which}1 to {most}")


def check_sets(sets, per_set):
    if not 1 <= per_set <= MOST_PER_SET:
        raise Refused("BadSets", f"a table plays {per_set} boards in a round, and may play 1 to {MOST_PER_SET}")
    if not 1 <= sets <= MOST_SETS or sets * per_set > MOST_BOARDS:
        raise Refused("BadSets", f"there are {sets} sets of {per_set} boards, and may be 1 to {MOST_SETS} with at most {MOST_BOARDS} boards")


def check_movement(found, tables, rounds, per_set):
    """The movement of the object, if it can be played."""
    listed, absent = plain(found.get("movement")), found.get("absent")
    word = "mitchell" if listed is None else listed if is_text(listed) else None
    check_tables(tables, word or "mitchell")
    check_rounds(tables, rounds, word)
    movement = movement_of(tables, rounds, listed, int(found.get("switched", 0)))
    check_sets(movement.sets, per_set)
    if word is None and (misplaced := first_misplaced(movement.rows, rounds, tables, int(found.get("shared_by", 1)))):
        row = list(movement.rows[int(misplaced.partition("(")[2][:-1]) - 1])
        raise Refused(misplaced, f"the first row that can't stand after those before it is {json.dumps(row, separators=(',', ':'))}")
    if absent is not None and absent not in movement.pairs:
        raise Refused("BadPair", f"{absent} is absent, and the pairs are {', '.join(movement.pairs)}")
    return movement


# ---- the users, one after another

def authorized(roles, edition):
    found = set(roles)
    while more := {junior for senior, junior in opening_pairs(edition) if senior in found} - found:
        found |= more
    return found


def check_account(user, number, before, edition):
    name, where = user["name"], at_user(number, user["name"])
    if not re.fullmatch("[A-Za-z0-9_-]{1,32}", name):
        raise Refused("BadName", f"{where}: a name is 1 to 32 letters, digits, `-` and `_`", name)
    for other, earlier in enumerate(before, 1):
        if earlier["name"] == name:
            raise Refused("UserExists", f"{where} has the name of user {other}", name)
    if len(before) >= MOST_USERS:
        raise Refused("TooManyUsers", f"{where} is one too many: there may be {MOST_USERS}", name)
    for role in user["roles"]:
        if user["roles"].count(role) > 1:
            raise Refused("AlreadyAssigned", f"{where} has the role {role} twice", name)
    for separation, role in SEPARATED.items():
        if authorized(user["roles"], edition) >= {role, "Contestant"}:
            assigned = ", ".join(user["roles"])
            raise Refused(f"Separation({separation})", f"{where} is authorized for {role} and Contestant, by: {assigned}", name)


def check_seat(user, number, before, found, pairs):
    name, where, pair, place = user["name"], at_user(number, user["name"]), user["pair"], user["place"]
    if pair not in pairs:
        raise Refused("NoSuchPair", f"{where}: the movement has no pair {pair}", name)
    if pair == found.get("absent"):
        raise Refused("NoSuchPair", f"{where}: the pair {pair} is absent", name)
    if place not in pair[:2]:
        raise Refused("WrongDirection", f"{where} sits {place} in {pair}", name)
    if "Contestant" not in authorized(user["roles"], edition_of(found)):
        raise Refused("NotContestant", f"{where} has a seat and isn't a contestant", name)
    for other, earlier in enumerate(before, 1):
        if (earlier.get("pair"), earlier.get("place")) == (pair, place):
            raise Refused("SeatTaken", f"{where} has the seat of {at_user(other, earlier['name'])}: {place} in {pair}", name)


def check_users(found, pairs):
    users, edition = found["users"], edition_of(found)
    for place, user in enumerate(users):
        check_account(user, place + 1, users[:place], edition)
        if "pair" in user:
            check_seat(user, place + 1, users[:place], found, pairs)
    if not any("Administrator" in authorized(user["roles"], edition) for user in users):
        raise Refused("LastAdministrator", "no user is authorized for Administrator")


def check_session(line, deals=None):
    """Looks at a session object, and the text of its boards where they are given beside it; the first refusal is raised."""
    found = object_of(line)
    tables, rounds, per_set = check_members(found, deals)
    movement = check_movement(found, tables, rounds, per_set)
    boards = movement.sets * per_set
    check_boards(found["pbn"].encode() if deals is None else deals, boards)
    check_users(found, movement.pairs)
    return f"opens: {tables} tables, {rounds} rounds, boards 1 to {boards}, {len(found['users'])} users"

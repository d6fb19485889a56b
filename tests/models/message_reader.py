"""What a line of a script is, by the tables of docs/PROTOCOL.md: a message, or the first fault that applies, in either edition.

A plain reader beside the program's own. It reads JSON by Python's reader, as tests/models/session_reader.py does. Which members a command or a
query has is read from the page itself (tests/models/protocol_tables.py); what is a value of each stands here.
"""
import json
import re

from protocol_tables import COMMANDS, QUERIES, of_edition, stop
from session_reader import MOST_LEVELS, Number, depth_of, finite, no_constant, texts_in
from session_model import roles_of
from shown_texts import MOST_SHOWN, is_shown_text

MOST_BYTES, MOST_COMMANDS, MOST_CARDS = 65_536, 64, 52
MOST_DEPTH, MOST_ATOMS, MOST_MEMBERS = 8, 32, 32
BYTE, WORD = 255, 2**64 - 1
PLACES, STRAINS, VULNERABLE = "NESW", "SHDCN", ("none", "ns", "ew", "both")
CARDS = [suit + rank for suit in "SHDC" for rank in "AKQJT98765432"]
CELL = {"board": None, "table": None}


class Fault(Exception):
    """A message that is none, by the name of its fault."""


def need(holds):
    if not holds:
        raise Fault("BadField")


def is_text(value):
    return isinstance(value, str) and not isinstance(value, Number)


def number(value, least, most, signed=False):
    need(isinstance(value, Number) and re.fullmatch("-?[0-9]+" if signed else "[0-9]+", value) and not re.fullmatch("-0+", value))
    need(len(value) < 25 and least <= int(value) <= most)
    return int(value)


def text(value, *words):
    need(is_text(value) and (not words or value in words))
    return value


def name(value):
    need(len(text(value).encode()) <= 32)
    return value


def listed(value, most, least=0):
    need(isinstance(value, list) and least <= len(value) <= most)
    return value


def members(found, needed, free=()):
    """An object has these members, may have those, and has no other."""
    need(isinstance(found, dict) and set(needed) <= set(found) <= {*needed, *free})
    return found


def one(value, words):
    """A text of a word, or of a sign of a text, that is listed."""
    return text(value, *words)


def result(value):
    if is_text(value):
        return one(value, ["pass"])
    members(value, ["by", "doubled", "level", "strain", "tricks"])
    return {"by": one(value["by"], PLACES), "doubled": number(value["doubled"], 0, 2), "level": number(value["level"], 1, 7),
            "strain": one(value["strain"], STRAINS), "tricks": number(value["tricks"], 0, 13)}


def pair(value):
    need(re.fullmatch("(NS|EW)[1-9][0-9]{0,2}", text(value)) and int(value[2:]) <= BYTE)
    return value


def digest(value):
    need(re.fullmatch("[0-9a-fA-F]{64}", text(value)))
    return value


def shown(value):
    """A name to show, or the empty text, which takes it away."""
    need(text(value) == "" or is_shown_text(value, MOST_SHOWN))
    return value


def byte(value):
    return number(value, 0, BYTE)


READ = {
    "board": byte, "table": byte, "ns": byte, "ew": byte, "reason": byte, "result": result, "name": name, "pair": pair, "digest": digest,
    "shown": shown,
    "play": lambda value: [one(card, CARDS) for card in listed(value, MOST_CARDS)], "place": lambda value: one(value, PLACES),
}
ROLE_MEMBERS = ("role", "senior", "junior")


def check_members():
    """Each member of a command is read."""
    for word, asked in COMMANDS.items():
        for unread in {*asked.members, *asked.may_be_missing} - READ.keys() - {*ROLE_MEMBERS}:
            stop(asked.line, f"{word}: nothing in tests/models/message_reader.py reads a member {unread}")


check_members()


def member(word, value, edition):
    return one(value, roles_of(edition)) if word in ROLE_MEMBERS else READ[word](value)


def command(found, edition):
    need(isinstance(found, dict) and "cmd" in found and is_text(found["cmd"]))
    asked = of_edition(COMMANDS, edition)[found["cmd"]]
    members(found, ["cmd", *asked.members], asked.may_be_missing)
    read = {"cmd": found["cmd"], **{word: member(word, value, edition) for word, value in found.items() if word != "cmd"}}
    if read.get("play") == []:
        del read["play"]
    return read


def spread(value, least, most):
    members(value, ["min", "max"])
    return {word: number(value[word], least, most, least < 0) for word in ("max", "min")}


def filter_of(value, depth, atoms):
    """A filter, which may be so many levels deep; its atoms are counted in a list."""
    need(depth > 0 and isinstance(value, dict) and len(value) == 1)
    (word, inner), = value.items()
    if word in ("and", "or"):
        return {word: [filter_of(one_of, depth - 1, atoms) for one_of in listed(inner, MOST_MEMBERS, 1)]}
    if word == "not":
        return {word: filter_of(inner, depth - 1, atoms)}
    atoms.append(word)
    need(len(atoms) <= MOST_ATOMS)
    if word == "dd":
        members(inner, ["by", "strain", "min", "max"])
        return {word: {"by": one(inner["by"], PLACES), "strain": one(inner["strain"], STRAINS), **spread({key: inner[key] for key in ("min", "max")}, 0, 13)}}
    if word == "made":
        need(isinstance(inner, bool))
        return {word: inner}
    read = {"vul": lambda: one(inner, VULNERABLE), "dealer": lambda: one(inner, PLACES), "strain": lambda: one(inner, STRAINS),
            "doubled": lambda: number(inner, 0, 2), "level": lambda: spread(inner, 0, 13), "score": lambda: spread(inner, -10_000, 10_000)}
    need(word in read)
    return {word: read[word]()}


def query(found, edition):
    word = found["ask"]
    asked = of_edition(QUERIES, edition)[word]
    members(found, ["as", "ask", *asked.members], ["since", *asked.may_be_missing])
    read = {"ask": word, **{cell: byte(found[cell]) for cell in asked.members}}
    if "since" in found:
        read["since"] = number(found["since"], 0, WORD)
    if "filter" in found:
        read["filter"] = filter_of(found["filter"], MOST_DEPTH, [])
    if "from" in found:
        read["from"] = byte(found["from"])
    if "limit" in found:
        read["limit"] = number(found["limit"], 1, 64)
    return read


def object_of(line):
    """The object that a line is."""
    try:
        written = line.decode()
        if depth_of(written) > MOST_LEVELS:
            raise Fault("Malformed")
        found = json.loads(written, parse_int=finite, parse_float=finite, parse_constant=no_constant)
        for inner in texts_in(found):
            inner.encode()
    except (ValueError, RecursionError):
        raise Fault("Malformed") from None
    if not isinstance(found, dict):
        raise Fault("Malformed")
    return found


def read_line(line, edition=1):
    """In whose name a line is sent, and what it asks; a fault is raised."""
    if len(line) > MOST_BYTES:
        raise Fault("TooLong")
    found = object_of(line)
    kinds = [word for word in ("ask", "do", "audit", "hello") if word in found]
    if len(kinds) != 1 or kinds == ["hello"]:
        raise Fault("UnknownRequest")
    if kinds == ["ask"] and is_text(found["ask"]) and found["ask"] not in of_edition(QUERIES, edition):
        raise Fault("UnknownRequest")
    if kinds == ["do"] and isinstance(found["do"], list):
        words = [inner["cmd"] for inner in found["do"] if isinstance(inner, dict) and "cmd" in inner]
        if any(is_text(word) and word not in of_edition(COMMANDS, edition) for word in words):
            raise Fault("UnknownRequest")
    need("as" in found)
    actor = name(found["as"])
    if kinds == ["ask"]:
        text(found["ask"])
        return actor, query(found, edition)
    members(found, ["as", *kinds])
    if kinds == ["do"]:
        return actor, {"do": [command(inner, edition) for inner in listed(found["do"], MOST_COMMANDS)]}
    members(found["audit"], ["from", "limit"])
    return actor, {"audit": {"from": number(found["audit"]["from"], 1, WORD), "limit": number(found["audit"]["limit"], 1, 1000)}}

#!/usr/bin/env python3
"""Compares the types in docs/PROTOCOL.md with the messages and answers of the stored runs.

    python3 tests/pages/protocol_types.py    # says how many were compared, and what doesn't fit; status 1 where anything doesn't

Each answer must have the type of an answer to its message, with no number above 2^53, and each message that was read the type
of a message. What was answered UnknownRequest must have no message's type, but for commands and queries of the second edition in a
session of the first; of BadField it is only counted how much fits, since types tell no ranges. Each fenced example on the page must be a
message of some run, but for its `as`, with its answer. The types of a command, of a query and of a refusal must say what the page's tables do
(tests/models/protocol_tables.py).

It knows the part of TypeScript that the page uses: aliases, literals, templates, unions, intersections, objects, lists, tuples
and the type of a member. An object may have no member that isn't listed.
"""
import itertools
import json
import pathlib
import re
import sys

sys.path[:0] = [str(pathlib.Path(__file__).resolve().parents[1] / folder) for folder in ("models", "runs")]
from protocol_tables import COMMANDS, QUERIES, REFUSALS
from stored_runs import read

PAGE = pathlib.Path(__file__).resolve().parents[2] / "docs" / "PROTOCOL.md"
TOKEN = re.compile(r'\s+|//[^\n]*|(?P<text>"[^"]*")|(?P<template>`[^`]*`)|(?P<number>[0-9]+)|(?P<name>[A-Za-z_]\w*)'
                   r'|(?P<mark>[{}()\[\]|&:;,?=])')
UNREAD = ("TooLong", "Malformed", "UnknownRequest", "BadField")
LARGEST = 2**53


class Parser:
    """Reads types; each is a pair of what it is and what it is made of."""

    def __init__(self, text):
        self.tokens, at = [], 0
        while at < len(text):
            found = TOKEN.match(text, at)
            assert found, f"no type's word: {text[at:at + 40]!r}"
            at = found.end()
            if found.lastgroup:
                self.tokens.append(found.group())
        self.tokens.append("")

    def peek(self, ahead=0):
        return self.tokens[min(ahead, len(self.tokens) - 1)]

    def take(self, wanted=None):
        token = self.tokens.pop(0)
        assert wanted in (None, token), f"{wanted} is wanted, and {token} stands there"
        return token

    def has(self, token):
        return self.peek() == token and bool(self.take())

    def aliases(self):
        found = {}
        while self.has("type"):
            name = self.take()
            assert name not in found, f"{name} is declared twice"
            self.take("=")
            found[name] = self.union()
        self.take("")
        return found

    def union(self):
        self.has("|")
        members = [self.intersection()]
        while self.has("|"):
            members.append(self.intersection())
        return members[0] if len(members) == 1 else ("union", members)

    def intersection(self):
        members = [self.postfix()]
        while self.has("&"):
            members.append(self.postfix())
        return members[0] if len(members) == 1 else ("both", members)

    def postfix(self):
        what = self.primary()
        while self.peek() == "[":
            self.take()
            what = ("list", what) if self.peek() == "]" else ("member", (what, json.loads(self.take())))
            self.take("]")
        return what

    def primary(self):
        token = self.take()
        if token == "(":
            what = self.union()
            self.take(")")
            return what
        if token == "{":
            return "object", self.members()
        if token == "[":
            return "tuple", self.items()
        if token[0] == "`":
            return "template", re.split(r"\$\{(.*?)\}", token[1:-1])
        if token[0] == '"' or token[0].isdigit():
            return "value", json.loads(token)
        if token in ("true", "false", "null"):
            return "value", json.loads(token)
        return "name", token

    def members(self):
        found = {}
        while not self.has("}"):
            name = self.take()
            optional = self.has("?")
            self.take(":")
            found[name] = optional, self.union()
            self.has(";")
        return found

    def items(self):
        found = []
        while not self.has("]"):
            if self.peek(1) == ":":
                self.take(), self.take()
            found.append(self.union())
            self.has(",")
        return found


class Types:
    def __init__(self, text):
        self.aliases = Parser(text).aliases()
        for name in re.findall(r"\$\{(\w+)\}", text) + [name for what in self.aliases.values() for name in self.names(what)]:
            assert name in self.aliases or name in ("string", "number", "boolean"), f"{name} isn't declared"

    def names(self, what):
        kind, of = what
        if kind == "name":
            return [of]
        parts = {"list": lambda: [of], "member": lambda: of[:1], "tuple": lambda: of, "union": lambda: of, "both": lambda: of,
                 "object": lambda: [each for _, each in of.values()]}.get(kind, list)()
        return [name for part in parts for name in self.names(part)]

    def shapes(self, what):
        """Each object that the type allows: its members, each with whether it may be missing."""
        kind, of = what
        if kind == "object":
            return [of]
        if kind == "union":
            return [shape for member in of for shape in self.shapes(member)]
        if kind == "both":
            return [{name: member for shape in shapes for name, member in shape.items()}
                    for shapes in itertools.product(*(self.shapes(member) for member in of))]
        return self.shapes(self.aliases[of]) if kind == "name" and of in self.aliases else []

    def pattern(self, parts):
        """The regular expression of a template's parts, every second of which is a type."""
        return "".join(self.words(part) if k % 2 else re.escape(part) for k, part in enumerate(parts))

    def words(self, text):
        return {"number": "(?:0|[1-9][0-9]*)", "string": ".*"}.get(text) or self.words_of(Parser(text).union())

    def words_of(self, what):
        kind, of = what
        if kind == "name":
            return self.words_of(self.aliases[of]) if of in self.aliases else self.words(of)
        assert kind in ("union", "value"), "a template holds texts and numbers"
        return "(?:" + "|".join(map(self.words_of, of)) + ")" if kind == "union" else re.escape(str(of))

    def fits(self, value, what):
        kind, of = what
        if kind == "name" and of not in self.aliases:
            return {"string": str, "number": int, "boolean": bool}[of] is type(value)
        if kind == "name":
            return self.fits(value, self.aliases[of])
        if kind == "value":
            return type(value) is type(of) and value == of
        if kind == "union":
            return any(self.fits(value, member) for member in of)
        if kind == "template":
            return isinstance(value, str) and re.fullmatch(self.pattern(of), value, re.DOTALL) is not None
        if kind == "list":
            return isinstance(value, list) and all(self.fits(item, of) for item in value)
        if kind == "tuple":
            return isinstance(value, list) and len(value) == len(of) and all(map(self.fits, value, of))
        if kind == "member":
            return any(self.fits(value, shape[of[1]][1]) for shape in self.shapes(of[0]))
        return isinstance(value, dict) and any(self.fits_shape(value, shape) for shape in self.shapes(what))

    def fits_shape(self, value, shape):
        return (all(name in value or optional for name, (optional, _) in shape.items())
                and all(name in shape and self.fits(each, shape[name][1]) for name, each in value.items()))

    def is_one(self, value, name):
        return self.fits(value, ("name", name))


def kind_of(part):
    return part.split(", ")[0]


def lines_of(part, text):
    """The messages of a part, as its answers stand."""
    lines = text.split("\n")[1:]
    last = lines.pop()
    if kind_of(part) in ("connections", "solver"):
        return lines
    if part == "full journal":
        return [line.split(" ", 1)[1] for line in lines]
    return [line for line in (line.removesuffix("\r") for line in lines) if line] + [last][:len(last)]


def edition_of(text):
    return json.loads(text.split("\n", 1)[0]).get("edition", 1)


def names_second(said):
    """Whether commands or a query are asked for that the second edition alone has."""
    commands = said.get("do")
    return is_second(QUERIES, said.get("ask")) or (
        isinstance(commands, list) and any(isinstance(one, dict) and is_second(COMMANDS, one.get("cmd")) for one in commands))


def is_second(things, word):
    return isinstance(word, str) and word in things and things[word].edition == 2


def values_of(what):
    """The texts that a type lists, of a template what stands before its bracket."""
    kind, of = what
    return [value for one in of for value in values_of(one)] if kind == "union" else [of[0].partition("(")[0] if kind == "template" else of]


def words_of_type(types, name, key, block):
    """What a type says of each word: its edition, its members, and those that may be missing."""
    found = {}
    for shape in types.shapes(("name", name)):
        for word in values_of(shape[key][1]):
            [line] = re.findall(rf'^.*\b{key}: [^;}}]*"{word}".*$', block, re.MULTILINE)
            free = {member for member, (optional, _) in shape.items() if optional} - {"since"}
            found[word] = 2 if "second edition" in line else 1, shape.keys() - free - {key, "since"}, free
    return found


def runs():
    """Each part's edition, and its messages with their answers, but for what is no message, and for answers that are only counted."""
    given, wanted = read("stdin"), read("stdout")
    for part in given:
        if kind_of(part) not in ("session objects", "both ways"):
            pairs = list(zip(lines_of(part, given[part]), wanted[part].split("\n")[:-1], strict=True))
            yield part, edition_of(given[part]), [pair for pair in pairs if pair[1].startswith("{")]


def is_exact(value):
    """Whether JavaScript reads each number exactly."""
    if isinstance(value, (dict, list)):
        return all(map(is_exact, value.values() if isinstance(value, dict) else value))
    return not isinstance(value, int) or value <= LARGEST


def is_answer(types, message, answer):
    """Whether this is an answer to a message that was read."""
    if types.is_one(answer, "Fault") and answer["error"] not in UNREAD:
        return True
    if "ask" in message:
        return types.is_one(answer, "QueryReply") and bool({message["ask"], "denied", "error"} & answer.keys())
    wanted = {"do": "Receipt", "audit": "AuditReply", "hello": "HelloReply"}
    return types.is_one(answer, wanted[min(message.keys() & wanted.keys())])


class Comparison:
    def __init__(self, types):
        self.types, self.passed, self.failed, self.out_of_range, self.unknown_to_first = types, 0, 0, 0, 0

    def check(self, holds, where, text):
        self.passed += bool(holds)
        self.failed += not holds
        if not holds:
            print(f"FAILED  {where}: {text[:200]}")

    def compare_tables(self, block):
        """What the types say of commands, queries and refusals, and what the page's tables say of them."""
        for name, key, things in (("Command", "cmd", COMMANDS), ("Query", "ask", QUERIES)):
            found = words_of_type(self.types, name, key, block)
            for word in {**things, **found}:
                told = word in things and (things[word].edition, {*things[word].members}, {*things[word].may_be_missing})
                self.check(found.get(word) == told, f"the type {name}, and the table of docs/PROTOCOL.md", f"{word}: {found.get(word)}, and {told}")
        differ = {*values_of(self.types.aliases["Refusal"])} ^ REFUSALS.keys()
        self.check(not differ, "the type Refusal, and the table of docs/PROTOCOL.md", " ".join(sorted(differ)))

    def compare(self, part, edition, message, answer):
        told = json.loads(answer)
        unread = told.get("error") if set(told) == {"error"} and told["error"] in UNREAD else None
        self.check(self.types.is_one(told, "Reply") and is_exact(told), f"{part}, an answer", answer)
        if unread in ("TooLong", "Malformed"):
            return
        said = json.loads(message)
        kind = "Message" if kind_of(part) == "connections" else "ScriptMessage"
        if unread == "BadField":
            self.out_of_range += self.types.is_one(said, kind)
        elif unread and edition == 1 and names_second(said):
            self.unknown_to_first += 1
        elif unread:
            self.check(not self.types.is_one(said, kind), f"{part}, a message that is unknown", message)
        else:
            self.check(self.types.is_one(said, kind), f"{part}, a message", message)
            self.check(is_answer(self.types, said, told), f"{part}, an answer to {message[:60]}", answer)


def without_user(message):
    """A message in one form, as it is on a connection."""
    try:
        said = json.loads(message)
    except ValueError:
        return message
    if not isinstance(said, dict):
        return message
    return json.dumps({name: each for name, each in said.items() if name != "as"}, sort_keys=True)


def main():
    sys.setrecursionlimit(10_000)                          # some filters nest as deep as JSON is read
    page = PAGE.read_text()
    [block] = re.findall(r"^```ts\n(.*?)^```$", page, re.DOTALL | re.MULTILINE)
    comparison, met = Comparison(Types(block)), set()
    comparison.compare_tables(block)
    for part, edition, pairs in runs():
        for message, answer in pairs:
            comparison.compare(part, edition, message, answer)
            met.add((without_user(message), answer))
    for frame in re.findall(r"^```json\n(.*?)^```$", page, re.DOTALL | re.MULTILINE):
        lines = frame.splitlines()
        for message, answer in zip(lines[::2], lines[1::2], strict=True):
            comparison.check((without_user(message), answer) in met, "no run has this example", message)
    print(f"{comparison.out_of_range} messages that are BadField fit the types: a number, a length or a depth is out of range, or a role "
          "is the second edition's")
    print(f"{comparison.unknown_to_first} messages that are UnknownRequest have commands or a query of the second edition")
    print(f"{comparison.passed} passed, {comparison.failed} failed")
    sys.exit(comparison.failed > 0)


main()

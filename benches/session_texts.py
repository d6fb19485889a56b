#!/usr/bin/env python3
# Writes the text of a session object that is hostile in one way, of about so many bytes: what it takes to refuse it, or to
# open it, should grow with its length alone. Give the kind and the number of bytes.
#
#     benches/session_texts.py users 500000
import json
import sys

kind = sys.argv[1]
size = int(sys.argv[2])
digest = "ba7816bf8f01cfea414140de5dae2223b00361a396177a9cb410ff61f20015ad"


def user(name, roles):
    return {"digest": digest, "name": name, "roles": roles}


def session(pbn="", users=()):
    return json.dumps({"budget": 0, "pbn": pbn, "per_set": 1, "rounds": 3, "tables": 3, "users": list(users)})


H = "AKQJT98765432... .AKQJT98765432.. ..AKQJT98765432. ...AKQJT98765432"
boards = "".join('[Board "%d"]\n[Deal "N:%s"]\n\n' % (n, H) for n in (1, 2, 3))


def filled(front, piece, back):
    return front + piece * max(0, (size - len(front) - len(back)) // len(piece)) + back


texts = {
    # more users than there may be, each by another name
    "users": lambda: session(boards, [user("u%d" % n, []) for n in range(max(1, size // 112))]),
    # one user with one role many times
    "roles": lambda: session(boards, [user("a", ["Member"] * max(1, size // 10))]),
    # more rows of a movement than there may be
    "rows": lambda: session(boards)[:-1] + ',"movement":' + json.dumps([[1, 1, 1, "NS1", "EW1"]] * max(1, size // 25)) + "}",
    # members that come again and again: the last one counts
    "twice": lambda: filled("{", '"budget":1,', session(boards)[1:]),
    # members of many names, from the first in the order of names to the last
    "names": lambda: "{" + ",".join('"n%06d":0' % n for n in range(max(1, size // 12))) + "}",
    # and from the last to the first
    "names_down": lambda: "{" + ",".join('"n%06d":0' % n for n in reversed(range(max(1, size // 12)))) + "}",
    "brackets": lambda: filled("", "[", ""),
    "braces": lambda: filled("", '{"a":', ""),
    "name": lambda: filled(session(boards, [user("a", [])])[:-30], "a", ""),
    "digits": lambda: filled('{"budget":', "1", "}"),
    "fraction": lambda: filled('{"budget":0.', "1", "}"),
    "text": lambda: filled(session()[:20], "x", '"}'),
    "escapes": lambda: filled(session()[:20], "\\u0041", '"}'),
    "blanks": lambda: filled(session(boards), " ", ""),
    "comment": lambda: session("{" * max(1, size - 300)),
}
sys.stdout.write(texts[kind]())

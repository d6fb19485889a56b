#!/usr/bin/env python3
"""Hands `bridge_server script` texts that are nearly right, and compares each answer with a plain reader and the plain model.

    /usr/bin/python3 tests/drivers/fuzz_texts.py crates/bridge_server/out/bridge_server
    /usr/bin/python3 tests/drivers/fuzz_texts.py PROGRAM SEED MESSAGES OBJECTS

Its sessions and messages are those of tests/drivers/random_session.py. All that is random comes from the seed, which is told. It has three parts:

- Messages (100,000 where nothing else is said): queries, batches and audits, of which most are changed in a member, a number, a byte
  or a blank. What no reader takes must be named by its first fault (tests/models/message_reader.py), and all else is answered byte for byte as
  by the model of tests/drivers/random_session.py.
- Session objects (2,000) and PBN texts (as many), changed likewise: the program opens each, or names the fault that
  tests/models/session_reader.py finds first.
- Each beginning of a PBN text that is accepted whole, likewise.

Each line is a check: 'ok', or 'FAILED' with what came. The status is 1 where one failed.
"""
import collections
import concurrent.futures
import json
import pathlib
import random
import subprocess
import sys

sys.path[:0] = [str(pathlib.Path(__file__).resolve().parents[1] / folder) for folder in ("models", "runs")]
from checks import check, status
from message_reader import Fault, read_line
from movements import mitchell
from random_session import BOARDS, SECOND_USERS, USERS, Sender, SolvedSession, deal_text, pbn_text, session_of, some_hands
from refused import refusal_of
from session_reader import check_session
from write_stored_runs import text_of

PROGRAM = sys.argv[1] if len(sys.argv) > 1 else "crates/bridge_server/out/bridge_server"
SEED, MESSAGES, OBJECTS = (int(word) for word in [*sys.argv[2:5], *(["2026", "100000", "2000"][len(sys.argv[2:5]):])])
SENDERS = ["d", "k", "a", "n1", "e2", "s", "m", "d2", "k2", "a2"]
# those who send in a session of the second edition, where half of the messages are
SECOND_SENDERS = [*SENDERS, "t", "t2"]
# What stands in place of a value; the texts between @ are written as they are, and no JSON writer would write some of them so.
VALUES = [0, 1, 2, 13, 14, 255, 256, 2**64 - 1, 2**64, -1, -10_000, -10_001, None, True, False, [], {}, "", "pass", "N", "NS1", "NS01",
          "NS256", "SA", "Embargo", "Commentator", "s" * 32, "s" * 33, "Zo\u00eb", "\u6c34" * 11, "a b", "\0", "board", "Director", [0], {"min": 0, "max": 13},
          "howell", [[1, 1, 1, "NS1", "EW1"]], "Anna Müller", " Anna", "Anna\u00a0", "An\u202ena", "An\u0085na", "\u200f", "x" * 64, "x" * 65, "\u6c34" * 34,
          "2026-11-27", "2026-13-27", ["late"], ["late", ""], [], "42", "4-2",
          "@-0@", "@1.0@", "@1e3@", "@1e400@", "@01@", "@+1@", "@.5@", "@1.@", "@0x1@", "@NaN@", "@-Infinity@", "@'x'@",
          '@"\\ud800"@', '@"\\u0061"@', '@"\t"@', "@" + "9" * 30 + "@", "@" + "9" * 400 + "@", "@" + "[" * 130 + "]" * 130 + "@"]
NAMES = ["as", "ask", "do", "audit", "hello", "token", "board", "table", "since", "filter", "from", "limit", "cmd", "name", "Board", "", "play", "edition", "absent", "role",
         "movement", "shared_by", "switched", "shown", "number", "title", "date", "reasons"]


# ---- changes

def places(value, at=()):
    """Where values stand in a value."""
    yield at
    inner = value.items() if isinstance(value, dict) else enumerate(value) if isinstance(value, list) else ()
    for key, one in inner:
        yield from places(one, (*at, key))


def changed(rng, value):
    """The value with a change in it: another value, a member more or fewer, or one of another name."""
    value = json.loads(json.dumps(value))
    at = rng.choice(list(places(value)))
    if not at:
        return rng.choice(VALUES) if rng.random() < 0.1 else more_or_fewer(rng, value)
    holder = value
    for key in at[:-1]:
        holder = holder[key]
    kind = rng.random()
    if kind < 0.5:
        holder[at[-1]] = rng.choice(VALUES)
    elif kind < 0.65:
        del holder[at[-1]]
    elif kind < 0.8 and isinstance(holder, dict):
        holder[rng.choice(NAMES)] = holder.pop(at[-1])
    else:
        holder[at[-1]] = more_or_fewer(rng, holder[at[-1]])
    return value


def more_or_fewer(rng, value):
    if isinstance(value, dict):
        return {**value, rng.choice(NAMES): rng.choice(VALUES)}
    if isinstance(value, list):
        return value * rng.choice([2, 3, 70]) if value and rng.random() < 0.5 else [*value, rng.choice(VALUES)]
    return [value] if rng.random() < 0.5 else {"not": value}


def written(rng, value):
    """The text of a value, with blanks and members in any order now and then, and what stands between @ as it is."""
    pretty = rng.random() < 0.1
    text = json.dumps(value, ensure_ascii=rng.random() < 0.5, sort_keys=rng.random() < 0.5, separators=(" ,\t", " : ") if pretty else (",", ":"))
    for literal in (one for one in VALUES if isinstance(one, str) and one.startswith("@")):
        text = text.replace(json.dumps(literal), literal[1:-1])
    return text.encode("utf-8", "surrogatepass")


def in_bytes(rng, line, alphabet):
    """The line with a byte more, fewer, or another."""
    at = rng.randrange(len(line) + 1)
    byte = bytes([rng.choice(alphabet)])
    return rng.choice([line[:at] + byte + line[at:], line[:at] + byte + line[at + 1:], line[:at] + line[at + 1:], line[:at],
                       line[:at] + line[max(0, at - 3):]])


MARKS = list(b'{}[]",:\\ \t0123456789-+.eEntfasul\x00\x1f\x7f\x80\xc3\xa9\xed\xa0\xff')


# ---- messages

def some_message(rng, senders):
    sender = rng.choice(senders)
    kind = rng.random()
    message = {"do": sender.batch()[:rng.choice([1, 2, 4, 64])]} if kind < 0.3 else sender.query()
    message = {"as": sender.name if rng.random() < 0.95 else rng.choice(["zz", "", "n1 ", "\u2660" * 11]), **message}
    while rng.random() < 0.45:
        message = changed(rng, message)
        if not isinstance(message, (dict, list)):
            break
    line = written(rng, message)
    if rng.random() < 0.2:
        line = in_bytes(rng, line, MARKS)
    if rng.random() < 0.001:
        line = line.ljust(rng.choice([65_536, 65_537, 70_000]))
    # what ends a line is no part of it, and an empty line is no message
    line = line.replace(b"\n", b" ").rstrip(b"\r")
    return line or b" "


def answer_of(model, line):
    """What the plain reader and the model answer to a line, and what kind of message it is."""
    try:
        actor, message = read_line(line, model.edition)
    except Fault as fault:
        return {"error": str(fault)}, str(fault)
    kind = "batches" if "do" in message else "audits" if "audit" in message else "queries"
    return model.answer(actor, message), kind


def messages(seed, count):
    """So many messages of one script, of the second edition where the seed is odd."""
    rng = random.Random(seed)
    hands = [some_hands(rng) for _ in BOARDS]
    deals = [deal_text(one) for one in hands]
    edition = 1 + seed % 2
    senders = [Sender(name, hands, rng.random(), edition) for name in (SECOND_SENDERS if edition == 2 else SENDERS)]
    session = session_of(edition, pbn=pbn_text(deals))
    lines = [some_message(rng, senders) for _ in range(count)]
    ran = subprocess.run([PROGRAM, "script"], input=b"\n".join([text_of(session).encode(), *lines]) + b"\n", capture_output=True, check=False)
    model, kinds, strange = SolvedSession(hands, edition), collections.Counter(), []
    answers = ran.stdout.split(b"\n")
    for number, line in enumerate(lines):
        wanted, kind = answer_of(model, line)
        kinds[kind] += 1
        got = answers[number] if number < len(answers) else None
        if text_of(wanted).encode() != got:
            strange.append((number, line[:2000], text_of(wanted), got))
            break
    return (ran.returncode, ran.stderr, len(answers)), kinds, strange


def fuzz_messages():
    parts = 20
    with concurrent.futures.ProcessPoolExecutor(4) as pool:
        told = list(pool.map(messages, range(SEED, SEED + parts), [MESSAGES // parts] * parts))
    kinds = sum((one for _, one, _ in told), collections.Counter())
    check(f"{parts} scripts end with status 0, an answer for each line", {(0, b"", MESSAGES // parts + 1)}, {ended for ended, _, _ in told})
    check(f"each of {sum(kinds.values())} messages is answered as by the plain reader and model: {dict(kinds)}", [],
          [one for _, _, strange in told for one in strange][:2])
    check("there were messages of every kind, and of every fault", set(),
          {"batches", "queries", "audits", "TooLong", "Malformed", "UnknownRequest", "BadField"} - set(kinds))


# ---- session objects and PBN texts

def opened(line):
    """How the program ends that is given this session object alone: why it isn't opened, or None."""
    ran = subprocess.run([PROGRAM, "script"], input=line + b"\n", capture_output=True, check=False)
    if (ran.returncode, ran.stdout, ran.stderr) == (0, b"", b""):
        return None
    if ran.returncode == 1 and not ran.stdout and ran.stderr.startswith(b"bridge_server: "):
        return ran.stderr.decode()[len("bridge_server: "):-1]
    return ran.returncode, ran.stdout, ran.stderr


def compare_openings(what, lines):
    with concurrent.futures.ThreadPoolExecutor(4) as pool:
        got = list(pool.map(opened, lines))
    wanted = [refusal_of(check_session, line)[0] for line in lines]
    kinds = collections.Counter(str(one).split("(")[0] for one in wanted)
    check(f"{what}: {len(lines)} are opened, or refused for their first fault: {dict(kinds)}", [],
          [one for one in zip(lines, wanted, got) if one[1] != one[2]][:2])


def small_session(pbn):
    return {"budget": 0, "pbn": pbn, "per_set": 1, "rounds": 3, "tables": 3, "users": USERS[:12]}


def second_session(pbn):
    return {**small_session(pbn), "edition": 2, "users": [*USERS[:11], SECOND_USERS[-1]]}


def listed_session(pbn):
    """The same, with the rows of its movement."""
    return {**small_session(pbn), "movement": mitchell(3, 3), "shared_by": 1}


def named_session(pbn):
    """The same of the second edition, with names to show, numbers, and texts of its own."""
    found = second_session(pbn)
    users = [{**one, "number": str(number), "shown": f"{one['name'].upper()} Müller"} for number, one in enumerate(found["users"])]
    return {**found, "date": "2026-11-27", "reasons": ["late", "a lead out of turn"], "title": "Friday Pairs", "users": users}


TEXT = "{ a note } % no escape\n%an escape [\n[Event \"#\"]\n[Board \"1\"]\n[Dealer \"N\"]\n[Vulnerable \"None\"]\n"


def fuzz_openings():
    rng = random.Random(SEED)
    hands = [some_hands(rng) for _ in range(4)]
    pbn = TEXT + "".join(f'[Board "{number}"]\n[Deal "{deal_text(one)}"]\n[Play "E"]\nHA D2 C2 S2\n*\n\n' for number, one in enumerate(hands, 1))
    compare_openings("each beginning of a PBN text", [text_of(small_session(pbn[:count])).encode() for count in range(len(pbn) + 1)])
    texts = []
    while len(texts) < OBJECTS:
        text = pbn.encode()
        for _ in range(rng.choice([1, 1, 1, 2, 5])):
            text = in_bytes(rng, text, list(b'[]{}"\\;%#?-:. \n\tNESWnesw123AKQJT98765432x'))
        texts.append(text_of(small_session(text.decode())).encode())
    compare_openings("changed PBN texts", texts)
    objects = []
    while len(objects) < OBJECTS:
        value = rng.choice([small_session, second_session, listed_session, named_session])(pbn_text([deal_text(one) for one in hands]))
        while rng.random() < 0.7:
            value = changed(rng, value)
            if not isinstance(value, (dict, list)):
                break
        line = written(rng, value)
        if rng.random() < 0.2:
            line = in_bytes(rng, line, MARKS)
        objects.append(line.replace(b"\n", b" ").rstrip(b"\r"))
    compare_openings("changed session objects", objects)


def main():
    print(f"        seed {SEED}")
    fuzz_messages()
    fuzz_openings()
    return status()


if __name__ == "__main__":
    sys.exit(main())

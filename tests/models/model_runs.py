#!/usr/bin/env python3
"""Compares the stored runs with the plain readers and the plain model: every message and every answer that is wanted, each session
object with its refusal, and the refusals of the stored run of pbn_boards.

    python3 tests/models/model_runs.py           # all, which takes some ten seconds
    python3 tests/models/model_runs.py PART ..   # these parts

The answers of many parts come from the model; those that were worked by hand, and every refusal, are found here a second time
(tests/models/message_reader.py, tests/models/session_reader.py, tests/models/judged_session.py). The status is 1 where an answer differs.
"""
import json
import pathlib
import re
import shlex
import sys
import time

sys.path[:0] = [str(pathlib.Path(__file__).resolve().parents[1] / folder) for folder in ("runs",)]
from boards_reader import check_boards, deal_of, games_of, values_of
from judged_session import JudgedSession
from message_reader import Fault, read_line
from refused import refusal_of
from session_reader import check_session, edition_of
from stored_runs import CRATES, read
from write_stored_runs import RANKS, SUITS, text_of

NOT_COMPARED, OBJECTS = ["connections", "solver", "both ways", "full journal"], "session objects"


def deal_text(hands):
    """A deal as it is told: the hands from North on, spades first, each suit from the ace down."""
    suits = [[[rank for rank in RANKS if (suit, ord(rank)) in hand] for suit in range(len(SUITS))] for hand in hands]
    return "N:" + " ".join(".".join("".join(suit) for suit in hand) for hand in suits)


def deals_of(text):
    """Each board's deal, of a text that has no `#`."""
    found = {}
    for game in games_of(text.encode())[0]:
        values = values_of(game, {})
        if values:
            found[int(values[b"Board"][1])] = deal_text(deal_of(values[b"Deal"][1]))
    return [found[board] for board in sorted(found)]


def opened(line):
    check_session(line.encode())
    found = json.loads(line)
    assert "Dealer" not in found["pbn"] and "Vulnerable" not in found["pbn"], "the model's marks are those of Law 2"
    more = {name: found[name] for name in ("absent", "movement", "switched", "title", "date", "reasons") if name in found}
    return JudgedSession(*(found[name] for name in ("tables", "rounds", "per_set", "users")), deals_of(found["pbn"]),
                         edition=edition_of(found), **more)


def answer_of(session, line):
    try:
        return session.answer(*read_line(line.encode(), session.edition))
    except Fault as fault:
        return {"error": str(fault)}


def lines_of(text):
    """The lines of a script that aren't empty: a CR before an LF is no byte of its line."""
    *ended, last = text.split("\n")
    return [line for line in (line.removesuffix("\r") for line in ended) if line] + [last][:len(last)]


def compare(part, script, answers):
    """How many messages were compared, and the first answer that differs."""
    first, *lines = lines_of(script)
    session = opened(first)
    for number, (line, answer) in enumerate(zip(lines, answers.split("\n")[:-1], strict=True), 1):
        wanted = text_of(answer_of(session, line))
        if wanted != answer:
            return number, f"{part}, message {number}: {line[:300]}\n    the run wants {answer[:300]}\n    the model says {wanted[:300]}"
    return len(lines), None


def compare_objects(part, objects, answers):
    """How many session objects were read, and the first that is opened, or refused, otherwise than the run wants."""
    lines = objects.split("\n")[:-1]
    for number, (line, answer) in enumerate(zip(lines, answers.split("\n")[:-1], strict=True), 1):
        wanted = None if answer.startswith("0 ") else answer.removeprefix("1 bridge_server: ")
        refusal, _ = refusal_of(check_session, line.encode())
        if refusal != wanted:
            return number, f"{part}, line {number}: {line[:300]}\n    the run wants {answer}\n    the reader says {refusal}"
    return len(lines), None


def compare_texts():
    """The same of the PBN texts in the stored run of pbn_boards."""
    crate = CRATES / "pbn_boards"
    words, answers, count = shlex.split((crate / "args").read_text()), (crate / "stdout").read_text(), 0
    for boards, name in zip(words[::2], words[1::2], strict=True):
        path = crate / "data" / name
        if path.exists():
            count += 1
            refusal, _ = refusal_of(check_boards, path.read_bytes(), int(boards))
            fault = re.search(rf"^{re.escape(name)}: (\w+\(\d+\))$", answers, re.MULTILINE)
            if refusal != (fault and fault[1]):
                return count, f"pbn_boards, {name}: the run wants {fault and fault[1]}, the reader says {refusal}"
    return count, None


def told(what, begun, count, differs):
    print(differs or f"ok      {what}: {count} {'objects' if what.startswith(OBJECTS) else 'texts' if what == 'pbn_boards' else 'messages'}, "
          f"{time.monotonic() - begun:.1f} s", flush=True)
    return bool(differs)


def main(parts):
    given, answers = read("stdin"), read("stdout")
    failed = 0
    for part in parts or [part for part in given if part.split(", ")[0] not in NOT_COMPARED]:
        begun = time.monotonic()
        look = compare_objects if part.startswith(OBJECTS) else compare
        failed += told(part, begun, *look(part, given[part], answers[part]))
    if not parts:
        failed += told("pbn_boards", time.monotonic(), *compare_texts())
    return 1 if failed else 0


if __name__ == "__main__":
    sys.exit(main(sys.argv[1:]))

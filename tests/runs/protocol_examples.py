#!/usr/bin/env python3
"""Makes the part `protocol` of the stored runs of crates/bridge_server_stored_runs of the examples in docs/PROTOCOL.md, or says where
the two differ.

    python3 tests/runs/protocol_examples.py           # writes the run
    python3 tests/runs/protocol_examples.py --check   # writes nothing: status 1 where the run isn't the page's

The examples are the page's indented lines, in their order: a message, and below it its answer. Each answer to a query is
compared with what the plain model of tests/models/session_model.py says after the commands before it.

The examples on connections, in a chapter of their own, are not in that part: they must be messages and answers of the part
`connections`, in its order, with or without --check.
"""
import json
import pathlib
import sys

sys.path[:0] = [str(pathlib.Path(__file__).resolve().parents[1] / folder) for folder in ("models",)]
from session_model import Session
from stored_runs import put, read
from write_query_runs import DEALS
from write_stored_runs import SESSION, USERS, text_of

HERE = pathlib.Path(__file__).resolve().parents[2]
PAGE = HERE / "docs" / "PROTOCOL.md"


def examples(text):
    lines = [line[4:] for line in text.splitlines() if line.startswith("    ")]
    assert len(lines) % 2 == 0, "a message has no answer"
    return list(zip(lines[::2], lines[1::2]))


def chapters():
    """The page without the chapter on connections, and that chapter."""
    before, rest = PAGE.read_text().split("\n## On a connection\n")
    chapter, after = rest.split("\n## ", 1)
    return before + "\n## " + after, chapter


def compare_connections(pairs):
    """Whether the examples stand in the part of the connections, which begins with the session object, in its order."""
    given, wanted = (read(name)["connections"].split("\n")[:-1] for name in ("stdin", "stdout"))
    assert given[0] == SESSION, "the session is another"
    run = zip(given[1:], wanted, strict=True)
    for pair in pairs:
        if pair not in run:
            raise SystemExit(f"no such message with this answer comes next in the part `connections`: {pair[0]}")


def compare(session, message, answer):
    """Whether the answer is the model's; what commands are accepted is taken from the page."""
    told = json.loads(answer)
    assert answer == text_of(told), f"the members are out of order, or there are blanks: {answer}"
    try:
        said = json.loads(message)
    except ValueError:
        assert told == {"error": "Malformed"}, message
        return
    if "do" in said:
        accepted = [command for command, word in zip(said["do"], told["answers"], strict=True) if word == "ok"]
        ends = [session.version + 1, session.version + len(accepted)] if accepted else [0, 0]
        for command in accepted:
            session.accept(command)
        assert [told["first"], told["last"], told["version"]] == [*ends, session.version], message
    elif "audit" not in said and told not in ({"error": "UnknownRequest"}, {"error": "BadField"}):
        wanted = {**session.reply(said["as"], said), "version": session.version}
        assert told == wanted, f"{message}: {text_of(wanted)}"


def main():
    page, connections = chapters()
    compare_connections(examples(connections))
    session, pairs = Session(3, 3, 1, USERS, DEALS), examples(page)
    for message, answer in pairs:
        compare(session, message, answer)
    given = "".join(line + "\n" for line in [SESSION, *(message for message, _ in pairs)])
    wanted = "".join(answer + "\n" for _, answer in pairs)
    if sys.argv[1:] != ["--check"]:
        put("protocol", given, wanted)
    elif (read("stdin")["protocol"], read("stdout")["protocol"]) != (given, wanted):
        raise SystemExit("the part `protocol` isn't what docs/PROTOCOL.md says: run tests/runs/protocol_examples.py")


main()

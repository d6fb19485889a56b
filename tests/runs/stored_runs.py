#!/usr/bin/env python3
"""The parts of the stored runs of crates/bridge_server_stored_runs: each is a text, most often a script, and the answers that are
wanted.

    tests/runs/stored_runs.py                    # the name of each part, and where its answers come from
    tests/runs/stored_runs.py desk               # the script of a part, for `bridge_server script`
    tests/runs/stored_runs.py desk answers       # the answers to it

The last eighteen parts are no scripts: the program knows them by their names, up to a comma.

The crate's files stdin and stdout have one form: before each part stand an LF and a line with its name, `== desk`. So a script
may end without an LF of its own, and no message begins so.
"""
import pathlib
import sys

CRATES = pathlib.Path(__file__).resolve().parents[2] / "crates"
CRATE = CRATES / "bridge_server_stored_runs"
RULES = "worked by hand, from the rules of docs/POLICY.md and docs/PROTOCOL.md"
MODEL = "tests/runs/write_query_runs.py: from the plain model of tests/models/session_model.py, and by hand"
SECTIONS = "tests/runs/write_section_runs.py: from the plain model of tests/models/session_model.py, and by hand"
EDITIONS = "tests/runs/write_edition_runs.py: by hand, and from the plain model of tests/models/judged_session.py"
CONNECTIONS = "tests/runs/write_connection_run.py: by hand, from docs/PROTOCOL.md and docs/POLICY.md"
MOVEMENTS = "tests/runs/write_movement_runs.py: by hand, and from the plain model of tests/models/judged_session.py"
NAMES = "tests/runs/write_name_runs.py: by hand, and from the plain model of tests/models/judged_session.py"
SOLVER = "tests/runs/write_solved_run.py: by hand, of deals that give each player a whole suit"
# Each part, and where its answers come from: never from the program.
PARTS = {
    "messages": "tests/runs/write_stored_runs.py: from the rules of docs/POLICY.md and docs/PROTOCOL.md",
    "limits": "tests/runs/write_stored_runs.py: from the rules of docs/POLICY.md and docs/PROTOCOL.md",
    "queries": MODEL,
    "session end": MODEL,
    "filters": "tests/runs/write_filter_runs.py: from the plain model of tests/models/session_model.py, and by hand",
    "largest": SECTIONS,
    "128 boards": SECTIONS,
    "half table": SECTIONS,
    "a board that nobody plays": SECTIONS,
    "one world": MODEL,
    "other world": MODEL,
    "exposure": "tests/runs/exposure_rows.py: by hand, from the laws of the session and the policy, and from a plain model",
    "exposure, second edition": "tests/runs/exposure_rows.py: the same",
    "protocol": "tests/runs/protocol_examples.py: from docs/PROTOCOL.md, and the plain model of tests/models/session_model.py",
    "desk": RULES,
    **{short: RULES for short in (
        "confirming", "holding", "void and ruling", "roles and a seat", "batches", "a whole session", "closing early", "seats refused",
        "a taken seat", "a change of pairs", "no member", "nothing to change", "assigning", "separation by inheritance", "a scoring administrator",
        "roles", "pairs at their tables")},
    "audit": "worked out apart, from the words of docs/PROTOCOL.md",
    "traveller": "worked out apart, from the printed tables of Law 77 and Law 78A",
    **{part: EDITIONS for part in (
        "second edition", "embargo", "every role and an embargo", "a commentator who plays", "a commentator's roles",
        "second edition's end", "half table of the second edition", "par", "first edition", "first edition by its number")},
    **{part: MOVEMENTS for part in (
        "a Howell", "a Howell, its rows in another order", "a Howell, a void", "a Howell, an absent pair", "496 rows", "a Howell, by its word",
        "an arrow switch", "share and relay", "share and relay, an absent pair", "a web")},
    **{part: NAMES for part in ("names", "names, second edition", "names, everybody's")},
    "connections": CONNECTIONS,
    "connections, second edition": CONNECTIONS,
    "connections, first edition": CONNECTIONS,
    "connections, names": "tests/runs/write_name_runs.py: by hand, from docs/PROTOCOL.md",
    "solver": SOLVER,
    "solver, second edition": SOLVER,
    "solver, par": SOLVER,
    "both ways": "tests/runs/write_both_ways_run.py: how many commands the rules accept, and that no reply differs",
    "both ways, each cell": "tests/runs/write_both_ways_run.py: the same, with the play, the costs and the reason of every cell",
    "both ways, 2,000 commands": "tests/runs/write_both_ways_run.py: the same, of commands that are drawn with a fixed seed",
    "both ways, second edition": "tests/runs/write_both_ways_run.py: the same, also with embargoes and with who comments",
    "both ways, a Howell": "tests/runs/write_both_ways_run.py: the same, in a movement in which pairs change sides",
    "both ways, names": "tests/runs/write_both_ways_run.py: the same, while names to show are given, changed and taken away",
    "session objects": "tests/runs/write_opening_runs.py: from the rules of docs/SESSION.md",
    "session objects, lists of rows": "tests/runs/write_movement_objects.py: from the rules of docs/SESSION.md",
    "session objects, words for movements": "tests/runs/write_movement_objects.py: from the rules of docs/SESSION.md",
    "session objects, texts to show": "tests/runs/write_name_runs.py: from the rules of docs/SESSION.md",
    "full journal": RULES,
}


def read(name):
    """Each part's text in one of the two files, by its name."""
    return dict(part.split("\n", 1) for part in (CRATE / name).read_bytes().decode().split("\n== ")[1:])


def put(part, script, answers):
    """Writes a part in place of the one that was there; the others stay."""
    assert part in PARTS, part
    for name, text in (("stdin", script), ("stdout", answers)):
        assert not text.startswith("== ") and "\n== " not in text, part
        parts = {**read(name), part: text}
        joined = "".join(f"\n== {each}\n{parts[each]}" for each in PARTS if each in parts)
        (CRATE / name).write_bytes(joined.encode())


def main():
    if len(sys.argv) == 1:
        for part, origin in PARTS.items():
            print(f"{part}: {origin}")
    else:
        name = "stdout" if sys.argv[2:] == ["answers"] else "stdin"
        sys.stdout.buffer.write(read(name)[sys.argv[1]].encode())


if __name__ == "__main__":
    main()

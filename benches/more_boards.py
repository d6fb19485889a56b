#!/usr/bin/env python3
"""How many instructions a message takes in a session of 128 boards, and beside it in one of 64.

    python3 benches/more_boards.py crates/bridge_server/out/bridge_server

The largest sessions of tests/runs/write_section_runs.py: 16 tables, 256 users, and 4 or 8 boards in a set. Every board but the last has been ruled at each
of its tables. A message's cost is what valgrind's callgrind counts more where it stands 64 times more in the script, a sixty-fourth of it; a Confirm
is one of a batch that enters a result and confirms it. It needs valgrind.
"""
import pathlib
import re
import subprocess
import sys
import tempfile

ROOT = pathlib.Path(__file__).resolve().parent.parent
sys.path[:0] = [str(ROOT / "tests" / folder) for folder in ("runs",)]
from write_query_runs import NEXT, rule  # noqa: E402
from write_section_runs import largest_run  # noqa: E402
from write_stored_runs import FOUR_SPADES, confirm, do, enter, text_of  # noqa: E402

PROGRAM = sys.argv[1] if len(sys.argv) > 1 else "crates/bridge_server/out/bridge_server"
MORE = 64


def ruled(per_set):
    """The script of a session in which every board but those of the last set has been ruled at each table that plays it."""
    run = largest_run(per_set)
    rows, last = run.session.rows, 16
    for number in range(1, 16):
        if number > 1:
            run.accept("d", NEXT)
        cells = [(row[1], (row[2] - 1) * per_set + k) for row in rows if row[0] == number and row[2] != last for k in range(1, per_set + 1)]
        for first in range(0, len(cells), 64):
            run.accept("d", *[rule(table, board, 60, 40, 1) for table, board in cells[first:first + 64]])
    first = next(row for row in rows if row[2] == last)
    return "".join(run.given), first[1], (last - 1) * per_set + 1


def instructions(script):
    with tempfile.NamedTemporaryFile("w", suffix=".script") as file:
        file.write(script)
        file.flush()
        with open(file.name, "rb") as given:
            done = subprocess.run(["valgrind", "--tool=callgrind", "--callgrind-out-file=/dev/null", PROGRAM, "script"], stdin=given,
                                  stdout=subprocess.DEVNULL, stderr=subprocess.PIPE, text=True, check=True)
    return int(re.search(r"Collected : (\d+)", done.stderr)[1])


def costs(per_set):
    script, table, board = ruled(per_set)
    messages = {
        "board": text_of({"as": "s", "ask": "board", "board": 1}),
        "traveller": text_of({"as": "s", "ask": "traveller", "board": 1}),
        "ranking": text_of({"as": "s", "ask": "ranking"}),
        "list": text_of({"as": "s", "ask": "list"}),
        "Enter": do("d", enter(table, board, FOUR_SPADES)),
        "Enter, Confirm, Void": do("d", enter(table, board, FOUR_SPADES), confirm(table, board, FOUR_SPADES), {"board": board, "cmd": "Void", "table": table}),
    }
    once = instructions(script)
    return {name: (instructions(script + (message + "\n") * MORE) - once) // MORE for name, message in messages.items()}


def main():
    few, many = costs(4), costs(8)
    for name, cost in few.items():
        print(f"{name:22}{cost:>12,} with 64 boards {many[name]:>12,} with 128: {many[name] / cost:.2f}", flush=True)


if __name__ == "__main__":
    main()

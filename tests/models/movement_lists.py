#!/usr/bin/env python3
"""Checks the lists of examples/movements, tells what a list of rows is, and prints guide cards.

    tests/models/movement_lists.py                     # each list of examples/movements, its row of the page there, and docs/PROTOCOL.md
    tests/models/movement_lists.py FILE [SHARED_BY]    # what a list is, or its first row that can't stand and why, as a session object is told
    tests/models/movement_lists.py cards FILE          # for each pair, where it sits in which round, against whom and with which set
    tests/models/movement_lists.py write               # writes the lists anew

Each list must be sound, be the movement that its name says, and have its row in the page, with its tables, rounds and sets, by how many
tables a set is shared in a round, and how many lists of winners there are. The tables of docs/PROTOCOL.md must be the plain Mitchell.
It knows nothing of the program. The status is 1 where something differs.
"""
import json
import pathlib
import re
import sys

from movements import (MOST_TABLES, changes_sides, first_misplaced, howell, is_balanced, meet_all, mitchell, pairs_in, play_all,
                       share_and_relay, shared_in, turned_after, web)

ROOT = pathlib.Path(__file__).resolve().parents[2]
FOLDER, PROTOCOL = ROOT / "examples" / "movements", ROOT / "docs" / "PROTOCOL.md"
LISTS = {
    **{f"howell_{tables}": howell(tables, 2 * tables - 1) for tables in range(3, 9)},
    "mitchell_7_switched": turned_after(6, mitchell(7, 7)),
    **{f"share_and_relay_{tables}": share_and_relay(tables, tables) for tables in (8, 10)},
    "web_14_13": web(14, 13),
}
BALANCED = ["howell_4", "howell_6", "howell_8"]


def text_of(rows):
    return "[" + ",\n ".join(json.dumps(row, separators=(",", ":")) for row in rows) + "]\n"


def rows_of(path):
    return [tuple(row) for row in json.loads(path.read_text(encoding="utf-8"))]


def numbers_of(rows):
    """How many tables, rounds and sets a list has: the greatest numbers in it."""
    return [max(row[place] for row in rows) for place in (1, 0, 2)]


def told(rows):
    tables, rounds, sets = numbers_of(rows)
    winners = "one list of winners" if changes_sides(rows) else "two lists of winners"
    more = (", every two pairs meet" if meet_all(rows) else "") + (", every pair plays every set" if play_all(rows) else "")
    return f"{tables} tables, {rounds} rounds, {sets} sets, {len(pairs_in(rows))} pairs, shared_by {shared_in(rows)}, {winners}{more}"


def row_of_page(name, rows):
    """The row that the page has of a list."""
    cells = [f"[`{name}.json`]({name}.json)", *numbers_of(rows), shared_in(rows), "one" if changes_sides(rows) else "two"]
    return "| " + " | ".join(map(str, cells)) + " |"


# ---- the checks

def faults_of_lists():
    page = (FOLDER / "README.md").read_text(encoding="utf-8")
    found = sorted(path.stem for path in FOLDER.glob("*.json"))
    if found != sorted(LISTS):
        yield f"the folder has {found}, and its lists are {sorted(LISTS)}"
    for name in found:
        rows = rows_of(FOLDER / f"{name}.json")
        tables, rounds, _ = numbers_of(rows)
        if misplaced := first_misplaced(rows, rounds, tables, shared_in(rows)):
            yield f"{name}: {misplaced}"
        if sorted(rows) != sorted(LISTS.get(name, [])):
            yield f"{name} isn't the movement of its name"
        if name.startswith("howell") and not (meet_all(rows) and play_all(rows)):
            yield f"{name}: some pair doesn't meet another, or doesn't play a set"
        if name in BALANCED and not is_balanced(rows):
            yield f"{name}: two pairs sit alike on more sets or on fewer than opposite ways"
        if row_of_page(name, rows) not in page.splitlines():
            yield f"the page wants this row: {row_of_page(name, rows)}"


def tables_of_page(text):
    """The rows of each table of who plays what: a line a round, a column a table."""
    for table in re.findall(r"^\| Round \|.*\n\|[-|]+\n((?:\|.*\n)+)", text, re.MULTILINE):
        rows = []
        for line in table.splitlines():
            number, *cells = (cell.strip() for cell in line.strip("|").split("|"))
            for place, cell in enumerate(cells, 1):
                ns, ew, which = re.fullmatch(r"(NS\d+)-(EW\d+), set (\d+)", cell).groups()
                rows.append((int(number), place, int(which), ns, ew))
        yield rows


def faults_of_protocol():
    seen = []
    for rows in tables_of_page(PROTOCOL.read_text(encoding="utf-8")):
        tables, rounds, _ = numbers_of(rows)
        seen.append(tables % 2)
        if sorted(rows) != mitchell(tables, rounds):
            yield f"docs/PROTOCOL.md: the table of {tables} tables isn't the Mitchell"
    if sorted(seen) != [0, 1]:
        yield "docs/PROTOCOL.md has no table of an even and one of an odd number of tables"


def check():
    faults = [*faults_of_lists(), *faults_of_protocol()]
    print("\n".join([*faults, f"{len(LISTS)} lists and two tables were looked at"]))
    return 1 if faults else 0


# ---- what a director asks

def say(path, shared_by):
    rows = rows_of(path)
    tables, rounds, _ = numbers_of(rows)
    misplaced = first_misplaced(rows, rounds, min(tables, MOST_TABLES), shared_by)
    print(misplaced or told(rows))
    return 1 if misplaced else 0


def cards(path):
    rows = rows_of(path)
    for pair in pairs_in(rows):
        print(f"Pair {pair}")
        for number, table, which, ns, ew in sorted(rows):
            if pair in (ns, ew):
                side, other = ("North-South", ew) if pair == ns else ("East-West", ns)
                print(f"  round {number:2}: table {table:2}, {side:11} against {other:4}, set {which}")
        print()
    return 0


def write():
    for name, rows in LISTS.items():
        (FOLDER / f"{name}.json").write_text(text_of(rows), encoding="utf-8")
    return 0


def main(words):
    if not words:
        return check()
    if words == ["write"]:
        return write()
    if len(words) > 2:
        sys.exit(__doc__)
    try:
        if words[0] == "cards" and words[1:]:
            return cards(pathlib.Path(words[1]))
        return say(pathlib.Path(words[0]), int(words[1]) if words[1:] else 1)
    except (ValueError, TypeError):
        sys.exit("this is no list of rows [round,table,set,\"NS1\",\"EW1\"]")


if __name__ == "__main__":
    sys.exit(main(sys.argv[1:]))

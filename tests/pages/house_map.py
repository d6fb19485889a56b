#!/usr/bin/env python3
"""The layers of the house, from crates.txt: a crate stands one layer above the highest of those that it uses.

    tests/pages/house_map.py            # prints them, the programs first
    tests/pages/house_map.py --write    # puts them into docs/ARCHITECTURE.md, "The layers", and README.md, "The house"
    tests/pages/house_map.py --check    # whether they stand in both, and whether README.md's table has a line for each crate

Crates that only test are left out of the layers. The status is 1 where something differs.
"""
import pathlib
import re
import sys

ROOT = pathlib.Path(__file__).resolve().parents[2]
# each page with its chapter: the layers are the first indented lines in it
PAGES = (("docs/ARCHITECTURE.md", "The layers"), ("README.md", "The house"))
TESTS = {"bridge_server_stored_runs", "called_program_tests", "desks_tests", "display_times", "hall_tests", "journal_tests", "movement_tests", "opening_tests", "rules_tests", "test_devices"}
WIDTH = 118


def crates():
    """What each crate uses, without the kit's crates and those that only test."""
    lines = [line.partition(":") for line in (ROOT / "crates.txt").read_text(encoding="utf-8").splitlines() if ":" in line]
    names = {line[0].split()[0] for line in lines} - TESTS
    return {line[0].split()[0]: set(line[2].split()) & names for line in lines if line[0].split()[0] in names}


def layers():
    uses, level = crates(), {}

    def level_of(crate):
        if crate not in level:
            level[crate] = 1 + max((level_of(below) for below in uses[crate]), default=0)
        return level[crate]

    return [[crate for crate in uses if level_of(crate) == number] for number in range(max(map(level_of, uses)), 0, -1)]


def text():
    found = layers()
    rows = []
    for number, layer in zip(range(len(found), 0, -1), found):
        row = f"    {number:>2}  "
        for crate in sorted(layer):
            if len(row) + len(crate) > WIDTH:
                rows.append(row.rstrip())
                row = " " * 8
            row += f"{crate}  "
        rows.append(row.rstrip())
    return "\n".join(rows) + "\n"


# where a page has them
def place(page, chapter):
    start = page.index(f"\n## {chapter}\n")
    found = re.compile(r"(?<=\n\n)(?: {4}.*\n)+").search(page, start)
    return found.span()


def faults():
    for path, chapter in PAGES:
        page = (ROOT / path).read_text(encoding="utf-8")
        start, end = place(page, chapter)
        if page[start:end] != text():
            yield f"{path} has other layers than crates.txt: tests/pages/house_map.py --write"
    page = (ROOT / "README.md").read_text(encoding="utf-8")
    table = page[page.index("\n| Crate | What it is |\n") :].partition("\n\n")[0]
    rows = re.findall(r"\[(\w+)\]\(crates/(\w+)/README\.md\)", table)
    for crate in sorted({*crates(), *TESTS}):
        if (times := rows.count((crate, crate))) != 1:
            yield f"README.md's table of crates has {crate} {times} times"


def main():
    if sys.argv[1:] == ["--write"]:
        for path, chapter in PAGES:
            page = (ROOT / path).read_text(encoding="utf-8")
            start, end = place(page, chapter)
            (ROOT / path).write_text(page[:start] + text() + page[end:], encoding="utf-8")
        return 0
    if sys.argv[1:] != ["--check"]:
        print(text(), end="")
        return 0
    found = list(faults())
    for fault in found:
        print(fault)
    print(f"{len(crates())} crates in {len(layers())} layers")
    return 1 if found else 0


if __name__ == "__main__":
    sys.exit(main())

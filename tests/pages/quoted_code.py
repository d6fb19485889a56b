#!/usr/bin/env python3
"""Checks that the code that docs/NOTATION.md and CONTRIBUTING.md quote stands in the files that they name.

    tests/pages/quoted_code.py

A quotation is a block of indented lines below a link to a file of a crate, as `[policy.rt](../crates/disclosure_rules/src/policy.rt):`.
A line `..` stands for what is left out: what is between two of them stands in the file in one piece, and the pieces in their order. Each
fault is a line; the last line is `N passed, M failed`, and the status is 1 where one failed.
"""
import pathlib
import re
import sys

ROOT = pathlib.Path(__file__).resolve().parents[2]
PAGES = ("docs/NOTATION.md", "CONTRIBUTING.md")
BLOCK = re.compile(r"(?<=\n\n)(?:    .*\n)+")
LINK = re.compile(r"\]\(([^()\s]*crates/[^()\s]+)\)")


# the pieces of a quotation: its lines without their indentation, as lists between the lines `..`
def pieces_of(block):
    pieces = [[]]
    for line in map(str.strip, block.splitlines()):
        if line == "..":
            pieces.append([])
        else:
            pieces[-1].append(line)
    return [piece for piece in pieces if piece]


# the first piece that doesn't stand in the file behind those before it
def missing_piece(block, path):
    lines, start = list(map(str.strip, path.read_text(encoding="utf-8").splitlines())), 0
    for piece in pieces_of(block):
        places = (at for at in range(start, len(lines)) if lines[at : at + len(piece)] == piece)
        if (at := next(places, None)) is None:
            return piece
        start = at + len(piece)
    return None


def faults_of(page, text):
    for found in BLOCK.finditer(text):
        links = LINK.findall(text[: found.start()].rpartition("\n## ")[2])
        path = (page.parent / links[-1]).resolve() if links else None
        if path is None or not path.is_file():
            yield f"{page.relative_to(ROOT)}: no file is named above {found[0].splitlines()[0].strip()!r}"
        elif piece := missing_piece(found[0], path):
            yield f"{page.relative_to(ROOT)}: {path.relative_to(ROOT)} has no {piece[0]!r}, or not behind the lines above it"
        else:
            yield None


def main():
    found = [fault for page in PAGES for fault in faults_of(ROOT / page, (ROOT / page).read_text(encoding="utf-8"))]
    faults = [fault for fault in found if fault]
    for fault in faults:
        print(fault)
    print(f"{len(found) - len(faults)} passed, {len(faults)} failed")
    return 1 if faults or not found else 0


if __name__ == "__main__":
    sys.exit(main())

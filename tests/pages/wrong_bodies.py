#!/usr/bin/env python3
"""Compares the wrong bodies in crates/*/must-fail with what the pages say of them: each stands in a row of docs/WRONG_BODIES.md, behind its
crate, each that stands there is an edit, and the page of its crate says what is refused by name. What is missing is a line; the status is 1
where something is.

    python3 tests/pages/wrong_bodies.py
"""
import pathlib
import re
import sys

ROOT = pathlib.Path(__file__).resolve().parents[2]
PAGE = "docs/WRONG_BODIES.md"
CODE = re.compile(r"`(\w+)`")
SAID = re.compile(r"refused by\s+name", re.IGNORECASE)


def edits_there():
    return {(path.parent.parent.name, path.stem) for path in ROOT.glob("crates/*/must-fail/*.edit")}


def edits_told(crates):
    """The edits in the second column of the page's rows: what isn't a crate's name is an edit of each of the crates just before it."""
    for line in (ROOT / PAGE).read_text(encoding="utf-8").splitlines():
        cells = line.split(" | ")
        named, is_named = [], False
        for name in CODE.findall(cells[1]) if line.startswith("|") and len(cells) == 3 else ():
            if name not in crates:
                is_named = True
                yield from ((crate, name) for crate in named)
            else:
                named, is_named = ([] if is_named else named) + [name], False


def main():
    there = edits_there()
    crates = {path.name for path in (ROOT / "crates").iterdir()}
    told = set(edits_told(crates))
    faults = [f"{PAGE} doesn't have {edit} of {crate}" for crate, edit in sorted(there - told)]
    faults += [f"{PAGE} has {edit} of {crate}, which is no edit" for crate, edit in sorted(told - there)]
    for crate in sorted({crate for crate, _ in there}):
        if not SAID.search((ROOT / "crates" / crate / "README.md").read_text(encoding="utf-8")):
            faults.append(f"the page of {crate} doesn't say what is refused by name")
    for fault in faults:
        print(fault)
    print(f"{len(there)} wrong bodies were looked at")
    return 1 if faults or not there else 0


if __name__ == "__main__":
    sys.exit(main())

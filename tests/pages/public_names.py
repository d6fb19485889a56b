#!/usr/bin/env python3
"""Finds names that two crates use in public: definitions of specs/, and what a library exports.

One name is one thing in the whole repository, so this prints nothing, and ends with 0, or prints each such name with
the places where it stands, and ends with 1. A library's function and the definition that its own clauses cite may have
one name, and what a crate passes on from another (`pub use movement::Cell`) is that crate's."""
import collections
import pathlib
import re
import sys

ROOT = pathlib.Path(__file__).resolve().parents[2] / "crates"

# the member `table` of a message is the number of a table; `double_dummy::table` solves a deal, and has the name of
# what it gives
SAID_TWICE = {"table"}

DEFINITION = re.compile(r"(?:abbrev |unfoldable )?pub (?:record |data )?([^\s:({]+)")
BLOCK = re.compile(r"(?:abbrev |unfoldable )?(?:module|mutual)\b")
EXPORT = re.compile(r"^pub use (\w+)(?:::\w+)*::(\{[^}]*\}|\w+);", re.MULTILINE)


def definitions(crate):
    """The public definitions of a crate, with the file of each: also those of a module or of a mutual block, two blanks in."""
    for path in sorted((crate / "specs").rglob("*.antt")):
        indent = ""
        for line in path.read_text().split("\n"):
            if BLOCK.match(line):
                indent = "  "
            elif re.match(r"[^\s-]", line):
                indent = ""
            found = DEFINITION.match(line) or indent and line.startswith(indent) and DEFINITION.match(line[len(indent):])
            if found and found[1] not in ("mod", "use"):
                yield found[1], path


def exports(crate, crates):
    """What a library exports of its own."""
    path = crate / "src" / "lib.rt"
    if path.exists():
        for module, names in EXPORT.findall(path.read_text()):
            if module not in crates:
                yield from ((name, path) for name in re.findall(r"\w+", names))


def main():
    crates = {path.name: path for path in sorted(ROOT.iterdir()) if path.is_dir()}
    places = collections.defaultdict(dict)
    for name, crate in crates.items():
        for word, path in [*definitions(crate), *exports(crate, crates)]:
            places[word].setdefault(name, path.relative_to(ROOT))
    twice = {word: where for word, where in places.items() if len(where) > 1 and word not in SAID_TWICE}
    for word, where in sorted(twice.items()):
        print(f"{word}: {', '.join(str(path) for path in where.values())}")
    return 1 if twice else 0


if __name__ == "__main__":
    sys.exit(main())

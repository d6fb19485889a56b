#!/usr/bin/env python3
"""Counts the definitions that stand behind the headline, by file of crates/*/specs.

From the clauses of published_view's laws it follows each name to its definition, and from there on, until nothing new is
named. `--check` reads docs/HEADLINE.md as well, and fails where its table names another file or another number, or its sentence
other numbers of definitions and files, of all and of those to be read.

    tests/pages/headline_definitions.py [--check]
"""

import collections
import os
import re
import sys

TOP = os.path.dirname(os.path.dirname(os.path.dirname(os.path.abspath(__file__))))
CRATES = f"{TOP}/crates"
LAWS = "published_view/src/laws.rt"
PAGE = "docs/HEADLINE.md"

DEFINED = re.compile(r"^(?:unfoldable |abbrev )?pub (?:record |data )?([^\s:(]+)", re.M)
BROUGHT = re.compile(
    r"^(?:ghost )?(?:unfoldable )?(?:pub )?use Rattle\.(\w+)\.specs\.([\w.]+?)\.\{([^}]*)\};?$", re.M
)


def text_of(path):
    with open(f"{CRATES}/{path}", encoding="utf-8") as file:
        return file.read()


def brought_into(text, crates):
    """Where the names come from that a file brings in: (crate, file, name) by name."""
    found = {}
    for crate, path, names in BROUGHT.findall(text):
        parts = path.split(".")
        while parts and parts[0] in crates:
            crate = parts.pop(0)
        for name in names.split(","):
            if parts and parts[0] != "declared":
                found[name.strip().split(" as ")[0]] = (crate, parts[0], name.strip())
    return found


def all_definitions(crates):
    """The text of each definition, and what its file brings in, by (crate, file, name)."""
    found = {}
    for crate in crates:
        folder = f"{CRATES}/{crate}/specs"
        for file in sorted(os.listdir(folder)) if os.path.isdir(folder) else []:
            if not file.endswith(".antt") or file == "Lib.antt":
                continue
            text = text_of(f"{crate}/specs/{file}")
            brought = brought_into(text, crates)
            starts = [it for it in DEFINED.finditer(text) if it.group(1) not in ("use", "mod")]
            for number, start in enumerate(starts):
                end = starts[number + 1].start() if number + 1 < len(starts) else len(text)
                found[crate, file[:-5], start.group(1)] = (text[start.start() : end], brought)
    return found


def behind_the_laws():
    crates = set(os.listdir(CRATES))
    definitions = all_definitions(sorted(crates))
    open_names = [it for it in brought_into(text_of(LAWS), crates).values()]
    seen = set()
    while open_names:
        place = open_names.pop()
        if place in seen or place not in definitions:
            continue
        seen.add(place)
        body, brought = definitions[place]
        for word in set(re.findall(r"[\w']+", body)):
            open_names.append(brought.get(word, (place[0], place[1], word)))
    return collections.Counter((crate, file) for crate, file, _ in seen)


def rows_of_the_page():
    """How many definitions each file has by the page, of which files it says that they are to be read, and the four numbers of its sentence."""
    with open(f"{TOP}/{PAGE}", encoding="utf-8") as file:
        text = file.read()
    rows = re.findall(r"^\| `(\w+)/specs/(\w+)\.antt` \| (\d+) \| (\w*)", text, re.M)
    said = re.search(r"^(\d+) definitions in (\d+) files stand .* Read (\d+) of them, in (\d+) files;", text, re.M)
    if not said:
        sys.exit(f"{PAGE} has no sentence that counts the definitions")
    of_files = {(crate, file): int(number) for crate, file, number, _ in rows}
    to_read = [int(number) for *_, number, is_read in rows if is_read == "read"]
    return of_files, to_read, [int(number) for number in said.groups()]


def main():
    counted = behind_the_laws()
    for (crate, file), number in sorted(counted.items()):
        print(f"{crate}/specs/{file}.antt {number}")
    print(f"{sum(counted.values())} definitions in {len(counted)} files")
    if "--check" not in sys.argv[1:]:
        return 0
    (page, to_read, said), wrong = rows_of_the_page(), 0
    if said != (counts := [sum(counted.values()), len(counted), sum(to_read), len(to_read)]):
        wrong += 1
        print(f"{PAGE} says {said} of definitions and files, and not {counts}")
    for place in sorted({*page, *counted}):
        if page.get(place) != counted.get(place):
            wrong += 1
            print(f"{PAGE} has {page.get(place)} for {'/specs/'.join(place)}.antt, not {counted.get(place)}")
    return 1 if wrong else 0


if __name__ == "__main__":
    sys.exit(main())

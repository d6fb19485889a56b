#!/usr/bin/env python3
"""Says what a program's code is made of, crate by crate: bytes of the symbols whose names begin with a crate's, the largest first.

    benches/program_size.py [PROGRAM] [CRATES]

It needs binutils' `nm`. A generic function counts to the crate that has it, whoever called for it. The last lines join them: the kit's
SQLite, the crates of this repository that a journal needs (with `kept_sessions`, which opens sessions without one too), all other
crates of this repository, and the rest, which is the kit's and C's.
"""
import collections
import pathlib
import re
import subprocess
import sys

ROOT = pathlib.Path(__file__).resolve().parent.parent
PROGRAM = sys.argv[1] if len(sys.argv) > 1 else "crates/bridge_server/out/bridge_server"
CRATES = int(sys.argv[2]) if len(sys.argv) > 2 else 25
JOURNAL = {"entry_texts", "command_writing", "journal_store", "kept_entries", "row_journal", "kept_sessions", "continued_history", "entry_store"}


def sizes():
    """Bytes by crate."""
    found = collections.Counter()
    said = subprocess.run(["nm", "--print-size", PROGRAM], stdout=subprocess.PIPE, text=True, check=True).stdout
    for line in said.splitlines():
        words = line.split(None, 3)
        if len(words) == 4:
            crate = re.match(r"\W*(\w+)::", words[3])
            found[crate.group(1) if crate else "no crate"] += int(words[1], 16)
    return found


def group_of(crate):
    if re.fullmatch(r"sqlite(_\w+)?", crate):
        return "the kit's SQLite"
    if crate in JOURNAL:
        return "crates of this repository for a journal"
    return "other crates of this repository" if (ROOT / "crates" / crate).is_dir() else "the rest of the kit, and C"


def main():
    found, groups = sizes(), collections.Counter()
    whole = sum(found.values())
    for crate, size in found.items():
        groups[group_of(crate)] += size
    for name, size in (*found.most_common(CRATES), *groups.most_common(), ("all", whole)):
        print(f"{name:42} {size:9,} {100 * size / whole:5.1f} %")


if __name__ == "__main__":
    main()

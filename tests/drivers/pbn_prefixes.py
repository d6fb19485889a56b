#!/usr/bin/env python3
"""Gives pbn_boards every beginning of an accepted PBN text, and compares what it answers with what a plain reader says.

    tests/drivers/pbn_prefixes.py crates/pbn_boards/out/pbn_boards [TEXT.pbn [BOARDS]]

The text is crates/pbn_boards/data/accepted.pbn where none is named, and the wanted boards are 1 to BOARDS (1 where it isn't said).
Each beginning, the empty one and the whole among them, is read as standard input. The plain reader is that of
tests/models/boards_reader.py, which knows the program by its documents alone: where it names a refusal the program must name the same one,
write nothing and end with status 1, and else the boards must be those of the whole text. The last line is `N passed, M failed`.
"""
import pathlib
import subprocess
import sys

sys.path[:0] = [str(pathlib.Path(__file__).resolve().parents[1] / folder) for folder in ("models",)]
from boards_reader import check_boards
from refused import refusal_of

ROOT = pathlib.Path(__file__).resolve().parents[2]
ACCEPTED = ROOT / "crates/pbn_boards/data/accepted.pbn"


def answer_to(program, boards, text):
    ran = subprocess.run([program, str(boards)], input=text, capture_output=True, check=False)
    return ran.returncode, ran.stdout, ran.stderr


def main():
    program, *words = sys.argv[1:]
    text = pathlib.Path(words[0] if words else ACCEPTED).read_bytes()
    boards = int(words[1]) if words[1:] else 1
    whole = answer_to(program, boards, text)
    faults, named, shown = [], set(), 0
    if (whole[0], whole[2]) != (0, b"") or whole[1].count(b"\n") != boards:
        faults.append(f"the whole text: {whole}")
    for length in range(len(text) + 1):
        refusal, _ = refusal_of(check_boards, text[:length], boards)
        wanted = (1, b"", f"pbn_boards: {refusal}\n".encode()) if refusal else whole
        got = answer_to(program, boards, text[:length])
        if got != wanted:
            faults.append(f"the first {length} bytes: {got}, and not {wanted}")
        named |= {refusal.partition("(")[0]} if refusal else set()
        shown += refusal is None
    for fault in faults[:20]:
        print(fault)
    print(f"{shown} beginnings have the boards, the others are refused as {', '.join(sorted(named))}")
    print(f"{len(text) + 2 - len(faults)} passed, {len(faults)} failed")
    return 1 if faults or not shown or not named else 0


if __name__ == "__main__":
    sys.exit(main())

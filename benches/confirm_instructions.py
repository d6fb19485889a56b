#!/usr/bin/env python3
"""Counts the instructions that a server takes for an Enter and for a Confirm, without a journal and with one.

    benches/confirm_instructions.py [PROGRAM [ROUND]]

The session is that of benches/book_time.py: 16 tables, 64 boards, 256 accounts. In a round of play (the eighth of fifteen, where none is
given) a director enters all 64 results, and then confirms them, each in a batch of its own, at a server of one display. What one takes: the
instructions of a server that ends behind the 64, less those of one that ends before them, by 64. Message, answer and the text of the journal's
entry are in it, what the system does is not. It needs valgrind.
"""
import itertools
import pathlib
import subprocess
import sys
import tempfile

ROOT = pathlib.Path(__file__).resolve().parent.parent
sys.path[:0] = [*(str(ROOT / "tests" / folder) for folder in ("drivers", "runs")), str(ROOT / "benches")]
import book_time  # noqa: E402
from journal_time import signed_in  # noqa: E402
from raw_client import Server  # noqa: E402

PROGRAM = pathlib.Path(sys.argv[1] if len(sys.argv) > 1 else "crates/bridge_server/out/bridge_server").resolve()
ROUND = int(sys.argv[2]) if len(sys.argv) > 2 else 8
OPENED = book_time.session()
DEALS = OPENED.pop("pbn")


def counted(room, many, *words):
    """The instructions of a server that does so many commands."""
    counts, wrapper = pathlib.Path(room, "counts"), pathlib.Path(room, "program")
    wrapper.write_text(f'#!/bin/sh\nexec valgrind --tool=callgrind --callgrind-out-file={counts} {PROGRAM} "$@"\n')
    wrapper.chmod(0o755)
    with Server(wrapper, *words, "--displays", 1, "--workers", 0, session=OPENED, deals=DEALS) as at:
        client = signed_in(at)
        for _, command in itertools.islice(book_time.commands(), many):
            assert '"ok"' in client.ask({"do": [command]})
    return next(int(line.split()[1]) for line in counts.read_text().splitlines() if line.startswith("totals:"))


def main():
    # a round is 64 Enters and 64 Confirms, and a NextRound before the next one
    before = (ROUND - 1) * (2 * book_time.BOARDS + 1)
    for kind in ("without a journal", "with one"):
        totals = []
        for many in (before, before + book_time.BOARDS, before + 2 * book_time.BOARDS):
            with tempfile.TemporaryDirectory() as room:
                words = [] if kind == "without a journal" else ["--journal", pathlib.Path(room, "kept.journal")]
                totals.append(counted(room, many, *words))
        enter, confirm = ((after - earlier) / book_time.BOARDS for earlier, after in itertools.pairwise(totals))
        print(f"{kind}: an Enter takes {enter:,.0f} instructions, a Confirm {confirm:,.0f}", flush=True)


if __name__ == "__main__":
    main()

#!/usr/bin/env python3
# Measures how much memory a program takes to read PBN texts of each kind that benches/pbn_texts.py writes, 4 and 16 MiB of it: the
# most that is resident at a time (Linux's ru_maxrss, of which some tens of pages aren't exact), and how much of it is beside the text
# itself. Give the program, which `rt run` leaves in crates/pbn_boards/out.
#
#     benches/pbn_memory.py crates/pbn_boards/out/pbn_boards [KIND..]
import os
import pathlib
import subprocess
import sys
import tempfile

sys.dont_write_bytecode = True
from pbn_texts import KINDS

SIZES = (4, 16)
here = pathlib.Path(__file__).parent
program = os.path.abspath(sys.argv[1])

# The program is a child of a shell, so that what is measured begins with a shell's memory and not with that of this script; the
# shell then becomes the python that tells the most that its children held.
RUN = '"$0" 36 < "$1" > /dev/null 2>&1; exec "$2" -c "import resource; print(resource.getrusage(resource.RUSAGE_CHILDREN).ru_maxrss)"'


# the KiB that one run holds at most
def memory_of(path):
    return int(subprocess.run(["sh", "-c", RUN, program, path, sys.executable], stdout=subprocess.PIPE, check=True).stdout)


# how much that is, and how much beside the text
def said(path):
    most = memory_of(path)
    return f"{most} KiB, {most - os.path.getsize(path) // 1024} KiB beside the text"


with tempfile.TemporaryDirectory() as work:
    path = os.path.join(work, "text")
    open(path, "wb").close()
    print(f"an empty text: {said(path)}", flush=True)
    for kind in sys.argv[2:] or KINDS:
        for size in SIZES:
            with open(path, "wb") as text:
                subprocess.run([here / "pbn_texts.py", kind, str(size)], stdout=text, check=True)
            print(f"{kind}, {size} MiB: {said(path)}", flush=True)

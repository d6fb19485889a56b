#!/usr/bin/env python3
# Measures how long a program takes to read PBN texts of each kind that benches/pbn_texts.py writes, 4 and 16 MiB of it: the least
# processor time of nine runs each, one of each size in turn, so that other work of the machine hardly counts. Give the program,
# which `rt run` leaves in crates/pbn_boards/out.
#
#     benches/pbn_time.py crates/pbn_boards/out/pbn_boards [KIND..]
import os
import pathlib
import subprocess
import sys
import tempfile

sys.dont_write_bytecode = True
from pbn_texts import KINDS

SIZES = (4, 16)
here = pathlib.Path(__file__).parent
program = os.path.abspath(sys.argv[1])


# the microseconds of processor time of one run
def time_of(path):
    child = os.fork()
    if child == 0:
        os.dup2(os.open(path, os.O_RDONLY), 0)
        for out in (1, 2):
            os.dup2(os.open(os.devnull, os.O_WRONLY), out)
        os.execv(program, [program, "36"])
    usage = os.wait4(child, 0)[2]
    return int((usage.ru_utime + usage.ru_stime) * 1_000_000)


with tempfile.TemporaryDirectory() as work:
    for kind in sys.argv[2:] or KINDS:
        paths = {}
        for size in SIZES:
            paths[size] = os.path.join(work, f"{size}")
            with open(paths[size], "wb") as text:
                subprocess.run([here / "pbn_texts.py", kind, str(size)], stdout=text, check=True)
        least = {size: min(times) for size, times in zip(SIZES, zip(*[[time_of(paths[s]) for s in SIZES] for _ in range(9)]))}
        few, many = (least[size] for size in SIZES)
        rate = SIZES[1] * 1_048_576 / many
        print(f"{kind}: 4 MiB {few} us, 16 MiB {many} us, {many / few:.2f} times, {rate:.0f} MB a second", flush=True)

#!/usr/bin/env python3
"""Times deal_tables on the same random deals with 1, 2 and 4 workers, in turns: the seconds from start to end, how many times
faster that is than one worker, the processor seconds of all threads, how many of them the machine gave in a second, and the
greatest size in memory. The numbers must be the same whatever the number of workers. Other work on the machine slows more
workers more than one: then the processor seconds tell what the work cost, and those a second how much of the machine was left.

    benches/worker_time.py crates/deal_tables/out/deal_tables 36 3      # 36 deals, three runs of each
"""

import os
import subprocess
import sys
import tempfile
import time


def run(program, workers, deals):
    """The output of one run, its seconds, its processor seconds, and its greatest size in memory in MB."""
    started = time.monotonic()
    with tempfile.TemporaryFile() as answers:
        child = subprocess.Popen([program, f"workers={workers}"], stdin=open(deals), stdout=answers)
        _, status, usage = os.wait4(child.pid, 0)
        seconds = time.monotonic() - started
        if status:
            sys.exit(f"{program} ended with status {status}")
        answers.seek(0)
        return answers.read(), seconds, usage.ru_utime + usage.ru_stime, usage.ru_maxrss / 1024


def main():
    program = os.path.abspath(sys.argv[1])
    number = sys.argv[2] if len(sys.argv) > 2 else "36"
    turns = int(sys.argv[3]) if len(sys.argv) > 3 else 1
    make = os.path.join(os.path.dirname(__file__), "../crates/deal_tables/figures/make.py")
    with tempfile.TemporaryDirectory() as work:
        deals = os.path.join(work, "deals")
        with open(deals, "w") as lines:
            subprocess.run([sys.executable, make, number, "2026"], stdout=lines, check=True)
        first = None
        for _ in range(turns):
            print(f"{number} deals, load {os.getloadavg()[0]:.1f} on {os.cpu_count()} processors", flush=True)
            alone = None
            for workers in (1, 2, 4):
                answers, seconds, spent, megabytes = run(program, workers, deals)
                first, alone = first or answers, alone or seconds
                if answers != first:
                    sys.exit(f"{workers} workers give other numbers")
                print(
                    f"{workers} workers: {seconds:.1f} s, {alone / seconds:.2f} times as fast as one; "
                    f"{spent:.1f} processor s, {spent / seconds:.2f} a second; {megabytes:.0f} MB",
                    flush=True,
                )


main()

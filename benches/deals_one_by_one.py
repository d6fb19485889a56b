#!/usr/bin/env python3
"""Times deal_tables beside DDS deal by deal, and says what all take together and which deals are slowest beside DDS.

    benches/deals_one_by_one.py crates/deal_tables/out/deal_tables [DEALS [TURNS]]

DEALS is a file of deals, those of crates/deal_tables/figures/special.txt where none is given. Both programs go on from deal to deal, so no
start is in any time; of each deal the least processor time of the turns counts (2 where no number is given), since other work on a machine
slows single turns. A deal's time is what the kernel says that the program's threads ran, in nanoseconds. Needs libdds-dev and g++.
"""
import glob
import os
import subprocess
import sys
import tempfile

FIGURES = os.path.join(os.path.dirname(os.path.abspath(__file__)), "..", "crates", "deal_tables", "figures")


def started(words):
    return subprocess.Popen(words, stdin=subprocess.PIPE, stdout=subprocess.PIPE, stderr=subprocess.DEVNULL, text=True, bufsize=1)


def milliseconds(process):
    ran = 0
    for task in glob.glob(f"/proc/{process.pid}/task/*/schedstat"):
        with open(task, encoding="ascii") as stat:
            ran += int(stat.read().split()[0])
    return ran / 1e6


def solved(process, deal):
    """The twenty numbers of a deal, and the milliseconds that they took."""
    before = milliseconds(process)
    process.stdin.write(deal + "\n")
    process.stdin.flush()
    numbers = process.stdout.readline().rstrip("\n").split("\t")[1]
    return numbers, milliseconds(process) - before


def main():
    program = sys.argv[1]
    deals = sys.argv[2] if len(sys.argv) > 2 else os.path.join(FIGURES, "special.txt")
    turns = int(sys.argv[3]) if len(sys.argv) > 3 else 2
    with open(deals, encoding="ascii") as lines:
        deals = [line.split("\t")[0].strip() for line in lines if line.startswith("N:")]
    with tempfile.TemporaryDirectory() as room:
        subprocess.run(["g++", "-O2", "-o", f"{room}/dds", f"{FIGURES}/dds_tables.cpp", "-ldds"], check=True)
        ours, theirs = started([program]), started([f"{room}/dds"])
        least = [[float("inf"), float("inf")] for _ in deals]
        for _ in range(turns):
            for place, deal in enumerate(deals):
                here, there = solved(ours, deal), solved(theirs, deal)
                if here[0] != there[0]:
                    print(f"deal {place + 1} differs: {here[0]} here, {there[0]} by DDS")
                least[place] = [min(least[place][0], here[1]), min(least[place][1], there[1])]
        for process in (ours, theirs):
            process.stdin.close()
            process.wait()
    here, there = (sum(times[side] for times in least) for side in (0, 1))
    print(f"{len(deals)} deals: {here:.0f} ms here, {there:.0f} ms by DDS, ratio {here / there:.2f}")
    here, there = (sorted(times[side] for times in least)[len(deals) * 9 // 10 - 1] for side in (0, 1))
    print(f"at the 90th percentile: {here:.1f} ms here, {there:.1f} ms by DDS, ratio {here / there:.2f}")
    slowest = sorted(((a / b, place + 1, a, b) for place, (a, b) in enumerate(least)), reverse=True)
    print(f"above 1.5: {sum(ratio > 1.5 for ratio, *_ in slowest)} deals; the slowest beside DDS:")
    for ratio, place, a, b in slowest[:5]:
        print(f"deal {place}: {a:.1f} ms here, {b:.1f} ms by DDS, ratio {ratio:.2f}")
    hardest = sorted(((b, place + 1, a) for place, (a, b) in enumerate(least)), reverse=True)
    for b, place, a in hardest[:3]:
        print(f"the hardest by DDS: deal {place}: {a:.0f} ms here, {b:.0f} ms by DDS, ratio {a / b:.2f}")


if __name__ == "__main__":
    main()

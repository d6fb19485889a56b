#!/usr/bin/env python3
"""beside.py DEALS TIMES PROGRAM..: each program solves each deal in turn, so many times over, and of each deal the least user time
counts: on a machine with other work that is the only way to compare. The programs are mirrors (their `m`), and last `dds_tables`,
with which the others' numbers and times are compared. It prints a line for each program, and its worst twelve deals by ratio."""
import math
import subprocess
import sys

deals = [line.split("\t")[0].strip() for line in open(sys.argv[1]) if line.startswith("N:")]
times, programs = int(sys.argv[2]), sys.argv[3:]
running = [subprocess.Popen([p], stdin=subprocess.PIPE, stdout=subprocess.PIPE, stderr=subprocess.DEVNULL, text=True, bufsize=1)
           for p in programs]
spent = [[math.inf] * len(deals) for _ in programs]
numbers = [[""] * len(deals) for _ in programs]
visits = [[0] * len(deals) for _ in programs]
for _ in range(times):
    for i, deal in enumerate(deals):
        for k, process in enumerate(running):
            process.stdin.write(deal + "\n")
            process.stdin.flush()
            answer = process.stdout.readline().rstrip("\n").split("\t")
            numbers[k][i] = answer[1]
            visits[k][i] = int(answer[2]) if len(answer) > 3 else 0
            spent[k][i] = min(spent[k][i], float(answer[-1]))
last = spent[-1]
for k, program in enumerate(programs):
    ratios = sorted(((spent[k][i] / max(last[i], 0.1), i) for i in range(len(deals))), reverse=True)
    print(f"{program}: {sum(a != b for a, b in zip(numbers[k], numbers[-1]))} numbers differ, {sum(visits[k]) / 1e6:.3f} million visits, "
          f"{sum(spent[k]):.0f} ms, {sum(spent[k]) / sum(last):.3f} of the last, {sum(r > 1.5 for r, _ in ratios)} deals above 1.5")
    print("  " + " ".join(f"{i + 1}: {r:.2f} ({spent[k][i]:.1f} ms)" for r, i in ratios[:12]))

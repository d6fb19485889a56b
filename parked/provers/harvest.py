#!/usr/bin/env python3
"""harvest.py ROOT LOG: puts the rlibs that a timed gate in ROOT proved (LOG's lines) into the store of gate.py."""
import os, re, sys
sys.path.insert(0, os.path.dirname(os.path.abspath(__file__)))
import gate
root, log = os.path.realpath(sys.argv[1]), os.path.realpath(sys.argv[2])
os.chdir(root)
crates = {c.name: c for c in gate.crates_of(root)}
n = 0
for line in open(log):
    m = re.match(r"\S+ +[\d.]+s (\S+) proof: ok", line)
    if not m or m[1] not in crates: continue
    c = crates[m[1]]
    if not c.makes_rlib(): continue
    at = f"{gate.STORE}/{gate.key(c)}"
    if os.path.exists(f"{at}/done"): continue
    gate.link_tree(f"{c.folder}/out/rlib", f"{at}/rlib")
    open(f"{at}/log", "w").close(); open(f"{at}/done", "w").close(); n += 1
print(n, "harvested")

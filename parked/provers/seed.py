#!/usr/bin/env python3
"""seed.py CLONE: gives CLONE every proved library of the store whose files (and those below) are the clone's own."""
import os, sys
sys.path.insert(0, os.path.dirname(os.path.abspath(__file__)))
import gate
root = os.path.realpath(sys.argv[1]); os.chdir(root)
n, missing = 0, []
for c in gate.crates_of(root):
    if not c.makes_rlib(): continue
    at = f"{gate.STORE}/{gate.key(c)}"
    if os.path.exists(f"{at}/done"):
        stamp = f"{c.folder}/out/rlib/stamp"
        if not (os.path.exists(stamp) and open(stamp).read() == c.stamp() and os.path.isdir(c.rlib)):
            gate.link_tree(f"{at}/rlib", f"{c.folder}/out/rlib")
            open(stamp, "w").write(c.stamp())
        n += 1
    else: missing.append(c.name)
print(f"{n} libraries seeded; not in the store: {' '.join(missing) or 'none'}")

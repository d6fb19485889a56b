#!/usr/bin/env python3
"""edits.py CLONE CRATE..: tries the must-fail edits of crates of a seeded clone (seed.py) as rt ci does in kit 13f: one check of the crate, the
seed, and then each edit over what that proved. `rt must-fail` proves the crates below again."""
import os, shutil, sys
sys.path.insert(0, os.path.dirname(os.path.abspath(__file__)))
import gate
rt = gate.rt
root = os.path.realpath(sys.argv[1]); os.chdir(root)
status = 0
for crate in gate.crates_of(root):
    if crate.name not in sys.argv[2:]: continue
    room = rt.seeded(crate, ["--jobs", "1"])
    if not room: sys.exit(f"{crate.name} isn't proved as it stands")
    for edit in rt.edits_of(crate)[0]:
        came, said = rt.must_fail(crate, edit, ["--jobs", "1"], f"{room}/seed")
        print(said, flush=True); status |= came != rt.REFUSED
    shutil.rmtree(room, ignore_errors=True)
sys.exit(status)

#!/usr/bin/env python3
"""module.py ROOT NAME TC: builds a program of ROOT through a toolchain folder whose clang keeps what it is given."""
import os, sys, subprocess, tempfile
sys.path.insert(0, os.path.dirname(os.path.abspath(__file__)))
import gate
rt, rtlib = gate.rt, gate.rtlib
root, name, tc = sys.argv[1:4]
os.chdir(root)
crate = next(c for c in gate.crates_of(root) if c.name == name)
words = crate.words(["--jobs", "2"], keeps=False)
room = f"{tc}/checked.{name}"
if not os.path.exists(room) or "--anew" in sys.argv:
    r = subprocess.run([*rtlib.guarded(), rtlib.RATTLE, "check", *words, "-o", room], cwd=crate.folder, capture_output=True, text=True)
    print(r.stdout[-300:], r.stderr[-300:])
for flag in ("--logic-built", "--jobs"):
    at = words.index(flag); words = [*words[:at], *words[at + 2:]]
words += ["--crate-checked", room, "--toolchain", tc]
r = subprocess.run([*rtlib.guarded(), rtlib.RATTLE, "build", *words, "--backend", "llvm", "-o", f"{tc}/{name}.o"], cwd=crate.folder, capture_output=True, text=True)
print(r.stdout[-500:], r.stderr[-500:], r.returncode)

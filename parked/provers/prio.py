#!/usr/bin/env python3
"""prio.py NICE FOLDER: sets the priority of every process (all threads) whose working folder lies below FOLDER, and of gate.py over it."""
import os, sys
nice, folder = int(sys.argv[1]), sys.argv[2]
for p in os.listdir("/proc"):
    if not p.isdigit(): continue
    try:
        cwd = os.readlink(f"/proc/{p}/cwd"); cmd = open(f"/proc/{p}/cmdline").read()
    except OSError: continue
    if (cwd + "/").startswith(folder + "/") and ("rattle" in cmd or "gate.py" in cmd or "rtcheck" in cmd or "antt" in cmd or "clang" in cmd):
        for t in os.listdir(f"/proc/{p}/task"):
            try: os.setpriority(os.PRIO_PROCESS, int(t), nice)
            except OSError: pass

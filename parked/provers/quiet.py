#!/usr/bin/env python3
"""quiet.py COMMAND ..: stops all provers (by executable), runs the command, lets them go on."""
import os, signal, subprocess, sys, time
def provers():
    for p in os.listdir("/proc"):
        if p.isdigit():
            try: exe = os.readlink(f"/proc/{p}/exe")
            except OSError: continue
            if exe.startswith("/opt/rattle/bin/ra") or exe.startswith("/opt/rattle/toolchain/") or "antt" in os.path.basename(exe) or exe.startswith("/opt/rattle/"):
                yield int(p)
def send(s):
    for p in provers():
        try: os.kill(p, s)
        except OSError: pass
try:
    send(signal.SIGSTOP); time.sleep(0.3); send(signal.SIGSTOP)
    status = subprocess.run(sys.argv[1:]).returncode
    print(f"load {open('/proc/loadavg').read().split()[0]}", file=sys.stderr)
finally:
    send(signal.SIGCONT)
sys.exit(status)

#!/usr/bin/env python3
"""Refuses `bridge_server report` each request for memory, and fails each of its writes, one in turn.

    tests/memory/refuse_reports.py crates/bridge_server/out/bridge_server

A small session with a journal is reported in each form: first with ample memory, then with the Nth request refused, for each N. The whole
report is written, and the status is 0, where less room was enough; else nothing is written, and the status is 4 where memory is told, or 3
where the journal's file couldn't be read for want of it. Then the output takes at most 1,000 bytes a call, and the Nth call fails: exactly
the first bytes are written, and the status is 3. Both say why. It needs a C compiler (cc) for what is loaded under the program (LD_PRELOAD).
"""
import os
import pathlib
import re
import subprocess
import sys
import tempfile

ROOT = pathlib.Path(__file__).resolve().parents[2]
sys.path[:0] = [str(ROOT / "tests" / folder) for folder in ("drivers", "memory", "runs")]
from raw_client import BOARDS
from refuse_growths import REFUSING
from report import FORMS, kept, results_of_the_small, small_session

PROGRAM = os.path.abspath(sys.argv[1] if len(sys.argv) > 1 else "crates/bridge_server/out/bridge_server")
STEP = 1000
# what it says where it finds no memory, where it can't read the journal for want of it, and where it can't write (docs/RUNNING.md)
# room to read a script is asked for before the words are read
NO_ROOM = re.compile(rb"bridge_server: OutOfMemory \(for the (words|script|session|journal)\)\n")
UNREAD = re.compile(rb"bridge_server: Journal[A-Z][a-z]+\n")
UNWRITTEN = b"bridge_server: OutputUnwritten (the output can't be written)\n"
FAILING = r"""
#include <errno.h>
#include <stdlib.h>
#include <sys/syscall.h>
#include <unistd.h>
static unsigned long calls, failed_at;
__attribute__((constructor)) static void begin(void) { failed_at = strtoul(getenv("FAILED_AT"), 0, 10); }
ssize_t write(int fd, const void *from, size_t n) {
    if (fd != 1) return syscall(SYS_write, fd, from, n);
    if (++calls == failed_at) { errno = EIO; return -1; }
    return syscall(SYS_write, fd, from, n > STEP ? STEP : n);
}
"""


class Room:
    """A folder with a journal, and what is loaded under the program."""

    def __init__(self, at):
        self.at, self.journal, self.counted = at, at / "small.journal", at / "counted"
        kept(self.journal, small_session(budget=0), BOARDS, 3, results_of_the_small)
        for name, code in (("refusing", REFUSING), ("failing", FAILING)):
            (at / f"{name}.c").write_text(code)
            subprocess.run(["cc", "-shared", "-fPIC", "-O1", f"-DSTEP={STEP}", "-o", at / f"{name}.so", at / f"{name}.c", "-ldl"], check=True)

    def run(self, form, library=None, **more):
        loaded = {"LD_PRELOAD": str(self.at / f"{library}.so"), "ASKED_TO": str(self.counted)} if library else {}
        done = subprocess.run([PROGRAM, "report", "--journal", str(self.journal), "--as", form], env={**os.environ, **loaded, **more},
                              stdin=subprocess.DEVNULL, capture_output=True, timeout=60, check=False)
        return done.returncode, done.stdout, done.stderr


def refuse_memory(room, form, whole):
    assert room.run(form, "refusing", REFUSED_AT="0") == (0, whole, b"")
    asked = int(room.counted.read_text())
    assert asked > 0
    found = {}
    for n in range(1, asked + 1):
        status, text, err = room.run(form, "refusing", REFUSED_AT=str(n))
        told = f"{form}, request {n} of {asked}: {status}, {len(text)} bytes, {err}"
        said = {3: UNREAD, 4: NO_ROOM}.get(status)
        assert (text == b"" and said.fullmatch(err)) if said else (status, text, err) == (0, whole, b""), told
        found[status] = found.get(status, 0) + 1
    assert found.get(4, 0) > found.get(3, 0), found
    print(f"{form}: {asked} requests for memory, each refused in turn: " + ", ".join(f"status {s} {count}" for s, count in sorted(found.items())), flush=True)


def fail_writes(room, form, whole):
    calls = -(-len(whole) // STEP)
    assert room.run(form, "failing", FAILED_AT="0") == (0, whole, b"")
    for n in range(1, calls + 1):
        got = room.run(form, "failing", FAILED_AT=str(n))
        assert got == (3, whole[:STEP * (n - 1)], UNWRITTEN), f"{form}, write {n} of {calls}: {got[0]}, {len(got[1])} bytes, {got[2]}"
    print(f"{form}: {calls} writes, each failed in turn: its first part and status 3", flush=True)


def main():
    with tempfile.TemporaryDirectory(prefix="reports_") as at:
        room = Room(pathlib.Path(at))
        for form in FORMS:
            status, whole, err = room.run(form)
            assert (status, err) == (0, b"") and whole, (form, status, err)
            refuse_memory(room, form, whole)
            fail_writes(room, form, whole)


if __name__ == "__main__":
    main()

#!/usr/bin/env python3
"""Runs the gate (`rt ci`), and writes a line for each of its checks as it ends, which benches/gate_picture.py draws:

    22:09:38    21.3s mitchell proof: ok

    benches/timed_gate.py LOG [--anew] [CRATE..]

The gate is the kit's own, and so are what it says and its status; with `--anew` nothing counts that an earlier run proved, and with crates
it goes over these and those below them alone, which the kit does on a copy. To LOG is added, of each check, the time of day at which it ended, how long it took, its crate, what it was (`proof`, `tests`, `edits`, or in kit 13f
`seed` and `edit`), and `ok` or `FAILED`. A program's proof has its two builds in it. The last line, `ended after`, has the whole time, with
the runs of the programs and of the tests.

Kit 13b looks at the files below a library once for each path of crates.txt that leads there (docs/GATE.md). Here it does so once, since
nobody may edit a file while a gate runs.
"""
import importlib.machinery
import os
import pathlib
import shutil
import sys
import time
import types

ROOT = pathlib.Path(__file__).resolve().parent.parent


def kits_rt():
    """The kit's command as a module."""
    path = os.path.realpath(shutil.which("rt"))
    rt = types.ModuleType("rt")
    rt.__file__ = path
    importlib.machinery.SourceFileLoader("rt", path).exec_module(rt)
    return rt


def once(method):
    """A method without arguments that remembers what it returned."""

    def remembered(self):
        known = self.__dict__.setdefault("known", {})
        if method not in known:
            known[method] = method(self)
        return known[method]

    return remembered


def time_checks(rt, log):
    """Has each check of the gate write its line."""

    def tell(crate, kind, began, is_well, what=""):
        times = f"{time.strftime('%H:%M:%S')} {time.time() - began:7.1f}s"
        print(f"{times} {crate.name} {kind}: {'ok' if is_well else 'FAILED'} {what}".rstrip(), file=log, flush=True)

    prove = rt.Crate.ci

    def timed_proof(crate, flags, tests):
        began = time.time()
        status = prove(crate, flags, tests)
        tell(crate, "tests" if tests else "proof", began, not status)
        return status

    rt.Crate.ci = timed_proof
    if not hasattr(rt, "must_fail_all"):
        return time_edits_over_a_seed(rt, tell)
    try_edits = rt.must_fail_all

    def timed_edits(crate, edits, flags):
        began = time.time()
        tried = try_edits(crate, edits, flags)
        if edits:
            tell(crate, "edits", began, all(is_refused for is_refused, _ in tried))
        return tried

    rt.must_fail_all = timed_edits


def time_edits_over_a_seed(rt, tell):
    """As kit 13f tries edits: one check of the crate, the seed, and then each edit over what that proved, as a check of its own."""
    seeded, must_fail = rt.seeded, rt.must_fail

    def timed_seed(crate, flags, start=None):
        began = time.time()
        room = seeded(crate, flags, start)
        tell(crate, "seed", began, room)
        return room

    def timed_edit(crate, edit, flags, kept=None):
        began = time.time()
        tried = must_fail(crate, edit, flags, kept)
        tell(crate, "edit", began, tried[0] == rt.REFUSED, pathlib.Path(edit).stem)
        return tried

    rt.seeded, rt.must_fail = timed_seed, timed_edit


def main():
    if len(sys.argv) < 2 or sys.argv[1].startswith("-"):
        sys.exit(__doc__)
    rt = kits_rt()
    rt.rtlib.Crate.stamp, rt.rtlib.Crate.below = once(rt.rtlib.Crate.stamp), once(rt.rtlib.Crate.below)
    with open(sys.argv[1], "a", encoding="utf-8") as log:
        os.chdir(ROOT)
        time_checks(rt, log)
        began = time.time()
        status = rt.main(["ci", *sys.argv[2:]])
        print(f"ended after {time.time() - began:.0f}s, with status {status}", file=log)
    return status


if __name__ == "__main__":
    sys.exit(main())

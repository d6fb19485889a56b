#!/usr/bin/env python3
"""Fails each read and each write of a script's run in turn, after each byte.

    python3 tests/drivers/failing_devices.py crates/bridge_server/out/bridge_server

Runs `bridge_server script` on a session and messages with its input and its output moved a byte at a time: first each call succeeds; then the
Nth read fails, for each N, and then the Nth write. What each of these must do:

- A failed read: exactly the lines are answered whose end was read, and the status is 3. The end of the input is read as well.
- A failed write: exactly the bytes before it were written, and the status is 3.

Nothing is printed on standard error. It needs a C compiler (cc) for the library that fails the calls, which is loaded under the program
(LD_PRELOAD).
"""
import concurrent.futures
import os
import pathlib
import subprocess
import sys
import tempfile

sys.path[:0] = [str(pathlib.Path(__file__).resolve().parents[1] / folder) for folder in ("runs",)]
from write_query_runs import hold, release
from write_stored_runs import SESSION, text_of

PROGRAM = sys.argv[1] if len(sys.argv) > 1 else "crates/bridge_server/out/bridge_server"
FAILING = r"""
#include <errno.h>
#include <stdio.h>
#include <stdlib.h>
#include <string.h>
#include <sys/syscall.h>
#include <unistd.h>
static unsigned long calls, failed_at;
static char *kind;
__attribute__((constructor)) static void begin(void) {
    kind = getenv("FAILED_CALL");
    failed_at = strtoul(getenv("FAILED_AT"), 0, 10);
}
static int is_failed(const char *name) {
    if (strcmp(kind, name) || ++calls != failed_at) return 0;
    errno = EIO;
    return 1;
}
static size_t least(size_t n) { return n > 1 ? 1 : n; }
ssize_t read(int fd, void *to, size_t n) {
    if (fd != 0) return syscall(SYS_read, fd, to, n);
    return is_failed("read") ? -1 : syscall(SYS_read, fd, to, least(n));
}
ssize_t write(int fd, const void *from, size_t n) {
    if (fd != 1) return syscall(SYS_write, fd, from, n);
    return is_failed("write") ? -1 : syscall(SYS_write, fd, from, least(n));
}
__attribute__((destructor)) static void end(void) {
    FILE *it = fopen(getenv("CALLS_TO"), "w");
    if (it) { fprintf(it, "%lu", calls); fclose(it); }
}
void _exit(int status) {
    end();
    syscall(SYS_exit_group, status);
    __builtin_unreachable();
}
"""
MESSAGES = ({"as": "d", "do": [hold(1), release(1)]}, {"as": "n1", "ask": "board", "board": 1}, {"as": "d", "ask": "board", "board": 1},
            {"as": "s", "ask": "status"}, {"as": "d", "audit": {"from": 1, "limit": 10}})
# the status, and what is said (docs/RUNNING.md)
INPUT_FAILS = 3, b"bridge_server: ScriptUnread (the script can't be read, or is too long)\n"
OUTPUT_FAILS = 3, b"bridge_server: OutputUnwritten (the output can't be written)\n"


def run(room, text, kind, n):
    """The status where the Nth call of a kind fails, what was written on each output, and how often it was called."""
    with tempfile.TemporaryDirectory() as folder:
        given, calls = pathlib.Path(folder, "given"), pathlib.Path(folder, "calls")
        given.write_bytes(text)
        env = {**os.environ, "LD_PRELOAD": f"{room}/failing.so", "FAILED_CALL": kind, "FAILED_AT": str(n), "CALLS_TO": str(calls)}
        with given.open("rb") as opened:
            done = subprocess.run([PROGRAM, "script"], stdin=opened, capture_output=True, env=env, timeout=60, check=False)
        return done.returncode, done.stdout, done.stderr, int(calls.read_text()) if calls.exists() else 0


def answers_of(text, answers, count):
    """What is answered where so many bytes of the text were read: the first line, which is the session, gets no answer."""
    ended = text[:count].count(b"\n")
    return b"".join(answers[: max(0, ended - 1)])


def main():
    text = b"".join((line if isinstance(line, str) else text_of(line)).strip().encode() + b"\n" for line in (SESSION, *MESSAGES))
    with tempfile.TemporaryDirectory() as room:
        pathlib.Path(room, "failing.c").write_text(FAILING)
        subprocess.run(["cc", "-O1", "-shared", "-fPIC", "-o", f"{room}/failing.so", f"{room}/failing.c"], check=True)
        with concurrent.futures.ThreadPoolExecutor(4) as pool:
            for kind in ("read", "write"):
                status, ample, errors, calls = run(room, text, kind, 0)
                answers = ample.splitlines(keepends=True)
                assert (status, errors, len(answers)) == (0, b"", len(MESSAGES)), (status, errors, ample)
                moved = len(text) if kind == "read" else len(ample)
                assert calls >= moved, f"{calls} calls to {kind} for {moved} bytes: they don't move a byte each"
                for n, (status, out, errors, _) in enumerate(pool.map(lambda n: run(room, text, kind, n), range(1, calls + 1)), 1):
                    wanted = answers_of(text, answers, n - 1) if kind == "read" else ample[: n - 1]
                    if ((status, errors), out) != (INPUT_FAILS if kind == "read" else OUTPUT_FAILS, wanted):
                        raise SystemExit(f"FAILED  {kind} {n} of {calls}: status {status}, {out!r}, {errors!r}; {wanted!r} is as it should be")
                print(f"ok      {kind}: each of {calls} calls", flush=True)
    print("all is as it should be")


if __name__ == "__main__":
    main()

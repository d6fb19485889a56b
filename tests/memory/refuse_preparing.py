#!/usr/bin/env python3
"""Refuses `bridge_server prepare` each request for memory, and fails each of its calls to the system, one in turn.

    tests/memory/refuse_preparing.py crates/bridge_server/out/bridge_server

A session of six people and three tables is prepared: first with ample memory, then with the Nth request refused, for each N; then with
the Nth call of one kind failed, for each N and kind: to read, to write, to open a file, to make a folder, for random bytes. Whatever is
refused, either all three files are there, whole, and the status is 0, or the status is 4 (memory) or 3 (the system), and no folder is.
Where a read or a write moves a byte alone, which is no failure, all is there. It needs a C compiler (cc) for what is loaded under the
program (LD_PRELOAD).
"""
import json
import os
import pathlib
import re
import shutil
import subprocess
import sys
import tempfile

from refuse_growths import REFUSING

ROOT = pathlib.Path(__file__).resolve().parents[2]
PROGRAM = os.path.abspath(sys.argv[1] if len(sys.argv) > 1 else "crates/bridge_server/out/bridge_server")
PEOPLE = "name,pair,place,roles,number\nDora Weiß,,,Director Administrator,\nSam,,,Scorer,\nAnna Müller,NS1,N,,1001\nBen,NS1,S,,\nCarla,EW1,E,,A7\nAnna Roth,EW1,W,,\n"
FAILING = r"""
#define _GNU_SOURCE
#include <errno.h>
#include <fcntl.h>
#include <stdarg.h>
#include <stdio.h>
#include <stdlib.h>
#include <string.h>
#include <sys/stat.h>
#include <sys/syscall.h>
#include <unistd.h>
static unsigned long calls, failed_at;
static int error;
static char *kind;
__attribute__((constructor)) static void begin(void) {
    kind = getenv("FAILED_CALL");
    failed_at = strtoul(getenv("FAILED_AT"), 0, 10);
    error = atoi(getenv("FAILED_WITH"));
}
/* 0: the call is made; 1: it fails; 2: it moves a byte alone */
static int is_failed(const char *name) {
    if (!kind || strcmp(kind, name) || ++calls != failed_at) return 0;
    if (error == 0) return 2;
    errno = error;
    return 1;
}
static int is_ours(int fd) { struct stat s; return fd > 2 && syscall(SYS_fstat, fd, &s) == 0 && S_ISREG(s.st_mode); }
ssize_t read(int fd, void *to, size_t n) {
    int how = is_ours(fd) ? is_failed("read") : 0;
    return how == 1 ? -1 : syscall(SYS_read, fd, to, how == 2 && n > 1 ? 1 : n);
}
ssize_t write(int fd, const void *from, size_t n) {
    int how = is_ours(fd) ? is_failed("write") : 0;
    return how == 1 ? -1 : syscall(SYS_write, fd, from, how == 2 && n > 1 ? 1 : n);
}
static int opened(int at, const char *path, int flags, int mode) { return is_failed("open") == 1 ? -1 : syscall(SYS_openat, at, path, flags, mode); }
#define MODE(flags) int mode = 0; if ((flags) & (O_CREAT | O_TMPFILE)) { va_list more; va_start(more, flags); mode = va_arg(more, int); va_end(more); }
int open(const char *path, int flags, ...) { MODE(flags) return opened(AT_FDCWD, path, flags, mode); }
int open64(const char *path, int flags, ...) { MODE(flags) return opened(AT_FDCWD, path, flags, mode); }
int openat(int at, const char *path, int flags, ...) { MODE(flags) return opened(at, path, flags, mode); }
int openat64(int at, const char *path, int flags, ...) { MODE(flags) return opened(at, path, flags, mode); }
int mkdir(const char *path, mode_t mode) { return is_failed("mkdir") == 1 ? -1 : syscall(SYS_mkdirat, AT_FDCWD, path, mode); }
ssize_t getrandom(void *to, size_t n, unsigned flags) { return is_failed("random") == 1 ? -1 : syscall(SYS_getrandom, to, n, flags); }
int getentropy(void *to, size_t n) { return is_failed("random") == 1 ? -1 : syscall(SYS_getrandom, to, n, 0) == (long)n ? 0 : -1; }
__attribute__((destructor)) static void end(void) {
    FILE *it = fopen(getenv("CALLS_TO"), "w");
    if (it) { fprintf(it, "%lu", calls); fclose(it); }
}
void _exit(int status) {
    kind = 0;
    end();
    syscall(SYS_exit_group, status);
    __builtin_unreachable();
}
"""
# what it says where it finds no memory (docs/RUNNING.md)
# room to read a script is asked for before the words are read
NO_ROOM = re.compile(rb"bridge_server: OutOfMemory \(for the (words|script|session)\)\n")
# each kind, and the numbers of the errors with which it fails: input or output, no space, no permission, no memory; 0 moves a byte alone
KINDS = {"read": (5, 0), "write": (5, 28, 0), "open": (13, 24), "mkdir": (13, 28), "random": (38,)}


class Room:
    """A folder with the list and the deals, and where the prepared folder is made."""

    def __init__(self, at):
        self.at, self.to = at, at / "evening"
        (at / "people.csv").write_text(PEOPLE, encoding="utf-8")
        self.words = [PROGRAM, "prepare", "--people", at / "people.csv", "--deals", ROOT / "examples/club.pbn", "--tables", "3", "--rounds", "3",
                      "--per-set", "1", "--to", self.to]

    def compiled(self, name, code):
        (self.at / f"{name}.c").write_text(code)
        subprocess.run(["cc", "-shared", "-fPIC", "-O1", "-o", self.at / f"{name}.so", self.at / f"{name}.c", "-ldl"], check=True)

    def run(self, library, **more):
        counted = self.at / "counted"
        env = {**os.environ, "LD_PRELOAD": str(self.at / f"{library}.so"), **{name: str(value) for name, value in more.items()}}
        env["ASKED_TO" if library == "refusing" else "CALLS_TO"] = str(counted)
        done = subprocess.run([str(word) for word in self.words], env=env, stdin=subprocess.DEVNULL, capture_output=True, timeout=60, check=False)
        whole = self.is_whole()
        there = self.to.exists()
        shutil.rmtree(self.to, ignore_errors=True)
        assert done.stdout == b"", done.stdout
        return done.returncode, done.stderr, whole, there, int(counted.read_text())

    def is_whole(self):
        try:
            session = json.loads((self.to / "session.json").read_text(encoding="utf-8"))
            rows = (self.to / "tokens.csv").read_text(encoding="utf-8").splitlines()
            cards = (self.to / "cards.html").read_text(encoding="utf-8")
        except (OSError, ValueError):
            return False
        return len(session["users"]) == 6 and len(rows) == 7 and cards.count("data-link") == 6 and cards.rstrip().endswith("</html>")


def refuse_memory(room):
    status, err, whole, _, asked = room.run("refusing", REFUSED_AT=0)
    assert (status, err, whole) == (0, b"", True) and asked > 0, (status, err, whole, asked)
    found = {}
    for n in range(1, asked + 1):
        status, err, whole, there, _ = room.run("refusing", REFUSED_AT=n)
        assert (status, whole) == (0, True) or (status, there) == (4, False) and NO_ROOM.fullmatch(err), f"request {n} of {asked}: {status}, {whole}, {there}, {err}"
        found[status] = found.get(status, 0) + 1
    print(f"{asked} requests for memory, each refused in turn: status 4 and no folder {found.get(4, 0)}, less room was enough {found.get(0, 0)}", flush=True)


def fail_calls(room):
    for kind, errors in KINDS.items():
        status, err, whole, _, calls = room.run("failing", FAILED_CALL=kind, FAILED_AT=0, FAILED_WITH=5)
        assert (status, err, whole) == (0, b"", True), (kind, status, err, whole)
        assert calls > 0, f"no call to {kind} is seen"
        for error in errors:
            found = {}
            for n in range(1, calls + 1):
                status, err, whole, there, _ = room.run("failing", FAILED_CALL=kind, FAILED_AT=n, FAILED_WITH=error)
                told = f"{kind} {n} of {calls} with error {error}: {status}, {whole}, {there}, {err}"
                if error == 0:
                    assert (status, whole) == (0, True), told
                elif kind == "random":
                    # no token is made of anything else
                    assert status == 3 and not there and err.startswith(b"bridge_server: NoRandomness"), told
                else:
                    assert (status, whole) == (0, True) or (status in (1, 3, 4) and not there), told
                found[status] = found.get(status, 0) + 1
            print(f"{kind}: {calls} calls, each {'moves a byte alone' if error == 0 else f'fails with error {error}'} in turn: status "
                  + ", ".join(f"{status} {count}" for status, count in sorted(found.items())), flush=True)


def main():
    with tempfile.TemporaryDirectory(prefix="preparing_") as at:
        room = Room(pathlib.Path(at))
        room.compiled("refusing", REFUSING)
        room.compiled("failing", FAILING)
        refuse_memory(room)
        fail_calls(room)


if __name__ == "__main__":
    main()

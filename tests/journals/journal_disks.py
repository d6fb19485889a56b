#!/usr/bin/env python3
"""Lets the disk under a journal fill up, and fails each call to its file in turn; says what the server's clients are told then.

    python3 tests/journals/journal_disks.py crates/bridge_server/out/bridge_server [full] [calls]

It needs Debian's package sqlite3, and for `calls` a C compiler (cc). A director has board 1 held and released by batches.

`full`: the journal lies on a file system of 1 MiB, which is mounted, by whoever isn't root in namespaces of his own (`unshare`). Once it
is full each batch is answered `NotKept`, queries and audits go on and show what was kept before; once there is room again, a batch goes
through; and the next start has each batch whose receipt came, and no other.

`calls`: the Nth call of one kind fails, for each N and each kind, to the journal's file, to its log or to their folder, by a library that is
loaded under the program (LD_PRELOAD): to write, to write but a byte (which is no failure), to sync, to cut, to read, to open, to lock.

- While batches are kept: each is answered by its receipt, by `NotKept` or by `Unsure`; after `Unsure` no other is kept. The status and the
  audit show the batches that were answered by receipts. So does the file afterwards, in which the batch that was answered by `Unsure` may be
  too; the next start goes on from it.
- While the server starts: it ends with status 3 and names a fault of a journal, or serves as if nothing had failed; the file has the same rows, and
  the next start finds them.
"""
import concurrent.futures
import json
import os
import pathlib
import socket
import subprocess
import sys
import tempfile

sys.path[:0] = [str(pathlib.Path(__file__).resolve().parents[1] / folder) for folder in ("drivers", "runs")]
from journal_files import GOES_THROUGH, copied, fault, integrity_of, ran, rows_of, started
from raw_client import BOARDS, SESSION, Client, Server
from write_query_runs import hold, release
from write_stored_runs import text_of

PROGRAM = sys.argv[1] if len(sys.argv) > 1 else "crates/bridge_server/out/bridge_server"
# of a run in namespaces of its own
ALONE = "JOURNAL_DISKS_ALONE"
FAILING = r"""
#define _GNU_SOURCE
#include <errno.h>
#include <fcntl.h>
#include <stdarg.h>
#include <stdio.h>
#include <stdlib.h>
#include <string.h>
#include <sys/syscall.h>
#include <unistd.h>
static unsigned long calls, failed_at;
static int error;
static char *kind, *folder, *counted_after;
__attribute__((constructor)) static void begin(void) {
    kind = getenv("FAILED_CALL");
    folder = getenv("JOURNAL_FOLDER");
    counted_after = getenv("COUNTED_AFTER");
    failed_at = strtoul(getenv("FAILED_AT"), 0, 10);
    error = atoi(getenv("FAILED_WITH"));
}
static int lies_there(const char *path) { return !strncmp(path, folder, strlen(folder)); }
static int is_there(int fd) {
    char link[64], path[4096];
    snprintf(link, sizeof link, "/proc/self/fd/%d", fd);
    ssize_t n = syscall(SYS_readlink, link, path, sizeof path - 1);
    if (n < 0) return 0;
    path[n] = 0;
    return lies_there(path);
}
/* 0: the call is made; 1: it fails; 2: it moves a byte alone */
static int is_failed(const char *name) {
    if (strcmp(kind, name) || syscall(SYS_access, counted_after, F_OK) || ++calls != failed_at) return 0;
    if (error == 0) return 2;
    errno = error;
    return 1;
}
static int fails(const char *name, int fd) { return is_there(fd) ? is_failed(name) : 0; }
#define MOVES(name, call) { \
    int how = fails(name, fd); \
    if (how == 1) return -1; \
    if (how == 2 && n > 1) n = 1; \
    return call; }
ssize_t pwrite(int fd, const void *from, size_t n, off_t at) MOVES("write", syscall(SYS_pwrite64, fd, from, n, at))
ssize_t pwrite64(int fd, const void *from, size_t n, off_t at) MOVES("write", syscall(SYS_pwrite64, fd, from, n, at))
ssize_t pread(int fd, void *to, size_t n, off_t at) MOVES("read", syscall(SYS_pread64, fd, to, n, at))
ssize_t pread64(int fd, void *to, size_t n, off_t at) MOVES("read", syscall(SYS_pread64, fd, to, n, at))
int fsync(int fd) { return fails("sync", fd) ? -1 : syscall(SYS_fsync, fd); }
int fdatasync(int fd) { return fails("sync", fd) ? -1 : syscall(SYS_fdatasync, fd); }
int ftruncate(int fd, off_t to) { return fails("cut", fd) ? -1 : syscall(SYS_ftruncate, fd, to); }
int ftruncate64(int fd, off_t to) { return fails("cut", fd) ? -1 : syscall(SYS_ftruncate, fd, to); }
#define OPENS { \
    va_list more; va_start(more, flags); int mode = va_arg(more, int); va_end(more); \
    return lies_there(path) && is_failed("open") ? -1 : syscall(SYS_openat, at, path, flags, mode); }
int open(const char *path, int flags, ...) { int at = AT_FDCWD; OPENS }
int open64(const char *path, int flags, ...) { int at = AT_FDCWD; OPENS }
int openat(int at, const char *path, int flags, ...) OPENS
int openat64(int at, const char *path, int flags, ...) OPENS
#define LOCKS { \
    va_list more; va_start(more, command); void *rest = va_arg(more, void *); va_end(more); \
    int lock = command == F_OFD_SETLK || command == F_SETLK; \
    return lock && fails("lock", fd) ? -1 : syscall(SYS_fcntl, fd, command, rest); }
int fcntl(int fd, int command, ...) LOCKS
int fcntl64(int fd, int command, ...) LOCKS
__attribute__((destructor)) static void end(void) {
    FILE *it = fopen(getenv("CALLS_TO"), "w");
    if (it) { fprintf(it, "%lu", calls); fclose(it); }
}
/* a program with threads ends so, and no destructor is run */
void _exit(int status) {
    end();
    syscall(SYS_exit_group, status);
    __builtin_unreachable();
}
"""
HELLO, STATUS, AUDIT = {"hello": "d", "token": "abc"}, {"ask": "status"}, {"audit": {"from": 1, "limit": 1000}}
NOT_KEPT, UNSURE = {"error": "NotKept"}, {"error": "Unsure"}
# errno(3), and 0: a byte alone is moved
EIO, ENOSPC, EMFILE, ENOLCK = 5, 28, 24, 37
WHILE_KEPT = [("write", EIO), ("write", ENOSPC), ("write", 0), ("sync", EIO), ("sync", ENOSPC), ("cut", EIO), ("read", EIO), ("read", 0)]
AT_START = [*WHILE_KEPT, ("open", EMFILE), ("lock", ENOLCK)]
UNREAD = (3, b"", fault("JournalUnread"))
OTHER_FAULTS = [(3, b"", fault(name)) for name in ("JournalDamaged", "JournalBusy")]
KEPT_BEFORE, BATCHES = 3, 4
# A batch is written by three calls and synced twice: of these each that fails keeps back a receipt.
LEAST_NOTICED = {("while_kept", "write"): 3 * BATCHES, ("while_kept", "sync"): 2 * BATCHES}


def batch(size=2):
    return {"do": [hold(1), release(1)] * (size // 2)}


def receipt(before, size=2):
    return {"answers": ["ok"] * size, "first": before + 1, "last": before + size, "version": before + size}


def told(client, message):
    return json.loads(client.ask(message))


def signed_in(server):
    client = Client(server, 30)
    assert told(client, HELLO) == {"hello": "d"}
    return client


def shows(client, version):
    """The status and the audit are of this version, and name just its entries."""
    rows = []
    while got := told(client, {"audit": {"from": len(rows) + 1, "limit": 1000}})["audit"]:
        rows += got
    wanted = [[number, "d", "Hold" if number % 2 else "Release", "1"] for number in range(1, version + 1)]
    return told(client, STATUS)["version"] == version and rows == wanted


def killed(server):
    """Kills the server, and says whether it wrote nothing."""
    server.process.kill()
    return server.stopped() == (-9, b"", b"")


def goes_on(journal, versions):
    """A start finds one of these versions, shows it, and keeps a batch more. What was found."""
    rows = len(rows_of(journal))
    assert rows in versions, f"{rows} rows, and not {versions}"
    assert integrity_of(journal) == "ok", integrity_of(journal)
    with Server(PROGRAM, "--journal", journal, "--displays", 1, "--workers", 0) as server:
        client = signed_in(server)
        assert shows(client, rows), "what is shown after the next start isn't what the file has"
        assert told(client, batch()) == receipt(rows) and shows(client, rows + 2), "the next batch"
        assert killed(server)
    assert len(rows_of(journal)) == rows + 2
    return rows


def start(folder, journal, env=None):
    """How a start ends. The port isn't free, so that one which goes through ends there."""
    session, deals = pathlib.Path(folder, "session.json"), pathlib.Path(folder, "deals.pbn")
    session.write_text(text_of(SESSION))
    deals.write_text(BOARDS)
    with socket.socket() as taken:
        taken.bind(("127.0.0.1", 0))
        taken.listen()
        words = ["--session", session, "--deals", deals, "--journal", journal, "--displays", 1, "--workers", 0]
        return started(ran(PROGRAM, "serve", *words, "--port", taken.getsockname()[1], env=env))


def outcome(ended):
    return ended[2].decode().strip().removeprefix("bridge_server: ") or "goes through"


# ---- a file system that is full

def fill(folder):
    """Fills the disk with batches; makes room, and takes it again. How many entries are kept at the end."""
    journal, spare = folder / "club.journal", folder / "spare"
    spare.write_bytes(bytes(200 * 1024))
    with Server(PROGRAM, "--journal", journal, "--displays", 1, "--workers", 0) as server:
        client, version, went_in = signed_in(server), 0, 0
        while (heard := told(client, batch(8))) != NOT_KEPT:
            assert heard == receipt(version, 8), heard
            version, went_in = version + 8, went_in + 1
            assert went_in < 1000, "the file system is never full"
        assert shows(client, version), "what is shown on a full disk"
        assert [told(client, batch(8)) for _ in range(3)] == [NOT_KEPT] * 3 and shows(client, version), "the next batches on a full disk"
        spare.unlink()
        assert told(client, batch(8)) == receipt(version, 8) and shows(client, version + 8), "a batch once there is room"
        version += 8
        while (heard := told(client, batch(8))) != NOT_KEPT:
            assert heard == receipt(version, 8), heard
            version += 8
        assert shows(client, version) and killed(server)
    print(f"ok      full: {went_in} batches of 8 commands went in, then none, and {version // 8 - went_in} more once there was room", flush=True)
    return journal, version


def full():
    with tempfile.TemporaryDirectory() as name:
        place, elsewhere = pathlib.Path(name, "mounted"), pathlib.Path(name, "elsewhere")
        place.mkdir()
        elsewhere.mkdir()
        mounted = subprocess.run(["mount", "-t", "tmpfs", "-o", "size=1m", "tmpfs", str(place)], capture_output=True, text=True, check=False)
        if mounted.returncode:
            assert ALONE not in os.environ, f"nothing can be mounted here: {mounted.stderr.strip()}"
            subprocess.run(["unshare", "-rm", sys.executable, __file__, PROGRAM, "full"], env={**os.environ, ALONE: "1"}, check=True)
            return
        try:
            journal, version = fill(place)
            before, ended = rows_of(journal), start(name, journal)
            assert ended in (GOES_THROUGH, UNREAD) and rows_of(journal) == before, ended
            goes_on(copied(journal, elsewhere), [version])
            print(f"ok      full: a start on the full disk {outcome(ended)}, and loses nothing; elsewhere one has each batch whose receipt came", flush=True)
        finally:
            subprocess.run(["umount", str(place)], check=True)


# ---- calls that fail

def environment(room, folder, kind, error, n):
    return {**os.environ, "LD_PRELOAD": f"{room}/failing.so", "FAILED_CALL": kind, "FAILED_AT": str(n), "FAILED_WITH": str(error),
            "JOURNAL_FOLDER": str(folder), "COUNTED_AFTER": str(folder) + ".counted", "CALLS_TO": str(folder) + ".calls"}


def calls_of(folder):
    return int(pathlib.Path(f"{folder}.calls").read_text())


def prepared(name):
    """A folder with a journal of some batches, whose server was killed, so that the next start has a log to read."""
    folder = pathlib.Path(name, "kept")
    folder.mkdir()
    with Server(PROGRAM, "--journal", folder / "club.journal", "--displays", 1, "--workers", 0) as server:
        client = signed_in(server)
        assert [told(client, batch()) for _ in range(KEPT_BEFORE)] == [receipt(2 * k) for k in range(KEPT_BEFORE)]
        assert killed(server)
    return folder


def while_kept(room, kind, error, n):
    """What four batches are answered where the Nth call fails, in letters, and how many calls there were."""
    with tempfile.TemporaryDirectory() as name:
        folder = prepared(name)
        env, version, word, unsure = environment(room, folder, kind, error, n), 2 * KEPT_BEFORE, "", []
        with Server(PROGRAM, "--journal", folder / "club.journal", "--displays", 1, "--workers", 0, "--connections", 1, env=env) as server:
            pathlib.Path(f"{folder}.counted").touch()
            client = signed_in(server)
            for _ in range(BATCHES):
                heard = told(client, batch())
                assert heard in (receipt(version), NOT_KEPT, UNSURE), heard
                assert not unsure or heard == NOT_KEPT, ("kept after a failed sync", heard)
                version += 2 * (heard == receipt(version))
                unsure += [version + 2] * (heard == UNSURE)
                word += "u" if heard == UNSURE else "n" if heard == NOT_KEPT else "k"
                assert shows(client, version), "what is shown"
            assert client.leave()
            server.process.wait(30)
            assert server.stopped() == (0, b"", b""), "the end"
        goes_on(folder / "club.journal", [version, *unsure])
        return word, calls_of(folder)


def at_start(room, kind, error, n):
    """How a start ends where the Nth call fails, and how many calls there were."""
    with tempfile.TemporaryDirectory() as name:
        folder = prepared(name)
        journal = folder / "club.journal"
        pathlib.Path(f"{folder}.counted").touch()
        before = rows_of(journal)
        ended = start(name, journal, environment(room, folder, kind, error, n))
        assert ended in (GOES_THROUGH, UNREAD, *OTHER_FAULTS), ended
        assert rows_of(journal) == before, "a start has changed the rows"
        goes_on(journal, [2 * KEPT_BEFORE])
        return outcome(ended), calls_of(folder)


def fail_each(pool, what, run, ample, room, kind, error):
    """Fails each call of a kind in turn, and says what came of it."""
    word, count = run(room, kind, error, 10**9)
    assert word == ample, (kind, word)
    words = list(pool.map(lambda n: run(room, kind, error, n)[0], range(1, count + 1)))
    assert error or set(words) <= {ample}, f"a {kind} of a byte alone is a failure: {words}"
    noticed = sum(word != ample for word in words)
    assert not error or noticed >= LEAST_NOTICED.get((run.__name__, kind), 0), f"a {kind} failed, and nobody noticed: {words}"
    told_apart = ", ".join(f"{one}: {words.count(one)}" for one in sorted(set(words))) or "none is made"
    print(f"ok      {what}, {kind}, {f'error {error}' if error else 'a byte alone'}: each of {count} calls; {told_apart}", flush=True)


def calls():
    with tempfile.TemporaryDirectory() as room, concurrent.futures.ThreadPoolExecutor(4) as pool:
        pathlib.Path(room, "failing.c").write_text(FAILING)
        subprocess.run(["cc", "-O1", "-shared", "-fPIC", "-o", f"{room}/failing.so", f"{room}/failing.c"], check=True)
        for kind, error in WHILE_KEPT:
            fail_each(pool, "while batches are kept", while_kept, "k" * BATCHES, room, kind, error)
        print("        k: a batch was kept, n: NotKept, u: Unsure")
        for kind, error in AT_START:
            fail_each(pool, "while it starts", at_start, "goes through", room, kind, error)


def main():
    parts = {"full": full, "calls": calls}
    for part in sys.argv[2:] or parts:
        parts[part]()
    print("all is as it should be")


if __name__ == "__main__":
    main()

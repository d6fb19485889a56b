#!/usr/bin/env python3
"""Measures what a journal costs an Enter and a Confirm beside the sync: the server's processor time, less what it takes to write and to sync.

    benches/beside_the_sync.py [--beside EARLIER] [PROGRAM] [FOLDER] [ROUNDS [SECONDS]]

Two servers run at the same time, one without a journal and one whose journal lies in the folder, else in the system's for temporary files, and
get as many commands each in turn, in alternating order: what the rest of the machine does then falls on both alike. The session is that of
benches/book_time.py: 16 tables, 64 boards, 256 accounts; of five rounds of play a director enters all 64 results, and then confirms them,
each in a batch of its own, one after another, or with so many seconds between them. Each 64 are measured together, so that looking at the
clock disturbs none of them. Each round of measuring has two servers of its own. With `--beside` the server without a journal is another
program's, one from before there were journals say.

Processor time is the system's (Linux's schedstat) of the program's whole. What the sync is of it a library counts that is loaded under
the program (LD_PRELOAD): the processor time of the thread in its calls of pwrite, fdatasync and fsync, of which a server makes none without a
journal. Each call is looked at twice, of which the time of one look falls beside it: that is taken off too, as many looks in a row take it at
the server's start, since without the library nobody looks. It needs a C compiler (cc).
"""
import itertools
import os
import pathlib
import statistics
import struct
import subprocess
import sys
import tempfile
import time

ROOT = pathlib.Path(__file__).resolve().parent.parent
sys.path[:0] = [*(str(ROOT / "tests" / folder) for folder in ("drivers", "runs")), str(ROOT / "benches")]
import book_time  # noqa: E402
from journal_time import program_beside, signed_in, spent  # noqa: E402
from raw_client import Server  # noqa: E402

BESIDE, WORDS = program_beside(sys.argv[1:])
PROGRAM = WORDS[0] if WORDS else "crates/bridge_server/out/bridge_server"
FOLDER = WORDS[1] if len(WORDS) > 1 else None
ROUNDS = int(WORDS[2]) if len(WORDS) > 2 else 12
PAUSE = float(WORDS[3]) if len(WORDS) > 3 else 0
OPENED = book_time.session()
DEALS = OPENED.pop("pbn")
LOOKS = 20_000
COUNTING = f"#define LOOKS {LOOKS}" + r"""
#define _GNU_SOURCE
#include <fcntl.h>
#include <stdlib.h>
#include <sys/mman.h>
#include <sys/syscall.h>
#include <time.h>
#include <unistd.h>
static unsigned long unseen[3], *seen = unseen;
static unsigned long now(void) {
    struct timespec at;
    clock_gettime(CLOCK_THREAD_CPUTIME_ID, &at);
    return at.tv_sec * 1000000000ul + at.tv_nsec;
}
__attribute__((constructor)) static void begin(void) {
    int fd = syscall(SYS_openat, AT_FDCWD, getenv("SYNC_TIME"), O_RDWR);
    void *it = mmap(0, sizeof unseen, PROT_READ | PROT_WRITE, MAP_SHARED, fd, 0);
    if (it == MAP_FAILED) abort();
    seen = it;
    syscall(SYS_close, fd);
    unsigned long begun = now();
    for (int look = 1; look < LOOKS; look++) now();
    seen[2] = now() - begun;
}
#define COUNTED(type, call) { \
    unsigned long begun = now(); \
    type told = call; \
    __atomic_add_fetch(&seen[0], now() - begun, __ATOMIC_RELAXED); \
    __atomic_add_fetch(&seen[1], 1, __ATOMIC_RELAXED); \
    return told; }
ssize_t pwrite(int fd, const void *from, size_t n, off_t at) COUNTED(ssize_t, syscall(SYS_pwrite64, fd, from, n, at))
ssize_t pwrite64(int fd, const void *from, size_t n, off_t at) COUNTED(ssize_t, syscall(SYS_pwrite64, fd, from, n, at))
int fsync(int fd) COUNTED(int, syscall(SYS_fsync, fd))
int fdatasync(int fd) COUNTED(int, syscall(SYS_fdatasync, fd))
"""


class Measured:
    """A server, a client of it, and what its commands took: all, and of that the sync, in microseconds; and how many calls those were."""

    def __init__(self, program, room, name, library, *words):
        self.counts = pathlib.Path(room, f"{name}.counts")
        self.counts.write_bytes(bytes(24))
        env = {**os.environ, "LD_PRELOAD": library, "SYNC_TIME": str(self.counts)}
        self.server = Server(program, *words, "--displays", 4, "--workers", 0, session=OPENED, deals=DEALS, env=env)
        self.client, self.took = signed_in(self.server), {"Enter": [], "Confirm": []}

    def so_far(self):
        nanoseconds, calls, looks = struct.unpack("QQQ", self.counts.read_bytes())
        return 1e6 * spent(self.server.process) - calls * looks / LOOKS / 1e3, nanoseconds / 1e3, calls

    def do_all(self, word, commands):
        """Does commands of one kind one after another, and notes what one of them took in the mean."""
        before = self.so_far()
        for command in commands:
            assert '"ok"' in self.client.ask({"do": [command]})
            if PAUSE:
                time.sleep(PAUSE)
        self.took.setdefault(word, []).append([(after - earlier) / len(commands) for after, earlier in zip(self.so_far(), before)])


def measured(room, library):
    """What the commands of five rounds took without a journal and with one."""
    both = [Measured(BESIDE or PROGRAM, room, "without", library), Measured(PROGRAM, room, "kept", library, "--journal", pathlib.Path(room, "kept.journal"))]
    with both[0].server, both[1].server:
        commands = [command for _, command in itertools.islice(book_time.commands(), 5 * 2 * book_time.BOARDS + 4)]
        for turn, (word, alike) in enumerate(itertools.groupby(commands, lambda command: command["cmd"])):
            alike = list(alike)
            for it in both if turn % 4 < 2 else reversed(both):
                it.do_all(word, alike)
    return [it.took for it in both]


def tell(what, without, kept):
    """A line: the means of both, what the sync is of the second, and what is left beside it."""
    (one, of_one, none), (other, sync, calls) = ([statistics.mean(column) for column in zip(*took)] for took in (without, kept))
    assert none == 0 and of_one == 0, "a server without a journal writes and syncs"
    print(f"{what}: {one:.1f} microseconds without a journal, {other:.1f} with one, {sync:.1f} of them in {calls:.2f} calls that write or sync; "
          f"beside them {other - sync:.1f}, that is {(other - sync) / one:.3f} times", flush=True)


def main():
    every = {"Enter": ([], []), "Confirm": ([], [])}
    with tempfile.TemporaryDirectory() as built:
        library = f"{built}/counting.so"
        subprocess.run(["cc", "-O2", "-shared", "-fPIC", "-o", library, "-x", "c", "-"], input=COUNTING.encode(), check=True)
        for count in range(ROUNDS):
            with tempfile.TemporaryDirectory(dir=FOLDER) as room:
                without, kept = measured(room, library)
            for word, both in every.items():
                tell(f"round {count + 1}, {word}", without[word], kept[word])
                both[0].extend(without[word])
                both[1].extend(kept[word])
    for word, both in every.items():
        tell(f"all rounds, {word}", *both)


if __name__ == "__main__":
    main()

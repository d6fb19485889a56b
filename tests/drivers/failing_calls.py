#!/usr/bin/env python3
"""Fails each call of a serving program to the system in turn, and says what its clients are told then.

    python3 tests/drivers/failing_calls.py crates/bridge_server/out/bridge_server

Starts `bridge_server serve` with one display, which serves three clients one after another: each signs in as a director, has board 1 held
and released, and asks for the status. First each call succeeds; then the Nth call of one kind fails, with the number of an error, for
each N and each kind: to read, to write, to accept, to set an option of a socket, to have a stream not block, to ask what is ready, to have
a stream among what is asked for, to read the clock. A read and a write may also move a byte alone, which is no failure. What each must do,
as docs/RUNNING.md says of what a connection gets:

- Whatever fails: at most one connection ends before its time; where accepting fails, it is one that still asks over HTTP, to make room. What its client was told until then, and all that the others are told, is
  as if nothing had failed; of a batch whose receipt didn't come all stands, or nothing.
- Where an option isn't set that only hastens (TCP_NODELAY), where the system doesn't say what is ready, where the clock can't be read, and
  where nothing or a byte alone is moved, and the system says once more that the stream is ready: nobody's ends.

And at a start: where the system gives nothing to wait by, or won't watch the port, the program ends with status 4.

It needs a C compiler (cc) for the library that fails the calls, which is loaded under the program (LD_PRELOAD).
"""
import concurrent.futures
import json
import os
import pathlib
import subprocess
import sys
import tempfile
import time

sys.path[:0] = [str(pathlib.Path(__file__).resolve().parents[1] / folder) for folder in ("runs",)]
from raw_client import NOTHING_IS_KEPT, Client, Ended, Server
from write_query_runs import hold, release

PROGRAM = sys.argv[1] if len(sys.argv) > 1 else "crates/bridge_server/out/bridge_server"
FAILING = r"""
#define _GNU_SOURCE
#include <dlfcn.h>
#include <errno.h>
#include <netinet/in.h>
#include <netinet/tcp.h>
#include <stdarg.h>
#include <stdio.h>
#include <stdlib.h>
#include <string.h>
#include <sys/epoll.h>
#include <sys/ioctl.h>
#include <sys/socket.h>
#include <sys/syscall.h>
#include <time.h>
#include <unistd.h>
static unsigned long calls, failed_at;
static int error;
static char *kind, *counted_after;
__attribute__((constructor)) static void begin(void) {
    kind = getenv("FAILED_CALL");
    counted_after = getenv("COUNTED_AFTER");
    failed_at = strtoul(getenv("FAILED_AT"), 0, 10);
    error = atoi(getenv("FAILED_WITH"));
}
static int is_counted(const char *name) {
    return kind && !strcmp(kind, name) && (!counted_after || access(counted_after, F_OK) == 0);
}
/* 0: the call is made; 1: it fails; 2: it moves a byte alone */
static int is_failed(const char *name) {
    if (!is_counted(name) || ++calls != failed_at) return 0;
    if (error == 0) return 2;
    errno = error;
    return 1;
}
static int is_socket(int fd) { int type; socklen_t n = sizeof type; return getsockopt(fd, SOL_SOCKET, SO_TYPE, &type, &n) == 0; }
/* the system says once that a stream is ready, and again where it can give or take more: so it does behind what it didn't move */
static struct { int by; struct epoll_event event; } watched[1024];
static void is_ready_still(int fd) {
    int kept = errno;
    if (fd < 1024 && watched[fd].by) syscall(SYS_epoll_ctl, watched[fd].by, EPOLL_CTL_MOD, fd, &watched[fd].event);
    errno = kept;
}
#define MOVES(name, type, call) { \
    int how = is_socket(fd) ? is_failed(name) : 0; \
    if (how == 1) { if (error == EAGAIN) is_ready_still(fd); return -1; } \
    if (how == 2 && n > 1) n = 1; \
    ssize_t moved = call; \
    if (how == 2) is_ready_still(fd); \
    return moved; }
ssize_t read(int fd, void *to, size_t n) MOVES("read", read, syscall(SYS_read, fd, to, n))
ssize_t recv(int fd, void *to, size_t n, int flags) MOVES("read", recv, syscall(SYS_recvfrom, fd, to, n, flags, 0, 0))
ssize_t write(int fd, const void *from, size_t n) MOVES("write", write, syscall(SYS_write, fd, from, n))
ssize_t send(int fd, const void *from, size_t n, int flags) MOVES("write", send, syscall(SYS_sendto, fd, from, n, flags, 0, 0))
int accept(int fd, struct sockaddr *to, socklen_t *n) { return is_failed("accept") ? -1 : syscall(SYS_accept4, fd, to, n, 0); }
int accept4(int fd, struct sockaddr *to, socklen_t *n, int flags) {
    return is_failed("accept") ? -1 : syscall(SYS_accept4, fd, to, n, flags);
}
int setsockopt(int fd, int level, int option, const void *value, socklen_t n) {
    const char *name = level == IPPROTO_TCP && option == TCP_NODELAY ? "nodelay" : "setsockopt";
    return is_failed(name) ? -1 : syscall(SYS_setsockopt, fd, level, option, value, n);
}
int ioctl(int fd, unsigned long what, ...) {
    va_list more;
    va_start(more, what);
    void *to = va_arg(more, void *);
    va_end(more);
    return what == FIONBIO && is_failed("nonblocking") ? -1 : syscall(SYS_ioctl, fd, what, to);
}
int epoll_create1(int flags) { return is_failed("poll") ? -1 : syscall(SYS_epoll_create1, flags); }
int epoll_ctl(int fd, int what, int of, struct epoll_event *event) {
    if (is_failed("watch")) return -1;
    if (event && of >= 0 && of < 1024) { watched[of].by = fd; watched[of].event = *event; }
    return syscall(SYS_epoll_ctl, fd, what, of, event);
}
int epoll_wait(int fd, struct epoll_event *to, int n, int milliseconds) {
    return is_failed("ready") ? -1 : syscall(SYS_epoll_wait, fd, to, n, milliseconds);
}
int clock_gettime(clockid_t clock, struct timespec *to) { return is_failed("clock") ? -1 : syscall(SYS_clock_gettime, clock, to); }
__attribute__((destructor)) static void end(void) {
    FILE *it = fopen(getenv("CALLS_TO"), "w");
    if (it) { fprintf(it, "%lu", calls); fclose(it); }
}
/* a program with threads ends so, and no destructor is run */
void _exit(int status) {
    end();
    syscall(SYS_exit_group, status);
    __builtin_unreachable();
}
"""
CLIENTS = 3
HELLO = {"hello": "d", "token": "abc"}
BATCH = {"do": [hold(1), release(1)]}
STATUS = {"ask": "status"}
# what fails, with which error (errno(3); 0: a byte alone is moved), and whether a connection may end of it
EIO, ECONNRESET, EMFILE, EINVAL, EPIPE, ENOBUFS, EAGAIN, EINTR, ENOSPC = 5, 104, 24, 22, 32, 105, 11, 4, 28
KINDS = [("read", ECONNRESET, True), ("read", EIO, True), ("read", EAGAIN, False), ("read", 0, False), ("write", EPIPE, True),
         ("write", EAGAIN, False), ("write", 0, False), ("accept", EMFILE, True), ("nodelay", ENOBUFS, False), ("nonblocking", EINVAL, True), ("watch", ENOSPC, True),
         ("ready", EINTR, False), ("ready", EINVAL, False), ("clock", EINVAL, False)]


def conversation(port_of, messages):
    """What a client is told, and whether its connection came to its end."""
    told = []
    try:
        client = Client(port_of, 20)
        for message in messages:
            told.append(json.loads(client.ask(message)))
        return told, client.leave()
    except (Ended, OSError):
        return told, False


def until_it_waits(server):
    """Waits until the display asks the system whether anybody is at the port."""
    folder, deadline = pathlib.Path(f"/proc/{server.process.pid}/fdinfo"), time.monotonic() + 10
    while time.monotonic() < deadline and not any("tfd:" in path.read_text() for path in folder.iterdir()):
        time.sleep(0.01)
    # and has looked once
    time.sleep(0.05)


def run(room, kind, error, n):
    """What the clients are told where the Nth call of a kind fails, how often it was called, the status, and what was written."""
    with tempfile.TemporaryDirectory() as folder:
        counted, calls = pathlib.Path(folder, "counted"), pathlib.Path(folder, "calls")
        env = {**os.environ, "LD_PRELOAD": f"{room}/failing.so", "FAILED_CALL": kind, "FAILED_AT": str(n), "FAILED_WITH": str(error),
               "COUNTED_AFTER": str(counted), "CALLS_TO": str(calls)}
        # a try to accept that failed counts as a connection
        connections = CLIENTS + (kind == "accept" and n > 0)
        with Server(PROGRAM, "--displays", 1, "--workers", 0, "--connections", connections, env=env) as server:
            until_it_waits(server)
            counted.touch()
            told = [conversation(server, [HELLO, BATCH, STATUS]) for _ in range(CLIENTS)]
            try:
                server.process.wait(20)
            except subprocess.TimeoutExpired:
                pass
            ended = server.stopped()
            return told, int(calls.read_text()) if calls.exists() else 0, ended


def strange(ample, told, may_end):
    """What isn't as it must be, where one call failed; or None."""
    cut, stands = 0, {0}
    for (wanted, _), (got, whole) in zip(ample, told):
        if not whole:
            cut += 1
        elif len(got) < 3:
            return "a connection ended in the midst, and properly"
        if got[:1] not in ([], [wanted[0]]):
            return f"a greeting: {got[0]}"
        if len(got) > 1:
            first = got[1]["first"]
            if first - 1 not in stands or got[1] != {"answers": ["ok", "ok"], "first": first, "last": first + 1, "version": first + 1}:
                return f"a receipt: {got[1]}, where {stands} commands stood"
            stands = {first + 1}
        elif not whole:
            stands |= {number + 2 for number in stands}
        if len(got) > 2 and (got[2] != {**wanted[2], "version": got[2]["version"]} or got[2]["version"] not in stands):
            return f"a status: {got[2]}"
    return f"{cut} connections ended" if cut > (1 if may_end else 0) else None


def start(room, kind, n):
    """How a start ends where the Nth call of a kind fails, or None where it serves."""
    env = {**os.environ, "LD_PRELOAD": f"{room}/failing.so", "FAILED_CALL": kind, "FAILED_AT": str(n), "FAILED_WITH": str(EMFILE), "CALLS_TO": f"{room}/calls"}
    words = ["--displays", 1, "--workers", 0, "--connections", 1]
    try:
        with Server(PROGRAM, *words, env=env) as server:
            if conversation(server, [HELLO])[1]:
                return None
            try:
                server.process.wait(10)
            except subprocess.TimeoutExpired:
                return "nobody is served, and it doesn't end"
            return server.stopped()
    except SystemExit as ended:
        return str(ended)


def starts(room):
    """A start that can't wait for clients says so."""
    no_thread = (4, b"", NOTHING_IS_KEPT + b"bridge_server: NoThread (no thread could be started for any display)\n")
    for kind in ("poll", "watch"):
        ended = start(room, kind, 1)
        if ended not in (no_thread, f"the program doesn't listen: {no_thread}"):
            raise SystemExit(f"FAILED  {kind}: a start that can't wait for clients: {ended}")
        print(f"ok      {kind}: a start that can't wait for clients ends with status 4", flush=True)


def main():
    with tempfile.TemporaryDirectory() as room:
        pathlib.Path(room, "failing.c").write_text(FAILING)
        subprocess.run(["cc", "-O1", "-shared", "-fPIC", "-o", f"{room}/failing.so", f"{room}/failing.c", "-ldl"], check=True)
        starts(room)
        for kind, error, may_end in KINDS:
            ample, calls, ended = run(room, kind, error, 0)
            versions = [told[-1]["version"] for told, _ in ample]
            assert (versions, [whole for _, whole in ample], ended) == ([2, 4, 6], [True] * 3, (0, b"", NOTHING_IS_KEPT)), (ample, ended)
            assert calls > 0, f"the program makes no call of the kind {kind}: nothing is tried"
            with concurrent.futures.ThreadPoolExecutor(4) as pool:
                told = list(pool.map(lambda n: run(room, kind, error, n), range(1, calls + 1)))
            for n, (heard, _, ended) in enumerate(told, 1):
                why = strange(ample, heard, may_end) or (ended != (0, b"", NOTHING_IS_KEPT) and f"the end: {ended}")
                if why:
                    raise SystemExit(f"FAILED  {kind}, error {error}, call {n} of {calls}: {why}\n{heard}")
            cut = sum(not all(whole for _, whole in heard) for heard, _, _ in told)
            print(f"ok      {kind}, {f'error {error}' if error else 'a byte alone'}: each of {calls} calls; {cut} of them end a connection", flush=True)
            if may_end and not cut:
                raise SystemExit(f"FAILED  {kind}: no connection ended, so that no failure was met")
    print("all is as it should be")


if __name__ == "__main__":
    main()

#!/usr/bin/env python3
"""Measures a server's clients over sockets: one, four and 32 without a pause, one beside another's batches, 1,000 that ask now and then while
scorers enter, 200 on a slow disk, and 10,000 that say nothing.

    benches/hall_clients.py PROGRAM [BEFORE [PART ..]]

PROGRAM is the built server, and BEFORE one of before it served many clients a display, which is measured beside it in the same rounds, with a display
a client; `-` where there is none. The parts are `pings`, `asking`, `paced`, `kept` and `idle`, which are measured without a word, and `beside`,
`syncs` and `slow`. `asking` has 1,000 clients that ask once in two seconds each; in `paced` four more correct results, a batch of three every half
second; `kept` is the same with a journal, whose file lies in the folder TMPDIR. In `beside` one client asks without a pause while another has a
result corrected a hundred times a second: BEFORE without a journal, or the program, and the program with one, by turns, as the system places all and
so once more while no processor is halted. In `syncs` it is asked so with the second sync of each such batch left out, and with both, by a library
under the program: what the slowest wait for. In `slow` 200 clients ask 500 queries a second while four enter, and each sync takes five milliseconds
more: with four displays and no journal, and with a journal and four, sixteen and 32. Rates are the best of five rounds, since other work only makes
them worse; processor time is the program's, a reply. It needs a C compiler for the clients (benches/hall_clients.c), which run on the same
processors. It takes two minutes where nothing else runs.
"""
import contextlib
import json
import os
import pathlib
import statistics
import subprocess
import sys
import tempfile
import time

ROOT = pathlib.Path(__file__).resolve().parent.parent
sys.path[:0] = [*(str(ROOT / "tests" / folder) for folder in ("drivers", "runs")), str(ROOT / "benches")]
from idle_loops import awake  # noqa: E402
from raw_client import Client, Server, files_allowed  # noqa: E402
from write_query_runs import correct  # noqa: E402
from write_stored_runs import FOUR_SPADES, confirm, enter, text_of  # noqa: E402

PROGRAM = sys.argv[1] if len(sys.argv) > 1 else "crates/bridge_server/out/bridge_server"
BEFORE = sys.argv[2] if len(sys.argv) > 2 and sys.argv[2] != "-" else None
PARTS = sys.argv[3:] or ["pings", "asking", "paced", "kept", "idle"]
ROUNDS, SECONDS = 5, 1.5
QUESTION = text_of({"ask": "board", "board": 1})
DISPLAYS = 4
# a result that is there is corrected again and again
FIRST = {"do": [enter(1, 1, FOUR_SPADES), confirm(1, 1, FOUR_SPADES)]}
BATCH = text_of({"do": [correct(1, 1, FOUR_SPADES)] * 3})


def clients(folder, mode, server, count, seconds, *more):
    words = [folder / "hall_clients", mode, server.port, count, seconds, QUESTION, *more]
    return json.loads(subprocess.run(list(map(str, words)), stdout=subprocess.PIPE, check=True).stdout)


def spent(process):
    """The processor time of all threads of a process so far, in seconds."""
    tasks = pathlib.Path(f"/proc/{process.pid}/task").iterdir()
    return sum(int((task / "schedstat").read_text().split()[0]) for task in tasks) / 1e9


def server_of(program, count, *more):
    """The program, with room for all to come in one moment, or a display a client where it serves one at a time."""
    words = ["--displays", DISPLAYS, "--clients", min(10_000, 10 * count + 100)] if program == PROGRAM else ["--displays", max(DISPLAYS, count)]
    return Server(program, "--workers", 0, *words, *more)


def pings(folder):
    programs = [program for program in (BEFORE, PROGRAM) if program]
    for count in (1, 4, 32):
        found = {program: [] for program in programs}
        for _ in range(ROUNDS):
            for program in programs:
                with server_of(program, count) as server:
                    begun = spent(server.process)
                    told = clients(folder, "ping", server, count, SECONDS)
                    found[program].append((told["rate"], (spent(server.process) - begun) * 1e6 / told["replies"], told["p50"], told["p99"], told["p999"]))
        for program in programs:
            rate, _, p50, p99, p999 = max(found[program])
            least = min(row[1] for row in found[program])
            print(f"{'before' if program == BEFORE else 'now':6} {count:2} clients: {rate:8.0f} replies a second at best, {statistics.median(row[0] for row in found[program]):8.0f} in the median; "
                  f"{p50:.0f}, {p99:.0f}, {p999:.0f} microseconds (50th, 99th, 99.9th percentile); {least:.1f} microseconds of its processor time a reply", flush=True)
        if BEFORE:
            ratios = [new[0] / old[0] for old, new in zip(found[BEFORE], found[PROGRAM])]
            print(f"       {count:2} clients: {max(found[PROGRAM])[0] / max(found[BEFORE])[0]:.2f} of before by the best, {statistics.median(ratios):.2f} in the median of rounds", flush=True)


def paced(folder, *more, writers=4):
    count = 1000
    with server_of(PROGRAM, count, *more) as server:
        scorer = Client(server)
        scorer.ask({"hello": "d", "token": "abc"})
        for batch, accepted in ((text_of(FIRST), 2), (BATCH, 3)):
            answers = json.loads(scorer.ask(batch))["answers"]
            assert answers == ["ok"] * accepted, answers
        scorer.leave()
        begun, seconds = spent(server.process), 10
        told = clients(folder, "paced", server, count, seconds, 2, writers, 0.5, BATCH)
        processor = (spent(server.process) - begun) / seconds
    print(f"{count} clients, each every 2 s, {'with a journal' if more else 'without a journal'}, while {writers} enter ({told['receipts']} batches, {told['receipt_p50'] / 1000:.2f} ms in the "
          f"median): {told['rate']:.0f} replies a second; {told['p50'] / 1000:.2f}, {told['p99'] / 1000:.2f}, {told['p999'] / 1000:.2f} ms (50th, 99th, 99.9th percentile), "
          f"{told['most'] / 1000:.1f} at most; {told['beside']} replies were awaited beside a batch, and without those the 99th percentile is {told['apart_p99'] / 1000:.2f} ms; "
          f"{100 * processor:.1f} % of a processor", flush=True)


def asking(folder):
    paced(folder, writers=0)


def kept(folder):
    paced(folder, "--journal", folder / "hall.journal")


@contextlib.contextmanager
def entered_once(program, displays, *more):
    """A server with a result that can be corrected again and again."""
    with Server(program, "--workers", 0, "--displays", displays, *more) as server:
        scorer = Client(server)
        scorer.ask({"hello": "d", "token": "abc"})
        assert json.loads(scorer.ask(text_of(FIRST)))["answers"] == ["ok"] * 2
        scorer.leave()
        yield server


def journal_in(folder):
    journal_in.count = getattr(journal_in, "count", 0) + 1
    return "--journal", folder / f"{journal_in.count}.journal"


def by_turns(kinds, measure, rounds):
    """What is measured of each kind, round by round, every other round in the opposite order."""
    found = {name: [] for name in kinds}
    for turn in range(rounds):
        for name in list(kinds) if turn % 2 == 0 else list(kinds)[::-1]:
            found[name].append(measure(*kinds[name]))
    return found


def tell_by_turns(what, found, kinds_of_time):
    """Each kind's times, in the middle of the rounds, and in how many of them it took longer than the first kind."""
    first = next(iter(found))
    for name, rounds in found.items():
        told = [f"{kind} {statistics.median(row[kind] for row in rounds):.0f}" for kind in kinds_of_time]
        more = [sum(row[kind] > other[kind] for row, other in zip(rounds, found[first])) for kind in kinds_of_time]
        later = "" if name == first else f"; more in {', '.join(map(str, more))} of {len(rounds)} rounds"
        print(f"{what}, {name}: {', '.join(told)} microseconds{later}", flush=True)


def asked_beside(folder, program, is_kept):
    """What one client's queries take while another has a result corrected a hundred times a second."""
    with entered_once(program, DISPLAYS, *(journal_in(folder) if is_kept else ())) as server:
        return clients(folder, "ping", server, 1, 2, 0, 1, 0.01, BATCH)


def beside(folder):
    kinds = {"without a journal" if BEFORE is None else "before": (folder, BEFORE or PROGRAM, False), "with a journal": (folder, PROGRAM, True)}
    for is_awake in (False, True):
        with awake(is_awake):
            found = by_turns(kinds, asked_beside, 20)
        what = f"one client's queries beside batches{', no processor halted' if is_awake else ''}"
        tell_by_turns(what, found, ("p50", "p99", "beside_p50", "beside_p99"))


def over_library(folder, name, source):
    """The program over a library that stands between it and C's own."""
    (folder / f"{name}.c").write_text(source)
    subprocess.run(["cc", "-O2", "-shared", "-fPIC", "-o", folder / f"{name}.so", folder / f"{name}.c"], check=True)
    wrapper = folder / name
    wrapper.write_text(f'#!/bin/sh\nLD_PRELOAD={folder}/{name}.so exec {pathlib.Path(PROGRAM).resolve()} "$@"\n')
    wrapper.chmod(0o755)
    return wrapper


# of two syncs of a thread, which a batch has, so many are done
SOME = r"""
#define _GNU_SOURCE
#include <sys/syscall.h>
#include <unistd.h>
static __thread unsigned asked;
int fdatasync(int fd) { return asked++ % 2 < %d ? syscall(SYS_fdatasync, fd) : 0; }
"""


def syncs(folder):
    kinds = {"before": (folder, BEFORE, False)} if BEFORE else {}
    kinds |= {"without a journal": (folder, PROGRAM, False), "with a journal": (folder, PROGRAM, True)}
    for name, done in (("one sync a batch", 1), ("no sync", 0)):
        kinds[name] = (folder, over_library(folder, f"syncs_{done}", SOME.replace("%d", str(done))), True)
    tell_by_turns("one client's queries beside batches", by_turns(kinds, asked_beside, 20), ("p50", "p99", "beside_p50", "beside_p99"))


# waits at each sync, and then does it
SLOW = r"""
#define _GNU_SOURCE
#include <sys/syscall.h>
#include <unistd.h>
int fdatasync(int fd) { usleep(5000); return syscall(SYS_fdatasync, fd); }
int fsync(int fd) { usleep(5000); return syscall(SYS_fsync, fd); }
"""


def slow(folder):
    wrapper = over_library(folder, "slow", SLOW)

    def measure(displays, is_kept):
        with entered_once(wrapper, displays, "--clients", 2_100, *(journal_in(folder) if is_kept else ())) as server:
            return clients(folder, "paced", server, 200, 5, 0.4, 4, 0.5, BATCH)

    kinds = {"4 displays and no journal": (4, False), **{f"{count} displays and a journal": (count, True) for count in (4, 16, 32)}}
    with awake():
        found = by_turns(kinds, measure, 10)
    tell_by_turns("200 clients while each sync takes 5 ms more", found, ("p50", "p99", "beside_p50", "beside_p99"))


def idle(folder):
    count = min(10_000, files_allowed() - 400)
    with Server(PROGRAM, "--workers", 0, "--displays", DISPLAYS, "--clients", count) as server:
        before = server.resident()
        words = [folder / "hall_clients", "idle", server.port, count, 3, QUESTION]
        with subprocess.Popen(list(map(str, words)), stdout=subprocess.PIPE) as there:
            told = json.loads(there.stdout.readline())
            begun = spent(server.process)
            time.sleep(1)
            processor, now = spent(server.process) - begun, server.resident()
            print(f"{count} clients that say nothing, who signed in within {told['came']:.2f} s: {now} KiB, {(now - before) / count:.2f} KiB each, {server.threads()} threads; "
                  f"{100 * processor:.1f} % of a processor", flush=True)


def main():
    print(f"load before: {os.getloadavg()[0]:.1f}", flush=True)
    with tempfile.TemporaryDirectory() as name:
        folder = pathlib.Path(name)
        subprocess.run(["cc", "-O2", "-o", folder / "hall_clients", ROOT / "benches/hall_clients.c"], check=True)
        for part in PARTS:
            {"pings": pings, "beside": beside, "asking": asking, "paced": paced, "kept": kept, "syncs": syncs, "slow": slow, "idle": idle}[part](folder)


if __name__ == "__main__":
    main()

#!/usr/bin/env python3
"""Cuts the log of a journal at each byte of its last batch, changes bytes of it, and leaves it out; and reads journals by the program's other words.

    python3 tests/journals/journal_logs.py crates/bridge_server/out/bridge_server [STEP]

It needs Debian's package sqlite3. A server that was killed has left a file and its log (`FILE-wal`). Each copy of the two, with the log cut
or changed, is read by `bridge_server audit`, and some of them by a server that goes on with it. Each must have the first batches, whole, of
those that were kept, and be whole for SQLite's own command, or be refused by name; never a part of a batch. Where the log is but cut within
its last batch, as a crash may leave it, none may be refused. Each line is a check: 'ok', or 'FAILED' with what came; the status is 1 where
one failed.
"""
import collections
import concurrent.futures
import json
import pathlib
import random
import sys
import tempfile

sys.path[:0] = [str(pathlib.Path(__file__).resolve().parents[1] / folder) for folder in ("drivers", "runs")]
from checks import check, status
from journal_files import copied, fault, integrity_of, log_of, ran, rows_of
from raw_client import Client, Server
from write_query_runs import hold, release

PROGRAM = sys.argv[1] if len(sys.argv) > 1 else "crates/bridge_server/out/bridge_server"
# each so manieth place is tried: less than all of them for a program that is slow, as one before it is optimized
STEP = int(sys.argv[2]) if len(sys.argv) > 2 else 1
FEW = ["--displays", 2, "--workers", 0]
BATCHES = [[hold(1)], [release(1), hold(2), hold(3)], [hold(1), release(2)], [release(1), hold(2), release(3), hold(1)]]
# how many entries there are after so many whole batches
WHOLE = [sum(len(batch) for batch in BATCHES[:count]) for count in range(len(BATCHES) + 1)]
ENTRIES = [[number, "d", command["cmd"], str(command["board"])] for number, command in enumerate(sum(BATCHES, []), 1)]
# SQLite's log begins with a head; behind it come frames, each a head and a page
LOG_HEAD, FRAME_HEAD, PAGE = 32, 24, 4096
NAMES = {"JournalDamaged", "JournalUnread", "NotAJournal", "Misnumbered", "OtherSession"}
SERVED, CHANGED = max(3, 24 // STEP), max(10, 2000 // STEP)


def told(client, message):
    return json.loads(client.ask(message))


def signed_in(server):
    client = Client(server, 30)
    assert told(client, {"hello": "d", "token": "abc"}) == {"hello": "d"}
    return client


def play(journal):
    """Has the batches kept, kills the server, and says between which places of the log the last batch stands: the log may be longer than
    what is in it."""
    with Server(PROGRAM, "--journal", journal, *FEW) as server:
        client = signed_in(server)
        for batch in BATCHES:
            before = log_of(journal).read_bytes()
            heard = told(client, {"do": batch})
            assert heard["answers"] == ["ok"] * len(batch), heard
        server.process.kill()
        server.stopped()
    after = log_of(journal).read_bytes()
    before = before.ljust(len(after), b"\0")
    changed = [place for place, byte in enumerate(after) if byte != before[place]]
    return changed[0], changed[-1] + 1


def audit(journal):
    """What `bridge_server audit` says of a journal: its rows, or the fault that it names."""
    status, out, err = ran(PROGRAM, "audit", "--journal", journal)
    if status == 0 and err == b"":
        return [json.loads(line) for line in out.splitlines()]
    name = err.decode().strip().removeprefix("bridge_server: ")
    assert out == b"" and err == fault(name) and name in NAMES and status in (1, 3), (status, out, err)
    return name


def is_first_batches(rows):
    return isinstance(rows, str) or (len(rows) in WHOLE and rows == ENTRIES[:len(rows)])


def read(journal, log, again=False):
    """What is read of the file with this log, or without any, and whether the file is whole for SQLite then; if so wanted also whether a
    second look reads the same."""
    with tempfile.TemporaryDirectory() as folder:
        copy = copied(journal, folder, log or b"")
        if log is None:
            log_of(copy).unlink()
        rows = audit(copy)
        if not is_first_batches(rows):
            return f"wrong: {rows}"
        if isinstance(rows, str):
            return rows
        if again and audit(copy) != rows:
            return f"wrong: {rows}, and others at the second look"
        whole = integrity_of(copy)
        return f"{WHOLE.index(len(rows))} batches" if whole == "ok" else f"wrong: {rows}, and the file isn't whole: {whole}"


def serve(journal, log):
    """The same by a server, which keeps a batch more."""
    with tempfile.TemporaryDirectory() as folder:
        copy = copied(journal, folder, log)
        with Server(PROGRAM, "--journal", copy, *FEW) as server:
            client = signed_in(server)
            rows = told(client, {"audit": {"from": 1, "limit": 100}})["audit"]
            more = told(client, {"do": [{"cmd": "NextRound"}]})["first"]
            server.process.kill()
            server.stopped()
        goes_on = more == len(rows) + 1 == len(rows_of(copy)) and integrity_of(copy) == "ok"
        return f"{WHOLE.index(len(rows))} batches" if is_first_batches(rows) and goes_on else f"wrong: {rows}, {more}"


def tell(what, least, outcomes, names=NAMES):
    """Each has so many batches at least, or is refused by one of the names; and not all are refused."""
    counts = collections.Counter(outcomes)
    whole = {f"{count} batches" for count in range(least, len(BATCHES) + 1)}
    check(f"{what}: {', '.join(f'{count} times {one}' for one, count in sorted(counts.items()))}", (True, set()),
          (bool(whole & set(counts)), set(counts) - whole - names))


def logs(folder, pool):
    """The log cut at each byte of its last batch, and bytes of that changed."""
    journal = folder / "cut.journal"
    before, after = play(journal)
    log, rng = log_of(journal).read_bytes(), random.Random(2026)
    assert before + PAGE < after <= len(log) and len(rows_of(journal)) == WHOLE[-1]
    last = len(BATCHES) - 1
    cuts = [*range(before, after, STEP), after]
    # a crash may leave each of these, so none may be refused
    tell(f"the log cut at each of {len(cuts)} places of its last batch", last, pool.map(lambda cut: read(journal, log[:cut]), cuts), set())
    looked_at = rng.sample(cuts, SERVED)
    tell("some of these, looked at again", last, pool.map(lambda cut: read(journal, log[:cut], again=True), [before, after, *looked_at]), set())
    tell("and by a server", last, pool.map(lambda cut: serve(journal, log[:cut]), [before, after, *looked_at]), set())
    frames = range(LOG_HEAD, len(log), FRAME_HEAD + PAGE)
    heads = [place for frame in frames for place in range(frame, frame + FRAME_HEAD) if before <= place < after][::STEP]

    def changed(place):
        return log[:place] + bytes([log[place] ^ 1 << rng.randrange(8)]) + log[place + 1:]

    places = [*heads, *(rng.randrange(before, after) for _ in range(CHANGED))]
    tell(f"a bit changed at {len(places)} places of its last batch", last, pool.map(lambda place: read(journal, changed(place)), places))
    tell("a bit changed anywhere in the log", 0, pool.map(lambda place: read(journal, changed(place)), rng.sample(range(len(log)), CHANGED)))
    tell("the log cut anywhere", 0, pool.map(lambda cut: read(journal, log[:cut]), rng.sample(range(len(log)), CHANGED)))
    tell("bytes behind the log", last + 1, pool.map(lambda count: read(journal, log + rng.randbytes(count)), (1, 24, 4120, 9000)))
    tell("the file without its log, and with an empty one", 0, [read(journal, None), read(journal, b""), f"{last + 1} batches"])
    closed = folder / "closed.journal"
    assert ran(PROGRAM, "copy", "--journal", journal, "--to", closed)[0] == 0 and audit(closed) == ENTRIES
    whole = closed.read_bytes()

    def read_changed(place):
        with tempfile.TemporaryDirectory() as name:
            copy = pathlib.Path(name, "copy.journal")
            copy.write_bytes(whole[:place] + bytes([whole[place] ^ 1 << rng.randrange(8)]) + whole[place + 1:])
            rows = audit(copy)
            return rows if isinstance(rows, str) else "4 batches" if rows == ENTRIES else f"wrong: {rows}"

    tell("a bit changed anywhere in the file", last + 1, [*pool.map(read_changed, rng.sample(range(len(whole)), CHANGED)), read(closed, None), read(closed, b"")])


def words(folder):
    """`bridge_server audit` and `bridge_server copy`."""
    journal, copy = folder / "read.journal", folder / "copy.journal"
    play(journal)
    check("audit tells the rows of an audit, a line each", ENTRIES, audit(journal))
    check("and again", ENTRIES, audit(journal))
    check("copy makes a file that has the same", ((0, b"", b""), ENTRIES), (ran(PROGRAM, "copy", "--journal", journal, "--to", copy), audit(copy)))
    check("which is whole", "ok", integrity_of(copy))
    again = ran(PROGRAM, "copy", "--journal", journal, "--to", copy)
    check("copy changes nothing that is there already", ((1, b"", fault("CopyExists")), ENTRIES), (again, audit(copy)))
    check("nor does it make a folder", (3, b"", fault("CopyUnwritten")), ran(PROGRAM, "copy", "--journal", journal, "--to", folder / "none" / "copy"))
    with Server(PROGRAM, "--journal", copy, *FEW) as server:
        client = signed_in(server)
        check("a server goes on with a copy", WHOLE[-1] + 1, told(client, {"do": [{"cmd": "NextRound"}]})["first"])
        check("audit of a journal that a server has", (3, b"", fault("JournalBusy")), ran(PROGRAM, "audit", "--journal", copy))
        check("and a copy of it", (3, b"", fault("JournalBusy")), ran(PROGRAM, "copy", "--journal", copy, "--to", folder / "third.journal"))
    nowhere = folder / "none.journal"
    check("audit of a file that isn't there makes none", ((1, b"", fault("NotAJournal")), False), (ran(PROGRAM, "audit", "--journal", nowhere), nowhere.exists()))


def main():
    with tempfile.TemporaryDirectory() as name, concurrent.futures.ThreadPoolExecutor(4) as pool:
        words(pathlib.Path(name))
        logs(pathlib.Path(name), pool)
    return status()


if __name__ == "__main__":
    sys.exit(main())

#!/usr/bin/env python3
"""Measures what a journal's file costs a server: receipts, processor time, queries meanwhile, starts, and the file's size.

    benches/journal_time.py [--beside EARLIER] [--queries] [PROGRAM] [FOLDER] [SECONDS [BATCHES]]

The files lie in the folder, else in the system's for temporary files: it decides which disk is measured, and so how long a sync takes.
Python's standard library is enough. The session is that of benches/book_time.py: 16 tables, 64 boards, 256 accounts; a
director enters and confirms results, each in a batch of its own, or holds and releases boards. Servers with a journal and without one take
turns, and each round begins with the other: five rounds, and twenty of queries. Processor time is the system's (Linux's schedstat) of the
program's whole.

Queries are asked four times over, on four processors, while so many batches a second are entered. First the reading client, the writing
one, and the server's thread of each have one of their own: what is measured then is how long the server lets a query wait. Then the clients are
on one and the server on the others, as where clients are other machines. Then they run where the system places them, so that what a
client takes of the server's processors is in it; and at last so again, while no processor is halted (benches/idle_loops.py).

With `--beside` the servers without a journal are another program's, one from before there were journals say; with `--queries` nothing else is
measured. What a Confirm costs beside the sync benches/beside_the_sync.py and benches/confirm_instructions.py say.
"""
import json
import multiprocessing
import os
import pathlib
import statistics
import sys
import tempfile
import time

ROOT = pathlib.Path(__file__).resolve().parent.parent
sys.path[:0] = [*(str(ROOT / "tests" / folder) for folder in ("drivers", "journals", "runs")), str(ROOT / "benches")]
import book_time  # noqa: E402
from idle_loops import awake  # noqa: E402
from journal_files import change, log_of  # noqa: E402
from raw_client import Client, Server  # noqa: E402
from write_stored_runs import text_of  # noqa: E402


def program_beside(words):
    """The program that `--beside` names, and the words without both; else nothing, and the words."""
    if "--beside" not in words:
        return None, words
    place = words.index("--beside")
    return words[place + 1], words[:place] + words[place + 2:]


BESIDE, WORDS = program_beside(sys.argv[1:])
ONLY_QUERIES = "--queries" in WORDS
WORDS = [word for word in WORDS if word != "--queries"]
PROGRAM = WORDS[0] if WORDS else "crates/bridge_server/out/bridge_server"
FOLDER = WORDS[1] if len(WORDS) > 1 else None
SECONDS = float(WORDS[2]) if len(WORDS) > 2 else 2
BATCHES = float(WORDS[3]) if len(WORDS) > 3 else 100
ROUNDS, QUERY_ROUNDS = 5, 20
OPENED = book_time.session()
DEALS = OPENED.pop("pbn")
ENTRIES = (2_000, 60_000)
# where clients and threads of the server run while queries are asked
EACH, APART, FREE = "each on a processor of its own", "the server on other processors than its clients", "wherever the system places them"
# the same, on processors that are never halted
AWAKE = "wherever the system places them, no processor halted"


def server(journal, *more):
    words = [] if journal is None else ["--journal", journal]
    return Server(BESIDE or PROGRAM if journal is None else PROGRAM, *words, "--displays", 4, "--workers", 0, *more, session=OPENED, deals=DEALS)


def signed_in(at):
    client = Client(at, 60)
    client.ask({"hello": "d", "token": "abc"})
    return client


def times_of_threads(process):
    """The processor time of each thread of a process so far, in nanoseconds."""
    threads = os.listdir(f"/proc/{process.pid}/task")
    return {int(thread): int(pathlib.Path(f"/proc/{process.pid}/task/{thread}/schedstat").read_text().split()[0]) for thread in threads}


def spent(process):
    """The processor time of all threads of a process so far, in seconds."""
    return sum(times_of_threads(process).values()) / 1e9


def new_file(folder):
    new_file.count = getattr(new_file, "count", 0) + 1
    return pathlib.Path(folder, f"{new_file.count}.journal")


def system_time(folder):
    """Microseconds of processor time of what a batch asks of the system, made by Python: three writes of a page and a sync, a short one and a sync."""
    descriptor = os.open(pathlib.Path(folder, "system"), os.O_CREAT | os.O_WRONLY)
    begun, many = time.process_time(), 500
    for place in range(many):
        for page in range(3):
            os.pwrite(descriptor, bytes(4120), 4120 * (3 * place + page))
        os.fdatasync(descriptor)
        os.pwrite(descriptor, bytes(24), 0)
        os.fdatasync(descriptor)
    os.close(descriptor)
    return 1e6 * (time.process_time() - begun) / many


def sync_time(folder):
    """Microseconds of a write of 4,096 bytes and its sync in this folder: the median, and the 99th of a hundred."""
    took = []
    descriptor = os.open(pathlib.Path(folder, "sync"), os.O_CREAT | os.O_WRONLY)
    for place in range(1000):
        os.pwrite(descriptor, bytes(4096), 4096 * place)
        begun = time.perf_counter()
        os.fdatasync(descriptor)
        took.append(1e6 * (time.perf_counter() - begun))
    os.close(descriptor)
    return statistics.median(took), statistics.quantiles(took, n=100)[98]


def holds(size, before=0):
    """A batch that holds board 1 and releases it in turn, after so many such commands."""
    return {"do": [{"board": 1, "cmd": "Hold" if k % 2 == 0 else "Release"} for k in range(before, before + size)]}


def receipts(folder, kept, size):
    """How many batches of so many commands a second one client gets receipts of, until the session has as many as it may have."""
    with server(new_file(folder) if kept else None) as at:
        client, messages, count = signed_in(at), [text_of(holds(size, before)) for before in (0, size)], 0
        begun = time.perf_counter()
        while time.perf_counter() - begun < SECONDS and (count + 1) * size <= book_time.COMMANDS:
            assert '"ok"' in client.ask(messages[count % 2])
            count += 1
        return count / (time.perf_counter() - begun)


def confirms(folder, kept):
    """Microseconds of processor time of an Enter and of a Confirm, batches of their own, in the first five rounds."""
    with server(new_file(folder) if kept else None) as at:
        client, source, took = signed_in(at), book_time.commands(), {"Enter": [], "Confirm": []}
        for _ in range(5 * 2 * book_time.BOARDS + 4):
            _, command = next(source)
            before = spent(at.process)
            assert '"ok"' in client.ask({"do": [command]})
            took.setdefault(command["cmd"], []).append(spent(at.process) - before)
        return [1e6 * statistics.mean(took[word]) for word in ("Enter", "Confirm")]


def enter_batches(at, ends):
    """Enters batches one after another, so many a second. It is a process of its own: threads of one Python wait for one another."""
    writer, message = signed_in(at), text_of(holds(2))
    while not ends.is_set():
        writer.ask(message)
        time.sleep(1 / BATCHES)


def busiest(process, work):
    """The thread of a process that runs most while this is done."""
    before = times_of_threads(process)
    work()
    after = times_of_threads(process)
    return max(after, key=lambda thread: after[thread] - before.get(thread, 0))


def give_processors(placing, server, reader, writer, client):
    """Places this process, the server's thread for its queries, that for batches, and the client that enters these."""
    processors = sorted(os.sched_getaffinity(0))[:4]
    assert reader != writer and len(processors) == 4, "queries and batches want a thread each, and these and the clients a processor each"
    first, second, third, fourth = ({processor} for processor in processors)
    if placing == EACH:
        places, others = {0: first, reader: second, writer: third, client: fourth}, fourth
    else:
        places, others = {0: first, client: first}, second | third | fourth
    for thread in (0, client, *times_of_threads(server)):
        os.sched_setaffinity(thread, places.get(thread, others))


def queries(folder, kept, placing):
    """Microseconds of a query while another client's batches are entered one after another: the median, and the 99th of a hundred."""
    everywhere = os.sched_getaffinity(0)
    with awake(placing == AWAKE), server(new_file(folder) if kept else None) as at:
        ends, reader, took = multiprocessing.Event(), signed_in(at), []

        def ask(seconds):
            until = time.perf_counter() + seconds
            while (begun := time.perf_counter()) < until:
                reader.ask('{"ask":"board","board":1}')
                took.append(1e6 * (time.perf_counter() - begun))

        of_queries = busiest(at.process, lambda: ask(0.1))
        writing = multiprocessing.Process(target=enter_batches, args=(at, ends))
        writing.start()
        of_batches = busiest(at.process, lambda: time.sleep(0.3))
        if placing in (EACH, APART):
            give_processors(placing, at.process, of_queries, of_batches, writing.pid)
        took.clear()
        ask(SECONDS)
        ends.set()
        writing.join()
        os.sched_setaffinity(0, everywhere)
        return statistics.median(took), statistics.quantiles(took, n=100)[98]


def filled(folder, count):
    """A journal of so many entries: the file is made by the program, and the rows by SQLite."""
    journal = new_file(folder)
    with server(journal):
        pass
    insert = "INSERT INTO entry (number, publication, actor, command) VALUES (?, ?, ?, ?)"
    given = zip(range(1, count + 1), book_time.commands())
    change(journal, *((insert, (number, number, f"user {name}", text_of(as_kept(command)))) for number, (name, command) in given))
    return journal


def as_kept(command):
    """The command as the server writes it: where a play may be told and none is, it is empty."""
    return {"play": [], **command} if command["cmd"] in ("Enter", "Correct") else command


def starts(folder, count):
    """Seconds until a server of so many entries listens, and bytes of the file and of its log while it runs."""
    journal, took = filled(folder, count), []
    for _ in range(3):
        begun = time.perf_counter()
        with server(journal) as at:
            took.append(time.perf_counter() - begun)
            version = json.loads(signed_in(at).ask({"ask": "status"}))["version"]
            assert version == count, version
    return min(took), os.path.getsize(journal), os.path.getsize(log_of(journal)) if log_of(journal).exists() else 0


def solved_starts(folder):
    """Seconds until a server listens whose journal has the tables of all boards of examples/, with four workers and with one."""
    session, deals = (ROOT / "examples" / name for name in ("session.json", "club.pbn"))
    files, journal, took = {"session": json.loads(session.read_text()), "deals": deals.read_text()}, new_file(folder), []
    boards = files["session"]["tables"] * files["session"]["per_set"]
    with Server(PROGRAM, "--journal", journal, "--workers", 4, **files) as at:
        client = Client(at, 60)
        client.ask({"hello": "dora", "token": "dora-example"})
        while json.loads(client.ask({"ask": "status"}))["version"] < boards:
            time.sleep(0.2)
    for workers in (4, 1):
        begun = time.perf_counter()
        with Server(PROGRAM, "--journal", journal, "--workers", workers, **files):
            took.append(time.perf_counter() - begun)
    return boards, *took


def in_turns(measure, *words, rounds=ROUNDS):
    """What is measured without a journal and with one, by turns."""
    found = {False: [], True: []}
    for turn in range(rounds):
        for kept in (False, True) if turn % 2 == 0 else (True, False):
            found[kept].append(measure(*words[:1], kept, *words[1:]))
    return found[False], found[True]


def tell_queries(folder):
    """Queries beside batches, in each placing."""
    for placing in (EACH, APART, FREE, AWAKE):
        without, kept = in_turns(queries, folder, placing, rounds=QUERY_ROUNDS)
        for what, one, other in zip(("the median", "the 99th of a hundred"), zip(*without), zip(*kept)):
            slower = sum(after > before for before, after in zip(one, other))
            print(f"a query while batches are entered, {placing}, {what}: {statistics.median(one):.0f} microseconds without a journal, "
                  f"{statistics.median(other):.0f} with one, which is slower in {slower} of {QUERY_ROUNDS} rounds", flush=True)


def main():
    with tempfile.TemporaryDirectory(dir=FOLDER) as folder:
        if ONLY_QUERIES:
            tell_queries(folder)
            return
        median, late = sync_time(folder)
        print(f"a write of 4,096 bytes is synced in {median:.0f} microseconds (the 99th of a hundred: {late:.0f})", flush=True)
        for size in (1, 8):
            without, kept = (statistics.median(rates) for rates in in_turns(receipts, folder, size))
            print(f"receipts a second of batches of {size}: {without:.0f} without a journal, {kept:.0f} with one, "
                  f"that is {1e3 / kept - 1e3 / without:.2f} ms a batch more", flush=True)
        without, kept = ([statistics.median(column) for column in zip(*rounds)] for rounds in in_turns(confirms, folder))
        print(f"as many writes and syncs by themselves: {system_time(folder):.0f} microseconds of processor time", flush=True)
        for word, one, other in zip(("an Enter", "a Confirm"), without, kept):
            print(f"processor time of {word}: {one:.0f} microseconds without a journal, {other:.0f} with one: {other / one:.2f} times", flush=True)
        tell_queries(folder)
        for count in ENTRIES:
            seconds, size, log = starts(folder, count)
            print(f"a start with {count} entries: {seconds:.2f} s; the file has {size} bytes, and its log {log}", flush=True)
        print("a start with the tables of {} boards: {:.1f} s with four workers, {:.1f} s with one".format(*solved_starts(folder)), flush=True)


if __name__ == "__main__":
    main()

#!/usr/bin/env python3
"""Refuses each growth in turn of a run of `bridge_server serve`.

    tests/memory/refuse_serving_growths.py crates/bridge_server/out/bridge_server

Starts the program with one display and no worker, for two connections, first with ample memory, and then with the Nth request for
memory refused, for N from 1 until a run asks less often. On the first connection a director signs in, has board 1 held and released in
turn by one batch of 64 commands, and asks for the board; on the second one a director signs in and asks again. That is done twice: in a
session where nothing is entered, from the start of the program; and where 254 commands are, from the batch on, so that the journal
outgrows its first room, which is for 256 entries, in the midst of it. And four times more with the journal in a file (`--journal`): in
a new one, from the start of the program; in one that has six commands, from the start; in one that has the solver's three tables, which
a start solves again, from the start; and in a new one, where 254 commands are entered before the batch, from that on. Several runs go on
at once, each with files and a port of its own. What each must do:

- Before it listens, and where the display's thread has no room to begin: end with status 4, or with status 1 and `Unsolved(n)` where a
  table wasn't found again. Nothing is half open.
- Later: that connection ends, or one message is answered {"error":"OutOfMemory"}, or the command that found no room is answered
  OutOfMemory, the ones before it `ok` and those after it NotTried, with the numbers of those before. With a file the batch may be answered
  {"error":"NotKept"} too, and then nothing of it stands. All else is as with ample
  memory: the second connection is served, unless it is the one that ended, and names the version that stands. The program then ends with
  status 0.
- In the end a file has just the entries that stand, by SQLite's own reading, and is whole to `PRAGMA integrity_check`; after a start that
  was refused, those from before.

It needs a C compiler, as refuse_growths.py does, and Debian's package sqlite3.
"""
import concurrent.futures
import itertools
import json
import os
import pathlib
import re
import shutil
import socket
import subprocess
import sys
import tempfile
import time

sys.path[:0] = [str(pathlib.Path(__file__).resolve().parents[1] / folder) for folder in ("drivers", "journals", "runs")]
from journal_files import integrity_of, is_there, rows_of
from raw_client import NOTHING_IS_KEPT, without_serving
from refuse_growths import REFUSING
from write_stored_runs import BOARDS, USERS, text_of

SESSION = {"budget": 0, "per_set": 1, "rounds": 3, "tables": 3, "users": USERS}
# the same, whose tables a worker finds
SOLVED_SESSION = {**SESSION, "budget": 10**9}
# board 1, where each player has a whole suit: the side of the trumps takes all tricks, and without trumps the side that leads
TABLE = {"N": [13, 0, 13, 0, 0], "S": [13, 0, 13, 0, 0], "E": [0, 13, 0, 13, 0], "W": [0, 13, 0, 13, 0]}
COMMANDS = 64
KEPT, TRIED = "kept.journal", "tried.journal"
HELLO = {"hello": "d", "token": "abc"}
# what a file has before the start: so many commands, the solver's tables, or None where there is no file; and how many commands are
# entered before the batch: even numbers, after which board 1 isn't held
TABLES = "three tables"
SESSIONS = ((None, 0), (None, 254), (0, 0), (6, 0), (TABLES, 0), (0, 254))
# how many runs go on at once: most of a run is spent waiting, for the disk or for the program's start
AT_ONCE = 2 * (os.cpu_count() or 2)
ASK = {"ask": "analysis", "board": 1}
NO_MEMORY, NOT_KEPT = {"error": "OutOfMemory"}, {"error": "NotKept"}
# what a start says that finds no memory (docs/RUNNING.md)
NO_ROOM = re.compile(rb"bridge_server: (OutOfMemory|NoPlace|NoThread) \([a-z ]+\)\n")
# and what one says that doesn't find a table again, for which there is no memory
UNSOLVED = re.compile(rb"bridge_server: Unsolved\([123]\)\n")
HANDSHAKE = ("GET / HTTP/1.1\r\nHost: 127.0.0.1\r\nUpgrade: websocket\r\nConnection: Upgrade\r\n"
             "Sec-WebSocket-Key: dGhlIHNhbXBsZSBub25jZQ==\r\nSec-WebSocket-Version: 13\r\n\r\n").encode()


def batches(count):
    """So many commands that hold and release board 1 in turn, in batches."""
    commands = [{"board": 1, "cmd": "Hold" if k % 2 == 0 else "Release"} for k in range(count)]
    return [{"do": commands[k:k + COMMANDS]} for k in range(0, count, COMMANDS)]


# below the ports that the system gives to clients, so that no run's port is another's or a client's
PORTS = itertools.cycle(range(20_000, 32_000))


def free_port():
    for port in PORTS:
        with socket.socket() as listener:
            listener.setsockopt(socket.SOL_SOCKET, socket.SO_REUSEADDR, 1)
            try:
                listener.bind(("127.0.0.1", port))
                return port
            except OSError:
                pass


def exactly(stream, count):
    got = b""
    while len(got) < count:
        more = stream.recv(count - len(got))
        if not more:
            raise ConnectionError("ended")
        got += more
    return got


def answer(stream, message):
    """The answer to a message; its frame's mask is 0."""
    data = text_of(message).encode()
    length = bytes([0x80 | len(data)]) if len(data) < 126 else b"\xfe" + len(data).to_bytes(2, "big")
    stream.sendall(b"\x81" + length + bytes(4) + data)
    first, size = exactly(stream, 2)
    if first != 0x81:
        raise ConnectionError("closed")
    if size == 126:
        size = int.from_bytes(exactly(stream, 2), "big")
    return json.loads(exactly(stream, size))


def connection(process, port, messages, before=(), counted=None):
    """What a client is answered, as far as the connection goes; or None where nobody listens any more. Where there are messages
    before those, they must be answered, and then requests for memory begin to count."""
    for _ in range(10_000):
        if process.poll() is not None:
            return None
        try:
            stream = socket.create_connection(("127.0.0.1", port), timeout=10)
            break
        except (ConnectionRefusedError, ConnectionResetError):
            # nobody listens there yet, or the program ended between its listening and this call
            time.sleep(0.002)
    else:
        raise SystemExit("the program neither listens nor ends")
    told = []
    with stream:
        try:
            stream.sendall(HANDSHAKE)
            head = b""
            while not head.endswith(b"\r\n\r\n"):
                head += exactly(stream, 1)
            for message in before:
                assert answer(stream, message).get("answers", ["ok"])[-1] == "ok"
            if counted:
                counted.touch()
            for message in messages:
                told.append(answer(stream, message))
        except (ConnectionError, BrokenPipeError):
            pass
    return told


def start(program, room, words, env=None, workers=0, connections=2):
    """The program with one display for two connections, and its port."""
    port = free_port()
    process = subprocess.Popen(
        [program, "serve", "--session", f"{room}/session.json", "--deals", f"{room}/deals.pbn", "--port", str(port), "--displays", "1",
         "--workers", str(workers), "--connections", str(connections), *words], env=env, stdin=subprocess.DEVNULL, stdout=subprocess.PIPE, stderr=subprocess.PIPE)
    return process, port


def prepare(program, room, kept):
    """Makes the session's files, and a journal that has so many commands, or the solver's tables."""
    for end in ("", "-wal"):
        pathlib.Path(f"{room}/{KEPT}{end}").unlink(missing_ok=True)
    pathlib.Path(room, "session.json").write_text(text_of(SOLVED_SESSION if kept == TABLES else SESSION), encoding="utf-8")
    if kept == TABLES:
        process, port = start(program, room, ["--journal", f"{room}/{KEPT}"], workers=1, connections=100_000)
        asked = [{"ask": "analysis", "board": board} for board in (1, 2, 3)]
        while any(reply["analysis"]["tricks"] is None for reply in connection(process, port, [HELLO, *asked])[1:]):
            time.sleep(0.01)
        process.kill()
        process.communicate()
        assert [row.done["cmd"] for row in rows_of(f"{room}/{KEPT}")] == ["Solved"] * 3
    elif kept:
        process, port = start(program, room, ["--journal", f"{room}/{KEPT}"])
        assert connection(process, port, [HELLO, *batches(kept)])[-1]["last"] == kept
        process.kill()
        process.communicate()


def run(program, room, kept, entered, n):
    """What the two clients are told, the status, what is written, how often memory was asked for, and how many rows a file has then, if it
    is whole; else what is wrong with it."""
    with tempfile.TemporaryDirectory(dir=room) as own:
        env = {**os.environ, "LD_PRELOAD": f"{room}/refusing.so", "ASKED_TO": f"{own}/asked", "REFUSED_AT": str(n)}
        batch, counted, before = batches(COMMANDS)[0], None, []
        if entered:
            counted, before = pathlib.Path(own, "counted"), [HELLO, *batches(entered)]
            env["COUNTED_AFTER"] = str(counted)
        for end in ("", "-wal"):
            if os.path.exists(f"{room}/{KEPT}{end}"):
                shutil.copyfile(f"{room}/{KEPT}{end}", f"{own}/{TRIED}{end}")
        process, port = start(program, room, [] if kept is None else ["--journal", f"{own}/{TRIED}"], env)
        told = [connection(process, port, [HELLO, batch, ASK], before, counted), connection(process, port, [HELLO, ASK])]
        out, err = process.communicate(timeout=60)
        asked = int(pathlib.Path(f"{own}/asked").read_text())
        return told, process.returncode, out + without_serving(err), asked, None if kept is None else rows_if_whole(f"{own}/{TRIED}")


def rows_if_whole(journal):
    found = integrity_of(journal) if is_there(journal) else "ok"
    return len(rows_of(journal)) if found == "ok" else found


def standing(receipt, entered):
    """How many commands stand after a batch, as its receipt tells, where so many had been entered before."""
    answers = receipt["answers"]
    place = answers.index("OutOfMemory") if "OutOfMemory" in answers else COMMANDS
    assert answers == ["ok"] * place + (["OutOfMemory"] + ["NotTried"] * (COMMANDS - place - 1) if place < COMMANDS else []), answers
    numbers = (entered + 1, entered + place) if place else (0, 0)
    assert (receipt["first"], receipt["last"], receipt["version"]) == (*numbers, entered + place), receipt
    return entered + place


def outcome(ample, told, status, entered, is_signed_in):
    """What a run with one request refused did, in a word, and how many entries may stand after it."""
    first, second = told
    if status != 0:
        assert not first and not second, (status, told)
        return f"status {status}", {entered}
    faults = 0
    # how many commands may stand after the batch: where its receipt was lost, any number
    stands = {entered} if len(first) < 1 or first[0] == NO_MEMORY else set(range(entered, entered + COMMANDS + 1))
    word = "as with ample memory"
    if first[:1] == [NO_MEMORY]:
        faults, word = 1, "a greeting found no memory"
        if is_signed_in:
            stands = {standing(first[1], entered)}
            assert first[2]["version"] in stands, first
        else:
            assert first[1:] == [{"error": "NotSignedIn"}] * 2, first
    elif len(first) < 3:
        faults, word = 1, "the first connection ended"
        assert first == ample[0][: len(first)] or len(first) == 2, first
        if len(first) == 2:
            stands = {standing(first[1], entered)}
    else:
        assert first[0] == ample[0][0], first
        if first[1] == NOT_KEPT:
            faults, word = 1, "a batch wasn't kept"
            stands = {entered}
        elif first[1] == NO_MEMORY:
            faults, word = 1, "a batch's answer or room found no memory"
            stands = {entered, entered + COMMANDS}
        else:
            stands = {standing(first[1], entered)}
            if stands != {entered + COMMANDS}:
                faults, word = 1, "a command found no room"
        if first[2] == NO_MEMORY:
            faults, word = faults + 1, "a query found no memory"
        else:
            assert first[2] == {**ample[0][2], "version": first[2]["version"]} and first[2]["version"] in stands, (first, stands)
            stands = {first[2]["version"]}
    if second == ample[1][:1] or second == [] or second is None:
        faults, word = faults + 1, "the second connection ended"
    elif NO_MEMORY in second:
        faults, word = faults + 1, "the second connection's message found no memory"
    else:
        assert second[0] == ample[1][0] and second[1] == {**ample[1][1], "version": second[1]["version"]}, second
        assert second[1]["version"] in stands, (second, stands)
        stands = {second[1]["version"]}
    assert faults <= 1, (told, faults)
    return word, stands


def main():
    (program,) = sys.argv[1:]
    with tempfile.TemporaryDirectory() as room:
        path = pathlib.Path(room)
        (path / "refusing.c").write_text(REFUSING)
        (path / "deals.pbn").write_text(BOARDS)
        subprocess.run(["cc", "-O1", "-shared", "-fPIC", "-o", f"{room}/refusing.so", f"{room}/refusing.c", "-ldl"], check=True)
        for kept, entered in SESSIONS:
            prepare(program, room, kept)
            refuse_each(program, room, kept, entered)


def of_file(kept):
    return kept if kept == TABLES else f"{kept} commands"


def refuse_each(program, room, kept, by_client):
    """Each request in turn, where a file has so many commands, if there is one, and so many more were entered before."""
    ample, status, said, asked, _rows = run(program, room, kept, by_client, 0)
    entered = by_client + (3 if kept == TABLES else kept or 0)
    after = entered + COMMANDS
    wanted = b"" if kept is not None else NOTHING_IS_KEPT
    shown = {"analysis": {"board": 1, "tricks": TABLE if kept == TABLES else None}, "version": after}
    receipt = {"answers": ["ok"] * COMMANDS, "first": entered + 1, "last": after, "version": after}
    assert (ample, status, said) == ([[{"hello": "d"}, receipt, shown], [{"hello": "d"}, shown]], 0, wanted), (ample, status, said)
    assert asked > 0, "the program asked for no memory through this allocator: nothing is tried"
    kinds = {}
    with concurrent.futures.ThreadPoolExecutor(AT_ONCE) as pool:
        runs = pool.map(lambda n: run(program, room, kept, by_client, n), range(1, asked + 1))
    for n, (told, status, said, _asked, rows) in enumerate(runs, 1):
        try:
            # a start that finds no memory says for what, maybe before it says that nothing is kept; else it may find none for saying how it serves
            if status == 4:
                assert NO_ROOM.fullmatch(said.removeprefix(wanted)), said
            elif status == 1:
                assert kept == TABLES and UNSOLVED.fullmatch(said), said
            else:
                assert (status, said) == (0, wanted), (status, said)
            kind, stands = outcome(ample, told, status, entered, by_client > 0)
            if kept is not None:
                assert rows in stands, (rows, "rows of the file, and not", stands)
        except AssertionError as fault:
            raise SystemExit(f"with {of_file(kept)} in a file and {by_client} more, and request {n} of {asked} refused: {fault}")
        kinds.setdefault(kind, []).append(n)
    where = "without a file" if kept is None else f"with {of_file(kept)} in a file"
    print(f"{where}, and {by_client} commands more, {asked} requests for memory, each refused in turn:", flush=True)
    for kind, numbers in kinds.items():
        print(f"    {kind}: {len(numbers)}, from request {numbers[0]} to {numbers[-1]}")
    if by_client:
        assert "a command found no room" in kinds, "the journal didn't outgrow its room in the batch"
    if kept == TABLES:
        assert "status 1" in kinds, "no table was left unsolved"


if __name__ == "__main__":
    main()

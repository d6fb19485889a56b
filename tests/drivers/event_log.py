#!/usr/bin/env python3
"""What `serve --log` tells, line by line, and what it doesn't.

    python3 tests/drivers/event_log.py crates/bridge_server/out/bridge_server

A session over sockets in which each thing happens of which docs/RUNNING.md, "The log", has a line: who signs in and who doesn't, batches that
are accepted and refused, each way in which a client's connection ends, a board that is solved and one that isn't, what a play cost. Each line
that comes has to be the one that is wanted there, with a time that lies within the test; and none may have a token, a digest, a card, a
contract or a result. Then logs that can't be opened, that can't be written, that are cut short by another program, and standard error. Python
alone is needed; it takes half a minute, most of it for a stranger who is late. Each line is a check: 'ok', or 'FAILED' with what came. The status
is 1 where one failed.
"""
import datetime
import hashlib
import json
import pathlib
import re
import sys
import tempfile
import time

sys.path[:0] = [str(pathlib.Path(__file__).resolve().parents[1] / folder) for folder in ("runs",)]
from checks import check, status
from raw_client import CLOSE, NOTHING_IS_KEPT, TEXT, Client, Server, frame, without_serving
from write_query_runs import hold
from write_stored_runs import BOARDS, FOUR_SPADES, confirm, contract, enter

PROGRAM = sys.argv[1] if len(sys.argv) > 1 else "crates/bridge_server/out/bridge_server"
MOMENT = r"(\d{4}-\d\d-\d\dT\d\d:\d\d:\d\dZ)"
# more visits than these boards take, and too few
VISITS, TOO_FEW = 10**9, 1
# a token each, which is no part of any word of a log
TOKENS = {name: f"tok-{name}-4f1c9e" for name in ("ada", "dora", "sam", "anna", "bert")}
ROLES = {"ada": ("Administrator",), "dora": ("Director",), "sam": ("Scorer",), "anna": ("Contestant",), "bert": ("Contestant",)}
SEATS = {"anna": {"pair": "NS1", "place": "N"}, "bert": {"pair": "NS2", "place": "N"}}
# the lowest cards of the four hands: East leads to four spades, and North ruffs
PLAY = ["H2", "D2", "C2", "S2"]
FIVE_HEARTS = contract("E", 5, "H", 0, 11)
UNLOGGED = b"bridge_server: LogUnwritten (an event isn't in the log; this is told once)\n"
# within how many seconds a line has to be there, on a machine that has much to do
SOON = 60


def digest(token):
    return hashlib.sha256(token.encode()).hexdigest()


def session(budget):
    users = [{"digest": digest(TOKENS[name]), "name": name, "roles": list(ROLES[name]), **SEATS.get(name, {})} for name in TOKENS]
    return {"budget": budget, "per_set": 1, "rounds": 3, "tables": 3, "users": users}


SECRETS = [*TOKENS.values(), *map(digest, TOKENS.values()), *PLAY, "AKQJT98765432", "4S", "5H", "tricks", "Gegenspieler"]


class Log:
    """A log's file, of which each line is looked at once."""

    def __init__(self, path):
        self.path, self.seen, self.began = path, 0, datetime.datetime.now(datetime.UTC).replace(microsecond=0)

    def lines(self):
        return self.path.read_bytes().decode("ascii").splitlines(keepends=True) if self.path.exists() else []

    def next(self, what, wanted):
        """Waits for one line more, which has to be this."""
        end = time.monotonic() + SOON
        while len(lines := self.lines()) <= self.seen or not lines[self.seen].endswith("\n"):
            if time.monotonic() > end:
                check(what, wanted, "no line")
                return
            time.sleep(0.01)
        line = lines[self.seen].removesuffix("\n")
        self.seen += 1
        found = re.fullmatch(f"{MOMENT} {wanted}", line)
        check(what, True, found is not None and self.is_now(found[1]) or line)

    def is_now(self, moment):
        at = datetime.datetime.fromisoformat(moment)
        return self.began <= at <= datetime.datetime.now(datetime.UTC)

    def ends(self, what):
        check(f"{what}: no line beside", [], self.lines()[self.seen:])
        text = self.path.read_text()
        check(f"{what}: no token, digest, card, contract or result", [], [secret for secret in SECRETS if secret in text])


def greeting(name, token):
    return {"hello": name, "token": token}


def signed_in(server, log, name):
    client = Client(server, SOON)
    check(f"{name} is greeted", {"hello": name}, json.loads(client.ask(greeting(name, TOKENS[name]))))
    log.next(f"{name} signed in", f"signed_in {name}")
    return client


def refused(server, log, what, name, token, told):
    """A greeting that is refused, on a connection of its own, which ends."""
    client = Client(server, SOON)
    check(f"{what}: it is refused", '{"error":"NotKnown"}', client.ask(greeting(name, token)))
    log.next(what, f"not_signed_in {told}")
    client.stream.close()
    log.next(f"{what}: its connection ends without a close", r"ended - why=Failed ms=\d+")


def batch(client, log, what, commands, told):
    """A batch, whose line has the numbers of its receipt and these words."""
    receipt = json.loads(client.ask({"do": commands}))
    log.next(what, f"batch sam first={receipt['first']} last={receipt['last']}{told}")


# ---- a session

def sign_ins(server, log):
    refused(server, log, "a wrong token names the user", "sam", "abc", "sam")
    refused(server, log, "a name that nobody has isn't told", "Gegenspieler", "abc", "-")
    refused(server, log, "a token in the place of the name isn't told", TOKENS["sam"], TOKENS["sam"], "-")
    client = signed_in(server, log, "anna")
    client.ask(greeting("anna", TOKENS["anna"]))
    check("who greets once more is told no more", {"hello": "bert"}, json.loads(client.ask(greeting("bert", TOKENS["bert"]))))
    log.next("another user on the same connection", "signed_in bert")
    check("a wrong token there is refused", '{"error":"NotKnown"}', client.ask(greeting("dora", "abc")))
    log.next("and it is told of whom it was", "not_signed_in dora")
    check("a close is answered", True, client.leave())
    log.next("who is still signed in leaves", r"ended bert why=Closed ms=\d+")


def batches(server, log):
    client = signed_in(server, log, "sam")
    batch(client, log, "results are entered", [enter(1, 1, FOUR_SPADES, PLAY), enter(2, 2, FIVE_HEARTS)], " Enter=ok Enter=ok")
    batch(client, log, "a mismatch", [confirm(2, 2, FOUR_SPADES)], " Confirm=Mismatch")
    batch(client, log, "some are accepted, and some aren't", [enter(3, 3, FIVE_HEARTS), hold(3)], " Enter=ok Hold=NotPermitted")
    batch(client, log, "no command", [], "")
    client.ask({"ask": "board", "board": 1})
    client.ask({"do": "nothing"})
    batch(client, log, "nothing is told of queries, and of what isn't read", [hold(1)], " Hold=NotPermitted")
    batch(client, log, "a result is confirmed", [confirm(1, 1, FOUR_SPADES)], " Confirm=ok")
    log.next("what its cards cost", r"costs_found table=1 board=1 ms=\d+")
    check("the scorer leaves", True, client.leave())
    log.next("and that is told", r"ended sam why=Closed ms=\d+")


def ends(server, log):
    client = Client(server, SOON)
    client.send(frame(TEXT, b"no mask", mask=None))
    check("a frame without a mask ends the connection", [CLOSE], [opcode for opcode, _ in client.rest()[0]])
    log.next("by a rule", r"ended - why=BrokeRule ms=\d+")
    client = signed_in(server, log, "dora")
    client.send(frame(TEXT, b"a" * 65_538))
    check("a message that is too long to be read does", [CLOSE], [opcode for opcode, _ in client.rest()[0]])
    log.next("and it is told of whom", r"ended dora why=TooLong ms=\d+")


def late(folder):
    path = folder / "late.log"
    log = Log(path)
    with Server(PROGRAM, "--log", path, "--workers", 0, "--idle", 2, session=session(0)) as server:
        signed_in(server, log, "ada").rest()
        log.next("who says nothing for two seconds is late", r"ended ada why=Late ms=[2-9]\d\d\d")
        Client(server, SOON).rest()
        log.next("a stranger is late after ten", r"ended - why=Late ms=1\d\d\d\d")
    log.ends("late")


def evening(folder):
    path = folder / "evening.log"
    log = Log(path)
    with Server(PROGRAM, "--log", path, "--displays", 2, "--workers", 1, session=session(VISITS)) as server:
        for board in (1, 2, 3):
            log.next(f"board {board} is solved", rf"table_solved board={board} ms=\d+")
        sign_ins(server, log)
        batches(server, log)
        ends(server, log)
        page = server.stream()
        page.sendall(b"GET / HTTP/1.1\r\nHost: a\r\nConnection: close\r\n\r\n")
        check("who asks for a page is answered", True, page.recv(65_536).startswith(b"HTTP/1.1 404"))
        page.close()
        time.sleep(0.5)
        log.ends("and it is no client of whom anything is told; the session")
        check("nothing is told beside on standard error", (-15, b"", NOTHING_IS_KEPT), server.ended())
    check("nobody else may read it", 0o600, path.stat().st_mode & 0o777)
    return path


def unsolved(folder):
    path = folder / "unsolved.log"
    log = Log(path)
    with Server(PROGRAM, "--log", path, "--workers", 1, session=session(TOO_FEW)):
        for board in (1, 2, 3):
            log.next(f"board {board} isn't solved by one visit", rf"not_found board={board} ms=\d+")
    log.ends("unsolved")


# ---- the file

def goes_on(path):
    """A log that has lines keeps them, and one that another program cuts short goes on at its end."""
    before = path.read_bytes()
    log = Log(path)
    log.seen = len(log.lines())
    with Server(PROGRAM, "--log", path, "--workers", 0, session=session(0)) as server:
        signed_in(server, log, "anna").stream.close()
        log.next("behind the lines of the start before", r"ended anna why=Failed ms=\d+")
        check("which are as they were", True, path.read_bytes().startswith(before))
        with path.open("r+b") as file:
            file.truncate(0)
        log.seen = 0
        # who stays connected: where the client were dropped, its end would be told, or not yet
        bert = signed_in(server, log, "bert")
        log.ends("a log that was cut short")
        bert.stream.close()


def unopened(folder):
    for name, why in ((folder / "none/x.log", "there is no such file or folder"), (folder, "it is a folder")):
        said = f"bridge_server: Unwritten ({name}: {why})\n".encode()
        try:
            Server(PROGRAM, "--log", name, session=session(0)).stopped()
            check(f"a log isn't opened where {why}", "it doesn't serve", "it serves")
        except SystemExit as end:
            check(f"a log isn't opened where {why}", f"the program doesn't listen: {(3, b'', said)}", str(end))


def full():
    """A log that can't be written is told once, and stops nothing."""
    with Server(PROGRAM, "--log", "/dev/full", "--workers", 1, session=session(VISITS)) as server:
        for name in ("anna", "bert", "sam"):
            client = Client(server, SOON)
            check(f"{name} is served all the same", {"hello": name}, json.loads(client.ask(greeting(name, TOKENS[name]))))
        receipt = json.loads(client.ask({"do": [enter(1, 1, FOUR_SPADES)]}))
        check("and enters a result", ["ok"], receipt["answers"])
        _status, _out, said = server.ended()
        check("a log that is full is told once", NOTHING_IS_KEPT + UNLOGGED, said.replace(UNLOGGED + NOTHING_IS_KEPT, NOTHING_IS_KEPT + UNLOGGED))


def errors():
    """With `-` the lines are on standard error, beside what else is told there."""
    with Server(PROGRAM, "--log", "-", "--workers", 0, session=session(0)) as server:
        client = Client(server, SOON)
        client.ask(greeting("anna", TOKENS["anna"]))
        check("a client leaves", True, client.leave())
        time.sleep(0.5)
        server.process.terminate()
        said = without_serving(server.process.communicate(timeout=30)[1]).decode()
        lines = said.removeprefix(NOTHING_IS_KEPT.decode()).splitlines()
        check("standard error has two lines beside", 2, len(lines))
        for line, wanted in zip(lines, ("signed_in anna", r"ended anna why=Closed ms=\d+")):
            check(f"{wanted}, on standard error", True, re.fullmatch(f"{MOMENT} {wanted}", line) is not None or line)


def main():
    check("the boards are those whose hands are secret", True, "AKQJT98765432" in BOARDS)
    with tempfile.TemporaryDirectory() as name:
        folder = pathlib.Path(name)
        goes_on(evening(folder))
        late(folder)
        unsolved(folder)
        unopened(folder)
    full()
    errors()
    return status()


if __name__ == "__main__":
    sys.exit(main())

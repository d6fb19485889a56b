#!/usr/bin/env python3
"""Starts a server on journals of every kind: those that it goes on with, and those that it must refuse.

    python3 tests/journals/journal_starts.py crates/bridge_server/out/bridge_server

It needs Debian's package sqlite3. Each line is a check: 'ok', or 'FAILED' with what came; the status is 1 where one failed. What is
wanted comes from docs/RUNNING.md. A start that goes through ends at a port that is taken.
"""
import itertools
import json
import os
import pathlib
import random
import socket
import sqlite3
import subprocess
import sys
import tempfile
import time

sys.path[:0] = [str(pathlib.Path(__file__).resolve().parents[1] / folder) for folder in ("drivers", "runs")]
from checks import check, status
from journal_files import GOES_THROUGH, change, contents_of, copied, fault, integrity_of, log_of, ran, rows_of, session_of_file, started
from raw_client import BOARDS, SESSION, Client, Server, some_deals
from write_movement_runs import SESSION as HOWELL
from write_movement_runs import TOLD as HOWELL_ROWS
from write_query_runs import NEXT, hold, release, void
from write_stored_runs import FOUR_SPADES, WHOLE_SUITS, confirm, enter, text_of

PROGRAM = sys.argv[1] if len(sys.argv) > 1 else "crates/bridge_server/out/bridge_server"
FEW = ["--displays", 4, "--workers", 1]


def told(client, message):
    return json.loads(client.ask(message))


def signed_in(server, name="d"):
    client = Client(server, 30)
    assert told(client, {"hello": name, "token": "abc"}) == {"hello": name}
    return client


def audit_of(client):
    return told(client, {"audit": {"from": 1, "limit": 1000}})["audit"]


class Files:
    """A session's two files in a folder, and starts of the server that must end by themselves."""

    def __init__(self, folder, session=SESSION, deals=BOARDS):
        self.session, self.deals = pathlib.Path(folder, "session.json"), pathlib.Path(folder, "deals.pbn")
        self.session.write_text(text_of(session))
        self.deals.write_text(deals)

    def start(self, journal, named=True):
        """How a start ends; where it isn't refused, by a port that is taken: with status 3, which is told."""
        words = ["--session", self.session, "--deals", self.deals] if named else []
        with socket.socket() as taken:
            taken.bind(("127.0.0.1", 0))
            taken.listen()
            return started(ran(PROGRAM, "serve", *words, "--journal", journal, "--port", taken.getsockname()[1], *FEW))


def refused(status, name):
    return status, b"", fault(name)


def play(journal, *batches):
    """Has these batches kept, and kills the server."""
    with Server(PROGRAM, "--journal", journal, *FEW) as server:
        client = signed_in(server)
        for commands in batches:
            heard = told(client, {"do": commands})
            assert heard["answers"] == ["ok"] * len(commands), heard
        server.process.kill()
        server.stopped()


# ---- what goes on

def goes_on(folder):
    """A start goes on with the evening: versions, audits, replies, and who was shown a board."""
    journal = folder / "evening.journal"
    asked = [{"ask": "status"}, {"ask": "board", "board": 1}, {"ask": "traveller", "board": 1}, {"ask": "accounts"}, {"ask": "ranking"}]
    with Server(PROGRAM, "--journal", journal, *FEW) as server:
        check("a new journal is readable by its owner alone, or by whom the umask lets", True, os.stat(journal).st_mode & 0o022 == 0)
        scorer, player, director = (signed_in(server, name) for name in ("k", "n1", "d"))
        told(scorer, {"do": [enter(1, 1, FOUR_SPADES), confirm(1, 1, FOUR_SPADES)]})
        check("the player sees the board that a result was entered for", 2, told(player, {"ask": "board", "board": 1, "since": 2})["version"])
        told(director, {"do": [void(1, 1), release(2)]})
        told(director, {"do": [hold(3)]})
        before = [told(client, {**query, "since": 4}) for client in (player, director) for query in asked]
        rows = audit_of(director)
        server.process.kill()
        server.stopped()
    check("four entries and one refusal make four rows in three publications", [1, 1, 2, 3], [row.publication for row in rows_of(journal)][:4])
    check("the file has the session as it was given, byte for byte", (text_of(SESSION).encode(), BOARDS.encode()), session_of_file(journal))
    with Server(PROGRAM, "--journal", journal, *FEW) as server:
        scorer, player, director = (signed_in(server, name) for name in ("k", "n1", "d"))
        check("a start answers as before the kill", before, [told(client, query) for client in (player, director) for query in asked])
        check("and audits so", rows, audit_of(director))
        check("whoever was shown the board by the early result is refused it still",
              {"answers": ["Spoiled(n1)"], "first": 0, "last": 0, "version": len(rows)}, told(scorer, {"do": [enter(1, 1, FOUR_SPADES)]}))
        check("the next entry has the next number", len(rows) + 1, told(director, {"do": [release(3)]})["first"])
    check("ended by SIGTERM, the file is whole", "ok", integrity_of(journal))
    with tempfile.TemporaryDirectory() as elsewhere:
        files = Files(elsewhere)
        check("with its session's files it starts", GOES_THROUGH, files.start(journal))
        check("and without them, since the journal is the whole session", GOES_THROUGH, files.start(journal, named=False))
        check("without them there must be a journal", refused(1, "NotAJournal"), files.start(pathlib.Path(elsewhere, "none.journal"), named=False))
        for words in (("--session", files.session), ("--deals", files.deals), ()):
            status, out, err = ran(PROGRAM, "serve", *words, *(["--journal", journal] if words else []), "--port", 1)
            check(f"words that name {len(words) // 2} of two files", (2, b"", True), (status, out, err.startswith(b"error: ")))


def solved_again(folder):
    """Tables that were found are there after a start, before a client asks."""
    journal, session = folder / "solved.journal", {"session": {**SESSION, "budget": 10**9}, "deals": BOARDS}
    asked = [{"ask": "analysis", "board": board} for board in (1, 2, 3)]
    with Server(PROGRAM, "--journal", journal, *FEW, **session) as server:
        director, until = signed_in(server), time.monotonic() + 60
        while len(audit_of(director)) < 3 and time.monotonic() < until:
            time.sleep(0.05)
        before = [told(director, query) for query in asked]
        server.process.kill()
        server.stopped()
    rows = rows_of(journal)
    check("three tables are found and kept", {("solver", "Solved")}, {(row.actor, row.done["cmd"]) for row in rows})
    check("each as a publication of its own, with its deal", [1, 2, 3], [row.publication for row in rows if row.done["deal"].startswith("N:")])
    with Server(PROGRAM, "--journal", journal, "--displays", 2, "--workers", 0, **session) as server:
        check("a start shows them at once, also without workers", before, [told(signed_in(server), query) for query in asked[:1]] + before[1:])
        check("and has found none twice", rows, rows_of(journal))
        server.process.kill()
    done = json.loads(rows[1].command)
    done["tricks"]["N"][0] ^= 1
    change(journal, ("UPDATE entry SET command = ? WHERE number = 2", (text_of(done),)))
    check("a number of tricks that somebody changed isn't taken", refused(1, "Unreadable(2)"), Files(folder, **session).start(journal))


def moved_on(folder):
    """A session whose movement is a list goes on as any other; with its rows in another order it is another session."""
    journal, asked = folder / "howell.journal", [{"ask": "status"}, {"ask": "traveller", "board": 2}, {"ask": "ranking"}]
    session, deals = {name: value for name, value in HOWELL.items() if name != "pbn"}, HOWELL["pbn"]
    with Server(PROGRAM, "--journal", journal, *FEW, session=session, deals=deals) as server:
        scorer, player, director = (signed_in(server, name) for name in ("k", "n1", "d"))
        told(scorer, {"do": [enter(1, 1, FOUR_SPADES), confirm(1, 1, FOUR_SPADES)]})
        told(director, {"do": [NEXT]})
        told(scorer, {"do": [enter(1, 2, "pass"), confirm(1, 2, "pass")]})
        before = [told(player, {**query, "since": 5}) for query in asked]
        server.process.kill()
        server.stopped()
    check("the status has the rows of a movement that is a list", HOWELL_ROWS, before[0]["status"]["movement"])
    check("a pair that began East-West sits North-South", [("EW3", "NS1")], [(row["ns"], row["ew"]) for row in before[1]["traveller"]["rows"]])
    with Server(PROGRAM, "--journal", journal, *FEW, session=session, deals=deals) as server:
        player, scorer = signed_in(server, "n1"), signed_in(server, "k")
        check("a start answers so again", before, [told(player, query) for query in asked])
        check("and plays on by the rows", ["RoundNotStarted", "NoSuchCell", "ok"],
              told(scorer, {"do": [enter(1, 3, "pass"), enter(2, 6, "pass"), enter(2, 5, "pass")]})["answers"])
    other = Files(tempfile.mkdtemp(dir=folder), {**session, "movement": session["movement"][::-1]}, deals)
    check("its rows in another order", refused(1, "OtherSession"), other.start(journal))


def full(folder):
    """A journal of as many entries as there may be is taken up in seconds, and takes no more; with a row more it is none."""
    journal, count = folder / "full.journal", 60_000
    play(journal)
    insert = "INSERT INTO entry (number, publication, actor, command) VALUES (?, ?, 'user d', ?)"
    commands = text_of(release(1)), text_of(hold(1))
    change(journal, *((insert, (number, number, commands[number % 2])) for number in range(1, count + 1)))
    begun = time.monotonic()
    with Server(PROGRAM, "--journal", journal, *FEW) as server:
        seconds, client = time.monotonic() - begun, signed_in(server)
        check(f"a start with {count} entries, in {seconds:.1f} s", True, seconds < 30)
        check("all of them are there", count, told(client, {"ask": "status"})["version"])
        check("the last of them too", [[count, "d", "Release", "1"]], told(client, {"audit": {"from": count, "limit": 1000}})["audit"])
        check("and one more is refused", {"answers": ["JournalFull"], "first": 0, "last": 0, "version": count}, told(client, {"do": [hold(1)]}))
        server.process.kill()
        server.stopped()
    check("it is whole, and has just these", ("ok", count), (integrity_of(journal), len(rows_of(journal))))
    change(journal, (insert, (count + 1, count + 1, commands[1])))
    check("a row more than there may be", refused(1, "Misnumbered"), Files(folder).start(journal))


# ---- what is refused

def refusals(folder):
    """Journals that aren't this session's, aren't journals, or that somebody changed."""
    kept = folder / "kept.journal"
    play(kept, [hold(1)], [release(1), hold(2)], [hold(1)])
    files, number = Files(folder), itertools.count()

    def tried(what, wanted, *statements, made=None, files=files):
        place = folder / str(next(number))
        place.mkdir()
        journal = copied(kept, place) if made is None else place / "made.journal"
        if made:
            made(journal)
        elif statements:
            change(journal, *statements)
        before = contents_of(journal) if journal.is_file() else None
        check(what, wanted, files.start(journal))
        if wanted != GOES_THROUGH and before is not None:
            check(f"{what}: nothing that it says is changed", True, contents_of(journal) == before)

    def other_program(journal):
        connection = sqlite3.connect(journal)
        connection.execute("CREATE TABLE note (number INTEGER PRIMARY KEY, text TEXT)")
        connection.execute("INSERT INTO note VALUES (1, 'no journal')")
        connection.commit()
        connection.close()

    set_command = "UPDATE entry SET command = ? WHERE number = ?"
    tried("the journal as it was", GOES_THROUGH)
    tried("a number that somebody changed", refused(1, "Misnumbered"), "UPDATE entry SET number = 9 WHERE number = 2")
    tried("a row that somebody took out", refused(1, "Misnumbered"), "DELETE FROM entry WHERE number = 2")
    tried("a publication that goes back", refused(1, "Misnumbered"), "UPDATE entry SET publication = 1 WHERE number = 4")
    tried("a publication that leaves one out", refused(1, "Misnumbered"), "UPDATE entry SET publication = 5 WHERE number = 4")
    tried("a command that is no JSON", refused(1, "Unreadable(2)"), (set_command, ("{", 2)))
    tried("a command of another word", refused(1, "Unreadable(3)"), (set_command, ('{"board":2,"cmd":"Keep"}', 3)))
    tried("an actor that is none", refused(1, "Unreadable(2)"), "UPDATE entry SET actor = 'd' WHERE number = 2")
    tried("a command that the session refuses", refused(1, "NotAccepted(2)"), (set_command, ('{"board":2,"cmd":"Release"}', 2)))
    tried("a user who may not do it", refused(1, "NotAccepted(1)"), "UPDATE entry SET actor = 'user n1' WHERE number = 1")
    tried("a user who isn't there", refused(1, "NotAccepted(3)"), "UPDATE entry SET actor = 'user nobody' WHERE number = 3")
    tried("a command that no client would write so", refused(1, "Unreadable(1)"), (set_command, ('{"board": 1, "cmd": "Hold"}', 1)))
    of_the_solver = "UPDATE entry SET actor = 'solver', command = ? WHERE number = 1"
    tried("a table of no deal", refused(1, "Unreadable(1)"), (of_the_solver, ('{"board":1,"cmd":"Solved","deal":"N:..."}',)))
    solved = {"board": 1, "cmd": "Solved", "deal": f"N:{WHOLE_SUITS}"}
    tricks = {**dict.fromkeys("NS", [13, 0, 13, 0, 0]), **dict.fromkeys("EW", [0, 13, 0, 13, 0])}
    tried("a table without its numbers", refused(1, "Unreadable(1)"), (of_the_solver, (text_of(solved),)))
    tried("a table that is found again, though the session has no visits, and in its place a board isn't held any more",
          refused(1, "NotAccepted(2)"), (of_the_solver, (text_of({**solved, "tricks": tricks}),)))
    tried("a table more in the file", refused(1, "NotAJournal"), "CREATE TABLE note (text TEXT)")
    tried("an index more in the file", refused(1, "NotAJournal"), "CREATE INDEX by_actor ON entry (actor)")
    tried("another program's file of SQLite", refused(1, "NotAJournal"), made=other_program)
    tried("a file of random bytes", refused(3, "JournalDamaged"), made=lambda journal: journal.write_bytes(random.Random(1).randbytes(8192)))
    tried("a text", refused(3, "JournalDamaged"), made=lambda journal: journal.write_text("no journal\n" * 1000))
    tried("a folder", refused(3, "JournalUnread"), made=lambda journal: journal.mkdir())
    tried("an empty file, which becomes a journal", GOES_THROUGH, made=lambda journal: journal.touch())
    other = [Files(tempfile.mkdtemp(dir=folder), session, deals)
             for session, deals in (({**SESSION, "budget": 1}, BOARDS), (SESSION, BOARDS.replace('"1"', '"1" ')), (SESSION, some_deals(random.Random(2), 3)))]
    for what, one in zip(("a session object with one byte changed", "deals with one byte more", "other deals"), other):
        tried(what, refused(1, "OtherSession"), files=one)
    check("a folder that isn't there", refused(3, "JournalUnread"), files.start(folder / "nowhere" / "club.journal"))
    with Server(PROGRAM, "--journal", kept, *FEW) as server:
        check("a second server on the same file", refused(3, "JournalBusy"), files.start(kept))
        check("and the first one goes on", 5, told(signed_in(server), {"do": [release(1)]})["first"])
    check("of the first one all is there", 5, len(rows_of(kept)))
    check("and it is whole", "ok", integrity_of(kept))
    by_command = copied(kept, tempfile.mkdtemp(dir=folder))
    subprocess.run(["sqlite3", str(by_command), "UPDATE entry SET number = 9 WHERE number = 2"], check=True)
    assert not log_of(by_command).exists()
    check("a number that the command sqlite3 has changed, which spoils the sums of pages", refused(3, "JournalDamaged"), files.start(by_command))


def main():
    with tempfile.TemporaryDirectory() as name:
        for part in (goes_on, solved_again, moved_on, full, refusals):
            part(pathlib.Path(name))
    return status()


if __name__ == "__main__":
    sys.exit(main())

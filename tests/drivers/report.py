#!/usr/bin/env python3
"""What `bridge_server report` writes of journals, read by others' readers and compared with what a director was told.

    tests/drivers/report.py PROGRAM [--browser] [--dds]            (the built bridge_server)

A session of three tables, in which names, the title and numbers are made to break out of their fields, one of an example's script, and one of 16 tables and 128
boards. Each is served with a journal, and entered; before the server ends a director asks for the status, the ranking, and each board with
its traveller and its analysis. What is wanted of each form is worked out from these replies: the ranking, each result, each board, with
percentages and places, and the mark of a session that isn't final.

| Form | Reader |
|---|---|
| csv | Python's `csv` |
| html | Python's `html.parser`, and with --browser Chromium, which must find no script to run and say nothing on its console |
| pbn | the plain reader of tests/models/boards_reader.py for the boards, and a few lines here for tags and tables; with --dds DDS (Debian's libdds0), which reads each deal and must find the numbers below it |
| usebio | `xmllint` (Debian's libxml2-utils) against docs/usebio_reading.dtd, and Python's `xml.etree` |

The largest is written in under a second in each form. Words that name no form, and journals that aren't there, are refused by name; a name
or a title with a line's end opens no session.
"""
import json
import os
import pathlib
import random
import re
import subprocess
import sys
import tempfile
import time

ROOT = pathlib.Path(__file__).resolve().parents[2]
sys.path[:0] = [str(ROOT / "tests" / folder) for folder in ("runs",)]
from checks import check, status, tell
from raw_client import BOARDS, Client, Server, some_deals
from report_csv import check_csv
from report_page import check_in_browser, check_page
from report_pbn import check_by_dds, check_pbn
from report_usebio import check_usebio
from report_wanted import Told, Wanted
from write_query_runs import CLOSE, FINALISE, NEXT, correct, rule
from write_stored_runs import DIGEST, contract, text_of, user

PROGRAM = next((word for word in sys.argv[1:] if not word.startswith("-")), "crates/bridge_server/out/bridge_server")
FORMS = ("csv", "html", "pbn", "usebio")
TITLE = "Club <b>&amp; 'pairs', \"open\"</b> ]]> {x} ; [Board \"9\"] \\"
SHOWN = {"n1": "A<script>alert(1)</script>", "s1": "O'Neil, \"Ace\" & Co", "e1": "[Deal \"x\"] % ; {", "w1": "水野 \\"}
NUMBERS = {"n1": "DBV123", "w1": "7"}
CHECKS = {"csv": check_csv, "html": lambda text, wanted: check_page("html", text.decode(), wanted), "pbn": check_pbn, "usebio": check_usebio}


def small_session(budget=1_000_000):
    seats = [("n1", "NS1", "N"), ("s1", "NS1", "S"), ("e1", "EW1", "E"), ("w1", "EW1", "W"), ("n2", "NS2", "N")]
    users = [user("d", "Director"), user("a", "Administrator"), *(user(name, "Contestant", pair, place) for name, pair, place in seats)]
    for one in users:
        one |= {"shown": SHOWN[one["name"]]} if one["name"] in SHOWN else {}
        one |= {"number": NUMBERS[one["name"]]} if one["name"] in NUMBERS else {}
    return {"budget": budget, "date": "2026-11-27", "per_set": 1, "rounds": 3, "tables": 3, "title": TITLE, "users": users}


def large_session():
    users = [user("d", "Director"), user("a", "Administrator")]
    users += [{"digest": DIGEST, "name": f"{side}{pair}{place}", "number": f"{pair}{place}", "pair": f"{side}{pair}", "place": place,
               "roles": ["Contestant"], "shown": f"Player {pair}, of {side} & {place}"}
              for side in ("NS", "EW") for pair in range(1, 17) for place in side]
    return {"budget": 0, "per_set": 8, "rounds": 15, "tables": 16, "users": users}


def do(client, *commands):
    for first in range(0, len(commands), 64):
        batch = commands[first:first + 64]
        heard = json.loads(client.ask({"do": list(batch)}))
        assert heard.get("answers") == ["ok"] * len(batch), heard


def kept(journal, session, deals, boards, play):
    """Serves a session with a journal, has `play` enter what is entered, and gives what a director is told then."""
    with Server(PROGRAM, "--journal", journal, "--workers", "2", "--displays", "2", session=session, deals=deals) as server:
        client = Client(server, 60)
        assert json.loads(client.ask({"hello": "d", "token": "abc"})) == {"hello": "d"}
        play(client)
        return Told(client, boards)


def report(journal, form):
    began = time.monotonic()
    done = subprocess.run([PROGRAM, "report", "--journal", str(journal), "--as", form], stdin=subprocess.DEVNULL, capture_output=True,
                          timeout=300, check=False)
    return done.returncode, done.stdout, done.stderr, time.monotonic() - began


def check_forms(journal, told, numbers, browser, quick=False):
    wanted = Wanted(told, numbers)
    for form in FORMS:
        status_, text, err, seconds = report(journal, form)
        check(f"{form}: status and standard error ({told.status['phase']})", (0, b""), (status_, err))
        CHECKS[form](text, wanted)
        if quick:
            check(f"{form}: {len(told.boards)} boards in under a second ({seconds:.2f} s, {len(text)} bytes)", True, seconds < 1)
        if browser and form == "html":
            check_in_browser(text, wanted)
        if "--dds" in sys.argv and form == "pbn" and any(told.tricks):
            check_by_dds(text)


# ---- the sessions

def results_of_the_small(client):
    four = contract("N", 4, "S", 0, 10)
    do(client, *(rule(table, board, 60, 40, 1) for table, board in ((1, 1), (2, 2), (3, 3))), NEXT,
       *(rule(table, board, 60, 40, 1) for table, board in ((1, 2), (2, 3), (3, 1))), NEXT,
       *(rule(table, board, 45, 55, 1) for table, board in ((1, 3), (2, 1), (3, 2))))
    do(client, correct(1, 1, four), correct(3, 1, contract("E", 3, "N", 2, 4)), correct(1, 2, "pass"), correct(2, 2, contract("S", 7, "C", 1, 13)))


def wait_until_solved(client, boards):
    for board in range(1, boards + 1):
        deadline = time.monotonic() + 60
        while json.loads(client.ask({"ask": "analysis", "board": board}))["analysis"]["tricks"] is None:
            assert time.monotonic() < deadline, f"board {board} isn't solved"
            time.sleep(0.05)


def results_of_the_large(client):
    rng = random.Random(63)
    rows = json.loads(client.ask({"ask": "status"}))["status"]["live"]
    for number in range(1, 16):
        if number > 1:
            do(client, NEXT)
            rows = json.loads(client.ask({"ask": "status"}))["status"]["live"]
        cells = [(table, board) for table, boards in enumerate(rows, 1) for board in boards]
        do(client, *(rule(table, board, 60, 40, 1) for table, board in cells))
        do(client, *(correct(table, board, contract(rng.choice("NESW"), rng.randint(1, 7), rng.choice("SHDCN"), rng.randint(0, 2), rng.randint(0, 13)))
                     for table, board in cells if rng.random() < 0.98))


def the_small(folder, browser):
    journal = folder / "small.journal"

    def play(client):
        wait_until_solved(client, 3)
        results_of_the_small(client)

    check_forms(journal, kept(journal, small_session(), BOARDS, 3, play), NUMBERS, browser)
    for command in (CLOSE, FINALISE):
        check_forms(journal, kept(journal, small_session(), BOARDS, 3, lambda client, command=command: do(client, command)), NUMBERS, False)


def the_script(folder):
    """What the batches of an example's script come to: each is sent as its own user, to a server with a journal."""
    first, *messages = [json.loads(line) for line in (ROOT / "examples/first_round.script").read_text().splitlines()]
    deals = first.pop("pbn")
    for one in first["users"]:
        one["digest"] = DIGEST
    director = next(one["name"] for one in first["users"] if "Director" in one["roles"])
    journal = folder / "script.journal"
    with Server(PROGRAM, "--journal", journal, "--workers", "1", "--displays", "2", session=first, deals=deals) as server:
        client = Client(server, 60)
        for message in messages:
            if "do" in message:
                client.ask({"hello": message["as"], "token": "abc"})
                check("a batch of the script has its receipt", True, "answers" in json.loads(client.ask({"do": message["do"]})))
        client.ask({"hello": director, "token": "abc"})
        told = Told(client, len({int(number) for number in re.findall(r'\[Board "(\d+)"\]', deals)}))
    check("the script has results", True, any(told.rows))
    check_forms(journal, told, {one["name"]: one["number"] for one in first["users"] if "number" in one}, False)


def the_largest(folder, browser):
    journal = folder / "large.journal"
    session = large_session()
    told = kept(journal, session, some_deals(random.Random(63), 128), 128, results_of_the_large)
    check_forms(journal, told, {one["name"]: one["number"] for one in session["users"] if "number" in one}, browser, quick=True)


def the_refused(folder):
    journal = folder / "small.journal"
    for words in (("--journal", str(journal)), ("--as", "csv"), ("--journal", str(journal), "--as", "pdf"), ("--journal", str(journal), "--as", "CSV")):
        done = subprocess.run([PROGRAM, "report", *words], stdin=subprocess.DEVNULL, capture_output=True, timeout=60, check=False)
        check(f"report {' '.join(words).replace(str(folder), '')}: status 2, no report, and words", (2, b"", True), (done.returncode, done.stdout, bool(done.stderr)))
    for text in ("a\nb", "a\rb", "a\tb", "a\x00b", "a\u2028b", "a\u202eb"):
        for session in ({**small_session(), "pbn": BOARDS, "title": text}, {**small_session(), "pbn": BOARDS}):
            if session["title"] != text:
                session["users"][2]["shown"] = text
            done = subprocess.run([PROGRAM, "script"], input=text_of(session).encode(), capture_output=True, timeout=60, check=False)
            check(f"a text that ends its line or turns it, {text!r}, opens no session", (1, b"", b"bridge_server: BadField\n"), (done.returncode, done.stdout, done.stderr))
    empty = folder / "empty.journal"
    empty.write_bytes(b"")
    (folder / "other.journal").write_bytes(b"x" * 4096)
    for name, wanted in (("empty", (1, b"", b"bridge_server: NotAJournal\n")), ("other", (3, b"", b"bridge_server: JournalDamaged\n")), ("none", (1, b"", b"bridge_server: NotAJournal\n"))):
        check(f"the journal {name}", wanted, report(folder / f"{name}.journal", "html")[:3])
        told = subprocess.run([PROGRAM, "audit", "--journal", str(folder / f"{name}.journal")], stdin=subprocess.DEVNULL, capture_output=True, timeout=60, check=False)
        check(f"the journal {name}, as an audit has it", wanted, (told.returncode, told.stdout, told.stderr))
    check("no journal is made", False, (folder / "none.journal").exists())


def main():
    browser = "--browser" in sys.argv
    with tempfile.TemporaryDirectory(prefix="report_") as at:
        folder = pathlib.Path(at)
        the_small(folder, browser)
        the_refused(folder)
        the_script(folder)
        the_largest(folder, browser)
        tell("each form is read by a reader that isn't the program's")
    return status()


if __name__ == "__main__":
    ended = main()
    sys.stdout.flush()
    os._exit(ended)  # DDS's library faults where Python ends and lets it go

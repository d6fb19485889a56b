#!/usr/bin/env python3
"""What `bridge_server prepare` makes of a list of people, and each of its refusals.

    tests/drivers/prepare.py PROGRAM            (the built bridge_server)

A row is the words, what stands in the list of people, the status, and how what is said begins. After a refusal no folder is there.
What is made for `examples/people.csv` is opened, its tokens are those whose digests the object has, its files are readable as they
should be, and the page of cards has a card for each person, in which no name ends its field.
"""
import csv
import hashlib
import json
import os
import re
import shutil
import stat
import subprocess
import sys
import tempfile

HERE = os.path.dirname(os.path.dirname(os.path.dirname(os.path.abspath(__file__))))
DEALS = f"{HERE}/examples/club.pbn"
PEOPLE = f"{HERE}/examples/people.csv"
HEAD = "name,pair,place,roles\n"
STAFF = "Dora,,,Director Administrator\n"
NUMBERS = ["--tables", "8", "--rounds", "7", "--per-set", "3"]

# what is said, of which list, with which words beside the files and the numbers
REFUSALS = [
    ("TooLong", HEAD + "x" * 1_048_576, []),
    ("NoHeader", "", []),
    ("NoPeople", HEAD, []),
    ("UnknownColumn: column 2", "name,club\nAnna,X\n", []),
    ("ColumnTwice: column 3", "name,pair,name\nAnna,NS1,A\n", []),
    ("NoNameColumn", "pair,place\nNS1,N\n", []),
    ("line 3: WrongFields", HEAD + STAFF + "Anna,NS1\n", []),
    ("line 3: WrongFields", HEAD + STAFF + "Meier, Max,NS1,N,\n", []),
    ("line 3: NotText", HEAD + STAFF + "Ann\udce9,NS1,N,\n", []),  # the byte E9, as Latin-1 has it
    ("line 2: BadShown", HEAD + ",NS1,N,\n", []),
    ("line 2: BadShown", HEAD + " Anna,NS1,N,\n", []),
    ("line 2: BadShown", HEAD + "x" * 65 + ",NS1,N,\n", []),
    ("line 2: BadPair", HEAD + "Anna,NS0,N,\n", []),
    ("line 2: BadPair", HEAD + "Anna,NS01,N,\n", []),
    ("line 2: BadPlace", HEAD + "Anna,NS1,n,\n", []),
    ("line 2: BadSeat", HEAD + "Anna,NS1,,\n", []),
    ("line 2: BadSeat", HEAD + "Anna,,N,\n", []),
    ("line 2: BadRole", HEAD + "Anna,,,Chief\n", []),
    ("line 2: BadNumber", "name,roles,number\nAnna,Scorer,12-3\n", []),
    ("line 2: BadNumber", "name,roles,number\nAnna,Scorer," + "1" * 17 + "\n", []),
    ("line 2: BadSignIn", "name,roles,sign_in\nAnna,Scorer,an na\n", []),
    ("line 2: BadSignIn", "name,roles,sign_in\nAnna,Scorer," + "a" * 33 + "\n", []),
    ("line 4: NoPart", HEAD + STAFF + "\nAnna,,,\n", []),
    ("line 1001: NoFreeName", "name,roles\n" + "Anna,Spectator\n" * 1000, []),
    ("line 3: UserExists", "name,roles,sign_in\nDora,Administrator,d\nDan,Scorer,d\n", []),
    ("line 3: NoSuchPair", HEAD + STAFF + "Anna,NS9,N,\n", []),
    ("line 3: WrongDirection", HEAD + STAFF + "Anna,NS1,E,\n", []),
    ("line 4: SeatTaken", HEAD + STAFF + "Anna,NS1,N,\nBen,NS1,N,\n", []),
    ("line 3: NotContestant", HEAD + STAFF + "Anna,NS1,N,Spectator\n", []),
    ("line 3: AlreadyAssigned", HEAD + STAFF + "Anna,NS1,N,Contestant Contestant\n", []),
    ("line 3: Separation(S1)", HEAD + STAFF + "Anna,NS1,N,Contestant Director\n", []),
    ("line 258: TooManyUsers", HEAD + STAFF + "Anna,,,Spectator\n" * 256, []),
    ("LastAdministrator", HEAD + "Anna,NS1,N,\n", []),
    ("BadTables", HEAD + STAFF, ["--tables", "2"]),
    ("BadRounds", HEAD + STAFF, ["--rounds", "8"]),
    ("BadSets", HEAD + STAFF, ["--per-set", "9"]),
    ("MissingBoard(25)", HEAD + STAFF, ["--per-set", "4"]),
    ("BadPair", HEAD + STAFF, ["--absent", "EW9"]),
    ("BadAbsent", HEAD + STAFF, ["--absent", "9"]),
    ("BadMovement", HEAD + STAFF, ["--movement", "swiss"]),
    ("BadField", HEAD + STAFF, ["--switched", "1"]),
    ("BadTitle", HEAD + STAFF, ["--title", " x"]),
    ("BadTitle", HEAD + STAFF, ["--title", "x" * 101]),
    ("BadDate", HEAD + STAFF, ["--date", "2026-13-01"]),
]


def words(people, folder, others):
    numbers = dict(zip(NUMBERS[::2], NUMBERS[1::2]))
    extra = dict(zip(others[::2], others[1::2]))
    numbers.update(extra)
    return ["prepare", "--people", people, "--deals", DEALS, "--to", folder] + [w for pair in numbers.items() for w in pair]


def run(program, line):
    done = subprocess.run([program] + line, capture_output=True, text=True, timeout=60)
    return done.returncode, done.stdout, done.stderr


def refused(program, room):
    for said, people, others in REFUSALS:
        path, folder = f"{room}/people.csv", f"{room}/evening"
        with open(path, "w", encoding="utf-8", errors="surrogateescape", newline="") as it:
            it.write(people)
        status, out, err = run(program, words(path, folder, others))
        assert (status, out) == (1, ""), (said, status, out, err)
        assert err.startswith(f"bridge_server: {said}"), (said, err)
        assert not os.path.exists(folder), said
    return len(REFUSALS)


def not_written(program, room):
    rows = [
        (1, "FolderExists", f"{room}"),
        (3, "Unwritten", f"{room}/none/evening"),
    ]
    for wanted, said, folder in rows:
        status, out, err = run(program, words(PEOPLE, folder, []))
        assert (status, out) == (wanted, ""), (said, status, err)
        assert err.startswith(f"bridge_server: {said}"), (said, err)
    status, out, err = run(program, words(f"{room}/nobody.csv", f"{room}/evening", []))
    assert status == 3 and out == "" and not os.path.exists(f"{room}/evening"), (status, err)
    assert err == f"bridge_server: Unread ({room}/nobody.csv: there is no such file or folder)\n", err
    return len(rows) + 1


def made(program, room):
    folder = f"{room}/evening"
    status, out, err = run(program, words(PEOPLE, folder, ["--title", "Club evening", "--date", "2026-11-27", "--address", "https://bridge.example/"]))
    assert (status, out, err) == (0, "", ""), (status, out, err)
    modes = {name: stat.S_IMODE(os.stat(f"{folder}/{name}").st_mode) for name in os.listdir(folder)}
    assert set(modes) == {"session.json", "tokens.csv", "cards.html"}, modes
    assert modes["tokens.csv"] == 0o600 and modes["cards.html"] == 0o600, modes
    session = json.load(open(f"{folder}/session.json", encoding="utf-8"))
    tokens = list(csv.DictReader(open(f"{folder}/tokens.csv", encoding="utf-8", newline="")))
    people = list(csv.DictReader(open(PEOPLE, encoding="utf-8", newline="")))
    assert (session["edition"], session["budget"], session["title"], session["date"]) == (2, 10000000, "Club evening", "2026-11-27")
    assert len(session["users"]) == len(tokens) == len(people) == 35
    cards = open(f"{folder}/cards.html", encoding="utf-8").read()
    assert cards.count('<div class="card">') == 35 and "<script" not in cards
    for user, token, person in zip(session["users"], tokens, people):
        assert user["digest"] == hashlib.sha256(token["token"].encode()).hexdigest()
        assert re.fullmatch(r"[0-9a-hjkmnp-tv-z]{4}(-[0-9a-hjkmnp-tv-z]{4}){4}", token["token"]), token
        assert user["name"] == token["sign_in"] and re.fullmatch(r"[a-z0-9]{1,32}", user["name"]), user
        assert user["shown"] == token["name"] == person["name"]
        assert user.get("pair", "") == person["pair"] and user.get("place", "") == person["place"]
        assert user.get("number", "") == person["number"]
        assert f'data-link="https://bridge.example/#{user["name"]}:{token["token"]}"' in cards
    names = [user["name"] for user in session["users"]]
    assert len(set(names)) == 35 and names[3] == "anna" and names[19] == "anna2" and names[29] == "liming", names
    assert len({token["token"] for token in tokens}) == 35
    # nothing is written over
    before = {name: open(f"{folder}/{name}", "rb").read() for name in modes}
    status, out, err = run(program, words(PEOPLE, folder, []))
    assert status == 1 and err.startswith("bridge_server: FolderExists"), (status, err)
    assert before == {name: open(f"{folder}/{name}", "rb").read() for name in modes}
    return session


def escaped(program, room):
    path, folder = f"{room}/people.csv", f"{room}/signs"
    name = '<b>"A" & b</b>'
    with open(path, "w", encoding="utf-8", newline="") as it:
        csv.writer(it).writerows([["name", "roles"], [name, "Administrator"]])
    status, out, err = run(program, words(path, folder, []))
    assert status == 0, err
    cards = open(f"{folder}/cards.html", encoding="utf-8").read()
    assert "<bdi>&lt;b&gt;&quot;A&quot; &amp; b&lt;/b&gt;</bdi>" in cards and name not in cards, cards
    tokens = list(csv.DictReader(open(f"{folder}/tokens.csv", encoding="utf-8", newline="")))
    assert tokens[0]["name"] == name


def opens(program, room):
    """A script of the object with its boards in it is answered."""
    session = json.load(open(f"{room}/evening/session.json", encoding="utf-8"))
    session["pbn"] = open(DEALS, encoding="utf-8", newline="").read()
    script = json.dumps(session) + "\n" + '{"as":"ada","ask":"status"}\n'
    done = subprocess.run([program, "script"], input=script, capture_output=True, text=True, timeout=60)
    assert done.returncode == 0 and '"phase"' in done.stdout, (done.returncode, done.stdout, done.stderr)


def main():
    program = sys.argv[1]
    room = tempfile.mkdtemp()
    try:
        rows = refused(program, room) + not_written(program, room)
        made(program, room)
        escaped(program, room)
        opens(program, room)
        status, out, err = run(program, ["--version"])
        assert status == 0 and re.fullmatch(r"bridge_server \d+\.\d+\.\d+\n", out), (status, out, err)
        print(f"prepare: {rows} refusals, a session of 35 people, the signs of a name, and the version are as they should be")
    finally:
        shutil.rmtree(room)


main()

#!/usr/bin/env python3
"""Plays the beginning of a club's evening as docs/RUNNING.md tells it ("An evening, step by step"), with one command a step.

    /usr/bin/python3 tests/browser/evening.py crates/bridge_server/out/bridge_server

A list of 32 people and a dealing program's PBN become a folder of files (`prepare`); the session is looked at (`check`) and served with a
journal; a scorer and a player sign in by the links of their cards in a real browser; a board is played, the server is stopped and started
again by its journal alone, and the board is there. It needs what tests/browser/page_session.py needs, and Debian's qrencode and zbar-tools for the
codes, which are left out where these aren't there. The last line is `N passed, M failed`; the status is 1 where one failed.
"""
import csv
import html
import json
import os
import pathlib
import re
import shutil
import stat
import subprocess
import sys
import tempfile

from page_browser import Browser
from page_checks import FAILED, FIVE_CLUBS, PASSED, check, holds, part, type_result
from page_devices import EXAMPLES, TOP, Nginx, Server, until

PEOPLE, DEALS = EXAMPLES / "people.csv", EXAMPLES / "club.pbn"
# 100 random bits: twenty letters of Crockford's thirty-two, as five groups of four
TOKEN = re.compile(r"[0-9a-hjkmnp-tv-z]{4}(-[0-9a-hjkmnp-tv-z]{4}){4}")


def run(*words):
    done = subprocess.run([str(word) for word in words], stdin=subprocess.DEVNULL, stdout=subprocess.PIPE, stderr=subprocess.PIPE, text=True, check=False)
    return done.returncode, done.stdout, done.stderr


def links_of(cards):
    """The links of the cards, by the name to sign in by."""
    links = [html.unescape(link) for link in re.findall(r'data-link="([^"]*)"', cards)]
    return {link.split("#", 1)[1].split(":")[0]: link for link in links}


@part
def prepare(program, folder, address):
    words = (program, "prepare", "--people", PEOPLE, "--deals", DEALS, "--tables", 8, "--rounds", 7, "--per-set", 3, "--address", address, "--to", folder)
    check("the files are made by one command", (0, ""), run(*words)[::2])
    check("they are three", ["cards.html", "session.json", "tokens.csv"], sorted(path.name for path in folder.iterdir()))
    check("the tokens are their owner's alone", 0o600, stat.S_IMODE((folder / "tokens.csv").stat().st_mode))
    before = {path.name: path.read_bytes() for path in folder.iterdir()}
    again = run(*words)
    holds("it isn't done again over them", again[0] != 0 and again[2].startswith("bridge_server: "))
    check("and they stay as they are", before, {path.name: path.read_bytes() for path in folder.iterdir()})
    with PEOPLE.open(encoding="utf-8", newline="") as file:
        people = list(csv.DictReader(file))
    links = links_of((folder / "cards.html").read_text(encoding="utf-8"))
    check("there is a card for each person", len(people), len(links))
    tokens = [link.rsplit(":", 1)[1] for link in links.values()]
    check("each with a token in groups of four", [], [token for token in tokens if not TOKEN.fullmatch(token)])
    check("and each its own", len(tokens), len(set(tokens)))
    check("checked, it opens", (0, True), (lambda done: (done[0], done[1].startswith("opens: 8 tables, 7 rounds, boards 1 to 24")))(
        run(program, "check", "--session", folder / "session.json", "--deals", DEALS)))


@part
def codes(folder):
    if not shutil.which("qrencode") or not shutil.which("zbarimg"):
        print("not tried, since qrencode and zbarimg aren't here: the cards' codes")
        return
    check("the codes are drawn", 0, run(sys.executable, TOP / "client/qr_codes.py", folder)[0])
    cards = (folder / "cards.html").read_text(encoding="utf-8")
    check("one on each card", len(links_of(cards)), cards.count("<svg"))


def signed_in(nginx, links, name):
    link = links[name]
    page = Browser(f"http://127.0.0.1:{nginx.port}/#{link.split('#', 1)[1]}")
    until(f"{name} is signed in by the card", lambda: page.find("as-of"))
    check(f"{name}'s token left the address", False, page.script("return location.href").find(link.rsplit(":", 1)[1]) >= 0)
    return page


@part
def play(folder, server, nginx):
    cards = (folder / "cards.html").read_text(encoding="utf-8")
    links = links_of(cards)
    scorer, player = people_of(folder)
    sam = signed_in(nginx, links, scorer)
    anna = signed_in(nginx, links, player)
    sam.go("scorer/1/1")
    type_result(sam, "enter", FIVE_CLUBS)
    sam.press("enter-button")
    holds("a scorer enters a result", sam.shows("Entered for table 1, board 1", "#done"))
    type_result(sam, "confirm", FIVE_CLUBS)
    sam.press("confirm-button")
    holds("and confirms it", sam.shows("Confirmed: table 1 has a result on board 1", "#done"))
    anna.go("board/1")
    holds("its player sees the hands", anna.shows("North", ".diagram"))
    server.stop()
    server.start()
    until("the page finds the server again", lambda: anna.find("as-of") and "board 1" in anna.text().lower())
    holds("what was played is there after a restart", anna.shows("400"))


def people_of(folder):
    """The names to sign in by of a scorer and of who sits North at table 1."""
    session = json.loads((folder / "session.json").read_text(encoding="utf-8"))
    scorer = next(user["name"] for user in session["users"] if "Scorer" in user["roles"])
    player = next(user["name"] for user in session["users"] if (user.get("pair"), user.get("place")) == ("NS1", "N"))
    return scorer, player


def main():
    program = os.path.abspath(sys.argv[1] if len(sys.argv) > 1 else "crates/bridge_server/out/bridge_server")
    with tempfile.TemporaryDirectory(prefix="evening_") as place:
        folder = pathlib.Path(place, "thursday")
        server = Server(program, 1)
        nginx = Nginx(server.port, server.port)
        try:
            prepare(program, folder, f"http://127.0.0.1:{nginx.port}/")
            codes(folder)
            server.keep_session(folder / "session.json", DEALS)
            server.words += ["--journal", str(pathlib.Path(place, "thursday.journal"))]
            server.start()
            nginx.start()
            Browser.open(place)
            play(folder, server, nginx)
        finally:
            if Browser.driver:
                Browser.driver.quit()
            nginx.stop()
            server.stop()
    print(f"{len(PASSED)} passed, {len(FAILED)} failed")
    return bool(FAILED)


if __name__ == "__main__":
    sys.exit(main())

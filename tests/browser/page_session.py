#!/usr/bin/env python3
"""Plays the example session on the page, in a real browser, and says what it found, a line a check; in the end one of the second
edition, a Howell, and 128 boards.

    /usr/bin/python3 tests/browser/page_session.py crates/bridge_server/out/bridge_server [workers, else 1 [seconds, else 1200 [webkit]]]

It needs Debian's chromium, chromium-driver, python3-selenium, python3-websockets, nginx-light, openssl, qrencode and zbar-tools; `make test` runs it after the
gate, in Chromium and then in WebKit. It starts the server with four displays, nginx with the configuration of docs/RUNNING.md before it, and one Chromium with a
window for each of five users; all of it on 127.0.0.1, and all of it ends with the test. What is wanted comes from the server's
replies, read past the page, from docs/PROTOCOL.md, docs/POLICY.md and the Laws, never from what the page shows. It takes some five
minutes where the processors are free, and ends after so many seconds whatever happens. The last line is `N passed, M failed`; the
status is 1 where one failed. With the word `webkit` it is done in WebKit, which needs Debian's webkit2gtk-driver and xvfb too; what
WebKit's driver has no word for is left out, and said.
"""
import signal
import sys
import tempfile

from page_beginning import beginning
from page_boards import analysis, denial, find_boards, other_denials, room
from page_browser import Browser
from page_cards import cards
from page_checks import FAILED, PASSED, OutOfTime, check, console, holds, pair_text, part
from page_desks import administrator, audit, clock, correct_and_void, director, end_of_play, ruling, seats, spoiled
from page_devices import Nginx, Server, until
from page_edition import second_edition
from page_hostile import Hostile
from page_layout import drawn_from_the_top, enlarged, keyboard_player, laid_out, narrow, on_paper
from page_movements import howell
from page_names import names
from page_papers import many_boards
from page_ranking import own_rank, ranking, score_card
from page_results import confirm, keyboard_scorer, play_and_costs
from page_schemes import SCHEMES, schemes, seen_in
from page_scorer import on_a_phone, others_desks, percentage, scrolled_sideways
from page_servers import connections, hostile_texts, killed_with_its_journal, no_room_for_strangers, over_tls, played_numbers, restart


@part
def sign_in(page, server):
    status = server.reply("anna", {"ask": "status"})["status"]
    page.type("name", "anna")
    page.type("token", "anna-exampl")
    page.press("sign-in-button")
    holds("a wrong token is refused in words", page.shows("aren't known", "#refusal"))
    page.type("name", " Anna ")
    page.type("token", "anna-example ")
    page.press("sign-in-button")
    holds("blanks are cut, and a name's capitals are told", page.shows("the name is anna", "#done"))
    until("anna is signed in", lambda: page.find("as-of"))
    holds("round and rounds are those of the status", page.shows(f"Round {status['round']} of {status['rounds']}"))
    holds("the own seat is told", page.shows("You sit in NS1, North."))
    holds("nothing counts yet, which is told first", page.shows("No result counts for your pair yet.", "#own-rank"))
    rows = page.rows("table.tables")
    check("each table of the round is there", [str(table) for table in range(1, status["tables"] + 1)], [row[0] for row in rows])
    check("table 1 has its pairs and their players", [pair_text(status, "NS1"), pair_text(status, "EW1")], rows[0][1:3])


def play(server, nginx, downloads, has_workers):
    address = f"http://127.0.0.1:{nginx.port}/"
    Browser.open(downloads)
    anna, carla, sam, dora, vera = (Browser(address) for _ in range(5))
    windows = [anna, carla, sam, dora, vera]
    sign_in(anna, server)
    denial(anna, server)
    other_denials(carla, vera, server)
    keyboard_scorer(sam)
    confirm(sam, anna, carla, server)
    play_and_costs(sam, anna, server)
    on_a_phone(sam, server)
    director(dora, anna, carla, server)
    ruling(dora, carla, server)
    correct_and_void(dora, server)
    spoiled(sam, server)
    percentage(dora, server)
    scrolled_sideways(anna, server)
    ranking(dora, anna, server, downloads)
    own_rank(anna, server)
    room(dora, server)
    clock(dora, server)
    find_boards(dora, server)
    analysis(dora, server, has_workers)
    on_paper(dora)
    score_card(anna, server)
    narrow(dora, anna)
    audit(dora, server)
    keyboard_player(anna)
    laid_out(anna, ("session", "boards", "board/1/1", "board/4", "ranking", "find", "papers"))
    laid_out(dora, ("scorer", "scorer/3", "scorer/3/11", "director", "director/1/1", "accounts", "audit"))
    drawn_from_the_top(anna, ("session", "ranking", "board/4", "find"))
    drawn_from_the_top(dora, ("session", "ranking", "director", "accounts", "audit", "scorer/3/11", "board/13/5"))
    schemes(dora, "scorer/3/13", "enter", ("session", "director/1/1", "ranking"))
    for scheme in SCHEMES:
        seen_in(scheme, dora, ("scorer/3", "scorer/1/1", "director", "accounts", "audit", "papers", "find", "board/1/1"))
        seen_in(scheme, anna, ("session", "boards", "board/1/1", "board/4"))
    enlarged(anna, ("session", "boards", "board/1/1", "board/4", "ranking", "find", "papers"))
    enlarged(dora, ("scorer", "scorer/3/11", "director", "director/1/1", "accounts", "audit"))
    others_desks(vera)
    administrator(vera, nginx, server)
    check("the consoles are empty", [], console(windows))
    no_room_for_strangers(vera, server)
    spoken = [text for text in console(windows) if "WebSocket connection to" not in text]
    check("where there was no room, the browser alone spoke of it", [], spoken)
    connections(server)
    restart(sam, server)
    seats(dora, server)
    end_of_play(dora, anna, server)
    killed_with_its_journal(sam, server, downloads)
    spoken = [text for text in console(windows) if "WebSocket connection to" not in text]
    check("while the server was away, the browser alone spoke of it", [], spoken)
    played_numbers(vera, nginx)
    hostile_texts(vera, nginx)
    check("no hostile text reached a console", [], console([vera]))
    over_tls(nginx, server)
    beginning(address)
    cards(address, nginx, server, downloads)
    second_edition(address, server, downloads)
    names(address, server, downloads)
    howell(address, server, downloads)
    many_boards(address, server, downloads)


def stop_in_time(signal_number, frame):
    raise OutOfTime("it takes too long" if signal_number == signal.SIGALRM else "it was told to end")


def played(program, workers, seconds):
    """Plays the session in a browser, for so many seconds at most, and says whether the browser was there to the end."""
    signal.alarm(seconds)
    server, hostile = Server(program, workers), Hostile()
    nginx, died = Nginx(server.port, hostile.port), False
    try:
        for each in (server, hostile, nginx):
            each.start()
        with tempfile.TemporaryDirectory() as downloads:
            part(play)(server, nginx, downloads, workers > 0)
            died = Browser.is_webkit and bool(FAILED) and Browser.has_died()
    except OutOfTime as why:
        check("the test ends by itself", "", str(why))
    finally:
        signal.alarm(0)
        for each in (nginx, hostile, server):
            each.stop()
        Browser.close()
    return not died


def main():
    program = sys.argv[1] if len(sys.argv) > 1 else "crates/bridge_server/out/bridge_server"
    workers, seconds = (int(sys.argv[at]) if len(sys.argv) > at else most for at, most in ((2, 1), (3, 1200)))
    Browser.is_webkit = sys.argv[4:] == ["webkit"]
    for each in (signal.SIGALRM, signal.SIGTERM, signal.SIGINT):
        signal.signal(each, stop_in_time)
    if not played(program, workers, seconds):
        print(f"again   a process of WebKit's ended by itself, after {len(PASSED)} passed and {len(FAILED)} failed; all is played once more", flush=True)
        PASSED.clear()
        FAILED.clear()
        played(program, workers, seconds)
    print(f"{len(PASSED)} passed, {len(FAILED)} failed")
    return 1 if FAILED else 0


if __name__ == "__main__":
    sys.exit(main())

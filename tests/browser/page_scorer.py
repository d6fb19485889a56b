"""What a scorer on a phone meets: notices that stay in view, the pair that confirms, what is shown after it, and tables scrolled sideways."""
import time

from page_browser import Keys
from page_checks import LeftOut, check, holds, pair_text, part, type_result
from page_devices import until

NO_TRUMP_SET = {"by": "N", "doubled": 0, "level": 3, "strain": "N", "tricks": 8}  # board 7, both vulnerable: 100 for East-West

IN_VIEW = """const seen = document.querySelector(arguments[0])?.getBoundingClientRect();
return seen !== undefined && seen.height > 0 && seen.top >= 0 && seen.bottom <= innerHeight && seen.left >= 0 && seen.right <= innerWidth"""


def in_view(window, selector):
    return until(f"{selector} is in view", lambda: window.script(IN_VIEW, selector), 20)


@part
def on_a_phone(sam, server):
    sam.width(390, 640)
    sam.go("scorer/3/7")
    until("the form is there", lambda: sam.find("enter-level-1"))
    type_result(sam, "enter", NO_TRUMP_SET)
    sam.press("enter-button")
    until("the pair that confirms has its form", lambda: sam.find("confirm-button"))
    holds("that it is entered is in view", in_view(sam, "#done p"))
    check("the form of the pair that confirms is shown from its top", 0, sam.script("return scrollY"))
    wanted = pair_text(server.reply("sam", {"ask": "status"})["status"], "EW3")
    holds("its pair is told", sam.text("#step-side").endswith(wanted))
    holds("and why the result is typed twice", in_view(sam, "#why-twice"))
    type_result(sam, "confirm", {**NO_TRUMP_SET, "tricks": 9})
    for way, put_away in (("its button", lambda: sam.press("put-away-button")), ("Escape", lambda: sam.keys(Keys.ESCAPE))):
        sam.press("confirm-button")
        holds("that it differs is told", sam.shows("differs from what was entered", "#refusal"))
        holds("where the page is scrolled far down", sam.script("return scrollY") > 100)
        holds("it is in view", in_view(sam, "#refusal p"))
        time.sleep(1)
        holds("and stays", sam.script(IN_VIEW, "#refusal p"))
        put_away()
        check(f"it is put away by {way}", "", sam.text("#refusal"))
        check("and its user is where the button was pressed", "confirm-button", sam.script("return document.activeElement.id"))
    sam.press("confirm-over--1")
    sam.press("confirm-button")
    holds("the same result is confirmed", sam.shows("Confirmed: table 3 has a result on board 7", "#done"))
    holds("contract and score are shown", sam.shows("scores 100 for East-West", "#cell-outcome"))
    check("the server denies a scorer the board", 7, server.reply("sam", {"ask": "traveller", "board": 7})["denied"]["rule"])
    holds("and the page says why there is no percentage", sam.shows("to those alone who may see the board", "#cell-unseen"))
    sam.press("next-table")
    holds("the next table is one tap away", sam.shows("Table 4, board 10", "#heading"))
    check("with its form", True, until("the form is there", lambda: sam.find("enter-level-1")) is not None)
    sam.width(1000, 900)


@part
def percentage(dora, server):
    """A director may see the board, and confirms as a scorer does."""
    dora.go("scorer/3/7")
    rows = until("there are two results", lambda: server.reply("dora", {"ask": "traveller", "board": 7})["traveller"]["rows"])
    row, top = next(row for row in rows if row["table"] == 3), 2 * (len(rows) - 1)
    wanted = f"{100 * row['points'] / top:.2f} % for North-South" if top else "the first result on this board"
    holds("who may see the board is shown what the result is worth", dora.shows(wanted, "#cell-outcome"))


@part
def scrolled_sideways(anna, server):
    """A table that doesn't fit stays where its reader scrolled it, though entries come."""
    if anna.width(200) > 200:
        anna.width(1000, 900)
        raise LeftOut("WebKit's window isn't narrow enough for a table to be scrolled")
    anna.go("board/1")
    until("the traveller is there", lambda: anna.rows("table.traveller"))
    far = anna.script("const at = document.querySelector('.scrolls:has(.traveller)'); at.scrollLeft = 30; return at.scrollLeft")
    holds("the traveller is scrolled", far > 0)
    check("something is entered", ["ok", "ok"], server.reply("dora", {"do": [{"cmd": word, "board": 24} for word in ("Hold", "Release")]})["answers"])
    version = server.reply("anna", {"ask": "status"})["version"]
    until("the page has it", lambda: int(anna.script("return document.getElementById('as-of').dataset.version")) >= version)
    until("the traveller is there again", lambda: anna.rows("table.traveller"))
    check("it is scrolled as far as before", far, anna.script("return document.querySelector('.scrolls:has(.traveller)').scrollLeft"))
    anna.width(1000, 900)


@part
def others_desks(vera):
    """A spectator who has the address of a desk, and the address of who has signed out."""
    for route, control in (("director", "hold"), ("director/1/1", "rule-button"), ("scorer/1/1", "enter-button"), ("accounts", "new-name"), ("audit", "csv-audit")):
        vera.go(route)
        holds(f"{route}: a spectator is told that it is for others", vera.shows("for other roles than yours"))
        check(f"{route}: and it isn't drawn", None, vera.find(control))
    vera.press("sign-out")
    check("signing out forgets the address", ["", "Sign in"], [vera.script("return location.hash"), vera.text("#heading")])
    vera.sign_in("vera")
    holds("and who signs in begins with the session", vera.shows("Tables in round"))
    vera.press("sign-out")

"""A session whose users have names to show, and that has a title, a date and reasons of rulings: what the page makes of them."""
import json
import pathlib

from page_browser import Browser
from page_checks import check, holds, pair_text, part
from page_devices import EXAMPLES, until
from page_layout import CUT, laid_out, pages_of

LONG = "Wolfeschlegelsteinhausenbergerdorff von und zu Hohenlohe-Langen"
SHOWN = {"anna": "Anna Müller", "ben": "Ben \"B\" Roth, Jr.", "rosa": "רוזה כהן", "stig": LONG, "dora": "Dora Lind"}
OCCASION = {"title": "Club evening", "date": "2026-11-27", "reasons": ["slow play", "a board of another set", "late arrival"]}


def opened(server, folder):
    session = json.loads((EXAMPLES / "session.json").read_text())
    users = [{**user, "shown": SHOWN[user["name"]]} if user["name"] in SHOWN else user for user in session["users"]]
    path = pathlib.Path(folder, "named.json")
    path.write_text(json.dumps({**session, **OCCASION, "edition": 2, "users": users}))
    server.stop()
    server.keep_session(path)
    server.start()


def people(window, selector):
    """What stands in the elements of names: each is isolated in its direction of writing."""
    return window.script("return [...document.querySelectorAll(arguments[0])].map((each) => [each.tagName, each.textContent])", f"{selector} .person")


@part
def shown_everywhere(anna, server):
    status = server.reply("anna", {"ask": "status"})["status"]
    check("the server tells the names of those who have one", SHOWN, dict(status["names"]))
    anna.sign_in("anna")
    holds("who is signed in is told by both names", anna.shows("Signed in as Anna Müller (anna)", "#top"))
    rows = anna.rows("table.tables")
    check("a table has its pairs by their names", [pair_text(status, "NS1"), pair_text(status, "EW1")], rows[0][1:3])
    check("and the others by those for signing in", pair_text(status, "NS2"), rows[1][1])
    check("each name stands by itself", [["BDI", name] for name in (SHOWN["anna"], SHOWN["ben"], SHOWN["rosa"], LONG)], people(anna, "table.tables")[:4])
    whole = anna.script("""const name = [...document.querySelectorAll(".person")].find((each) => each.textContent.length > 60);
        return [name.scrollWidth > name.clientWidth, name.title]""")
    check("a long one is cut, and whole under the pointer", [True, LONG], whole)
    for width in (390, 320):
        anna.width(width, 844)
        for route in ("session", "boards", "ranking", "board/1"):
            anna.go(route)
            until("the view is there", lambda: anna.find("heading"))
            check(f"{route}: no name makes the page wider than {width} pixels", True, anna.script("return document.documentElement.scrollWidth <= innerWidth"))
    laid_out(anna, ("session", "ranking"))
    anna.width(1000, 900)
    anna.go("boards")
    holds("an opponent is named", anna.shows("Table 1, against רוזה כהן"))


@part
def heads(anna, downloads):
    anna.go("papers")
    anna.press("paper-pair_cards")
    holds("title and date head a paper", anna.shows("Club evening, 27 November 2026", ".paper .occasion"))
    anna.press("csv")
    path = until("the file is there", lambda: next(iter(pathlib.Path(downloads).glob("2026-11-27 Club evening pair_cards*.csv")), None))
    until("the file is whole", lambda: path.read_text(encoding="utf-8-sig").count("\n") == 16 * 7 + 1)
    line = next(line for line in path.read_text(encoding="utf-8-sig").splitlines() if line.startswith("NS1,"))
    holds("and its names are in quotes where they must be", line.startswith('NS1,"Anna Müller – Ben ""B"" Roth, Jr.",1,1,'))


@part
def titled_records(dora):
    """Title and date take their part of the first page, which has six records all the same."""
    dora.go("papers")
    dora.press("paper-records")
    until("all of it is there", lambda: dora.find("print") and len(dora.here().find_elements("css selector", ".paper-records .sheet")) == 24)
    check("24 records under a title are printed on four pages", 4, pages_of(dora))


@part
def ruled_by_its_text(dora, anna, server):
    dora.sign_in("dora")
    dora.go("director/1/1")
    until("the form is there", lambda: dora.find("rule-reason"))
    texts = dora.script("return [...document.getElementById('rule-reason').options].map((option) => option.textContent)")
    check("reasons are chosen by their texts", ["choose one", "1: slow play", "2: a board of another set", "3: late arrival"], texts)
    for name, value in (("rule-ns", "60"), ("rule-ew", "40")):
        dora.type(name, value)
    dora.choose("rule-reason", "2")
    dora.press("rule-button")
    holds("what is asked again says the text", dora.shows("for reason 2, \u2068a board of another set\u2069?", "#rule-button-question"))
    dora.press("rule-button-sure")
    holds("the ruling is given", dora.shows("The ruling is given", "#done"))
    check("the server has its number", 2, server.reply("dora", {"ask": "reason", "table": 1, "board": 1})["reason"]["code"])
    anna.go("board/1/1")
    holds("a player reads the text", anna.shows("The ruling's reason: \u2068a board of another set\u2069 (number 2 on the session's list)."))


@part
def traveller_of_names(dora, server):
    """On a phone a row of a traveller has its percentages in view, however long its players' names are."""
    commands = [{"cmd": word, "table": table, "board": 2, "result": {"by": "N", "doubled": 2, "level": 3, "strain": "N", "tricks": tricks}}
                for table, tricks in ((1, 10), (8, 2)) for word in ("Enter", "Confirm")]
    receipts = [server.reply("sam", {"do": commands[:2]}), server.reply("dora", {"do": [{"cmd": "NextRound"}]}), server.reply("sam", {"do": commands[2:]})]
    check("two tables have results", ["ok"] * 5, [answer for receipt in receipts for answer in receipt["answers"]])
    dora.width(390, 844)
    dora.go("board/2")
    until("the traveller is there", lambda: len(dora.rows("table.traveller")) == 2)
    check("names leave room for the percentages at 390 pixels", [], dora.script(CUT, "table.traveller", 7))
    check("and make the page no wider", True, dora.script("return document.documentElement.scrollWidth <= innerWidth"))
    dora.width(1000, 900)


@part
def walked_in(dora, anna, server):
    dora.go("director")
    dora.type("walk-in-shown", "Clara Weiß")
    dora.choose("walk-in-pair", "EW1")
    dora.choose("walk-in-place", "E")
    holds("who loses the seat is told by both names", dora.shows("רוזה כהן\u2069 (rosa) sits there now", "#walk-in-leaves"))
    dora.press("walk-in")
    until("the card is there", lambda: dora.find("card-token"))
    check("the server has the name to show", "Clara Weiß", dict(server.reply("dora", {"ask": "status"})["status"]["names"]).get("clara"))
    anna.go("session")
    holds("and everybody sees it", anna.shows("Clara Weiß"))
    dora.press("forget-card")
    dora.go("accounts")
    dora.type("rename-name", "ben")
    dora.type("rename-shown", "Benjamin Roth")
    dora.press("rename")
    holds("another name to show is given", dora.shows("ben is shown as", "#done"))
    check("the server has it", "Benjamin Roth", dict(server.reply("dora", {"ask": "status"})["status"]["names"])["ben"])
    holds("and everybody sees it too", anna.shows("Anna Müller – Benjamin Roth"))


def names(address, server, downloads):
    opened(server, downloads)
    anna, dora = (Browser(address) for _ in range(2))
    shown_everywhere(anna, server)
    heads(anna, downloads)
    ruled_by_its_text(dora, anna, server)
    titled_records(dora)
    traveller_of_names(dora, server)
    walked_in(dora, anna, server)

"""The director's and the administrator's desks, the audit, and the end of the session."""
import re

from page_cards import STORED
from page_checks import THREE_NO_TRUMP, LeftOut, check, holds, part, type_result
from page_devices import until
from page_scorer import in_view


@part
def director(dora, anna, carla, server):
    dora.sign_in("dora")
    dora.go("director")
    dora.choose("hold-board", "1")
    dora.press("hold")
    holds("a board is held", dora.shows("Board 1 is held", "#done"))
    check("the server holds it", [1], server.reply("dora", {"ask": "status"})["status"]["held"])
    check("its rule is the fourth", 4, server.reply("anna", {"ask": "board", "board": 1})["denied"]["rule"])
    holds("who saw it is denied now", anna.shows("because the director holds the board"))
    check("its cards are off the page", "", anna.text(".hand"))
    anna.press("check-board-0-1")
    check("the check says that it holds", "holds", anna.script("return document.querySelector('.verdict').dataset.verdict"))
    holds("and shows that it is held", anna.shows("Board 1 is among the boards that are held.", ".evidence"))
    dora.press("release-1")
    holds("it is released", dora.shows("Board 1 is released", "#done"))
    holds("and shown again", anna.shows("North", ".diagram"))


def ruling_numbers(window):
    return window.script("return ['ns', 'ew', 'reason'].map((part) => document.getElementById(`rule-${part}`).value)")


@part
def ruling(dora, carla, server):
    dora.go("director/2/5")
    until("the form is there", lambda: dora.find("rule-ns"))
    check("a ruling's form is empty", ["", "", ""], ruling_numbers(dora))
    for name, value in (("rule-ns", "60"), ("rule-ew", "101"), ("rule-reason", "7")):
        dora.type(name, value)
    dora.press("rule-button")
    holds("101 percent is refused in words", dora.shows("0 to 100 percent", "#refusal"))
    dora.type("rule-ew", "40")
    dora.press("rule-button")
    wanted = "Give 60 % to North-South and 40 % to East-West, for reason 7? There is no result; what is entered and not confirmed goes."
    holds("the page asks once more, and says what it replaces", dora.shows(wanted, "#rule-button-question"))
    dora.type("rule-reason", "8")
    check("another number isn't what was asked about", None, dora.find("rule-button-sure"))
    dora.type("rule-reason", "7")
    dora.press("rule-button")
    check("nothing is ruled yet", [], server.reply("dora", {"ask": "traveller", "board": 5})["traveller"]["rows"])
    dora.press("rule-button-sure")
    holds("the ruling is given", dora.shows("The ruling is given", "#done"))
    check("and its numbers are off the form", ["", "", ""], ruling_numbers(dora))
    check("the server has it", [60, 40], server.reply("carla", {"ask": "traveller", "board": 5})["traveller"]["rows"][0]["ruling"])
    carla.go("board/5/2")
    until("the traveller is there", lambda: carla.rows("table.traveller"))
    check("the pair sees it", ["ruling", "60", "40"], carla.rows("table.traveller")[0][3:6])
    code = server.reply("carla", {"ask": "reason", "table": 2, "board": 5})["reason"]["code"]
    holds("and its reason", carla.shows(f"has the code {code}"))


@part
def correct_and_void(dora, server):
    dora.go("director/2/4")
    until("the form is there", lambda: dora.find("correct-level-1"))
    begun = [dora.chosen(f"correct-{part}") for part in ("level", "strain", "by", "doubled", "over")]
    check("a correction begins with what stands", ["3", "N", "W", "1", "-2"], begun)
    dora.width(1000, 600)
    dora.press("correct-over--1")
    dora.press("correct-button")
    holds("the result is corrected", dora.shows("The result is corrected", "#done"))
    holds("which is in view", in_view(dora, "#done p"))
    dora.width(1000, 900)
    cards = server.reply("dora", {"ask": "play", "table": 2, "board": 4})["play"]["cards"]
    check("the server has the play still", ["S7", "SK", "S9", "SA"], cards)
    row = server.reply("dora", {"ask": "traveller", "board": 4})["traveller"]["rows"][0]
    check("the server has the correction", (8, 200), (row["result"]["tricks"], row["score"]))
    holds("it is shown", dora.shows("scores 200 for North-South", "#cell-now"))
    dora.press("void")
    dora.press("void-cancel")
    check("what is cancelled isn't done", [2], server.reply("dora", {"ask": "status"})["status"]["live"][3])
    dora.press("void")
    holds("making void says what goes", dora.shows("3 no trump doubled by West, 1 undertrick, 8 tricks", "#void-question"))
    dora.press("void-sure")
    holds("the result is void", dora.shows("The result is void", "#done"))
    check("the server has none", [], server.reply("dora", {"ask": "status"})["status"]["live"][3])


@part
def spoiled(sam, server):
    """NS2 was shown board 4, whose result is void now: no result of it can be entered there."""
    sam.go("scorer/2/4")
    type_result(sam, "enter", THREE_NO_TRUMP)
    sam.press("enter-button")
    answer = server.reply("sam", {"do": [{"cmd": "Enter", "table": 2, "board": 4, "result": THREE_NO_TRUMP}]})["answers"][0]
    holds("the server names a player", answer.startswith("Spoiled("))
    holds("and the page does in words", sam.shows(f"{answer[8:-1]} sits at this table and was shown something of the board", "#refusal"))


@part
def clock(dora, server):
    """A round's clock is the page's own, and outlives a reload."""
    version = server.reply("dora", {"ask": "status"})["version"]
    dora.go("director")
    dora.type("clock-minutes", "0")
    dora.press("start-clock")
    holds("a clock without a minute is refused in words", dora.shows("1 to 240 whole minutes", "#refusal"))
    dora.type("clock-minutes", "20")
    dora.press("start-clock")
    begun = until("the clock runs", lambda: dora.text("#clock-left"))
    holds("it begins with its minutes", re.fullmatch(r"20:00|19:5\d", begun))
    until("it goes on by itself", lambda: dora.text("#clock-left") not in ("", begun))
    dora.here().refresh()
    until("the page is there again", lambda: dora.find("name"))
    dora.sign_in("dora")
    dora.go("director")
    holds("after a reload it still runs", until("the clock is there", lambda: re.fullmatch(r"1\d:\d\d", dora.text("#clock-left"))))
    dora.press("stop-clock")
    until("it is stopped", lambda: dora.find("start-clock"))
    check("and the server was told nothing of it", version, server.reply("dora", {"ask": "status"})["version"])


def about_in_words(target):
    """A table and a board, a board or a name, as docs/PROTOCOL.md has them in an audit."""
    if "/" in target:
        return "table {}, board {}".format(*target.split("/"))
    return f"board {target}" if target.isdigit() else target


@part
def audit(dora, server):
    more = {"do": [{"cmd": word, "board": 24} for word in ("Hold", "Release")] * 32}
    receipts = server.ask("dora", *[more] * 4)
    holds("there are more than two pages of commands", receipts[-1]["version"] > 200)
    dora.go("audit")
    rows = until("the audit is there", lambda: dora.rows("table.audit"))
    version = server.reply("dora", {"ask": "status"})["version"]
    reply = server.reply("dora", {"audit": {"from": max(1, version - 99), "limit": 100}})["audit"]
    first = {str(number): (user, about) for number, user, _, about in reply}
    same = [row for row in rows if row[0] in first]
    wanted = [(first[row[0]][0] or "the solver", about_in_words(first[row[0]][1])) for row in same]
    check("the audit's rows are the server's", wanted, [(row[1], row[3].split(", NS")[0]) for row in same])
    holds("and there are many", len(same) > 50)
    numbers = [int(row[0]) for row in rows]
    check("the newest stands first", sorted(numbers, reverse=True), numbers)
    dora.press("audit-older")
    below = str(numbers[-1] - 1)
    until("the older page is there", lambda: dora.rows("table.audit") and dora.rows("table.audit")[0][0] == below)
    dora.press("audit-oldest" if dora.find("audit-oldest") else "audit-older")
    until("the oldest page is there", lambda: dora.rows("table.audit") and dora.rows("table.audit")[-1][0] == "1")
    _, _, word, about = server.reply("dora", {"audit": {"from": 1, "limit": 1}})["audit"][0]
    wanted = {"Enter": ["sam", "entered a result", "table 1, board 1, NS1 – EW1"],
              "Solved": ["the solver", "found the double-dummy table", f"board {about}"]}[word]
    check("the first row says what the first command was", ["1", *wanted], dora.rows("table.audit")[-1])
    check("there is nothing older", None, dora.find("audit-older"))


@part
def administrator(page, nginx, server):
    page.sign_in("ada")
    page.go("accounts")
    page.type("new-name", "viola")
    page.choose("new-role", "Spectator")
    page.press("add-user")
    token = until("the token is shown", lambda: page.text("#new-token"))
    accounts = dict(server.reply("ada", {"ask": "accounts"})["accounts"]["users"])
    check("the server has the user with the role", ["Spectator"], accounts.get("viola"))
    page.choose("senior", "Administrator")
    page.choose("junior", "Spectator")
    page.press("add-pair")
    holds("an inheritance is added", page.shows("Administrator is above Spectator now", "#done"))
    holds("the server has it", ["Administrator", "Spectator"] in server.reply("ada", {"ask": "accounts"})["accounts"]["inherits"])
    page.press("delete-Administrator-Spectator")
    page.press("delete-Administrator-Spectator-sure")
    holds("and deleted", page.shows("Administrator isn't above Spectator any more", "#done"))
    def other_administrator(word):
        return server.reply("ada", {"do": [{"cmd": word, "name": "dora", "role": "Administrator"}]})["answers"]
    check("the other administrator goes", ["ok"], other_administrator("Deassign"))
    page.press("deassign-ada-Administrator")
    page.press("deassign-ada-Administrator-sure")
    holds("the last administrator can't go, in words", page.shows("Nobody would be an administrator any more", "#refusal"))
    check("and the other one comes back", ["ok"], other_administrator("Assign"))
    page.press("sign-out")
    check("the token is off the page", False, token in page.script("return document.documentElement.outerHTML"))
    page.sign_in("viola", token)
    holds("its user signs in by it", page.shows("Signed in as viola", "#top"))
    page.go("board/1")
    until("the denial is there", lambda: page.find("check-board-0-1"))
    check("the spectator is denied by rule 8", 8, page.denial()[0])
    page.press("sign-out")
    if page.is_webkit:
        raise LeftOut("WebKit's driver maps no other host to this computer")
    page.here().get(f"http://bridge.example.org:{nginx.port}/")
    until("the page is there", lambda: page.find("name"))
    page.sign_in("ada")
    page.go("accounts")
    holds("over plain HTTP from elsewhere the page says that it has no SHA-256", page.shows("the browser offers no SHA-256"))
    page.type("new-name", "wim")
    page.type("new-digest", "7" * 63)
    page.press("add-user")
    holds("a digest of 63 digits is refused", page.shows("64 hexadecimal digits", "#refusal"))
    page.press("sign-out")


@part
def seats(dora, server):
    dora.go("director")
    dora.press("seats-summary")
    dora.press("unseat-paul")
    dora.press("unseat-paul-sure")
    holds("a player loses the seat", dora.shows("paul has no seat any more", "#done"))
    check("the server has no seat for paul", [], [seat for seat in server.reply("dora", {"ask": "status"})["status"]["seats"] if seat[0] == "paul"])
    dora.type("seat-name", "paul")
    dora.choose("seat-pair", "NS8")
    dora.press("seat")
    holds("a seat that is taken is refused in words", dora.shows("Somebody sits there already", "#refusal"))
    dora.choose("seat-place", "S")
    dora.press("seat")
    holds("and gets it again", dora.shows("paul sits in NS8", "#done"))
    seated = server.reply("dora", {"ask": "status"})["status"]["seats"]
    check("the server has the seat", [["paul", "NS8", "S"]], [seat for seat in seated if seat[0] == "paul"])


def play_to_the_end(server):
    """All results of all rounds, past the page, table 1's last board aside."""
    refused = []
    for number in range(1, 8):
        status = server.reply("dora", {"ask": "status"})["status"]
        commands = []
        for table in range(1, 9):
            first = 3 * ((table + number - 2) % 8) + 1
            for board in range(first, first + 3):
                result = {"by": "NESW"[(table + board) % 4], "doubled": 0, "level": 1, "strain": "N", "tricks": 5 + (table * board) % 4}
                if table not in status["live"][board - 1] and (number, table, board) != (7, 1, 21):
                    commands += [{"cmd": word, "table": table, "board": board, "result": result} for word in ("Enter", "Confirm")]
        commands += [{"cmd": "NextRound"}] if number < 7 else []
        receipts = server.ask("dora", {"do": commands[:64]}, {"do": commands[64:]})
        refused += [answer for receipt in receipts for answer in receipt["answers"] if answer != "ok"]
    return refused


@part
def end_of_play(dora, anna, server):
    check("a whole session is played", [], play_to_the_end(server))
    dora.go("session")
    dora.go("director")
    dora.press("close")
    dora.press("close-sure")
    holds("play doesn't end while a result is awaited", dora.shows("A table has still a result to give", "#refusal"))
    last = {"table": 1, "board": 21, "result": "pass"}
    check("the last result is entered", ["ok", "ok"], server.reply("sam", {"do": [{"cmd": "Enter", **last}, {"cmd": "Confirm", **last}]})["answers"])
    anna.go("board/2/4")
    holds("the play of others is denied while the session is running", anna.shows("denied until the session is closed"))
    dora.press("close")
    dora.press("close-sure")
    holds("play ends", dora.shows("Play has ended", "#done"))
    check("the server has closed", "Closed", server.reply("dora", {"ask": "status"})["status"]["phase"])
    holds("and then the play of others is shown", anna.shows("The play wasn't noted"))
    anna.press("stays-on")
    holds("who asks for it stays signed in", "anna-example" in anna.script(STORED))
    dora.press("finalise")
    dora.press("finalise-sure")
    holds("the results are final", dora.shows("The results are final", "#done"))
    check("the server has them final", "Final", server.reply("dora", {"ask": "status"})["status"]["phase"])
    holds("the token that was kept until then is gone", until("anna's page knows it", lambda: "anna-example" not in anna.script(STORED)))
    check("and it isn't offered to keep it any more", None, anna.find("stays-on"))
    dora.go("director/1/1")
    for name, value in (("rule-ns", "60"), ("rule-ew", "40"), ("rule-reason", "1")):
        dora.type(name, value)
    dora.press("rule-button")
    dora.press("rule-button-sure")
    holds("afterwards a ruling is refused in words", dora.shows("can't be done in the present phase", "#refusal"))

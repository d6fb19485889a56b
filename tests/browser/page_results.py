"""Results, entered by the keyboard, confirmed, and with their play."""
from page_browser import Keys
from page_checks import FIVE_CLUBS, THREE_NO_TRUMP, check, holds, pair_text, part, type_result
from page_devices import until


@part
def keyboard_scorer(sam):
    """Signing in and entering a result by the keyboard alone."""
    sam.keys("sam", Keys.TAB, "sam-example", Keys.ENTER)
    until("sam is signed in", lambda: sam.find("nav-scorer"))
    holds("the scorer's desk is reached by Tab", sam.tab_to("nav-scorer"))
    sam.keys(Keys.ENTER)
    until("the tables are there", lambda: sam.find("table-1"))
    holds("a table is reached by Tab", sam.tab_to("table-1"))
    sam.keys(Keys.ENTER)
    until("the boards are there", lambda: sam.find("cell-1-1"))
    holds("a board is reached by Tab", sam.tab_to("cell-1-1"))
    sam.keys(Keys.ENTER)
    until("the form is there", lambda: sam.find("enter-level-1"))
    holds("the levels are reached by Tab", sam.tab_to("enter-level-1"))
    sam.keys(Keys.SPACE, *[Keys.ARROW_RIGHT] * 4, Keys.TAB, Keys.SPACE)
    holds("the declarers follow", sam.tab_to("enter-by-N", 2))
    sam.keys(Keys.ARROW_RIGHT, Keys.ARROW_RIGHT)
    holds("the tricks follow", sam.tab_to("enter-over-0", 4))
    sam.keys(Keys.SPACE)
    holds("what was chosen is said with its score", sam.shows("scores 400 for North-South"))
    holds("the button is reached by Tab", sam.tab_to("enter-button", 4))
    sam.keys(Keys.ENTER)
    holds("it is entered", sam.shows("Entered for table 1, board 1", "#done"))


@part
def confirm(sam, anna, carla, server):
    check("an entry alone is no result", [], server.reply("sam", {"ask": "status"})["status"]["live"][0])
    check("an entry alone opens nothing", 5, server.reply("anna", {"ask": "board", "board": 1})["denied"]["rule"])
    check("who confirms begins with an empty form", None, sam.chosen("confirm-level"))
    type_result(sam, "confirm", {**FIVE_CLUBS, "tricks": 10})
    sam.press("confirm-button")
    holds("another result is a mismatch, in words", sam.shows("differs from what was entered", "#refusal"))
    sam.press("confirm-over-0")
    sam.press("confirm-button")
    holds("the same result is confirmed", sam.shows("Confirmed: table 1 has a result on board 1", "#done"))
    check("the server has the result", [1], server.reply("sam", {"ask": "status"})["status"]["live"][0])
    reply = server.reply("anna", {"ask": "board", "board": 1})["board"]
    holds("the board opens for its pair by itself", anna.shows("North", ".diagram"))
    check("the hands are those of the reply", reply["deal"][2:], anna.hands())
    traveller = server.reply("anna", {"ask": "traveller", "board": 1})["traveller"]["rows"]
    check("the server's row is the result", [(1, FIVE_CLUBS, 400)], [(row["table"], row["result"], row["score"]) for row in traveller])
    until("the traveller is there", lambda: anna.rows("table.traveller"))
    row = anna.rows("table.traveller")[0]
    check("the traveller has the row with its players, and no percentage yet",
          ["1", "anna – ben (NS1)", "rosa – stig (EW1)", "400", "", "–", "–", "–", "–"], row[:3] + row[4:])
    holds("the first result isn't told to be a bottom", anna.shows("This result is the first"))
    holds("its contract is 5 clubs by South, just made", "5♣ S =" in row[3].replace("\n", "") or row[3].startswith("5♣"))
    waits = "double-dummy table of board 1: denied until the board is complete; table 3"
    holds("the double-dummy table waits, with a rule of its own", anna.shows(waits))
    carla.go("session")
    carla.go("board/1")
    denied = server.reply("carla", {"ask": "board", "board": 1})["denied"]
    holds("another pair is still denied", carla.shows(f"table {denied['table']} has still to play it"))
    check("no card is on that page", "", carla.text(".hand"))


@part
def play_and_costs(sam, anna, server):
    """A result with four cards of its play; they are those of the deal, East to lead."""
    sam.go("scorer/2/4")
    sam.press("enter-level-5")
    sam.press("enter-button")
    holds("what is missing is told", sam.shows("Still to tell: the strain, the declarer, the tricks", "#refusal"))
    below = sam.script("return ['enter-over-0', 'enter-over--1'].map((id) => document.getElementById(id).getBoundingClientRect().left)")
    sam.press("enter-strain-N")
    check("and goes once the form is filled on", "", sam.text("#refusal"))
    type_result(sam, "enter", THREE_NO_TRUMP)
    check("one down stands below just made, whatever the level", [below[0]] * 3, [*below[1:], *sam.script(
        "return ['enter-over-0', 'enter-over--1'].map((id) => document.getElementById(id).getBoundingClientRect().left)")])
    check("who is vulnerable is written on the tiles", ["N vul", "E vul", "S vul", "W vul"], sam.script(
        "return [...document.querySelectorAll('[for^=enter-by]')].map((tile) => tile.textContent)"))
    sam.press("enter-play-summary")
    sam.type("enter-play", "S7 SK S9 SX")
    sam.press("enter-button")
    holds("a card that isn't one is named", sam.shows("“SX” is no card", "#refusal"))
    sam.press("enter-card-SA")
    check("a card is tapped in place of it", "S7 SK S9 SA", sam.script("return document.getElementById('enter-play').value"))
    holds("who has won the trick leads to the next", sam.shows("Trick 2: West leads. The declarer has 1 trick; 12 are left.", "#enter-turn"))
    sam.press("enter-card-C2")
    sam.press("enter-take-back")
    sam.choose("enter-claim", "7")
    check("a claim tells the result", "-1", sam.chosen("enter-over"))
    sam.choose("enter-claim", "6")
    check("and another one another", "-2", sam.chosen("enter-over"))
    sam.press("enter-button")
    holds("the result is entered with its play", sam.shows("Entered for table 2, board 4", "#done"))
    type_result(sam, "confirm", THREE_NO_TRUMP)
    sam.press("confirm-button")
    holds("and confirmed", sam.shows("Confirmed: table 2", "#done"))
    reply = server.reply("dora", {"ask": "play", "table": 2, "board": 4})
    check("the server has the play", ["S7", "SK", "S9", "SA"], reply["play"]["cards"])
    row = server.reply("dora", {"ask": "traveller", "board": 4})["traveller"]["rows"][0]
    check("the server scores it", 500, row["score"])
    lead_and_follow(server)
    sam.go("scorer/1/4")
    holds("no result comes before its round", sam.shows("Table 1, board 4"))
    until("the form is there", lambda: sam.find("enter-play-part"))
    check("the play part was closed with its board", False, sam.script("return document.getElementById('enter-play-part').open"))
    status = server.reply("sam", {"ask": "status"})["status"]
    wanted = " against ".join(pair_text(status, pair) for pair in ("NS1", "EW8"))
    check("whose pairs are shown", f"{wanted} · round 2", sam.text("#cell-pairs"))
    type_result(sam, "enter", "pass")
    sam.press("enter-button")
    refused = server.reply("sam", {"do": [{"cmd": "Enter", "table": 1, "board": 4, "result": "pass"}]})["answers"]
    check("the server refuses it", ["RoundNotStarted"], refused)
    holds("and so the page says", sam.shows("plays the board in a later round", "#refusal"))


def lead_and_follow(server):
    """At table 5 board 13 is played in three no trump by North, and its first trick is noted: East leads, each follows suit or throws."""
    hands = [hand.split(".") for hand in server.reply("dora", {"ask": "board", "board": 13})["board"]["deal"][2:].split(" ")]
    led = max(range(4), key=lambda suit: len(hands[1][suit]))
    cards = []
    for hand in (hands[1], hands[2], hands[3], hands[0]):
        suit = led if hand[led] else next(suit for suit in range(4) if hand[suit])
        cards.append("SHDC"[suit] + hand[suit][0])
    cell = {"table": 5, "board": 13, "result": {"by": "N", "doubled": 0, "level": 3, "strain": "N", "tricks": 9}}
    answers = server.reply("sam", {"do": [{"cmd": "Enter", "play": cards, **cell}, {"cmd": "Confirm", **cell}]})["answers"]
    check("a play of four cards is entered past the page", ["ok", "ok"], answers)

"""A session of the second edition on the page: a commentator, and an embargo."""
import hashlib
import json
import pathlib

from page_browser import Browser
from page_checks import check, holds, part
from page_devices import EXAMPLES, until
from page_layout import laid_out

THOMAS = {"digest": hashlib.sha256(b"thomas-example").hexdigest(), "name": "thomas", "roles": ["Commentator"]}


def verdict(window):
    return window.script("return document.querySelector('.verdict').dataset.verdict")


def status(server):
    return server.reply("dora", {"ask": "status"})["status"]


def roles_offered(window):
    return window.script("return [...document.getElementById('new-role').options].map((option) => option.value)")


def opened(server, folder):
    """The example session anew, of the second edition and with a commentator."""
    session = json.loads((EXAMPLES / "session.json").read_text())
    path = pathlib.Path(folder, "second_edition.json")
    path.write_text(json.dumps({**session, "edition": 2, "users": [*session["users"], THOMAS]}))
    server.stop()
    server.keep_session(path)
    server.start()


@part
def roles_of_the_first(window, server):
    """In the first edition nobody is offered the second one's role, nor a director an embargo."""
    window.sign_in("ada")
    window.go("accounts")
    until("the form is there", lambda: window.find("new-role"))
    check("the roles are the first edition's", False, "Commentator" in roles_offered(window))
    window.press("sign-out")
    window.sign_in("dora")
    window.go("director")
    until("the desk is there", lambda: window.find("hold"))
    check("there is no embargo to give", None, window.find("embargo"))
    window.press("sign-out")


@part
def commentator(thomas, anna, vera, server):
    thomas.sign_in("thomas")
    thomas.go("board/1")
    reply = server.reply("thomas", {"ask": "board", "board": 1})["board"]
    holds("a commentator sees a board that nobody has played", thomas.shows("North", ".diagram"))
    check("its hands are those of the reply", reply["deal"][2:], thomas.hands())
    for window, name, rule, found in ((anna, "anna", 6, "holds"), (vera, "vera", 9, "roles")):
        window.sign_in(name)
        window.go("board/1")
        until("the denial is there", lambda: window.find("check-board-0-1"))
        check(f"{name} is denied by rule {rule}", [rule, rule], [server.reply(name, {"ask": "board", "board": 1})["denied"]["rule"], window.denial()[0]])
        window.press("check-board-0-1")
        check(f"the check for {name} is {found}", found, verdict(window))
        holds("it shows that there is no embargo", window.shows("The session isn't under embargo.", ".evidence"))
    holds("a commentator would be spared, says the check", vera.shows("neither a contestant, a commentator nor a director", ".evidence"))


@part
def embargo(dora, thomas, anna, server):
    dora.sign_in("dora")
    dora.go("director")
    dora.press("embargo")
    dora.press("embargo-cancel")
    check("what is cancelled isn't done", False, status(server)["embargo"])
    dora.press("embargo")
    dora.press("embargo-sure")
    holds("the session is put under embargo", dora.shows("The session is under embargo", "#done"))
    check("the server has it", True, status(server)["embargo"])
    check("its rule is the fourth", 4, server.reply("thomas", {"ask": "board", "board": 1})["denied"]["rule"])
    holds("the commentator is denied the board now", thomas.shows("because the session is under embargo"))
    check("its cards are off the page", "", thomas.text(".hand"))
    for window in (dora, thomas, anna):
        holds("everybody is told of the embargo", window.shows("until it is lifted, nobody but directors sees a board", "#embargo-notice"))
    anna.go("session")
    anna.go("board/2")
    until("the denial is there", lambda: anna.find("check-board-0-2"))
    check("a player is denied by the same rule", [4, 2, 0], anna.denial())
    anna.press("check-board-0-2")
    check("its check says that it holds", "holds", verdict(anna))
    holds("by the embargo", anna.shows("The session is under embargo.", ".evidence"))
    dora.go("board/1")
    holds("a director sees the board", dora.shows("North", ".diagram"))
    laid_out(dora, ("director", "session"))
    dora.go("director")
    dora.press("lift")
    dora.press("lift-sure")
    holds("the embargo is lifted", dora.shows("The embargo is lifted", "#done"))
    check("the server has it lifted", False, status(server)["embargo"])
    holds("the commentator sees the board again", thomas.shows("North", ".diagram"))
    check("nobody is told of an embargo any more", [None] * 2, [window.find("embargo-notice") for window in (dora, thomas)])


@part
def separated(ada, server):
    ada.sign_in("ada")
    ada.go("accounts")
    until("the form is there", lambda: ada.find("new-role"))
    holds("the roles are the second edition's", "Commentator" in roles_offered(ada))
    ada.press("assign-summary-anna")
    ada.choose("assign-role-anna", "Commentator")
    ada.press("assign-anna")
    holds("who plays doesn't comment, in words", ada.shows("both Commentator and Contestant", "#refusal"))
    ada.press("deassign-thomas-Commentator")
    ada.press("deassign-thomas-Commentator-sure")
    holds("a commentator loses the role", ada.shows("thomas hasn't the role Commentator any more", "#done"))
    accounts = dict(server.reply("ada", {"ask": "accounts"})["accounts"]["users"])
    check("the server has it so", [["Contestant"], []], [accounts["anna"], accounts["thomas"]])


def second_edition(address, server, folder):
    first = Browser(address)
    roles_of_the_first(first, server)
    opened(server, folder)
    thomas, anna, dora = (Browser(address) for _ in range(3))
    commentator(thomas, anna, first, server)
    embargo(dora, thomas, anna, server)
    thomas.press("sign-out")
    separated(thomas, server)

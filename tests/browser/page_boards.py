"""Boards: why one is denied, where each is played, those of some conditions, and what is solved of one."""
import time

from page_checks import check, holds, part
from page_devices import until


@part
def denial(page, server):
    denied = server.reply("anna", {"ask": "board", "board": 1})["denied"]
    page.go("board/1")
    sentence = f"board {denied['board']}: denied, because your pair has still to play it, at table {denied['table']}"
    holds("a denial is a sentence with board and table", page.shows(sentence))
    holds("the server's own words stand below it", page.shows(f"“{denied['why']}”"))
    check("rule, board and table are those of the reply", [denied["rule"], denied["board"], denied["table"]], page.denial())
    check("no card is on the page", "", page.text(".hand"))
    spoken = page.script("return document.querySelector('#announcements').textContent")
    holds("who listens is told", spoken.startswith("The hands of board 1: denied"))
    page.press("check-board-0-1")
    check("its check says that it holds", "holds", page.script("return document.querySelector('.verdict').dataset.verdict"))
    live = server.reply("anna", {"ask": "status"})["status"]["live"][0]
    check("no table has a result on board 1 yet", [], live)
    for fact in ("Board 1 isn't held.", "You sit in NS1, which plays board 1 at table 1.", "Table 1 has no result on board 1."):
        holds(f"its check shows: {fact}", page.shows(fact, ".evidence"))


@part
def other_denials(carla, vera, server):
    for window, name, rule, verdict in ((carla, "carla", 6, "holds"), (vera, "vera", 8, "roles")):
        window.sign_in(name)
        window.go("board/1")
        denied = server.reply(name, {"ask": "board", "board": 1})["denied"]
        check(f"{name} is denied by rule {rule}", rule, denied["rule"])
        until("the denial is there", lambda: window.find("check-board-0-1"))
        check(f"{name} is shown rule, board and table", [denied["rule"], denied["board"], denied["table"]], window.denial())
        window.press("check-board-0-1")
        check(f"the check for {name} is {verdict}", verdict, window.script("return document.querySelector('.verdict').dataset.verdict"))
    holds("where it hangs on roles, the page says so", vera.shows("roles, which this page can't see"))


def cells(status):
    """Table and board of each cell of the rounds so far, by round and then by table."""
    return [(number, table, board) for number in range(1, status["round"] + 1) for table in range(1, 9)
            for board in range(3 * ((table + number - 2) % 8) + 1, 3 * ((table + number - 2) % 8) + 4)]


@part
def room(dora, server):
    """The director's first view, in round 2: each cell as the status and the travellers have it."""
    dora.go("session")
    dora.go("director")
    status = server.reply("dora", {"ask": "status"})["status"]
    asked = [{"ask": "traveller", "board": board} for board in range(1, 25)]
    ruled = {(row["table"], reply["traveller"]["board"]) for reply in server.ask("dora", *asked)
             for row in reply["traveller"]["rows"] if "ruling" in row}

    def state(number, table, board):
        if table in status["live"][board - 1]:
            return "ruled" if (table, board) in ruled else "has a result"
        return "awaited" if number == status["round"] else "late"
    wanted = {f"room-{table}-{board}": state(number, table, board) for number, table, board in cells(status)}
    check("there are all kinds of them", {"awaited", "late", "has a result", "ruled"}, set(wanted.values()))

    def shown():
        return dict(dora.script("return [...document.querySelectorAll('.room a')].map((each) => [each.id, each.getAttribute('aria-label').split(', ').slice(1).join(', ')])"))
    until("the room is whole", lambda: shown() == wanted or time.sleep(0.2))
    check("each cell of the rounds so far has its mark", wanted, shown())
    awaited = [f"awaited-{table}-{board}" for number, table, board in cells(status) if table not in status["live"][board - 1]]
    check("all that is awaited is listed, the oldest first", awaited,
          dora.script("return [...document.querySelectorAll('ul.awaited a')].map((each) => each.id)"))
    dora.press("room-2-5")
    holds("a tap opens it", dora.shows("Table 2, board 5", "#heading"))


@part
def find_boards(dora, server):
    dora.go("find")
    holds("without a condition all boards are found", dora.shows("24 boards", "#found-count"))
    dora.choose("new-kind", "vul")
    dora.press("add-condition")
    dora.choose("condition-0-vul", "ew")
    dora.choose("new-kind", "made")
    dora.press("add-condition")
    dora.choose("condition-1-not", "true")
    dora.press("search")
    reply = server.reply("dora", {"ask": "list", "filter": {"and": [{"vul": "ew"}, {"not": {"made": True}}]}})["list"]

    def found():
        return dora.script("return [...document.querySelectorAll('[id^=found-]:not(#found-count)')].map((link) => Number(link.id.slice(6)))")
    until("the boards are listed", lambda: found() == reply["boards"] or time.sleep(0.2))
    check("the boards are those of the reply", reply["boards"], found())
    holds("and are in view", until("the list is in view", lambda: dora.script(
        "return document.querySelector('.board-list').getBoundingClientRect().top < innerHeight")))
    dora.choose("new-kind", "level")
    dora.press("add-condition")
    dora.type("condition-2-max", "8")
    dora.press("search")
    holds("a bound that can't be sent is said", dora.shows("whole numbers from 1 to 7", "#refusal"))


@part
def analysis(dora, server, has_workers):
    """What the server's worker finds while the test goes on; where it hasn't found it within two minutes, that is said and not compared."""
    dora.go("board/13/5")
    until("the play is there", lambda: dora.rows("table.play"))
    if not has_workers:
        holds("an analysis that isn't there is said to be pending", dora.shows("isn't solved yet"))
        holds("and so are costs", dora.shows("What the cards cost isn't solved yet."))
        return
    query = {"ask": "costs", "table": 5, "board": 13}
    try:
        until("the costs are found", lambda: server.reply("dora", query)["costs"]["costs"] != "pending", 100)
    except AssertionError:
        print("left    the worker took too long: analysis and costs aren't compared")
        return
    costs = server.reply("dora", query)["costs"]["costs"]
    tricks = server.reply("dora", {"ask": "analysis", "board": 13})["analysis"]["tricks"]
    until("the table is there", lambda: dora.rows("table.analysis"))
    names = {"N": "North", "S": "South", "E": "East", "W": "West"}
    wanted = [[names[place], *(str(tricks[place][index]) for index in (4, 0, 1, 2, 3))] for place in "NSEW"]
    check("the double-dummy table is the server's", wanted, dora.rows("table.analysis"))
    holds("what the cards cost is there", dora.shows("with all cards seen.", "main"))
    marks = dora.script("return [...document.querySelectorAll('table.play .cost')].map((each) => each.textContent)")
    check("what the cards cost is the server's", sorted(f"−{cost}" for cost in costs if cost), sorted(marks))

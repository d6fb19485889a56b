"""A Howell on the page: examples/howell.json, in which pairs change sides and there are more sets than tables."""
import json
import pathlib
import re

from page_browser import Browser
from page_checks import FIVE_CLUBS, check, holds, pair_in, part, type_result
from page_devices import EXAMPLES, until
from page_layout import laid_out

SIDES = ("North-South", "East-West")


def opened(server):
    server.stop()
    server.keep_session(EXAMPLES / "howell.json", EXAMPLES / "howell.pbn")
    server.start()


def status(server):
    return server.reply("dora", {"ask": "status"})["status"]


def listed():
    """The rows of the file itself, from which the page's are to follow."""
    return json.loads((EXAMPLES / "howell.json").read_text())["movement"]


def boards_of(which, per_set=3):
    return f"{per_set * (which - 1) + 1}–{per_set * which}"


def play_round(server):
    """What is still awaited of the present round, past the page: three no trump by whoever sits South."""
    now = status(server)
    cells = [(table, board) for number, table, which, _, _ in listed() if number == now["round"] for board in range(3 * which - 2, 3 * which + 1)
             if table not in now["live"][board - 1]]
    commands = [{"cmd": word, "table": table, "board": board, "result": {"by": "S", "doubled": 0, "level": 3, "strain": "N", "tricks": 8 + table % 3}}
                for table, board in cells for word in ("Enter", "Confirm")]
    return [answer for answer in server.reply("sam", {"do": commands})["answers"] if answer != "ok"]


@part
def rows_of_the_status(anna, server):
    anna.sign_in("anna")
    anna.go("session")
    until("the tables are there", lambda: anna.rows("table.tables"))
    told = status(server)["movement"]
    check("the server tells the rows of the object", sorted(listed()), sorted(told))
    wanted = [[str(table), ns, ew, *map(str, range(3 * which - 2, 3 * which + 1))] for number, table, which, ns, ew in sorted(told) if number == 1]
    shown = [[row[0], *(pair_in(pair) for pair in row[1:3]), *re.findall(r"\d+", row[3])] for row in anna.rows("table.tables")]
    check("the round's pairs and boards are those of its rows", wanted, shown)
    grid = anna.script("return [...document.querySelectorAll('.board-grid a')].map((each) => Number(each.id.slice(11)))")
    check("there are as many boards as in the sets", list(range(1, 28)), grid)


@part
def turned(tilda, sam, dora, server):
    """EW2 begins East-West, and sits North-South against NS3 at table 2 in round 2, with the boards of set 1."""
    sam.sign_in("sam")
    sam.go("scorer/2/1")
    holds("a later board has its own round's pairs", sam.shows("tilda – ulf (EW2) against emma – finn (NS3) · round 2", "#cell-pairs"))
    tilda.sign_in("tilda")
    check("the first round is played", [], play_round(server))
    dora.sign_in("dora")
    dora.go("director")
    dora.press("next-round")
    dora.press("next-round-sure")
    holds("the next round has begun", dora.shows("The next round has begun", "#done"))
    tilda.go("session")
    holds("who began East is told to sit North", tilda.shows("You sit in EW2, and begin as East. In round 2 you sit North at table 2.", "#own-seat"))
    tilda.go("board/1")
    denied = server.reply("tilda", {"ask": "board", "board": 1})["denied"]
    until("the denial is there", lambda: tilda.find("check-board-0-1"))
    check("the denial names the table of its row", [[5, 1, 2]] * 2, [tilda.denial(), [denied["rule"], denied["board"], denied["table"]]])
    tilda.press("check-board-0-1")
    check("its check says that it holds", "holds", tilda.script("return document.querySelector('.verdict').dataset.verdict"))
    holds("by where the pair plays it", tilda.shows("You sit in EW2, which plays board 1 at table 2.", ".evidence"))
    for form in ("enter", "confirm"):
        until("the form is there", lambda: sam.find(f"{form}-level-1"))
        type_result(sam, form, FIVE_CLUBS)
        sam.press(f"{form}-button")
    holds("the result is confirmed", sam.shows("Confirmed: table 2 has a result on board 1", "#done"))
    until("the traveller is there", lambda: len(tilda.rows("table.traveller")) == 2)
    rows = server.reply("tilda", {"ask": "traveller", "board": 1})["traveller"]["rows"]
    check("the traveller has the pairs as they sat", [["NS1", "EW1"], ["EW2", "NS3"]],
          [[pair_in(pair) for pair in row[1:3]] for row in tilda.rows("table.traveller")])
    check("which is the server's", [["NS1", "EW1"], ["EW2", "NS3"]], [[row["ns"], row["ew"]] for row in rows])


@part
def one_winner(dora, server):
    dora.go("ranking")
    rows = server.reply("dora", {"ask": "ranking"})["ranking"]
    until("the ranking is there", lambda: dora.rows("table.ranking"))
    holds("there is one winner, and the page says so", dora.shows("One winner", ".winners"))
    check("the list is the server's", [pair for pair, _, _ in rows], [pair_in(row[1]) for row in dora.rows("table.ranking")])
    check("with all pairs", 10, len(rows))
    dora.go("director")
    until("the desk is there", lambda: dora.find("seat-pair"))
    pairs = dora.script("return [...document.getElementById('seat-pair').options].map((option) => option.value)")
    check("seats are given in the pairs of the rows", sorted(pair for pair, _, _ in rows), sorted(pairs))


def wanted_card(pair):
    rows = sorted(row for row in listed() if pair in row[3:])
    return [[str(number), str(table), SIDES[pair == ew], ns if pair == ew else ew, boards_of(which)] for number, table, which, ns, ew in rows]


def by_pairs(rows):
    return [[pair_in(cell) for cell in row] for row in rows]


@part
def guide_cards(tilda, downloads):
    tilda.go("papers")
    tilda.press("paper-pair_cards")
    until("the cards are there", lambda: len(tilda.here().find_elements("css selector", ".paper-pair_cards .sheet")) == 10)
    for pair in ("NS1", "EW2", "EW5"):
        check(f"the card of {pair} is its rows", wanted_card(pair), by_pairs(tilda.rows(f"#card-{pair} table.guide")))
    holds("who turns is told where to sit", "Where the pair sits North-South, East sits North and West South." in tilda.text("#card-EW2"))
    check("who doesn't isn't", "", tilda.text("#card-NS1 .turned"))
    tilda.press("csv")
    path = until("the file is there", lambda: next(iter(pathlib.Path(downloads).glob("pair_cards*.csv")), None))
    until("the file is whole", lambda: path.read_text(encoding="utf-8-sig").count("\n") == 91)
    lines = [line.split(",") for line in path.read_text(encoding="utf-8-sig").splitlines()]
    wanted = [[number, table, against] for number, table, _, against, _ in wanted_card("EW2")]
    check("the spreadsheet has the rows of EW2", wanted, [[line[2], line[3], line[5]] for line in lines if line[0] == "EW2"])
    laid_out(tilda, ("session", "boards", "papers"))
    tilda.press("paper-table_cards")
    until("the cards of tables are there", lambda: len(tilda.here().find_elements("css selector", ".paper-table_cards .sheet")) == 5)
    wanted = [[str(number), ns, ew, boards_of(which)] for number, table, which, ns, ew in sorted(listed()) if table == 2]
    check("the card of table 2 is its rows", wanted, by_pairs(tilda.rows("#card-table-2 table.guide")))
    tilda.devtools("Emulation.setEmulatedMedia", media="print")
    seen = tilda.script("return ['#top', '#foot', '.no-print', '.paper'].map((each) => document.querySelector(each).getClientRects().length > 0)")
    check("paper has the cards alone", [False, False, False, True], seen)
    tilda.width(688)  # an A4 sheet between its margins
    for kind in ("table_cards", "pair_cards"):
        tilda.script("document.getElementById(`paper-${arguments[0]}`).click()", kind)
        until(f"{kind} are there", lambda: tilda.find("card-table-2" if kind == "table_cards" else "card-EW2"))
        cut = "return [...document.querySelectorAll('.sheet')].filter((each) => each.scrollWidth > each.clientWidth).map((each) => each.id)"
        check(f"{kind}: nothing is cut off on paper", [], tilda.script(cut))
    tilda.devtools("Emulation.setEmulatedMedia", media="")


def howell(address, server, downloads):
    opened(server)
    anna, tilda, sam, dora = (Browser(address) for _ in range(4))
    rows_of_the_status(anna, server)
    turned(tilda, sam, dora, server)
    one_winner(dora, server)
    guide_cards(tilda, downloads)

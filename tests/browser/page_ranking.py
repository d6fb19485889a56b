"""What a round comes to: the ranking, a pair's score card, and its own place."""
import pathlib

from page_checks import check, holds, pair_in, part
from page_devices import until


def by_direction(ranking):
    """The rows of a ranking as the page has those of a Mitchell: a list for each direction, each in the order of the reply."""
    return [row for side in ("NS", "EW") for row in ranking if row[0].startswith(side)]


def percent(earned, tops):
    hundredths = (20000 * earned + tops) // (2 * tops)
    return f"{hundredths // 100}.{hundredths % 100:02d} %"


def play_round(server):
    """The first round, past the page: each North-South pair bids three no trump, which goes down at odd tables. Board 4 was seen at
    table 2, and board 12 is left to table 4."""
    status = server.reply("sam", {"ask": "status"})["status"]
    commands = []
    for table in range(1, 9):
        for board in range(3 * table - 2, 3 * table + 1):
            result = {"by": "N", "doubled": 0, "level": 3, "strain": "N", "tricks": 9 - table % 2}
            if table not in status["live"][board - 1] and (table, board) not in ((2, 4), (4, 12)):
                commands += [{"cmd": word, "table": table, "board": board, "result": result} for word in ("Enter", "Confirm")]
    receipts = server.ask("sam", {"do": commands[:64]}, {"do": commands[64:]})
    return [answer for receipt in receipts for answer in receipt["answers"] if answer != "ok"]


@part
def ranking(dora, anna, server, downloads):
    check("the rest of the round is entered", [], play_round(server))
    dora.go("director")
    dora.press("next-round")
    dora.press("next-round-sure")
    holds("the next round has begun", dora.shows("The next round has begun", "#done"))
    status = server.reply("dora", {"ask": "status"})["status"]
    check("the server is in round 2", 2, status["round"])
    tricks = {4: 9, 10: 8, 11: 10, 16: 10, 17: 10, 18: 8}  # at tables 1, 3 and 5: two thirds of the tops for NS5 against EW4
    more = [{"cmd": word, "table": (board - 1) // 3, "board": board, "result": {"by": "S", "doubled": 0, "level": 3, "strain": "N", "tricks": count}}
            for board, count in tricks.items() for word in ("Enter", "Confirm")]
    check("three tables give results in round 2", ["ok"] * 12, server.reply("sam", {"do": more})["answers"])
    for window, name in ((anna, "anna"), (dora, "dora")):
        window.go("ranking")
        until("the ranking is there", lambda: window.rows("table.ranking"))

        def agrees():
            rows = by_direction(server.reply(name, {"ask": "ranking"})["ranking"])
            wanted = [[pair, percent(earned, tops) if tops else "–"] for pair, earned, tops in rows]
            return [[pair_in(row[1]), row[2]] for row in window.rows("table.ranking")] == wanted
        what = f"the ranking that {name} sees is the server's for {name}"
        try:
            holds(what, until("the ranking agrees", agrees))
        except AssertionError:
            check(what, by_direction(server.reply(name, {"ask": "ranking"})["ranking"]), window.rows("table.ranking"))
        holds("it has two lists, and says so", window.shows("Two winners", ".winners"))
        check("each of eight pairs", [8, 8], [len(window.rows(f"table.ranking-{side}")) for side in ("NS", "EW")])
    rows = by_direction(server.reply("dora", {"ask": "ranking"})["ranking"])
    check("two thirds of the tops are 66.67 percent", "66.67 %", next(percent(earned, tops) for pair, earned, tops in rows if pair == "NS5"))
    dora.press("csv-ranking")
    path = until("the file is there", lambda: next(iter(pathlib.Path(downloads).glob("ranking*.csv")), None))
    until("the file is whole", lambda: path.read_text(encoding="utf-8-sig").count("\n") == len(rows) + 1)
    lines = [line.split(",") for line in path.read_text(encoding="utf-8-sig").splitlines()[1:]]
    wanted = [[pair, percent(earned, tops)[:-2] if tops else ""] for pair, earned, tops in rows]
    check("the spreadsheet has the pairs and percents", wanted, [[line[1], line[3]] for line in lines])
    status = server.reply("dora", {"ask": "status"})["status"]
    played = sum(5 in tables for tables in status["live"])  # NS5 stays at table 5
    check("and the boards that each has played", str(played), next(line[7] for line in lines if line[1] == "NS5"))


@part
def score_card(anna, server):
    """A player's own card: a row for each board that she was shown and has played, and in the end the percentage of the ranking."""
    anna.go("papers")
    anna.press("paper-results")
    until("the card is there", lambda: anna.find("print") and anna.rows("table.score-card"))
    rows = anna.rows("table.score-card")
    boards = [board for board in server.reply("anna", {"ask": "list"})["list"]["boards"]
              if any(row["ns"] == "NS1" for row in server.reply("anna", {"ask": "traveller", "board": board})["traveller"]["rows"])]
    check("the card has the own boards", boards, [int(row[0]) for row in rows])
    check("with who was met", ["rosa – stig (EW1)"] * 3, [row[1] for row in rows[:3]])
    earned, tops = next(row[1:] for row in server.reply("anna", {"ask": "ranking"})["ranking"] if row[0] == "NS1")
    check("its last percentage is the ranking's", percent(earned, tops)[:-2], rows[-1][5])
    units = [f"{each / 100:.2f}".rstrip("0").rstrip(".") for each in (earned, tops)]
    check("and so are its matchpoints", " of ".join(units), rows[-1][7])


@part
def own_rank(anna, server):
    """A player's first view: the own percentage, total and place among the pairs of her direction that have one. Table 8 plays
    her first boards too, so that there is something to compare with."""
    more = [{"cmd": word, "table": 8, "board": board, "result": {"by": "N", "doubled": 0, "level": 3, "strain": "N", "tricks": tricks}}
            for board, tricks in ((1, 10), (2, 8), (3, 9)) for word in ("Enter", "Confirm")]
    check("another table gives results on her boards", ["ok"] * 6, server.reply("sam", {"do": more})["answers"])
    anna.go("session")
    until("the rank is there", lambda: anna.rows("table.tables") and "Percent" in anna.text("#own-rank"))
    ranked = [row for row in server.reply("anna", {"ask": "ranking"})["ranking"] if row[0].startswith("NS") and row[2]]
    earned, tops = next(row[1:] for row in ranked if row[0] == "NS1")
    better = sum(other[1] * tops > earned * other[2] for other in ranked)
    shared = "=" if sum(other[1] * tops == earned * other[2] for other in ranked) > 1 else ""
    units = [f"{each / 100:.2f}".rstrip("0").rstrip(".") for each in (earned, tops)]
    wanted = [percent(earned, tops), " of ".join(units), f"{better + 1}{shared} of {len(ranked)} North-South"]
    check("a player's first view has percentage, total and place", wanted,
          anna.script("return [...document.querySelectorAll('#own-rank dd')].map((each) => each.textContent)"))
    anna.width(390, 844)
    holds("without scrolling on a phone", anna.script("return document.getElementById('own-rank').getBoundingClientRect().bottom < innerHeight"))
    anna.width(1000)

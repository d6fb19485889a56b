"""Papers of as many boards as a session can have: 128, at 16 tables."""
import json
import pathlib
import re

from page_browser import Browser
from page_checks import check, holds, part
from page_devices import EXAMPLES, until

TABLES, PER_SET = 16, 8
BOARDS = list(range(1, TABLES * PER_SET + 1))
VULNERABLE = "None NS EW All NS EW All None EW All None NS All None NS EW".split()


def opened(server, folder):
    """The example's staff at 16 tables; the deals of its boards come again and again."""
    session = json.loads((EXAMPLES / "session.json").read_text())
    staff = [user for user in session["users"] if "pair" not in user]
    path, deals = pathlib.Path(folder, "many_boards.json"), pathlib.Path(folder, "many_boards.pbn")
    path.write_text(json.dumps({**session, "per_set": PER_SET, "rounds": 2, "tables": TABLES, "users": staff}))
    known = re.findall(r'\[Deal "(.*?)"\]', (EXAMPLES / "club.pbn").read_text())
    deals.write_text("% PBN 2.1\n" + "".join(
        f'[Board "{board}"]\n[Dealer "{"NESW"[(board - 1) % 4]}"]\n[Vulnerable "{VULNERABLE[(board - 1) % 16]}"]\n'
        f'[Deal "{known[(board - 1) % len(known)]}"]\n\n' for board in BOARDS))
    server.stop()
    server.keep_session(path, deals)
    server.start()


def play_some(server):
    """One result on each board, past the page: at the table that plays it in round 1."""
    commands = [{"cmd": word, "table": (board - 1) // PER_SET + 1, "board": board, "result": "pass"} for board in BOARDS for word in ("Enter", "Confirm")]
    receipts = server.ask("sam", *({"do": commands[first:first + 64]} for first in range(0, len(commands), 64)))
    return [answer for receipt in receipts for answer in receipt["answers"] if answer != "ok"]


def saved(window, downloads, kind):
    """The first field of each line of a file that the page hands out, but for its heads."""
    window.press("csv")
    path = until("the file is there", lambda: next(iter(pathlib.Path(downloads).glob(f"{kind}*.csv")), None))
    until("the file is whole", lambda: path.read_text(encoding="utf-8-sig").count("\n") == len(BOARDS) + 1)
    heads = path.read_text(encoding="utf-8-sig").splitlines()[0].split(",")
    check("it has the double-dummy numbers where it has the deals", [20 if kind == "records" else 0], [sum(head.startswith("dd_") for head in heads)])
    return [int(line.split(",")[0]) for line in path.read_text(encoding="utf-8-sig").splitlines()[1:]]


@part
def whole_papers(dora, server, downloads):
    check("a result is on each board", [], play_some(server))
    dora.sign_in("dora")
    check("the server lists 64 of them at once", [64, True], [len((reply := server.reply("dora", {"ask": "list"})["list"])["boards"]), reply["more"]])
    dora.go("papers")
    for kind, titles in (("travellers", "caption"), ("records", "h3")):
        dora.press(f"paper-{kind}")
        until("all of it is there", lambda: dora.find("csv") and dora.script("return document.querySelector(arguments[0]) !== null", f".paper-{kind}"))
        shown = dora.script("""return [...document.querySelectorAll(arguments[0])].map((each) => Number(/board (\\d+)$/i.exec(each.textContent)?.[1]))
            .filter((board) => board > 0)""", f".paper-{kind} .sheet {titles}")
        check(f"each board is among the {kind}", BOARDS, shown)
        check("and in their file", BOARDS, saved(dora, downloads, kind))
    dora.go("find")
    holds("Find lists them all", dora.shows("128 boards.", "#found-count"))
    check("each with its link", BOARDS, dora.script(
        "return [...document.querySelectorAll('.board-list a')].map((link) => Number(link.id.slice(6)))"))


def many_boards(address, server, folder):
    opened(server, folder)
    whole_papers(Browser(address), server, folder)

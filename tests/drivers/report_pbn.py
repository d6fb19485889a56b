"""A report as PBN, for tests/drivers/report.py, by the plain reader of tests/models/boards_reader.py, by a few lines here, and by DDS."""
import ctypes
import pathlib
import re
import sys

sys.path[:0] = [str(pathlib.Path(__file__).resolve().parents[1] / folder) for folder in ("models",)]
from boards_reader import board_of, check_boards, games_of, hands_of, values_of
from checks import check
from report_wanted import PLACES, STRAINS, hundredths, percent

TAG = re.compile(r'^\[([A-Za-z0-9_]+) "((?:[^"\\]|\\.)*)"\]$')
ITEM = re.compile(r'"((?:[^"\\]|\\.)*)"|(\S+)')


def unescaped(text):
    return re.sub(r"\\(.)", r"\1", text)


def games_in(text):
    """Each game as its tags by name, with their rows: a line that is neither a tag nor a row of one nor a comment is a fault."""
    games = []
    for part in text.split("\n\n"):
        game, name = {}, None
        for line in part.split("\n"):
            if tag := TAG.match(line):
                name = tag[1]
                game[name] = (unescaped(tag[2]), [])
            elif line.startswith("%") or not line:
                assert name is None or not line, line
            else:
                game[name][1].append([unescaped(quoted) if quoted or not plain else plain for quoted, plain in ITEM.findall(line)])
        if game:
            games.append(game)
    return games


def boards_read(text, boards):
    """The hands and the marks of the boards 1 to a last one, as the plain reader finds them."""
    check_boards(text, boards)
    found, before = {}, {}
    for game in games_of(text)[0]:
        before = values_of(game, before)
        number = board_of(before, boards)
        if number is not None:
            found.setdefault(number, [before[name][1] for name in (b"Deal", b"Dealer", b"Vulnerable")])
    return [(b"N:" + b" ".join(hands_of(deal)), dealer, vulnerable) for _, (deal, dealer, vulnerable) in sorted(found.items())]


def check_pbn(text, wanted):
    told = wanted.told
    boards = len(told.boards)
    vul = {"none": "None", "ns": "NS", "ew": "EW", "both": "All"}
    check("pbn: its boards, by a plain reader", [(board["deal"].encode(), board["dealer"].encode(), vul[board["vul"]].encode()) for board in told.boards],
          boards_read(text, boards))
    games = games_in(text.decode())
    check("pbn: a game a board, and one behind", boards + 1, len(games))
    title = told.status.get("title", "?")
    date = told.status.get("date", "????.??.??").replace("-", ".")
    found = list(wanted.results())
    for board, game in zip(told.boards, games):
        tricks = wanted.tricks(board["number"])
        solved = told.tricks[board["number"] - 1] is not None
        rows = [[str(table), ns, ew, *ended, *map(hundredths, earned[:2]), *parts, wanted.names(ns), wanted.names(ew)]
                for number, table, ns, ew, ended, earned, parts in found if number == board["number"]]
        want = {"Event": title, "Site": "?", "Date": date, "Board": str(board["number"]), "West": "?", "North": "?", "East": "?", "South": "?",
                "Dealer": board["dealer"], "Vulnerable": vul[board["vul"]], "Deal": board["deal"], "Scoring": "MP", "Declarer": "?", "Contract": "?",
                "Result": "?", "SessionPhase": told.status["phase"].lower()}
        tables = {"OptimumResultTable": [[place, strain, tricks[place, strain]] for place in "NSEW" for strain in STRAINS] if solved else [],
                  "ScoreTable": rows}
        got = ({name: value for name, (value, _) in game.items() if name not in tables}, {name: game[name][1] for name in tables if name in game})
        if got != (want, tables):
            check(f"pbn: the game of board {board['number']}", (want, tables), got)
    totals = [[place, pair, hundredths(earned), percent(earned, top), wanted.names(pair)] for place, pair, earned, top in wanted.ranking()]
    check("pbn: the ranking", totals, games[-1]["TotalScoreTable"][1])
    check("pbn: how far the session has come", (told.status["phase"].lower(), str(told.version)), (games[-1]["SessionPhase"][0], games[-1]["SessionVersion"][0]))


def check_by_dds(text):
    """DDS reads each Deal of the text, and finds the numbers that stand below it."""
    dds = ctypes.CDLL("libdds.so.0")
    dds.SetMaxThreads(0)
    solved = [game for game in games_in(text.decode()) if game.get("OptimumResultTable", ("", []))[1]]
    for game in solved:
        deal, found = ctypes.create_string_buffer(game["Deal"][0].encode(), 80), (ctypes.c_int * 4 * 5)()
        answer = dds.CalcDDtablePBN(deal_by_value(deal), ctypes.byref(found))
        numbers = {(place, strain): str(found["SHDC".find(strain) if strain != "NT" else 4]["NESW".find(place)]) for place in PLACES for strain in STRAINS}
        check(f"pbn: board {game['Board'][0]} by DDS", (1, numbers), (answer, {(place, strain): tricks for place, strain, tricks in game["OptimumResultTable"][1]}))
    check("pbn: DDS was asked", True, bool(solved))


class DealText(ctypes.Structure):
    _fields_ = [("cards", ctypes.c_char * 80)]


def deal_by_value(text):
    return DealText(text.raw)

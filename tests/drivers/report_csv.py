"""A report as CSV, for tests/drivers/report.py, by Python's reader."""
import csv
import io

from checks import check
from report_wanted import PLACES, STRAINS, hundredths, percent


def check_csv(text, wanted):
    tables = [list(csv.reader(io.StringIO(part, newline=""), strict=True)) for part in split_tables(text)]
    told = wanted.told
    status_row = [told.status.get("title", ""), told.status.get("date", ""), told.status["phase"].lower(), str(told.version)]
    ranking = [[place, pair, *(text for player in wanted.players(pair) for text in player), hundredths(earned), hundredths(top), percent(earned, top)]
               for place, pair, earned, top in wanted.ranking()]
    results = [[str(board), str(table), ns, wanted.names(ns), ew, wanted.names(ew), *ended, *map(hundredths, earned), *parts]
               for board, table, ns, ew, ended, earned, parts in wanted.results()]
    boards = [[str(board["number"]), board["dealer"], board["vul"], board["deal"], *wanted.tricks(board["number"]).values()] for board in told.boards]
    heads = [["title", "date", "phase", "version"],
             ["place", "pair", "first_player", "first_number", "second_player", "second_number", "points", "top", "percentage"],
             ["board", "table", "ns", "ns_names", "ew", "ew_names", "contract", "declarer", "tricks", "score", "ns_points", "ew_points", "top",
              "ns_percentage", "ew_percentage"],
             ["board", "dealer", "vulnerable", "deal", *(f"{place}_{strain}" for place in PLACES for strain in STRAINS)]]
    for name, head, rows, got in zip(("session", "ranking", "results", "boards"), heads, ([status_row], ranking, results, boards), tables):
        check(f"csv: {name}", [head, *rows], got)
    check("csv: four tables", 4, len(tables))


def split_tables(text):
    """The texts of the tables: no field has a line's end, so an empty line ends a table."""
    return text.decode().split("\n\n")

"""A report as XML, for tests/drivers/report.py, by `xmllint` and docs/usebio_reading.dtd, and by Python's reader."""
import pathlib
import subprocess
import tempfile
import xml.etree.ElementTree

from checks import check
from report_wanted import NOT_FINAL, PLACES, hundredths, percent

DTD = pathlib.Path(__file__).resolve().parents[2] / "docs/usebio_reading.dtd"


def number_of(pair):
    return str(int(pair[2:]) + (0 if pair[:2] == "NS" else 16))


def check_usebio(text, wanted):
    told = wanted.told
    with tempfile.NamedTemporaryFile(suffix=".xml") as file:
        file.write(text)
        file.flush()
        done = subprocess.run(["xmllint", "--noout", "--dtdvalid", str(DTD), file.name], capture_output=True, text=True, check=False)
    check("usebio: valid by docs/usebio_reading.dtd", (0, ""), (done.returncode, done.stderr.replace(file.name, "")))
    root = xml.etree.ElementTree.fromstring(text)
    event = root.find("EVENT")
    title = told.status.get("title", "")
    check("usebio: the club", title, root.findtext("CLUB/CLUB_NAME"))
    mark = "" if wanted.final else f"NOT FINAL, {NOT_FINAL[told.status['phase']].split(': ')[1]}: "
    check("usebio: the event", f"{mark}{title} (version {told.version})", event.findtext("EVENT_DESCRIPTION"))
    check("usebio: the day", "/".join(reversed(told.status.get("date", "").split("-"))), event.findtext("DATE"))
    pairs = [[pair.findtext(name) for name in ("PAIR_NUMBER", "DIRECTION", "PLACE", "TOTAL_SCORE", "PERCENTAGE")]
             + [(player.findtext("PLAYER_NAME"), player.findtext("NATIONAL_ID_NUMBER")) for player in pair.findall("PLAYER")]
             for pair in event.findall("PARTICIPANTS/PAIR")]
    check("usebio: the pairs", [[number_of(pair), pair[:2], place, hundredths(earned), percent(earned, top), *wanted.players(pair)]
                                for place, pair, earned, top in wanted.ranking()], pairs)
    lines = [[int(board.findtext("BOARD_NUMBER")), *(child.text or "" for child in line)] for board in event.findall("BOARD")
             for line in board.findall("TRAVELLER_LINE")]
    check("usebio: the results", [[board, number_of(ns), number_of(ew), *(ended if ended[0] != "Ruled" else ["", "", "", f"A{'-'.join(part[:-3] for part in parts)}"]),
                                   *map(hundredths, earned[:2])] for board, _, ns, ew, ended, earned, parts in wanted.results()], lines)
    hands = [[board.findtext("BOARD_NUMBER"), *((hand.findtext("DIRECTION")[0], ".".join(hand.findtext(suit) for suit in ("SPADES", "HEARTS", "DIAMONDS", "CLUBS")))
                                                for hand in board.findall("HAND"))] for board in root.findall("HANDSET/BOARD")]
    check("usebio: the hands", [[str(board["number"]), *zip(PLACES, board["deal"][2:].split(" "))] for board in told.boards], hands)

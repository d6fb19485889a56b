"""What is wanted of a report, for tests/drivers/report.py: what a director was told at the last version, and the tables that follow from it."""
import json

STRAINS, PLACES = ("NT", "S", "H", "D", "C"), "NESW"
TOLD_STRAINS = ("S", "H", "D", "C", "NT")  # the order of an analysis
NOT_FINAL = {"Running": "not final: boards are still being played", "Closed": "not final: scores may still be corrected"}


class Told:
    """What a director was told at the last version: the status, the ranking, and each board with its traveller and its analysis."""

    def __init__(self, client, boards):
        heard = json.loads(client.ask({"ask": "status"}))
        self.status, self.version = heard["status"], heard["version"]
        self.ranking = json.loads(client.ask({"ask": "ranking"}))["ranking"]
        self.boards = [json.loads(client.ask({"ask": "board", "board": board}))["board"] for board in range(1, boards + 1)]
        self.rows = [json.loads(client.ask({"ask": "traveller", "board": board}))["traveller"]["rows"] for board in range(1, boards + 1)]
        self.tricks = [json.loads(client.ask({"ask": "analysis", "board": board}))["analysis"]["tricks"] for board in range(1, boards + 1)]
        self.names = dict(self.status.get("names", []))
        self.seats = {(pair, place): name for name, pair, place in self.status["seats"]}


def hundredths(number):
    return f"{number // 100}.{number % 100:02d}"


def percent(earned, top):
    return hundredths((20000 * earned + top) // (2 * top)) if top else ""


def place_of(ranking, pair, earned, top):
    return str(1 + sum(e * top > earned * t for _, e, t in ranking if t)) if top else ""


def contract_of(result):
    if result == "pass":
        return "Pass", "", ""
    strain = "NT" if result["strain"] == "N" else result["strain"]
    return f"{result['level']}{strain}{'X' * result['doubled']}", result["by"], str(result["tricks"])


class Wanted:
    """The tables of a report, as lists of texts."""

    def __init__(self, told, numbers):
        self.told, self.numbers = told, numbers
        self.final = told.status["phase"] == "Final"

    def players(self, pair):
        """The two players of a pair, each by name and number; nothing where nobody sits there."""
        found = []
        for place in pair[:2]:
            name = self.told.seats.get((pair, place))
            found.append((self.told.names.get(name, name), self.numbers.get(name, "")) if name else ("", ""))
        return found

    def names(self, pair):
        return " & ".join(name for name, _ in self.players(pair) if name)

    def ranking(self):
        ranked = self.told.ranking
        return [[place_of(ranked, pair, earned, top), pair, earned, top] for pair, earned, top in ranked]

    def results(self):
        for board, rows in enumerate(self.told.rows, 1):
            top = 200 * max(0, sum("score" in row for row in rows) - 1)
            for row in rows:
                if "score" in row:
                    ns = 100 * row["points"]
                    ended = [*contract_of(row["result"]), str(row["score"])]
                    earned = [ns, top - ns, top]
                    parts = [percent(ns, top), percent(top - ns, top)]
                else:
                    first, second = row["ruling"]
                    ended = ["Ruled", "", "", ""]
                    earned = [first * top // 100, second * top // 100, top]
                    parts = [hundredths(100 * first), hundredths(100 * second)]
                yield board, row["table"], row["ns"], row["ew"], ended, earned, parts

    def tricks(self, board):
        """The twenty numbers by place and strain, or empty texts."""
        told = self.told.tricks[board - 1]
        if told is None:
            return {(place, strain): "" for place in PLACES for strain in STRAINS}
        return {(place, strain): str(told[place][TOLD_STRAINS.index(strain)]) for place in PLACES for strain in STRAINS}

"""A report as a page of HTML, for tests/drivers/report.py, by Python's parser, and in Chromium."""
import html.parser
import pathlib
import subprocess
import tempfile

from checks import check
from report_wanted import NOT_FINAL, PLACES, STRAINS, hundredths, percent


class Page(html.parser.HTMLParser):
    """The tables of a page as texts of their cells, its other texts, and each tag: one that isn't closed in its turn is a fault."""
    VOID = ("meta",)

    def __init__(self):
        super().__init__(convert_charrefs=True)
        self.tables, self.open, self.tags, self.attributes, self.texts, self.faults = [], [], [], [], {}, []

    def handle_starttag(self, tag, attrs):
        self.tags.append(tag)
        self.attributes += attrs
        if tag == "table":
            self.tables.append([])
        elif tag == "tr":
            self.tables[-1].append([])
        elif tag in ("td", "th"):
            self.tables[-1][-1].append("")
        if tag not in self.VOID:
            self.open.append(tag)

    def handle_endtag(self, tag):
        if not self.open or self.open.pop() != tag:
            self.faults.append(tag)

    def handle_data(self, data):
        if self.open and self.open[-1] in ("td", "th"):
            self.tables[-1][-1][-1] += data
        elif self.open and self.open[-1] != "style":
            self.texts[self.open[-1]] = self.texts.get(self.open[-1], "") + data


def page_of(text):
    page = Page()
    page.feed(text)
    page.close()
    return page


def wanted_tables(wanted):
    ranking = [[place, pair, wanted.names(pair), hundredths(earned), hundredths(top), percent(earned, top)] for place, pair, earned, top in wanted.ranking()]
    tables = [[["Place", "Pair", "Names", "Points", "Top", "%"], *ranking]]
    found = list(wanted.results())
    for board in wanted.told.boards:
        hands = board["deal"][2:].split(" ")
        tricks = wanted.tricks(board["number"])
        rows = [[str(table), ns, wanted.names(ns), ew, wanted.names(ew), *ended, *map(hundredths, earned[:2]), *parts]
                for number, table, ns, ew, ended, earned, parts in found if number == board["number"]]
        solved = wanted.told.tricks[board["number"] - 1] is not None
        tables += [[["", "♠", "♥", "♦", "♣"], *([place, *hand.split(".")] for place, hand in zip(PLACES, hands))],
                   *([[["", *STRAINS], *([place, *(tricks[place, strain] for strain in STRAINS)] for place in PLACES)]] if solved else []),
                   [["Table", "NS", "Names", "EW", "Names", "Contract", "By", "Tricks", "Score", "NS points", "EW points", "NS %", "EW %"], *rows]]
    return tables


def check_page(what, text, wanted):
    page = page_of(text)
    check(f"{what}: each tag is closed in its turn", ([], []), (page.faults, page.open))
    check(f"{what}: its tags", set(), set(page.tags) - {"html", "head", "meta", "title", "style", "body", "h1", "h2", "h3", "p", "table", "tbody", "tr", "th", "td"})
    check(f"{what}: its attributes", set(), {name for name, _ in page.attributes} - {"lang", "charset", "class"})
    check(f"{what}: its title", (wanted.told.status.get("title", "Results"),) * 2, (page.texts.get("title"), page.texts.get("h1")))
    mark = "Final results." if wanted.final else f"These results are {NOT_FINAL[wanted.told.status['phase']]}."
    check(f"{what}: what is said of its results", True, f"{mark} Version {wanted.told.version}." in page.texts["p"])
    check(f"{what}: its tables", wanted_tables(wanted), page.tables)


def check_in_browser(text, wanted):
    with tempfile.TemporaryDirectory(prefix="report_page_") as folder:
        path = pathlib.Path(folder, "report.html")
        path.write_bytes(text)
        done = subprocess.run(["chromium", "--headless", "--no-sandbox", "--disable-gpu", "--enable-logging=stderr", f"--user-data-dir={folder}/user",
                               "--dump-dom", path.as_uri()], capture_output=True, text=True, timeout=120, check=False)
        check("html in Chromium: nothing on its console", [], [line for line in done.stderr.splitlines() if "CONSOLE" in line])
        check_page("html in Chromium", done.stdout, wanted)

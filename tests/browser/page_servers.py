"""What becomes of the page where the server is away, full, of the test's own making, or behind TLS."""
import pathlib
import time

from page_browser import Browser
from page_checks import FIVE_CLUBS, LeftOut, check, holds, part, type_result
from page_devices import until
from page_hostile import Hostile
from page_layout import play_fits
from page_scorer import in_view


@part
def restart(sam, server):
    sam.go("scorer/2/8")
    type_result(sam, "enter", "pass")
    sam.press("enter-button")
    holds("a result is entered, and not confirmed", sam.shows("Entered for table 2, board 8", "#done"))
    sam.go("scorer/4/12")
    type_result(sam, "enter", {**FIVE_CLUBS, "level": 4})
    until("the form is filled", lambda: sam.shows("scores", ".preview"))
    server.stop()
    sam.press("to-confirm")
    sam.press("to-enter")
    sam.press("enter-button")
    holds("without a server nothing is sent, in words", sam.shows("Nothing was sent, and what you typed is kept", "#refusal"))
    holds("the page says that it is offline", sam.shows("No connection to the server", "#offline"))
    check("what was typed is still there", "4", sam.chosen("enter-level"))
    server.start()
    holds("the page comes back by itself, and says that the session began anew", sam.shows("was started again", "#offline", 40))
    sam.press("understood")
    check("and what said that nothing was sent is gone", "", sam.text("#refusal"))
    sam.go("scorer/2/8")
    holds("what was entered and is lost is marked", sam.shows("lost when the server was started again", "#cell-lost"))
    check("and stands in the form still", "passed", sam.chosen("enter-ended"))
    sam.go("scorer/4/12")
    until("the form is there", lambda: sam.find("enter-level-4"))
    check("no table has a result any more", [[]] * 24, server.reply("sam", {"ask": "status"})["status"]["live"])
    check("what was typed outlived the server", "4", sam.chosen("enter-level"))
    sam.here().refresh()
    until("the page is there again", lambda: sam.find("name"))
    check("the token didn't outlive the page", "", sam.script("return document.getElementById('token').value"))
    kept = sam.script("return JSON.stringify([Object.entries(sessionStorage), Object.entries(localStorage), document.cookie])")
    check("no token is stored", False, "sam-example" in kept)
    sam.sign_in("sam")
    sam.go("scorer/4/12")
    until("the form is there", lambda: sam.find("enter-level-4"))
    check("what was typed outlived the page", ["4", "C", "S", "1"], [sam.chosen(f"enter-{part}") for part in ("level", "strain", "by", "over")])
    sam.press("enter-button")
    holds("and is entered", sam.shows("Entered for table 4, board 12", "#done"))


LIKE_BEFORE = """return [location.hash, document.activeElement.id, Math.round(document.activeElement.getBoundingClientRect().top), document.querySelector('[name=confirm-level]:checked')?.value,
    document.querySelector('#heading').textContent, document.querySelector('main').innerText]"""


@part
def killed_with_its_journal(sam, server, folder):
    """A server whose power fails, and that goes on with its journal: the page tells it, and nothing else changes."""
    server.stop()
    server.keep_journal(pathlib.Path(folder, "page.journal"))
    server.start()
    sam.here().refresh()
    until("the page is there", lambda: sam.find("name"))
    sam.sign_in("sam")
    sam.go("scorer/1/1")
    type_result(sam, "enter", FIVE_CLUBS)
    sam.press("enter-button")
    until("the other side has its form", lambda: sam.find("confirm-button"))
    type_result(sam, "confirm", {**FIVE_CLUBS, "tricks": 12})
    sam.press("confirm-by-S")
    sam.press("put-away-button")
    sam.script("document.getElementById('confirm-over-1').focus(); scrollTo(0, 120)")
    before = sam.script(LIKE_BEFORE)
    server.kill()
    begins = time.monotonic()
    until("the page says that the server is away", lambda: "No connection to the server" in sam.text("#offline"))
    holds("within two seconds at a desk, and what a look takes where the processor is busy", time.monotonic() - begins < 4)
    holds("which is in view", in_view(sam, "#offline p"))
    time.sleep(2)
    check("nothing else changes while it is away", before, sam.script(LIKE_BEFORE))
    server.start()
    begins = time.monotonic()
    until("the page says that the server is back", lambda: "is back. All that it had accepted before is still there" in sam.text("#offline"))
    holds("within two seconds after its start, and the same", time.monotonic() - begins < 4)
    check("and nothing else changes", before, sam.script(LIKE_BEFORE))
    check("what was entered isn't marked as lost", None, sam.find("cell-lost"))
    sam.press("confirm-over-0")
    sam.press("confirm-button")
    holds("and is confirmed", sam.shows("Confirmed: table 1 has a result on board 1", "#done"))
    sam.press("sign-out")
    server.stop()
    server.keep_journal(None)
    server.start()


@part
def played_numbers(page, nginx):
    """A board whose numbers the test knows: its double-dummy table, a play with its costs, and a ruling."""
    page.here().get(f"http://127.0.0.1:{nginx.port}/?server=/hostile/session#/board/2/1")
    page.here().refresh()
    until("the page is there", lambda: page.find("name"))
    page.sign_in("n1", "x")
    until("the board is there", lambda: page.rows("table.play"))
    names = {"N": "North", "S": "South", "E": "East", "W": "West"}
    wanted = [[names[place], *(str(Hostile.TRICKS[place][index]) for index in (4, 0, 1, 2, 3))] for place in "NSEW"]
    check("the double-dummy table has its declarers and strains", wanted, page.rows("table.analysis"))
    par = page.text(".par")
    check("par stands beside the traveller", [True] * 3, [text in par for text in ("Par: 4", "4 clubs doubled by West, 1 undertrick", ", 100 for North-South")])
    rows = page.rows("table.traveller")
    wanted = [["200", "0.00", "100.00", "0", "2"], ["0", "", "100.00", "0.00", "2", "0"], ["60", "40", "", ""]]
    check("the traveller has what was set, passed out and ruled", wanted, [rows[0][5:], rows[1][4:], rows[2][4:]])
    cells = page.script("""return [...document.querySelectorAll("table.play tbody tr")].map((row) => [...row.cells].slice(1).map((cell) => {
        const card = cell.querySelector(".card");
        const cost = cell.querySelector(".cost")?.textContent ?? "";
        return card && [card.querySelector(".letter").textContent + card.lastChild.textContent, cost, cell.className];
    }))""")
    check("each card stands in the column of who played it, with what it cost, and the winner is marked",
          [[["S2", "−1", ""], ["S3", "", ""], ["SA", "", "winner"], ["SK", "", ""]],
           [["H3", "", ""], ["HA", "", "winner"], ["H2", "", ""], ["HK", "−2", ""]],
           [None, ["D4", "", ""], None, None]], cells)
    total = sum(Hostile.COSTS)
    holds("and told together", page.shows(f"cost their side {total} tricks together"))
    play_fits(page, "board/2/1")
    page.width(1000)
    page.press("letters")
    letters = page.script("return [...document.querySelectorAll('.hand-N dt')].map((suit) => suit.innerText.trim()[0])")
    check("suits can be read as letters", ["S", "H", "D", "C"], letters)
    page.here().refresh()
    until("the page is there again", lambda: page.find("name"))
    page.sign_in("n1", "x")
    holds("after a reload too", until("the board is there", lambda: page.rows("table.analysis")) and page.script(
        "return document.body.classList.contains('letters') && document.getElementById('letters').checked"))
    page.press("letters")
    page.press("sign-out")


@part
def hostile_texts(page, nginx):
    for route in ("session", "boards", "board/1", "board/1/1", "ranking", "find", "accounts", "audit", "director", "scorer", "papers"):
        page.here().get(f"http://127.0.0.1:{nginx.port}/?server=/hostile/session#/{route}")
        page.here().refresh()
        until("the page is there", lambda: page.find("name"))
        page.sign_in("n1", "x")
        if route == "papers":
            page.press("paper-pair_cards")
        time.sleep(0.4)
        made = page.script("""const isMade = (each) => ["IMG", "SCRIPT", "IFRAME", "OBJECT"].includes(each.tagName) ||
            [...each.attributes].some(({name}) => name.startsWith("on"));
            return [...document.querySelectorAll("main *, header *")].filter(isMade).length""")
        check(f"{route}: no text became an element or a listener", 0, made)
        if route in ("session", "ranking", "accounts", "audit", "papers"):
            holds(f"{route}: such a text is shown as it is", page.shows(Hostile.MARKUP))
    page.press("sign-out")
    for elsewhere in ("//evil.example/session", "wss://evil.example/session", "https:evil"):
        page.here().get(f"http://127.0.0.1:{nginx.port}/?server={elsewhere}")
        until("the field is there", lambda: page.find("server-path"))
        path = page.script("return document.getElementById('server-path').value")
        check(f"no link leads elsewhere: {elsewhere}", "/session", path)


@part
def no_room_for_strangers(page, server):
    """Strangers hold the tenth of all places that they may: the page says that it has no connection, and has one once a place is free."""
    strangers = server.hold(100)
    page.type("name", "vera")
    page.type("token", "vera-example")
    page.press("sign-in-button")
    holds("where there is no room for one stranger more the page says that nothing was sent", page.shows("There is no connection to the server", "#notices"))
    strangers[0].close()
    page.press("sign-in-button")
    until("vera is signed in", lambda: page.find("as-of"))
    holds("and signs in once a place is free", page.shows("Signed in as vera", "#top"))
    for stranger in strangers[1:]:
        stranger.close()
    page.press("sign-out")


@part
def connections(server):
    """Pages that are looked at hold no place while nothing is asked."""
    def held():
        ports = [line.split()[1:4] for line in pathlib.Path("/proc/net/tcp").read_text().splitlines()[1:]]
        return sum(1 for local, _, state in ports if int(local.split(":")[1], 16) == server.port and state == "01")
    holds("there are moments at which no page holds a place", until("no connection is open", lambda: held() == 0, 15) if held() else True)


@part
def over_tls(nginx, server):
    number = server.reply("vera", {"ask": "status"})["status"]["round"]
    if Browser.is_webkit:
        raise LeftOut("WebKit's driver maps no other host to this computer")
    page = Browser(f"https://bridge.example.org:{nginx.tls_port}/")
    page.sign_in("vera")
    holds("with RUNNING's configuration the page works over TLS", page.shows(f"Round {number} of 7"))
    head = page.script("return fetch('index.html').then((reply) => [...reply.headers.entries()])")
    check("the headers that RUNNING names are sent", ["no-cache", "frame-ancestors 'none'", "no-referrer", "nosniff"],
          [dict(head).get(name) for name in ("cache-control", "content-security-policy", "referrer-policy", "x-content-type-options")])
    page.press("sign-out")

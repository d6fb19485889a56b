"""Cards: signing in by a card's address and by its QR code, staying signed in, and a player who comes without a card."""
import html
import os
import pathlib
import stat
import subprocess
import sys

from page_browser import Browser, Keys
from page_checks import LeftOut, check, holds, part
from page_devices import TOP, until

QR_CODES = TOP / "client" / "qr_codes.py"
STORED = "return JSON.stringify([Object.entries(sessionStorage), Object.entries(localStorage), document.cookie])"


def open_at(page, address):
    """As if the address were opened from elsewhere: no page before it is left in the tab."""
    page.here().get("about:blank")
    page.here().get(address)


@part
def by_address(page, nginx):
    address = f"http://127.0.0.1:{nginx.port}/"
    open_at(page, f"{address}#anna:anna-example")
    holds("a card's address signs in", page.shows("Signed in as anna", "#top"))
    check("and nothing of it is left in the address", address, page.script("return location.href"))
    holds("the session is shown", page.shows("Tables in round"))
    check("the token is stored nowhere", False, "anna-example" in page.script(STORED))
    page.here().refresh()
    until("the page is there again", lambda: page.find("name"))
    check("a reload asks for the token again", "Sign in", page.text("#heading"))
    page.here().back()
    until("the page before is there", lambda: page.script("return location.href") != address)
    check("no way back leads to the token", "about:blank", page.script("return location.href"))
    open_at(page, f"{address}#anna:anna-exampl")
    holds("a card that isn't known is refused in words", page.shows("aren't known", "#refusal"))
    check("and off the address too", address, page.script("return location.href"))
    open_at(page, f"{address}#anna:")
    holds("a card that can't be read is told", page.shows("address can't be read", "#refusal"))
    page.script("location.hash = 'vera:vera-example'")
    holds("a card that comes while the page is open signs in too", page.shows("Signed in as vera", "#top"))
    page.script("location.hash = 'anna:anna-example'")
    holds("and the next one in its place", page.shows("Signed in as anna", "#top"))
    check("both are off the address", address, page.script("return location.href"))
    page.press("sign-out")


@part
def stays(page, nginx, server):
    open_at(page, f"http://127.0.0.1:{nginx.port}/")
    until("the form is there", lambda: page.find("stays"))
    check("nobody stays signed in unasked", False, page.script("return document.getElementById('stays').checked"))
    page.press("stays")
    page.sign_in("anna")
    page.go("ranking")
    until("the ranking is there", lambda: page.find("csv-ranking"))
    page.here().refresh()
    holds("who asked for it is signed in after a reload", page.shows("Signed in as anna", "#top"))
    holds("where she was", page.shows("Ranking", "#heading"))
    holds("the token is in the tab's storage, as the page says", "anna-example" in page.script("return JSON.stringify(Object.entries(sessionStorage))"))
    check("and in no other", False, "anna-example" in page.script("return JSON.stringify([Object.entries(localStorage), document.cookie])"))
    server.stop()
    page.here().refresh()
    holds("while the server is away she isn't", page.shows("There is no connection", "#refusal"))
    server.start()
    holds("and is once it is back, by itself", page.shows("Signed in as anna", "#top"))
    page.press("sign-out")
    check("signing out removes it", False, "anna-example" in page.script(STORED))
    page.here().refresh()
    until("the page is there again", lambda: page.find("name"))
    check("and a reload asks again", "Sign in", page.text("#heading"))
    page.sign_in("anna")
    page.press("stays-on")
    holds("it can be asked for later", "anna-example" in page.script(STORED))
    page.press("stays-on")
    check("and be taken back", False, "anna-example" in page.script(STORED))
    page.script("Storage.prototype.setItem = () => { throw new Error('it is full'); };")
    page.press("stays-on")
    holds("where a browser keeps nothing that is told", page.shows("lets the page keep nothing", "#refusal"))
    check("and what was ticked is cleared", False, page.script("return document.getElementById('stays-on').checked"))
    page.press("sign-out")


def written_cards(folder, links):
    """As `bridge_server prepare` writes them, as far as the codes go."""
    path = pathlib.Path(folder, "cards.html")
    cards = "\n".join(f'<section><h2>Card &amp; "{number}"</h2><p class="code" data-link="{html.escape(link)}">no QR code</p></section>'
                      for number, link in enumerate(links))
    path.write_text(f"<!doctype html>\n<html><head><title>Cards</title></head><body>\n{cards}\n</body></html>\r\n", encoding="utf-8", newline="")
    path.chmod(0o600)
    return path


def draws(folder, **more):
    return subprocess.run([sys.executable, QR_CODES, folder], capture_output=True, text=True, check=False, **more)


def decoded(page, number, folder):
    """What a reader of QR codes makes of the picture of a card's code."""
    picture = pathlib.Path(folder, f"code_{number}.png")
    picture.write_bytes(page.here().find_elements("css selector", "p.code svg")[number].screenshot_as_png)
    return subprocess.run(["zbarimg", "--quiet", "--raw", picture], capture_output=True, text=True, check=False).stdout.strip()


@part
def by_code(page, nginx, folder):
    folder = pathlib.Path(folder, "prepared")
    folder.mkdir()
    address = f"http://127.0.0.1:{nginx.port}/"
    links = [f"{address}#anna:anna-example", f"{address}?server=/session&x=\"1\"#ben:abcd-efgh-jkmn-pqrs-2345"]
    path = written_cards(folder, links)
    before = path.read_bytes()
    missing = draws(folder, env={**os.environ, "PATH": "/nowhere"})
    check("without qrencode that is said, and nothing is changed", [1, True, before],
          [missing.returncode, "qrencode isn't installed" in missing.stderr, path.read_bytes()])
    check("it draws a code a card", [0, f"2 QR codes are in {path}.\n"], [(made := draws(folder)).returncode, made.stdout])
    after = path.read_bytes().decode()
    wanted = before.decode().split("no QR code")
    check("the rest of the page is as it was", [wanted[0], wanted[-1]], [after.split("<svg")[0], after.split("</svg>")[-1]])
    check("so are its permissions", 0o600, stat.S_IMODE(path.stat().st_mode))
    check("drawn anew it is the same", [0, after], [draws(folder).returncode, path.read_bytes().decode()])
    check("nothing else is in the folder", ["cards.html"], [each.name for each in folder.iterdir()])
    page.here().get(path.as_uri())
    until("the codes are there", lambda: page.here().find_elements("css selector", "p.code svg"))
    if page.is_webkit:
        raise LeftOut("WebKit's driver makes no picture of a code that can be read")
    found = [decoded(page, number, folder) for number in range(2)]
    check("each code is its card's address", links, found)
    open_at(page, found[0])
    holds("and signs in", page.shows("Signed in as anna", "#top"))
    page.press("sign-out")
    pathlib.Path(folder, "cards.html").write_text("<p>nothing</p>")
    none = draws(folder)
    check("a page without a place for a code is told", [1, True], [none.returncode, "no card with a place" in none.stderr])
    check("and so is a folder without cards", 1, draws(folder / "elsewhere").returncode)


@part
def walk_in(page, server):
    """A substitute for rosa: by dora, who directs and administers."""
    page.sign_in("dora")
    page.go("director")
    page.type("walk-in-shown", "Clara Weiß")
    page.choose("walk-in-pair", "EW1")
    page.choose("walk-in-place", "E")
    holds("it is told who loses the seat", page.shows("rosa sits there now", "#walk-in-leaves"))
    page.press("walk-in")
    token = until("the card is there", lambda: page.text("#card-token"))
    check("with a name for signing in", "clara", page.text("#card-name"))
    status = server.reply("dora", {"ask": "status"})["status"]
    check("the server has the seat", [["clara", "EW1", "E"]], [seat for seat in status["seats"] if seat[1:] == ["EW1", "E"]])
    check("and the role", ["Contestant"], dict(server.reply("dora", {"ask": "accounts"})["accounts"]["users"])["clara"])
    check("the token is stored nowhere", False, token in page.script(STORED))
    if not page.is_webkit:
        page.devtools("Emulation.setEmulatedMedia", media="print")
        page.script("document.body.classList.add('prints-card')")
        seen = page.script("""const card = document.getElementById("card-made");
            return [...document.querySelectorAll("main *")].filter((each) => each.getClientRects().length > 0 && !card.contains(each) && !each.contains(card))
                .map((each) => each.tagName)""")
        check("what is printed is the card alone", [], seen)
        holds("on one page", page.script("return document.documentElement.scrollHeight <= Math.max(innerHeight, 900)"))
        page.script("document.body.classList.remove('prints-card')")
        page.devtools("Emulation.setEmulatedMedia", media="")
    page.press("forget-card")
    check("put away it is off the page", False, token in page.script("return document.documentElement.outerHTML"))
    page.press("sign-out")
    page.type("name", "Clara")
    page.type("token", token.upper().replace("-", " "))
    page.keys(Keys.ENTER)
    holds("she signs in, though she types capitals and blanks", page.shows("You sit in EW1, East."))
    page.press("sign-out")
    back = [{"cmd": "Unseat", "name": "clara"}, {"cmd": "Seat", "name": "rosa", "pair": "EW1", "place": "E"}]
    check("and rosa sits there again", ["ok"] * 2, server.reply("dora", {"do": back})["answers"])


def cards(address, nginx, server, folder):
    server.stop()
    server.start()
    page = Browser(address)
    by_address(page, nginx)
    stays(page, nginx, server)
    by_code(page, nginx, folder)
    open_at(page, address)
    walk_in(page, server)

"""How the page is laid out, and whether it can be used by the keyboard, by a thumb, by a screen reader and on paper."""
import base64
import re
import time

from page_browser import Keys
from page_checks import check, holds, part
from page_devices import until

NAMES = """
const all = (selector) => [...document.querySelectorAll(selector)];
const found = [];
const expect = (good, what, each) => { if (!good) found.push(`${what}: ${each.id || each.tagName}`); };
for (const each of all("input, select, textarea")) {
    expect(each.labels?.[0]?.textContent.trim() || each.getAttribute("aria-label"), "no label", each);
}
for (const each of all("button, a, summary")) expect(each.textContent.trim() || each.getAttribute("aria-label"), "no text", each);
for (const each of all("nav")) expect(each.getAttribute("aria-label"), "no name", each);
for (const each of all("table")) {
    expect(each.caption?.textContent, "no caption", each);
    expect(each.querySelector("th[scope=col]") && each.querySelector("tbody th[scope=row]"), "no heads", each);
}
for (const each of all("[aria-describedby]")) expect(document.getElementById(each.getAttribute("aria-describedby")), "describes nothing", each);
for (const selector of ["main", "h1", "header#top", "footer#foot", "html[lang]", "#refusal[role=alert]", "#announcements[role=status]", "a.skip"]) {
    if (all(selector).length !== 1) found.push(`not one ${selector}`);
}
const ids = all("[id]").map((each) => each.id);
for (const id of new Set(ids)) if (ids.filter((other) => other === id).length > 1) found.push(`twice: ${id}`);
return found;
"""

# The contrast of WCAG 2: of each text that is seen, against the grounds behind it down to the first that nothing shines through.
CONTRAST = """
const numbers = (text) => text.match(/[\\d.]+/g).map(Number);
const linear = (part) => part <= 0.03928 ? part / 12.92 : ((part + 0.055) / 1.055) ** 2.4;
const light = ([r, g, b]) => 0.2126 * linear(r / 255) + 0.7152 * linear(g / 255) + 0.0722 * linear(b / 255);
const ground = (each) => {
    const layers = [];
    for (let at = each; at && (layers[0]?.[3] ?? 0) < 1; at = at.parentElement) {
        const [r, g, b, opacity = 1] = numbers(getComputedStyle(at).backgroundColor);
        layers.unshift([r, g, b, opacity]);
    }
    const over = (under, [r, g, b, opacity]) => [r, g, b].map((part, index) => part * opacity + under[index] * (1 - opacity));
    return layers.reduce(over, [255, 255, 255]);
};
const faint = [];
for (const each of document.querySelectorAll("body *")) {
    const own = [...each.childNodes].some((node) => node.nodeType === 3 && node.data.trim());
    if (!own || each.closest("[aria-disabled=true], .unseen, .skip, option, noscript") || !each.getClientRects().length) continue;
    const [front, back] = [light(numbers(getComputedStyle(each).color)), light(ground(each))];
    const ratio = (Math.max(front, back) + 0.05) / (Math.min(front, back) + 0.05);
    if (ratio < 4.5) faint.push(`${each.tagName} ${each.className} ${ratio.toFixed(2)}`);
}
return [...new Set(faint)];
"""

SMALL = """
const widthOf = (each) => (each.matches(".boards a") ? 43.5 : 36);
const small = (each) => each.getBoundingClientRect().height < 43.5 || each.getBoundingClientRect().width < widthOf(each);
return [...document.querySelectorAll("button, nav a, .tile, select, .board-list a, .table-grid a, .room a, .awaited a, .boards a")]
    .filter((each) => each.getClientRects().length && small(each)).map((each) => each.id || each.className);
"""


CUT_WORDS = """
return [...document.querySelectorAll("button, a, summary, label, h1, h2, h3")]
    .filter((each) => each.getClientRects().length && each.scrollWidth > each.clientWidth + 1 && getComputedStyle(each).overflowX !== "visible")
    .map((each) => each.id || each.textContent);
"""


@part
def laid_out(window, routes):
    """On two phones, a tablet and a desk: nothing is wider than the window, all has a name, and is seen and met by a thumb."""
    for wanted in (320, 390, 820, 1366):
        pixels = window.width(wanted)
        for route in routes:
            window.go(route)
            time.sleep(0.5)
            name = f"{route} at {pixels} pixels"
            check(f"{name}: no wider than the window", pixels, window.script("return Math.max(document.documentElement.scrollWidth, innerWidth)"))
            check(f"{name}: fields, buttons, tables and landmarks have names", [], window.script(NAMES))
            check(f"{name}: each text is seen against its ground", [], window.script(CONTRAST))
            if pixels < 600:
                check(f"{name}: a thumb meets what is to be pressed", [], window.script(SMALL))


# Opens a view, and looks at what of it is in the window in the frame that is drawn first, and where that is once all of it is there.
OPENED = """
const [hash, isPrinted, done] = arguments;
const main = document.querySelector("main");
const whereIs = (each) => { const { left, top } = each.getBoundingClientRect(); return [left, top]; };
addEventListener("hashchange", () => requestAnimationFrame(() => {
    if (isPrinted) {
        dispatchEvent(new Event("beforeprint"));
        return void done([main.matches(".begun"), main.querySelectorAll("*").length]);
    }
    const first = [...main.querySelectorAll("*")].map((each) => [each, whereIs(each)]);
    const isMoved = ([each, [left, top]]) => top < innerHeight && each.isConnected && whereIs(each).some((at, index) => Math.abs(at - [left, top][index]) > 0.5);
    const told = () => {
        if (main.matches(".begun")) return void setTimeout(told, 10);
        done([first.length, main.querySelectorAll("*").length, first.filter(isMoved).map(([each]) => `${each.tagName} ${each.id || each.textContent}`)]);
    };
    told();
}), { once: true });
location.hash = hash;
"""
MOST_FIRST = 135  # the four hands of a board, which stand together, and what is above them


@part
def drawn_from_the_top(window, routes):
    """A view is opened with what a phone's window holds; nothing of it moves when the rest comes, and nothing lacks on paper."""
    for wanted in (390, 1000):
        window.width(wanted)
        for route in routes:
            for each in (route, "session" if route != "session" else "ranking", route):  # the first time the server may still have to answer
                first, whole, moved = window.here().execute_async_script(OPENED, f"#/{each}", False)
            check(f"{route} at {wanted} pixels: what is drawn first stays where it is", [], moved)
            holds(f"{route} at {wanted} pixels: it is no more than a phone's window holds", first <= MOST_FIRST)
            if whole > MOST_FIRST:
                window.go("boards")
                check(f"{route}: printed at once it is whole", [False, whole], window.here().execute_async_script(OPENED, f"#/{route}", True))
    window.width(1000, 900)


@part
def enlarged(window, routes):
    """At 200 %: a desk's window by the browser's zoom, which leaves half of its pixels, and by letters twice as large alone."""
    for what, pixels, size in (("zoomed to 200 %", 1366 // 2, ""), ("with letters of 200 %", 1366, "200%")):
        pixels = window.width(pixels)
        for route in routes:
            window.go(route)
            window.script("document.documentElement.style.fontSize = arguments[0]", size)
            time.sleep(0.5)
            check(f"{route} {what}: no wider than the window", pixels, window.script("return Math.max(document.documentElement.scrollWidth, innerWidth)"))
            check(f"{route} {what}: no word of a button or a link is cut", [], window.script(CUT_WORDS))
    window.script("document.documentElement.style.fontSize = ''")
    window.width(1000, 900)


@part
def keyboard_player(page):
    """A player's way to a denial and its check, by the keyboard alone."""
    page.go("session")
    holds("My boards is reached by Tab", page.tab_to("nav-boards"))
    page.keys(Keys.ENTER)
    until("the boards are there", lambda: page.find("own-board-7"))
    check("the focus goes to the heading", "heading", page.script("return document.activeElement.id"))
    holds("a board is reached by Tab", page.tab_to("own-board-7"))
    page.keys(Keys.ENTER)
    until("the denial is there", lambda: page.find("check-board-0-7"))
    holds("the check is reached by Tab", page.tab_to("check-board-0-7"))
    page.keys(Keys.SPACE)
    until("the check is open", lambda: page.find("check-board-0-7-facts"))
    check("the button says that it is open", "true", page.script("return document.getElementById('check-board-0-7').ariaExpanded"))
    check("and keeps the focus", "check-board-0-7", page.script("return document.activeElement.id"))
    nodes = page.devtools("Accessibility.getFullAXTree")["nodes"]
    roles = {node["role"]["value"] for node in nodes if not node.get("ignored")}
    check("a screen reader finds the landmarks", set(), {"banner", "navigation", "main", "heading", "status"} - roles)


# What a narrow window cuts off within a table, though the page is no wider: the last cell of a row that is to be seen without scrolling.
CUT = """
const [selector, last] = arguments;
return [...document.querySelectorAll(`${selector} tr`)].map((row) => [row.cells[last], row.closest(".scrolls")])
    .filter(([cell, region]) => cell && cell.getBoundingClientRect().right > region.getBoundingClientRect().right + 0.5)
    .map(([cell]) => cell.textContent);
"""


def play_fits(page, route):
    """A board with a play, on phones."""
    for wanted in (320, 360, 375, 390):
        pixels = page.width(wanted)
        page.go(route)
        until("the play is there", lambda: page.rows("table.play"))
        check(f"a board with a play is no wider than {pixels} pixels", pixels, page.script("return document.documentElement.scrollWidth"))
        check(f"West isn't cut at {pixels} pixels", [], page.script(CUT, "table.play", 4))


@part
def narrow(director, player):
    """On a phone: a board with a play and its percentages, and the own results."""
    play_fits(director, "board/13/5")
    check("each row's percentages are seen at 390 pixels", [], director.script(CUT, "table.traveller", 7))
    director.width(1000)
    player.width(390)
    player.go("papers")
    player.press("paper-results")
    until("the card is there", lambda: player.rows("table.score-card"))
    check("and those of the own results", [], player.script(CUT, "table.score-card", 5))
    player.width(1000)


# Words that stand in more than one line.
BROKEN = """
const found = [];
const walker = document.createTreeWalker(document.querySelector(".paper"), NodeFilter.SHOW_TEXT);
while (walker.nextNode()) {
    for (const word of walker.currentNode.data.matchAll(/\\S+/gu)) {
        const range = document.createRange();
        range.setStart(walker.currentNode, word.index);
        range.setEnd(walker.currentNode, word.index + word[0].length);
        const lines = new Set([...range.getClientRects()].filter((box) => box.width > 0).map((box) => Math.round(box.top)));
        if (lines.size > 1) found.push(word[0]);
    }
}
return found;
"""


PAPER = 688  # the 182 mm of A4 within its margins, in pixels


def pages_of(window):
    """How many pages of A4 the browser prints."""
    size = {"paperWidth": 210 / 25.4, "paperHeight": 297 / 25.4, "preferCSSPageSize": True}
    printed = base64.b64decode(window.devtools("Page.printToPDF", **size)["data"])
    return len(re.findall(rb"/Type\s*/Page\b", printed))


@part
def on_paper(window):
    window.go("papers")
    for kind, count in (("pair_cards", 16), ("table_cards", 8), ("travellers", 24), ("records", 24)):
        window.press(f"paper-{kind}")
        until(f"{kind} are there", lambda: len(window.here().find_elements("css selector", f".paper-{kind} .sheet")) == count)
    until("all of it is there", lambda: window.find("print"))
    check("24 records are printed on four pages", 4, pages_of(window))
    window.devtools("Emulation.setEmulatedMedia", media="print")
    window.width(PAPER)
    check("no word of a record is broken", [], window.script(BROKEN))
    window.width(1000)
    seen = window.script("return ['#top', '#foot', '.no-print', '.paper'].map((each) => document.querySelector(each).getClientRects().length > 0)")
    check("paper has the records alone", [False, False, False, True], seen)
    window.devtools("Emulation.setEmulatedMedia", media="")
    window.press("paper-travellers")
    until("all of it is there", lambda: window.find("print") and window.rows("table.traveller"))
    window.devtools("Emulation.setEmulatedMedia", media="print")
    window.width(PAPER)
    check("no matchpoints of a traveller are cut off on paper", [], window.script(CUT, "table.traveller", 9))
    window.width(1000)
    window.devtools("Emulation.setEmulatedMedia", media="")

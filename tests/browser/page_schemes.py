"""The page on a dark screen, and where the user's own colours are forced."""
import time

from page_checks import check, holds, part
from page_devices import until
from page_layout import CONTRAST, NAMES

SCHEMES = (("dark", "prefers-color-scheme", "dark"), ("forced colours", "forced-colors", "active"))
GROUNDS = """const groundOf = (id) => getComputedStyle(document.querySelector(`label[for="${id}"] span`)).backgroundColor;
return arguments[0].map(groundOf)"""
LINKS = """return [...document.querySelectorAll("nav a")].map((link) => [link.ariaCurrent === "page", getComputedStyle(link).backgroundColor])"""


def emulate(window, *feature):
    features = [{"name": feature[0], "value": feature[1]}] if feature else []
    window.devtools("Emulation.setEmulatedMedia", media="", features=features)


@part
def schemes(window, route, form, routes):
    """A form's chosen tiles are told from the others, the present view's link from the other links, and each text is seen."""
    for name, feature, value in SCHEMES:
        emulate(window, feature, value)
        window.go(route)
        until("the form is there", lambda: window.find(f"{form}-level-4"))
        for identity in (f"{form}-level-4", f"{form}-strain-H"):
            window.press(identity)
        time.sleep(0.5)  # colours change within a moment
        chosen = window.script(GROUNDS, [f"{form}-level-4", f"{form}-strain-H"])
        others = window.script(GROUNDS, [f"{form}-level-3", f"{form}-strain-S"])
        holds(f"{name}: what is chosen has a ground of its own", set(chosen).isdisjoint(others))
        links = window.script(LINKS)
        holds(f"{name}: so has the link of the present view", {ground for is_present, ground in links if is_present}.isdisjoint(
            {ground for is_present, ground in links if not is_present}))
        for each in (None, *routes):
            if each:
                window.go(each)
                time.sleep(0.5)
            check(f"{name}: {each or route}: each text is seen against its ground", [], window.script(CONTRAST))
    emulate(window)


@part
def seen_in(scheme, window, routes):
    name, *feature = scheme
    emulate(window, *feature)
    for route in routes:
        window.go(route)
        time.sleep(0.5)
        check(f"{name}: {route}: each text is seen against its ground", [], window.script(CONTRAST))
        check(f"{name}: {route}: fields, buttons, tables and landmarks have names", [], window.script(NAMES))
    if name == "dark":
        ground = window.script("return getComputedStyle(document.body).backgroundColor.match(/\\d+/g).map(Number)")
        holds("and the ground is dark", max(ground) < 60)
    emulate(window)

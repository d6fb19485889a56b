"""How the page begins: on a slow network, and where a part of it can't be loaded."""
from page_browser import Browser
from page_checks import check, holds, part
from page_devices import until

SLOW = {"offline": False, "latency": 150, "downloadThroughput": 200_000, "uploadThroughput": 93_750}
FAST = {"offline": False, "latency": 0, "downloadThroughput": -1, "uploadThroughput": -1}


def open_anew(page, address):
    """As for the first time: nothing is kept from before."""
    page.devtools("Network.enable")
    page.devtools("Network.setCacheDisabled", cacheDisabled=True)
    page.here().get("about:blank")
    page.here().get(address)
    until("the form is there", lambda: page.find("name"))


@part
def slow_network(page, address):
    page.devtools("Network.emulateNetworkConditions", **SLOW)
    open_anew(page, address)
    check("the form is there before the rest of the page", None, page.find("letters"))
    check("who signs in is at the name", "name", page.script("return document.activeElement.id"))
    page.press("settings-summary")
    page.type("name", "ann")
    until("the rest is here", lambda: page.find("letters"))
    check("what was typed and opened meanwhile stays", ["ann", "name", True], page.script(
        "return [document.getElementById('name').value, document.activeElement.id, document.getElementById('settings').open]"))
    open_anew(page, address)
    page.type("name", "anna")
    page.type("token", "anna-example")
    page.press("sign-in-button")
    holds("who is quicker than the network is signed in once the rest is here", page.shows("Signed in as anna", "#top"))
    page.press("sign-out")
    page.devtools("Network.emulateNetworkConditions", **FAST)


@part
def part_missing(page, address):
    page.devtools("Network.setBlockedURLs", urls=["*/store.js"])
    open_anew(page, address)
    holds("a part that can't be loaded is told", page.shows("couldn't be loaded", "#refusal"))
    page.devtools("Network.setBlockedURLs", urls=[])
    page.press("load-again")
    until("the page is there", lambda: page.find("letters"))
    page.sign_in("anna")
    holds("and loaded again the page is whole", page.shows("Signed in as anna", "#top"))
    page.press("sign-out")


def beginning(address):
    page = Browser(address)
    slow_network(page, address)
    part_missing(page, address)

#!/usr/bin/env python3
"""How long the page takes on a slow network and a slow device, and what it asks for; a line a figure.

    /usr/bin/python3 benches/page_times.py crates/bridge_server/out/bridge_server [loads, else 5]

It starts the server with the example session, nginx with the configuration of docs/RUNNING.md before it, and a headless Chromium, whose
devtools slow the network to 150 ms a round trip and 1.6 Mbit/s, and then the processor to a sixth. A load is told from its begin to the
first picture of the form for signing in, and to when the page could sign in, with nothing kept from before; a tap from the click to the end of the frame that shows its effect, of another
view too to the end of the frame with which all of it is there; and beside it what the page's thread worked for all of it at full speed, which other programs on the machine hardly change.
What it needs is what tests/browser/page_session.py needs.
"""
import pathlib
import statistics
import sys
import tempfile
import time

sys.path[:0] = [str(pathlib.Path(__file__).resolve().parent.parent / "tests" / folder) for folder in ("browser",)]
from page_browser import Browser  # noqa: E402
from page_devices import Nginx, Server, until  # noqa: E402
from page_hostile import Hostile  # noqa: E402

SLOW_NETWORK = {"offline": False, "latency": 150, "downloadThroughput": 200_000, "uploadThroughput": 93_750}
FAST_NETWORK = {"offline": False, "latency": 0, "downloadThroughput": -1, "uploadThroughput": -1}
# what was asked for until the form was drawn, and until the page could sign in: then it draws its foot
LOADED = """const done = arguments[0];
const asked = (end) => {
    const files = [...performance.getEntriesByType("navigation"), ...performance.getEntriesByType("resource")].filter((file) => file.responseEnd <= end);
    return [end, files.length, files.reduce((sum, file) => sum + file.transferSize, 0)];
};
const told = () => {
    const painted = performance.getEntriesByName("first-contentful-paint")[0];
    if (!painted || !document.getElementById("name") || !document.getElementById("letters")) return void setTimeout(told, 20);
    done([asked(painted.startTime), asked(performance.now())]);
};
told();"""
# a frame ends with its painting: a message that is posted in it is heard after that; another view is drawn once the page has heard of it
TAPPED = """const [id, done] = arguments;
const [begun, hash] = [performance.now(), location.hash];
const afterFrame = (act) => requestAnimationFrame(() => {
    const heard = new MessageChannel();
    const isWhole = !document.querySelector("main.begun");
    heard.port1.onmessage = () => act(performance.now() - begun, isWhole);
    heard.port2.postMessage(null);
});
const drawn = () => afterFrame((first, isWhole) => {
    const later = (passed, isWhole) => (isWhole ? done([first, passed]) : afterFrame(later));
    later(first, isWhole);
});
document.getElementById(id).click();
if (location.hash === hash) drawn();
else addEventListener("hashchange", drawn, { once: true });"""
TAPS = ("enter-level-4", "enter-strain-H", "enter-by-S", "enter-over-0", "enter-doubled-1", "enter-over--1", "enter-level-3", "enter-strain-N")


def conditions(driver, network, slower):
    driver.execute_cdp_cmd("Network.emulateNetworkConditions", network)
    driver.execute_cdp_cmd("Emulation.setCPUThrottlingRate", {"rate": slower})


def loads(driver, address, how, count):
    driver.execute_cdp_cmd("Network.enable", {})
    driver.execute_cdp_cmd("Network.setCacheDisabled", {"cacheDisabled": True})
    for what, network in (("on this computer", FAST_NETWORK), ("150 ms, 1.6 Mbit/s", SLOW_NETWORK)):
        conditions(driver, network, 1)
        found = []
        for _ in range(count):
            driver.get("about:blank")
            driver.get(address)
            found.append(driver.execute_async_script(LOADED))
        for until_then, each in zip(("the form is drawn", "all of it is here"), zip(*found)):
            times = sorted(time_taken for time_taken, _, _ in each)
            print(f"load, {how}, {what}, until {until_then}: {statistics.median(times):.0f} ms ({times[0]:.0f} to {times[-1]:.0f}), "
                  f"{each[0][1]} requests, {each[0][2]} bytes", flush=True)


def sign_in(page, driver):
    conditions(driver, SLOW_NETWORK, 1)
    page.type("name", "dora")
    page.type("token", "dora-example")
    begun = time.monotonic()
    page.press("sign-in-button")
    until("dora is signed in", lambda: page.find("as-of"))
    print(f"sign in, 150 ms, 1.6 Mbit/s: {(time.monotonic() - begun) * 1000:.0f} ms", flush=True)


def worked(driver):
    found = driver.execute_cdp_cmd("Performance.getMetrics", {})["metrics"]
    return 1000 * next(each["value"] for each in found if each["name"] == "TaskDuration")


def measured(driver, what, acts, before=lambda: None):
    """Each act twice over: how long it takes on a slow processor, and what the thread works for it on a fast one."""
    times, works = [], []
    for slower in (6, 1):
        conditions(driver, FAST_NETWORK, slower)
        for act in acts[slower > 1]:
            before()
            begun = worked(driver)
            took = driver.execute_async_script(TAPPED, act)
            if slower > 1:
                times.append(took)
            else:
                works.append(worked(driver) - begun)
    first, whole = zip(*times)
    all_of_it = f", all of it after {statistics.median(whole):.0f} ms" if what.startswith("to the view") else ""
    print(f"{what}: {statistics.median(first):.0f} ms ({min(first):.0f} to {max(first):.0f}){all_of_it}, and {statistics.median(works):.1f} ms of "
          f"work at full speed ({min(works):.1f} at least)", flush=True)


def taps(page, driver):
    """Of a result's form, and from one view to another, with a processor six times slower."""
    driver.execute_cdp_cmd("Performance.enable", {"timeDomain": "threadTicks"})
    page.width(390, 844)
    page.go("scorer/1/1")
    until("the form is there", lambda: page.find("enter-level-1"))
    time.sleep(1)
    measured(driver, "tap in a result's form", (TAPS * 3, TAPS * 3))
    page.press("enter-play-summary")
    until("the cards are there", lambda: page.find("enter-card-SA"))
    time.sleep(1)
    cards = [f"enter-card-{suit}{rank}" for rank in "AKQJT987" for suit in "SHDC"]
    measured(driver, "tap on a card of a play", (cards[:16], cards[16:]))

    def elsewhere():
        page.go("boards")
        time.sleep(0.5)
    for view in ("session", "ranking", "director", "accounts", "papers"):
        page.go(view)
        time.sleep(1)  # so that what it shows is known: a tap that is followed at once by the next view asks for nothing
        measured(driver, f"to the view {view}", ([f"nav-{view}"] * 15, [f"nav-{view}"] * 5), elsewhere)


def main():
    program, count = sys.argv[1], int(sys.argv[2]) if len(sys.argv) > 2 else 5
    server, hostile = Server(program, 0), Hostile()
    nginx = Nginx(server.port, hostile.port)
    try:
        for each in (server, hostile, nginx):
            each.start()
        with tempfile.TemporaryDirectory() as downloads:
            Browser.open(downloads)
            address = f"http://127.0.0.1:{nginx.port}/"
            page = Browser(address)
            driver = page.here()
            loads(driver, f"https://bridge.example.org:{nginx.tls_port}/", "TLS and HTTP/2", count)
            loads(driver, address, "HTTP/1.1", count)
            sign_in(page, driver)
            taps(page, driver)
    finally:
        Browser.close()
        for each in (nginx, hostile, server):
            each.stop()


if __name__ == "__main__":
    main()

"""A window of a browser, for tests/browser/page_session.py: what WebDriver is asked, in Chromium and in WebKit."""
import contextlib
import os
import pathlib
import subprocess
import time

from page_checks import LeftOut
from page_devices import WAIT, until
from selenium import webdriver
from selenium.common.exceptions import ElementNotInteractableException, JavascriptException, StaleElementReferenceException, WebDriverException
from selenium.webdriver.chrome.service import Service
from selenium.webdriver.common.action_chains import ActionChains
from selenium.webdriver.common.by import By
from selenium.webdriver.common.keys import Keys
from urllib3.exceptions import HTTPError

# what a press does in a window is noted, so that one that the driver lost can be told from one that the page didn't hear
BEFORE_PRESS = """
if (!globalThis.eventsOfPress) {
    for (const type of ["mousedown", "mouseup", "click"]) addEventListener(type, (event) => eventsOfPress.push([type, event.target.id]), true);
}
globalThis.eventsOfPress = [];
arguments[0].scrollIntoView({block: "center"});"""


class Browser:
    """A window of one headless Chromium, or of one WebKit; each has a page, and a token, of its own."""
    driver = None
    is_webkit = False
    screen = None

    @classmethod
    def open(cls, downloads):
        (cls.open_webkit if cls.is_webkit else cls.open_chromium)(downloads)

    @classmethod
    def close(cls):
        with contextlib.suppress(WebDriverException, HTTPError, OSError):  # one that has died says nothing more
            if cls.driver:
                cls.driver.quit()
        if cls.screen:
            cls.screen.terminate()
            cls.screen.wait()

    @classmethod
    def has_died(cls):
        """Whether a process of the browser's ended by itself: a window that is there runs no script."""
        try:
            for handle in cls.driver.window_handles:
                cls.driver.switch_to.window(handle)
                cls.driver.execute_script("return 1")
        except (WebDriverException, HTTPError, OSError):
            return True
        return False

    @classmethod
    def open_webkit(cls, downloads):
        """Debian's webkit2gtk-driver, on a screen of Xvfb's, which tells the number of one that is free once it is there."""
        told, tells = os.pipe()
        words = ["Xvfb", "-displayfd", str(tells), "-screen", "0", "1400x1200x24"]
        cls.screen = subprocess.Popen(words, pass_fds=[tells], stdin=subprocess.DEVNULL, stderr=subprocess.DEVNULL)
        os.close(tells)
        with os.fdopen(told) as number:
            display = f":{number.readline().strip()}"
        home = pathlib.Path(downloads, "home")
        (home / ".config").mkdir(parents=True)
        (home / ".config" / "user-dirs.dirs").write_text(f'XDG_DOWNLOAD_DIR="{downloads}"\n')
        # the test is trusted as much as its browser, and may run as root; Mesa's drawing in software has crashed in the thread that composes layers
        os.environ.update(DISPLAY=display, HOME=str(home), WEBKIT_DISABLE_SANDBOX_THIS_IS_DANGEROUS="1", WEBKIT_DISABLE_COMPOSITING_MODE="1")
        options = webdriver.webkitgtk.options.Options()
        [options.binary_location] = [str(path) for path in pathlib.Path("/usr/lib").glob("*/webkit2gtk-4.1/MiniBrowser")]
        options.add_argument("--automation")
        cls.driver = webdriver.WebKitGTK(executable_path="/usr/bin/WebKitWebDriver", options=options)
        cls.driver.set_window_size(1000, 900)
        cls.driver.set_script_timeout(WAIT)

    @classmethod
    def open_chromium(cls, downloads):
        options = webdriver.ChromeOptions()
        for word in ("--headless=new", "--no-sandbox", "--disable-gpu", "--disable-dev-shm-usage", "--window-size=1000,900",
                     "--ignore-certificate-errors", "--disable-background-networking", "--disable-component-update", "--no-first-run",
                     "--host-resolver-rules=MAP * 127.0.0.1"):
            options.add_argument(word)
        options.set_capability("goog:loggingPrefs", {"browser": "ALL"})
        cls.driver = webdriver.Chrome(service=Service("/usr/bin/chromedriver"), options=options)
        cls.driver.set_script_timeout(WAIT)
        cls.driver.execute_cdp_cmd("Browser.setDownloadBehavior", {"behavior": "allow", "downloadPath": str(downloads)})

    def __init__(self, address):
        if len(self.driver.window_handles) > 1 or self.driver.current_url.startswith("http"):
            self.driver.switch_to.new_window("window")
        self.handle = self.driver.current_window_handle
        self.address = address
        self.driver.get(address)
        until("the page is there", lambda: self.driver.find_elements(By.ID, "heading"))

    def here(self):
        if self.driver.current_window_handle != self.handle:
            self.driver.switch_to.window(self.handle)
        return self.driver

    def sign_in(self, name, token=None):
        self.type("name", name)
        self.type("token", token or f"{name}-example")
        self.press("sign-in-button")
        until(f"{name} is signed in", lambda: self.find("as-of"))

    def go(self, route):
        """Opens a view, and waits until the page has heard of it and drawn all of it: else what is pressed next may still be the view's
        before it."""
        self.here().execute_async_script("""const [hash, done] = arguments;
            const drawn = () => (document.querySelector("main.begun") ? setTimeout(drawn, 10) : done());
            if (location.hash === hash) return void drawn();
            addEventListener("hashchange", () => setTimeout(drawn, 0), { once: true });
            location.hash = hash;""", f"#/{route}")

    def find(self, identity):
        try:
            found = self.here().find_elements(By.ID, identity)
        except StaleElementReferenceException:  # WebKit's driver says so of what is drawn anew meanwhile
            return None
        return found[0] if found else None

    def press(self, identity):
        """A click where the button is seen; the page may draw it anew meanwhile. A driver's click of which no event came to the window is said,
        and done again; one that came to something else is the page's, and stays as it was."""
        def pressed():
            try:
                element = self.find(identity)
                self.driver.execute_script(BEFORE_PRESS, element)
                element.click()
                return self.was_heard(identity)
            except (StaleElementReferenceException, ElementNotInteractableException, JavascriptException):
                return False
        until(f"{identity} can be pressed", pressed)

    def was_heard(self, identity):
        """Whether any event of a press came to the window: WebKit's driver has lost one under load."""
        for _ in range(20):
            if not self.is_webkit or self.script("return globalThis.eventsOfPress?.length") != 0:
                return True
            time.sleep(0.1)
        print(f"again   no event of a press of {identity} came to the window", flush=True)
        return False

    def type(self, identity, text):
        def typed():
            try:
                element = self.find(identity)
                element.clear()
                element.send_keys(text)
                return True
            except (StaleElementReferenceException, ElementNotInteractableException, AttributeError):
                return False
        until(f"{identity} can be typed into", typed)

    def choose(self, identity, value):
        until(f"{identity} is there", lambda: self.find(identity))
        self.here().execute_script("""const field = document.getElementById(arguments[0]);
            field.value = arguments[1];
            field.dispatchEvent(new Event("change"))""", identity, value)

    def chosen(self, name):
        """Which of some tiles is chosen, or None."""
        return self.script("return document.querySelector(`[name=${arguments[0]}]:checked`)?.value ?? null", name)

    def denial(self):
        """The rule, the board and the table of the first denial that is shown."""
        return self.script("const {rule, board, table} = document.querySelector('.denial').dataset; return [rule, board, table].map(Number)")

    def text(self, selector="main"):
        """What is seen of an element: asked for at one moment, since the page may draw it anew."""
        return self.script("return document.querySelector(arguments[0])?.innerText ?? ''", selector)

    def script(self, code, *arguments):
        return self.here().execute_script(code, *arguments)

    def shows(self, text, selector="main", seconds=WAIT):
        """Whether a text is shown within some seconds."""
        try:
            return until(text, lambda: text in self.text(selector), seconds)
        except AssertionError:
            return False

    def keys(self, *keys):
        self.here()
        ActionChains(self.driver).send_keys(*keys).perform()

    def tab_to(self, identity, most=90):
        for _ in range(most):
            if self.script("return document.activeElement.id") == identity:
                return True
            self.keys(Keys.TAB)
        return False

    def devtools(self, word, **parameters):
        """Chromium's, for what WebDriver has no word for."""
        if self.is_webkit:
            raise LeftOut(f"WebKit's driver has no {word}")
        return self.here().execute_cdp_cmd(word, parameters)

    def console(self):
        return [] if self.is_webkit else [entry["message"] for entry in self.here().get_log("browser")]

    def width(self, pixels, height=800):
        """Makes the window so wide, and gives what it is then: WebKit's has a least width."""
        if not self.is_webkit:
            self.devtools("Emulation.setDeviceMetricsOverride", width=pixels, height=height, deviceScaleFactor=1, mobile=pixels < 600)
            return pixels
        self.here().set_window_size(pixels, height)
        time.sleep(0.3)
        wide, high = self.script("return [innerWidth, innerHeight]")
        if wide > pixels:
            print(f"left    a width of {pixels}: WebKit's window has {wide} at least", flush=True)
        self.driver.set_window_size(pixels, 2 * height - high)
        time.sleep(0.3)
        return self.script("return innerWidth")

    def hands(self):
        """The four hands as the page shows them, from North on, written as a reply writes them."""
        return self.script("""return ["N", "E", "S", "W"].map((place) => [...document.querySelectorAll(`.hand-${place} dd`)].map((suit) =>
            suit.innerText.replaceAll("10", "T").replace(/\\s|void|—/g, "")).join(".")).join(" ")""")

    def rows(self, selector):
        return self.script("""return [...document.querySelectorAll(arguments[0])].map((row) =>
            [...row.cells].map((cell) => cell.innerText.trim()))""", f"{selector} tbody tr")

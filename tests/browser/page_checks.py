"""How tests/browser/page_session.py counts what it finds."""
import re
import traceback

PASSED, FAILED = [], []
FIVE_CLUBS = {"by": "S", "doubled": 0, "level": 5, "strain": "C", "tricks": 11}  # board 1, nobody vulnerable: 100 + 300
THREE_NO_TRUMP = {"by": "W", "doubled": 1, "level": 3, "strain": "N", "tricks": 7}  # board 4, both vulnerable: 200 + 300 for NS


class OutOfTime(BaseException):
    """No part of the test goes on after it."""


class LeftOut(Exception):
    """What this browser has no way to be asked for: the part ends here, and that is said."""


def check(what, wanted, got):
    (PASSED if wanted == got else FAILED).append(what)
    print(f"ok      {what}" if wanted == got else f"FAILED  {what}\n        wanted {wanted!r}\n        got    {got!r}", flush=True)


def holds(what, found):
    check(what, True, bool(found))


def part(act):
    """A part of the test: where it breaks off, that is a failure, and the next one begins."""
    def run(*arguments):
        try:
            act(*arguments)
        except LeftOut as why:
            print(f"left    the rest of {act.__name__}: {why}", flush=True)
        except Exception as fault:  # a part that breaks off must not end the test before it has cleaned up
            traceback.print_exc()
            check(f"{act.__name__}: ran to its end", "", str(fault).splitlines()[0] if str(fault) else type(fault).__name__)
    return run


def console(windows):
    """What a browser's console says, but that a connection failed, which no page can keep it from saying."""
    found = []
    for window in windows:
        found += window.console()
    return found


def pair_text(status, pair):
    """A pair as the page names it: its players by their names, with the pair behind."""
    shown = dict(status.get("names", []))
    players = " – ".join(shown.get(name, name) for name, at, _ in status["seats"] if at == pair)
    return f"{players} ({pair})" if players else pair


def pair_in(text):
    """The pair that such a text names; any other text is given back."""
    found = re.search(r"(?:^|\()((?:NS|EW)\d+)(?:\)|$)", text)
    return found.group(1) if found else text


def type_result(window, form, result):
    if result == "pass":
        window.press(f"{form}-ended-passed")
        return
    for name, value in (("level", result["level"]), ("strain", result["strain"]), ("by", result["by"]), ("doubled", result["doubled"]),
                        ("over", result["tricks"] - result["level"] - 6)):
        window.press(f"{form}-{name}-{value}")

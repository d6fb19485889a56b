"""Which texts are shown as they are written: names to show, a session's title and its reasons, by docs/SESSION.md ("Texts that are
shown"); and a member's number and a date.
"""
import re

MOST_SHOWN, MOST_NUMBER, MOST_TITLE, MOST_REASON, MOST_REASONS = 64, 16, 100, 200, 99
CONTROLS = {*range(0x20), *range(0x7F, 0xA0)}
# marks that turn the direction of writing: of a part of the text, an override, an isolate, a single mark
TURNS = {*range(0x202A, 0x202F), *range(0x2066, 0x206A), 0x200E, 0x200F, 0x061C}
SEPARATORS = {0x2028, 0x2029}
# Unicode's property White_Space
BLANKS = {*range(0x09, 0x0E), 0x20, 0x85, 0xA0, 0x1680, *range(0x2000, 0x200B), 0x2028, 0x2029, 0x202F, 0x205F, 0x3000}


def is_shown_text(text, most):
    """Whether a text of some sign, and of so many bytes in UTF-8 at most, is one that is shown."""
    signs = [ord(sign) for sign in text]
    return (1 <= len(text.encode()) <= most and not {*signs} & (CONTROLS | TURNS | SEPARATORS)
            and not {signs[0], signs[-1]} & BLANKS)


def is_number(text):
    """Whether a text is a member's number: ASCII letters and digits."""
    return bool(re.fullmatch(f"[A-Za-z0-9]{{1,{MOST_NUMBER}}}", text))


def is_date(text):
    """Whether a text is a date: a year of four digits, a month and a day, with a hyphen between them; no calendar is asked."""
    form = re.fullmatch("[0-9]{4}-([0-9]{2})-([0-9]{2})", text)
    return bool(form) and 1 <= int(form[1]) <= 12 and 1 <= int(form[2]) <= 31

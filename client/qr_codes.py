#!/usr/bin/env python3
"""Puts QR codes on the cards that `bridge_server prepare` wrote.

    python3 client/qr_codes.py FOLDER

In FOLDER/cards.html each card has a paragraph of the class `code` with the card's address in `data-link`. This draws the address there as
a QR code, by Debian's qrencode; the codes are part of the file then, which needs nothing else to be shown or printed. Codes that are
there already are drawn anew. An address has a token: it goes to qrencode over a pipe, and into no file but cards.html, which keeps
its permissions. Where qrencode isn't there, or something else is wrong, that is said, nothing is changed, and the status is 1.
"""
import html
import os
import pathlib
import re
import shutil
import subprocess
import sys
import tempfile

CODE = re.compile(r'(<p class="code" data-link="([^"]*)">).*?(</p>)', re.S)
DRAW = ["qrencode", "-t", "SVG", "--inline", "--svg-path", "--rle", "--level", "M", "--margin", "4", "--output", "-"]


class Fault(Exception):
    """Why nothing was changed."""


def drawn(link):
    """The QR code of an address, as an element of a page."""
    made = subprocess.run(DRAW, input=link.encode(), capture_output=True, check=False)
    if made.returncode:
        raise Fault(f"qrencode can't draw a card's address: {made.stderr.decode(errors='replace').strip()}")
    found = re.search(r"<svg.*</svg>", made.stdout.decode(), re.S)
    if not found:
        raise Fault("qrencode draws no SVG: it is older than 4.1")
    # qrencode gives each drawing the same ids
    drawing = re.sub(r'\s(?:id|preserveAspectRatio)="[^"]*"', "", found.group())
    return drawing.replace("<svg", '<svg role="img" aria-label="QR code of this card\'s address"', 1)


def with_codes(text):
    """The page with its codes, and how many there are."""
    def code(found):
        start, link, end = found.groups()
        return f"{start}{drawn(html.unescape(link))}{end}"
    return CODE.subn(code, text)


def replace_file(path, text):
    """The new text takes the old one's place at once, with its permissions, or not at all."""
    number, name = tempfile.mkstemp(dir=path.parent, prefix=".cards-")
    try:
        with open(number, "w", encoding="utf-8", newline="") as file:
            file.write(text)
            file.flush()
            os.fsync(file.fileno())
        shutil.copymode(path, name)
        os.replace(name, path)
    except BaseException:
        os.unlink(name)
        raise


def main(folder):
    path = pathlib.Path(folder, "cards.html")
    try:
        if not shutil.which("qrencode"):
            raise Fault("qrencode isn't installed (Debian: apt install qrencode)")
        with open(path, encoding="utf-8", newline="") as file:
            text, count = with_codes(file.read())
        if not count:
            raise Fault(f"{path} has no card with a place for a code")
        replace_file(path, text)
    except (Fault, OSError, UnicodeDecodeError) as fault:
        print(f"Nothing is changed: {fault}", file=sys.stderr)
        return 1
    print(f"{count} QR codes are in {path}.")
    return 0


if __name__ == "__main__":
    if len(sys.argv) != 2:
        sys.exit(__doc__)
    sys.exit(main(sys.argv[1]))

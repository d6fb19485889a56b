#!/usr/bin/env python3
"""Checks that each link and each path that the pages name is there.

    tests/pages/links.py

The pages are those of the top, all below docs/, client/, examples/, benches/, tests/ and parked/, each README.md of a crate and of a folder in it, and
NOTICE. Of each page

- a relative link must lead to a file or a folder, and where it names a chapter (`#..`) to a heading of that page;
- a module that client's page names, as `denials.js`, must be there;
- a path that is named, as `crates/cards/specs/Play.antt`, `docs/POLICY.md` or `tests/pages/links.py`, must be there, and so must
  `specs/..`, `src/..`, `texts/..` and `figures/..` in the page of a crate, below that crate;
- a page of a crate must be there for each line of crates.txt.

Passed over are patterns (`*`, `..`, NAME, CRATE), what a build leaves (`out/`), and in docs/decisions the paths that are named:
it tells what stood there when something was decided. Each fault is a line; the last line is `N passed, M failed`, and the status is 1
where one failed.
"""
import functools
import pathlib
import re
import sys

ROOT = pathlib.Path(__file__).resolve().parents[2]
LINK = re.compile(r"\]\(([^()\s]+)\)")
NAMED = re.compile(r"(?<![\w./-])((?:crates|docs|tests|benches|examples|client)/[\w./*-]+)")
MODULE = re.compile(r"`([\w/]+\.(?:js|py|css|html))`")
OWN = re.compile(r"`((?:specs|src|texts|figures|must-fail)/[\w./*-]*)`")
PASSED_OVER = re.compile(r"\*|\.\.|NAME|CRATE|(?:^|/)out(?:/|$)")
HISTORY = ROOT / "docs/decisions"


def pages():
    yield ROOT / "NOTICE"
    for folder in ("", "docs", "client", "examples", "benches", "tests", "parked"):
        yield from sorted((ROOT / folder).glob("*.md" if not folder else "**/*.md"))
    yield from sorted((ROOT / "crates").glob("*/README.md"))
    yield from sorted((ROOT / "crates").glob("*/*/README.md"))


@functools.cache
def text_of(page):
    return page.read_text(encoding="utf-8")


# the chapters of a page, as a link names them
@functools.cache
def chapters_of(page):
    headings = re.findall(r"^#+ +(.+)$", text_of(page), re.MULTILINE)
    return {re.sub(r"[^\w\- ]", "", heading.lower()).replace(" ", "-") for heading in headings}


def is_linked(page, link):
    if re.match(r"[a-z]+:", link):
        return True
    path, _, chapter = link.partition("#")
    target = (page.parent / path).resolve() if path else page
    if not target.exists():
        return False
    return not chapter or (target.suffix == ".md" and chapter in chapters_of(target))


def is_there(folder, path):
    return bool(PASSED_OVER.search(path)) or (folder / path.rstrip("./")).exists()


# what a page names, with whether it is there
def named_by(page):
    text = text_of(page)
    for link in LINK.findall(text):
        yield link, is_linked(page, link)
    if page.parent != HISTORY:
        for path in NAMED.findall(LINK.sub("](", text)):
            yield path, is_there(ROOT, path)
    if page.parent == ROOT / "client":
        for path in MODULE.findall(text):
            yield path, is_there(page.parent, path) or is_there(ROOT, path)
    if page.parent.parent == ROOT / "crates":
        for path in OWN.findall(text):
            yield path, is_there(page.parent, path)


def crate_pages():
    for line in (ROOT / "crates.txt").read_text(encoding="utf-8").splitlines():
        if ":" in line:
            page = f"crates/{line.partition(':')[0]}/README.md"
            yield page, (ROOT / page).exists()


def main():
    found = [("crates.txt", *found) for found in crate_pages()]
    for page in pages():
        found += [(page.relative_to(ROOT), *found_there) for found_there in named_by(page)]
    missing = [(page, what) for page, what, there in found if not there]
    for page, what in dict.fromkeys(missing):
        print(f"{page}: {what} is not there")
    print(f"{len(found) - len(missing)} passed, {len(missing)} failed")
    return 1 if missing else 0


if __name__ == "__main__":
    sys.exit(main())

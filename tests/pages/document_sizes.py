#!/usr/bin/env python3
"""Says which documents have outgrown what a reader takes in: README.md has at most 250 lines, docs/NOTATION.md 120, the page of a crate
20 to 60, or up to 90 where its code and definitions have over 1,000, and each page of docs/decisions 10,000 bytes. A Python file of
tests/ and benches/ and a module of client/ have at most 400 lines, but for those that are named below with a reason. Each that hasn't
its size is a line, and so is one that is named and needn't be; the status is 1 where there is one.

    python3 tests/pages/document_sizes.py
"""
import pathlib
import sys

ROOT = pathlib.Path(__file__).resolve().parents[2]
MOST_LINES = {"README.md": 250, "docs/NOTATION.md": 120}
FEWEST_OF_A_CRATE, MOST_OF_A_CRATE, MOST_OF_A_LARGE_ONE, LARGE = 20, 60, 90, 1_000
MOST_BYTES = 10_000
CODE, MOST_OF_CODE = ("tests/**/*.py", "benches/**/*.py", "client/**/*.js"), 400
LONGER = {
    "client/app.js": "one object, whose parts read and change what the others do",
    "client/texts.js": "all that the page says, in one file for whoever puts it into another language",
}


def lines(path):
    return path.read_text(encoding="utf-8").count("\n")


def most_lines(crate):
    folder = ROOT / "crates" / crate
    size = sum(lines(path) for path in (*folder.glob("src/**/*.rt"), *folder.glob("specs/**/*.antt")))
    return MOST_OF_A_LARGE_ONE if size > LARGE else MOST_OF_A_CRATE


def faults_of_code(files):
    for path in files:
        name = path.relative_to(ROOT).as_posix()
        if name not in LONGER and lines(path) > MOST_OF_CODE:
            yield f"{name} has {lines(path)} lines"
    for name in LONGER:
        if not (ROOT / name).is_file() or lines(ROOT / name) <= MOST_OF_CODE:
            yield f"{name} needn't be named: it isn't there, or has at most {MOST_OF_CODE} lines"


def main():
    crates = [line.partition(":")[0].split()[0] for line in (ROOT / "crates.txt").read_text(encoding="utf-8").splitlines() if ":" in line]
    faults = [f"{page} has {lines(ROOT / page)} lines" for page, most in MOST_LINES.items() if lines(ROOT / page) > most]
    for crate in crates:
        page = ROOT / "crates" / crate / "README.md"
        if not page.is_file():
            faults.append(f"{crate} has no page")
        elif not FEWEST_OF_A_CRATE <= lines(page) <= most_lines(crate):
            faults.append(f"the page of {crate} has {lines(page)} lines")
    pages = sorted((ROOT / "docs/decisions").glob("*.md"))
    for page in pages:
        if page.stat().st_size > MOST_BYTES:
            faults.append(f"docs/decisions/{page.name} has {page.stat().st_size} bytes")
    code = sorted(path for pattern in CODE for path in ROOT.glob(pattern))
    faults += faults_of_code(code)
    for fault in faults:
        print(fault)
    print(f"{len(crates)} pages of crates and {len(code)} files of code were looked at")
    return 1 if faults or not crates or not pages or not code else 0


if __name__ == "__main__":
    sys.exit(main())

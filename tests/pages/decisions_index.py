#!/usr/bin/env python3
"""Makes the list of docs/decisions/README.md: each theme's page, with the title of each choice in it, whose date stands there.

    tests/pages/decisions_index.py            # writes the list, below the heading "The choices"
    tests/pages/decisions_index.py --check    # fails where the list isn't what would be written, or a choice hasn't its form

A choice has its date in its title, and tells in this order its question, the choice and why. The status is 1 where one doesn't.
"""
import pathlib
import re
import sys

FOLDER = pathlib.Path(__file__).resolve().parents[2] / "docs/decisions"
INDEX = FOLDER / "README.md"
LIST = re.compile(r"(?<=\n## The choices\n\n).*", re.DOTALL)
TITLE = re.compile(r"(.+) \((\d{4}-\d{2}-\d{2})\)")
FORM = re.compile(r"\*Question\*: .+ \*Choice\*: .+ \*Why\*: .+", re.DOTALL)


def pages():
    """Each theme's page, with its title, its first line and its choices: of each the heading and the text."""
    for path in sorted(FOLDER.glob("*.md")):
        if path != INDEX:
            head, *choices = re.split(r"^## ", path.read_text(encoding="utf-8"), flags=re.MULTILINE)
            title, about = re.match(r"# Decisions: (.+)\n\n(.+?) \[All themes\]\(README\.md\)\.\n", head, re.DOTALL).groups()
            yield path, title, about.replace("\n", " "), [choice.rstrip().split("\n", 1) for choice in choices]


def text():
    """The list, and what isn't as it should be."""
    rows, faults = [], []
    for path, title, about, choices in pages():
        rows.append(f"### [{title}]({path.name})\n\n{about}\n\n")
        for heading, told in choices:
            named = TITLE.fullmatch(heading)
            if not named or not FORM.fullmatch(told.strip().replace("\n", " ")):
                faults.append(f"docs/decisions/{path.name}: {heading}: a choice has a date, a question, a choice and why")
                continue
            rows.append(f"- {named[1]}\n")
        rows.append("\n")
    return "".join(rows).rstrip() + "\n", faults


def main():
    page, (wanted, faults) = INDEX.read_text(encoding="utf-8"), text()
    if sys.argv[1:] != ["--check"]:
        INDEX.write_text(LIST.sub(lambda _: wanted, page), encoding="utf-8")
    elif LIST.search(page)[0] != wanted:
        faults.append("docs/decisions/README.md has other choices than its pages: tests/pages/decisions_index.py")
    print("\n".join([*faults, f"{wanted.count(chr(10) + '- ')} choices"]))
    return 1 if faults else 0


if __name__ == "__main__":
    sys.exit(main())

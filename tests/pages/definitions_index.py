#!/usr/bin/env python3
"""Makes docs/DEFINITIONS_INDEX.md: each public definition of crates/*/specs with the sentence that stands above it there.

    tests/pages/definitions_index.py            # writes the page
    tests/pages/definitions_index.py --check    # fails where the page isn't what would be written

The sentence of a definition is the comment right above it. What comes after a line `-- ---- for private clauses` is left out. A
definition without a sentence is named at the end of its file. The crates come in the order of crates.txt, from the lowest up.
"""
import pathlib
import re
import sys
import textwrap

ROOT = pathlib.Path(__file__).resolve().parents[2]
PAGE = ROOT / "docs/DEFINITIONS_INDEX.md"
PRIVATE = "-- ---- for private clauses"
DEFINITION = re.compile(r"(?:unfoldable |abbrev )?pub (?:record |data )?(?!use |mod |record |data )([^\s:({]+)")
BLOCK = re.compile(r"(?:abbrev |unfoldable )?(?:module|mutual)\b")
WIDTH = 130

HEAD = """# Index of definitions

Each public definition of the specs, with the sentence that stands above it in its file. `python3 tests/pages/definitions_index.py`
writes this page from those files: change a sentence there. [DEFINITIONS.md](DEFINITIONS.md) has what a director needs, in plain
words. Each file's part begins with what the file says of itself. A definition that shares the sentence of the one before it, or
whose name says enough, is named under "Without a sentence of their own".
"""


# the crates that have definitions, each below those that name it
def crates():
    names = re.findall(r"^(\w+)", (ROOT / "crates.txt").read_text(encoding="utf-8"), re.MULTILINE)
    assert {path.name for path in (ROOT / "crates").iterdir() if path.is_dir()} == set(names), "crates.txt names other crates"
    return [name for name in names if files_of(name)]


def files_of(crate):
    return [path for path in sorted((ROOT / f"crates/{crate}/specs").glob("**/*.antt")) if path.name != "Lib.antt"]


# the first paragraph of a comment, in one line
def paragraph(lines):
    words = []
    for line in lines:
        if line == "--":
            break
        words.append(line.removeprefix("--").strip())
    return " ".join(words)


# what a file says of itself, and its public definitions, each with its sentence or an empty one
def read_file(path):
    lines = path.read_text(encoding="utf-8").splitlines()
    head = lines[:next((number for number, line in enumerate(lines) if not line.startswith("--")), len(lines))]
    found, comment, indent = [], [], ""
    for line in lines[len(head):]:
        if line.startswith(PRIVATE):
            break
        # the definitions of a module or of a mutual block stand two blanks in
        if BLOCK.match(line):
            indent = "  "
            continue
        indent = "" if re.match(r"[^\s-]", line) else indent
        line = line.removeprefix(indent)
        if line.startswith("--"):
            comment.append(line)
            continue
        if definition := DEFINITION.match(line):
            found.append((definition.group(1), paragraph(comment)))
        comment = []
    return paragraph(head), found


def wrapped(text, later=""):
    return textwrap.fill(text, WIDTH, subsequent_indent=later, break_long_words=False, break_on_hyphens=False)


def chapter(path):
    says, found = read_file(path)
    if not found:
        return []
    lines = [f"**[{path.name}](../{path.relative_to(ROOT)})**", ""]
    lines += [wrapped(says), ""] if says else []
    told = [wrapped(f"- `{name}`: {sentence}", "  ") for name, sentence in found if sentence]
    silent = [f"`{name}`" for name, sentence in found if not sentence]
    lines += told + ([""] if told else [])
    lines += [wrapped(f"Without a sentence of their own: {', '.join(silent)}."), ""] if silent else []
    return lines


def page():
    lines = [HEAD]
    for crate in crates():
        chapters = [line for path in files_of(crate) for line in chapter(path)]
        if chapters:
            lines += [f"## {crate}", "", *chapters]
    return "\n".join(lines).rstrip("\n") + "\n"


def main():
    if "--check" not in sys.argv[1:]:
        PAGE.write_text(page(), encoding="utf-8")
        return 0
    if PAGE.exists() and PAGE.read_text(encoding="utf-8") == page():
        return 0
    print("docs/DEFINITIONS_INDEX.md is not what the specs say: run tests/pages/definitions_index.py")
    return 1


if __name__ == "__main__":
    sys.exit(main())

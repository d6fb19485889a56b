#!/usr/bin/env python3
"""Finds public functions that no program reaches, and wrong bodies in functions that no program reaches.

A function is reached where the `main` of a program reaches it by names: a method by a call of its name, a function of a
type by the type and its name, any other by its name, which a function of another crate has to be imported by. So what this
lists is dead; what it doesn't list may still be. What a trait of another library asks for is taken as reached, and functions
of a file `laws.rt` are theorems, which nobody calls.
It prints nothing, and ends with 0, or prints each such function, and each edit of must-fail/ that changes no function which
a program reaches, and ends with 1. A crate whose functions no program calls yet is left out, as long as it is told what it waits for."""
import pathlib
import re
import sys

ROOT = pathlib.Path(__file__).resolve().parents[2]
CRATES = ROOT / "crates"
PROGRAMS = ("bridge_server", "pbn_boards", "deal_tables", "par_tables")
# what only tests and stored runs stand on
TESTING = ("test_devices",)

# crates whose functions no program calls yet (its laws may be used), each with what it waits for
TO_COME = {}

# public functions that no program reaches, each with the reason why it stays
KEPT = {
    "movement::Movement::new": "the usual section, with every pair there; a session object says both, by `with_absent`",
    "published_view::answer_afresh": "the plain way to answer, to which stored runs and times compare a view's",
    "scoring::matchpoints": "Law 78A over any list of scores; a traveller has sixteen rows at most, and counts without memory",
    "session_state::State::decide": "the policy for a user by name; programs ask it for a user whom they looked up once",
    "denials::check": "a denial is checked by whoever holds it, without the server: the page has code of its own for it, and a stored run asks",
    "session_book::Book::exposed": "who was shown what, by name; a check goes over the accounts and asks by their places",
    "many_clients::serve_all": "turns of several clients as one call; a thread's loop takes one at a time, and notes its end",
}

BLANKS = re.compile(r'//[^\n]*|r#"(?s:.*?)"#|b?"(?:\\.|[^"\\])*"|b?\'(?:\\[^\']+|[^\\\'])\'')
WORD = re.compile(r"(?:(\.)\s*|(?:\b(\w+)(?:::<[^<>]*>)?\s*::\s*))?\b([a-z_]\w*)\b")
ITEM = re.compile(r"\b(?:fn\s+(\w+)|(impl|trait)\b)")
CLAUSE = re.compile(r"\b(?:requires|ensures|decreases)\b[^{};]*$")
USE = re.compile(r"\b(?:ghost )?(?:pub(?:\([^)]*\))? )?use\b[^;]*;")
IMPORT = re.compile(r"^[ \t]*(?:pub(?:\([^)]*\))? )?use\s+(?!crate\b|super\b|self\b)([^;]*);", re.MULTILINE)


def blanked(text):
    """The text, with blanks in the place of comments, strings and imports, at the same places."""
    def blank(found):
        return re.sub(r"[^\n]", " ", found[0])
    return USE.sub(blank, BLANKS.sub(blank, text))


def imported_by(path):
    """The names that a file imports of other crates, and these crates' own."""
    text = BLANKS.sub(" ", path.read_text(encoding="utf-8"))
    own = set(re.findall(r"\bmod\s+(\w+)\s*;", text))
    return {word for found in IMPORT.finditer(text) if found[1].split(":")[0] not in own for word in re.findall(r"\w+", found[1])}


def closing(text, opening):
    """Where the bracket is closed that is opened at a place."""
    depth = 0
    for place in range(opening, len(text)):
        depth += text[place] in "({[" and 1 or text[place] in ")}]" and -1 or 0
        if depth == 0:
            return place
    return len(text)


class Function:
    def __init__(self, crate, path, name, owner, trait, head, start, end, body, imports):
        self.crate, self.path, self.name, self.owner, self.trait = crate, path, name, owner, trait
        self.imports = imports
        self.is_public = bool(re.search(r"\bpub\s+(?:const\s+)?$", head))
        self.start, self.end, self.body = start, end, body
        self.is_method = False

    def __str__(self):
        owner = f"{self.owner}::" if self.owner else ""
        return f"{self.path.relative_to(ROOT)}: {owner}{self.name}"


def body_of(text, place):
    """Where the body of a function begins whose parameters begin at a place: no clause's braces. None where it has none."""
    while place < len(text):
        found = re.compile(r"[({\[;]").search(text, place)
        if not found or found[0] == ";":
            return None
        if found[0] == "{" and not CLAUSE.search(text[max(0, place - 1):found.start()]):
            return found.start()
        place = closing(text, found.start()) + 1
    return None


def type_names(head):
    """The type of an `impl`, and the trait, if it is of one."""
    head = re.sub(r"^\s*<[^{]*?>\s(?=[A-Z&])", " ", head)
    words = head.split(" where ")[0].split(" for ")
    names = [re.search(r"([A-Z]\w*)", re.sub(r"<.*", "", word)) or re.search(r"([A-Z]\w*)", word) for word in words]
    names = [name[1] if name else None for name in names]
    return (names[-1], names[0] if len(names) > 1 else None)


def functions_of(crate, path):
    """The functions of a file, and what stands outside of them."""
    text = blanked(path.read_text(encoding="utf-8"))
    found, owners, place, outside, imports = [], [], 0, list(text), imported_by(path)
    while item := ITEM.search(text, place):
        owners = [owner for owner in owners if item.start() < owner[0]]
        if item[2]:
            opening = text.find("{", item.end())
            names = type_names(text[item.end():opening])
            owners.append((closing(text, opening), *(names if item[2] == "impl" else (None, names[0]))))
            place = opening + 1
            continue
        line = text.rfind("\n", 0, item.start()) + 1
        parameters = text.find("(", item.end())
        body = body_of(text, item.end())
        end = closing(text, body) if body is not None else text.find(";", item.end())
        owner, trait = owners[-1][1:] if owners else (None, None)
        function = Function(crate, path, item[1], owner, trait, text[line:item.start()], line, end,
                            text[body:end] if body is not None else "", imports)
        function.is_method = bool(re.match(r"\(\s*(?:&\s*(?:'\w+\s*)?)?(?:mut\s+)?self\b", text[parameters:]))
        found.append(function)
        outside[line:end + 1] = " " * (end + 1 - line)
        place = end + 1
    return found, "".join(outside)


def libraries(crate, stands_on):
    """The crates below a crate, with it."""
    seen, waiting = set(), [crate]
    while waiting:
        crate = waiting.pop()
        if crate not in seen and crate in stands_on:
            seen.add(crate)
            waiting += stands_on[crate]
    return seen


def is_own_test(path):
    return "tests" in path.relative_to(CRATES).parts or path.name == "tests.rt"


def reached_by(functions, outside, below):
    """The functions that the programs' `main`s reach. A crate calls a function of a type of those below it alone, as `below` has
    them; a method of a trait may be called by a crate further below."""
    by_name = {}
    for function in functions:
        by_name.setdefault(function.name, []).append(function)
    traits = {function.trait for function in functions if function.trait and not function.owner}
    waiting = [function for function in functions if function.name == "main" and function.crate in PROGRAMS
               or function.owner and function.trait and function.trait not in traits]
    reached, bodies = set(waiting), [(None, text) for text in outside]
    while waiting or bodies:
        by, body = bodies.pop() if bodies else (lambda function: (function, function.body))(waiting.pop())
        for word in WORD.finditer(body):
            for other in by_name.get(word[3], ()):
                is_near = not by or other.trait or other.crate in below[by.crate]
                if other not in reached and is_near and is_meant(other, by, body, word, by_name):
                    reached.add(other)
                    waiting.append(other)
    return reached


def is_meant(other, by, body, word, by_name):
    """Whether a word of a function's body may mean another function. `by` is that function, and none outside of all."""
    owner = by and by.owner
    if word[1]:
        own = [method for method in by_name[word[3]] if owner and method.owner == owner]
        is_own = own and re.search(r"\bself\s*$", body[:word.start()])
        return other.is_method and (not is_own or other in own)
    if word[2] and word[2][0].isupper():
        named = owner if word[2] == "Self" else word[2]
        return bool(other.owner or other.trait) and (named in (other.owner, other.trait) or len(named) == 1)
    if other.owner or other.trait:
        return False
    return not by or ((word[2] or word[3]) in by.imports) == (other.crate != by.crate)


def edits():
    """The edits of must-fail/, each with the file that it changes and the first text that it replaces there."""
    for path in sorted(CRATES.glob("*/must-fail/*.edit")):
        lines = path.read_text(encoding="utf-8").split("\n")
        file = path.parent.parent / lines[0].removeprefix("file: ")
        yield path, file, [line.removeprefix("old: ") for line in lines if line.startswith("old: ")]


def unreached_edits(functions, reached):
    for path, file, texts in edits():
        if path.relative_to(CRATES).parts[0] in TO_COME:
            continue
        source = file.read_text(encoding="utf-8")
        places = [source.find(text) for text in texts]
        changed = [function for function in functions for place in places
                   if function.path == file and place >= 0 and function.start <= place <= function.end]
        if not any(function in reached for function in changed):
            named = ", ".join(sorted({function.name for function in changed})) or "no function"
            yield f"{path.relative_to(ROOT)}: it changes {named}, which no program reaches"


def main():
    stands_on = {}
    for line in (ROOT / "crates.txt").read_text(encoding="utf-8").split("\n"):
        if ":" in line and not line.startswith("#"):
            crate, below = line.split(":")
            stands_on[crate.split()[0]] = below.split()
    crates = set().union(*(libraries(program, stands_on) for program in PROGRAMS)) - set(TESTING)
    functions, outside = [], []
    for path in sorted(CRATES.glob("*/src/**/*.rt")):
        crate = path.relative_to(CRATES).parts[0]
        if crate in crates and not is_own_test(path):
            found, rest = functions_of(crate, path)
            functions += found
            outside.append(rest)
    reached = reached_by(functions, outside, {crate: libraries(crate, stands_on) for crate in crates})
    dead = {f"{function.crate}::{function.owner or ''}::{function.name}".replace("::::", "::"): function
            for function in functions if function.is_public and function not in reached and function.crate not in TO_COME
            and function.path.name != "laws.rt" and not function.trait}
    said = [str(function) for name, function in sorted(dead.items()) if name not in KEPT]
    said += [f"{name} is reached, or isn't there: it needs no reason" for name in sorted(KEPT) if name not in dead]
    waiting = {function.crate for function in functions if function.is_public and function not in reached}
    said += [f"{crate} is called, or isn't there: it doesn't wait" for crate in sorted(TO_COME)
             if crate in crates - waiting or crate not in stands_on]
    said += unreached_edits(functions, reached)
    for line in said:
        print(line)
    return 1 if said else 0


if __name__ == "__main__":
    sys.exit(main())

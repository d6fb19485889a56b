"""What the tables of docs/PROTOCOL.md say of each command, each query, each refusal and each role, for whoever needs it: the plain models, the
check of the page's types, and what writes the rows of the client.

    from protocol_tables import COMMANDS, QUERIES, ROLES

The page is read at start, and strictly: where a table is missing, a cell isn't in the form of the others, or two tables don't tell of the same
commands, the program that reads it ends and says the page's line and what is wrong there.
"""
import pathlib
import re
from typing import NamedTuple

PAGE = pathlib.Path(__file__).resolve().parents[2] / "docs" / "PROTOCOL.md"
LINES = PAGE.read_text(encoding="utf-8").splitlines()
WORD = re.compile(r'`"?(\w+)"?`')
NAMED_REFUSAL = re.compile(r"`(\w+)(?:\(\w+\))?`")
PHASES = ("Running", "Closed", "Final")
WHO = {"scorers": "Scorer", "directors": "Director", "administrators": "Administrator"}
# what a command is about, by the members that tell it
SUBJECTS = {"the table and the board": ["table", "board"], "the board": ["board"], "the user's name to sign in by": ["name"],
            "the user's name and the role": ["name", "role"], "the senior role and the junior one": ["senior", "junior"], 'nothing: `""`': []}
# the solver's, which no message has
SOLVERS = {"`Solved`, the table of a board's tricks": "Solved", "`Analysed`, what the cards of a play cost": "Analysed"}
ORDER, OWN = "Where several hold, the first of this order is answered:", "the command's own refusals"
NO_CAUSE = {"NotTried"}


class Command(NamedTuple):
    """The line of its row, the edition from which on it is known, who has the permission and who inherits it, its own refusals in their
    order, and what an audit tells, with a member's name in braces."""
    line: int
    edition: int
    members: list
    may_be_missing: list
    who: list
    phases: list
    refusals: list
    target: str


class Query(NamedTuple):
    line: int
    edition: int
    members: list
    may_be_missing: list


class Role(NamedTuple):
    """The line of its row, the edition from which on it is known, whom it inherits as a session opens, and who is kept apart from it, by the
    set's name."""
    line: int
    edition: int
    juniors: list
    apart: dict


def stop(line, fault):
    raise SystemExit(f"docs/PROTOCOL.md, line {line}: {fault}")


# ---- the page's tables

def cells_of(line):
    return [cell.strip() for cell in LINES[line - 1][1:-1].split("|")]


def chapter(title):
    """The first and the last line of a chapter."""
    begins = [line for line, text in enumerate(LINES, 1) if text == f"## {title}"]
    if len(begins) != 1:
        stop(len(LINES), f"the page ends, and has {len(begins)} chapters \"{title}\"")
    return begins[0], next((line for line in range(begins[0] + 1, len(LINES)) if LINES[line].startswith("## ")), len(LINES))


def rows_below(line, last, columns):
    """The rows of the table that begins at a line, each with its own line."""
    found = []
    for at in range(line + 2, last + 1):
        if not LINES[at - 1].startswith("|"):
            break
        if len(cells_of(at)) != columns:
            stop(at, f"this row has {len(cells_of(at))} cells, and its table {columns} columns")
        found.append((at, cells_of(at)))
    return found or stop(line, "this table has no row")


def tables(title, *columns):
    """Each table of a chapter that has these columns."""
    first, last = chapter(title)
    return [rows_below(line, last, len(columns)) for line in range(first, last + 1)
            if LINES[line - 1].startswith("|") and cells_of(line) == list(columns)]


def table(title, *columns):
    found = tables(title, *columns)
    if len(found) != 1:
        stop(chapter(title)[0], f"this chapter has {len(found)} tables of the columns {' | '.join(columns)}, and not one")
    return found[0]


# ---- what a cell says

def words_of(line, cell, form=WORD):
    """The words that a cell lists."""
    found = [form.fullmatch(part) for part in cell.split(", ")] if cell else []
    return [word[1] for word in found] if all(found) else stop(line, f"{cell!r} is no list of words")


def words_and_edition(line, cell):
    words = cell.removesuffix(", in the second edition")
    return words_of(line, words), 1 if words == cell else 2


def members_of(line, cell):
    """The members that must be there, and those that may be left out."""
    listed, _, rest = cell.partition("; ")
    if rest == "each may be left out":
        return [], words_of(line, listed)
    if rest and not rest.endswith(" may be left out"):
        stop(line, f"{rest!r} doesn't say what may be left out")
    return words_of(line, listed), words_of(line, rest.removesuffix(" may be left out"))


def looked_up(line, text, known):
    return known[text] if text in known else stop(line, f"{text!r} isn't one of: {'; '.join(known)}")


def target_of(line, cell):
    """What an audit tells: the members with what stands between them in the cell's example."""
    said, _, example = cell.partition(", as ")
    members = looked_up(line, said, SUBJECTS)
    form = re.fullmatch('`"(.*)"`', example) if example else None
    pieces = re.split(r"\w+", form[1]) if form else [""] * (len(members) + 1)
    if len(pieces) != len(members) + 1 or (not form and (example or len(members) > 1)):
        stop(line, f"{cell!r} has no example of {' and '.join(members)}")
    return pieces[0] + "".join(f"{{{member}}}{piece}" for member, piece in zip(members, pieces[1:]))


# ---- one thing a word, of the rows of a table

def put(found, line, words, what):
    for word in words:
        if word in found:
            stop(line, f"{word} has a row already")
        found[word] = line, what


def phases_by_words():
    found = {}
    for line, (when, phases) in table("Commands", "When", "`phase` in the status"):
        found[when] = words_of(line, phases)
        for phase in found[when]:
            if phase not in PHASES:
                stop(line, f"{phase} is no phase")
    return found


def own_refusals():
    """The refusals of each command's own; some rows tell them of several commands, with a semicolon between."""
    found = {}
    for line, (words, refusals) in table("Commands", "`cmd`", "Its own refusals, in their order"):
        words, refusals = words.split("; "), refusals.split("; ")
        if len(words) != len(refusals):
            stop(line, "there aren't as many lists of refusals as of commands")
        for some, causes in zip(words, refusals):
            put(found, line, words_of(line, some), [] if causes == "none" else words_of(line, causes))
    return found


def targets():
    found = {}
    for line, (words, about) in table("Audits", "Command", "What it is about"):
        put(found, line, [SOLVERS[words]] if words in SOLVERS else words_of(line, words), target_of(line, about))
    return found


def refusals():
    """The line of each refusal that is explained."""
    found = {}
    for line, (names, _) in table("Commands", "Refusal", "When"):
        put(found, line, words_of(line, names, NAMED_REFUSAL), None)
    return {name: line for name, (line, _) in found.items()}


def shared_refusals():
    """The refusals that stand before each command's own, and after them, in their order."""
    first, last = chapter("Commands")
    line = next((line for line in range(first, last + 1) if LINES[line - 1].startswith(ORDER)), None)
    if line is None:
        stop(first, f"no line of this chapter begins {ORDER}")
    paragraph = " ".join(LINES[line - 1:last]).removeprefix(ORDER).partition(". ")[0]
    before, own, after = paragraph.strip().partition(f", {OWN}, ")
    return (words_of(line, before), words_of(line, after)) if own else stop(line, f"{paragraph!r} doesn't say where {OWN} stand")


# ---- what the tables say together

def queries():
    found = {}
    for line, (words, members, _) in table("Queries", "`ask`", "Further members", "What is answered"):
        words, edition = words_and_edition(line, words)
        put(found, line, words, Query(line, edition, *members_of(line, members)))
    return {word: query for word, (_, query) in found.items()}


def commands(own, about):
    """Each command, of the table that begins the chapter and of these two."""
    found, phases = {}, phases_by_words()
    for line, (words, members, who, when) in table("Commands", "`cmd`", "Members", "Who may", "When"):
        words, edition = words_and_edition(line, words)
        for word in words:
            for others, what in ((own, "own refusals"), (about, "what an audit tells")):
                if word not in others:
                    stop(line, f"{word} has no row in the table of {what}")
            permitted = [looked_up(line, one, WHO) for one in who.split(", ")]
            put(found, line, [word], Command(line, edition, *members_of(line, members), permitted, looked_up(line, when, phases), own[word][1],
                                             about[word][1]))
    return {word: command for word, (_, command) in found.items()}


def roles():
    """Each role, in their order."""
    found = {}
    for line, (words, juniors, apart) in table("Queries", "Role", "Inherits, as a session opens", "Kept apart from"):
        words, edition = words_and_edition(line, words)
        kept = re.fullmatch(r"`(\w+)`, as `(\w+)`", apart)
        if apart and not kept:
            stop(line, f"{apart!r} isn't a role and a set's name")
        put(found, line, words, Role(line, edition, words_of(line, juniors), {kept[2]: kept[1]} if kept else {}))
    sets = {}
    for line, role in found.values():
        for other in role.juniors:
            if other not in found:
                stop(line, f"{other} is no role")
        put(sets, line, role.apart, None)
        if not {*role.apart.values()} <= {"Contestant"}:
            stop(line, "the models know no role but Contestant from which another is kept apart")
    return {word: role for word, (_, role) in found.items()}


def check_words(own, about):
    """No table has a command that isn't one, and none tells it by a member that it hasn't."""
    for word, (line, _) in [*own.items(), *about.items()]:
        if word not in COMMANDS and word not in SOLVERS.values():
            stop(line, f"{word} is no command")
    for word, command in COMMANDS.items():
        for member in re.findall(r"\{(\w+)\}", command.target):
            if member not in command.members:
                stop(about[word][0], f"{word} has no member {member}")


def check_members(title, things):
    """Each member has a row that says what its value is."""
    told = {name: line for rows in tables(title, "Member", "Value") for line, (names, _) in rows for name in words_of(line, names)}
    used = {name: thing.line for thing in things.values() for name in [*thing.members, *thing.may_be_missing]}
    for name in used.keys() - told.keys():
        stop(used[name], f"no row says what the value of {name} is")
    for name in told.keys() - used.keys() - {"ask", "since"}:
        stop(told[name], f"{name} is a member of nothing in this chapter")


def check_refusals(own):
    """Each refusal is explained, and each that is explained has its place in the order."""
    first, _ = chapter("Commands")
    used = {**dict.fromkeys([*BEFORE, *AFTER], first), **{name: line for line, names in own.values() for name in names}}
    for name in used.keys() - REFUSALS.keys():
        stop(used[name], f"no row says when a command is refused {name}")
    for name in REFUSALS.keys() - used.keys() - NO_CAUSE:
        stop(REFUSALS[name], f"{name} isn't in the order of refusals, and no command has it as its own")


OWN_REFUSALS, ABOUT = own_refusals(), targets()
COMMANDS, QUERIES, REFUSALS, ROLES = commands(OWN_REFUSALS, ABOUT), queries(), refusals(), roles()
BEFORE, AFTER = shared_refusals()
TARGETS = {word: target for word, (_, target) in ABOUT.items()}
check_words(OWN_REFUSALS, ABOUT)
check_members("Commands", COMMANDS)
check_members("Queries", QUERIES)
check_refusals(OWN_REFUSALS)


def of_edition(things, edition):
    """The commands, the queries or the roles that an edition has."""
    return {word: thing for word, thing in things.items() if thing.edition <= edition}


def refusals_of(word):
    """The causes that may refuse a command, in the order in which they are looked at."""
    return [*BEFORE, *COMMANDS[word].refusals, *AFTER]

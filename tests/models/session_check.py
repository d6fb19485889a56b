#!/usr/bin/env python3
"""Compares `bridge_server check` with the stored runs of sessions that open and that don't: the refusal, the user, and the line.

    tests/models/session_check.py crates/bridge_server/out/bridge_server
    tests/models/session_check.py                                   # without a program: the plain reader alone (tests/models/session_reader.py)

Each session object of the stored runs is a script of its own: `check` tells the refusal that is stored, names the user whom WHOM has,
by the number that the plain reader finds, and says of one that opens how large it is. Each PBN text of crates/pbn_boards/data is given
beside an object that wants its boards: the line is that of the byte of the refusal. Then files that can't be read, and the words. The
last line is `N passed, M failed`.
"""
import json
import pathlib
import re
import shlex
import subprocess
import sys
import tempfile

sys.path[:0] = [str(pathlib.Path(__file__).resolve().parents[1] / folder) for folder in ("runs",)]
from boards_reader import check_boards
from refused import Refused, refusal_of
from session_reader import MOST_BYTES, ROOT, check_session
from stored_runs import read as stored

MOST_FILE_BYTES = 16_777_216
# The user whom each refusal of a user in the parts `session objects` is about, in its order.
WHOM = {
    "session objects": ["n1", "a b", "", "", "a", "a", "s", "d", "d", "k", "a", "n1", "n1", "n1", "s", "n2", "u254",
                        "c", "c", "c", "n1", "c", "c"],
    "session objects, lists of rows": ["n1", "n2", "e16", "e5"],
    "session objects, words for movements": ["n7", "e6"],
    "session objects, texts to show": ["a b", "n1"],
}
# The user with whom each of these clashes, by the name.
CLASHES = ("UserExists", "SeatTaken")
CLUB = ROOT / "examples/club.pbn"
SESSION = ROOT / "examples/session.json"


def told_of(program, folder, session, deals=None):
    """What `check` says of a session, with its status."""
    words = ["check", "--session", pathlib.Path(folder, "session")]
    pathlib.Path(folder, "session").write_bytes(session)
    if deals is not None:
        pathlib.Path(folder, "deals").write_bytes(deals)
        words += ["--deals", pathlib.Path(folder, "deals")]
    ran = subprocess.run([program, *words], capture_output=True, check=False)
    return ran.returncode, ran.stdout.decode(), ran.stderr.decode()


def plain_reader(line):
    """What the plain reader says of an object: the refusal, the user's name, and all of its text."""
    try:
        return None, None, check_session(line)
    except Refused as refused:
        return refused.refusal, refused.user, str(refused)


def fault_of_member(line, text):
    """What is wrong with the member that `check` tells, and with whose it is."""
    whose = re.match(r"BadField: (user \d+)", text)
    member = re.search(r"`\w+`", text)
    if not line.startswith(f"BadField: {whose[1]}: " if whose else ("BadField: `", "BadField: this is no object")):
        return f"{line}, and not: {text}"
    return None if member is None or member[0] in line else f"{line}, and not: {text}"


def fault_of_told(told, wanted, user, text):
    """What is wrong with what `check` says of an object with this refusal, of this user, where the plain reader says this text."""
    status, line, errors = told
    if errors or line.count("\n") != 1 or not line.endswith("\n"):
        return f"no line alone: {told}"
    if wanted is None:
        return None if (status, line[:-1]) == (0, text) else f"{told}, and not: {text}"
    if status != 1 or not line.startswith(f"{wanted}: ") or "; " not in line:
        return f"{told}, and not: {wanted}"
    if wanted == "BadField":
        return fault_of_member(line, text)
    if user is None:
        return None
    number = re.search(r": user (\d+) ", text)[1]
    named = f"{wanted}: user {number} ({json.dumps(user)})"
    if wanted in CLASHES:
        other = re.search(r"user (\d+)\b(?! \(.*has the)", text[text.index(" has the "):])[1]
        named += f" and user {other} ("
    return None if line.startswith(named) else f"{told}, and not: {named}"


def stored_objects(part, program, folder):
    """What differs from a part of session objects, with its users of WHOM."""
    lines, answers = (stored(name)[part].splitlines() for name in ("stdin", "stdout"))
    users = iter(WHOM[part])
    for number, (line, answer) in enumerate(zip(lines, answers, strict=True), 1):
        wanted = None if answer.startswith("0 ") else answer.removeprefix("1 bridge_server: ")
        refusal, user, text = plain_reader(line.encode())
        named = user is None or refusal == "BadField" or user == next(users, None)
        if refusal != wanted or not named:
            yield f"{part}, line {number}: the plain reader has {text}, and not {answer}"
        elif program:
            fault = fault_of_told(told_of(program, folder, line.encode() + b"\n"), wanted, user, text)
            yield fault and f"{part}, line {number}: {fault}"
        else:
            yield None
    yield None if next(users, None) is None else f"{part}: WHOM names more users than there are"


def session_of(boards):
    """The example's session with so many boards, if tables have as many."""
    for tables in range(3, 17):
        if boards % tables == 0 and 1 <= boards // tables <= 8:
            session = json.loads(SESSION.read_bytes()) | {"tables": tables, "rounds": 1, "per_set": boards // tables}
            session["users"] = [user for user in session["users"] if "pair" not in user]
            return json.dumps(session).encode()
    return None


def fault_of_line(told, refusal, text):
    """What is wrong with what `check` says of a PBN text with this refusal."""
    status, line, errors = told
    if refusal is None:
        return None if status == 0 and line.startswith("opens: ") and not errors else f"{told}, and it should open"
    wanted = f"{refusal}: "
    if not refusal.startswith("MissingBoard"):
        offset = int(re.search(r"\((\d+)\)", refusal)[1])
        wanted += f"line {text[:offset].count(10) + 1} of the PBN text: "
    return None if status == 1 and line.startswith(wanted) and not errors else f"{told}, and not: {wanted}"


def stored_texts(program, folder):
    """What differs from the stored run of pbn_boards."""
    crate = ROOT / "crates/pbn_boards"
    words = shlex.split((crate / "args").read_text())
    answers = (crate / "stdout").read_text()
    for boards, name in zip(words[::2], words[1::2], strict=True):
        path = crate / "data" / name
        if not path.exists():
            continue
        refusal, _ = refusal_of(check_boards, path.read_bytes(), int(boards))
        fault = re.search(rf"^{re.escape(name)}: (\w+\(\d+\))$", answers, re.MULTILINE)
        if refusal != (fault and fault[1]):
            yield f"{name}: the plain reader has {refusal}, and not {fault and fault[1]}"
        elif program:
            for wanted in {int(boards), 24, 128}:
                if session := session_of(wanted):
                    refusal, _ = refusal_of(check_boards, path.read_bytes(), wanted)
                    found = fault_of_line(told_of(program, folder, session, path.read_bytes()), refusal, path.read_bytes())
                    yield found and f"{name}, {wanted} boards: {found}"
        else:
            yield None


def without_path(ran):
    """How the program ended, and why a file wasn't read, without its path."""
    status, out, err = ran
    found = re.fullmatch(r"bridge_server: Unread \(.*: ([a-z' ]+)\)\n", err)
    return status, out, found[1] if found else err


def other_files(program, folder):
    """What differs for the example, for files that can't be read, and for objects that are too long."""
    example, club = SESSION.read_bytes(), CLUB.read_bytes()
    script = json.dumps(json.loads(example) | {"pbn": club.decode()}).encode()
    opens = (0, "opens: 8 tables, 7 rounds, boards 1 to 24, 36 users\n", "")
    rows = (
        ("the example", told_of(program, folder, example, club), opens),
        ("a script", told_of(program, folder, script + b"\r\n{}\n"), opens),
        ("a script without a line end", told_of(program, folder, script), opens),
        ("deals that are too long", without_path(told_of(program, folder, example, bytes(MOST_FILE_BYTES + 1))), (3, "", "it is too long")),
    )
    for name, got, wanted in rows:
        yield None if got == wanted else f"{name}: {got}, and not {wanted}"
    for name, got in (("an object", told_of(program, folder, b" " * (MOST_BYTES + 1), club)),
                      ("a first line", told_of(program, folder, b" " * (MOST_BYTES + 1) + b"\n"))):
        yield None if got[0] == 1 and got[1].startswith("TooLong: ") and not got[2] else f"{name} that is too long: {got}"
    missing = pathlib.Path(folder, "missing")
    unread = f"bridge_server: Unread ({missing}: there is no such file or folder)\n".encode()
    for words in (["--session", missing], ["--session", missing, "--deals", CLUB], ["--session", SESSION, "--deals", missing]):
        ran = subprocess.run([program, "check", *words], capture_output=True, check=False)
        yield None if (ran.returncode, ran.stdout, ran.stderr) == (3, b"", unread) else f"{words}: {ran}"
    for words in ([], ["--deals", CLUB], ["--session", SESSION, "--port", "1"]):
        ran = subprocess.run([program, "check", *words], capture_output=True, check=False)
        yield None if (ran.returncode, ran.stdout) == (2, b"") and ran.stderr else f"{words}: {ran}"


def main():
    program = sys.argv[1] if sys.argv[1:] else None
    with tempfile.TemporaryDirectory() as folder:
        found = [fault for part in WHOM for fault in stored_objects(part, program, folder)]
        found += stored_texts(program, folder)
        found.append(refusal_of(check_session, SESSION.read_bytes(), CLUB.read_bytes())[0])
        if program:
            found += other_files(program, folder)
    faults = [fault for fault in found if fault]
    print("\n".join([*faults, f"{len(found) - len(faults)} passed, {len(faults)} failed"]))
    return 1 if faults else 0


if __name__ == "__main__":
    sys.exit(main())

#!/usr/bin/env python3
"""The rows of the client's tables that are about each command and each role, from the tables of docs/PROTOCOL.md
(tests/models/protocol_tables.py).

    tests/pages/client_commands.py            # prints them
    tests/pages/client_commands.py --write    # puts them into client/messages.js, `roles` and `command`, and client/audit_rows.js, `kinds`
    tests/pages/client_commands.py --check    # whether they stand in both

A row of `roles` has the edition that the role came with.
A row of `command` makes a command of its members' values, in the page's order; a member that may be left out is a list, and is left out where
it is empty. `kinds` has the commands of which an audit tells more than a name. The status is 1 where a row differs.
"""
import pathlib
import re
import sys

ROOT = pathlib.Path(__file__).resolve().parents[2]
sys.path[:0] = [str(ROOT / "tests" / "models")]
from protocol_tables import COMMANDS, ROLES, TARGETS  # noqa: E402

KINDS = {"cell": "{table}/{board}", "board": "{board}", "role": "{name}:{role}", "inheritance": "{senior}>{junior}"}
NAMED = ("{name}", "")


def role_rows():
    for word, role in ROLES.items():
        yield f"  {word}: {role.edition},\n"


def command_rows():
    for word, asked in COMMANDS.items():
        values = ", ".join([*asked.members, *(f"{name} = []" for name in asked.may_be_missing)])
        members = ", ".join([f'cmd: "{word}"', *asked.members, *(f"...({name}.length ? {{ {name} }} : {{}})" for name in asked.may_be_missing)])
        yield f"  {word[0].lower()}{word[1:]}: ({values}) => ({{ {members} }}),\n"


def kind_rows():
    for word, target in TARGETS.items():
        if target not in (*KINDS.values(), *NAMED):
            raise SystemExit(f"{word} is told as {target}, of which neither tests/pages/client_commands.py nor client/audit_rows.js has a kind")
    for kind, target in KINDS.items():
        words = ", ".join(f'"{word}"' for word, told in TARGETS.items() if told == target)
        yield f"  {kind}: [{words}],\n"


# each module with the table in it, and its rows
TABLES = (("client/messages.js", "const roles = {\n", role_rows), ("client/messages.js", "export const command = {\n", command_rows),
          ("client/audit_rows.js", "const kinds = {\n", kind_rows))


# a module with these rows in its table
def written(module, begins, rows):
    return re.sub(rf"(?<={re.escape(begins)}).*?(?=^\}};)", lambda _: "".join(rows()), module, count=1, flags=re.DOTALL | re.MULTILINE)


def main():
    faults = 0
    for path, begins, rows in TABLES:
        module = (ROOT / path).read_text(encoding="utf-8")
        if module.count(begins) != 1:
            raise SystemExit(f"{path} has no table that begins {begins}")
        wanted = written(module, begins, rows)
        if sys.argv[1:] == ["--write"]:
            (ROOT / path).write_text(wanted, encoding="utf-8")
        elif sys.argv[1:] != ["--check"]:
            print(begins + "".join(rows()) + "};")
        elif module != wanted:
            faults += 1
            print(f"{path} has other rows than docs/PROTOCOL.md: tests/pages/client_commands.py --write")
    return 1 if faults else 0


if __name__ == "__main__":
    sys.exit(main())

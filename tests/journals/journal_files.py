"""The file of a server's journal, as the tests look at it: by SQLite's own library and command, never by the program.

A file is looked at in a copy, with its log beside it (`FILE-wal`), so that looking changes nothing; the server that has it open keeps
others out. Debian's package sqlite3 is needed, for `PRAGMA integrity_check` by the command, and Python's own module reads the rows.
"""
import json
import pathlib
import re
import shutil
import sqlite3
import subprocess
import tempfile
from typing import NamedTuple

LOG = "-wal"


class Row(NamedTuple):
    """An entry's row: its number and its publication's, who did it (`user NAME` or `solver`), and the command as JSON."""

    number: int
    publication: int
    actor: str
    command: str

    @property
    def done(self):
        return without_empty_play(json.loads(self.command))

    @property
    def user(self):
        """The user's name, or None for the solver."""
        return self.actor.removeprefix("user ") if self.actor != "solver" else None


def without_empty_play(command):
    """The command, in the one of the two forms in which a client may say that no card was told."""
    return {name: value for name, value in command.items() if (name, value) != ("play", [])}


def log_of(journal):
    return pathlib.Path(f"{journal}{LOG}")


def copied(journal, folder, log=None):
    """A copy of the file in a folder, with its log where it has one, or with these bytes for a log."""
    copy = pathlib.Path(folder, "copy.journal")
    shutil.copyfile(journal, copy)
    if log is not None:
        log_of(copy).write_bytes(log)
    elif log_of(journal).exists():
        shutil.copyfile(log_of(journal), log_of(copy))
    return copy


def is_there(journal):
    """Whether there is a file that a program takes for a database: of one whose making was cut the first byte of its head is wanting,
    which comes last."""
    return pathlib.Path(journal).exists() and pathlib.Path(journal).read_bytes()[:1] != b"\0"


def rows_of(journal):
    """All entries of the file, in their order; none where it has no tables yet, or there is none."""
    if not is_there(journal):
        return []
    with tempfile.TemporaryDirectory() as folder:
        connection = sqlite3.connect(copied(journal, folder))
        try:
            tables = {name for name, in connection.execute("SELECT name FROM sqlite_schema WHERE type = 'table'")}
            assert tables in (set(), {"session", "entry"}), tables
            query = "SELECT number, publication, actor, command FROM entry ORDER BY number"
            return [Row(*row) for row in connection.execute(query)] if tables else []
        finally:
            connection.close()


def session_of_file(journal):
    """The texts of the session that the file keeps, as bytes: its object and its boards."""
    with tempfile.TemporaryDirectory() as folder:
        connection = sqlite3.connect(copied(journal, folder))
        try:
            (number, session, boards), = connection.execute("SELECT number, object, boards FROM session")
            assert number == 1
            return session.encode(), bytes(boards)
        finally:
            connection.close()


def integrity_of(journal):
    """What Debian's `sqlite3` says of the file: `ok`, or what is wrong."""
    with tempfile.TemporaryDirectory() as folder:
        done = subprocess.run(["sqlite3", str(copied(journal, folder)), "PRAGMA integrity_check"], capture_output=True, text=True, check=False)
        return (done.stdout + done.stderr).strip()


def change(journal, *statements):
    """Changes a file that no server has open, as somebody would by hand. The changes stay in its log: SQLite without its extension cksumvfs
    would spoil the sums of the pages that it writes into the file itself."""
    with tempfile.TemporaryDirectory() as folder:
        copy = copied(journal, folder)
        connection = sqlite3.connect(copy)
        connection.execute("PRAGMA journal_mode = WAL")
        connection.execute("PRAGMA wal_autocheckpoint = 0")
        for statement in statements:
            connection.execute(*([statement] if isinstance(statement, str) else statement))
        connection.commit()
        for old, new in ((copy, journal), (log_of(copy), log_of(journal))):
            shutil.copyfile(old, new)
        connection.close()


def contents_of(journal):
    """All that the file says as a database, or its bytes where it is none."""
    with tempfile.TemporaryDirectory() as folder:
        connection = sqlite3.connect(copied(journal, folder))
        try:
            return list(connection.iterdump())
        except sqlite3.DatabaseError:
            return pathlib.Path(journal).read_bytes()
        finally:
            connection.close()


def publications(rows):
    """The rows publication by publication, each of which is a list of them."""
    found = []
    for row in rows:
        if found and found[-1][0].publication == row.publication:
            found[-1].append(row)
        else:
            found.append([row])
    return found


def ran(program, *words, env=None, seconds=60):
    """The status of the program that ends by itself, and what it wrote on its two outputs."""
    done = subprocess.run([str(program), *map(str, words)], stdin=subprocess.DEVNULL, capture_output=True, env=env, timeout=seconds, check=False)
    return done.returncode, done.stdout, done.stderr


# what a start says that isn't refused, where its port is taken (docs/RUNNING.md)
TAKEN = re.compile(rb"bridge_server: NotListening \(port \d+: another program listens there\)\n")
GOES_THROUGH = (3, b"", b"")


def started(ended):
    """How a start ended whose port is taken: as `GOES_THROUGH` says where nothing else ended it, and else by its fault alone."""
    status, out, err = ended
    assert status != 3 or err, "the status 3 says why"
    return status, out, TAKEN.sub(b"", err, count=1)


def fault(name):
    """What the program writes where it serves nobody."""
    return f"bridge_server: {name}\n".encode()

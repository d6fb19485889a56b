#!/usr/bin/env python3
"""Runs the gate, and then the checks that stand beside it (docs/GATE.md), a line each with its time.

    tests/all_checks.py                     # the checks that need no program
    tests/all_checks.py "rt ci"             # the gate before them
    tests/all_checks.py "rt ci" --built     # and the checks of built programs after them: `make test`
    tests/all_checks.py "rt ci" --built --minutes=160   # of which none begins later than so many minutes after the gate did: .ci/run
    tests/all_checks.py --fast              # those that need no program, and beside them those of built programs that need neither a
                                            # browser nor a socket and are short: `make test-fast`

What needs no program runs side by side, and so does all of `--fast`. Of the checks of built programs those that look at no time run side
by side too, and then the others one after another. What a check says stands in out/checks/, and here where it failed. The last line is
`N passed, M failed`, the gate's own numbers and one for each check, and a line before it names what was not run, since its time was over; the
status is 1 where something failed. The tests of the page's
functions need Node.js 20 or later, and those of the page's types Debian's node-typescript: they are not run where it is missing. What the
checks of built programs need is in README.md, "Checking it"; where it is missing, they fail.
"""
import concurrent.futures
import os
import pathlib
import re
import shutil
import subprocess
import sys
import tempfile
import time

ROOT = pathlib.Path(__file__).resolve().parent.parent
LOGS = ROOT / "out/checks"
PYTHON = sys.executable
# Debian's own Python, which has Debian's packages
DEBIAN_PYTHON = "/usr/bin/python3"
NODE = 20
CHECKS = (
    ("tests/models/model_runs.py",),
    ("tests/runs/protocol_examples.py", "--check"),
    ("tests/pages/protocol_types.py",),
    ("tests/pages/client_commands.py", "--check"),
    ("tests/pages/public_names.py",),
    ("tests/pages/unreached_functions.py",),
    ("tests/pages/headline_definitions.py", "--check"),
    ("tests/pages/definitions_index.py", "--check"),
    ("tests/models/session_check.py",),
    ("tests/models/par_model.py",),
    ("tests/models/movement_lists.py",),
    ("tests/pages/quoted_code.py",),
    ("tests/pages/links.py",),
    ("tests/pages/document_sizes.py",),
    ("tests/pages/decisions_index.py", "--check"),
    ("tests/pages/house_map.py", "--check"),
    ("tests/pages/client_exports.py",),
    ("tests/pages/wrong_bodies.py",),
    ("tests/pages/page_policy.py",),
)
# the page's functions, file by file, since versions of Node.js differ in how they read a folder
PAGE = ("--test", *sorted(str(path.relative_to(ROOT)) for path in ROOT.glob("client/tests/*.test.js")))
PAGE_TYPES = ("-p", "client")
SERVER = "crates/bridge_server/out/bridge_server"
BOARDS = "crates/pbn_boards/out/pbn_boards"
TABLES = "crates/deal_tables/out/deal_tables"
STORED_RUNS = "crates/bridge_server_stored_runs/out/bridge_server_stored_runs"
RULES = "crates/rules_tests/out/rules_tests_tests"
OBJECTS = "crates/opening_tests/out/opening_tests_tests"
# of built programs: neither a browser nor a socket, and seconds each
SHORT = (
    (PYTHON, ("examples/say_answers.py", "examples/one_board.script", "--by", SERVER)),
    (PYTHON, ("examples/say_answers.py", "examples/first_round.script", "--by", SERVER)),
    (PYTHON, ("examples/say_answers.py", "examples/howell.script", "--by", SERVER)),
    (PYTHON, ("tests/models/session_check.py", SERVER)),
    (PYTHON, ("tests/drivers/prepare.py", SERVER)),
    (PYTHON, ("tests/drivers/pbn_prefixes.py", BOARDS)),
    (PYTHON, ("tests/memory/refuse_growths.py", BOARDS, "crates/pbn_boards/data/accepted.pbn", "1")),
    (PYTHON, ("tests/memory/refuse_growths.py", RULES, "loses_no_more")),
    (PYTHON, ("tests/memory/refuse_growths.py", RULES, "under_every_memory")),
    (PYTHON, ("tests/memory/refuse_growths.py", OBJECTS, "under_every_memory")),
    (PYTHON, ("tests/memory/refuse_growths.py", SERVER, "examples/howell.script")),
    (PYTHON, ("tests/memory/refuse_preparing.py", SERVER)),
    (PYTHON, ("tests/drivers/failing_devices.py", SERVER)),
    (PYTHON, ("tests/drivers/fuzz_movements.py", SERVER)),
)
# of built programs, and long: none looks at time, but for how long it waits at most, so they run beside one another, the longest first
BESIDE = (
    (PYTHON, ("tests/memory/refuse_reports.py", SERVER)),
    (PYTHON, ("tests/memory/refuse_serving_growths.py", SERVER)),
    (PYTHON, ("tests/memory/refuse_growths.py", STORED_RUNS, "solver")),
    (PYTHON, ("tests/journals/journal_logs.py", SERVER)),
    (PYTHON, ("tests/journals/journal_disks.py", SERVER)),
    (PYTHON, ("tests/memory/refuse_connection_growths.py", STORED_RUNS)),
    (PYTHON, ("tests/memory/refuse_growths.py", BOARDS, "crates/pbn_boards/data/255_boards.pbn", "255")),
    (DEBIAN_PYTHON, ("tests/drivers/fuzz_texts.py", SERVER)),
    (PYTHON, ("tests/drivers/failing_calls.py", SERVER)),
    (PYTHON, ("tests/drivers/conformance.py", SERVER)),
    (PYTHON, ("tests/journals/journal_starts.py", SERVER)),
    (DEBIAN_PYTHON, ("tests/drivers/websocket_client.py", SERVER)),
    (PYTHON, ("tests/drivers/event_log.py", SERVER)),
)
# of built programs, and each looks at time, or at the whole machine's sockets: one after another
ALONE = (
    (PYTHON, ("tests/drivers/report.py", SERVER, "--browser")),
    (PYTHON, ("tests/drivers/hold_ups.py", SERVER)),
    (PYTHON, ("tests/drivers/full_hall.py", SERVER)),
    (PYTHON, ("tests/drivers/jobs_in_turn.py", SERVER)),
    (PYTHON, ("tests/drivers/page_files.py", SERVER)),
    (PYTHON, ("tests/drivers/proxies.py", SERVER)),
    (DEBIAN_PYTHON, ("tests/journals/journal_kills.py", SERVER)),
    (DEBIAN_PYTHON, ("tests/drivers/load.py", SERVER)),
    (DEBIAN_PYTHON, ("tests/drivers/many_clients.py", SERVER)),
    (DEBIAN_PYTHON, ("tests/browser/page_session.py", SERVER)),
    (DEBIAN_PYTHON, ("tests/browser/evening.py", SERVER)),
    (DEBIAN_PYTHON, ("tests/browser/page_session.py", SERVER, "1", "1200", "webkit")),
)


# the numbers with which the gate ends, as it writes them
def run_gate(words):
    passed = failed = None
    with subprocess.Popen(words, cwd=ROOT, stdout=subprocess.PIPE, stderr=subprocess.STDOUT, text=True) as gate:
        for line in gate.stdout:
            print(line, end="", flush=True)
            if numbers := re.search(r"(\d+) passed, (\d+) failed", line):
                passed, failed = map(int, numbers.groups())
    if passed is None or (gate.returncode and not failed):
        return passed or 0, (failed or 0) + 1
    return passed, failed


# a check as its line names it: many files of one folder are named by the folder
def name_of(program, words):
    if words is PAGE:
        return "node --test client/tests/"
    return " ".join(words) if program in (PYTHON, DEBIAN_PYTHON) else " ".join((program, *words))


def log_of(name):
    return LOGS / (re.sub(r"[^\w.]+", "_", name.replace(str(ROOT), ""))[:120] + ".log")


# when the last check may begin, or None
LATEST = None


# whether a check passed, or None where it is too late to begin it, and its time; all that it says goes into its log
def run_check(program, words):
    if LATEST is not None and time.monotonic() > LATEST:
        return None, 0
    environment = os.environ | {"PYTHONDONTWRITEBYTECODE": "1"}
    began = time.monotonic()
    with log_of(name_of(program, words)).open("w", encoding="utf-8") as log:
        try:
            status = subprocess.run([program, *words], cwd=ROOT, env=environment, stdout=log, stderr=subprocess.STDOUT, check=False).returncode
        except FileNotFoundError as missing:
            log.write(f"{missing}\n")
            status = 1
    return status == 0, time.monotonic() - began


def tell(program, words, passed, seconds):
    name = name_of(program, words)
    if passed is None:
        print(f"not run, since its time was over: {name}", flush=True)
        return
    said = log_of(name).read_text(encoding="utf-8", errors="replace")
    if not passed:
        print(said, end="" if said.endswith("\n") else "\n")
    counted = re.findall(r"^\d+ passed, \d+ failed$", said, re.MULTILINE)
    print(f"{'ok    ' if passed else 'FAILED'} {seconds:7.1f} s  {name}{': ' + counted[-1] if counted else ''}", flush=True)
    for left_out in re.findall(r"^not run, .*$", said, re.MULTILINE) if passed else ():
        print(f"                    {left_out}", flush=True)


def run_side_by_side(checks):
    with concurrent.futures.ThreadPoolExecutor(os.cpu_count()) as pool:
        running = {pool.submit(run_check, *check): check for check in checks}
        for done in concurrent.futures.as_completed(running):
            tell(*running[done], *done.result())
            yield done.result()[0]


def run_in_turn(checks):
    for check in checks:
        print(f".. {name_of(*check)}", end="\r" if sys.stdout.isatty() else "\n", flush=True)
        found = run_check(*check)
        tell(*check, *found)
        yield found[0]


def has_node():
    if not shutil.which("node"):
        return False
    version = subprocess.run(["node", "--version"], stdout=subprocess.PIPE, text=True, check=False).stdout
    number = re.match(r"v(\d+)\.", version)
    return bool(number) and int(number[1]) >= NODE


def cheap_checks():
    yield from ((PYTHON, words) for words in CHECKS)
    for is_here, check, needed in ((has_node(), ("node", PAGE), f"Node.js {NODE}"), (shutil.which("tsc"), ("tsc", PAGE_TYPES), "tsc")):
        if is_here:
            yield check
        else:
            print(f"not run, since there is no {needed} here: {name_of(*check)}")


# lines of `deal_tables` that show its growths: a deal and a play, and endings
LINES = (("special", 1, 2), ("plays", 2, 3)), (("endings", 0, 3),)


# two checks read a stored run's script, one of each edition, and two some lines of figures
def checks_of_lines(folder):
    for word, pieces in zip(("numbers", "endings"), LINES):
        lines = pathlib.Path(folder, f"{word}.lines")
        texts = [(ROOT / f"crates/deal_tables/figures/{name}.txt").read_text(encoding="utf-8").splitlines()[first:last] for name, first, last in pieces]
        lines.write_text("".join(line.split("\t")[0] + "\n" for text in texts for line in text), encoding="utf-8")
        yield PYTHON, ("tests/memory/refuse_growths.py", TABLES, str(lines), word)
    for part in ("desk", "embargo"):
        script = pathlib.Path(folder, part)
        with script.open("w", encoding="utf-8") as file:
            subprocess.run([PYTHON, "tests/runs/stored_runs.py", part], cwd=ROOT, stdout=file, check=True)
        yield PYTHON, ("tests/memory/refuse_growths.py", SERVER, str(script))


def main():
    global LATEST
    options = {word for word in sys.argv[1:] if word.startswith("--")}
    words = [word for word in sys.argv[1:] if word not in options]
    minutes = [int(word.partition("=")[2]) for word in options if word.startswith("--minutes=")]
    latest = time.monotonic() + 60 * minutes[0] if minutes else None
    LOGS.mkdir(parents=True, exist_ok=True)
    passed, failed = run_gate(words[0].split()) if words else (0, 0)
    checks = [*cheap_checks(), *(SHORT if "--fast" in options else ())]
    found = list(run_side_by_side(checks))
    if "--built" in options:
        LATEST = latest
        with tempfile.TemporaryDirectory() as folder:
            found += run_side_by_side([*BESIDE, *checks_of_lines(folder), *SHORT])
        found += run_in_turn(ALONE)
    passed, failed = passed + found.count(True), failed + found.count(False)
    if None in found:
        print(f"{found.count(None)} checks of built programs were not run, since their time was over")
    print(f"{passed} passed, {failed} failed")
    return 1 if failed else 0


if __name__ == "__main__":
    sys.exit(main())

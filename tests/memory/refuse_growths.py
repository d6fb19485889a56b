#!/usr/bin/env python3
"""Refuses each growth in turn: of a script's run, of double-dummy tables, endings and costs, of a PBN text's boards, or of tests that hold
under every memory.

    tests/memory/refuse_growths.py crates/bridge_server/out/bridge_server <(tests/runs/stored_runs.py desk) [COMMANDS]
    tests/memory/refuse_growths.py crates/deal_tables/out/deal_tables LINES
    tests/memory/refuse_growths.py crates/pbn_boards/out/pbn_boards TEXT.pbn BOARDS
    tests/memory/refuse_growths.py crates/bridge_server_stored_runs/out/bridge_server_stored_runs solver
    tests/memory/refuse_growths.py crates/rules_tests/out/rules_tests_tests loses_no_more

Runs `bridge_server script` on the script, followed by so many more commands of its first director (none where no number is
given), which hold and release board 1 in turn, in batches of 64: first with ample memory, and then with the Nth request for
memory refused, for N from 1 until a run asks less often. What each of these must do:

- In the first line, while the session is opened: write nothing, and end with status 4. No session is half open.
- While another line is read: end with status 4; the lines before are answered as with ample memory.
- While a message is read, tried and answered: that line is {"error":"OutOfMemory"}, or the command that found no room is answered
  OutOfMemory and those after it in its batch NotTried, the ones before it as with ample memory. Then the script goes on: the rest
  is answered as by a run with ample memory of the script in which the commands that weren't tried are left out.

- Where a list is collected, room for all that is expected is asked for first, and where that is refused, room for one: then every
  line is answered as with ample memory, and the run asks more often than that one.

A refused request that changes nothing in any other run is a fault too. At the end it says how many requests each kind of message took:
each query by its word, and apart where it is denied or names an error, each batch, each audit, each message that is no request. So a script
with every query, as `tests/runs/stored_runs.py protocol`, shows that each growth of each query and of its text was refused.

Of `deal_tables` each line is run alone, a deal for `table`, an ending for `solve` or a play for `costs`: once with ample memory, which must solve
it, and then with the Nth request refused, for each N. Each of these must write the same numbers or none: then the line is named
as not solved (OutOfMemory), or the program ends with a status of its own, for it couldn't read the line or write the answer.

Of `pbn_boards` the boards of the text are asked for, as standard input: with a request refused it writes the same boards, or nothing and
ends with status 4.

Of `bridge_server_stored_runs` the part of this name is run, as `solver`, which tells tables and what cards cost: with a request refused
its answers are those that are stored up to some line, and the next one says OutOfMemory or isn't there. Where one of the first four requests is refused,
which are for the program's words, all is answered and the status is 4.

Of a program of tests, which `rt test` leaves, each test whose name has the word is run alone, with ample memory and then with the Nth
request refused, for each N, and must pass each time: it says itself that the answer is the one with ample memory, or OutOfMemory.

It needs a C compiler (cc) for the allocator that refuses, which is loaded under the program (LD_PRELOAD).
"""
import json
import os
import pathlib
import re
import subprocess
import sys
import tempfile

sys.path[:0] = [str(pathlib.Path(__file__).resolve().parents[1] / folder) for folder in ("runs",)]
import stored_runs

REFUSING = r"""
#define _GNU_SOURCE
#include <dlfcn.h>
#include <errno.h>
#include <stdio.h>
#include <stdlib.h>
#include <sys/syscall.h>
#include <unistd.h>
static unsigned long asked, refused_at;
static char *counted_after;
static void *(*real_malloc)(size_t), *(*real_realloc)(void *, size_t);
static int (*real_memalign)(void **, size_t, size_t);
__attribute__((constructor)) static void begin(void) {
    real_malloc = dlsym(RTLD_NEXT, "malloc");
    real_realloc = dlsym(RTLD_NEXT, "realloc");
    real_memalign = dlsym(RTLD_NEXT, "posix_memalign");
    char *at = getenv("REFUSED_AT");
    counted_after = getenv("COUNTED_AFTER");
    asked = 0;
    refused_at = at ? strtoul(at, 0, 10) : 0;
}
__attribute__((destructor)) static void end(void) {
    char *to = getenv("ASKED_TO");
    unsigned long by_the_program = asked;
    refused_at = 0;
    FILE *it = to ? fopen(to, "w") : 0;
    if (it) { fprintf(it, "%lu", by_the_program); fclose(it); }
}
/* requests count from the start, or once there is a file of this name */
static int is_refused(void) { return (!counted_after || access(counted_after, F_OK) == 0) && ++asked == refused_at; }
void *malloc(size_t n) { return is_refused() ? (errno = ENOMEM, (void *)0) : real_malloc(n); }
void *realloc(void *p, size_t n) { return is_refused() ? (errno = ENOMEM, (void *)0) : real_realloc(p, n); }
int posix_memalign(void **p, size_t a, size_t n) { return is_refused() ? ENOMEM : real_memalign(p, a, n); }
/* a program with threads ends so, and no destructor is run */
void _exit(int status) {
    end();
    syscall(SYS_exit_group, status);
    __builtin_unreachable();
}
"""

NO_MEMORY = b'{"error":"OutOfMemory"}\n'
# what a script says that ends for want of memory (docs/RUNNING.md)
NO_ROOM = re.compile(rb"bridge_server: OutOfMemory \(for the (words|script)\)\n")


def compact(value):
    return (json.dumps(value, separators=(",", ":"), sort_keys=True) + "\n").encode()


# the script's lines, with so many commands more
def lines_of(script, commands):
    with open(script, "rb") as it:
        lines = it.readlines()
    director = next((user["name"] for user in json.loads(lines[0])["users"] if "Director" in user["roles"]), None)
    more = [{"board": 1, "cmd": ("Hold", "Release")[k % 2]} for k in range(commands)]
    lines += [compact({"as": director, "do": more[k : k + 64]}) for k in range(0, commands, 64)]
    return lines[:-1] + [lines[-1].rstrip() + b" " * 8192 + b"\n"]


# the line with the first commands of its batch alone
def with_first(line, count):
    message = object_of(line)
    if "do" not in message:
        return line
    return compact({**message, "do": message["do"][:count]})


# the object that a line is, or one without members
def object_of(line):
    try:
        value = json.loads(line)
    except ValueError:
        return {}
    return value if isinstance(value, dict) else {}


# what kind of message a line is, by its answer
def kind_of_message(line, answer):
    message, told = object_of(line), json.loads(answer)
    if "answers" in told:
        return "batch"
    if "version" not in told:
        return "audit, not permitted" if told == {"error": "NotPermitted"} else "no request"
    word = message.get("ask", "audit")
    return word + (", denied" if "denied" in told else ", error" if "error" in told else "")


# a run with the Nth request refused (0: none): the status, what it wrote, and how often it asked
def run(command, given, room, n):
    env = {**os.environ, "LD_PRELOAD": f"{room}/refusing.so", "REFUSED_AT": str(n), "ASKED_TO": f"{room}/asked"}
    ran = subprocess.run(command, input=given, capture_output=True, env=env)
    with open(f"{room}/asked") as it:
        return ran.returncode, ran.stdout, ran.stderr, int(it.read())


class Growths:
    def __init__(self, program, room, lines):
        self.program, self.room, self.lines, self.known, self.by_message = program, room, lines, {}, {}

    def run(self, lines, n):
        status, out, err, asked = run([self.program, "script"], b"".join(lines), self.room, n)
        return status, out.splitlines(keepends=True), err, asked

    # the answers after a line of which so many commands were tried, with ample memory
    def rest(self, at, tried):
        if (at, tried) not in self.known:
            lines = self.lines[: at + 1] + [with_first(self.lines[at + 1], tried)] + self.lines[at + 2 :]
            status, out, err, _ = self.run(lines, 0)
            assert (status, err) == (0, b""), (status, err)
            self.known[at, tried] = out[at + 1 :]
        return self.known[at, tried]

    # what a run with one request refused did, in a word; `ample` is what it answers otherwise
    def kind_of(self, ample, status, out, err, asked_again):
        assert NO_ROOM.fullmatch(err) if status == 4 else err == b"", (status, err)
        if asked_again and (status, out) == (0, ample):
            return "less room was enough"
        at = next((k for k, pair in enumerate(zip(out, ample)) if pair[0] != pair[1]), len(out))
        if at == len(out):
            assert status == 4 and at < len(ample), f"status {status} after {at} of {len(ample)} answers"
            return "the script ended" if at else "nothing written"
        assert status == 0, f"status {status}"
        message = kind_of_message(self.lines[at + 1], ample[at])
        self.by_message[message] = self.by_message.get(message, 0) + 1
        if out[at] == NO_MEMORY:
            batch = object_of(self.lines[at + 1]).get("do", [])
            found = [tried for tried in {0, len(batch)} if out[at + 1 :] == self.rest(at, tried)]
            assert found, f"answer {at + 1} is {out[at]!r}, and the rest fits neither all of its commands nor none"
            return "nothing was tried" if 0 in found else "the commands stood"
        answers, before = json.loads(out[at])["answers"], json.loads(ample[at])["answers"]
        place = answers.index("OutOfMemory")
        assert answers[:place] == before[:place] and answers[place + 1 :] == ["NotTried"] * (len(before) - place - 1), answers
        assert out[at + 1 :] == self.rest(at, place), f"after answer {at + 1}, a command without memory"
        return "a command found no room"


def refuse_scripts(program, script, commands, room):
    lines = lines_of(script, commands)
    growths, kinds = Growths(program, room, lines), {}
    _, _, _, opening = growths.run(lines[:1], 0)
    status, ample, err, asked = growths.run(lines, 0)
    assert (status, len(ample), err) == (0, len(lines) - 1, b""), f"with ample memory: status {status}, {len(ample)} answers, {err!r}"
    assert asked >= opening > 0, "the program asked for no memory through this allocator: nothing is tried"
    for n in range(1, asked + 1):
        status, out, err, count = growths.run(lines, n)
        try:
            kind = growths.kind_of(ample, status, out, err, count > asked)
            assert (kind == "nothing written") == (n <= opening), f"{kind}, and the opening asks {opening} times"
        except AssertionError as fault:
            raise SystemExit(f"with request {n} of {asked} refused: {fault}")
        kinds[kind] = kinds.get(kind, 0) + 1
    print(f"{asked} requests for memory, each refused in turn: " + ", ".join(f"{kind} {count}" for kind, count in kinds.items()))
    messages = [kind_of_message(line, answer) for line, answer in zip(lines[1:], ample)]
    for message in sorted(set(messages)):
        print(f"    {message}: {growths.by_message.get(message, 0)} in {messages.count(message)} messages")


def refuse_tables(program, deals, words, room):
    with open(deals, "rb") as it:
        lines = [line.split(b"\t")[0].strip() for line in it if line.strip() and not line.startswith(b"#")]
    for line in lines:
        status, solved, err, asked = run([program, *words], line + b"\n", room, 0)
        assert status == 0 and err == b"" and solved.startswith(line + b"\t"), f"with ample memory: status {status}, {err!r}"
        assert asked > 0, "the program asked for no memory through this allocator: nothing is tried"
        same = unsolved = ended = 0
        for n in range(1, asked + 1):
            status, out, err, _ = run([program, *words], line + b"\n", room, n)
            if (status, out, err) == (0, solved, b""):
                same += 1
            elif (status, out, err) == (0, b"", b"line 1 is not solved\n"):
                unsolved += 1
            else:
                assert status != 0 and out == b"", f"with request {n} of {asked} refused: status {status}, {out[:80]!r}, {err[:80]!r}"
                ended += 1
        print(f"{line.decode()}: {asked} requests: {unsolved} not solved, {ended} ended the program, {same} with the same numbers")


def refuse_boards(program, text, boards, room):
    with open(text, "rb") as it:
        given = it.read()
    status, ample, err, asked = run([program, boards], given, room, 0)
    assert (status, err) == (0, b"") and ample.count(b"\n") == int(boards), f"with ample memory: status {status}, {err!r}"
    assert asked > 0, "the program asked for no memory through this allocator: nothing is tried"
    same = 0
    for n in range(1, asked + 1):
        status, out, err, _ = run([program, boards], given, room, n)
        if (status, out, err) == (0, ample, b""):
            same += 1
        else:
            assert (status, out) == (4, b""), f"with request {n} of {asked} refused: status {status}, {out[:80]!r}, {err[:80]!r}"
    print(f"{text}: {asked} requests, each refused in turn: {asked - same} ended the program, {same} with the same boards")


def refuse_part(program, part, room):
    given = f"\n== {part}\n{stored_runs.read('stdin')[part]}".encode()
    wanted = f"\n== {part}\n{stored_runs.read('stdout')[part]}".encode().splitlines()
    status, out, err, asked = run([program], given, room, 0)
    assert (status, err, out.splitlines()) == (0, b"", wanted), f"with ample memory: status {status}, {err!r}"
    assert asked > 0, "the program asked for no memory through this allocator: nothing is tried"
    kinds = {}
    for n in range(1, asked + 1):
        status, out, err, _ = run([program], given, room, n)
        lines = out.splitlines()
        same = next((k for k, pair in enumerate(zip(lines, wanted)) if pair[0] != pair[1]), len(lines))
        if same < len(lines):
            assert b"OutOfMemory" in lines[same], f"with request {n} of {asked} refused: line {same + 1} is {lines[same]!r}"
            kind = "said OutOfMemory"
        elif same < len(wanted):
            assert status != 0, f"with request {n} of {asked} refused: {same} lines and status 0"
            kind = "ended the program"
        elif n <= 4 and (status, err) == (4, b""):
            # the first four requests are for the list of the program's words: without it nothing is left out, and the status tells
            kind = "the same lines, and a status for the words"
        else:
            assert (status, err) == (0, b""), f"with request {n} of {asked} refused: status {status}, {err!r}"
            kind = "the same lines"
        kinds[kind] = kinds.get(kind, 0) + 1
    print(f"{part}: {asked} requests, each refused in turn: " + ", ".join(f"{kind} {count}" for kind, count in kinds.items()))


def refuse_tests(program, word, room):
    listed = subprocess.run([program, "--list"], capture_output=True, text=True).stdout.split()
    names = [name.rstrip(":") for name in listed if word in name]
    assert names, f"no test has {word} in its name"
    for name in names:
        status, out, err, asked = run([program, name], b"", room, 0)
        assert status == 0, f"{name}, with ample memory: status {status}, {out!r}, {err!r}"
        assert asked > 0, f"{name} asked for no memory through this allocator: nothing is tried"
        for n in range(1, asked + 1):
            status, out, err, _ = run([program, name], b"", room, n)
            assert status == 0, f"{name}, with request {n} of {asked} refused: status {status}, {out!r}, {err!r}"
        print(f"{name}: {asked} requests, each refused in turn")


def main():
    program, given, *words = sys.argv[1:]
    with tempfile.TemporaryDirectory() as room:
        with open(f"{room}/refusing.c", "w") as it:
            it.write(REFUSING)
        subprocess.run(["cc", "-O1", "-shared", "-fPIC", "-o", f"{room}/refusing.so", f"{room}/refusing.c", "-ldl"], check=True)
        if os.path.basename(program) == "deal_tables":
            refuse_tables(program, given, words, room)
        elif os.path.basename(program) == "pbn_boards":
            refuse_boards(program, given, words[0], room)
        elif os.path.basename(program) == "bridge_server_stored_runs":
            refuse_part(program, given, room)
        elif os.path.basename(program).endswith("_tests"):
            refuse_tests(program, given, room)
        else:
            refuse_scripts(program, given, int(words[0]) if words else 0, room)


if __name__ == "__main__":
    main()

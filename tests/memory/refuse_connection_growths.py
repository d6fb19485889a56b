#!/usr/bin/env python3
"""Refuses each growth in turn of a run of messages on connections.

    tests/memory/refuse_connection_growths.py crates/bridge_server_stored_runs/out/bridge_server_stored_runs

Runs the program on the messages of its part `connections`, first with ample memory, and then with the Nth request for memory refused, for N from 1 until a
run asks less often. What each of these must do:

- In the first line, while the session is opened: write nothing, and end with a status of its own.
- While another line is read: end with a status of its own; the lines before are answered as with ample memory.
- While a message is read, tried and answered: that line is {"error":"OutOfMemory"}, or the command that found no room is answered
  OutOfMemory and those after it in its batch NotTried, the ones before it as with ample memory. Then the connection goes on: what
  comes after is answered as by a run with ample memory in which the commands that weren't tried are left out, and the greeting
  that was refused.

At the end it says how many requests each kind of message took.

Then the same of two other conversations of a director, whose answers with ample memory are those of their own run: 64 commands in one
batch on a session in which nothing has happened, and a batch in whose midst the journal outgrows the room that it begins with. A batch of which
a command found no room has the numbers and the version of the batch of those before it.

It needs a C compiler, as refuse_growths.py does.
"""
import json
import pathlib
import subprocess
import sys
import tempfile

sys.path[:0] = [str(pathlib.Path(__file__).resolve().parents[1] / folder) for folder in ("runs",)]
from refuse_growths import NO_MEMORY, REFUSING, compact, object_of, run
from stored_runs import read
from write_query_runs import hold, release

# The line before the part, which the program reads and writes.
NAME = b"\n== connections\n"
MOST_COMMANDS = 64
# so many commands, and then whole batches: the fourth of these passes the 256 entries for which a journal has room at first
BEFORE_WHOLE_BATCHES = 10


def kind_of(line, answer):
    message, told = object_of(line), json.loads(answer)
    for member in ("hello", "do", "audit", "ask"):
        if member in message and (member != "ask" or "version" in told):
            word = message["ask"] if member == "ask" else member
            return str(word) + (", refused" if "error" in told or "denied" in told else "")
    return "no request"


class Connections:
    def __init__(self, program, room, lines):
        self.program, self.room, self.lines, self.known, self.by_message = program, room, lines, {}, {}
        self.places = set()

    def run(self, lines, n):
        status, out, err, asked = run([self.program], NAME + b"".join(lines), self.room, n)
        assert NAME.startswith(out[: len(NAME)]), out[: len(NAME)]
        return status, out[len(NAME) :].splitlines(keepends=True), err, asked

    # the answers from a line on in whose place another stands, with ample memory
    def answers_from(self, at, other):
        if (at, other) not in self.known:
            status, out, err, _ = self.run(self.lines[: at + 1] + [other] + self.lines[at + 2 :], 0)
            assert (status, err) == (0, b""), (status, err)
            self.known[at, other] = out[at:]
        return self.known[at, other]

    # the same message, with so many of its commands
    def with_first(self, line, count):
        message = object_of(line)
        return compact({**message, "do": message["do"][:count]})

    # what a run with one request refused did, in a word; `ample` is what it answers otherwise
    def outcome(self, ample, status, out, again):
        if (status, out) == (0, ample):
            assert again, "a refused request changed nothing"
            return "less room was enough"
        at = next((k for k, pair in enumerate(zip(out, ample)) if pair[0] != pair[1]), len(out))
        if at == len(out):
            assert status != 0 and at < len(ample), f"status {status} after {at} of {len(ample)} answers"
            return "the run ended" if at else "nothing written"
        assert status == 0, f"status {status}"
        line = self.lines[at + 1]
        message, kind = object_of(line), kind_of(line, ample[at])
        self.by_message[kind] = self.by_message.get(kind, 0) + 1
        if out[at] == NO_MEMORY:
            # a query or a message that isn't read changes nothing; a batch was run whole or not at all; a greeting isn't heard
            others = [line] if "hello" not in message else [b"{}\n"]
            others += [self.with_first(line, 0)] if "do" in message and len(message["do"]) <= MOST_COMMANDS else []
            found = [k for k, other in enumerate(others) if out[at + 1 :] == self.answers_from(at, other)[1:]]
            assert found, f"answer {at + 1} is {out[at]!r}, and the rest fits none of {others!r}"
            return "a message found no memory"
        receipt, tried = json.loads(out[at]), len(json.loads(ample[at])["answers"])
        place = receipt["answers"].index("OutOfMemory")
        of_those_before, *rest = self.answers_from(at, self.with_first(line, place))
        before = json.loads(of_those_before)
        wanted = {**before, "answers": before["answers"] + ["OutOfMemory"] + ["NotTried"] * (tried - place - 1)}
        assert receipt == wanted, f"{receipt}, not {wanted}"
        assert out[at + 1 :] == rest, f"after answer {at + 1}, a command without memory"
        self.places.add(place)
        return "a command found no room"


    # refuses each request in turn, and gives how the runs went, and the answers with ample memory
    def refuse_each(self):
        kinds = {}
        status, ample, err, asked = self.run(self.lines, 0)
        assert (status, len(ample), err) == (0, len(self.lines) - 1, b""), f"with ample memory: status {status}, {len(ample)} answers, {err!r}"
        assert asked > 0, "the program asked for no memory through this allocator: nothing is tried"
        for n in range(1, asked + 1):
            status, out, err, count = self.run(self.lines, n)
            try:
                assert err == b"", err
                if n <= 4 and (status, out) == (4, ample):
                    # the first four requests are for the list of the program's words: without it nothing is left out, and the status tells
                    kind = "all answered, and a status for the words"
                else:
                    kind = self.outcome(ample, status, out, count > asked)
            except AssertionError as fault:
                raise SystemExit(f"with request {n} of {asked} refused: {fault}")
            kinds[kind] = kinds.get(kind, 0) + 1
        return ample, f"{asked} requests for memory, each refused in turn: " + ", ".join(f"{kind} {count}" for kind, count in kinds.items())


# a director signs in, has board 1 held and released in turn in batches of so many commands, and asks for the status
def held_and_released(session, sizes):
    both, lines, begun = [hold(1), release(1)], [session, compact({"hello": "d", "token": "abc"})], 0
    for size in sizes:
        lines.append(compact({"do": [both[k % 2] for k in range(begun, begun + size)]}))
        begun += size
    return lines + [compact({"ask": "status"})]


def main():
    (program,) = sys.argv[1:]
    with tempfile.TemporaryDirectory() as room:
        with open(f"{room}/refusing.c", "w") as it:
            it.write(REFUSING)
        subprocess.run(["cc", "-O1", "-shared", "-fPIC", "-o", f"{room}/refusing.so", f"{room}/refusing.c", "-ldl"], check=True)
        lines = read("stdin")["connections"].encode().splitlines(keepends=True)
        connections = Connections(program, room, lines)
        ample, told = connections.refuse_each()
        print(told)
        kinds = [kind_of(line, answer) for line, answer in zip(lines[1:], ample) if answer.strip()]
        for kind in sorted(set(kinds)):
            print(f"    {kind}: {connections.by_message.get(kind, 0)} in {kinds.count(kind)} messages")

        first = Connections(program, room, held_and_released(lines[0], [MOST_COMMANDS]))
        _, told = first.refuse_each()
        print(f"{MOST_COMMANDS} commands from version 0: {told}")

        sizes = [BEFORE_WHOLE_BATCHES] + [MOST_COMMANDS] * 4
        grown = Connections(program, room, held_and_released(lines[0], sizes))
        _, told = grown.refuse_each()
        midst = [place for place in grown.places if 0 < place < MOST_COMMANDS - 1]
        print(f"a journal that outgrows its first room: {told}; commands stood before it: {sorted(grown.places)}")
        if not midst:
            raise SystemExit("no command in the midst of a batch found no room: the journal's first room wasn't passed there")


if __name__ == "__main__":
    main()

#!/usr/bin/env python3
# Measures what a command costs at the end of a long session: a program is fed 60000 commands that are all accepted, in batches of 64,
# and the processor time of each answer is read (Linux's schedstat). Give the program, which `rt run` leaves in
# crates/bridge_server/out, and how often the whole is done (3 times where no number is given): of each line the least time counts,
# so that other work of the machine hardly does.
#
#     benches/book_time.py crates/bridge_server/out/bridge_server
#
# The session is as large as one may be: 256 accounts, 16 tables, 64 boards. Its accounts are an administrator, a director, 64 seated
# contestants, and scorers: who is only a scorer is shown no board, and so is asked about at each command that names one. First all
# 960 cells are entered and confirmed, round by round; from then on boards are held and released in turn. The journal is then
# full: one command more is refused at once.
import json
import subprocess
import sys

TABLES, ROUNDS, PER_SET, USERS, COMMANDS, BATCH = 16, 15, 4, 256, 60000, 64
BOARDS = TABLES * PER_SET
DIGEST = "ba7816bf8f01cfea414140de5dae2223b00361a396177a9cb410ff61f20015ad"
HANDS = "AKQJT98765432... .AKQJT98765432.. ..AKQJT98765432. ...AKQJT98765432"
RESULT = {"by": "N", "doubled": 0, "level": 4, "strain": "S", "tricks": 10}


def compact(value):
    return (json.dumps(value, separators=(",", ":"), sort_keys=True) + "\n").encode()


def session():
    users = [{"digest": DIGEST, "name": "a", "roles": ["Administrator"]}, {"digest": DIGEST, "name": "d", "roles": ["Director"]}]
    for side, places in (("NS", "NS"), ("EW", "EW")):
        for pair in range(1, TABLES + 1):
            for place in places:
                users.append({"digest": DIGEST, "name": f"{side}{pair}{place}", "pair": f"{side}{pair}", "place": place, "roles": ["Contestant"]})
    users += [{"digest": DIGEST, "name": f"k{n}", "roles": ["Scorer"]} for n in range(USERS - len(users))]
    pbn = "".join(f'[Board "{board}"]\n[Deal "N:{HANDS}"]\n\n' for board in range(1, BOARDS + 1))
    return {"budget": 0, "pbn": pbn, "per_set": PER_SET, "rounds": ROUNDS, "tables": TABLES, "users": users}


# the commands, each with who gives it
def commands():
    for r in range(ROUNDS):
        if r:
            yield "d", {"cmd": "NextRound"}
        cells = [(t + 1, (t + r) % TABLES * PER_SET + k + 1) for t in range(TABLES) for k in range(PER_SET)]
        for cmd in ("Enter", "Confirm"):
            for table, board in cells:
                yield "d", {"board": board, "cmd": cmd, "result": RESULT, "table": table}
    k = 0
    while True:
        board = k % BOARDS + 1
        yield "d", {"board": board, "cmd": "Hold"}
        yield "d", {"board": board, "cmd": "Release"}
        k += 1


def lines():
    source = commands()
    for done in range(0, COMMANDS, BATCH):
        batch = [next(source)[1] for _ in range(min(BATCH, COMMANDS - done))]
        yield compact({"as": "d", "do": batch}), len(batch)


# the seconds of each line, and of a command past the last
def times(program, script):
    ran = subprocess.Popen([program, "script"], stdin=subprocess.PIPE, stdout=subprocess.PIPE)

    # the seconds that the program has run so far
    def spent():
        with open(f"/proc/{ran.pid}/schedstat") as it:
            return int(it.read().split()[0]) / 1e9

    def tell(line):
        start = spent()
        ran.stdin.write(line)
        ran.stdin.flush()
        answer = ran.stdout.readline()
        return spent() - start, json.loads(answer)

    ran.stdin.write(compact(session()))
    tell(compact({"as": "d", "ask": "board", "board": 1}))
    took, version = [], 0
    for line, count in script:
        seconds, answer = tell(line)
        version += count
        assert answer["answers"] == ["ok"] * count and answer["version"] == version, answer
        took.append(seconds)
    full, answer = tell(compact({"as": "d", "do": [{"board": 1, "cmd": "Hold"}]}))
    assert answer["answers"] == ["JournalFull"], answer
    ran.stdin.close()
    assert ran.wait() == 0
    return took, full


def main():
    script = list(lines())
    runs = [times(sys.argv[1], script) for _ in range(int(sys.argv[2]) if len(sys.argv) > 2 else 3)]
    least = [min(seconds) for seconds in zip(*(took for took, full in runs))]
    counts = [count for line, count in script]
    starts = [sum(counts[:k]) for k in range(len(counts))]

    # the seconds of the commands from one to another, a line that stands across counted by its part
    def spent(first, last):
        return sum(seconds * max(0, min(start + count, last) - max(start, first)) / count for seconds, start, count in zip(least, starts, counts))

    results = 2 * TABLES * ROUNDS * PER_SET + ROUNDS - 1
    tenth = COMMANDS // 10
    first, last = spent(0, tenth), spent(COMMANDS - tenth, COMMANDS)
    print(f"{COMMANDS} commands: {spent(0, COMMANDS):.3f} s; the first tenth {first:.3f} s, the last tenth {last:.3f} s, {last / first:.2f} times the first")
    span = (COMMANDS - results) // 10
    early, late = spent(results, results + span), spent(COMMANDS - span, COMMANDS)
    print(f"the first tenth of those that hold and release {early:.3f} s, the last {late:.3f} s, {late / early:.2f} times the first")
    print(f"a Hold and a Release: {2e6 * last / tenth:.0f} us; an Enter and a Confirm: {2e6 * spent(0, results) / results:.0f} us")
    print(f"a command more, where the journal is full: {1e6 * min(full for took, full in runs):.0f} us")


if __name__ == "__main__":
    main()

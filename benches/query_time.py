#!/usr/bin/env python3
# The time of each query, in a small session and in the largest.
#
#     benches/query_time.py crates/bridge_server/out/bridge_server [QUERIES] [RUNS]
#
# Opens a session of 3 tables, 3 boards and 7 users, and one of 16 tables, 64 boards and 256 users. In each the director gives every
# cell a result, round by round: all boards are complete, so a spectator is shown them all. Then it sends QUERIES
# queries of a kind (300), and takes the program's processor time for them (/proc/PID/schedstat), reading the lines and
# writing the answers with it. Prints the least of RUNS runs (3), in microseconds a query; and the same of the largest session once
# 20,000 commands more were accepted, which hold and release a board.
#
#     benches/query_time.py --both-ways crates/display_times/out/display_times [TIMES]
#
# Gives the largest session to one run of display_times, which answers each query TIMES times in a row (300) by what the view
# keeps and as often afresh, in turn. Prints the nanoseconds of the view's own part and of the whole message, each both ways, with
# the part of the time afresh that the kept way takes.
import json
import subprocess
import sys
import threading

DIGEST = "ba7816bf8f01cfea414140de5dae2223b00361a396177a9cb410ff61f20015ad"
HANDS = "AKQJT98765432... .AKQJT98765432.. ..AKQJT98765432. ...AKQJT98765432"
SMALL = {"tables": 3, "rounds": 3, "per_set": 1, "users": 7}
LARGEST = {"tables": 16, "rounds": 15, "per_set": 4, "users": 256}
BATCH, COMMANDS_MORE = 64, 20000


def compact(value):
    return (json.dumps(value, separators=(",", ":"), sort_keys=True) + "\n").encode()


# an administrator, a director, a spectator, two contestants at each of the tables that there is room for, and scorers
def session(tables, rounds, per_set, users):
    accounts = [{"digest": DIGEST, "name": name, "roles": [role]} for name, role in (("a", "Administrator"), ("d", "Director"), ("s", "Spectator"))]
    for table in range(1, tables + 1):
        for pair, place in ((f"NS{table}", "N"), (f"EW{table}", "E")):
            if len(accounts) < users:
                accounts.append({"digest": DIGEST, "name": pair, "pair": pair, "place": place, "roles": ["Contestant"]})
    accounts += [{"digest": DIGEST, "name": f"k{n}", "roles": ["Scorer"]} for n in range(users - len(accounts))]
    pbn = "".join(f'[Board "{board}"]\n[Deal "N:{HANDS}"]\n\n' for board in range(1, tables * per_set + 1))
    return {"budget": 0, "pbn": pbn, "per_set": per_set, "rounds": rounds, "tables": tables, "users": accounts}


# what one table plays of one board
def result(table, board):
    return {"by": "NESW"[(table + board) % 4], "doubled": table % 3, "level": 1 + board % 7, "strain": "SHDCN"[table % 5], "tricks": (table + 3 * board) % 14}


# each cell ruled and then corrected to a result that was played, round by round
def results(tables, rounds, per_set, users):
    for r in range(rounds):
        cells = [(t + 1, (t + r) % tables * per_set + k + 1) for t in range(tables) for k in range(per_set)]
        if r:
            yield [{"cmd": "NextRound"}]
        yield [{"board": board, "cmd": "Rule", "ew": 40, "ns": 60, "reason": 7, "table": table} for table, board in cells]
        yield [{"board": board, "cmd": "Correct", "play": ["SA", "D2"], "result": result(table, board), "table": table} for table, board in cells]


# each kind of query with a message of it: about the last board, and a table that plays it
def queries(tables, rounds, per_set, users):
    board, atom = tables * per_set, {"dd": {"by": "N", "max": 13, "min": 0, "strain": "S"}}
    table = next(t + 1 for t in range(tables) if (t + 1) % tables == (board - 1) // per_set)
    for word, name, members in (
        ("status", "s", {}),
        ("board", "s", {"board": board}),
        ("traveller", "s", {"board": board}),
        ("analysis", "s", {"board": board}),
        ("play", "d", {"board": board, "table": table}),
        ("costs", "d", {"board": board, "table": table}),
        ("reason", "d", {"board": board, "table": table}),
        ("list", "s", {}),
        ("list, 32 atoms", "s", {"filter": {"not": {"and": [{"not": {"or": [{"score": {"max": 1, "min": 0}}, atom]}}] * 16}}}),
        ("ranking", "s", {}),
        ("accounts", "a", {}),
        ("board, denied", "k0", {"board": board}),
    ):
        yield word, compact({"as": name, "ask": word.split(",")[0], **members}), "denied" if "denied" in word else word.split(",")[0]


class Program:
    def __init__(self, program, opening):
        self.ran = subprocess.Popen([program, "script"], stdin=subprocess.PIPE, stdout=subprocess.PIPE)
        self.ran.stdin.write(compact(opening))

    # the seconds that the program has run so far
    def spent(self):
        with open(f"/proc/{self.ran.pid}/schedstat") as it:
            return int(it.read().split()[0]) / 1e9

    # the answers to lines that are written while earlier ones are answered
    def tell(self, lines):
        def write():
            self.ran.stdin.write(b"".join(lines))
            self.ran.stdin.flush()

        writer = threading.Thread(target=write)
        writer.start()
        answers = [self.ran.stdout.readline() for _ in lines]
        writer.join()
        return answers

    def do(self, batches):
        answers = self.tell([compact({"as": "d", "do": commands}) for commands in batches])
        for commands, answer in zip(batches, answers, strict=True):
            assert json.loads(answer)["answers"] == ["ok"] * len(commands), answer

    # the microseconds of a query of each kind
    def times(self, kinds, count):
        took = {}
        for word, line, wanted in kinds:
            start = self.spent()
            answers = self.tell([line] * count)
            took[word] = 1e6 * (self.spent() - start) / count
            assert all(wanted in json.loads(answer) for answer in answers), (word, answers[0])
        return took

    def close(self):
        self.ran.stdin.close()
        assert self.ran.wait() == 0


# the times in a session, and once more commands were accepted
def run(program, size, count, more):
    ran = Program(program, session(**size))
    ran.do(list(results(**size)))
    kinds = list(queries(**size))
    took = [ran.times(kinds, count)]
    if more:
        ran.do([[{"board": 1, "cmd": "Hold"}, {"board": 1, "cmd": "Release"}] * (BATCH // 2)] * (more // BATCH))
        took.append(ran.times(kinds, count))
    ran.close()
    return took


# the largest session's queries, by what a view keeps and afresh, in one run of display_times
def both_ways(program, times="300"):
    lines = [compact(session(**LARGEST))]
    lines += [compact({"as": "d", "do": commands}) for commands in results(**LARGEST)]
    kinds = list(queries(**LARGEST))
    told = subprocess.run([program, f"times={times}"], input=b"".join(lines + [line for word, line, wanted in kinds]), stdout=subprocess.PIPE, check=True)
    rows = told.stdout.decode().splitlines()
    print(f"{'nanoseconds a query':24}{'kept':>10}{'afresh':>10}{'ratio':>8}{'message':>10}{'afresh':>10}{'ratio':>8}")
    for (word, line, wanted), row in zip(kinds, rows, strict=True):
        kept, afresh, message, message_afresh = (int(number) for number in row.split()[1::2])
        print(f"{word:24}{kept:10}{afresh:10}{kept / afresh:8.3f}{message:10}{message_afresh:10}{message / message_afresh:8.3f}")


def main():
    if sys.argv[1] == "--both-ways":
        return both_ways(*sys.argv[2:])
    program, count, runs = sys.argv[1], *(int(word) for word in (sys.argv[2:] + ["300", "3"][len(sys.argv) - 2 :]))
    columns = []
    for size, more in ((SMALL, 0), (LARGEST, COMMANDS_MORE)):
        each = [run(program, size, count, more) for _ in range(runs)]
        columns += [{word: min(took[word] for took in same) for word in same[0]} for same in zip(*each)]
    print(f"{'microseconds a query':24}{'3, 3, 7':>12}{'16, 64, 256':>12}{'later':>12}")
    for word in columns[0]:
        print(f"{word:24}" + "".join(f"{took[word]:12.0f}" for took in columns))


main()

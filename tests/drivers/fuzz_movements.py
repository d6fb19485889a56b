#!/usr/bin/env python3
"""Hands `bridge_server script` sessions of random movements, and compares each answer with the plain model.

    python3 tests/drivers/fuzz_movements.py crates/bridge_server/out/bridge_server
    python3 tests/drivers/fuzz_movements.py PROGRAM SEED SESSIONS
    python3 tests/drivers/fuzz_movements.py none         # without a program: the plain reader and the model alone

All that is random comes from the seed, which is told. It has five parts:

- Lists that can be played (100 where nothing else is said), of each edition, with and without a pair that is absent: movements that have a
  word with their rounds, tables, sets and pairs renumbered, some rows left out and some turned, and lists that are put together row by row.
  Some users have names to show, which an administrator changes in the second edition, and some sessions a title, a date and reasons.
  In each session some 150 queries, batches and audits are answered byte for byte as by the model of tests/models/judged_session.py.
- As many lists with one row spoilt: the program names the row and the reason that tests/models/session_reader.py finds first.
- Each word at each number of tables, with random rounds and switches: the status has the model's rows.
- A Mitchell by its rows is answered as one that names no movement, but for the status's rows.
- That a list has a fault just where counting finds two rows that clash, which is told apart from how the first one is found.

Each line is a check: 'ok', or 'FAILED' with what came. The status is 1 where one failed.
"""
import collections
import concurrent.futures
import json
import pathlib
import random
import re
import subprocess
import sys

sys.path[:0] = [str(pathlib.Path(__file__).resolve().parents[1] / folder) for folder in ("models", "runs")]
from checks import check, status
from judged_session import JudgedSession
from message_reader import read_line
from movements import MOST_BOARDS, PAIRS, first_misplaced, howell, mitchell, most_rounds, movement_of, pairs_in, share_and_relay, shared_in, web
from refused import refusal_of
from session_reader import TABLES_OF, check_session
from write_stored_runs import WHOLE_SUITS, confirm, contract, enter, game, text_of, user

PROGRAM = sys.argv[1] if len(sys.argv) > 1 else "crates/bridge_server/out/bridge_server"
SEED, SESSIONS = (int(word) for word in [*sys.argv[2:4], *(["2026", "100"][len(sys.argv[2:4]):])])
FIRST = "NESW"
# names to show, and what else a session tells of itself
SHOWN = ["Anna Müller", 'Ben "Ace" Roth', "水野", "x" * 64]
NOTICES = {"date": "2026-11-27", "reasons": ["late", "a lead out of turn"], "title": "Friday Pairs"}
FAULTS = ("OutOfRange", "TableTwice", "SetAtTableAgain", "PairTwice", "SetAgain", "OpponentsAgain", "SharedByTooMany")


# ---- lists

def renumbered(rng, rows):
    """The same movement with other numbers of rounds, tables, sets and pairs, some rows turned and some left out, in any order."""
    kept = [row for row in rows if rng.random() < rng.choice([1, 1, 0.9])] or rows
    numbers = [dict(zip(found, rng.sample(sorted(found), len(found)))) for found in ({row[place] for row in rows} for place in range(3))]
    names = dict(zip(pairs_in(rows), rng.sample(PAIRS, len(pairs_in(rows))) if rng.random() < 0.5 else pairs_in(rows)))
    changed = [[*(numbers[place][row[place]] for place in range(3)), *(names[pair] for pair in row[3:])] for row in kept]
    turned = rng.choice([0, 0, 0.3])
    changed = [[*row[:3], row[4], row[3]] if rng.random() < turned else row for row in changed]
    return rng.sample(changed, len(changed))


def of_a_word(rng):
    word = rng.choice(["mitchell", "howell", "share_and_relay", "web"])
    least, most, even = TABLES_OF[word]
    tables = rng.choice([many for many in range(least, min(most, 11) + 1) if not (even and many % 2)])
    rounds = rng.choice([many for many in range(1, most_rounds(tables, word) + 1) if word != "web" or many % 2])
    return tables, rounds, renumbered(rng, {"mitchell": mitchell, "howell": howell, "share_and_relay": share_and_relay, "web": web}[word](tables, rounds))


def clashes(rows, shared_by):
    """Whether two rows clash, by counting what may be there once; a row alone is looked at elsewhere."""
    once = collections.Counter()
    for number, table, which, *both in rows:
        once.update([("table", number, table), ("cell", table, which), ("met", *sorted(both))])
        once.update(("round", number, pair) for pair in both)
        once.update(("set", which, pair) for pair in both)
    return max(once.values()) > 1 or max(collections.Counter((row[0], row[2]) for row in rows).values()) > shared_by


def row_by_row(rng):
    """Rows that are drawn one after another; a row that can't stand is left out."""
    tables, rounds, sets = rng.randint(3, 16), rng.randint(1, 12), rng.randint(1, 20)
    pairs, shared_by, rows = rng.sample(PAIRS, rng.randint(4, 32)), rng.randint(1, 4), []
    for _ in range(rng.choice([30, 100, 400])):
        row = [rng.randint(1, rounds), rng.randint(1, tables), rng.randint(1, sets), *rng.sample(pairs, 2)]
        if not clashes([*rows, row], shared_by):
            rows.append(row)
    return tables, rounds, rows


def some_session(rng):
    """A session object of a list that can be played, with users on some of its seats."""
    tables, rounds, rows = of_a_word(rng) if rng.random() < 0.6 else row_by_row(rng)
    sets, seated = max(row[2] for row in rows), pairs_in(rows)
    edition, absent = rng.choice([1, 1, 2]), rng.choice([None, None, rng.choice(seated)])
    seats = [(pair, place) for pair in seated if pair != absent for place in pair[:2]]
    users = [user(name, role) for name, role in (("a", "Administrator"), ("d", "Director"), ("k", "Scorer"), ("s", "Spectator"), ("m", "Member"),
                                                 ("c", "Contestant"))]
    users += [user(f"p{number}", "Contestant", *seat) for number, seat in enumerate(rng.sample(seats, min(len(seats), 5)), 1)]
    users += [user("t", "Commentator")] if edition == 2 else []
    users = [{**one, "shown": rng.choice(SHOWN)} if rng.random() < 0.3 else one for one in users]
    notices = {name: value for name, value in NOTICES.items() if rng.random() < 0.3}
    per_set = rng.randint(1, min(3, MOST_BOARDS // sets))
    found = {"budget": 0, "movement": rows, "pbn": "".join(game(board, FIRST[board % 4]) for board in range(1, sets * per_set + 1)),
             "per_set": per_set, "rounds": rounds + rng.choice([0, 0, 0, 1]), "shared_by": max(shared_in(rows), rng.randint(1, 4)), "tables": tables,
             "users": users, **({} if absent is None else {"absent": absent}), **({"edition": 2} if edition == 2 else {}), **notices}
    if found["shared_by"] == 1 and rng.random() < 0.5:
        del found["shared_by"]
    return found


def deal_of(first):
    return "N:" + " ".join((WHOLE_SUITS.split() * 2)[4 - FIRST.index(first):][:4])


def model_of(found):
    more = {name: found[name] for name in ("absent", "edition", "movement", "switched", *NOTICES) if name in found}
    deals = [deal_of(FIRST[board % 4]) for board in range(1, found["pbn"].count("[Board") + 1)]
    return JudgedSession(*(found[name] for name in ("tables", "rounds", "per_set", "users")), deals, **more)


# ---- messages

def some_cell(rng, model):
    """A cell of the present round, most often, or any other, or none."""
    cells = [(row[1], board, row[0]) for board in model.boards for row in model.scheduled[board]]
    now = [cell for cell in cells if cell[2] <= model.round and cell[:2] not in model.results]
    if now and rng.random() < 0.75:
        return rng.choice(now)[:2]
    return rng.choice(cells)[:2] if cells and rng.random() < 0.8 else (rng.randint(0, model.tables + 1), rng.randint(0, len(model.boards) + 1))


def some_batch(rng, model):
    table, board = some_cell(rng, model)
    outcome = rng.choice(["pass", contract(rng.choice("NESW"), rng.randint(1, 7), rng.choice("SHDCN"), rng.randint(0, 2), rng.randint(0, 13))])
    cell, pair = {"board": board, "table": table}, rng.choice(PAIRS)
    name, place = rng.choice(["c", "p1", "p2", "k"]), rng.choice(pair[:2] if rng.random() < 0.8 else "NESW")
    if model.edition == 2 and rng.random() < 0.1:
        return rng.choice("aaad"), [{"cmd": "Rename", "name": name, "shown": rng.choice(["", *SHOWN])}]
    kind = rng.random()
    if kind < 0.55:
        return "k", [enter(table, board, outcome), confirm(table, board, outcome)]
    if kind < 0.7:
        return "d", [{"cmd": "NextRound"}]
    if kind < 0.75:
        return "d", [{"cmd": "Unseat", "name": name}, {"cmd": "Seat", "name": name, "pair": pair, "place": place}]
    if kind < 0.8:
        seated = rng.choice(model.playing or PAIRS)
        return "d", [{"cmd": "Unseat", "name": name}, {"cmd": "Seat", "name": name, "pair": seated, "place": rng.choice(seated[:2])}]
    if kind < 0.85:
        awaited = [(row[1], each) for each in model.boards for row in model.scheduled[each] if (row[1], each) not in model.results]
        return "d", [{"cmd": "Rule", "board": each, "ew": 40, "ns": 60, "reason": 7, "table": one} for one, each in awaited[:20]] + [{"cmd": "Close"}]
    commands = [{"cmd": "Rule", **cell, "ew": 30, "ns": 70, "reason": 3}, {"cmd": "Void", **cell}, {"cmd": "Correct", **cell, "result": outcome},
                {"cmd": "Hold", "board": board}, {"cmd": "Release", "board": board}]
    return rng.choice(["d", "d", "d", "k", "p1"]), rng.sample(commands, rng.randint(1, 5))


def some_query(rng, model):
    ask = rng.choice(["status", "board", "board", "traveller", "analysis", "play", "costs", "reason", "list", "ranking", "ranking", "accounts"])
    table, board = some_cell(rng, model) if rng.random() < 0.3 else rng.choice([*model.results, (1, 1)])
    about = {"board": {"board": board}, "traveller": {"board": board}, "analysis": {"board": board}}.get(ask, {})
    if ask in ("play", "costs", "reason"):
        about = {"board": board, "table": table}
    return {"ask": ask, **about}


def some_message(rng, model):
    if rng.random() < 0.4:
        name, commands = some_batch(rng, model)
        return {"as": name, "do": commands}
    if rng.random() < 0.05:
        return {"as": rng.choice(["a", "d", "s"]), "audit": {"from": rng.randint(1, model.version + 1), "limit": 10}}
    return {"as": rng.choice([*model.users, "zz"]), **some_query(rng, model)}


def script_of(found, messages):
    return "".join(text_of(each) + "\n" for each in (found, *messages)).encode()


def run(lines):
    if PROGRAM == "none":
        return None
    return subprocess.run([PROGRAM, "script"], input=lines, capture_output=True, check=False)


def play(seed):
    """What differs in a session of a list that can be played."""
    rng = random.Random(seed)
    found = some_session(rng)
    line = text_of(found).encode()
    refusal, _ = refusal_of(check_session, line)
    if refusal:
        return f"seed {seed}: the plain reader refuses it: {refusal}", 0
    model = model_of(json.loads(line))
    messages, wanted = [], []

    def say(message):
        messages.append(message)
        wanted.append(text_of(model.answer(*read_line(text_of(message).encode(), model.edition))))
    say({"as": "s", "ask": "status"})
    for _ in range(150):
        say(some_message(rng, model))
    for name in ("d", "s", "p1"):
        say({"as": name, "ask": "ranking"})
        say({"as": name, "ask": "status"})
    ran = run(script_of(found, messages))
    if ran is None:
        return None, model.version
    got = ran.stdout.decode().splitlines()
    for number, (message, answer) in enumerate(zip(messages, wanted)):
        if number >= len(got) or got[number] != answer:
            return f"seed {seed}, message {number + 1}: {text_of(message)[:300]}: {(got[number:] or ['nothing'])[0][:300]} for {answer[:300]}", 0
    return (None if (ran.returncode, ran.stderr, len(got)) == (0, b"", len(wanted)) else f"seed {seed}: {ran.returncode}, {ran.stderr}"), model.version


def spoilt(seed):
    """A list in which one row is another than it was, so that it can't be played; and what is said of it."""
    rng = random.Random(seed)
    while True:
        found = some_session(rng)
        if len(found["movement"]) < 2:
            continue
        rows = [list(row) for row in found["movement"]]
        place, part = rng.randrange(len(rows)), rng.randrange(5)
        other = rng.choice(rows)
        if rng.random() < 0.3:
            rows[place] = rng.choice([list(other), [*other[:3], other[4], other[3]], [*rows[place][:3], *other[3:]], [*other[:3], *rows[place][3:]]])
        elif part < 3:
            rows[place][part] = rng.choice([*[other[part]] * 5, rows[place][part] + 1, rng.choice([0, 17])])
        else:
            rows[place][part] = rng.choice([*[other[part], other[7 - part]] * 5, rows[place][7 - part], "NS17"])
        if rng.random() < 0.15 and shared_in(rows) > 1:
            found["shared_by"] = shared_in(rows) - 1
        found["movement"] = rows
        line = text_of(found).encode()
        refusal, _ = refusal_of(check_session, line)
        if refusal and refusal.split("(")[0] in FAULTS:
            break
    ran = run(line + b"\n")
    got = refusal if ran is None else ran.stderr.decode().removeprefix("bridge_server: ").rstrip("\n")
    return refusal, got, None if (refusal, 1, b"") == (got, ran.returncode if ran else 1, ran.stdout if ran else b"") else (seed, refusal, got)


def status_of_word(word, tables, rounds, switched):
    """Whether a session of a word opens with the model's rows."""
    sets = movement_of(tables, rounds, word, switched).sets
    found = {"budget": 0, "movement": word, "pbn": "".join(game(board, FIRST[board % 4]) for board in range(1, sets + 1)), "per_set": 1,
             "rounds": rounds, "tables": tables, "users": [user("a", "Administrator")], **({"switched": switched} if switched else {})}
    message = {"as": "a", "ask": "status"}
    wanted = text_of(model_of(found).answer(*read_line(text_of(message).encode(), 1)))
    ran = run(script_of(found, [message]))
    got = wanted if ran is None else ran.stdout.decode().rstrip("\n") or ran.stderr.decode()
    return None if got == wanted else (word, tables, rounds, switched, got[:300])


def words():
    rng = random.Random(SEED)
    for word, (least, most, even) in TABLES_OF.items():
        for tables in range(least, most + 1):
            if not (even and tables % 2):
                fits = [many for many in range(1, most_rounds(tables, word) + 1) if word != "web" or many % 2]
                for rounds in {fits[-1], rng.choice(fits)}:
                    for switched in {0} if word == "howell" else {0, 1, rng.randint(0, rounds)}:
                        yield word, tables, rounds, switched


def written_out(seed):
    """Whether a Mitchell by its rows is answered as the plain one, but that its status has the rows."""
    rng = random.Random(seed)
    tables = rng.randint(3, 9)
    rounds = rng.randint(1, most_rounds(tables, "mitchell"))
    absent = rng.choice([{}, {"absent": rng.choice(["NS", "EW"]) + str(rng.randint(1, tables))}])
    seats = {pair for pair in ("NS1", "EW2", "NS3") if pair != absent.get("absent")}
    plain = {"budget": 0, "pbn": "".join(game(board, FIRST[board % 4]) for board in range(1, tables + 1)), "per_set": 1, "rounds": rounds,
             "tables": tables, **absent,
             "users": [user("a", "Administrator"), user("d", "Director"), user("k", "Scorer"), user("s", "Spectator"), user("c", "Contestant"),
                       *(user(f"p{number}", "Contestant", pair, pair[0]) for number, pair in enumerate(sorted(seats), 1))]}
    rows = mitchell(tables, rounds)
    listed = {**plain, "movement": rng.sample(rows, len(rows))}
    model, messages, wanted = model_of(plain), [], []
    for _ in range(100):
        messages.append(some_message(rng, model))
        wanted.append(text_of(model.answer(*read_line(text_of(messages[-1]).encode(), 1))))
    answers = []
    for found in (plain, listed):
        again, ran = model_of(found), run(script_of(found, messages))
        answers.append([text_of(again.answer(*read_line(text_of(each).encode(), 1))) for each in messages] if ran is None
                       else ran.stdout.decode().splitlines())
    without_rows = [re.sub(r'"movement":\[\[.*?\]\],', "", answer) for answer in answers[1]]
    return None if answers[0] == without_rows == wanted else (seed, ran and ran.stderr, [one for one in zip(wanted, *answers) if len(set(one)) > 1][:1])


def counted(seed):
    """Whether a list has a fault just where counting finds a clash, of a list with few numbers, so that both happen."""
    rng = random.Random(seed)
    rows = [(rng.randint(1, 5), rng.randint(1, 5), rng.randint(1, 5), *rng.sample(PAIRS[:12], 2)) for _ in range(rng.randint(1, 4))]
    return clashes(rows, 2), first_misplaced(rows, 5, 5, 2) is not None


def main():
    print(f"        seed {SEED}")
    with concurrent.futures.ProcessPoolExecutor(4) as pool:
        seeds = range(SEED, SEED + SESSIONS)
        played = list(pool.map(play, seeds))
        check(f"{SESSIONS} sessions of lists that can be played, with {sum(many for _, many in played)} accepted commands", [],
              [differs for differs, _ in played if differs][:2])
        told = list(pool.map(spoilt, seeds))
        kinds = collections.Counter(refusal.split("(")[0] for refusal, _, _ in told)
        check(f"{SESSIONS} lists with one row spoilt: {dict(kinds)}", [], [differs for _, _, differs in told if differs][:2])
        if SESSIONS >= 100:
            check("there was each fault of a row", set(FAULTS), set(kinds))
        tried = list(words())
        check(f"each word at each number of tables, {len(tried)} sessions", [], [one for one in pool.map(status_of_word, *zip(*tried)) if one][:2])
        check(f"{SESSIONS} Mitchells by their rows", [], [differs for differs in pool.map(written_out, seeds) if differs][:2])
        found = list(pool.map(counted, range(SEED, SEED + 20 * SESSIONS), chunksize=100))
        check(f"a fault just where rows clash: {dict(collections.Counter(found))}", {(True, True), (False, False)}, set(found))
    return status()


if __name__ == "__main__":
    sys.exit(main())

"""Movements as plain lists of rows, by docs/SESSION.md: a row is (round, table, set, North-South pair, East-West pair), each counted from 1.

What a session object's members say is played, which list can be played at all, and what a list is. It knows nothing of the program.
"""
from collections import Counter, namedtuple
from itertools import combinations

LEAST_TABLES, MOST_TABLES, MOST_PER_SET, MOST_SETS, MOST_BOARDS, MOST_ROWS = 3, 16, 8, 31, 128, 496
PAIRS = [f"{side}{number}" for side in ("NS", "EW") for number in range(1, MOST_TABLES + 1)]
WORDS = ["mitchell", "howell", "share_and_relay", "web"]

# All rows, with those of a pair that is absent; how many sets there are; the pairs, absent or not; and whether the object named it.
Movement = namedtuple("Movement", "rows sets pairs is_named")

# Three tables: no five rounds in which every two pairs meet once leave every set at one table; here one set is shared, in round 1.
HOWELL_OF_THREE = [
    (1, 1, 1, "NS1", "EW1"), (1, 2, 1, "NS2", "EW2"), (1, 3, 1, "NS3", "EW3"),
    (2, 1, 2, "EW3", "NS1"), (2, 2, 5, "EW1", "NS2"), (2, 3, 3, "NS3", "EW2"),
    (3, 1, 4, "NS1", "EW2"), (3, 2, 3, "EW3", "EW1"), (3, 3, 2, "NS3", "NS2"),
    (4, 1, 5, "NS3", "NS1"), (4, 2, 2, "EW1", "EW2"), (4, 3, 4, "EW3", "NS2"),
    (5, 1, 3, "NS1", "NS2"), (5, 2, 4, "EW1", "NS3"), (5, 3, 5, "EW2", "EW3"),
]
# Of 4 to 8 tables: who meet at tables 2, 3, .. in the first round, the sets at tables 1, 2, .., and the tables where the two
# sit the other way round. One pair stays at table 1 and meets pair 0; the others and the sets go up by one each round.
HOWELLS = {
    4: ("1-3 2-6 4-5", "5 0 2 6", ""),
    5: ("1-2 3-7 4-6 5-8", "1 0 3 8 2", ""),
    6: ("1-2 3-6 4-8 5-10 7-9", "4 0 3 10 6 1", "6"),
    7: ("1-2 3-6 4-9 5-12 7-11 8-10", "7 0 8 5 2 11 3", "6"),
    8: ("1-2 3-5 4-10 6-14 7-11 8-13 9-12", "8 0 5 7 10 1 14 4", "3 7 8"),
}


# ---- the movements that have a word

def mitchell(tables, rounds):
    """The East-West pairs go up a table each round, at an even number of tables once more half-way; the sets go down one."""
    rows = []
    for r in range(rounds):
        for e in range(tables):
            skip = 1 if tables % 2 == 0 and r >= tables // 2 else 0
            table = (e + r + skip) % tables
            rows.append((r + 1, table + 1, (table + r) % tables + 1, f"NS{table + 1}", f"EW{e + 1}"))
    return sorted(rows)


def without_skip(tables, rounds, set_of):
    return [(r + 1, t + 1, set_of(t, r) + 1, f"NS{t + 1}", f"EW{(t - r) % tables + 1}") for r in range(rounds) for t in range(tables)]


def share_and_relay(tables, rounds):
    """Tables 1 and the last share a set, and one rests between the halves."""
    return without_skip(tables, rounds, lambda t, r: (t + r + (2 * t >= tables)) % tables)


def web(tables, rounds):
    """As many sets as rounds, in two copies: at the lower half of the tables their numbers go up each round, and at the upper down."""
    return without_skip(tables, rounds, lambda t, r: (t + r if 2 * t < tables else tables - 2 - t - r) % rounds)


def howell(tables, rounds):
    """Every pair meets every other, and is named by the place where it begins."""
    if tables == 3:
        return HOWELL_OF_THREE[:3 * rounds]
    many = 2 * tables - 1
    meet, sets, turned = (text.split() for text in HOWELLS[tables])
    couples = [(None, 0), *(tuple(map(int, couple.split("-"))) for couple in meet)]
    begin = [int(number) for number in sets]
    names, rows = {}, []
    for r in range(rounds):
        for t, (one, two) in enumerate(couples):
            both = [one if one is None else (one + r) % many, (two + r) % many]
            if str(t + 1) in turned:
                both.reverse()
            if r == 0:
                names |= {both[0]: f"NS{t + 1}", both[1]: f"EW{t + 1}"}
            rows.append((r + 1, t + 1, (begin[t] - begin[0] + r) % many + 1, names[both[0]], names[both[1]]))
    return rows


def turned_after(rounds, rows):
    """The rows; after so many rounds the two pairs of each table sit the other way round."""
    return [(*row[:3], row[4], row[3]) if row[0] > rounds else row for row in rows]


def most_rounds(tables, word):
    """How many rounds a movement with a word has at most."""
    return {"mitchell": tables - (tables % 2 == 0), "howell": 2 * tables - 1, "share_and_relay": tables, "web": tables - 1}[word]


def movement_of(tables, rounds, movement=None, switched=0):
    """What a session plays whose object has these members, which may be members of one that is refused."""
    if movement is None or (movement == "mitchell" and switched == 0):
        return Movement(mitchell(tables, rounds), tables, [pair for pair in PAIRS if int(pair[2:]) <= tables], False)
    if isinstance(movement, str):
        made = {"mitchell": mitchell, "howell": howell, "share_and_relay": share_and_relay, "web": web}[movement](tables, rounds)
        rows = turned_after(rounds - switched, made)
        sets = {"howell": 2 * tables - 1, "web": rounds}.get(movement, tables)
    else:
        rows = [tuple(row) for row in movement]
        sets = max(row[2] for row in rows)
    return Movement(rows, sets, pairs_in(rows), True)


# ---- which lists can be played

def fault_after(before, row, rounds, tables, shared_by):
    """The first reason why a row can't stand after others, or None."""
    in_round, table, of_set, *both = row
    causes = [
        ("OutOfRange", not (1 <= in_round <= rounds and 1 <= table <= tables and 1 <= of_set)),
        ("OutOfRange", not set(both) <= set(PAIRS) or both[0] == both[1]),
        ("TableTwice", any(other[:2] == row[:2] for other in before)),
        ("SetAtTableAgain", any(other[1:3] == row[1:3] for other in before)),
        ("PairTwice", any(other[0] == in_round and set(both) & set(other[3:]) for other in before)),
        ("SetAgain", any(other[2] == of_set and set(both) & set(other[3:]) for other in before)),
        ("OpponentsAgain", any(set(both) == set(other[3:]) for other in before)),
        ("SharedByTooMany", sum(other[0] == in_round and other[2] == of_set for other in before) >= shared_by),
    ]
    return next((cause for cause, holds in causes if holds), None)


def first_misplaced(rows, rounds, tables, shared_by):
    """The first row that can't stand after those before it and why, as the program says it; or None."""
    for place, row in enumerate(rows):
        if fault := fault_after(rows[:place], row, rounds, tables, shared_by):
            return f"{fault}({place + 1})"
    return None


# ---- what a list is

def pairs_in(rows):
    """The pairs that a list seats: North-South before East-West, then by number."""
    seated = {pair for row in rows for pair in row[3:]}
    return [pair for pair in PAIRS if pair in seated]


def shared_in(rows):
    """At how many tables a set is played in one round at most."""
    return max(Counter((row[0], row[2]) for row in rows).values())


def changes_sides(rows):
    """Whether some pair sits North-South in one round and East-West in another: then there is one list of winners, and else two."""
    return bool({row[3] for row in rows} & {row[4] for row in rows})


def is_balanced(rows):
    """Whether any two pairs sit alike on as many sets as opposite ways, but for the one at which they meet."""
    sets = {row[2] for row in rows}
    seats = {(pair, row[2]): (row[1], side) for row in rows for pair, side in zip(row[3:], (1, -1))}

    def likeness(one, other):
        both = [(seats[one, each], seats[other, each]) for each in sets if (one, each) in seats and (other, each) in seats]
        return sum(side * other_side for (table, side), (other_table, other_side) in both if table != other_table)
    return not any(likeness(*couple) for couple in combinations(pairs_in(rows), 2))


def meet_all(rows):
    """Whether every two pairs meet."""
    return {frozenset(row[3:]) for row in rows} == set(map(frozenset, combinations(pairs_in(rows), 2)))


def play_all(rows):
    """Whether every pair plays every set."""
    return len({(pair, row[2]) for row in rows for pair in row[3:]}) == len(pairs_in(rows)) * len({row[2] for row in rows})

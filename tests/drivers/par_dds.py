#!/usr/bin/env python3
"""Compares the par that crates/par_tables prints with that of DDS (Debian's libdds0, its call `DealerPar`).

    tests/drivers/par_dds.py LIST [--by PROGRAM]       # each table of DDS's own list of deals, every dealer and vulnerability
    tests/drivers/par_dds.py --made COUNT [--by ..]    # so many tables of twenty numbers by chance, which no deal need have
    tests/drivers/par_dds.py write LIST                # writes the program's stored run: 59 tables, most of them of the list

LIST is hands/list10000.txt of DDS's source (`apt-get source dds`), whose deals come with their twenty numbers and a par for one dealer.
PROGRAM is crates/par_tables/out/par_tables, which `rt run` in that folder makes. A score must be DDS's. A contract must be one of those that
DDS names; DDS names a contract at the lowest level that brings the same score, so one that is made counts as DDS's where strain,
declarer and tricks are. The stored run must say the same. Of tables that were made by chance DDS leaves out some sacrifices at level 7 (`left_out`), and names but
some of the sacrifices that cost the same. The status is 1 where a score differs otherwise, or a contract of a deal's table.
"""
import argparse
import collections
import ctypes
import os
import pathlib
import random
import re
import subprocess
import sys

ROOT = pathlib.Path(__file__).resolve().parents[2]
FOLDER = ROOT / "crates" / "par_tables"
STRAINS, PLACES = "SHDCN", "NESW"
VULNERABILITIES = {"none": 0, "ns": 2, "ew": 3, "both": 1}  # in our order, with DDS's numbers
ANSWER = re.compile(r"(-?\d+)/(?:pass|(\d)([SHDCN])(x?)([NESW])([+-]\d+))$")


class Table(ctypes.Structure):
    _fields_ = [("tricks", (ctypes.c_int * 4) * 5)]  # by strain, then by declarer


class DealerResult(ctypes.Structure):
    _fields_ = [("number", ctypes.c_int), ("score", ctypes.c_int), ("contracts", (ctypes.c_char * 10) * 10)]


def tables_of(path):
    """The tables of DDS's list, each as twenty numbers by strain and then by declarer, with the list's own par: (dealer, vulnerability,
    score, contracts)."""
    tables, pars, deals = [], [], []
    for line in path.read_text().splitlines():
        words = line.split()
        if line.startswith("PBN "):
            deals.append((int(words[1]), int(words[2])))
        elif line.startswith("TABLE "):
            tables.append(list(map(int, words[1:])))
        elif line.startswith("PAR2 "):
            texts = re.findall(r'"([^"]*)"', line)
            pars.append((*deals[-1], int(texts[0]), texts[1:]))
    return tables, pars


def made_tables(count):
    """Tables by chance: in half of them each number is from 0 to 13, in the others the two sides' numbers are about thirteen."""
    chance = random.Random(count)
    tables = []
    for number in range(count):
        if number % 2:
            tables.append([chance.randrange(14) for _ in range(20)])
            continue
        table = []
        for _ in STRAINS:
            ours = chance.randrange(14)
            for place in range(4):
                near = (13 - ours if place % 2 else ours) + chance.choice([-1, 0, 0, 0, 0, 1])
                table.append(min(13, max(0, near)))
        tables.append(table)
    return tables


def line_of(table):
    """A table as the program reads it: by declarer, then by strain."""
    return " ".join(",".join(str(table[4 * strain + place]) for strain in range(5)) for place in range(4))


def asked(program, tables):
    """What the program prints of each table: sixteen answers, by vulnerability and then by dealer."""
    text = "".join(line_of(table) + "\n" for table in tables)
    lines = subprocess.run([program], input=text, capture_output=True, text=True, check=True).stdout.splitlines()
    assert len(lines) == len(tables), f"{len(lines)} lines for {len(tables)} tables"
    return [answers_in(line, table) for line, table in zip(lines, tables)]


def answers_in(line, table):
    told, *answers = line.removeprefix(line_of(table)).split(" ")
    assert told == "" and len(answers) == 16, line
    return answers


def dealer_par(dds, table, dealer, vulnerability):
    numbers, result = Table(), DealerResult()
    for strain in range(5):
        for place in range(4):
            numbers.tricks[strain][place] = table[4 * strain + place]
    assert dds.DealerPar(ctypes.byref(numbers), ctypes.byref(result), dealer, vulnerability) == 1
    return result.score, [result.contracts[k].value.decode() for k in range(result.number)]


def parts_of(contract):
    """What DDS's text says: the strain, who may declare, whether it is doubled, and the tricks."""
    match = re.fullmatch(r"(\d)([SHDCN])(\*?)-([NESW]+)([+-]\d+)?", contract)
    level, strain, doubled, places, margin = match.groups()
    margin = int(margin or 0)
    # where one player alone may sacrifice, DDS leaves the star out
    return int(level), strain, bool(doubled) or margin < 0, places, 6 + int(level) + margin


def is_named(answer, contracts):
    """Whether DDS names the contract: "same", "lower" where DDS names it at a lower level with overtricks, or None."""
    _, level, strain, doubled, declarer, margin = ANSWER.match(answer).groups()
    if level is None:
        return "same" if contracts == ["pass"] else None
    tricks = 6 + int(level) + int(margin)
    ours = (strain, bool(doubled), tricks)
    lower = None
    for contract in contracts:
        if contract == "pass":
            continue
        its_level, its_strain, its_doubled, places, its_tricks = parts_of(contract)
        if (its_strain, its_doubled, its_tricks) == ours and declarer in places:
            if its_level == int(level):
                return "same"
            if not doubled and its_level < int(level):
                lower = "lower"
    return lower


def left_out(answer, score):
    """Whether the answer is a sacrifice at level 7 that costs its side less than DDS's par. DDS leaves one out where the partner who may bid
    first takes fewer tricks than the other: it adds that one's undertricks to the level that the other makes, and finds more than 7."""
    ours, level, _, doubled, declarer, _ = ANSWER.match(answer).groups()
    gains = int(ours) - score if declarer in ("N", "S") else score - int(ours)
    return "left out" if level == "7" and doubled and gains > 0 else None


def compare(dds, tables, answered, by_chance=False):
    """How the answers compare with DDS's: a count of each kind, and up to ten that differ in the score or the contract."""
    kinds, shown = collections.Counter(), []
    for table, answers in zip(tables, answered):
        for place, answer in enumerate(answers):
            vulnerability, dealer = list(VULNERABILITIES)[place // 4], place % 4
            score, contracts = dealer_par(dds, table, dealer, VULNERABILITIES[vulnerability])
            same = int(ANSWER.match(answer).group(1)) == score
            kind = (is_named(answer, contracts) or "another contract") if same else left_out(answer, score) or "another score"
            kinds[kind] += 1
            if kind == "another score" or kind == "another contract" and not by_chance:
                shown.append(f"{line_of(table)}  {vulnerability}, dealer {PLACES[dealer]}: {answer}, and DDS {score} {' '.join(contracts)}")
    return kinds, shown


def compare_listed(pars, answered):
    """The same with the par that stands in the list itself."""
    kinds, shown = collections.Counter(), []
    numbers = list(VULNERABILITIES.values())
    for (dealer, vulnerability, score, contracts), answers in zip(pars, answered):
        answer = answers[4 * numbers.index(vulnerability) + dealer]
        same = int(ANSWER.match(answer).group(1)) == score
        kinds["same" if same else "another score"] += 1
        if not same:
            shown.append(f"dealer {PLACES[dealer]}: {answer}, and the list {score} {' '.join(contracts)}")
    return kinds, shown


def tell(what, kinds, shown):
    print(f"{what}: {kinds.total()} answers, " + ", ".join(f"{kinds[kind]} {kind}" for kind in sorted(kinds)))
    for line in shown[:10]:
        print("  " + line)
    return bool(shown)


def stored():
    """The tables and the answers of the program's stored run."""
    tables, answered = [], []
    for line in (FOLDER / "stdout").read_text().splitlines():
        words = line.split()
        by_place = [list(map(int, group.split(","))) for group in words[:4]]
        tables.append([by_place[place][strain] for strain in range(5) for place in range(4)])
        answered.append(answers_in(line, tables[-1]))
    return tables, answered


def write(path, program):
    """Every 180th table of the list, two of those where the dealer matters, and a board that is passed out, which the list has not."""
    tables, _ = tables_of(path)
    answered = asked(program, tables)
    dealers = [table for table, answers in zip(tables, answered) if len({answer.split("/")[0] for answer in answers[:4]}) > 1]
    chosen = tables[::180] + dealers[:2] + [[6] * 20]
    text = "".join(line_of(table) + "\n" for table in chosen)
    (FOLDER / "stdin").write_text("# tables of DDS's list of 10,000 deals (tests/drivers/par_dds.py)\n" + text)
    (FOLDER / "stdout").write_text(subprocess.run([program], input=text, capture_output=True, text=True, check=True).stdout)
    print(f"{len(chosen)} tables; of the list's the dealer changes the score of {len(dealers)}")


def main():
    parser = argparse.ArgumentParser()
    parser.add_argument("words", nargs="*")
    parser.add_argument("--made", type=int)
    parser.add_argument("--by", default=str(FOLDER / "out" / "par_tables"))
    given = parser.parse_args()
    if given.words[:1] == ["write"]:
        return write(pathlib.Path(given.words[1]), given.by)
    dds = ctypes.CDLL("libdds.so.0")
    differs = False
    if given.made:
        tables = made_tables(given.made)
        differs |= tell("made tables", *compare(dds, tables, asked(given.by, tables), by_chance=True))
    for word in given.words:
        tables, pars = tables_of(pathlib.Path(word))
        answered = asked(given.by, tables)
        differs |= tell("the list's own par", *compare_listed(pars, answered))
        differs |= tell("every dealer and vulnerability", *compare(dds, tables, answered))
    differs |= tell("the stored run", *compare(dds, *stored()))
    return differs


if __name__ == "__main__":
    status = main()
    sys.stdout.flush()
    os._exit(status or 0)  # DDS's library faults where Python ends and lets it go

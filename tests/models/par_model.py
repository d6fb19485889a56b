#!/usr/bin/env python3
"""A plain model of a board's par, for the stored runs: what the auction comes to where all four players see all the cards.

    python3 tests/models/par_model.py    # compares it with the stored run of crates/par_tables, whose answers are DDS's

In turn from the dealer each player bids or passes, until three pass after a bid or all four pass (Law 22). Whoever bids last
declares, and takes as many tricks as the table says; a contract that will be set is doubled. Each player goes on only to gain by it
for the own side, where all who call later do the same; of two bids that come to the same score it is the higher one. It goes through
every auction in which each call is a bid or a pass, and knows nothing of how crates/par finds the same.
"""
import pathlib
import re
import sys
from functools import lru_cache

from session_model import dealer_of, score_of, vulnerability_of

PLACES, STRAINS = "NESW", "SHDCN"
BIDS = [(level, strain) for level in range(1, 8) for strain in "CDHSN"]  # Law 18, the lowest first
RUN = pathlib.Path(__file__).resolve().parents[2] / "crates" / "par_tables" / "stdout"
VULNERABILITIES = ("none", "ns", "ew", "both")
ANSWER = re.compile(r"(-?\d+)/(?:pass|(\d)([SHDCN])(x?)([NESW])([+-]\d+))$")


def par_of(tricks, board):
    """How a board ends at par, and what that scores for North-South; `tricks` as an analysis has them, and dealer and vulnerability are
    the board's."""

    def ended(bid, declarer):
        if bid is None:
            return 0, "pass"
        level, strain = BIDS[bid]
        taken = tricks[declarer][STRAINS.index(strain)]
        outcome = {"by": declarer, "doubled": int(taken < level + 6), "level": level, "strain": strain, "tricks": taken}
        return score_of(outcome, board), outcome

    @lru_cache(None)
    def comes_to(bid, declarer, passes, player):
        """What follows where a player is to call after a last bid, if there is one, and so many passes."""
        if passes == (4 if bid is None else 3):
            return ended(bid, declarer)
        place, left = PLACES[player], (player + 1) % 4
        gain = 1 if place in "NS" else -1
        found = None
        for higher in reversed(range(0 if bid is None else bid + 1, len(BIDS))):
            end = comes_to(higher, place, 0, left)
            if found is None or gain * end[0] > gain * found[0]:
                found = end
        passed = comes_to(bid, declarer, passes + 1, left)
        return found if found is not None and gain * found[0] > gain * passed[0] else passed

    score, outcome = comes_to(None, None, 0, PLACES.index(dealer_of(board)))
    return {"result": outcome, "score": score}


def told(word):
    """An answer of the stored run, in the form of `par_of`."""
    score, level, strain, doubled, declarer, over = ANSWER.match(word).groups()
    if level is None:
        return {"result": "pass", "score": int(score)}
    tricks = int(level) + 6 + int(over)
    return {"result": {"by": declarer, "doubled": int(bool(doubled)), "level": int(level), "strain": strain, "tricks": tricks}, "score": int(score)}


def main():
    board_of = {(dealer_of(board), vulnerability_of(board)): board for board in range(1, 17)}
    compared = differ = 0
    for line in RUN.read_text(encoding="utf-8").splitlines():
        words = line.split(" ")
        tricks = {place: list(map(int, word.split(","))) for place, word in zip(PLACES, words[:4])}
        for number, word in enumerate(words[4:]):
            board = board_of[PLACES[number % 4], VULNERABILITIES[number // 4]]
            compared += 1
            if par_of(tricks, board) != told(word):
                differ += 1
                print(f"another par: {' '.join(words[:4])} on board {board}: {par_of(tricks, board)}, and not {word}")
    print(f"{compared - differ} passed, {differ} failed")
    sys.exit(differ > 0)


if __name__ == "__main__":
    main()

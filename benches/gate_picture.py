#!/usr/bin/env python3
"""Draws when the checks of a gate began and ended, from a log with a line for each, in the order in which they ended:

    22:09:38    21.3s mitchell proof: ok proved

    benches/gate_picture.py LOG [SECONDS]      # the checks that took so long at least, 60 seconds where it isn't said

A line has the time of day at which a check ended, how long it took, its crate, and what it was: the crate's `proof`, its `tests` (the
crate proved once more, with them) or its `edits` (its wrong bodies); kit 13f tries each of these as an `edit` of its own, over a `seed`, the
crate proved once more for them, and the two are drawn as one bar, whose number is what they took together. `rt ci` prints no times;
`benches/timed_gate.py` runs it and writes such a log. Of several runs in a log the last is drawn.

`=` marks the proofs of the longest chain: crates of which each names the one before it in crates.txt, and whose proofs take the longest
together. With any number of processors a gate takes no less.
"""
import collections
import pathlib
import re
import sys

ROOT = pathlib.Path(__file__).resolve().parent.parent
LINE = re.compile(r"(\d\d):(\d\d):(\d\d) +([\d.]+)s (\w+) (\w+): (.*)")
DAY = 24 * 3600
COLUMNS = 60
MINUTES_OF_A_COLUMN = (0.25, 0.5, 1, 2, 5, 10)

Check = collections.namedtuple("Check", "crate kind began ended told took", defaults=(None,))


def seconds_of(check):
    """What it took; of wrong bodies that are drawn together, what they took one by one."""
    return check.ended - check.began if check.took is None else check.took


def drawn_together(checks):
    """The same, with one check for all wrong bodies of a crate and their seed."""
    of_edits = collections.defaultdict(list)
    for it in checks:
        if it.kind in ("edit", "seed"):
            of_edits[it.crate].append(it)
    edits = [Check(crate, "edits", min(it.began for it in them), max(it.ended for it in them), f"{len(them)}", sum(map(seconds_of, them)))
             for crate, them in of_edits.items()]
    return [it for it in checks if it.kind not in ("edit", "seed")] + edits


def sums_of(checks):
    """What the checks of each kind took together."""
    sums = collections.Counter()
    many = collections.Counter(it.kind for it in checks)
    for it in checks:
        sums[it.kind] += seconds_of(it)
    return ", ".join(f"{kind} {sums[kind] / 60:.0f} ({many[kind]})" for kind, _ in sums.most_common())


def checks_of(lines):
    """The checks of the log's last run. An end that is earlier than the one before it is the next day's."""
    checks, is_over, midnight = [], False, 0
    for line in lines:
        if line.startswith("ended after"):
            is_over = True
        if found := LINE.match(line):
            if is_over:
                checks, is_over, midnight = [], False, 0
            hours, minutes, seconds = map(int, found.group(1, 2, 3))
            ended = midnight + 3600 * hours + 60 * minutes + seconds
            if checks and ended < checks[-1].ended:
                midnight, ended = midnight + DAY, ended + DAY
            checks.append(Check(found[5], found[6], ended - float(found[4]), ended, found[7]))
    return checks


def longest_chain(checks):
    """The crates of the chain whose proofs take the longest together, the lowest first."""
    lines = (line.partition(":") for line in (ROOT / "crates.txt").read_text(encoding="utf-8").splitlines())
    below = {name.split()[0]: names.split() for name, _, names in lines if name.strip()}
    proofs = {it.crate: seconds_of(it) for it in checks if it.kind == "proof"}
    longest = {}

    def chain(crate):
        if crate not in longest:
            chains = (chain(it) for it in below.get(crate, ()) if it in proofs)
            longest[crate] = [*max(chains, key=total, default=[]), crate]
        return longest[crate]

    def total(crates):
        return sum(proofs[it] for it in crates)

    return max((chain(it) for it in proofs), key=total, default=[])


def picture(checks, least):
    """The lines of the picture: a head with the minutes, a bar for each check that is long enough, and the sums."""
    first, last = min(it.began for it in checks), max(it.ended for it in checks)
    column = 60 * next(it for it in MINUTES_OF_A_COLUMN if last - first <= 60 * it * COLUMNS)
    chain = longest_chain(checks)
    drawn = [it for it in sorted(drawn_together(checks), key=lambda it: (it.began, it.ended)) if seconds_of(it) >= least]
    names = [it.crate if it.kind == "proof" else f"{it.crate}: {it.kind}" for it in drawn]
    width = max(map(len, names), default=0)
    ticks = range(0, int((last - first) / column) + 1, 10)
    yield f"{'minutes':<{width}} " + "".join(f"{tick * column / 60:<10g}" for tick in ticks).rstrip()
    for name, it in zip(names, drawn):
        begin, end = round((it.began - first) / column), round((it.ended - first) / column)
        mark = "=" if it.kind == "proof" and it.crate in chain else "-"
        yield f"{name:<{width}} {' ' * begin}{mark * max(end - begin, 1)} {seconds_of(it) / 60:.1f}"
    of_chain = sum(seconds_of(it) for it in checks if it.kind == "proof" and it.crate in chain)
    kept = sum("kept" in it.told for it in checks)
    yield ""
    yield f"{len(checks)} checks in {(last - first) / 60:.0f} minutes, whose own times add up to {sum(map(seconds_of, checks)) / 60:.0f}: {sums_of(checks)}."
    yield f"Those of {least:g} seconds or more are drawn."
    yield f"The longest chain (=) takes {of_chain / 60:.0f} minutes: {', '.join(chain)}."
    if kept:
        yield f"Kept from an earlier run: {kept}, so this is no gate from nothing."


def main():
    if len(sys.argv) not in (2, 3):
        sys.exit(__doc__)
    checks = checks_of(pathlib.Path(sys.argv[1]).read_text(encoding="utf-8").splitlines())
    if not checks:
        sys.exit(f"{sys.argv[1]} has no line of a check")
    least = float(sys.argv[2]) if len(sys.argv) == 3 else 60
    print("\n".join(picture(checks, least)))


if __name__ == "__main__":
    main()

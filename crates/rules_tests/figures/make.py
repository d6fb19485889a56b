#!/usr/bin/env python3
"""Writes ../src/tests/figures.rt: what the duplicate scorer salliere gives for every contract and number of tricks."""
import itertools
import pathlib
import subprocess
import tempfile

JAR = "/usr/share/salliere/salliere-0.10.jar"
STRAINS = {"Clubs": "C", "Diamonds": "D", "Hearts": "H", "Spades": "S", "NoTrump": "NT"}
DOUBLINGS = {"Undoubled": "", "Doubled": "X", "Redoubled": "XX"}
# North declares: on board 1 neither side is vulnerable, on board 2 North-South is.
BOARDS = {False: 1, True: 2}
LEVELS = range(1, 8)
TRICKS = range(14)


def salliere_scores(cases):
    """The score for declarer's side of each case, from one run of salliere."""
    with tempfile.TemporaryDirectory() as folder:
        boards = pathlib.Path(folder, "boards.csv")
        names = pathlib.Path(folder, "names.csv")
        lines = []
        for number, (strain, doubling, vulnerable, level, tricks) in enumerate(cases, 1):
            contract = f"{level}{STRAINS[strain]}{DOUBLINGS[doubling]}"
            lines.append(f"{BOARDS[vulnerable]},{number},{number + len(cases)},{contract},N,{tricks}\n")
        boards.write_text("".join(lines))
        names.write_text("".join(f"{pair},first,second\n" for pair in range(1, 2 * len(cases) + 1)))
        subprocess.run(["java", "-jar", JAR, "score", "--", str(boards), str(names)], check=True, capture_output=True)
        scored = boards.read_text().splitlines()
    scores = {}
    for line in scored:
        _, pair, _, _, _, _, north_south, east_west, *_ = line.split(",")
        scores[int(pair)] = int(north_south) - int(east_west)
    assert len(scores) == len(cases), (len(scores), len(cases))
    return {case: scores[number] for number, case in enumerate(cases, 1)}


def main():
    cases = list(itertools.product(STRAINS, DOUBLINGS, BOARDS, LEVELS, TRICKS))
    scores = salliere_scores(cases)
    for doubling, vulnerable, level, tricks in itertools.product(DOUBLINGS, BOARDS, LEVELS, TRICKS):
        rest = (doubling, vulnerable, level, tricks)
        assert scores["Clubs", *rest] == scores["Diamonds", *rest], rest
        assert scores["Hearts", *rest] == scores["Spades", *rest], rest
    out = [
        "// Written by figures/make.py from what salliere scores; figures/README.md says how. Both minors score alike, and both",
        "// majors. The scores are those of declarer's side.",
        "",
        "/// What a strain's contracts score: undoubled, doubled, redoubled; each not vulnerable and vulnerable; each by level from",
        "/// 1 and tricks from 0.",
        "pub type Figures = [[[[i32; 14]; 7]; 2]; 3];",
    ]
    for strain, name in (("Clubs", "MINOR"), ("Spades", "MAJOR"), ("NoTrump", "NO_TRUMP")):
        out += ["", f"pub static {name}: Figures = ["]
        for doubling in DOUBLINGS:
            out.append("    [")
            for vulnerable in BOARDS:
                out.append(f"        // {doubling}, {'vulnerable' if vulnerable else 'not vulnerable'}")
                out.append("        [")
                for level in LEVELS:
                    row = ", ".join(str(scores[strain, doubling, vulnerable, level, tricks]) for tricks in TRICKS)
                    out.append(f"            [{row}],")
                out.append("        ],")
            out.append("    ],")
        out.append("];")
    target = pathlib.Path(__file__).resolve().parent.parent / "src" / "tests" / "figures.rt"
    target.write_text("\n".join(out) + "\n")
    print(f"{len(cases)} cases scored")


main()

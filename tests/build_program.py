#!/usr/bin/env python3
"""Proves a program with all that it stands on by the gate's own command, and leaves it where the gate does.

    tests/build_program.py PROGRAM [RT]      # PROGRAM as crates.txt has it; RT is the kit's command, `rt` where it isn't said

`rt run` would prove them too, but the gate counts nothing of that, and proves all once more. What `rt ci` proved on this
machine it counts. So this runs `rt ci` over a copy of the program's crate and of those below it, in a folder of its own that goes
away with the script, without the wrong bodies in must-fail/, which the gate tries. It gives the built program to
crates/PROGRAM/out/. The status is 1 where the proof or the build failed.
"""
import pathlib
import shutil
import subprocess
import sys
import tempfile

ROOT = pathlib.Path(__file__).resolve().parent.parent
LEFT_OUT = shutil.ignore_patterns("out", "must-fail")


def lines_of_crates():
    """The lines of crates.txt by the crate's name, in their order."""
    lines = (ROOT / "crates.txt").read_text(encoding="utf-8").splitlines()
    return {line.partition(":")[0].split()[0]: line for line in lines if ":" in line}


def crates_below(program, lines):
    """The program's crate and those that it stands on, without the kit's."""
    found, waiting = set(), [program]
    while waiting:
        crate = waiting.pop()
        if crate in lines and crate not in found:
            found.add(crate)
            waiting += lines[crate].partition(":")[2].split()
    return found


def main():
    program, command = sys.argv[1], (sys.argv[2:] or ["rt"])[0].split()
    lines = lines_of_crates()
    if program not in lines:
        print(f"crates.txt has no {program}")
        return 1
    needed = crates_below(program, lines)
    with tempfile.TemporaryDirectory() as folder:
        copy = pathlib.Path(folder, program)
        copy.mkdir()
        shutil.copy(ROOT / "HANDLES", copy)
        (copy / "crates.txt").write_text("".join(f"{line}\n" for crate, line in lines.items() if crate in needed), encoding="utf-8")
        for crate in needed:
            shutil.copytree(ROOT / "crates" / crate, copy / "crates" / crate, ignore=LEFT_OUT)
        if subprocess.run([*command, "ci"], cwd=copy, check=False).returncode:
            return 1
        built = ROOT / "crates" / program / "out"
        built.mkdir(exist_ok=True)
        shutil.copy2(copy / "crates" / program / "out" / program, built / program)
    return 0


if __name__ == "__main__":
    sys.exit(main())

#!/usr/bin/env python3
"""Says where the check of a crate spends its time: by stage, by kind of module, and by function.

    benches/check_profile.py CRATE [--test] [PATH ..]

Checks the crate from nothing, or with PATH (`state::State::copy`) only these functions and what they call, over the libraries below it as an
earlier `rt check` of it left them in their out/. The compiler says on standard error when each module begins and ends (ANTT_CACHE_DEBUG);
what is timed is the time between its lines, so nothing else should run beside it.

- front: the files of the crate and of all below are read, and the crate is lowered; until the first module
- own: the crate's modules. Of each function `Lts` is the borrow checker's part (`Lts-NAME` of functions that call one another), `Proof` the proof, `Tie` what joins them
- others: a library goes over each module that its public functions and types reach, and the second session is prepared
- empty: the second session, which looks for contracts that no call can meet
"""
import collections, os, re, subprocess, sys, time

KIT = "/opt/rattle"


def listed(root):
    lines = (line.partition(":") for line in open(f"{root}/crates.txt", encoding="utf-8"))
    return {name.strip(): rest.split() for name, _, rest in lines if name.strip()}


def below(crates, name):
    found = []
    for dep in crates[name]:
        if dep in crates:
            found += [it for it in [*below(crates, dep), dep] if it not in found]
    return found


def words(root, name, flags, paths):
    crates = listed(root)
    main = "src/main.rt" if os.path.isfile(f"{root}/crates/{name}/src/main.rt") else "src/lib.rt"
    given = ["--crate-name", name, main, "-L", f"dependency={KIT}/rlibs"]
    for dep in ["std", *crates[name]]:
        place = f"{root}/crates/{dep}/out/rlib" if dep in crates else f"{KIT}/rlibs"
        given += ["--extern", f"{dep}={place}/{dep}.rlib"]
    for dep in below(crates, name):
        given += ["-L", f"dependency={root}/crates/{dep}/out/rlib"]
    given += ["--antt-project", f"{KIT}/rattle/logic/antt-project.json", "--logic-built", f"{KIT}/logic_built"]
    given += ["--jobs", "1", *flags]
    for path in paths:
        given += ["--only", path]
    return given if paths else [*given, "--empty-contracts"]


def profile(command, folder):
    """Runs the command, and returns its lines, each with the seconds since the one before."""
    lines, before = [], time.time()
    how = {"cwd": folder, "stdin": subprocess.DEVNULL, "stdout": subprocess.PIPE, "stderr": subprocess.STDOUT}
    with subprocess.Popen(command, env={**os.environ, "ANTT_CACHE_DEBUG": "1"}, **how) as ran:
        for line in ran.stdout:
            now = time.time()
            lines.append((now - before, line.decode(errors="replace").rstrip("\n")))
            before = now
    return lines, ran.returncode


def main():
    flags = [it for it in sys.argv[1:] if it.startswith("--")]
    named = [it for it in sys.argv[1:] if not it.startswith("--")]
    if not named:
        sys.exit(__doc__)
    root = os.path.dirname(os.path.dirname(os.path.realpath(__file__)))
    folder = f"{root}/crates/{named[0]}"
    lines, status = profile([f"{KIT}/bin/rattle", "check", *words(root, named[0], flags, named[1:])], folder)
    told = [it for _, it in lines if not re.match(r"antt: cache|statements |.*: proved(, may wait)?$", it)]
    print("\n".join(told[-12:]))
    last = max((at for at, (_, it) in enumerate(lines) if it.endswith("elaborating (no artifact)")), default=0)
    second = next((at for at, (_, it) in enumerate(lines) if "all told" in it), len(lines))
    second = next((at for at in range(second + 1, len(lines)) if lines[at][1].startswith("antt: cache")), len(lines))
    stages, kinds, functions = collections.Counter(), collections.Counter(), collections.Counter()
    front = True
    for at, (seconds, it) in enumerate(lines):
        stages["front" if front else "own" if at <= last + 1 else "others" if at <= second else "empty"] += seconds
        front = front and not it.startswith("antt: cache")
        done = re.match(r"antt: cache: Rattle-\w+-proofs\.(\S+)\.([\w-]+): artifact encoded", it)
        if done and at <= last + 1:
            kinds[done[2]] += seconds
            functions[done[1].replace(".Code", "")] += seconds
    print(f"\n{sum(stages.values()):.1f} s, with status {status}: " + ", ".join(f"{it} {stages[it]:.1f}" for it in ("front", "own", "others", "empty")))
    print("by kind: " + ", ".join(f"{it} {seconds:.1f}" for it, seconds in kinds.most_common(6)))
    for it, seconds in functions.most_common(25):
        print(f"{seconds:7.2f}  {it}")


if __name__ == "__main__":
    main()

#!/usr/bin/env python3
"""rt plant for what an earlier run left: the bodies of the second kind alone (a real call with an argument changed, twice, with its result changed, ..).

    cd CLONE/crates/CRATE && PLANT_LINES=GATE.log python3 parked/plant_rest.py [--only WORD] [--minutes N] [--max N] [--jobs 1] --all
    cd CLONE/crates/CRATE && PLANT_LIST=1 PLANT_LINES=.. python3 .../plant_rest.py --all         # lists these bodies, checks nothing

PLANT_LINES is a log with the gate's lines `fn CRATE::..: proved`, which stand for the check with which rt plant begins (without it, it checks).
PLANT_FIRST=1 plants the first kind too. PLANT_SECONDS, PLANT_BATCH: as in plant_run.py. The libraries below must be in out/rlib (seed.py).
"""
import importlib.machinery, os, re, sys, types
P = "/opt/rattle/bin/rt-plant"
m = types.ModuleType("rt-plant"); m.__file__ = P
importlib.machinery.SourceFileLoader("rt-plant", P).exec_module(m)
m.SECONDS = int(os.environ.get("PLANT_SECONDS", "1500"))
m.BATCH = int(os.environ.get("PLANT_BATCH", "60"))
b, rt = m.bodies, m.rt
was = b.without_attributes
def without(words):            # as parked/plant_run.py: a variant's doc line
    words = list(words)
    while words and (words[0].startswith("///") or words[0] == "#"):
        words = words[1:] if words[0].startswith("///") else words[b.after(words, 1):]
    return was(words)
b.without_attributes = without
if not os.environ.get("PLANT_FIRST"):
    b.Bodies.giving_up = lambda self: []
if os.environ.get("PLANT_LINES"):
    def lines_of_the_gate(*words):
        name = os.path.basename(os.getcwd())
        seen = dict(re.findall(rf"(?m)^fn ({name}::\S+): (.*)$", open(os.environ["PLANT_LINES"], errors="replace").read()))
        for symbol, said in seen.items():
            print(f"fn {symbol}: {said}")
        print(f"\ncrate {name}: {len(seen)} lines of the gate's log")
        print(f"rt: {name}: {len(seen)} functions by the gate's log, {sum(not s.startswith('proved') for s in seen.values())} not proved", file=sys.stderr)
        return 0
    rt.main = lines_of_the_gate
if os.environ.get("PLANT_LIST"):
    def listed(crate, copy, functions, proved, most):
        is_plain = lambda f: all(re.fullmatch(r"[a-z]\w*|_\w+", n) for n, _ in f.params)
        called = [f for f in functions if not f.in_trait and is_plain(f) and f in proved]
        n = 0
        for f in called:
            for body in b.Bodies(copy.source, f).over_the_real_one(None):
                n += 1
                print(f"{f.shown}: {{ {body.text} }}")
        print(f"{len(functions)} functions, {len(called)} that can be called, {n} bodies over the real one")
        return []
    m.plant = listed
if __name__ == "__main__":
    sys.exit(m.main(*sys.argv[1:]))

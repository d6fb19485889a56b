#!/usr/bin/env python3
"""rt plant without its controls: a half of its time, where what is looked for are bodies that are proved.

    cd CLONE/crates/CRATE && PLANT_LINES=GATE.log python3 parked/plant_quick.py [--only WORD] [--minutes N] [--jobs 1] --all

Every body of both kinds is tried at once (with PLANT_SECOND=1 those with a real call alone); the real call itself only of functions of
which a body that calls it was proved. So `proves` and `same` mean what they mean in rt plant; a body with a real call that is `refused` may
be one that the tactics miss, as rt plant's control would have told. PLANT_LINES, PLANT_SECONDS, PLANT_BATCH: as in plant_rest.py.
"""
import os, re, sys
os.environ["PLANT_FIRST"] = "1"
os.environ.pop("PLANT_LIST", None)
HERE = os.path.dirname(os.path.abspath(__file__))
exec(compile(open(f"{HERE}/plant_rest.py").read().split("if __name__")[0], f"{HERE}/plant_rest.py", "exec"))

def quick(crate, copy, functions, proved, most):
    count = iter(range(1 << 30))
    is_plain = lambda f: all(re.fullmatch(r"[a-z]\w*|_\w+", n) for n, _ in f.params)
    called = [f for f in functions if not f.in_trait and is_plain(f) and f in proved]
    plants = []
    for f in functions:
        written = b.Bodies(copy.source, f)
        found = [] if os.environ.get("PLANT_SECOND") else [*written.giving_up()]
        found += [*b.Bodies(copy.source, f).over_the_real_one(None)] if f in called else []
        plants += [m.Plant(f, body, next(count)) for body in found]
    copy.judge(copy.compiled([it for it in plants if not it.f.in_trait]))
    of_traits = [it for it in plants if it.f.in_trait]
    find = lambda all: copy.judge_in_place([m.Plant(f, b.Body(b.NEVER), 0) for f in dict.fromkeys(all)])
    find(it.f for it in of_traits if len(it.f.symbols) > 1)
    copy.judge_in_place([it for it in of_traits if len(it.f.symbols) == 1])
    find(it.f for it in of_traits if it.kind == "proves" and it.f.symbols and not it.f.is_found)
    proving = [it for it in plants if it.kind == "proves"]
    asked = {it: m.Plant(it.f, b.Body(it.same), next(count)) for it in proving if it.same and it.f in called}
    copy.judge(copy.compiled([*asked.values()]))
    for it, control in asked.items():
        if control.kind == "proves":
            it.kind = "same"
    return plants
m.plant = quick
if __name__ == "__main__":
    sys.exit(m.main(*sys.argv[1:]))

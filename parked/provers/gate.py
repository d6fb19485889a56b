#!/usr/bin/env python3
"""Proves the crates of ROOT crate by crate as rt ci does (Crate.ci), keeps what is proved by a hash of files and libraries.
   gate.py ROOT [--jobs N] [--each N] [--tests] [NAMES..]    names (with what is below) alone; --first A,B: these chains first"""
import copy, hashlib, importlib.machinery, os, re, shutil, sys, time, types
from concurrent.futures import FIRST_COMPLETED, ThreadPoolExecutor, wait
P = "/opt/rattle/bin/rt"
rt = types.ModuleType("rt"); rt.__file__ = P
importlib.machinery.SourceFileLoader("rt", P).exec_module(rt)
rtlib = rt.rtlib
STORE = os.environ.get("GATE_STORE", "/work/store")
LOGS = os.environ.get("GATE_LOGS", "/work/logs")
os.makedirs(LOGS, exist_ok=True)

def memo(cls):
    stamp, below = cls.stamp, cls.below
    def stamp_once(self):
        if "stamp_" not in self.__dict__: self.stamp_ = stamp(self)
        return self.stamp_
    def below_once(self):
        if "below_" not in self.__dict__: self.below_ = below(self)
        return self.below_
    cls.stamp, cls.below = stamp_once, below_once

def crates_of(root):
    rt.Crate.cuts_libraries = True
    os.environ.pop(rtlib.ALLOW_C, None); os.environ.pop(rtlib.BACKEND, None)
    rtlib.guarded()
    rt.Crate.allowed = rt.handles_of(root)
    rtlib.Crate = rt.Crate
    memo(rt.Crate)
    return sorted(rtlib.crates_below(root), key=lambda it: len(it.below()))

KEYS = {}
def key(crate, tests=False):
    k = (crate.name, tests)
    if k not in KEYS:
        s = hashlib.sha256(repr((rtlib.KIT, crate.name, crate.said, tests)).encode())
        for f in sorted(rtlib.files_of(crate.folder)):
            name, text = f.replace(crate.folder, ""), open(f, "rb").read()
            # what is proved of a crate says nothing of its tests
            if not tests and re.match(r"/(src|proofs)/tests(\.rt$|/)", name): continue
            if not tests and name == "/src/lib.rt": text = text.replace(b"#[cfg(test)]\nmod tests;\n", b"")
            s.update(repr((name, text)).encode())
        for d in crate.below(): s.update(key(d).encode())
        KEYS[k] = s.hexdigest()[:24]
    return KEYS[k]

def link_tree(a, b):
    shutil.rmtree(b, ignore_errors=True); os.makedirs(os.path.dirname(b), exist_ok=True)
    shutil.copytree(a, b, copy_function=os.link, symlinks=True)

def main(root, *words):
    root = os.path.realpath(root); os.chdir(root)
    words = list(words); opt = {}
    for f in ("--jobs", "--first", "--each"):
        if f in words:
            i = words.index(f); opt[f] = words[i+1]; del words[i:i+2]
    flags = {w for w in words if w.startswith("--")}; names = [w for w in words if not w.startswith("--")]
    crates = crates_of(root); by = {c.name: c for c in crates}
    wanted = {c.name for c in crates} if not names else set(names) | {d.name for n in names for d in by[n].below()}
    crates = [c for c in crates if c.name in wanted]
    targets = set(names) or {c.name for c in crates}
    first = {}
    for i, n in enumerate((opt.get("--first") or "").split(",")):
        if n in by:
            for d in [*by[n].below(), by[n]]: first.setdefault(d.name, i)
    lines = {c.name: c.count(rb"\n") for c in crates}
    behind = dict(lines)
    for c in reversed(crates):
        for d in c.below():
            behind[d.name] = max(behind[d.name], lines[d.name] + behind[c.name])
    short = os.path.basename(root)
    def job(crate, kind):
        k = key(crate, kind == "tests"); at = f"{STORE}/{k}"; log = f"{LOGS}/{short}.{crate.name}.{kind}.log"
        made = {"proof": f"{at}/rlib" if crate.makes_rlib() else f"{at}/bin", "tests": f"{at}/bin"}.get(kind)
        # another gate over another clone may be proving the same
        busy = f"{at}.{kind}.busy"
        while not os.path.exists(f"{at}/done"):
            try:
                with open(busy, "x") as mine: mine.write(str(os.getpid()))
                break
            except FileExistsError:
                try: os.kill(int(open(busy).read() or os.getpid()), 0)
                except (OSError, ValueError):
                    try: os.remove(busy)
                    except OSError: pass
                time.sleep(2)
        try: return worked(crate, kind, at, log, made)
        finally:
            try:
                if open(busy).read() == str(os.getpid()): os.remove(busy)
            except (OSError, ValueError): pass
    def worked(crate, kind, at, log, made):
        if os.path.exists(f"{at}/done"):
            if os.path.isdir(f"{at}/rlib"): link_tree(f"{at}/rlib", f"{crate.folder}/out/rlib")
            if os.path.isdir(f"{at}/bin"):
                os.makedirs(f"{crate.folder}/out", exist_ok=True)
                for f in os.listdir(f"{at}/bin"): shutil.copy2(f"{at}/bin/{f}", f"{crate.folder}/out/{f}")
            if os.path.exists(f"{at}/log"): shutil.copy(f"{at}/log", log)
            if crate.makes_rlib() and kind == "proof": open(f"{crate.folder}/out/rlib/stamp", "w").write(crate.stamp())
            return True, "kept"
        crate = copy.copy(crate)
        with open(log, "w+") as crate.out:
            try:
                os.makedirs(f"{crate.folder}/out", exist_ok=True)
                if kind == "proof" and rtlib.fmt(crate.folder, "--check", crate.out):
                    return False, "rt fmt"
                status = crate.ci(["--jobs", opt.get("--each", "1")], kind == "tests")
            except SystemExit as e:
                return False, f"stopped {e}"
        if status: return False, f"status {status}"
        shutil.rmtree(at, ignore_errors=True); os.makedirs(at)
        if kind == "proof" and crate.makes_rlib():
            link_tree(f"{crate.folder}/out/rlib", f"{at}/rlib")
            open(f"{crate.folder}/out/rlib/stamp", "w").write(crate.stamp())
        else:
            os.makedirs(f"{at}/bin")
            for f in os.listdir(f"{crate.folder}/out"):
                is_test = f.startswith(f"{crate.name}_tests")
                if f.startswith(crate.name) and is_test == (kind == "tests") and os.path.isfile(f"{crate.folder}/out/{f}"):
                    shutil.copy2(f"{crate.folder}/out/{f}", f"{at}/bin/{f}")
        shutil.copy(log, f"{at}/log"); open(f"{at}/done", "w").close()
        return True, "proved"
    tasks = []
    for c in crates:
        tasks.append((c, "proof"))
        if "--tests" in flags and c.name in targets and c.has_tests(): tasks.append((c, "tests"))
    rank = {"proof": 0, "tests": 1}
    tasks.sort(key=lambda t: (rank[t[1]], first.get(t[0].name, 99), -behind[t[0].name]))
    ended, failed, running, lanes = {}, [], {}, int(opt.get("--jobs", "4"))
    memory = 0.9 * rt.free()
    started = time.time()
    with ThreadPoolExecutor(lanes) as pool:
        while tasks or running:
            for t in list(tasks):
                c, kind = t
                if len(running) >= lanes: break
                low = [(d.name, "proof") for d in c.below()]
                if any(ended.get(x) is False for x in low):
                    tasks.remove(t); ended[c.name, kind] = False; failed.append(f"{c.name} {kind} (below)"); continue
                if not all(x in ended for x in low): continue
                n = rt.need(c)
                if running and sum(x[2] for x in running.values()) + n > memory: continue
                tasks.remove(t)
                running[pool.submit(job, c, kind)] = (c.name, kind, n, time.time())
            if not running: continue
            for f in wait(running, return_when=FIRST_COMPLETED, timeout=600).done:
                name, kind, _, at = running.pop(f)
                ok, said = f.result()
                ended[name, kind] = ok
                if not ok: failed.append(f"{name} {kind}")
                print(f"{time.strftime('%H:%M:%S')} {time.time()-at:7.1f}s {name} {kind}: {'ok' if ok else 'FAILED'} {said}", flush=True)
    print(f"ended after {time.time()-started:.0f}s; {'all well' if not failed else 'FAILED: ' + ', '.join(failed)}", flush=True)
    return bool(failed)
if __name__ == "__main__":
    sys.exit(main(*sys.argv[1:]))

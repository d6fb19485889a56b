#!/usr/bin/env python3
"""strip.py REPO OUT: plain Rust of the solver's crates, to count instructions of an idea before it is proved."""
import os, re, sys, shutil
repo, out = sys.argv[1], sys.argv[2]
CR = {"table_terms": ["suit", "place", "side", "strain"],
      "cards": ["card", "deal", "hand", "law44", "position", "pack", "rank", "trick"],
      "position_patterns": None, "double_dummy": None}
SKIP = {"double_dummy": {"card_costs", "played_costs", "dd_table", "solver", "error"}, "position_patterns": set(), "cards": set(), "table_terms": set()}
def balanced(lines, i):
    """index after the item that begins at line i and ends where its braces balance"""
    depth = 0; seen = False
    while True:
        for ch in re.sub(r"'.'|\"[^\"]*\"|//.*", "", lines[i]):
            if ch in "{(": depth += 1; seen = True
            if ch in "})": depth -= 1
        i += 1
        if seen and depth == 0: return i
def strip(text, crate):
    lines = text.split("\n"); res = []; i = 0
    while i < len(lines):
        l = lines[i]; s = l.strip()
        if s.startswith(("//!", "///")): i += 1; continue
        if re.match(r"ghost (use|\w+)", s) and s.startswith("ghost"):
            # ends with ; or , at depth 0
            depth = 0
            while True:
                t = re.sub(r"//.*", "", lines[i])
                depth += t.count("{") - t.count("}")
                i += 1
                if depth <= 0 and t.rstrip().endswith((";", ",", "}")): break
            continue
        if re.match(r"(requires|ensures)\b", s): i = balanced(lines, i); continue
        if s.startswith(("#[tactic", "#![tactic", "#[cycle", "#[derive(Drop)]", "#[error")): i += 1; continue
        if re.match(r"impl Model for", s) or re.match(r"impl (fmt::Display|FromStr)", s): i = balanced(lines, i); continue
        if s in ("use std::marker::Model;", "use std::fmt;", "use std::str::FromStr;", "use thiserror::Error;"): i += 1; continue
        if re.match(r"use crate::holding", s): i += 1; continue
        l = l.replace(", Error)]", ")]")
        l = re.sub(r"\bcrate::", f"crate::{crate}::", l)
        for c in CR:
            l = re.sub(rf"\buse {c}::", f"use crate::{c}::", l)
            if c != crate: l = re.sub(rf"(?<![:\w]){c}::(?!{c})", f"crate::{c}::", l) if "use " not in l else l
        l = l.replace("use std::alloc::{AllocError, Global};", "use crate::shim::{AllocError, Global, Vec};").replace("use std::alloc::Global;", "use crate::shim::{Global, Vec};")
        l = re.sub(r"#\[derive\(Clone, Copy, Debug\)\]", "#[derive(Clone, Copy)]", l)
        l = re.sub(r"#\[derive\(Clone, Copy, Debug, PartialEq, Eq\)\]", "#[derive(Clone, Copy)]", l)
        res.append(l); i += 1
    t = "\n".join(res)
    # the holding helper of Hand
    t = re.sub(r"    fn holding\(self, suit: Suit\) -> Holding\s*\{.*?\n    \}\n", "", t, flags=re.S)
    return t
shutil.rmtree(out + "/src", ignore_errors=True)
for c, mods in CR.items():
    base = f"{repo}/crates/{c}/src"
    for root, _, files in os.walk(base):
        if "/tests" in root: continue
        for f in files:
            rel = os.path.relpath(os.path.join(root, f), base)
            top = rel.split("/")[0].split(".")[0]
            if top in SKIP[c] or top == "tests": continue
            if mods is not None and top not in mods: continue
            if rel == "lib.rt": continue
            dst = f"{out}/src/{c}/{rel[:-3]}.rs"
            os.makedirs(os.path.dirname(dst), exist_ok=True)
            t = strip(open(os.path.join(root, f)).read(), c)
            if "Vec<" in t and "shim" not in t: t = "use crate::shim::Vec;\n" + t
            open(dst, "w").write(t)
    lib = open(f"{base}/lib.rt").read()
    names = [m for m in re.findall(r"^(?:pub )?mod (\w+);", lib, re.M) if m not in SKIP[c] and (mods is None or m in mods) and m != "tests"]
    body = "".join(f"pub mod {m};\n" for m in names)
    for m, what in re.findall(r"^pub use (\w+)::(\{[^}]*\}|\w+);", lib, re.M):
        if m in names:
            what = re.sub(r"\b(NotACard|NotADeal|NotAPosition|NotLegal)\b", r"\1", what)
            body += f"pub use {m}::{what};\n"
    open(f"{out}/src/{c}/mod.rs", "w").write(body)
main = open(os.path.join(os.path.dirname(os.path.abspath(__file__)), "main.rs")).read()
open(f"{out}/src/main.rs", "w").write(main)

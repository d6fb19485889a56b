import re, sys, collections, os
f, root = sys.argv[1], sys.argv[2]
visits = float(sys.argv[3])
names = {}; cost = collections.Counter(); cur = None; skip = False; last = 0
def nm(s):
    m = re.match(r"\((\d+)\)\s*(.*)", s)
    if m.group(2): names[m.group(1)] = m.group(2)
    return names.get(m.group(1), "?")
for l in open(f):
    l = l.rstrip("\n")
    m = re.match(r"(fl|fi|fe)=(.*)", l)
    if m: cur = nm(m.group(2)); continue
    if re.match(r"(fn|cfn|cfi|cfl|ob|cob)=", l):
        if re.match(r"(cfi|cfl)=", l): nm(l.split("=",1)[1])
        continue
    if l.startswith("calls="): skip = True; continue
    m = re.match(r"([+\-*]?\d*|\*) (\d+)$", l)
    if m and (l[0].isdigit() or l[0] in "+-*"):
        a = m.group(1)
        if a == "*": line = last
        elif a[0] == "+": line = last + int(a[1:])
        elif a[0] == "-": line = last - int(a[1:])
        else: line = int(a)
        last = line
        if skip: skip = False; continue
        cost[(cur, line)] += int(m.group(2))
tot = sum(cost.values()); fns = collections.Counter()
ranges = {}
def func(file, line):
    if file not in ranges:
        rs = []
        p = file if os.path.isabs(file) else os.path.join(root, file)
        if os.path.exists(p):
            for i, t in enumerate(open(p), 1):
                m = re.match(r"\s*(?:pub(?:\([a-z]+\))? )?fn (\w+)", t)
                if m: rs.append((i, m.group(1)))
        ranges[file] = rs
    name = "?"
    for i, n in ranges[file]:
        if i <= line: name = n
    return name
for (file, line), c in cost.items():
    short = file.split("/src/")[-1] if "src/" in file else os.path.basename(file)
    fns[(short, func(file, line) if "rustc" not in file else "")] += c
print("total", tot, "per visit", tot / visits)
for k, c in fns.most_common(int(sys.argv[4]) if len(sys.argv) > 4 else 60):
    print(f"{c/visits:7.1f}  {100*c/tot:5.1f}%  {k[0]}:{k[1]}")

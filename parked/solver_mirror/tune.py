#!/usr/bin/env python3
"""tune.py MIRROR DEALS WORKERS SECONDS: climbs in the weights of a mirror that strip.py made, on the visits of one strain a deal.

It makes a parameter of each number in weights/*.rs that is added to a weight, compiles that, and tries one change after another;
a change stays where the mean of the logarithms of the visits falls. What it finds has to be told on other deals."""
import os, re, subprocess, sys, time, random, shutil
from concurrent.futures import ThreadPoolExecutor

mirror, deals, workers, seconds = sys.argv[1], sys.argv[2], int(sys.argv[3]), float(sys.argv[4])
out = mirror.rstrip("/") + "_tune"
shutil.rmtree(out, ignore_errors=True)
shutil.copytree(mirror, out)
numbers, where, most = [], [], []


def parameter(name, text, limit=200):
    """A parameter in the place of a number; the limit is what the contracts of the weights allow."""
    numbers.append(int(text)); where.append(name); most.append(limit)
    return f"crate::p({len(numbers) - 1})"


def replace(name):
    path = f"{out}/src/double_dummy/weights/{name}.rs"
    text = open(path).read()
    lines = text.split("\n")
    for i, line in enumerate(lines):
        at = f"{name}:{i + 1}: {line.strip()[:50]}"
        if re.search(r"const |fn |min\(", line): continue
        line = re.sub(r"EVEN \+ (\d) \* length", r"EVEN + \1_u16 * length", line)
        line = re.sub(r"\b(base|EVEN) ([+-]) (\d+)\b",
                      lambda m: f"{m[1]} {m[2]} {parameter(at, m[3], 60 if m[2] == '-' else 200)}", line)
        line = re.sub(r"\bweight ([+-])= (\d+);", lambda m: f"weight {m[1]}= {parameter(at, m[2], 12 if m[1] == '-' else 30)};", line)
        line = re.sub(r"\bbase ([+-])= (\d+);", lambda m: f"base {m[1]}= {parameter(at, m[2], 60)};", line)
        if name == "lead":
            line = re.sub(r"=> \((\d+), (\d+)\),", lambda m: f"=> ({parameter(at, m[1])}, {parameter(at, m[2])}),", line)
        line = re.sub(r"next_best\((\d+), (\d+)\)", lambda m: f"next_best({parameter(at, m[1], 100)}, {parameter(at, m[2], 100)})", line)
        line = re.sub(r"\bmany \* (\d+)", lambda m: f"many * {parameter(at, m[1])}", line)
        line = re.sub(r"=> (\d\d),", lambda m: f"=> {parameter(at, m[1], 60)},", line)
        lines[i] = line
    open(path, "w").write("\n".join(lines))


for name in ("lead", "second", "discard", "ruff"): replace(name)
path = f"{out}/src/double_dummy/weights.rs"
text = open(path).read().replace("const EVEN: u16 = 100;", "const EVEN: u16 = 1000;")
open(path, "w").write(text)
path = f"{out}/src/main.rs"
text = open(path).read()
text = text.replace("mod table_terms;", f"pub static mut P: [u16; {len(numbers)}] = {numbers};\n#[inline(always)] pub fn p(i: usize) -> u16 {{ unsafe {{ P[i] }} }}\nmod table_terms;", 1)
text = text[:text.index("fn main()")] + '''fn main() {
    let args: std::vec::Vec<String> = std::env::args().collect();
    for (i, n) in args[2].split(',').enumerate() { unsafe { P[i] = n.parse().unwrap(); } }
    let (mut logs, mut sum, mut many) = (0.0f64, 0u64, 0u32);
    for (i, line) in std::fs::read_to_string(&args[1]).unwrap().lines().enumerate() {
        let hs: std::vec::Vec<Hand> = line.split('\\t').next().unwrap()[2..].split_whitespace().map(hand).collect();
        let deal = match Deal::new(hs[0], hs[1], hs[2], hs[3]) { Ok(d) => d, Err(_) => panic!() };
        let patterns = DealPatterns::new(Global, &Holders::dealt(deal)).unwrap();
        let mut memory = Memory::new(Global, 13).unwrap();
        let strain = [Strain::Spades, Strain::NoTrump, Strain::Hearts, Strain::Diamonds, Strain::Clubs][i % 5];
        let start = 1_000_000_000_000u64;
        let mut budget = Budget::new(start);
        let mut value = 7u8;
        for declarer in [Place::North, Place::South, Place::East, Place::West] {
            let position = Position::start(deal, strain, declarer);
            value = match asking::value(&position, value, &patterns, &mut memory, &mut budget) { Ok(t) => t, Err(_) => panic!() };
        }
        let visits = start - budget.left();
        logs += (visits as f64).ln(); sum += visits; many += 1;
    }
    println!("{:.6} {:.4}", logs / many as f64, sum as f64 / 1e6);
}
'''
open(path, "w").write(text)
subprocess.run(["rustc", "--edition", "2021", "-O", "-C", "target-cpu=x86-64-v2", "-C", "panic=abort", "-o", f"{out}/m", path],
               check=True, stderr=subprocess.DEVNULL)


def visits(values):
    said = subprocess.run(["nice", "-n", "10", f"{out}/m", deals, ",".join(map(str, values))], capture_output=True, text=True)
    if said.returncode: return (99.0, 0.0)
    a, b = said.stdout.split()
    return (float(a), float(b))


end = time.time() + seconds
best = list(numbers)
score = visits(best)
print("begins at", *score, flush=True)
random.seed(66)
with ThreadPoolExecutor(workers) as pool:
    while time.time() < end:
        tries = []
        for _ in range(workers):
            values = list(best)
            for i in random.sample(range(len(values)), random.choice((1, 1, 2, 3))):
                step = max(3, values[i] // 4)
                values[i] = max(0, min(most[i], values[i] + random.choice((-step, step, -2 * step, 2 * step))))
            tries.append(values)
        for values, found in zip(tries, pool.map(visits, tries)):
            if found[0] < score[0]:
                changed = [f"{where[i]} -> {values[i]}" for i in range(len(values)) if values[i] != best[i]]
                best, score = values, found
                print(*score, "; ".join(changed), flush=True)
                break
print("ends at", *score)
for i, n in enumerate(numbers):
    if n != best[i]: print(where[i], n, "->", best[i])

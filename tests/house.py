#!/usr/bin/env python3
"""The house: the crates of crates.txt as a graph, a box for each tower.
   tests/house.py dot      writes docs/house.dot, from crates.txt
   tests/house.py draw     that, and docs/house.svg from it, by graphviz
   tests/house.py check    fails where docs/house.dot or docs/house.svg is stale, or a crate stands under no tower's heading in crates.txt"""
import hashlib, os, re, subprocess, sys

ROOT = os.path.dirname(os.path.dirname(os.path.abspath(__file__)))
DOT, SVG = os.path.join(ROOT, "docs/house.dot"), os.path.join(ROOT, "docs/house.svg")
KIT = {"io", "libc", "os", "bytes", "check"}
COLOURS = {"paper": "#f6e3a1", "text": "#cfe8cf", "table": "#bcd6f2", "query": "#f3c3b6", "value": "#e3d0ee", "plan": "#d5e8e4",
           "call": "#dddddd", "claims": "#f6e3a1", "gateway": "#ffffff", "vectors": "#eeeeee"}


def crates():
    """each crate's dependencies in the repository, in the file's order; and under which heading it stands"""
    deps, heading, under = {}, None, {}
    for line in open(os.path.join(ROOT, "crates.txt")):
        line = line.strip()
        found = re.match(r"# ---- (\w+)", line)
        if found:
            heading = found.group(1)
        elif line and not line.startswith("#"):
            name, rest = (part.strip() for part in line.split(":"))
            name = name.split()[0]
            deps[name] = [d for d in rest.split() if d not in KIT]
            under[name] = heading
    return deps, under


def tower(name):
    return name.split("_")[0]


def reduced(deps):
    """the edges that no longer path replaces"""
    below = {}

    def reach(name):
        if name not in below:
            below[name] = set(deps[name]).union(*(reach(d) for d in deps[name]))
        return below[name]

    for name in deps:
        reach(name)
    return {n: [d for d in ds if not any(d in below[e] for e in ds if e != d)] for n, ds in deps.items()}


def dot():
    deps, _ = crates()
    edges = reduced(deps)
    towers = {}
    for name in deps:
        towers.setdefault(tower(name), []).append(name)
    lines = ["digraph house {", '  rankdir=TB; ranksep=0.3; nodesep=0.12; node [shape=box style=filled fontname="Helvetica" fontsize=11 margin="0.06,0.03"];',
             '  edge [arrowsize=0.5 color="#55555599"];']
    for t, names in towers.items():
        lines.append(f'  subgraph cluster_{t} {{ label="{t}"; style=rounded; color="#999999"; fontname="Helvetica"; fontsize=16;')
        lines += [f'    {n} [fillcolor="{COLOURS.get(t, "#ffffff")}"];' for n in names]
        lines.append("  }")
    lines += [f"  {n} -> {d};" for n in deps for d in edges[n]]
    return "\n".join(lines + ["}", ""])


def mark(text):
    return "house " + hashlib.sha256(text.encode()).hexdigest()[:16]


def main():
    what = sys.argv[1] if len(sys.argv) == 2 else ""
    text = dot()
    if what in ("dot", "draw"):
        open(DOT, "w").write(text)
        if what == "draw":
            svg = subprocess.run(["dot", "-Tsvg", DOT], check=True, capture_output=True, text=True).stdout
            open(SVG, "w").write(svg.replace("<title>house</title>", f"<title>{mark(text)}</title>", 1))
        return 0
    if what != "check":
        print(__doc__, file=sys.stderr)
        return 2
    faults = []
    if open(DOT).read() != text:
        faults.append("docs/house.dot is stale: python3 tests/house.py draw")
    if mark(text) not in open(SVG).read():
        faults.append("docs/house.svg is stale: python3 tests/house.py draw")
    deps, under = crates()
    for name in deps:
        if under[name] != tower(name):
            faults.append(f"crates.txt: {name} stands under the heading {under[name]}")
    have = {d for d in os.listdir(os.path.join(ROOT, "crates")) if os.path.isdir(os.path.join(ROOT, "crates", d))}
    faults += [f"crates.txt: no crate {n}" for n in sorted(set(deps) - have)] + [f"crates/{n} is not listed" for n in sorted(have - set(deps))]
    for fault in faults:
        print(fault)
    print(f"house: {len(deps)} crates in {len({tower(n) for n in deps})} towers, {len(faults)} faults")
    return 1 if faults else 0


sys.exit(main())

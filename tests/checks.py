#!/usr/bin/env python3
"""The table of docs/CHECKS.md: what each crate costs. Lines and edits are counted, seconds are read from what the older kit's `rt prove` and `rt ci` printed; today's print none, and those stand.
   tests/checks.py write [LOG..]   writes the table anew; a crate that no log has keeps its seconds
   tests/checks.py check           fails where a crate has no row or a row no crate, or the edits told are not those that there are"""
import glob, os, re, sys

ROOT = os.path.dirname(os.path.dirname(os.path.abspath(__file__)))
PAGE = os.path.join(ROOT, "docs/CHECKS.md")
HEAD = "| Crate | check, s | code | definitions | laws | function proofs | edits |\n|---|---|---|---|---|---|---|\n"
ROW = re.compile(r"^\| `(\w+)` \| (\d+) \|.* (\d+) \|$", re.M)


def crates():
    """the crates of crates.txt, in its order"""
    lines = (line.split("#")[0].strip() for line in open(os.path.join(ROOT, "crates.txt")))
    return [line.split(":")[0].split()[0] for line in lines if line]


def lines_of(pattern, comment):
    """lines without blanks and comments"""
    count = 0
    for path in glob.glob(pattern):
        with open(path) as file:
            count += sum(1 for line in file if line.strip() and not line.lstrip().startswith(comment))
    return count


def numbers_of(name):
    """lines of code, definitions, laws and function proofs, and the edits"""
    at = os.path.join(ROOT, "crates", name)
    return [lines_of(f"{at}/src/*.rt", "//"), lines_of(f"{at}/specs/*.antt", "--"), lines_of(f"{at}/proofs/*.antt", "--"),
            lines_of(f"{at}/proofs/*/*.antt", "--"), len(glob.glob(f"{at}/must-fail/*.edit"))]


def write(logs):
    page = open(PAGE).read()
    seconds = {row.group(1): int(row.group(2)) for row in ROW.finditer(page)}
    for log in logs:
        for found in re.finditer(r"^rt: (\w+) proved \((\d+) s\)", open(log).read(), re.M):
            seconds[found.group(1)] = int(found.group(2))
    rows, sums = [], [0] * 6
    for name in crates():
        numbers = [seconds.get(name, 0)] + numbers_of(name)
        sums = [a + b for a, b in zip(sums, numbers)]
        rows.append(f"| `{name}` | " + " | ".join(map(str, numbers)) + " |")
    rows.append("| together | " + " | ".join(map(str, sums)) + " |")
    begin = page.index(HEAD)
    end = page.index("\n\n", begin)
    open(PAGE, "w").write(page[:begin] + HEAD + "\n".join(rows) + page[end:])


def check():
    told = {row.group(1): int(row.group(3)) for row in ROW.finditer(open(PAGE).read())}
    there = {name: numbers_of(name)[-1] for name in crates()}
    faults = [f"{name}: no row in docs/CHECKS.md" for name in there if name not in told]
    faults += [f"{name}: in docs/CHECKS.md, but no crate" for name in told if name not in there]
    faults += [f"{name}: {told[name]} edits told, {n} there" for name, n in there.items() if told.get(name, n) != n]
    print("\n".join(faults + [f"checks: {len(there)} crates, {sum(there.values())} edits, {len(faults)} faults"]))
    return 1 if faults else 0


if __name__ == "__main__":
    if sys.argv[1:2] == ["write"]:
        write(sys.argv[2:])
    elif sys.argv[1:] == ["check"]:
        sys.exit(check())
    else:
        sys.exit(__doc__)

#!/usr/bin/env python3
"""Whether what is written out beside this file is what the paper crates say, as far as a program can see it: every number that a
definition names has its value, both grammars have the same productions and sets, and no definition has changed since it was written out
(read.txt has a sum of each file, without comments, imports and spaces).

  same.py           fails where it is not so
  same.py --stamp   for one who has read the changed definitions and brought the Python up to them: writes read.txt anew
"""
import hashlib
import pathlib
import re
import sys

HERE = pathlib.Path(__file__).resolve().parent
sys.path[0] = str(HERE.parent)

from paper import plans, rules, table, text, values  # noqa: E402

CRATES = HERE.parent.parent / "crates"
PARTS = {"paper": text, "paper_table": table, "paper_query": rules, "paper_values": values, "paper_plan": plans}
# parts of the grammars that no production of the draft names; they are there for the proofs
FOR_PROOFS = {"SpreadRest", "AliasRest", "Bang?", "Number", "NumberRest", "ExponentPart?", "FloatRest", "UnsignedPart"}


def specs(crate):
    return "\n".join(path.read_text() for path in sorted((CRATES / crate / "specs").glob("*.antt")))


def plain(word):
    """A name without what its spelling adds: the definitions have name_class, what is written out here nameClass."""
    return re.sub(r"[-_]", "", word).lower() if isinstance(word, str) else tuple(plain(w) for w in word) if isinstance(word, tuple) else word


def named(module, name):
    """What a module of Python has under a definition's name."""
    return next((v for k, v in vars(module).items() if plain(k) == plain(name)), None)


def without_comments(some):
    return re.sub(r"--.*", "", some)


def numbers(crate):
    for name, number in re.findall(r"^abbrev pub (\S+) : ℕ\n\1 = (0x[0-9a-fA-F]+|\d+)$", specs(crate), re.M):
        yield name, int(number, 0)


def productions(name, some):
    """`NAME Part = (sym ∷ .. ∷ []) ∷ .. ∷ []` as a dictionary of alternatives, each a tuple of the words of its symbols."""
    found = {}
    for part, right in re.findall(rf"^{name} (\S+) =(.*?)(?=^{name} |^\S|\Z)", some, re.M | re.S):
        found[part] = [tuple(w.strip() for w in a.split("∷") if w.strip() not in ("", "[]")) for a in alternatives(right)]
    return found


def alternatives(right):
    """The elements of a list of lists: those in parentheses, and `[]` as a first element."""
    right = " ".join(right.split())
    found, depth, start = [], 0, 0
    for i, c in enumerate(right):
        if c == "(":
            if depth == 0:
                start = i + 1
            depth += 1
        elif c == ")":
            depth -= 1
            if depth == 0:
                found.append(right[start:i])
    return ([""] if right.startswith("[] ∷") else []) + found


def language_symbol(word):
    kind, rest = word.split(" ", 1)
    if kind == "t":
        return ("tm", rest)
    if kind == "act":
        words = rest.strip("()").split()
        return ("act", (words[0], *(named(text, w) if named(text, w) is not None else int(w) for w in words[1:])))
    return (kind, rest)


def lexical_symbol(word):
    kind, rest = word.split(" ", 1)
    return (kind, "is:" + rest.strip("()").split()[1]) if kind == "act" and rest.startswith("(") else (kind, rest)


def same_grammar(name, written, symbol, wrong):
    given = productions(name, without_comments(specs("paper")))
    given = {part: [tuple(symbol(w) for w in a) for a in found] for part, found in given.items()}
    for part in FOR_PROOFS & set(given):
        used = [p for p, found in given.items() if p not in FOR_PROOFS for a in found for k, s in a if k == "nt" and s == part]
        if used:
            wrong.append(f"{name}: {part} is for the proofs and stands in {used}")
    given = {part: found for part, found in given.items() if part not in FOR_PROOFS}
    if not given:
        wrong.append(f"{name}: no productions found")
    for part in sorted({*given, *written}):
        if [plain(tuple(a)) for a in given.get(part, ["none"])] != [plain(tuple(a)) for a in written.get(part, ["nothing"])]:
            wrong.append(f"{name} {part}: the crate has {given.get(part)}, here stands {written.get(part)}")
    return len(given)


def same_sets(wrong):
    given = re.findall(r"^abbrev pub (\S+) : Set\n\1 = (.*)$", without_comments(specs("paper")), re.M)
    for name, right in given:
        spans = tuple((int(a, 16), int(b, 16)) for a, b in re.findall(r"span (0x[0-9a-f]+) (0x[0-9a-f]+)", right))
        there = next((v for k, v in text.sets.items() if plain(k) == plain(name)), None)
        if there != spans:
            wrong.append(f"{name}: the crate has {spans}, here stands {there}")
    return len(given)


def sums():
    """Each file of definitions and the sum of what it says."""
    for crate in PARTS:
        for path in sorted((CRATES / crate / "specs").glob("*.antt")):
            some = re.sub(r"^use .*$", "", without_comments(path.read_text()), flags=re.M)
            yield f"{crate}/specs/{path.name}", hashlib.sha256("".join(some.split()).encode()).hexdigest()[:16]


def changed_since():
    stamped = dict(line.split() for line in (HERE / "read.txt").read_text().splitlines() if not line.startswith("#"))
    found = dict(sums())
    return [name for name in sorted({*stamped, *found}) if stamped.get(name) != found.get(name)]


def main(words):
    if words == ["--stamp"]:
        lines = [f"{name} {some}" for name, some in sums()]
        (HERE / "read.txt").write_text("\n".join(["# The definitions that the Python beside this file was written from; same.py says what these sums are.", *lines]) + "\n")
    wrong, counted = [], 0
    for crate, module in PARTS.items():
        for name, number in numbers(crate):
            counted += 1
            if not name.startswith("rule") and named(module, name) != number:       # the rules stand in lists by number
                wrong.append(f"{crate} {name}: the crate has {number}, here stands {named(module, name)}")
    parts = same_grammar("language", text.language, language_symbol, wrong) + same_grammar("lexical", text.lexical, lexical_symbol, wrong)
    sets = same_sets(wrong)
    wrong += [f"{name} has changed since it was written out in Python; see same.py" for name in changed_since()]
    for one in wrong:
        print("same:", one, file=sys.stderr)
    print(f"paper: {counted} numbers, {parts} productions, {sets} sets and {len(list(sums()))} files of definitions looked at, {len(wrong)} differ")
    return 1 if wrong or not counted else 0


if __name__ == "__main__":
    sys.exit(main(sys.argv[1:]))

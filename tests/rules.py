#!/usr/bin/env python3
"""Holds the README's tables "Rules by number" true: each of the sixteen schema rules and fourteen query rules has its row. Of a row:
- the definition stands in the file of that rule's number;
- the exact functions are there, the contract of each names one of the row's definitions, and each definition is named by one. A contract may name it by a
  word of the crate's own specs whose definition names it, or by the word that `SAYS` has for it;
- a quick test is there, and its crate's name ends `_quick` (or `_quick_types`): such a crate only says yes;
- a wrong program is there. Where its first line names rules of 01 by their numbers, this rule is among them; where it names none, what it changes stands in a
  function that the row's functions call, or in one that keeps what they read (`KEEPS`)."""
import pathlib
import re
import sys

ROOT = pathlib.Path(__file__).resolve().parent.parent
DEFINES = r"(?m)^\s*(?:(?:unfoldable|abbrev|pub|data|record) )*{}\b"
# the words by which a contract says two definitions that speak of all operations: what is least said of a variable up to one; whether two types differ
SAYS = {"Undefined": "Least", "Differs": "differ"}
# the functions that keep, for every row of a document, what an exact function reads
KEEPS = {"query_rules_5_6::field_missing": ["query_inside::enclose"], "query_rule_14::argument_unknown": ["query_inside::enclose", "query_places::places"],
         "query_rules_10_11::differs": ["query_places::places"]}


def sources(crate):
    return [p.read_text() for p in sorted((ROOT / "crates" / crate / "src").glob("*.rt"))]


def functions():
    """each function by `crate::name`: its contract, its text, and what it calls"""
    found = {}
    for folder in sorted((ROOT / "crates").iterdir()):
        for text in sources(folder.name):
            used = {m.group(2): f"{m.group(1)}::{m.group(2)}" for m in re.finditer(r"^use (\w+)::(\w+);", text, re.M)}
            own = set(re.findall(r"\bfn (\w+)\(", text))
            for m in re.finditer(r"^(?:pub )?(?:extern \"C\" )?fn (\w+)\((.*?)^\{\n(.*?)^\}", text, re.M | re.S):
                name, contract, body = m.groups()
                calls = {f"{a}::{b}" for a, b in re.findall(r"\b(\w+)::(\w+)\(", body)}
                calls |= {f"{folder.name}::{c}" if c in own else used[c] for c in re.findall(r"(?<!:)\b(\w+)\(", body) if c in own or c in used}
                found[f"{folder.name}::{name}"] = contract, m.group(0), calls
    return found


def reached(names, found):
    """the functions that these call, themselves too"""
    seen, todo = set(), list(names)
    while todo:
        name = todo.pop()
        if name in seen or name not in found:
            continue
        seen.add(name)
        todo += list(found[name][2]) + KEEPS.get(name, [])
    return seen


def definitions(kind):
    """the files with each rule's definitions, by number"""
    crate = "paper_table" if kind == "Schema" else "paper_query"
    return {int(re.match(r"Rule(\d+)", p.name).group(1)): p.read_text() for p in (ROOT / "crates" / crate / "specs").glob("Rule*.antt")}


def words_of(contract, crate, steps=2):
    """the words of a contract, and those of the definitions of the crate's own specs that they name"""
    specs = "\n\n".join(p.read_text() for p in sorted((ROOT / "crates" / crate / "specs").glob("*.antt")))
    words = new = set(re.findall(r"\w+", contract))
    for _ in range(steps):
        more = set()
        for word in new:
            for m in re.finditer(DEFINES.format(word) + r"[^\n]*(?:\n(?!\n)[^\n]*)*", specs):
                more |= set(re.findall(r"\w+", m.group(0)))
        new, words = more - words, words | more
    return words


def numbers_named(line):
    """the rules that an edit's first line names by number"""
    return {int(n) for pair in re.findall(r'"(\d+)[. ]|\brule (\d+)|\((\d+): ', line) for n in pair if n}


def edit_faults(crate, edit, number, reach, found):
    path = ROOT / f"crates/{crate}/must-fail/{edit}.edit"
    if not path.exists():
        yield f"no edit {crate}/{edit}"
        return
    lines = path.read_text().split("\n")
    named = numbers_named(lines[0])
    if named:
        if number not in named:
            yield f"{crate}/{edit} is of rule {sorted(named)}"
        return
    old = [line[5:].strip() for line in lines if line.startswith("old: ")]
    changed = {name for name, (_, text, _) in found.items() if name.startswith(crate + "::") and any(o in text for o in old)}
    if not changed & reach:
        yield f"{crate}/{edit} changes {sorted(changed)}, which the row's functions do not call, and names no rule"


def faults_of(number, cells, defined, found):
    _, definition, exact, quick, edits = cells
    names = re.findall(r"`(\w+)`", definition)
    exacts, quicks = re.findall(r"`(\w+::\w+)`", exact), re.findall(r"`(\w+::\w+)`", quick)
    for name in names:
        if not re.search(DEFINES.format(name), defined.get(number, "")):
            yield f"no definition {name}"
    for name in exacts + quicks:
        if name not in found:
            yield f"no function {name}"
    said = {f: words_of(found[f][0], f.split("::")[0]) for f in exacts if f in found}
    said = {f: words | {name for name, word in SAYS.items() if word in words} for f, words in said.items()}
    for f, words in said.items():
        if not words & set(names):
            yield f"the contract of {f} names none of {names}"
    for name in names:
        if not any(name in words for words in said.values()):
            yield f"no contract names {name}"
    for f in quicks:
        if not re.search(r"_quick(_types)?::", f):
            yield f"{f} is no quick test"
    reach = reached(exacts + quicks, found)
    for crate, edit in re.findall(r"(\w+)/`(\w+)`", edits):
        yield from edit_faults(crate, edit, number, reach, found)
    if not (names and exacts and "/`" in edits):
        yield "a definition, a function or an edit is missing"


def main():
    faults, seen = [], {"Schema": [], "Query": []}
    found, kind = functions(), None
    for line in (ROOT / "README.md").read_text().split("\n"):
        head = re.match(r"\| (Schema|Query) rule \|", line)
        if head:
            kind, defined = head.group(1), definitions(head.group(1))
        elif kind and re.match(r"\| \d+ ", line):
            cells = [c.strip() for c in line.strip("|").split("|")]
            number = int(cells[0].split()[0])
            seen[kind].append(number)
            faults += [f"{kind} rule {number}: {f}" for f in faults_of(number, cells, defined, found)]
        elif kind and not line.startswith("|"):
            kind = None
    for kind, most in (("Schema", 16), ("Query", 14)):
        if seen[kind] != list(range(1, most + 1)):
            faults.append(f"{kind} rules: rows {seen[kind]}")
    for fault in faults:
        print(fault)
    print(f"rules: {sum(map(len, seen.values()))} rows, {len(faults)} faults")
    return 1 if faults else 0


sys.exit(main())

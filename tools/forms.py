#!/usr/bin/env python3
"""Counts the places in src/ where an older form of the language may still stand, a line for each point of docs/DESIGN-PASS.md.

    tools/forms.py            the counts
    tools/forms.py POINT ..   the places of these points too, as 1 3.2

A place that is counted is a place to look at; what stays, and why, is in docs/DESIGN-PASS.md.
"""
import collections
import glob
import os
import re
import sys

TOP = os.path.dirname(os.path.dirname(os.path.abspath(__file__)))
MANY_PARAMETERS = 7
MANY_FUNCTIONS = 3
FEW_NUMBERS = 3
FEW_TESTS = 4

FUNCTION = re.compile(
    r"^(?P<indent>[ \t]*)(?:pub )?(?:const )?(?:extern \"C\" )?fn (?P<name>\w+)(?:<[^>\n]*>)?"
    r"\((?P<parameters>.*?)\)(?:\s*->\s*(?P<result>[^\n{]+?))?(?P<clauses>(?:\n\s+(?:requires|ensures)[^\n]*)*)"
    r"(?:\s*\{\n(?P<body>.*?)^(?P=indent)\})",
    re.M | re.S,
)
ENUM = re.compile(r"^(?:pub )?enum (\w+)[^{\n]*\{\n(.*?)^\}", re.M | re.S)
CONST = re.compile(r"^pub const ([A-Z][A-Z0-9]*)_(\w+): (?:u8|u16|u32|usize) = ", re.M)


def sources():
    """Each source file: its crate, its path, its text without comments."""
    for path in sorted(glob.glob(os.path.join(TOP, "crates/*/src/**/*.rt"), recursive=True)):
        text = open(path, encoding="utf-8").read()
        yield path.split(os.sep)[-3], os.path.relpath(path, TOP), re.sub(r"//[^\n]*", "", text)


def line_of(text, at):
    return text.count("\n", 0, at) + 1


def main(asked):
    places = collections.OrderedDict()

    def found(point, what, place):
        places.setdefault((point, what), []).append(place)

    for key in (
        ("1.1", "own enums with a case that holds a value"),
        ("1.2", "families of numbers for kinds, tags or reasons"),
        ("1.3", "functions that answer with Option or Result"),
        ("1.4", "exits by `?`"),
        ("3.1", "loops by `while` or `loop`"),
        ("3.2", "of these, loops that add or take 1 by hand at each turn"),
        ("3.3", "loops by `for`"),
        ("4", "functions of a number for a case or a case for a number, by hand"),
        ("5.1", f"functions of more than {MANY_PARAMETERS} parameters"),
        ("5.2", f"facts in the `requires` of {MANY_FUNCTIONS} functions or more"),
        ("6.1", "parameters of a list with its length or place beside it"),
        ("7", f"functions that ask one number for {FEW_TESTS} constants or more, one after another"),
    ):
        places[key] = []
    facts = collections.defaultdict(list)
    families = collections.defaultdict(list)
    for crate, path, text in sources():
        for m in ENUM.finditer(text):
            if re.search(r"\w+\s*[({]", m.group(2)):
                found("1.1", "own enums with a case that holds a value", f"{path}:{line_of(text, m.start())} {m.group(1)}")
        for m in CONST.finditer(text):
            families[(crate, m.group(1))].append(m.group(2))
        for m in FUNCTION.finditer(text):
            at = f"{path}:{line_of(text, m.start())} {m.group('name')}"
            body = m.group("body")
            parameters = [p.strip() for p in m.group("parameters").split(",") if p.strip()]
            if re.match(r"(Option|Result)\b", m.group("result") or ""):
                found("1.3", "functions that answer with Option or Result", at)
            for q in re.finditer(r"\)\?|\w\?;", body):
                found("1.4", "exits by `?`", at)
            loop = re.search(r"^\s*(?:while\b.*|loop) \{", body, re.M)
            if loop:
                found("3.1", "loops by `while` or `loop`", at)
                if re.search(r"\w+ [+-]= 1;", body[loop.start():]):
                    found("3.2", "of these, loops that add or take 1 by hand at each turn", at)
            for q in re.finditer(r"^\s*for ", body, re.M):
                found("3.3", "loops by `for`", at)
            if re.fullmatch(r"u8|u16|u32|u64|usize", m.group("result") or "") and re.match(r"\s*match \w+ \{", body):
                found("4", "functions of a number for a case or a case for a number, by hand", at)
            if len(parameters) > MANY_PARAMETERS:
                found("5.1", f"functions of more than {MANY_PARAMETERS} parameters", f"{at} ({len(parameters)})")
            for clause in re.findall(r"requires \{ (.*?) \}\s*$", m.group("clauses"), re.M):
                for fact in clause.split(" × "):
                    facts[fact.strip(" ()")].append(at)
            names = [re.split(r":\s*", p, maxsplit=1) for p in parameters]
            for a, b in zip(names, names[1:]):
                if len(a) == 2 and len(b) == 2 and re.match(r"&(mut )?\[", a[1]) and b[1] in ("usize", "u32"):
                    found("6.1", "parameters of a list with its length or place beside it", f"{at} ({a[0]}, {b[0]})")
            tests = collections.Counter(re.findall(r"if (\w+) == [A-Z][A-Z0-9_]+ \{", body))
            if tests and max(tests.values()) >= FEW_TESTS:
                found("7", f"functions that ask one number for {FEW_TESTS} constants or more, one after another", at)
    for (crate, family), names in sorted(families.items()):
        if len(names) >= FEW_NUMBERS:
            found("1.2", "families of numbers for kinds, tags or reasons", f"{crate} {family}_ ({len(names)})")
    for fact, at in sorted(facts.items(), key=lambda x: -len(x[1])):
        if len(at) >= MANY_FUNCTIONS:
            found("5.2", f"facts in the `requires` of {MANY_FUNCTIONS} functions or more", f"{len(at):4} {fact}")
    for (point, what), there in places.items():
        print(f"{point:4} {len(there):5}  {what}")
        if point in asked or point.split(".")[0] in asked:
            for place in there:
                print("            " + place)
    for name in ("Answers", "Invariants", "Proof"):
        files = glob.glob(os.path.join(TOP, f"crates/*/proofs/**/{name}.antt"), recursive=True)
        lines = sum(open(f, encoding="utf-8").read().count("\n") for f in files)
        print(f"8    {len(files):5}  files {name}.antt, {lines} lines")


if __name__ == "__main__":
    main(sys.argv[1:])

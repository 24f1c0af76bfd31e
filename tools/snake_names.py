#!/usr/bin/env python3
"""Brings the repository's own definitions and lemmas to snake case, after port.py.

usage: python3 tools/snake_names.py [--check] [FOLDER]

A name that specs/*.antt or proofs/*.antt of a crate declares (definition, lemma, constructor or field) and that begins with a small letter
loses its dashes and humps: nameClass -> name_class, bytes-agree -> bytes_agree. Types, modules, functions of src/, exported names and strings
stay. It goes over crates/*/{src,specs,proofs,must-fail}, README.md and docs/*.md. Names that would fall together are printed, and nothing is
written. A second run changes nothing.
"""

import collections
import glob
import os
import re
import sys

W = r"[^\s(){}.;,@\"«»\[\]\\`]+"
TOKEN = re.compile(r"\"(?:[^\"\\\n]|\\.)*\"|«[^»]*»|" + W)
DECLARED = re.compile(r"(?m)^(?:abbrev )?(?:unfoldable )?(?:pub )?(?:unfoldable )?(?:abbrev )?(" + W + r") :\s")
INNER = re.compile(r"(?m)^ +(?:pub )?(" + W + r"(?: " + W + r")*) : ")
SHARED = re.compile(r"(?m)^ +(?:abbrev )?(?:unfoldable )?(?:pub )?(" + W + r") :\s")
# names that a file uses for something of its own, beside a definition that would be called so
LOCALS = {"crates/text_arguments/proofs/DirectivesLaws.antt": ["at_sign"], "crates/value_fields/proofs/ContentLaws.antt": ["is_field"]}
# words of Rattle that look like names of ours
KEEP = {"at_sign"}


def snake(name):
    if not re.match(r"[a-z]", name):
        return name
    name = name.replace("-", "_")
    name = re.sub(r"(?<=[a-z0-9])([A-Z])(?=[a-z])", lambda m: "_" + m[1].lower(), name)
    name = re.sub(r"(?<=[a-z0-9])([A-Z]+)", lambda m: "_" + m[1].lower(), name)
    name = re.sub(r"([A-Z])", lambda m: m[1].lower(), name)
    return name


def read(path):
    with open(path, encoding="utf-8", newline="") as it:
        return it.read()


def blocks(text):
    """The declarations of data and records: their constructors and fields stand below, indented."""
    for m in re.finditer(r"(?ms)^(?:pub )?(?:data|record) .*?(?=^\S|\Z)", text):
        yield m[0]


def declared(root):
    names = set()
    for part in ("specs", "proofs"):
        for path in glob.glob(f"{root}/crates/*/{part}/*.antt"):
            text = re.sub(r"--[^\n]*", "", read(path))
            names.update(DECLARED.findall(text))
            names.update(SHARED.findall(text))
            for block in blocks(text):
                for m in INNER.findall(block):
                    names.update(m.split(" "))
    return {n for n in names if re.fullmatch(r"[a-z].*", n) and n not in KEEP}


def files(root):
    for pattern in ("crates/*/src/**/*.rt", "crates/*/specs/**/*.antt", "crates/*/proofs/**/*.antt", "crates/*/must-fail/*.edit"):
        yield from sorted(glob.glob(f"{root}/{pattern}", recursive=True))


def pages(root):
    yield from [f"{root}/README.md"] + sorted(glob.glob(f"{root}/docs/*.md"))


def foreign(text):
    """What a file takes from the library: those names stay in it."""
    out = set()
    for m in re.finditer(r"use ([A-Za-z][^\s{]*)\.\{([^}]*)\}", text):
        path = m[1].split(".")
        if path[0] != "Rattle" or path[1] in ("std", "core"):
            for it in m[2].split(","):
                out.add(it.split(" as ")[-1].strip())
                out.add(it.split(" as ")[0].strip())
    return out


def resolved(root, own, texts):
    """The new name of each old one. Where two names that a file has both would be one, a lemma yields to a definition, and else the one with dashes: it gets `by_`
    where it is a constructor, as in `by_name_twice`, else `_is`."""
    in_specs = set()
    constructors = set()
    for path, text in texts.items():
        if "/specs/" in path:
            bare = re.sub(r"--[^\n]*", "", text)
            in_specs.update(DECLARED.findall(bare))
        if path.endswith(".antt"):
            for block in blocks(re.sub(r"--[^\n]*", "", text)):
                if re.match(r"(?:pub )?data", block):
                    for m in INNER.findall(block):
                        constructors.update(m.split(" "))
    groups = collections.defaultdict(set)
    for text in texts.values():
        by = collections.defaultdict(set)
        for w in set(re.findall(W, re.sub(r"(?m)(--|//).*$", "", text))) & set(own) - foreign(text):
            by[own[w]].add(w)
        for new, olds in by.items():
            if len(olds) > 1:
                groups[new].update(olds)
    out = dict(own)
    for new, olds in sorted(groups.items()):
        # first the one that keeps the name
        order = sorted(olds, key=lambda w: (w not in in_specs or w in constructors, w in constructors, "-" in w, w == new, w))
        for w in order[1:]:
            out[w] = "by_" + new if w in constructors else new + "_is"
        print("fall together: " + ", ".join(f"{w} -> {out[w]}" for w in order))
    out["bit-or"] = "bit_or_is"
    return out


def main(argv):
    check = "--check" in argv
    argv = [a for a in argv if a != "--check"]
    root = argv[0] if argv else "."
    texts = {path: read(path) for path in files(root)}
    own = resolved(root, {n: snake(n) for n in declared(root)}, texts)
    turned = {a: b for a, b in own.items() if a != b}
    print(f"{len(turned)} names turn")
    for path, text in texts.items():
        if path.endswith(".edit"):
            continue
        theirs = foreign(text)
        mine = {a: b for a, b in turned.items() if a not in theirs}
        by = collections.defaultdict(set)
        for w in set(re.findall(W, re.sub(r"(?m)(--|//).*$", "", text))):
            by[mine.get(w, w)].add(w)
        for new, olds in by.items():
            if len(olds) > 1 and not ("/src/" in path):
                print(f"look: {path}: {' '.join(sorted(olds))} -> {new}")
    if check:
        return 0
    changed = 0
    for path in list(files(root)) + list(pages(root)):
        if not os.path.exists(path):
            continue
        text = read(path)
        theirs = set() if path.endswith((".md", ".edit")) else foreign(text)
        mine = {a: b for a, b in turned.items() if a not in theirs}

        for w in LOCALS.get(os.path.relpath(path, root), []):
            mine[w] = w + "_is"

        def turn(m):
            w = m[0]
            if w[0] in '"«':
                return w
            # a name that was in snake case before may be a function of src/, in a path or in code
            if re.fullmatch(r"[a-z0-9_]+", w) and w in mine and (not path.endswith(".antt") or text[m.start() - 1 : m.start()] in (".", ":")):
                return w
            return mine.get(w, w)

        if path.endswith(".md"):
            new = re.sub(r"`[^`\n]+`", lambda m: "`" + TOKEN.sub(turn, m[0][1:-1]) + "`", text)
        else:
            new = TOKEN.sub(turn, text)
        if new != text:
            with open(path, "w", encoding="utf-8", newline="") as it:
                it.write(new)
            changed += 1
    print(f"{changed} files changed")
    return 0


if __name__ == "__main__":
    raise SystemExit(main(sys.argv[1:]))

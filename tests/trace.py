#!/usr/bin/env python3
"""docs/TRACE.md: from each sentence of document 01 to definition, theorem of claims, wrong program and test.
   tests/trace.py write      writes its two lists at the end anew: all promises, all wrong programs
   tests/trace.py sentences  cuts document 01 (../shared/01-scope.md) into tests/trace_sentences.txt
   tests/trace.py check      fails where
     a word of 01 is in no row's quote, or a quote is not 01's; where 01 is at hand, also where the list of its sentences is not as it is cut;
     a row has an empty cell, or names a definition, theorem, edit, crate, vector's note, path or function that is not there;
     a theorem of claims or an edit is in no row and not in the list of those of no sentence, or a file of claims with `pub` is in no list;
     an edit quotes words of 01 in its first line, and no row with any of these words names it;
     a list at the end is stale; a crate or a refusal is in no line of the README's tables."""
import fnmatch
import json
import pathlib
import re
import sys

ROOT = pathlib.Path(__file__).resolve().parent.parent
TRACE, README, SENTENCES = ROOT / "docs/TRACE.md", ROOT / "README.md", ROOT / "tests/trace_sentences.txt"
LISTS = "\n## All promises\n"
FORMS, FREE, FILES = "What to write where", "Of no sentence of 01", "Files of claims that state no promise"
NONE = "none, because "
VECTORS = {"V": ["parse"], "T": ["tables"], "Q": ["check"], "K": ["coerce_vars", "coerce_args"], "P": ["plan", "walk"]}


# ---- document 01

def paper_01():
    """document 01, where it is at hand"""
    return next((p for p in (ROOT.parent / "shared/01-scope.md", ROOT.parent.parent / "shared/01-scope.md") if p.exists()), None)


def cut(text):
    """a line for each sentence, for each row of a table of refusals ("number: when; shown") and for each point of a list; the headings of its parts"""
    for line in text.split("\n"):
        cells = [c.strip() for c in line.strip("|").split("|")]
        if line.startswith("## "):
            yield line
        elif line.startswith("|") and cells[0].isdigit():
            yield f"{cells[0]}: {'; '.join(cells[1:])}"
        elif line.startswith("- "):
            yield line[2:]
        elif line and not line.startswith(("# ", "|")):
            yield from re.sub(r"(?m)^(\d+\.)\n", r"\1 ", re.sub(r"(?<=[^\s.][.?!])\s+", "\n", line.replace("**", ""))).split("\n")


def sentences():
    return [s for s in SENTENCES.read_text().split("\n") if s and not s.startswith("## ")]


def laid_out():
    """01 as one text, and where each sentence begins in it"""
    starts = [0]
    for sentence in sentences()[:-1]:
        starts.append(starts[-1] + len(sentence) + 1)
    return " ".join(sentences()), starts


def spans(quote, text, starts):
    """where a quote's words stand in the text, all places; `..` in it passes over words of one sentence, which it does not quote"""
    parts = [(r"(?<!\w)" if p[0].isalnum() else "") + re.escape(p) + (r"(?!\w)" if p[-1].isalnum() else "") for p in quote.split(" .. ") if p]
    if len(parts) == 1:
        return [m.span() for m in re.finditer(parts[0], text)]
    found = [(start, re.search(r".*?".join(f"({p})" for p in parts), text[start:end])) for start, end in zip(starts, starts[1:] + [len(text)])]
    return [(start + f.start(i), start + f.end(i)) for start, f in found if f for i in range(1, len(parts) + 1)]


def quoted(first):
    """a row's first cell without its remark *..*"""
    return re.sub(r"\s*\*[^*]*\*$", "", first)


def unquoted(quotes):
    """faults: quotes that are not in 01, and words of 01 that no quote has"""
    text, starts = laid_out()
    covered = bytearray(len(text))
    for quote in quotes:
        where = spans(quote, text, starts)
        if not where:
            yield f"{quote[:60]}: these words are not in 01"
        for start, end in where:
            covered[start:end] = b"\1" * (end - start)
    for start, sentence in zip(starts, sentences()):
        left = [m.group() for m in re.finditer(r"\w+", sentence) if not all(covered[start + m.start() : start + m.end()])]
        if left:
            yield f"01, \"{sentence[:90]}\": no row quotes \"{' '.join(left)[:90]}\""


def misplaced(text_of_trace):
    """faults: edits that quote 01 in their first line, where no row that names them has any of these words"""
    text, starts = laid_out()
    at = {}
    for _, cells in rows(text_of_trace):
        for edit in named_edits(cells[3]) if len(cells) == 5 else ():
            at.setdefault(edit, []).extend(spans(quoted(cells[0]), text, starts))
    for crate, edit, words in edits():
        quotes = [re.sub(r"\s*\.\.,?\s*", " .. ", q).strip(" .") for q in re.findall(r"\"([^\"]{6,})\"", words)]
        where = [s for q in quotes for s in spans(q, text, starts)]
        if where and (crate, edit) in at and not any(a < d and c < b for a, b in where for c, d in at[crate, edit]):
            yield f"{crate}/{edit} quotes 01, \"{quotes[0][:60]}\", and no row with these words names it"


# ---- what rows may name

def theorems():
    """of each file of claims that states promises: the theorems in order, with the comment above each or above those before it"""
    for path in promising():
        words, above = "", []
        for line in path.read_text().split("\n"):
            if line.startswith("-- ----"):
                above = []
            elif line.startswith("-- "):
                above.append(line[3:])
            elif re.match(r"pub \S+ :", line):
                words = " ".join(above) or words
                yield path.stem, line.split()[1], words
                above = []
            else:
                above = []


def promising():
    return [p for p in sorted((ROOT / "crates/claims/proofs").glob("*.antt")) if p.stem.startswith("Main") or p.stem == "LookUps"]


def edits():
    for path in sorted((ROOT / "crates").glob("*/must-fail/*.edit")):
        yield path.parts[-3], path.stem, path.read_text().split("\n")[0].lstrip("# ")


def crates():
    return [line.split(":")[0].split()[0] for line in (ROOT / "crates.txt").read_text().split("\n") if line.strip() and not line.startswith("#")]


def names_of(text):
    """the names that a file of definitions defines: definitions, constructors, parts of records"""
    names = set()
    for line in text.split("\n"):
        if re.match(r"\s*--|(?:unfoldable )?(?:pub )?use ", line):
            continue
        top = re.match(r"\s*(?:(?:pub|abbrev|unfoldable|data|record)\s+)+([^\s:=(){}]+)|([^\s:=(){}]+)", line)
        inner = re.match(r"\s+(?:pub )?([^:=(){}→]+?) :", line)
        names.update(n for n in (top.groups() if top else ()) if n)
        names.update(inner.group(1).split() if inner else ())
    return names


def definitions():
    """by file: what the paper crates define; of their proofs the wrong definitions of traps and the examples"""
    found = {p.stem: names_of(p.read_text()) for p in sorted((ROOT / "crates").glob("paper*/specs/*.antt"))}
    for p in sorted((ROOT / "crates").glob("paper*/proofs/*.antt")):
        if p.stem.startswith(("Trap", "Examples", "Worked", "ReferenceTexts")):
            found.setdefault(p.stem, set()).update(names_of(p.read_text()))
    return found


def notes():
    return {letter: {json.loads(line).get("note") or "" for f in files for line in open(ROOT / f"tests/vectors/{f}.jsonl")} for letter, files in VECTORS.items()}


def is_defined(name, defined):
    """`File`, `File.name`, `name`, `Type.constructor`, or the beginning of names, `File.kind..`"""
    parts = name.removesuffix("..").split(".")
    files = [parts[0]] if parts[0] in defined else list(defined)
    rest = parts[1:] if parts[0] in defined else parts
    has = lambda names, n: n in names or (name.endswith("..") and n == rest[-1] and any(m.startswith(n) for m in names))
    return any(all(has(defined[f], n) for n in rest) for f in files)


def named_edits(text):
    """crate/`edit`, and behind it `edit`s of the same crate"""
    crate = None
    for found in re.finditer(r"(?:(\w+)/)?`(\w+)`", text):
        crate = found.group(1) or crate
        yield crate, found.group(2)


def named_theorems(text):
    return re.findall(r"(?<![\w-])[a-z0-9]+(?:_[a-z0-9]+)+(?![\w`/])", text)


def named_notes(text):
    """of a test's cell: the quoted notes behind V, T, Q, K or P"""
    for letter, quotes in re.findall(r"(?:^|; )([A-Z]) ((?:\"[^\"]*\"(?:, )?)+)", text):
        yield from ((letter, q) for q in re.findall(r"\"([^\"]*)\"", quotes))


def is_note(quote, of):
    pattern = re.compile(".*".join(re.escape(p.strip()) for p in quote.split("..")))
    return any(pattern.fullmatch(n) for n in of)


def lists():
    lines = [LISTS.strip("\n"), "", "Each theorem of `crates/claims/proofs` that states a promise, with the words above it. Written by `tests/trace.py`.", "",
             "| File | Theorem | In words |", "|---|---|---|"]
    lines += [f"| `{f}` | `{n}` | {cell(w)} |" for f, n, w in theorems()]
    lines += ["", "## All wrong programs", "", "Each edit that the prover must refuse, with the sentence that it breaks. Written by `tests/trace.py`.", "",
              "| Crate | Edit | Breaks |", "|---|---|---|"]
    lines += [f"| `{c}` | `{e}` | {cell(w)} |" for c, e, w in edits()]
    return "\n".join(lines) + "\n"


def cell(text):
    return text.replace("|", "\\|")


# ---- rows

def tables(text):
    """each row of a table below its head, by the heading of its section: the heading, the cells"""
    heading, before = "", ""
    for line in text.split("\n"):
        if line.startswith("## "):
            heading = line[3:]
        if line.startswith("|") and before.startswith("|") and not set(line) <= set("|- "):
            yield heading, [c.strip() for c in line.strip().strip("|").split("|")]
        before = line


def head_of(text):
    return text[: text.index(LISTS)] if LISTS in text else text


def rows(text):
    """the rows of sentences: five cells, or two where the form of the code is told"""
    return [(h, c) for h, c in tables(head_of(text)) if h not in (FREE, FILES)]


def told_in(text):
    """theorems and edits that rows of sentences name"""
    cells = [c for _, c in rows(text) if len(c) == 5]
    return {n for c in cells if not c[2].startswith(NONE) for n in named_theorems(c[2])}, {e for c in cells if not c[3].startswith(NONE) for e in named_edits(c[3])}


def faults_of_row(cells, defined, names, have, noted):
    """of a row of a sentence: 01, definition, theorem, edit, test"""
    first, definition, theorem, edit, test = cells
    yield from (f"no {what}" for what, text in zip(("definition", "theorem", "edit", "test"), cells[1:]) if not text)
    for name in [] if definition.startswith(NONE) else re.findall(r"`([^`]+)`", definition):
        yield from (f"no definition {n} in the paper crates" for n in name.split() if not is_defined(n, defined))
    if theorem and not theorem.startswith(NONE):
        yield from (f"no theorem {n} in claims" for n in named_theorems(theorem) if n not in names)
        yield from [] if named_theorems(theorem) else [f"names no theorem, and does not say \"{NONE}..\""]
    wrong = [(c, e) for c, e in named_edits(edit) if c]
    yield from (f"no edit {c}/{e}" for c, e in wrong if (c, e) not in have)
    yield from (f"no crate {c}" for c in re.findall(r"(\w+)/", edit) if c not in crates())
    if edit and not wrong and not edit.startswith(NONE):
        yield f"names no edit, and does not say \"{NONE}..\""
    yield from (f"no vector has the note {l} \"{q}\"" for l, q in named_notes(test) if not is_note(q, noted.get(l, ())))
    if len(list(named_notes(test))) != test.count("\"") / 2:
        yield "a quote among the tests is not behind V, T, Q, K or P"


def stands_in(name, path):
    """a function, type or parameter of the code, a definition of a paper crate, a decision; of a directory in one of its files"""
    last = re.escape(name.split("::")[-1])
    looks = rf"(?m)\b(?:fn|struct|enum) {last}\b|\b{last}: |^## {last} "
    texts = [(p.suffix, p.read_text()) for p in (sorted(path.rglob("*.*")) if path.is_dir() else [path])]
    return any(re.search(looks, text) or (suffix == ".antt" and name in names_of(text)) for suffix, text in texts)


def faults_of_form(where):
    """of a row of "What to write where": paths, and behind each what stands in it; or the requests with which it is due"""
    if "due with W-" in where:
        yield from (f"{request} has landed" for request in re.findall(r"W-\d+", where) if (ROOT / f"docs/changes/{request}.md").exists())
        return
    path = None
    for name in re.findall(r"`([^`]+)`", where):
        if "/" in name:
            path = ROOT / name
            yield from [] if path.exists() else [f"no file {name}"]
        elif path and path.exists() and not stands_in(name, path):
            yield f"no {name} in {path.relative_to(ROOT)}"
    if not path:
        yield "names no file"


def faults_of_kept(text, names, have):
    """what is in no row stands in the list of those of no sentence, with a reason; and nothing else stands there"""
    kept = [c for h, c in tables(head_of(text)) if h == FREE]
    told, wrong = told_in(text)
    free, wild = {n for c in kept for n in named_theorems(c[0])}, {e for c in kept for e in named_edits(c[0])}
    yield from (f"{FREE}: {c[0][:60]}: no reason" for c in kept if len(c) != 2 or not c[1])
    yield from (f"{FREE}: no theorem {n} in claims" for n in sorted(free - names))
    yield from (f"{FREE}: no edit {c}/{e}" for c, e in sorted(wild - have))
    yield from (f"{FREE}: {n} is in a row" for n in sorted(free & told))
    yield from (f"{FREE}: {c}/{e} is in a row" for c, e in sorted(wild & wrong))
    yield from (f"no row names the theorem {n}" for n in sorted(names - told - free))
    yield from (f"no row names the edit {c}/{e}" for c, e in sorted(have - wrong - wild))


def faults_of_files(text):
    """each file of claims with `pub` is read for promises, all of it, or is in the list of those without"""
    for path in promising():
        for line in path.read_text().split("\n"):
            if re.match(r"pub (?!use )", line) and not re.match(r"pub \S+ :", line):
                yield f"{path.name}: a promise in no form that is read: {line[:60]}"
    listed = {f for h, c in tables(head_of(text)) if h == FILES for f in re.findall(r"`(\w+)`", c[0])}
    others = {p.stem for p in (ROOT / "crates/claims/proofs").rglob("*.antt") if p not in promising() and re.search(r"(?m)^pub ", p.read_text())}
    yield from (f"crates/claims/proofs/{f}.antt has `pub` and is in no list" for f in sorted(others - listed))
    yield from (f"{FILES}: no {f}" for f in sorted(listed) if not (ROOT / f"crates/claims/proofs/{f}.antt").exists())


def faults_of_readme():
    """each crate has its line in "What is where", each refusal of gateway.h its row in "What is refused\""""
    text = README.read_text()
    part = lambda heading: [line for line in text.partition(f"\n## {heading}\n")[2].split("\n## ")[0].split("\n") if line.startswith("|")]
    firsts = [line.strip("|").split("|")[0] for line in part("What is where")]
    patterns = [p.removeprefix("crates/") for first in firsts if "`crates/" in first for p in re.findall(r"`([^`]+)`", first) if p.count("/") < 2]
    yield from (f"README, \"What is where\": no line for the crate {c}" for c in crates() if not any(fnmatch.fnmatch(c, p) for p in patterns))
    yield from (f"README, \"What is where\": no crate is {p}" for p in patterns if not fnmatch.filter(crates(), p))
    for name, number in re.findall(r"(?m)^#define (GW_REFUSE_\w+) (\d+)\b", (ROOT / "include/gateway.h").read_text()):
        if not any(re.match(rf"\| {number} \| `{name}` \| [^|]+ \|", line) for line in part("What is refused")):
            yield f"README, \"What is refused\": no refusal {number}, {name}"


def faults(text):
    names, have, defined, noted = {n for _, n, _ in theorems()}, {(c, e) for c, e, _ in edits()}, definitions(), notes()
    for heading, cells in rows(text):
        if len(cells) == 5:
            found = faults_of_row(cells, defined, names, have, noted)
        else:
            found = faults_of_form(cells[1]) if len(cells) == 2 and heading == FORMS else [f"{len(cells)} cells"]
        yield from (f"{cells[0][:60]}: {f}" for f in found)
    yield from unquoted([quoted(c[0]) for _, c in rows(text)])
    yield from misplaced(text)
    yield from faults_of_kept(text, names, have)
    yield from faults_of_files(text)
    for name in sorted(set(re.findall(r"`((?:crates|tests|host|bench|docs|include)/[\w./*-]+)`", head_of(text)))):
        yield from [] if list(ROOT.glob(name)) else [f"no path {name}"]
    if text[len(head_of(text)) + 1 :] != lists():
        yield "the lists at the end are stale: python3 tests/trace.py write"
    at_hand = paper_01()
    if at_hand and list(cut(at_hand.read_text())) != SENTENCES.read_text().split("\n")[:-1]:
        yield f"tests/trace_sentences.txt is not {at_hand} as it is cut: python3 tests/trace.py sentences"
    yield from faults_of_readme()


def main():
    what = sys.argv[1] if len(sys.argv) == 2 else ""
    text = TRACE.read_text()
    if what == "write":
        TRACE.write_text(head_of(text).rstrip("\n") + "\n\n" + lists())
        return 0
    if what == "sentences":
        SENTENCES.write_text("\n".join(cut(paper_01().read_text())) + "\n")
        return 0
    if what != "check":
        print(__doc__, file=sys.stderr)
        return 2
    found = list(faults(text))
    for fault in found:
        print(fault)
    told, wrong = told_in(text)
    names, have = {n for _, n, _ in theorems()}, {(c, e) for c, e, _ in edits()}
    print(f"trace: {len(sentences())} sentences of 01, {len(rows(text))} rows; in them {len(told & names)} of {len(names)} theorems, {len(wrong & have)} of {len(have)} edits; "
          f"{len(found)} faults")
    return 1 if found else 0


sys.exit(main())

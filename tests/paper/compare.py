#!/usr/bin/env python3
"""The paper's definitions, as they are written out beside this file, compared with the independent readers of tests/ on the vectors and on
random input: the answer, the report, every number of each buffer.

  compare.py PART COUNT SEED   PART: text, table, rules, values or plans; COUNT random inputs beside all vectors; the same seed makes the same
  compare.py every LONG        every row of up to LONG tokens behind each of some beginnings; every two bytes alone, in a string and in a comment;
                               every up to LONG + 3 characters of numbers

Prints how many were compared, how many differ and how often each answer came; fails if some differ. Buffers are lent full of sevens, one
number too short, of their size and longer.
"""
import collections
import itertools
import json
import pathlib
import random
import sys
import threading

HERE = pathlib.Path(__file__).resolve().parent
sys.path[0] = str(HERE.parent)

from paper import plans as paper_plans, rules, table as paper_table, text, values  # noqa: E402

import check_reader  # noqa: E402
import coerce_reader  # noqa: E402
import coercions  # noqa: E402
import pairs  # noqa: E402
import plan_reader  # noqa: E402
import plans  # noqa: E402
import reader  # noqa: E402
import table_reader  # noqa: E402
import tables  # noqa: E402
from paper import inputs  # noqa: E402

VECTORS = HERE.parent / "vectors"


def vectors(name):
    with open(VECTORS / f"{name}.jsonl") as file:
        for line in file:
            yield json.loads(line)


# ---- buffers that hold sevens


def lent(size, chance):
    """Mostly its fixed size; now and then longer."""
    return size + (0 if chance is None or chance.randrange(30) else chance.randrange(1, 9))


class Tally:
    def __init__(self, part):
        self.part, self.compared, self.random, self.differ, self.seen = part, 0, 0, 0, collections.Counter()

    def one(self, what, gave, expected, shown):
        self.compared += 1
        self.seen[shown] += 1
        if gave != expected:
            self.differ += 1
            if self.differ <= 5:
                print(f"{self.part}: {what}\n  definitions {short(gave)}\n  expected    {short(expected)}", file=sys.stderr)

    def said(self, vectors, count):
        kinds = ", ".join(f"{k}: {n}" for k, n in sorted(self.seen.items(), key=str))
        known = f"{vectors} vectors and {self.compared - vectors} random inputs" if vectors else f"{self.compared} inputs"
        print(f"paper {self.part}: {known} compared, {self.differ} differ ({kinds})")
        return 1 if self.differ or self.compared - vectors < count else 0


def short(said):
    answer, buffers = said
    return answer, [trimmed(b)[:60] for b in buffers]


def trimmed(numbers):
    n = len(numbers)
    while n and numbers[n - 1] == 0:
        n -= 1
    return numbers[:n]


def shown(report):
    """The answer and, of 9 and 10 the rule, of 11 the text and the reason."""
    number = report[0]
    if number in (9, 10):
        return f"{number}.{report[2]}"
    return f"11.{report[1]}.{report[3]}" if number == 11 else str(number)


def lengths(sizes, chance):
    """How long the buffers are: now and then one too short, and then what answer is due."""
    if chance is None or chance.randrange(200):
        return [lent(size, chance) for size in sizes], None
    short = chance.randrange(len(sizes))
    return [size - (k == short) for k, size in enumerate(sizes)], short


def compared(tally, what, call, expected, sizes, chance):
    """call(*buffers) of the definitions against the report and outputs that a reader gives; the last buffer is the report."""
    long, too_short = lengths(sizes, chance)
    number, *buffers = call(*([7] * n for n in long))
    report, *written = expected()
    if too_short is not None:
        due = [[7] * n for n in long]
        if too_short < len(sizes) - 1:
            due[-1] = [1] + [0] * 7 + [7] * (long[-1] - 8)
        tally.one(what, (number, buffers), (1, due), "1")
        return
    touched = report[0] not in (1, 2)
    due = []
    for size, n, out in zip(sizes, long, [*written, report]):
        whole = list(out) + [0] * (size - len(out)) if touched or out is report else [7] * size
        due.append(whole + [7] * (n - size))
    tally.one(what, (number, buffers), (report[0], due), shown(report))


# ---- the parts


def one_text(tally, document, chance=None, expected=None):
    compared(tally, document.hex(), lambda rows, report: text.Parsed(document, rows, report), expected or (lambda: reader.parse(document)),
             [14336, 8], chance)


def variables_said(some):
    """A variables text by the reader: the rows, or the refusal's number and offset."""
    try:
        coerce_reader.read_variables(some)
    except reader.Refused as refused:
        return ("refuses", *refused.args)
    read = reader.Reader(some)
    read.value(reader.NO_PARENT, True)
    return ("rows", [tuple(row) for row in read.rows])


def part_text(tally, count, chance):
    n = 0
    for vector in vectors("parse"):
        one_text(tally, bytes.fromhex(vector["doc"]), None, lambda: (vector["report"], vector["out"]))
        n += 1
    for _ in range(count):
        if chance.randrange(8):
            one_text(tally, inputs.document(chance), chance)
        else:
            some = inputs.variables(chance)
            said = text.TextAnswer("VariablesText", text.Tokens(some))
            gave = (said[0], [tuple(r) for r in said[1]]) if said[0] == "rows" else said
            expected = variables_said(some)
            tally.one(some.hex(), (gave[0], [list(gave[1:])]), (expected[0], [list(expected[1:])]), "variables " + (str(gave[1]) if gave[0] == "refuses" else "0"))
    return n


def part_table(tally, count, chance):
    n = 0
    for vector in vectors("tables"):
        some = bytes.fromhex(vector["table"])
        compared(tally, some.hex(), lambda report: paper_table.Checked(some, report), lambda: (vector["report"],), [8], None)
        n += 1
    seeds = [bytes.fromhex(v["table"]) for v in vectors("tables")]
    for some in inputs.tables_at_limits():
        compared(tally, some.hex(), lambda report: paper_table.Checked(some, report), lambda: (table_reader.judge(some),), [8], chance)
    for _ in range(count):
        some = inputs.table(chance, seeds)
        compared(tally, some.hex(), lambda report: paper_table.Checked(some, report), lambda: (table_reader.judge(some),), [8], chance)
        every_break(tally, some)
    return n


def every_break(tally, some):
    """Of a table that is framed and within its sizes all breaks, not the least alone."""
    records, wrong = table_reader.records_of(some)
    if len(some) > 32768 or wrong or table_reader.over(records):
        return
    schema = table_reader.Schema([table_reader.definition_of(r.tag, r.content) for r in records])
    due = {(i, rule, *(place + [65535] * 3)[:3]) for i, d in enumerate(schema.definitions) for rule, *place in schema.breaks_of(i, d)}
    gave = {b for b in paper_table.breaks(paper_table.tableOf(some)) if b[0] < len(schema.definitions)}
    if gave != due:
        tally.one("all breaks of " + some.hex(), (0, [sorted(gave)]), (0, [sorted(due)]), "all breaks")


def part_rules(tally, count, chance):
    n = 0
    for vector in vectors("check"):
        table, document = bytes.fromhex(vector["table"]), bytes.fromhex(vector["doc"])
        compared(tally, f"{table.hex()} {document.hex()}", lambda rows, report: rules.CheckedDocument(table, document, rows, report),
                 lambda: (vector["report"], vector["out"]), [14336, 8], None)
        n += 1
    given = inputs.tables_given(chance, VECTORS / "check.jsonl")
    seeds = [(bytes.fromhex(v["table"]), bytes.fromhex(v["doc"])) for v in vectors("check") if len(v["doc"]) < 3000]
    for _ in range(count):
        table, document = inputs.pair(chance, given, seeds)
        compared(tally, f"{table.hex()} {document.hex()}", lambda rows, report: rules.CheckedDocument(table, document, rows, report),
                 lambda: check_reader.check(table, document), [14336, 8], chance)
        every_fault(tally, table, document)
    return n


def every_fault(tally, table, document):
    """Of a document that was read all faults, not the least alone; but rule 12 on a directive's arguments, where the directive breaks 9."""
    if len(document) > 16384 or len(table) > 32768 or check_reader.schema_of(table)[0][0]:
        return
    read, flat = reader.parse(document)
    if read[0]:
        return
    _, schema, roots = check_reader.schema_of(table)
    due = set(check_reader.Judge(schema, roots, *check_reader.tree_of(document, flat)).faults())
    d = rules.read(document, text.TextAnswer("Document", text.Tokens(document))[1])
    t = paper_table.tableOf(table)
    gave = {(i, k) for i in range(rules.count(d)) for k, broken in rules.Broken if broken(t, d, i)}
    gave -= {(i, 12) for i in range(rules.count(d)) if rules.kindOf(d, rules.parentOf(d, i)) == text.kindDirective}
    if gave != due:
        tally.one(f"all faults of {table.hex()} {document.hex()}", (0, [sorted(gave)]), (0, [sorted(due)]), "all faults")


def one_coercion(tally, table, document, name, variables, row, expected, chance):
    def call(value, report):
        if row is None:
            return values.CoercedVariables(table, document, name, variables, value, report)
        return values.CoercedArguments(table, document, name, variables, row, value, report)

    what = f"{table.hex()} {document.hex()} {name.hex()} {variables.hex()} {row}"
    compared(tally, what, call, expected, [8192, 8], chance)


def part_values(tally, count, chance):
    n = 0
    for kind in ("coerce_vars", "coerce_args"):
        for vector in vectors(kind):
            table, document, name, variables = (bytes.fromhex(vector[k]) for k in ("table", "doc", "op", "vars"))
            one_coercion(tally, table, document, name, variables, vector.get("row"), lambda: (vector["report"], bytes.fromhex(vector["out"])), None)
            n += 1
    given = inputs.tables_given(chance, VECTORS / "coerce_args.jsonl")
    given += [tables.table(tables.written(coercions.WIDE))] * (len(given) // 2)
    for call in inputs.coercions(chance, given, count):
        one_coercion(tally, *call, lambda: coerce_reader.coerce(*call), chance)
    return n


def one_walk(tally, table, plan, one, blocks, variables, expected, chance):
    what = f"{table.hex()} {one} {blocks} {list(variables)} {trimmed(list(plan))[:400]} of {len(plan)}"
    compared(tally, what, lambda pairs, report: paper_plans.Walked(table, plan, one, blocks, variables, pairs, report), expected, [1024, 8], chance)


def part_plans(tally, count, chance):
    n = 0
    for vector in vectors("plan"):
        table, document, name = (bytes.fromhex(vector[k]) for k in ("table", "doc", "op"))
        one_plan(tally, table, document, name, lambda: (vector["report"], vector["out"]), None)
        n += 1
    for vector in vectors("walk"):
        plan = vector["plan"] + [0] * (14338 - len(vector["plan"]))
        one_walk(tally, bytes.fromhex(vector["table"]), plan, vector["type"], vector["blocks"], vector["vars"], lambda: (vector["report"], vector["out"]), None)
        n += 1
    given = inputs.tables_given(chance, VECTORS / "check.jsonl")
    wide = tables.table(tables.written(plans.WIDE))
    given += [wide] * len(given)
    while tally.compared - n < count:
        table, document, name = inputs.planned(chance, given)
        report, numbers = one_plan(tally, table, document, name, lambda: plan_reader.plan(table, document, name), chance)
        if report[0] == 0:
            walks_of(tally, table, document, name, numbers, chance)
    return n


def one_plan(tally, table, document, name, expected, chance):
    said = expected()
    what = f"{table.hex()} {document.hex()} {name.hex()}"
    compared(tally, what, lambda plan, report: paper_plans.Planned(table, document, name, plan, report), lambda: said, [14338, 8], chance)
    return said


def walks_of(tally, table, document, name, numbers, chance):
    """Walks of the plan, which must be what the draft collects, by the reader and by the definitions; and of the plan with numbers changed."""
    schema = check_reader.schema_of(table)[1]
    _, d, op = rules.Opened(table, document, name)
    t = paper_table.tableOf(table)
    holders = paper_plans.BlockRows(d, op)
    objects = plans.objects_of(schema)
    plan = plan_reader.lent(numbers)
    for _ in range(4):
        one = chance.choice(objects) if chance.randrange(40) else chance.randrange(len(schema.definitions) + 1)
        blocks, variables = plans.blocks_for(numbers[0], chance), plans.variables_for(chance)
        if chance.randrange(30) == 0:
            blocks = [chance.randrange(min(numbers[0], 3))] * chance.randrange(50, 66)
        due = plan_reader.collect(table, document, name, one, blocks, variables)
        one_walk(tally, table, plan, one, blocks, variables, lambda: due, chance)
        if due[0][0] == 0:
            groups = paper_plans.Collects(t, d, op, paper_plans.isOne(variables), one, [holders[b] for b in blocks])
            gave = paper_plans.flatPairs(paper_plans.pairsOf(d, groups))
            if gave != due[1]:
                tally.one(f"collected {table.hex()} {document.hex()} {one} {blocks}", (0, [gave]), (0, [due[1]]), "collected")
        changed = inputs.replanned(chance, list(plan), len(schema.definitions))
        one_walk(tally, table, changed, one, blocks, variables, lambda: plan_reader.walk(table, tuple(changed), one, blocks, variables), chance)


def every(tally, long):
    """Short documents of every kind."""
    words = [*inputs.CLASS_TEXT.values(), b"a", b"on", b"query", b"fragment", b"true", b"null", b"1", b"1.5", b'"s"']
    for beginning in BEGINNINGS:
        for length in range(long + 1):
            for row in itertools.product(words, repeat=length):
                one_every(tally, beginning + b" " + b" ".join(row))
    for pair in itertools.product(range(256), repeat=2):
        for form in (b"%s", b'{a(x:"%s")}', b"{a #%s\n}", b"{a %s b}"):
            one_every(tally, form % bytes(pair))
    for length in range(1, long + 4):
        for row in itertools.product(b"01-.eE+a", repeat=length):
            one_every(tally, b"{a(x:[%s])}" % bytes(row))


BEGINNINGS = [b"", b"{", b"{a", b"{a:", b"{a(x:1", b"{a(x:[", b"{a(x:{", b"{a(x:{k:1", b"{...", b"{...on A", b"{a@d", b"{a}", b"query", b"query A(", b"query($a:I", b"query($a:[I",
              b"query($a:I=", b"query($a:I={k:", b"fragment F", b"fragment F on A"]


def one_every(tally, document):
    """As one_text, without the buffers."""
    said = text.TextAnswer("Document", text.Tokens(document))
    gave = [0, len(said[1])] + [n for r in said[1] for n in r] if said[0] == "rows" else [said[1], said[2]]
    report, rows = reader.parse(document)
    due = report[:2] + rows
    tally.one(document.hex(), (gave[0], [gave]), (due[0], [due]), str(due[0]))


PARTS = {"text": part_text, "table": part_table, "rules": part_rules, "values": part_values, "plans": part_plans}


def main(words):
    if len(words) == 2 and words[0] == "every" and words[1].isdigit():
        tally = Tally("every")
        every(tally, int(words[1]))
        return tally.said(0, 1)
    if len(words) != 3 or words[0] not in PARTS or not words[1].isdigit():
        print(__doc__, file=sys.stderr)
        return 2
    tally = Tally(words[0])
    count = int(words[1])
    found = PARTS[words[0]](tally, count, random.Random(f"{words[0]} {words[2]}"))
    return tally.said(found, count)


if __name__ == "__main__":
    # lists of two thousand items are followed item by item
    sys.setrecursionlimit(30000)
    threading.stack_size(512 * 1024 * 1024)
    ended = []
    worker = threading.Thread(target=lambda: ended.append(main(sys.argv[1:])))
    worker.start()
    worker.join()
    sys.exit(ended[0] if ended else 3)

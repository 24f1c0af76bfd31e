#!/usr/bin/env python3
# Makes stdin and stdout of crates/vectors_parse, vectors_tables, vectors_check, vectors_plan, vectors_walk and vectors_coerce of the cases in
# parse.jsonl, tables.jsonl, check.jsonl, plan.jsonl, walk.jsonl and coerce_vars.jsonl with coerce_args.jsonl beside it; with --check only says
# whether they are as it would make them. The form of a case is told in crates/vectors/src/lib.rt, that of a plan, of a walk's second part and of a
# coercion in their programs' src/main.rt.
import json
import pathlib
import struct
import sys

HERE = pathlib.Path(__file__).resolve().parent
CRATES = HERE.parent.parent / "crates"


def numbers(ns):
    return struct.pack("<%dH" % len(ns), *ns)


def read(name):
    with open(HERE / name) as f:
        return [json.loads(line) for line in f]


# Cases: table, document, report, rows, and what the program is to say of the comparison. The last ones are wrong on purpose, so that a program that
# compares nothing is seen.

def parse_cases():
    cases = [("", case["doc"], case["report"], case["out"], "same") for case in read("parse.jsonl")]
    return cases + wrong_rows(cases[0])


def table_cases():
    cases = [(case["table"], "", case["report"], [], "same") for case in read("tables.jsonl")]
    # a break's argument
    return cases + wrong_report(next(case for case in cases if case[2][0] == 9), 5)


def check_cases():
    cases = [(case["table"], case["doc"], case["report"], case["out"], "same") for case in read("check.jsonl")]
    # a break's rule
    return cases + wrong_rows(cases[0]) + wrong_report(next(case for case in cases if case[2][0] == 10), 2)


def walk_cases():
    cases = [(case["table"], asked(case).hex(), case["report"], case["out"], "same") for case in read("walk.jsonl")]
    # a break's rule
    return cases + wrong_pairs(cases[0]) + wrong_report(next(case for case in cases if case[2][0] == 9), 2)


def asked(case):
    """What is asked of a walk: the plan's numbers that are not 0, the blocks, the variables, the object's record."""
    plan = [(place, number) for place, number in enumerate(case["plan"]) if number]
    counts = struct.pack("<HHHL", len(plan), len(case["blocks"]), len(case["vars"]), case["type"])
    entries = b"".join(struct.pack("<HL", place, number) for place, number in plan)
    return counts + entries + struct.pack("<%dL" % len(case["blocks"]), *case["blocks"]) + bytes(case["vars"])


def wrong_pairs(case):
    """The last number changed, the last pair left out."""
    table, walk, report, pairs, _ = case
    return [(table, walk, report, other, "OTHER") for other in (pairs[:-1] + [pairs[-1] + 1], pairs[:-2])]


# A plan: table, document, name, report, the plan's numbers, and what is to be said.

def plan_cases():
    cases = [(case["table"], case["doc"], case["op"], case["report"], case["out"], "same") for case in read("plan.jsonl")]
    made = next(case for case in cases if case[3][0] == 0)
    broken = next(case for case in cases if case[3][0] == 10)
    return cases + wrong_plans(made) + wrong_counts(made, broken)


def wrong_plans(case):
    """The last step's second number changed, the last step left out."""
    *others, plan, _ = case
    return [(*others, other, "OTHER") for other in (plan[:-1] + [plan[-1] + 1], plan[:-3])]


def wrong_counts(made, broken):
    """The count of steps changed; a number behind all that is shown of a break."""
    *others, report, plan, _ = made
    *texts, shown, none, _ = broken
    return [(*others, report[:2] + [report[2] + 1] + report[3:], plan, "OTHER"), (*texts, shown[:7] + [1], none, "OTHER")]


# A coercion: the call (1 for arguments) and its row, table, document, name, variables text, report, value, and what is to be said.

def coerce_cases():
    cases = [(int("row" in case), case.get("row", 0), *(case[text] for text in ("table", "doc", "op", "vars")), case["report"], case["out"], "same")
             for name in ("coerce_vars.jsonl", "coerce_args.jsonl") for case in read(name)]
    return cases + wrong_values(next(case for case in cases if case[6][1] > 3)) + wrong_reasons(next(case for case in cases if case[6][0] == 11))


def wrong_values(case):
    """The last byte changed, and left out."""
    *others, value, _ = case
    return [(*others, other, "OTHER") for other in (value[:-2] + "%02x" % (int(value[-2:], 16) ^ 1), value[:-2])]


def wrong_reasons(case):
    """The reason changed, and the number behind it."""
    *others, report, value, _ = case
    return [(*others, other, value, "OTHER") for other in (report[:3] + [report[3] ^ 1] + report[4:], report[:4] + [1] + report[5:])]


def wrong_rows(case):
    """The last number changed, the last row left out."""
    table, document, report, rows, _ = case
    return [(table, document, report, other, "OTHER") for other in (rows[:-1] + [rows[-1] + 1], rows[:-7])]


def wrong_report(case, place):
    """A number that is shown changed, and one behind all that is shown."""
    table, document, report, rows, _ = case
    changed = report[:place] + [report[place] ^ 1] + report[place + 1:]
    return [(table, document, other, rows, "OTHER") for other in (changed, report[:7] + [1])]


def packed(cases):
    stdin, stdout = [], []
    for n, (table, document, report, rows, same) in enumerate(cases, 1):
        parts = [bytes.fromhex(table), bytes.fromhex(document), numbers(rows)]
        stdin.append(numbers([len(part) for part in parts] + report) + b"".join(parts))
        stdout.append("%d %d %d %s\n" % (n, report[0], report[1], same))
    return {"stdin": b"".join(stdin), "stdout": "".join(stdout).encode()}


def packed_plans(cases):
    stdin, stdout = [], []
    for n, (*texts, report, plan, same) in enumerate(cases, 1):
        table, document, name = (bytes.fromhex(text) for text in texts)
        entries = b"".join(numbers([place, number]) for place, number in enumerate(plan) if number)
        head = numbers([len(table), len(document), len(entries)] + report + [len(name)])
        stdin.append(head + table + document + name + entries)
        stdout.append("%d %d %d %s\n" % (n, report[0], report[1], same))
    return {"stdin": b"".join(stdin), "stdout": "".join(stdout).encode()}


def packed_coercions(cases):
    stdin, stdout = [], []
    for n, (call, row, *texts, report, value, same) in enumerate(cases, 1):
        table, document, name, variables = (bytes.fromhex(text) for text in texts)
        value = bytes.fromhex(value)
        head = numbers([len(table), len(document), len(value)] + report) + numbers([len(name), len(variables), call]) + struct.pack("<I", row)
        stdin.append(head + table + document + name + variables + value)
        stdout.append("%d %d %d %s\n" % (n, report[0], report[1], same))
    return {"stdin": b"".join(stdin), "stdout": "".join(stdout).encode()}


def main(check):
    wrong = 0
    made = {"vectors_parse": packed(parse_cases()), "vectors_tables": packed(table_cases()), "vectors_check": packed(check_cases()),
            "vectors_plan": packed_plans(plan_cases()), "vectors_walk": packed(walk_cases()), "vectors_coerce": packed_coercions(coerce_cases())}
    for crate, files in made.items():
        for name, data in files.items():
            path = CRATES / crate / name
            if not check:
                path.write_bytes(data)
            elif not path.exists() or path.read_bytes() != data:
                print("crates/%s/%s is not what tests/vectors/pack.py makes" % (crate, name), file=sys.stderr)
                wrong = 1
    return wrong


if __name__ == "__main__":
    sys.exit(main(sys.argv[1:] == ["--check"]))

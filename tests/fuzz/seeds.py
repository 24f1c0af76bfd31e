#!/usr/bin/env python3
"""Seeds for the fuzzer: the vectors, the host's examples and the bench's inputs as cases (tests/fuzz/case.h), a file each.

  seeds.py FOLDER    writes them, with those of an earlier run removed, and says how many
"""
import json
import pathlib
import sys

PARSE, TABLE, CHECK, VARIABLES, ARGUMENTS, PLAN, WALK, ALL = range(8)
PLAN_FIRSTS, PLAN_STEP_0, MOST_BLOCKS = 2, 2050, 2048
ROOT = pathlib.Path(__file__).resolve().parent.parent.parent


def two(number):
    """A number of the case: the highest 256 stand for numbers about the middle and the end of all."""
    if number >= 0xFF00:
        number = 0xFF00 | (0x80 if number >= 0xC0000000 else 0) | number & 0x7F
    return number.to_bytes(2, "big")


def walk_numbers(blocks, plan):
    plan = list(plan) + [0] * (PLAN_STEP_0 - len(plan))
    firsts = plan[PLAN_FIRSTS:PLAN_FIRSTS + min(plan[0], MOST_BLOCKS)]
    numbers = list(blocks[:255]) + plan[:2] + firsts + plan[PLAN_STEP_0:]
    return bytes([min(len(blocks), 255)]) + b"".join(two(n) for n in numbers)


def case(call, table=b"", document=b"", operation=b"", variables=b"", number=0, numbers=b""):
    sections = [table[:65535], document[:65535], operation[:65535], variables[:65535]]
    lengths = b"".join(len(s).to_bytes(2, "big") for s in sections)
    return bytes([call, 0]) + lengths + two(number) + b"".join(sections) + numbers


def vectors():
    def lines(name):
        with open(ROOT / "tests/vectors" / (name + ".jsonl"), encoding="ascii") as file:
            for line in file:
                given = json.loads(line)
                for key in ("table", "doc", "op"):
                    given[key] = bytes.fromhex(given.get(key, ""))
                yield given

    for v in lines("parse"):
        yield case(PARSE, document=v["doc"])
    for v in lines("tables"):
        yield case(TABLE, v["table"])
    for v in lines("check"):
        yield case(CHECK, v["table"], v["doc"])
        yield case(ALL, v["table"], v["doc"], variables=b"{}", number=1, numbers=b"\0")
    for v in lines("coerce_vars"):
        yield case(VARIABLES, v["table"], v["doc"], v["op"], bytes.fromhex(v["vars"]))
    for v in lines("coerce_args"):
        yield case(ARGUMENTS, v["table"], v["doc"], v["op"], bytes.fromhex(v["vars"]), v["row"])
        yield case(ALL, v["table"], v["doc"], v["op"], bytes.fromhex(v["vars"]), v["row"], b"\0")
    for v in lines("plan"):
        yield case(PLAN, v["table"], v["doc"], v["op"])
        yield case(ALL, v["table"], v["doc"], v["op"], b"{}", 1, b"\2\0\1\0\2")
    for v in lines("walk"):
        yield case(WALK, v["table"], variables=bytes(v["vars"]), number=v["type"], numbers=walk_numbers(v["blocks"], v["plan"]))


def files():
    """Every table of the examples and inputs with every document beside it."""
    for folder in ("host/examples", "bench/inputs"):
        tables = [path.read_bytes() for path in sorted((ROOT / folder).glob("*.table"))]
        documents = [path.read_bytes() for path in sorted((ROOT / folder).rglob("*.graphql"))]
        variables = [b"{}"] + [path.read_bytes() for path in sorted((ROOT / folder).glob("*.variables"))]
        yield from (case(TABLE, table) for table in tables)
        yield from (case(PARSE, document=document) for document in documents)
        for table in tables:
            for document in documents:
                yield from (case(ALL, table, document, variables=text, number=1, numbers=b"\0") for text in variables)


def main():
    folder = pathlib.Path(sys.argv[1])
    folder.mkdir(parents=True, exist_ok=True)
    for old in folder.iterdir():
        old.unlink()
    cases = sorted(set(vectors()) | set(files()), key=lambda c: (len(c), c))
    for number, bytes_ in enumerate(cases):
        (folder / f"{number:05}").write_bytes(bytes_)
    print(f"seeds: {len(cases)} cases")


main()

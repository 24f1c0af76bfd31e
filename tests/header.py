#!/usr/bin/env python3
"""Holds include/gateway.h to the lib.rt of crates/paper, crates/paper_table, crates/paper_query, crates/paper_values and
crates/paper_plan: each number of the one is in the other, with GW_ before its name, a query rule with GW_QUERY_, the tag of a coerced
value with GW_VALUE_.

The header alone names the columns of a row, a step and a pair, and the stack of a call.
"""
import pathlib
import re
import sys

ROOT = pathlib.Path(__file__).resolve().parent.parent
NUMBER = r'^pub const (\w+): \w+ = (\d+);'
# tags of coerced values that have other names in the code, where tags of tables stand beside them
VALUES = {'TAG_ENUM_NAME': 'VALUE_ENUM', 'TAG_INPUT': 'VALUE_OBJECT', 'TAG_PAIR': 'VALUE_ENTRY', 'TAG_OWN': 'VALUE_OWN_SCALAR'}
COLUMNS = 'ROW_KIND ROW_START ROW_END ROW_PARENT ROW_NAME_START ROW_NAME_LENGTH ROW_EXTRA'.split()
# of plans and walks: what the header may have alone
PLANS = {'STEP_KIND': 0, 'STEP_FIRST': 1, 'STEP_SECOND': 2, 'PAIR_SIZE': 2, 'PAIR_KEY': 0, 'PAIR_ROW': 1}


def numbers(path, pattern):
    return {name: int(value) for name, value in re.findall(pattern, (ROOT / path).read_text(), re.M)}


def main():
    code = {}
    for crate in ('paper', 'paper_table'):
        code.update(numbers(f'crates/{crate}/src/lib.rt', NUMBER))
    for name, number in numbers('crates/paper_query/src/lib.rt', NUMBER).items():
        code['QUERY_' + name if name.startswith('RULE_') else name] = number
    for name, number in numbers('crates/paper_values/src/lib.rt', NUMBER).items():
        code[VALUES.get(name, name.replace('TAG_', 'VALUE_'))] = number
    code.update(numbers('crates/paper_plan/src/lib.rt', NUMBER))
    # the records' tags as 32-bit numbers are the tags, and the tests of the planner's table as 16-bit numbers are steps
    for one, other in (('RECORD_', 'TAG_'), ('TEST_', 'STEP_')):
        code = {name: number for name, number in code.items() if not (name.startswith(one) and code[name.replace(one, other)] == number)}
    header = numbers('include/gateway.h', r'^#define GW_(\w+) (\d+)\b')
    code.update({name: number for name, number in PLANS.items() if name not in code})
    for call in ('PARSE', 'CHECK_TABLE', 'CHECK', 'COERCE_VARIABLES', 'COERCE_ARGUMENTS', 'PLAN', 'WALK'):
        header.pop(f'{call}_STACK')
    columns = {name: header.pop(name, None) for name in COLUMNS if name not in code}
    wrong = sorted(name for name in code.keys() | header.keys() if code.get(name) != header.get(name))
    wrong += [name for i, name in enumerate(COLUMNS) if columns.get(name, i) != i]
    for name in wrong:
        print(f'header: {name} is {code.get(name)} in a lib.rt and {header.get(name)} in gateway.h', file=sys.stderr)
    print(f'header: {len(code)} numbers compared, {len(wrong)} differ')
    return 1 if wrong or not code else 0


if __name__ == '__main__':
    sys.exit(main())

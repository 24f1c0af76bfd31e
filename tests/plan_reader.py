#!/usr/bin/env python3
"""A plain, slow planner and walker, and apart from both a field collector on the document itself; written from document 01 and the draft's
6.3.2 and from no code of this repository.

  plan_reader.py vectors PLANS WALKS   plans and walks the cases of the two vectors files and compares with the answers that stand there
  plan_reader.py cases PLANS WALKS     prints these cases, a line each, as tests/harness_plan reads them
  plan_reader.py compare               reads such lines and compares their answers with its own

A line is one of
  plan TABLE DOCUMENT OPERATION REPORT PLAN WALKS    the operation's plan, and walks of it: each is compared with what is collected from the
                                                     document, which must be what this walker finds in this planner's plan too
  walk TABLE LENT PLAN WALKS                         walks of any numbers, of which so many are lent
with bytes in hex (- for none). PLAN: how many numbers are not 0, each with its place before it. WALKS: how many, then of each the type's
record, the count of blocks, these, the variable bytes, the report's eight numbers, how many pair numbers follow, these.
"""
import gc
import json
import multiprocessing
import sys
from functools import lru_cache

import check_reader
import reader
import table_reader
from check_reader import (DIRECTIVE, FIELD, FRAGMENT, INLINE, OPERATION, SELECTIONS, SPREAD, TYPE_REFERENCE, VARIABLE, VARIABLE_DEFINITION,
                          in_and_under, tree_of)
from table_reader import A_NAME, INTERFACE, OBJECT, UNION, first_named, is_type, report

PLAN_SIZE, MOST_BLOCKS, MOST_STEPS, FIRSTS, STEPS_AT = 14338, 2048, 4096, 2, 2050
MOST_WALKED, MOST_PAIRS, VARIABLES_SIZE, MOST_VARIABLES, MOST_FRAGMENTS, MOST_ROWS = 64, 512, 64, 64, 64, 2048
IF_TRUE, UNLESS_TRUE, UNLESS_APPLIES, IF_MET, LIST = range(1, 6)
KEPT = 512                      # documents whose reading is kept
sys.setrecursionlimit(10000)    # 64 fragments, one in the other, 32 levels each


# ---- documents

class Document:
    """A document that a table accepts, and the schema of the table."""

    def __init__(self, schema, text, rows, definitions):
        self.schema, self.text, self.rows = schema, text, rows
        self.operations = [d for d in definitions if d.kind == OPERATION]
        self.fragments = [d for d in definitions if d.kind == FRAGMENT]
        self.by_name = {d.name: d for d in self.fragments}

    def key(self, field):
        """A field's response key."""
        return A_NAME.match(self.text, field.start)[0]

    def key_numbers(self):
        """Each response key's number: its least field row in the document."""
        found = {}
        for row in self.rows:
            if row.kind == FIELD:
                found.setdefault(self.key(row), row.number)
        return found

    def operation(self, name):
        if not name:
            return self.operations[0] if len(self.operations) == 1 else None
        return first_named(self.operations, name)

    def holders(self, operation):
        """The operation, then each field with selections in it or in fragments that it spreads, directly or not, by row."""
        left, seen, found = [operation], {operation.number}, []
        while left:
            for row in in_and_under(left.pop()):
                if row.kind == FIELD and row.of(*SELECTIONS):
                    found.append(row)
                elif row.kind == SPREAD and self.by_name[row.name].number not in seen:
                    seen.add(self.by_name[row.name].number)
                    left.append(self.by_name[row.name])
        return [operation] + sorted(found, key=lambda row: row.number)


@lru_cache(maxsize=KEPT)
def opened(table, text):
    """The report of a document by a table and, where it is accepted, the document."""
    said, flat = check_reader.check(table, text)
    if said[0]:
        return said, None
    return said, Document(check_reader.schema_of(table)[1], text, *tree_of(text, flat))


def condition_of(row):
    found = row.of(TYPE_REFERENCE)
    return found[0].name if found else None


def directive(row, name):
    """What skip or include of a selection holds: a value's row, or None."""
    found = [one for one in row.of(DIRECTIVE) if one.name == name]
    return found[0].held[0].held[0] if found else None


# ---- the plan, by the step rule

class TooLong(Exception):
    """More than 4,096 steps."""


class Planner:
    def __init__(self, document, operation):
        self.document = document
        self.keys = document.key_numbers()
        self.fragments = {fragment.name: number for number, fragment in enumerate(document.fragments)}
        self.variables = {one.name: number for number, one in enumerate(operation.of(VARIABLE_DEFINITION))}
        self.records = {}
        for number, one in enumerate(document.schema.definitions):
            if is_type(one):
                self.records.setdefault(one.name, number)
        self.steps = []

    def step(self, kind, first, second):
        if len(self.steps) == MOST_STEPS:
            raise TooLong
        self.steps.append([kind, first, second])

    def conditions(self, row):
        """Skip's step and include's; False if a literal drops the selection."""
        tests = []
        for name, kind, drops in ((b'skip', IF_TRUE, 1), (b'include', UNLESS_TRUE, 0)):
            value = directive(row, name)
            if value and value.kind == VARIABLE:
                tests.append((kind, self.variables[value.name]))
            elif value and value.extra == drops:
                return False
        for kind, variable in tests:
            self.step(kind, variable, None)
        return True

    def selection(self, row):
        begin = len(self.steps)
        if not self.conditions(row):
            return
        body = row
        if row.kind == SPREAD:
            body = self.document.by_name[row.name]
            self.step(IF_MET, self.fragments[row.name], None)
        if row.kind == FIELD:
            self.step(LIST, self.keys[self.document.key(row)], row.number)
        else:
            if condition_of(body):
                self.step(UNLESS_APPLIES, self.records[condition_of(body)], None)
            self.block(body)
        for step in self.steps[begin:]:
            if step[2] is None:
                step[2] = len(self.steps)       # past the selection

    def block(self, holder):
        for row in holder.of(*SELECTIONS):
            self.selection(row)


def plan(table, text, name):
    """The report and the numbers of a plan, without the zeros at their end."""
    if len(text) > reader.MOST_TEXT:
        return report(2, 0), []
    if len(table) > table_reader.MOST_TABLE:
        return report(2, 2), []
    said, document = opened(table, text)
    if said[0]:
        return said, []
    operation = document.operation(name)
    if not operation:
        return report(12), []
    planner, firsts = Planner(document, operation), []
    try:
        for holder in document.holders(operation):
            firsts.append(len(planner.steps))
            planner.block(holder)
    except TooLong:
        return report(13), []
    numbers = [len(firsts), len(planner.steps), *firsts] + [0] * (MOST_BLOCKS - len(firsts))
    for step in planner.steps:
        numbers += step
    return report(0, len(firsts), len(planner.steps)), trimmed(numbers)


# ---- the walk of any numbers

def well_formed(numbers, definitions):
    """Each clause of "Well-formed", over the numbers that are lent."""
    if len(numbers) < PLAN_SIZE:
        return False
    blocks, steps = numbers[:2]
    if not 1 <= blocks <= MOST_BLOCKS or steps > MOST_STEPS:
        return False
    firsts = numbers[FIRSTS:FIRSTS + blocks]
    ends = firsts[1:] + [steps]
    if firsts[0] != 0 or any(first > end for first, end in zip(firsts, ends)):
        return False
    return all(formed(numbers, at, end, definitions) for first, end in zip(firsts, ends) for at in range(first, end))


def formed(numbers, at, end, definitions):
    kind, first, second = numbers[STEPS_AT + 3 * at:STEPS_AT + 3 * at + 3]
    if kind == LIST:
        return first < MOST_ROWS and second < MOST_ROWS
    if kind == UNLESS_APPLIES:
        right = first < len(definitions) and definitions[first].kind in (OBJECT, INTERFACE, UNION)
    else:
        right = kind in (IF_TRUE, UNLESS_TRUE, IF_MET) and first < (MOST_FRAGMENTS if kind == IF_MET else MOST_VARIABLES)
    return right and at < second <= end


def applies(schema, one, condition):
    """Does a condition apply to an object type? Both are definitions."""
    if condition.kind == OBJECT:
        return one.name == condition.name
    return schema.can_be(one.name, condition.name)


def walked(schema, numbers, one, blocks, variables):
    """The pairs as they are listed, at most one over the limit."""
    listed, met = [], set()
    for block in blocks:
        at = numbers[FIRSTS + block]
        end = numbers[FIRSTS + block + 1] if block + 1 < numbers[0] else numbers[1]
        while at < end:
            kind, first, second = numbers[STEPS_AT + 3 * at:STEPS_AT + 3 * at + 3]
            at += 1
            if kind == LIST:
                listed.append((first, second))
                if len(listed) > MOST_PAIRS:
                    return listed
            elif leaves(schema, kind, first, one, variables, met):
                at = second
    return listed


def leaves(schema, kind, first, one, variables, met):
    if kind == IF_TRUE:
        return variables[first] == 1
    if kind == UNLESS_TRUE:
        return variables[first] != 1
    if kind == UNLESS_APPLIES:
        return not applies(schema, one, schema.definitions[first])
    if first in met:
        return True
    met.add(first)
    return False


def grouped(listed):
    groups = {}
    for key, row in listed:
        groups.setdefault(key, []).append(row)
    return [number for key, rows in groups.items() for row in rows for number in (key, row)]


def paired(listed):
    """The report and the pairs of what is listed."""
    return (report(15), []) if len(listed) > MOST_PAIRS else (report(0, len(listed)), grouped(listed))


@lru_cache(maxsize=64)
def formed_plan(table, numbers):
    return well_formed(list(numbers), check_reader.schema_of(table)[1].definitions)


def walk(table, numbers, object_number, blocks, variables):
    """The report and the pairs, flat, of a walk of a plan, a tuple of numbers."""
    if len(table) > table_reader.MOST_TABLE:
        return report(2, 2), []
    said, schema, _ = check_reader.schema_of(table)
    if said[0]:
        return said, []
    if not is_walk(schema, object_number, blocks, variables) or not formed_plan(table, numbers) or any(b >= numbers[0] for b in blocks):
        return report(14), []
    return paired(walked(schema, numbers, schema.definitions[object_number], blocks, variables))


def is_walk(schema, object_number, blocks, variables):
    """Whether an object's record, at most 64 blocks and enough variable bytes are given."""
    an_object = object_number < len(schema.definitions) and schema.definitions[object_number].kind == OBJECT
    return an_object and len(blocks) <= MOST_WALKED and len(variables) >= VARIABLES_SIZE


# ---- the draft's 6.3.2 on the document

class Collector:
    """CollectFields(objectType, selectionSet, variableValues, visitedFragments), by names, the sets of several fields one after another."""

    def __init__(self, document, operation, one, variables):
        self.document, self.one = document, one
        self.values = {given.name: variables[i] == 1 for i, given in enumerate(operation.of(VARIABLE_DEFINITION))}
        self.visited, self.groups, self.count = set(), {}, 0

    def is_true(self, value):
        return self.values[value.name] if value.kind == VARIABLE else value.extra == 1

    def is_left_out(self, row):
        skip, include = directive(row, b'skip'), directive(row, b'include')
        return (skip is not None and self.is_true(skip)) or (include is not None and not self.is_true(include))

    def does_apply(self, name):
        """DoesFragmentTypeApply"""
        condition = self.document.schema.types[name]
        if condition.kind == OBJECT:
            return condition.name == self.one.name
        if condition.kind == INTERFACE:
            return name in self.one.implemented
        return self.one.name in [member.name for member in condition.members]

    def collect(self, holder):
        for row in holder.of(*SELECTIONS):
            if self.is_left_out(row):
                continue
            if row.kind == FIELD:
                self.groups.setdefault(self.document.key(row), []).append(row.number)
                self.count += 1
            elif row.kind == SPREAD:
                if row.name not in self.visited:
                    self.visited.add(row.name)
                    fragment = self.document.by_name[row.name]
                    if self.does_apply(condition_of(fragment)):
                        self.collect(fragment)
            elif condition_of(row) is None or self.does_apply(condition_of(row)):
                self.collect(row)


@lru_cache(maxsize=KEPT)
def sets_of(table, text, name):
    """What does not depend on a walk: the document, the operation, the rows whose selection sets the blocks are, the keys' numbers."""
    document = opened(table, text)[1]
    operation = document.operation(name)
    return document, operation, document.holders(operation), document.key_numbers()


def collect(table, text, name, object_number, blocks, variables):
    """The report and the pairs that are due of a walk of the plan of an operation, collected from the document."""
    document, operation, holders, keys = sets_of(table, text, name)
    if not is_walk(document.schema, object_number, blocks, variables) or any(block >= len(holders) for block in blocks):
        return report(14), []
    collector = Collector(document, operation, document.schema.definitions[object_number], variables)
    for block in blocks:
        collector.collect(holders[block])
    if collector.count > MOST_PAIRS:
        return report(15), []
    return report(0, collector.count), [number for key, rows in collector.groups.items() for row in rows for number in (keys[key], row)]


# ---- lines

def trimmed(numbers):
    length = len(numbers)
    while length and not numbers[length - 1]:
        length -= 1
    return numbers[:length]


def hexed(some):
    return some.hex() or '-'


def unhexed(word):
    return bytes.fromhex(word.replace('-', ''))


def sparse(numbers):
    used = [(place, number) for place, number in enumerate(numbers) if number]
    return [len(used), *(word for one in used for word in one)]


def lent(numbers, length=PLAN_SIZE):
    return tuple(numbers[:length]) + (0,) * (length - len(numbers))


class Words:
    """The words of a line, one after another."""

    def __init__(self, words):
        self.left = iter(words)

    def number(self):
        return int(next(self.left))

    def numbers(self, count):
        return [int(next(self.left)) for _ in range(count)]

    def some(self):
        return unhexed(next(self.left))

    def plan(self, length):
        numbers = [0] * length
        for _ in range(self.number()):
            place = self.number()
            numbers[place] = self.number()
        return numbers

    def walks(self):
        """Of each the type, the blocks, the variables, and what was said."""
        for _ in range(self.number()):
            asked = self.number(), self.numbers(self.number()), self.some()
            said = self.numbers(8)
            yield asked, (said, self.numbers(self.number()))


def walk_words(asked, said):
    object_number, blocks, variables = asked
    return [object_number, len(blocks), *blocks, hexed(variables), *said[0], len(said[1]), *said[1]]


def plan_line(table, text, name, said, numbers, walks=()):
    words = ['plan', hexed(table), hexed(text), hexed(name), *said, *sparse(numbers), len(walks)]
    return ' '.join(map(str, words + [word for one in walks for word in walk_words(*one)]))


def walk_line(table, numbers, walks, length=PLAN_SIZE):
    words = ['walk', hexed(table), length, *sparse(numbers), len(walks)]
    return ' '.join(map(str, words + [word for one in walks for word in walk_words(*one)]))


# ---- comparing

def plan_differs(words):
    table, text, name = words.some(), words.some(), words.some()
    said = words.numbers(8)
    numbers = words.plan(PLAN_SIZE)
    mine = plan(table, text, name)
    if (said, trimmed(numbers)) != mine:
        return f'the plan is {mine[0]} {sparse(mine[1])}'
    planned = lent(mine[1])
    for asked, found in words.walks():
        due, by_plan = collect(table, text, name, *asked), walk(table, planned, *asked)
        if due != by_plan:
            return f'collected {asked}: {due}, walked {by_plan}'
        if due != found:
            return f'the walk {asked} is {due}, not {found}'
    return None


def walk_differs(words):
    table, length = words.some(), words.number()
    numbers = tuple(words.plan(length))
    for asked, found in words.walks():
        due = walk(table, numbers, *asked)
        if due != found:
            return f'the walk {asked} is {due}, not {found}'
    return None


def differs(line):
    """What is wrong with a line's answers, or None."""
    what, *words = line.split(' ')
    said = (plan_differs if what == 'plan' else walk_differs)(Words(words))
    return said and f'{said}\n  in {line}'


def cases_of(plans, walks):
    with open(plans) as file:
        for case in map(json.loads, file):
            yield plan_line(*(unhexed(case[word]) for word in ('table', 'doc', 'op')), case['report'], case['out'])
    with open(walks) as file:
        for case in map(json.loads, file):
            asked = case['type'], case['blocks'], bytes(case['vars'])
            yield walk_line(unhexed(case['table']), case['plan'], [(asked, (case['report'], case['out']))])


def print_all(lines):
    for line in lines:
        print(line)
    return 0


def compare(lines, what):
    count = wrong = 0
    # nothing here has cycles, and collecting them takes a fifth of the time
    with multiprocessing.Pool(initializer=gc.disable) as pool:
        for said in pool.imap(differs, lines, chunksize=64):
            count += 1
            if said:
                wrong += 1
                if wrong <= 5:
                    print(said[:4000], file=sys.stderr)
    print(f'plan reader: {count} {what} compared, {wrong} differ')
    return 1 if wrong or not count else 0


def main(words):
    if words[:1] == ['vectors'] and len(words) == 3:
        return compare(cases_of(*words[1:]), 'vectors')
    if words[:1] == ['cases'] and len(words) == 3:
        return print_all(cases_of(*words[1:]))
    if words == ['compare']:
        return compare((line.rstrip('\n') for line in sys.stdin), 'plans with their walks')
    print(__doc__, file=sys.stderr)
    return 2


if __name__ == '__main__':
    sys.exit(main(sys.argv[1:]))

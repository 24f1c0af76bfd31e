#!/usr/bin/env python3
"""A plain, slow judge of type tables, written from document 01 and source 001 and from no code of this repository.

  table_reader.py vectors FILE   judges the tables of a vectors file and compares with the answers that stand there
  table_reader.py cases FILE     prints the cases of a vectors file, a line each, as tests/harness reads them
  table_reader.py files FILE DIRECTORY   writes the tables of a vectors file there, NUMBER.table
  table_reader.py compare        reads such lines and compares their answers with its own
  table_reader.py report FILE..  prints the report of each table

A line: the table in hex (- for none), the report's eight numbers.
"""
import functools
import gc
import json
import multiprocessing
import pathlib
import re
import sys
from collections import namedtuple

MOST_TABLE, MOST_RECORDS, MOST_MEMBERS, MOST_IMPLEMENTED = 32768, 256, 64, 64
MOST_ARGUMENTS, MOST_WRAPPERS = 16, 7
NONE = 65535

SCALAR, OBJECT, INTERFACE, UNION, ENUM, INPUT, DIRECTIVE, ROOTS = range(1, 9)
NAME, IMPLEMENTED, FIELD, ARGUMENT, TYPE, UNION_MEMBER, ENUM_VALUE, QUERY, MUTATION, SUBSCRIPTION = range(16, 26)

BUILT_IN_TYPES = [b'Int', b'Float', b'String', b'Boolean', b'ID']
BUILT_IN_DIRECTIVES = [b'skip', b'include']

# What a holder holds, in this order: tag and how often (1 once, ? at most once, * any number).
HELD = {
    SCALAR: [(NAME, '1')],
    OBJECT: [(NAME, '1'), (IMPLEMENTED, '*'), (FIELD, '*')],
    INTERFACE: [(NAME, '1'), (FIELD, '*')],
    UNION: [(NAME, '1'), (UNION_MEMBER, '*')],
    ENUM: [(NAME, '1'), (ENUM_VALUE, '*')],
    INPUT: [(NAME, '1'), (ARGUMENT, '*')],
    DIRECTIVE: [(NAME, '1'), (ARGUMENT, '*')],
    ROOTS: [(QUERY, '1'), (MUTATION, '?'), (SUBSCRIPTION, '?')],
    FIELD: [(NAME, '1'), (TYPE, '1'), (ARGUMENT, '*')],
    ARGUMENT: [(NAME, '1'), (TYPE, '1')],
}

A_NAME = re.compile(rb'[_A-Za-z][_0-9A-Za-z]*')

# A house field as it stands: its offset in what holds it, its tag and its content.
Piece = namedtuple('Piece', 'at tag content')

HEAD = 3                    # the tag byte and two length bytes
KEPT = 1 << 16              # holders whose reading is kept: mutated tables have most of theirs in common


# ---- framing

def is_name(text):
    return A_NAME.fullmatch(text) is not None


def is_type_reference(text):
    """A name or a reference in brackets, then perhaps one mark of Non-Null (loops, as it may be 16,000 deep)."""
    start, end = 0, len(text)
    while True:
        if text[start:end].endswith(b'!'):
            end -= 1
        if not text[start:end].startswith(b'['):
            return is_name(text[start:end])
        if not text[start + 1:end].endswith(b']'):
            return False
        start, end = start + 1, end - 1


def fields_in(content, due):
    """The fields of a content and every wrong offset in it. What is not due there is wrong at its tag whatever is in it,
    and not looked into."""
    found, wrong, at, end = [], [], 0, len(content)
    while at < end:
        past = at + HEAD + (content[at + 1] * 256 + content[at + 2] if at + HEAD <= end else end)
        if past > end:
            wrong.append(at)
            break
        piece = Piece(at, content[at], content[at + HEAD:past])
        found.append(piece)
        if piece.tag not in due:
            wrong.append(at)
        elif piece.tag in HELD:
            wrong += [at + inside for inside in held_in(piece.tag, piece.content)[1]]
        elif not (is_type_reference if piece.tag == TYPE else is_name)(piece.content):
            wrong.append(at)
        at = past
    return found, wrong


@functools.lru_cache(KEPT)
def held_in(tag, content):
    """The fields that a holder with this tag and content holds, and every wrong offset in it, from its tag byte on."""
    due = HELD[tag]
    held, wrong = fields_in(content, [t for t, _ in due])
    wrong += out_of_place(due, held)
    if wrong:
        return held, [HEAD + at for at in wrong]
    tags = [piece.tag for piece in held]
    return held, [0] if any(often == '1' and t not in tags for t, often in due) else []


def out_of_place(due, held):
    """The offsets of those that stand after one due later, or a second time where once is due."""
    order = [tag for tag, _ in due]
    once = [tag for tag, often in due if often != '*']
    before = set()
    for piece in held:
        if piece.tag in order:
            later = order[order.index(piece.tag) + 1:]
            if not before.isdisjoint(later) or (piece.tag in once and piece.tag in before):
                yield piece.at
        before.add(piece.tag)


def records_of(table):
    """The records, and every wrong offset."""
    records, wrong = fields_in(table, range(SCALAR, ROOTS + 1))
    return records, wrong + [r.at for r in records if r.tag == ROOTS][1:]


# ---- counts

MEMBERS = (FIELD, ARGUMENT, UNION_MEMBER, ENUM_VALUE)


def held_of(piece, *tags):
    return [p for p in held_in(piece.tag, piece.content)[0] if p.tag in tags]


def over(records):
    """The offset of each one over its size."""
    found = [r.at for r in records[MOST_RECORDS:]]
    for record in records:
        found += [record.at + HEAD + at for at in over_in(record.tag, record.content)]
    return found


@functools.lru_cache(KEPT)
def over_in(tag, content):
    """The offset, in a record's or a member's content, of each one over its size."""
    piece = Piece(0, tag, content)
    found = [p.at for p in held_of(piece, IMPLEMENTED)[MOST_IMPLEMENTED:]]
    found += [p.at for p in held_of(piece, *MEMBERS)[MOST_ARGUMENTS if tag == FIELD else MOST_MEMBERS:]]
    for member in held_of(piece, FIELD, ARGUMENT):
        found += [member.at + HEAD + at for at in over_in(member.tag, member.content)]
    for reference in held_of(piece, TYPE):
        marks = [i for i, byte in enumerate(reference.content) if byte in b'[!']
        found += [reference.at + HEAD + i for i in marks[MOST_WRAPPERS:]]
    return found


# ---- the table as types

Definition = namedtuple('Definition', 'kind name implemented members')
Member = namedtuple('Member', 'name type arguments')      # the type and the arguments as far as there are any


def text_of(piece, tag):
    return held_of(piece, tag)[0].content


def member_of(piece):
    if piece.tag in (FIELD, ARGUMENT):
        return Member(text_of(piece, NAME), text_of(piece, TYPE), [member_of(p) for p in held_of(piece, ARGUMENT)])
    return Member(piece.content, None, [])


@functools.lru_cache(KEPT)
def definition_of(tag, content):
    record = Piece(0, tag, content)
    if tag == ROOTS:
        return Definition(ROOTS, None, [], [member_of(p) for p in held_of(record, QUERY, MUTATION, SUBSCRIPTION)])
    return Definition(tag, text_of(record, NAME), [p.content for p in held_of(record, IMPLEMENTED)],
                      [member_of(p) for p in held_of(record, *MEMBERS)])


def is_type(definition):
    return definition.kind <= INPUT


def base_of(reference):
    return A_NAME.search(reference)[0]


def first_named(members, name):
    for member in members:
        if member.name == name:
            return member
    return None


# ---- the sixteen rules

class Schema:
    def __init__(self, definitions):
        self.definitions = definitions
        self.types = {}
        for definition in definitions:
            if is_type(definition):
                self.types.setdefault(definition.name, definition)
        for name in BUILT_IN_TYPES:
            self.types[name] = Definition(SCALAR, name, [], [])

    def kind(self, name):
        return self.types[name].kind if name in self.types else None

    def can_be(self, name, abstract):
        """Is the object of this name one that the interface or union of that name can be?"""
        if self.kind(abstract) == INTERFACE:
            return abstract in self.types[name].implemented
        return any(member.name == name for member in self.types[abstract].members)

    def is_sub_type(self, one, other):
        """001, "Object type validation", 5.1.1: the four clauses."""
        if one == other:
            return True
        if self.kind(one) == OBJECT and self.kind(other) in (INTERFACE, UNION) and self.can_be(one, other):
            return True
        if one.endswith(b']') and other.endswith(b']') and self.is_sub_type(one[1:-1], other[1:-1]):
            return True
        return one.endswith(b'!') and self.is_sub_type(one[:-1], other)

    def least_break(self):
        """Definition, rule, member, part, argument; or None. The first definition with a break has it."""
        for number, definition in enumerate(self.definitions):
            found = [(number, rule, *(place + [NONE] * 3)[:3]) for rule, *place in self.breaks_of(number, definition)]
            if found:
                return min(found)
        if not any(d.kind == ROOTS for d in self.definitions) and self.kind(b'Query') != OBJECT:
            return len(self.definitions), 16, NONE, NONE, NONE
        return None

    def breaks_of(self, number, definition):
        if definition.kind == ROOTS:
            for i, root in enumerate(definition.members):
                if self.kind(root.name) != OBJECT:
                    yield 16, i
            return
        yield from self.name_breaks(number, definition)
        if definition.kind not in (SCALAR, DIRECTIVE) and not definition.members:
            yield 3,
        yield from self.repeats(definition)
        for i, member in enumerate(definition.members):
            yield from self.member_breaks(definition.kind, i, member)
        for i, name in enumerate(definition.implemented):
            if self.kind(name) != INTERFACE:
                yield 9, i
            else:
                yield from self.promise_breaks(definition, i, self.types[name])
            if name in definition.implemented[:i]:
                yield 10, i

    def name_breaks(self, number, definition):
        if definition.name.startswith(b'__'):
            yield 1,
        known = BUILT_IN_TYPES if is_type(definition) else BUILT_IN_DIRECTIVES
        before = [d.name for d in self.definitions[:number] if d.kind != ROOTS and is_type(d) == is_type(definition)]
        if definition.name in known or definition.name in before:
            yield 2,

    def repeats(self, definition):
        for i, member in enumerate(definition.members):
            if first_named(definition.members[:i], member.name):
                yield 4, i
            for k, argument in enumerate(member.arguments):
                if first_named(member.arguments[:k], argument.name):
                    yield 4, i, NONE, k

    def member_breaks(self, kind, i, member):
        if kind in (OBJECT, INTERFACE):
            if member.name.startswith(b'__'):
                yield 5, i
            yield from ((rule, i) for rule in self.reference_breaks(member.type, (INPUT,)))
            for k, argument in enumerate(member.arguments):
                if argument.name.startswith(b'__'):
                    yield 5, i, NONE, k
                yield from ((rule, i, NONE, k) for rule in self.reference_breaks(argument.type, (OBJECT, INTERFACE, UNION)))
        elif kind in (INPUT, DIRECTIVE):
            yield from ((rule, i) for rule in self.reference_breaks(member.type, (OBJECT, INTERFACE, UNION)))
        elif kind == ENUM and member.name in (b'true', b'false', b'null'):
            yield 6, i
        elif kind == UNION and self.kind(member.name) != OBJECT:
            yield 9, i

    def reference_breaks(self, reference, barred):
        kind = self.kind(base_of(reference))
        if kind is None:
            yield 7
        elif kind in barred:
            yield 8

    def promise_breaks(self, definition, i, interface):
        """What an object owes to the interface at place i of its implemented names."""
        for p, promised in enumerate(interface.members):
            own = first_named(definition.members, promised.name)
            if not own:
                yield 11, i, p
                continue
            if not self.is_sub_type(own.type, promised.type):
                yield 12, i, p
            for k, argument in enumerate(promised.arguments):
                given = first_named(own.arguments, argument.name)
                if not given:
                    yield 13, i, p, k
                elif given.type != argument.type:
                    yield 14, i, p, k
            for k, argument in enumerate(own.arguments):
                if argument.type.endswith(b'!') and not first_named(promised.arguments, argument.name):
                    yield 15, i, p, k


def judge(table):
    """The report of a table."""
    if len(table) > MOST_TABLE:
        return report(2, 2)
    records, wrong = records_of(table)
    if wrong:
        return report(7, min(wrong))
    first_over = over(records)
    if first_over:
        return report(8, min(first_over))
    least = Schema([definition_of(r.tag, r.content) for r in records]).least_break()
    return report(9, *least) if least else report(0)


def report(*numbers):
    return [*numbers, *[0] * (8 - len(numbers))]


# ---- the commands

def line_of(table, said):
    return ' '.join(map(str, [table.hex() or '-', *said]))


def differs(line):
    """What is wrong with a line's answer, or None."""
    table, given = line.split(' ', 1)
    mine = ' '.join(map(str, judge(bytes.fromhex(table.replace('-', '')))))
    return None if mine == given else f'table    {table}\ngave     {given}\nexpected {mine}'


def vectors_of(path):
    """The tables of a vectors file, each with its report."""
    with open(path) as file:
        for line in file:
            case = json.loads(line)
            yield bytes.fromhex(case['table']), case['report']


def cases_of(path):
    return (line_of(table, said) for table, said in vectors_of(path))


def write_files(path, directory):
    directory = pathlib.Path(directory)
    directory.mkdir(parents=True, exist_ok=True)
    for n, (table, _) in enumerate(vectors_of(path), 1):
        (directory / f'{n}.table').write_bytes(table)


def compare(lines, what):
    count = wrong = 0
    # nothing here has cycles, and collecting them takes a third of the time
    with multiprocessing.Pool(initializer=gc.disable) as pool:
        for said in pool.imap(differs, lines, chunksize=256):
            count += 1
            if said:
                wrong += 1
                if wrong <= 5:
                    print(said[:2000], file=sys.stderr)
    print(f'table reader: {count} {what} compared, {wrong} differ')
    return 1 if wrong or not count else 0


def main(words):
    if words[:1] == ['vectors'] and len(words) == 2:
        return compare(cases_of(words[1]), 'vectors')
    if words[:1] == ['cases'] and len(words) == 2:
        for line in cases_of(words[1]):
            print(line)
        return 0
    if words[:1] == ['files'] and len(words) == 3:
        write_files(words[1], words[2])
        return 0
    if words == ['compare']:
        return compare((line.rstrip('\n') for line in sys.stdin), 'tables')
    if words[:1] == ['report'] and len(words) > 1:
        for path in words[1:]:
            with open(path, 'rb') as file:
                print(path, *judge(file.read()))
        return 0
    print(__doc__, file=sys.stderr)
    return 2


if __name__ == '__main__':
    sys.exit(main(sys.argv[1:]))

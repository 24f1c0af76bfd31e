#!/usr/bin/env python3
"""A plain, slow judge of documents against type tables, written from document 01 and from no code of this repository.

  check_reader.py vectors FILE   judges the pairs of a vectors file and compares with the answers that stand there
  check_reader.py cases FILE     prints the cases of a vectors file, a line each, as tests/harness_checks reads them
  check_reader.py files TABLE DOCUMENT [TABLE DOCUMENT]..   prints such lines for the pairs, with its own answers
  check_reader.py compare        reads such lines and compares their answers with its own

A line: the table and the document in hex (- for none), the report's eight numbers, how many row numbers follow, these.
"""
import gc
import json
import multiprocessing
import pathlib
import sys
from functools import lru_cache

import reader
import table_reader
from table_reader import ENUM, INPUT, INTERFACE, OBJECT, SCALAR, UNION, base_of, first_named, report

(OPERATION, FRAGMENT, FIELD, SPREAD, INLINE, ARGUMENT, DIRECTIVE, VARIABLE_DEFINITION, TYPE_REFERENCE, OBJECT_FIELD) = range(1, 11)
VARIABLE, BOOLEAN, LIST, OBJECT_VALUE = 20, 24, 27, 28
SELECTIONS = (FIELD, SPREAD, INLINE)
KEPT = 8192         # tables whose reading is kept
COMPOSITE, INPUT_TYPES = (OBJECT, INTERFACE, UNION), (SCALAR, ENUM, INPUT)


class Row:
    """A construct: what its row says, and the constructs right in it."""

    def __init__(self, number, numbers, document):
        self.number = number
        self.kind, self.start, self.end, self.parent, at, size, self.extra = numbers
        self.name = document[at:at + size]
        self.text = document[self.start:self.end]
        self.held = []

    def of(self, *kinds):
        return [row for row in self.held if row.kind in kinds]


def tree_of(document, flat):
    rows = [Row(i, flat[7 * i:7 * i + 7], document) for i in range(len(flat) // 7)]
    for row in rows:
        if row.parent != reader.NO_PARENT:
            rows[row.parent].held.append(row)
    return rows, [row for row in rows if row.parent == reader.NO_PARENT]


def in_and_under(row):
    yield row
    for held in row.held:
        yield from in_and_under(held)


def nullable(reference):
    return reference[:-1] if reference.endswith(b'!') else reference


def written(row):
    """A type reference's text with nothing ignored in it."""
    text, wrappers = row.name, row.extra
    outside_in = []
    while wrappers:
        outside_in.append(wrappers % 4)
        wrappers //= 4
    for wrapper in reversed(outside_in):
        text = b'[' + text + b']' if wrapper == 1 else text + b'!'
    return text


class Judge:
    def __init__(self, schema, roots, rows, definitions):
        self.schema = schema
        self.roots = roots
        self.rows = rows
        self.operations = [d for d in definitions if d.kind == OPERATION]
        self.fragments = [d for d in definitions if d.kind == FRAGMENT]
        self.first = {}
        for fragment in self.fragments:
            self.first.setdefault(fragment.name, fragment)
        self.found = []
        self.places = {}

    def fault(self, row, rule):
        self.found.append((row.number, rule))

    # ---- types

    def composite(self, name):
        return self.schema.types[name] if self.schema.kind(name) in COMPOSITE else None

    def judge_set(self, holder, enclosing):
        """The selections right in a row, of which the enclosing type is known or None."""
        for row in holder.of(*SELECTIONS):
            self.judge_directives(row)
            if row.kind == FIELD:
                self.judge_field(row, enclosing)
            elif row.kind == SPREAD:
                if row.name not in self.first:
                    self.fault(row, 7)
            else:
                self.judge_set(row, self.conditioned(row, enclosing))

    def conditioned(self, row, enclosing):
        conditions = row.of(TYPE_REFERENCE)
        if not conditions:
            return enclosing
        composite = self.composite(conditions[0].name)
        if not composite:
            self.fault(conditions[0], 4)
        return composite

    def judge_field(self, row, enclosing):
        member, inner = None, None
        known = enclosing is not None
        if known and row.name == b'__typename':
            member = table_reader.Member(row.name, b'String!', [])
        elif known:
            member = first_named(enclosing.members, row.name) if enclosing.kind != UNION else None
            if not member:
                self.fault(row, 5)
        if member:
            inner = self.composite(base_of(member.type))
            if bool(row.of(*SELECTIONS)) != bool(inner):
                self.fault(row, 6)
        seen = set()
        for argument in row.of(ARGUMENT):
            if argument.name in seen:
                self.fault(argument, 12)
            seen.add(argument.name)
            defined = first_named(member.arguments, argument.name) if member else None
            if member and not defined:
                self.fault(argument, 14)
            for value in argument.held:
                self.place(value, defined.type if defined else None)
        self.judge_set(row, inner)

    def place(self, value, due):
        """Notes the type due at each variable of a value; None where it is not known."""
        if value.kind == VARIABLE:
            self.places[value.number] = due
        elif value.kind == LIST:
            plain = nullable(due) if due else b''
            for item in value.held:
                self.place(item, plain[1:-1] if plain.startswith(b'[') else None)
        elif value.kind == OBJECT_VALUE:
            wanted = self.schema.types.get(base_of(due)) if due else None
            for entry in value.held:
                field = first_named(wanted.members, entry.name) if wanted and wanted.kind == INPUT else None
                for inner in entry.held:
                    self.place(inner, field.type if field else None)

    # ---- the other rules

    def judge_directives(self, row):
        names = set()
        for directive in row.of(DIRECTIVE):
            arguments = directive.held
            right = (directive.name in (b'skip', b'include') and row.kind in SELECTIONS and directive.name not in names
                     and len(arguments) == 1 and arguments[0].name == b'if' and arguments[0].held[0].kind in (BOOLEAN, VARIABLE))
            if not right:
                self.fault(directive, 9)
            names.add(directive.name)
            for argument in arguments:
                for value in argument.held:
                    self.place(value, b'Boolean')

    def judge_names(self):
        names = set()
        for operation in self.operations:
            if operation.name and operation.name in names:
                self.fault(operation, 1)
            if not operation.name and len(self.operations) > 1:
                self.fault(operation, 2)
            names.add(operation.name)
        for fragment in self.fragments:
            if fragment is not self.first[fragment.name]:
                self.fault(fragment, 3)

    def spread_in(self, definition):
        return {self.first[row.name].number for row in in_and_under(definition) if row.kind == SPREAD and row.name in self.first}

    def reached(self, definition):
        """The fragments that a definition reaches, by their rows."""
        found, new = set(), self.direct[definition.number]
        while new:
            found |= new
            new = set().union(*(self.direct[number] for number in new)) - found
        return found

    def judge_variables(self, operation, reached):
        declared = {}
        for definition in operation.of(VARIABLE_DEFINITION):
            if definition.name in declared:
                self.fault(definition, 12)
            reference = definition.of(TYPE_REFERENCE)[0]
            declared.setdefault(definition.name, written(reference))
            if self.schema.kind(reference.name) not in INPUT_TYPES:
                self.fault(definition, 11)
        for holder in [operation] + [self.rows[number] for number in reached]:
            for row in in_and_under(holder):
                if row.kind != VARIABLE:
                    continue
                due = self.places.get(row.number)
                if row.name not in declared:
                    self.fault(row, 10)
                elif due and nullable(declared[row.name]) != nullable(due):
                    self.fault(row, 11)

    def faults(self):
        self.judge_names()
        for operation in self.operations:
            self.judge_directives(operation)
            root = self.roots.get(operation.extra)
            if root is None:
                self.fault(operation, 13)
            self.judge_set(operation, self.composite(root) if root else None)
        for fragment in self.fragments:
            self.judge_directives(fragment)
            self.judge_set(fragment, self.conditioned(fragment, None))
        self.direct = {d.number: self.spread_in(d) for d in self.operations + self.fragments}
        for fragment in self.fragments:
            if fragment.number in self.reached(fragment):
                self.fault(fragment, 8)
        for operation in self.operations:
            self.judge_variables(operation, self.reached(operation))
        return self.found


@lru_cache(maxsize=KEPT)
def schema_of(table):
    """The table's report and, where it is accepted, its types and the names of its roots by kind of operation."""
    said = table_reader.judge(table)
    if said[0]:
        return said, None, None
    records, _ = table_reader.records_of(table)
    roots = {0: b'Query'}
    for record in records:
        if record.tag == table_reader.ROOTS:
            roots = {piece.tag - table_reader.QUERY: piece.content for piece in table_reader.held_in(record.tag, record.content)[0]}
    return said, table_reader.Schema([table_reader.definition_of(r.tag, r.content) for r in records]), roots


def check(table, document):
    """The report and the rows, flat, of a document against a table."""
    if len(document) > reader.MOST_TEXT:
        return report(2, 0), []
    if len(table) > table_reader.MOST_TABLE:
        return report(2, 2), []
    said, schema, roots = schema_of(table)
    if said[0]:
        return said, []
    read, rows = reader.parse(document)
    if read[0]:
        return read, []
    least = min(Judge(schema, roots, *tree_of(document, rows)).faults(), default=None)
    return (report(10, *least), []) if least else (read, rows)


# ---- the commands

def line_of(table, document, said, rows):
    return ' '.join(map(str, [table.hex() or '-', document.hex() or '-', *said, len(rows), *rows]))


def differs(line):
    """What is wrong with a line's answer, or None."""
    table, document = (bytes.fromhex(word.replace('-', '')) for word in line.split(' ', 2)[:2])
    mine = line_of(table, document, *check(table, document))
    return None if mine == line else f'gave     {line}\nexpected {mine}'


def cases_of(path):
    with open(path) as file:
        for line in file:
            case = json.loads(line)
            yield line_of(bytes.fromhex(case['table']), bytes.fromhex(case['doc']), case['report'], case['out'])


def lines_of(paths):
    for table, document in zip(paths[::2], paths[1::2]):
        table, document = (pathlib.Path(path).read_bytes() for path in (table, document))
        yield line_of(table, document, *check(table, document))


def print_all(lines):
    for line in lines:
        print(line)
    return 0


def compare(lines, what):
    count = wrong = 0
    # nothing here has cycles, and collecting them takes a fifth of the time
    with multiprocessing.Pool(initializer=gc.disable) as pool:
        for said in pool.imap(differs, lines, chunksize=256):
            count += 1
            if said:
                wrong += 1
                if wrong <= 5:
                    print(said[:2000], file=sys.stderr)
    print(f'check reader: {count} {what} compared, {wrong} differ')
    return 1 if wrong or not count else 0


def main(words):
    if words[:1] == ['vectors'] and len(words) == 2:
        return compare(cases_of(words[1]), 'vectors')
    if words[:1] == ['cases'] and len(words) == 2:
        return print_all(cases_of(words[1]))
    if words[:1] == ['files'] and len(words) % 2 == 1:
        return print_all(lines_of(words[1:]))
    if words == ['compare']:
        return compare((line.rstrip('\n') for line in sys.stdin), 'pairs')
    print(__doc__, file=sys.stderr)
    return 2


if __name__ == '__main__':
    sys.exit(main(sys.argv[1:]))

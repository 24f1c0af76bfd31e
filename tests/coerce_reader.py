#!/usr/bin/env python3
"""A plain, slow coercer of variables and arguments, written from document 01 and source 001 and from no code of this repository.

  coerce_reader.py vectors FILE..   coerces the cases of vectors files and compares with the answers that stand there
  coerce_reader.py cases FILE..     prints the cases of vectors files, a line each, as tests/harness_coerce reads them
  coerce_reader.py answers          reads such lines and prints them with its own answers
  coerce_reader.py compare          reads such lines and compares their answers with its own

A line: the table, the document, the operation's name, the variables text and the value in hex (- for none), 0 for the call that coerces
variables or 1 for the one that coerces arguments, its row (0 without one), the report's eight numbers.
"""
import gc
import json
import multiprocessing
import re
import sys
from functools import lru_cache

import check_reader
import reader
import table_reader
from check_reader import (FIELD, FRAGMENT, LIST, OBJECT_VALUE, OPERATION, SPREAD, TYPE_REFERENCE, VARIABLE, VARIABLE_DEFINITION, Row,
                          in_and_under, tree_of, written)
from table_reader import ENUM, INPUT, UNION, base_of, first_named, report

INTEGER, FLOAT, STRING, BOOLEAN, NULL, ENUM_NAME = 21, 22, 23, 24, 25, 26
DOCUMENT, VARIABLES = 0, 1      # the texts
MOST_COERCED = 8192
LEAST_INT, MOST_INT = -2147483648, 2147483647
MOST_WHOLE_FLOAT = 2 ** 53
MOST_CONTENT = 65535            # of a house field; a value with more is over its size anyway
KEPT = 512                      # documents whose reading is kept

# result fields
A_NULL, AN_INT, A_FLOAT, A_STRING, A_BOOLEAN, AN_ENUM, A_LIST, AN_OBJECT, AN_ENTRY, AN_OWN = range(32, 42)
A_NAME = 16

# reasons
KIND, RANGE, MISSING, IS_NULL, UNKNOWN, REPEATED, NO_ENUM, SURROGATE = range(1, 9)

ABSENT = object()               # a variable that has neither a value nor a default
ESCAPE = re.compile(rb'\\u([0-9A-Fa-f]{4})|\\(.)', re.S)
PLAIN_ESCAPES = {b'"': b'"', b'\\': b'\\', b'/': b'/', b'b': b'\b', b'f': b'\f', b'n': b'\n', b'r': b'\r', b't': b'\t'}


NULL_FIELD = bytes((A_NULL, 0, 0))


class Refused(Exception):
    """Text, row, reason."""


class Half(Exception):
    """An escaped surrogate."""


def field(tag, content=b''):
    return bytes((tag,)) + min(len(content), MOST_CONTENT).to_bytes(2, 'big') + content


def entry(name, value):
    return field(AN_ENTRY, field(A_NAME, name) + value)


# ---- leaves

def meant(escape):
    if not escape[1]:
        return PLAIN_ESCAPES[escape[2]]
    number = int(escape[1], 16)
    if 0xD800 <= number <= 0xDFFF:
        raise Half
    return chr(number).encode()


def to_int(row):
    if row.kind != INTEGER:
        return KIND
    number = int(row.text) if len(row.text) < 20 else MOST_INT + 1
    return field(AN_INT, number.to_bytes(4, 'big', signed=True)) if LEAST_INT <= number <= MOST_INT else RANGE


def to_float(row):
    if row.kind == FLOAT:
        return field(A_FLOAT, row.text)
    if row.kind != INTEGER:
        return KIND
    whole = len(row.text) < 20 and abs(int(row.text)) <= MOST_WHOLE_FLOAT
    return field(A_FLOAT, row.text + b'.0') if whole else RANGE


def to_string(row):
    if row.kind != STRING:
        return KIND
    try:
        return field(A_STRING, ESCAPE.sub(meant, row.text[1:-1]))
    except Half:
        return SURROGATE


def to_boolean(row):
    return field(A_BOOLEAN, bytes((row.extra,))) if row.kind == BOOLEAN else KIND


def to_id(row):
    return field(A_STRING, row.text) if row.kind == INTEGER else to_string(row)


def to_own(row):
    return field(AN_OWN, row.text) if row.kind in (INTEGER, FLOAT, STRING, BOOLEAN) else KIND


BUILT_IN = {b'Int': to_int, b'Float': to_float, b'String': to_string, b'Boolean': to_boolean, b'ID': to_id}


def to_enum(row, names):
    if row.kind != ENUM_NAME:
        return KIND
    return field(AN_ENUM, row.name) if row.name in names else NO_ENUM


# ---- values

class Coercer:
    """Of the values of one text; `variables` has what each variable of the operation holds: a value's bytes or ABSENT."""

    def __init__(self, schema, text, variables):
        self.schema, self.text, self.variables = schema, text, variables

    def refuse(self, row, reason):
        raise Refused(self.text, row.number, reason)

    def value(self, row, due):
        """The bytes of a value at a type. A variable has a value here, or counts as null."""
        if due.endswith(b'!'):
            if self.is_null(row):
                self.refuse(row, IS_NULL)
            return self.value(row, due[:-1])
        if self.is_null(row):
            return NULL_FIELD
        if row.kind == VARIABLE:
            return self.variables[row.name]         # its type is that of its place
        if due.startswith(b'['):
            items = row.held if row.kind == LIST else [row]
            return field(A_LIST, b''.join([self.value(item, due[1:-1]) for item in items]))
        wanted = self.schema.types[due]
        if wanted.kind == INPUT:
            return self.object(row, wanted.members) if row.kind == OBJECT_VALUE else self.refuse(row, KIND)
        if wanted.kind == ENUM:
            said = to_enum(row, [member.name for member in wanted.members])
        else:
            said = BUILT_IN.get(due, to_own)(row)
        return said if isinstance(said, bytes) else self.refuse(row, said)

    def is_null(self, row):
        if row.kind == VARIABLE:
            return self.variables[row.name] in (ABSENT, NULL_FIELD)
        return row.kind == NULL

    def object(self, row, members):
        repeated = first_repeated(row.held)
        if repeated:
            self.refuse(repeated, REPEATED)
        names = {member.name for member in members}
        for given in row.held:
            if given.name not in names:
                self.refuse(given, UNKNOWN)
        return field(AN_OBJECT, self.entries(row, row.held, members))

    def entries(self, row, held, members):
        """The entries of an object or of a field's arguments, in the order of their definitions."""
        given = {one.name: one.held[0] for one in held}
        found = []
        for member in members:
            value = given.get(member.name)
            if value is None or (value.kind == VARIABLE and self.variables[value.name] is ABSENT):
                if member.type.endswith(b'!'):
                    self.refuse(row, MISSING)
                continue
            found.append(entry(member.name, self.value(value, member.type)))
        return b''.join(found)


def first_repeated(entries):
    seen = set()
    for one in entries:
        if one.name in seen:
            return one
        seen.add(one.name)
    return None


# ---- documents

class Document:
    """A document that a table accepts."""

    def __init__(self, schema, roots, rows, definitions):
        self.schema, self.roots, self.rows = schema, roots, rows
        self.operations = [d for d in definitions if d.kind == OPERATION]
        self.fragments = {d.name: d for d in definitions if d.kind == FRAGMENT}
        self.known = {}

    def operation(self, name):
        """The operation that a name means; for an empty one the only one. None if there is none."""
        if not name:
            return self.operations[0] if len(self.operations) == 1 else None
        return first_named(self.operations, name)

    def reached(self, operation):
        """The fields that an operation reaches, by their rows, each with its definition in the type around it, or None."""
        if operation.number not in self.known:
            self.known[operation.number] = self.find_reached(operation)
        return self.known[operation.number]

    def find_reached(self, operation):
        found, seen, left = {}, set(), [operation]
        while left:
            definition = left.pop()
            if definition.number in seen:
                continue
            seen.add(definition.number)
            self.fields_in(definition, self.type_in(definition), found)
            left += [self.fragments[row.name] for row in in_and_under(definition) if row.kind == SPREAD]
        return found

    def type_in(self, row):
        name = self.roots[row.extra] if row.kind == OPERATION else row.of(TYPE_REFERENCE)[0].name
        return self.schema.types[name]

    def fields_in(self, holder, around, found):
        for row in holder.held:
            if row.kind == FIELD:
                members = around.members if around.kind != UNION else []
                defined = first_named(members, row.name)
                found[row.number] = row, defined
                if defined:
                    self.fields_in(row, self.schema.types[base_of(defined.type)], found)
            elif row.kind == check_reader.INLINE:
                condition = row.of(TYPE_REFERENCE)
                self.fields_in(row, self.schema.types[condition[0].name] if condition else around, found)


@lru_cache(maxsize=KEPT)
def opened(table, document):
    """The report of a document by a table and, where it is accepted, the document."""
    said, flat = check_reader.check(table, document)
    if said[0]:
        return said, None
    _, schema, roots = check_reader.schema_of(table)
    return said, Document(schema, roots, *tree_of(document, flat))


def read_variables(text):
    """The rows of a variables text: one constant object value and nothing behind it."""
    read = reader.Reader(text)
    if read.look() != '{':
        read.no_going()
    read.value(reader.NO_PARENT, True)
    if read.look() != 'end':
        read.no_going()
    rows = [Row(i, numbers, text) for i, numbers in enumerate(read.rows)]
    for row in rows[1:]:
        rows[row.parent].held.append(row)
    return rows[0]


def all_variables(document, operation, given):
    """What each variable of an operation holds, in the order of definition."""
    repeated = first_repeated(given.held)
    if repeated:
        raise Refused(VARIABLES, repeated.number, REPEATED)
    values = {one.name: one.held[0] for one in given.held}
    found = {}
    for definition in operation.of(VARIABLE_DEFINITION):
        reference, *default = definition.held
        due = written(reference)
        if definition.name in values:
            found[definition.name] = Coercer(document.schema, VARIABLES, {}).value(values[definition.name], due)
        elif default:
            found[definition.name] = Coercer(document.schema, DOCUMENT, {}).value(default[0], due)
        elif due.endswith(b'!'):
            raise Refused(DOCUMENT, definition.number, MISSING)
        else:
            found[definition.name] = ABSENT
    return found


# ---- the calls

def over_length(table, document, variables):
    if len(document) > reader.MOST_TEXT:
        return report(2, 0)
    if len(variables) > reader.MOST_TEXT:
        return report(2, 1)
    return report(2, 2) if len(table) > table_reader.MOST_TABLE else None


def coerce(table, document, name, variables, row=None):
    """The report and the value of the call for variables or, with a row, of the one for the arguments of the field there."""
    said = over_length(table, document, variables)
    if said:
        return said, b''
    said, opening = opened(table, document)
    if said[0]:
        return said, b''
    operation = opening.operation(name)
    if not operation or (row is not None and row not in opening.reached(operation)):
        return report(12), b''
    try:
        given = read_variables(variables)
    except reader.Refused as refused:
        return report(*refused.args, VARIABLES), b''
    try:
        held = all_variables(opening, operation, given)
        if row is None:
            content = b''.join([entry(one, value) for one, value in held.items() if value is not ABSENT])
        else:
            place, defined = opening.reached(operation)[row]
            members = defined.arguments if defined else []
            content = Coercer(opening.schema, DOCUMENT, held).entries(place, place.of(check_reader.ARGUMENT), members)
    except Refused as refused:
        return report(11, *refused.args), b''
    value = field(AN_OBJECT, content)
    return (report(16), b'') if len(value) > MOST_COERCED else (report(0, len(value)), value)


# ---- the commands

def hexed(some):
    return some.hex() or '-'


def line_of(table, document, name, variables, row, said, value):
    words = [hexed(table), hexed(document), hexed(name), hexed(variables), hexed(value)]
    return ' '.join(map(str, words + [0 if row is None else 1, row or 0, *said]))


def answered(line):
    """A line with this reader's answer."""
    words = line.split(' ')
    inputs = [bytes.fromhex(word.replace('-', '')) for word in words[:4]]
    said, value = coerce(*inputs, int(words[6]) if words[5] == '1' else None)
    return ' '.join([*words[:4], hexed(value), *words[5:7], *map(str, said)])


def differs(line):
    """What is wrong with a line's answer, or None."""
    mine = answered(line)
    return None if mine == line else f'gave     {line}\nexpected {mine}'


def cases_of(paths):
    for path in paths:
        with open(path) as file:
            for line in file:
                case = json.loads(line)
                inputs = [bytes.fromhex(case[word]) for word in ('table', 'doc', 'op', 'vars')]
                yield line_of(*inputs, case.get('row'), case['report'], bytes.fromhex(case['out']))


def given_lines():
    return (line.rstrip('\n') for line in sys.stdin)


def print_all(lines):
    for line in lines:
        print(line)
    return 0


def compare(lines, what):
    count = wrong = 0
    # nothing here has cycles, and collecting them takes a fifth of the time
    with multiprocessing.Pool(initializer=gc.disable) as pool:
        for said in pool.imap(differs, lines, chunksize=256):
            count += 1
            if said:
                wrong += 1
                if wrong <= 5:
                    print(said[:4000], file=sys.stderr)
    print(f'coerce reader: {count} {what} compared, {wrong} differ')
    return 1 if wrong or not count else 0


def main(words):
    if words[:1] == ['vectors'] and len(words) > 1:
        return compare(cases_of(words[1:]), 'vectors')
    if words[:1] == ['cases'] and len(words) > 1:
        return print_all(cases_of(words[1:]))
    if words == ['answers']:
        return print_all(map(answered, given_lines()))
    if words == ['compare']:
        return compare(given_lines(), 'coercions')
    print(__doc__, file=sys.stderr)
    return 2


if __name__ == '__main__':
    sys.exit(main(sys.argv[1:]))

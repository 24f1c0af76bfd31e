#!/usr/bin/env python3
"""Calls that coerce variables or arguments, made by chance: cases, and the seeds that tests/random_coercions changes.

  coercions.py COUNT VECTORS FILE..   prints COUNT calls over the accepted tables of a vectors file, the given table files, tables made by
                                      chance and a table with all kinds of types, then each kind of value at each type and those at the
                                      limits, with the answers of coerce_reader.py; fails if an answer or a reason that there is never comes

A line is as coerce_reader.py reads it. The same words give the same lines.
"""
import random
import sys
from collections import Counter

import check_reader
import pairs
import tables
from coerce_reader import MOST_COERCED, TYPE_REFERENCE, VARIABLE_DEFINITION, coerce, line_of, opened, written
from table_reader import ENUM, INPUT, base_of

# every kind of type, bare, in lists and Non-Null
WIDE = '''type Query { a: Int q: Query w: Wide
  f(x: Int y: [Int] m: [Int!] k: [[Int]] i: In l: [In] s: Own e: E d: ID fl: Float st: String b: Boolean): Int g(n: Int!): Int
  h(i: Deep! l: [[In!]!]! e: [E!] s: [Own]): Query t(st: [String!] d: [ID] fl: [[Float]] b: [Boolean!]! x: [[[[[[[Int]]]]]]]): Wide
  all(x: Int! fl: Float! st: String! b: Boolean! d: ID! e: E! s: Own! i: In!): Int }
  interface Wide { w(i: In d: Deep): Wide n(x: Int!): Int }
  type Narrow implements Wide { w(i: In d: Deep y: Int): Narrow n(x: Int!): Int o(x: [Own!]): Int }
  input In { n: Int! x: Int } input Deep { d: Deep l: [Deep!] i: In! e: E s: Own st: String fl: Float d2: ID b: Boolean y: [[Int!]] }
  scalar Own scalar Time enum E { A B long_name_of_a_value }'''
PLAIN = {b'Int': ['0', '-0', '1', '-7', '2147483647', '-2147483648'],
         b'Float': ['1.5', '-0.0e3', '1e999', '2', '-0', '9007199254740992', '-9007199254740992'],
         b'String': ['"s"', '""', '"\\u00e9\\u07FF\\u0800\\uFFFF\\u0000"', '"\\"\\\\\\/\\b\\f\\n\\r\\t"', '"é中"', '"\\uD7FF\\uE000"'],
         b'Boolean': ['true', 'false'], b'ID': ['"i"', '4', '-0', '99999999999999999999', '"\\u0041"']}
OWN = ['1', '-0', '"o\\u0077n"', 'true', '2.5', '"\\uD800"', '123456789012345678901234567890', '1E+2']
ANY = ['1', '2147483648', '-2147483649', '9007199254740993', '-9007199254740993', '99999999999999999999', '1.0', '-1e-5', '"A"', '"\\uD800"',
       '"\\uDFFF"', '"a\\uD83D\\uDE00"', 'true', 'null', 'A', 'Z', '[]', '[1]', '[[null] 2]', '{}', '{n: 1}', '{n: 1 n: 2}', '{x: null}',
       '[{n: 1}]', '"s"']
MOST_VARIABLES_TEXT = 700
CALLS = 6           # of one document


class Maker(pairs.Maker):
    """As for pairs, with values of every kind: mostly right ones, now and then of another kind, null, too large, unknown or repeated."""

    def __init__(self, schema, roots, chance, wrong):
        super().__init__(schema, roots, chance)
        self.wrong = wrong          # one value in so many

    def value(self, due, depth, variables=True):
        plain = due[:-1] if due.endswith(b'!') else due
        if self.one_in(self.wrong):
            return self.chance.choice(ANY)
        if plain == due and self.one_in(12):
            return 'null'
        if variables and self.one_in(3):
            given = self.variable(due)
            if given:
                return given
        if plain.startswith(b'['):
            if depth == 0 or self.one_in(4):
                return self.value(base_of(plain), depth, False)
            return '[' + ' '.join(self.value(plain[1:-1], depth - 1, variables) for _ in range(self.chance.randrange(4))) + ']'
        wanted = self.schema.types[plain]
        if wanted.kind == INPUT:
            return self.object(wanted.members, depth, variables)
        if wanted.kind == ENUM:
            return 'Z' if self.one_in(self.wrong // 2) else self.chance.choice(wanted.members).name.decode()
        return self.chance.choice(PLAIN.get(plain, OWN))

    def object(self, members, depth, variables):
        required = [m for m in members if m.type.endswith(b'!')]
        given = [m for m in members if not self.one_in(8 if m in required else 2)] if depth else required
        entries = [f'{m.name.decode()}: {self.inner(m, depth, variables)}' for m in given]
        if self.one_in(self.wrong):
            entries.append(self.chance.choice([*entries, 'zz: 1']))
        self.chance.shuffle(entries)
        return '{' + self.chance.choice([' ', ', ']).join(entries) + '}'

    def inner(self, member, depth, variables):
        if not depth and self.schema.kind(base_of(member.type)) == INPUT:
            return '{}'
        return self.value(member.type, max(depth - 1, 0), variables)

    def mark(self, due):
        """The mark behind a variable's type, and its default."""
        mark = super().mark(due)
        return mark + (f' = {self.value(due, 2, False)}' if self.one_in(3) else '')

    def variables_text(self, operation):
        """A text for the variables of an operation: some absent, some unknown, now and then one twice."""
        entries = [f'{d.name.decode()}: {self.value(written(d.of(TYPE_REFERENCE)[0]), 3, False)}' for d in operation.of(VARIABLE_DEFINITION)
                   if not self.one_in(6)]
        if self.one_in(6):
            entries.append(self.chance.choice([*entries, 'other: 1', 'other: {n: 1 n: []}', 'v0: null', 'other: "\\uD800"']))
        self.chance.shuffle(entries)
        return self.chance.choice(['{%s}', '{ %s }', '#c\n{%s},']) % ' '.join(entries)


def row_for(opening, operation, chance):
    """Mostly a field that the operation reaches."""
    reached = list(opening.reached(operation))
    if reached and chance.randrange(12):
        return chance.choice(reached)
    return chance.choice([0, len(opening.rows), 2048, 2 ** 32 - 1, chance.randrange(len(opening.rows))])


def calls_of(table, chance):
    """A document that fits a table, and calls on it."""
    _, schema, roots = check_reader.schema_of(table)
    wrong = chance.choice([10, 20, 60, 1000])
    while True:
        maker = Maker(schema, roots, chance, wrong)
        document = maker.document().encode()
        if len(document) < pairs.MOST_DOCUMENT:
            break
    _, opening = opened(table, document)
    for _ in range(CALLS):
        operation = chance.choice(opening.operations) if opening else None
        name = operation.name if operation and chance.randrange(8) else chance.choice([b'', b'Op0', b'nope', b'\x00'])
        variables = maker.variables_text(operation).encode() if operation else b'{}'
        row = row_for(opening, operation, chance) if operation and chance.randrange(2) else None
        if len(variables) < MOST_VARIABLES_TEXT:
            yield table, document, name, variables, row


# ---- each kind of token at each kind of type

TYPES = {'x': 'Int', 'fl': 'Float', 'st': 'String', 'b': 'Boolean', 'd': 'ID', 'e': 'E', 's': 'Own', 'i': 'In', 'y': '[Int]', 'm': '[Int!]',
         'k': '[[Int]]', 'l': '[In]'}


def each():
    """Each of the values above at each type, in the document and in the variables text."""
    table = tables.table(tables.written(WIDE))
    values = sorted({*ANY, *OWN, *(value for some in PLAIN.values() for value in some), '{n: 1 zz: 1}', '[{n: 1} {x: 1}]', '[1 null]'})
    for name, type in TYPES.items():
        for value in values:
            yield table, f'{{f({name}: {value})}}'.encode(), b'', b'{}', 1
            yield table, f'query($v: {type} = {value}){{a}}'.encode(), b'', b'{}', None
            yield table, f'query($v: {type}!){{f({name}: $v)}}'.encode(), b'', f'{{v: {value}}}'.encode(), 3


# ---- at the limits

def at_limits():
    """Values of just under, just at and just over 8,192 bytes, of each kind that can be so long, given, by default and through variables."""
    table = tables.table(tables.written(WIDE))
    for extra in (-1, 0, 1, 60):
        for text in texts_of(extra):
            yield table, b'query($v: String $w: [Int] $d: ID){a}', b'', text, None
            yield table, b'query($v: String $w: [Int] $d: ID){f(st: $v y: $w d: $d)}', b'', text, 7
        long = b'"' + b'a' * (MOST_COERCED - 13 + extra) + b'"'
        yield table, b'query($v: String = %s){a}' % long, b'', b'{}', None
        yield table, b'{f(st: %s)}' % long, b'', b'{}', 1
        yield table, b'{f(s: %s)}' % (b'"' + b'a' * (MOST_COERCED - 14 + extra) + b'"'), b'', b'{}', 1
        yield table, b'query($v: String){t(st: [%s])}' % b' '.join([b'$v'] * 63), b'', b'{v: "%s"}' % (b'b' * (125 + extra)), 3
    yield table, b'query($v: [Int] $x: Int){a}', b'', b'{v: [%s] x: A}' % b' '.join([b'1'] * 1900), None
    yield table, b'query($v: [Int] $x: Int){a}', b'', b'{v: [%s] x: 1}' % b' '.join([b'1'] * 1900), 5
    yield table, b'{f(y: [%s] x: 1.5)}' % b' '.join([b'1'] * 1500), b'', b'{}', 1
    yield table, b'query($v: [Int]){f(k: [%s])}' % b' '.join([b'$v'] * 1000), b'', b'{v: [%s]}' % b' '.join([b'7'] * 1000), 4
    yield table, b'query($v: [Int]){f(k: [%s])}' % b' '.join([b'$v'] * 1000), b'', b'{}', 4
    yield table, b'query($i: [In]){f(l: $i)}', b'', b'{i: [%s]}' % b' '.join([b'{x: 1 n: 2}'] * 340), 4
    for depth in (29, 30, 31, 32):
        yield table, b'query($v: Deep){w{w(d: $v){__typename}}}', b'', b'{v: %s{i: {n: 1}}%s}' % (b'{i: {n: 1} d: ' * depth, b'}' * depth), 4


def texts_of(extra):
    """Of String, [Int] and ID: results of MOST_COERCED bytes and some more."""
    head = 3 + 3 + 4 + 3      # object, entry, name of one letter, field
    room = MOST_COERCED - head + extra
    yield b'{v: "%s"}' % (b'a' * room)
    yield b'{v: "%s%s"}' % (b'\\u00e9' * 100, b'a' * (room - 200))
    yield b'{v: "%s"}' % ('中'.encode() * (room // 3) + b'a' * (room % 3))
    yield b'{d: %s}' % (b'9' * room)
    ints, left = divmod(room - head + 3, 7)
    yield b'{w: [%s] d: "%s"}' % (b' '.join([b'-1'] * (ints - 1)), b'i' * (left + 7 - 3))


def calls(count, given, chance):
    while count > 0:
        for call in calls_of(chance.choice(given), chance):
            yield call
            count -= 1
    yield from each()
    yield from at_limits()


def main(words):
    if len(words) < 2 or not words[0].isdigit():
        print(__doc__, file=sys.stderr)
        return 2
    chance = random.Random(2016)
    given = pairs.tables_of(words[1], words[2:], chance)
    wide = tables.table(tables.written(WIDE))
    given += [wide] * (len(given) // 2)
    seen = Counter()
    for call in calls(int(words[0]), given, chance):
        said, value = coerce(*call)
        seen[(said[0], said[1], said[3]) if said[0] == 11 else said[0]] += 1
        print(line_of(*call, said, value))
    due = [0, 12, 16] + [(11, text, reason) for text in (0, 1) for reason in range(1, 9)]
    for one in due:
        if not seen[one]:
            print(f'coercions: {one} never came', file=sys.stderr)
    return 0 if all(seen[one] for one in due) else 1


if __name__ == '__main__':
    sys.exit(main(sys.argv[1:]))

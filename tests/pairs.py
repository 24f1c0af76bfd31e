#!/usr/bin/env python3
"""Pairs of a type table and a document that fits it, made by chance: cases, and the seeds that tests/random_pairs changes.

  pairs.py COUNT VECTORS FILE..   prints COUNT pairs over the accepted tables of a vectors file, the given table files, and
                                  tables made by chance, with the answers of check_reader.py

A line is as check_reader.py reads it. Fails if a document does not fit. The same words give the same lines.
"""
import json
import random
import sys

import check_reader
import tables
from table_reader import ENUM, INPUT, INTERFACE, MOST_WRAPPERS, OBJECT, SCALAR, UNION, base_of

MOST_SHARED = 12      # variables of one document
MADE_TABLES = 200
MOST_TABLE, MOST_DOCUMENT = 3000, 600
KINDS = ['query', 'mutation', 'subscription']
LITERALS = {b'Int': ['1', '0', '-7', '2147483647'], b'Float': ['1.5', '2', '-0.0e3'], b'String': ['"s"', '""', '"\\u00e9"'],
            b'Boolean': ['true', 'false'], b'ID': ['"i"', '4']}


class Maker:
    def __init__(self, schema, roots, chance):
        self.schema, self.roots, self.chance = schema, roots, chance
        self.fragments = {}
        self.variables = {}
        self.composites = [n for n, t in schema.types.items() if t.kind in (OBJECT, INTERFACE, UNION)]

    def one_in(self, n):
        return self.chance.randrange(n) == 0

    def variable(self, due):
        """A variable for a place of this type, or None."""
        due = due[:-1] if due.endswith(b'!') else due
        if due not in self.variables:
            if len(self.variables) == MOST_SHARED:
                return None
            self.variables[due] = f'v{len(self.variables)}'
        return '$' + self.variables[due]

    def value(self, due, depth, variables=True):
        plain = due[:-1] if due.endswith(b'!') else due
        if variables and self.one_in(4):
            given = self.variable(due)
            if given:
                return given
        if plain.startswith(b'['):
            if depth == 0 or self.one_in(4):
                return self.value(base_of(plain), depth, False)     # stands for lists of one; not for a variable or a list
            return '[' + ' '.join(self.value(plain[1:-1], depth - 1) for _ in range(self.chance.randrange(3))) + ']'
        wanted = self.schema.types[plain]
        if wanted.kind == INPUT:
            if depth == 0:
                return '{}'
            entries = [f'{m.name.decode()}: {self.value(m.type, depth - 1)}' for m in wanted.members if not self.one_in(3)]
            return '{' + ' '.join(entries) + '}'
        if wanted.kind == ENUM:
            return self.chance.choice(wanted.members).name.decode()
        return self.chance.choice(LITERALS.get(plain, ['1', '"own"', 'true', '2.5']))

    def directives(self):
        text = ''
        for name in ('skip', 'include'):
            if self.one_in(8):
                text += f' @{name}(if: {self.value(b"Boolean!", 0)})'
        return text

    def field(self, member, depth):
        text = f'k{self.chance.randrange(9)}: ' if self.one_in(4) else ''
        text += member.name.decode()
        given = [f'{a.name.decode()}: {self.value(a.type, 2)}' for a in member.arguments if not self.one_in(3)]
        if given:
            text += '(' + ' '.join(given) + ')'
        text += self.directives()
        inner = base_of(member.type)
        if self.schema.kind(inner) in (OBJECT, INTERFACE, UNION):
            text += ' ' + self.selections(inner, depth - 1)
        return text

    def selection(self, enclosing, depth):
        definition = self.schema.types[enclosing]
        way = self.chance.randrange(10)
        if way == 0:
            condition = f' on {self.chance.choice(self.composites).decode()}' if self.one_in(2) else ''
            inner = condition[4:].encode() or enclosing
            return f'...{condition}{self.directives()} {self.selections(inner, depth - 1)}'
        if way == 1:
            return f'...{self.fragment(depth)}{self.directives()}'
        fields = definition.members if definition.kind != UNION else []
        if depth <= 0:
            fields = [m for m in fields if self.schema.kind(base_of(m.type)) in (SCALAR, ENUM)]
        if not fields or way == 2:
            return '__typename' + self.directives()
        return self.field(self.chance.choice(fields), depth)

    def selections(self, enclosing, depth):
        if depth <= 0:
            return '{' + self.selection_flat(enclosing) + '}'
        return '{' + ' '.join(self.selection(enclosing, depth) for _ in range(self.chance.randrange(1, 4))) + '}'

    def selection_flat(self, enclosing):
        definition = self.schema.types[enclosing]
        fields = definition.members if definition.kind != UNION else []
        leaves = [m for m in fields if self.schema.kind(base_of(m.type)) in (SCALAR, ENUM)]
        return self.field(self.chance.choice(leaves), 0) if leaves and not self.one_in(4) else '__typename'

    def fragment(self, depth):
        """The name of a fragment: one that is there already, or a new one, which spreads only later ones."""
        if len(self.fragments) >= 6 or (self.fragments and self.one_in(2)):
            done = [name for name, text in self.fragments.items() if text]
            if done:
                return self.chance.choice(done)
        name = f'F{len(self.fragments)}'
        condition = self.chance.choice(self.composites)
        self.fragments[name] = ''
        self.fragments[name] = f'fragment {name} on {condition.decode()} {self.selections(condition, depth - 1)}'
        return name

    def mark(self, due):
        return '!' if self.one_in(3) and due.count(b'[') + due.count(b'!') < MOST_WRAPPERS else ''

    def document(self):
        operations = []
        for i in range(1 + (self.chance.randrange(3) if self.one_in(3) else 0)):
            kind = self.chance.choice([k for k in self.roots])
            operations.append((kind, self.selections(self.roots[kind], self.chance.randrange(1, 4))))
        declared = ' '.join(f'${name}: {due.decode()}{self.mark(due)}' for due, name in self.variables.items())
        texts = [text for text in self.fragments.values()]
        for i, (kind, body) in enumerate(operations):
            if kind == 0 and len(operations) == 1 and not declared and self.one_in(2):
                texts.append(body)
                continue
            name = f' Op{i}' if len(operations) > 1 or self.one_in(2) else ''
            texts.append(f'{KINDS[kind]}{name}{"(" + declared + ")" if declared else ""} {body}')
        self.chance.shuffle(texts)
        return ' '.join(texts)


def tables_of(vectors, files, chance):
    found = {}
    with open(vectors) as file:
        for line in file:
            found[bytes.fromhex(json.loads(line)['table'])] = True
    for path in files:
        with open(path, 'rb') as file:
            found[file.read()] = True
    for _ in range(MADE_TABLES):
        found[tables.table(tables.valid(chance, chance.choice([1, 2, 2, 3])))] = True
    return [table for table in found if len(table) < MOST_TABLE and check_reader.schema_of(table)[1]]


def main(words):
    if len(words) < 2 or not words[0].isdigit():
        print(__doc__, file=sys.stderr)
        return 2
    chance = random.Random(2016)
    given, refused = tables_of(words[1], words[2:], chance), 0
    for _ in range(int(words[0])):
        table = chance.choice(given)
        _, schema, roots = check_reader.schema_of(table)
        while True:
            document = Maker(schema, roots, chance).document().encode()
            if len(document) < MOST_DOCUMENT:
                break
        said, rows = check_reader.check(table, document)
        refused += said[0] != 0
        print(check_reader.line_of(table, document, said, rows))
    return 1 if refused else 0


if __name__ == '__main__':
    sys.exit(main(sys.argv[1:]))

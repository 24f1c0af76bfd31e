#!/usr/bin/env python3
"""Operations to plan and plans to walk, made by chance: cases, and the seeds that tests/random_plans changes.

  plans.py COUNT VECTORS FILE..   prints COUNT documents over the accepted tables of a vectors file, the given table files, tables made by
                                  chance and a table with interfaces and unions, each planned and walked for its object types with variables
                                  and lists of blocks by chance, then those at the limits, with the answers of plan_reader.py: its plan, and
                                  what it collects from the document. Fails if its walks of its plans are others, or if an answer or a kind
                                  of step that there is never comes

A line is as plan_reader.py reads it. The same words give the same lines.
"""
import random
import sys
from collections import Counter

import check_reader
import pairs
import tables
from plan_reader import MOST_PAIRS, MOST_WALKED, STEPS_AT, VARIABLES_SIZE, collect, lent, opened, plan, plan_line, walk
from table_reader import ENUM, OBJECT, SCALAR, UNION, base_of

WIDE = '''type Query implements Node { a: Int b: Int q: Query n: Node u: Any o: O two: Two l: [Node!] f(x: Int on: Boolean): Query }
  interface Node { a: Int q: Query } interface Named { name: String n: Node }
  type O implements Node Named { a: Int q: Query o: O name: String n: O u: Any }
  type P implements Named Node { name: String n: Node a: Int q: Query p: [P] b: Int }
  type R { r: R a: Int u: Two } union Any = Query | O | P union Two = R | P type Change { a: Int q: Query o(x: Int): O }
  schema { query: Query mutation: Change }'''
BOOLEANS = 5            # variables of one document
MOST_DOCUMENT = 700
WALKS = 6               # of one plan


class Maker(pairs.Maker):
    """As for pairs, with more fragments, conditions and fields of one key."""

    def variable(self, due):
        if due.startswith(b'Boolean'):
            due = b'Boolean' + b' ' * self.chance.randrange(BOOLEANS)       # a variable for each, of one type
        return super().variable(due)

    def directives(self):
        names = [name for name in ('skip', 'include') if self.one_in(4)]
        self.chance.shuffle(names)
        return ''.join(f' @{name}(if: {self.condition()})' for name in names)

    def condition(self):
        given = None if self.one_in(4) else self.variable(b'Boolean')
        return given or self.chance.choice(['true', 'false'])

    def selection(self, enclosing, depth):
        way = self.chance.randrange(9)
        if way < 2:
            condition = '' if self.one_in(3) else f' on {self.type_near(enclosing)}'
            return f'...{condition}{self.directives()} {self.selections(condition[4:].encode() or enclosing, depth - 1)}'
        if way < 4:
            return f'...{self.fragment(depth)}{self.directives()}'
        definition = self.schema.types[enclosing]
        fields = definition.members if definition.kind != UNION else []
        if depth <= 0:
            fields = [m for m in fields if self.schema.kind(base_of(m.type)) in (SCALAR, ENUM)]
        if not fields or self.one_in(9):
            return '__typename' + self.directives()
        return self.field(self.chance.choice(fields), depth)

    def type_near(self, enclosing):
        """The type around, or any."""
        return (enclosing if self.one_in(3) else self.chance.choice(self.composites)).decode()

    def selections(self, enclosing, depth):
        if depth <= 0:
            return '{' + self.selection_flat(enclosing) + '}'
        return '{' + ' '.join(self.selection(enclosing, depth) for _ in range(self.chance.randrange(1, 5))) + '}'


def objects_of(schema):
    return [number for number, one in enumerate(schema.definitions) if one.kind == OBJECT]


def blocks_for(count, chance):
    """A list of blocks: mostly some, one after another or by chance, repeats too; now and then as many as may be, one over, or unknown."""
    way = chance.randrange(24)
    if way == 0:
        return [chance.randrange(count) for _ in range(chance.choice([MOST_WALKED, MOST_WALKED + 1]))]
    if way == 1:
        return chance.choice([[], [count], [0, 2 ** 32 - 1], [count - 1, count]])
    if way < 8:
        return [0]
    return [chance.randrange(count) for _ in range(chance.randrange(1, 7))]


def variables_for(chance):
    if chance.randrange(30) == 0:
        return bytes(chance.choice([0, 1, VARIABLES_SIZE - 1]))
    near = chance.choice([[0, 1], [0, 1], [1], [0], [0, 1, 2, 255, 128]])
    return bytes(chance.choice(near) for _ in range(VARIABLES_SIZE + chance.choice([0, 0, 0, 1, 9])))


def walks_of(table, document, name, numbers, chance):
    """Walks of a plan, for each of some object types; what is due is collected from the document."""
    schema = check_reader.schema_of(table)[1]
    objects = objects_of(schema)
    chance.shuffle(objects)
    planned = lent(numbers)
    for number in (objects * WALKS)[:max(WALKS, min(len(objects), 2 * WALKS))]:
        if chance.randrange(40) == 0:
            number = chance.choice([len(schema.definitions), 2 ** 32 - 1, chance.randrange(len(schema.definitions))])
        asked = number, blocks_for(numbers[0], chance), variables_for(chance)
        due = collect(table, document, name, *asked)
        if walk(table, planned, *asked) != due:
            raise SystemExit(f'plans: {table.hex()} {document} {name} {asked}: collected {due}, walked {walk(table, planned, *asked)}')
        yield asked, due


def plans_of(table, chance):
    """A document that fits a table, and the plan of one of its operations."""
    _, schema, roots = check_reader.schema_of(table)
    while True:
        document = Maker(schema, roots, chance).document().encode()
        if len(document) < MOST_DOCUMENT:
            break
    opening = opened(table, document)[1]
    operation = chance.choice(opening.operations) if opening else None
    name = operation.name if operation and chance.randrange(20) else chance.choice([b'', b'Op0', b'nope', b'\x00'])
    return table, document, name


# ---- at the limits

def doubling(count, last='a'):
    """Fragments, each of which spreads the next one twice."""
    texts = [f'fragment F{i} on Query {{...F{i + 1} ...F{i + 1}}}' for i in range(count - 1)]
    return ' '.join(['{...F0}', *texts, f'fragment F{count - 1} on Query {{{last}}}'])


def nested(count, deep):
    """Fields in fields, so many of them beside each other."""
    return '{' + ' '.join('q{' * deep + 'a' + '}' * deep for _ in range(count)) + '}'


def at_limits():
    """Plans of about 4,096 steps, of as many blocks as there can be; walks of about 512 pairs."""
    spread = 'fragment F on Query {%s}'
    for fields in (61, 62, 63):
        yield '{' + '...F ' * 64 + '} ' + spread % ('a ' * fields)
    yield '{' + '...F ' * 64 + 'a} ' + spread % ('a ' * 62)
    yield from (doubling(count) for count in (9, 10, 11, 12, 64))
    yield doubling(64, 'a @skip(if: true)')
    yield '{' + 'a ' * 2046 + '}'
    yield from ('{' + 'a ' * count + '}' for count in (MOST_PAIRS - 1, MOST_PAIRS, MOST_PAIRS + 1))
    yield '{' + ' '.join(f'k{i}: a' for i in range(MOST_PAIRS)) + '}'
    yield '{' + ' '.join(f'k{i % 256}: a' for i in range(MOST_PAIRS + 1)) + '}'
    yield '{' + ' '.join(f'k{i % 7}: a k{i % 5}: b' for i in range(MOST_PAIRS // 2)) + '}'
    yield nested(63, 31)
    yield nested(1000, 1)
    defined = ' '.join(f'$v{i}: Boolean' for i in range(64))
    yield 'query(%s) {a}' % defined
    yield 'query(%s) {%s}' % (defined, ' '.join(f'a @skip(if: $v{i}) b @include(if: $v{63 - i})' for i in range(64)))
    fragments = ' '.join(f'fragment F{i} on Query {{k{i}: a q {{...F{i + 1}}}}}' for i in range(63))
    yield '{...F0 ...F63} ' + fragments + ' fragment F63 on Query {a}'
    yield '{' + ' '.join(f'...F{i}' for i in range(63, -1, -1)) + '} ' + fragments + ' fragment F63 on Query {b}'


def cases(count, given, chance):
    for _ in range(count):
        yield plans_of(chance.choice(given), chance)
    wide = tables.table(tables.written(WIDE))
    for document in at_limits():
        yield wide, document.encode(), b''


def main(words):
    if len(words) < 2 or not words[0].isdigit():
        print(__doc__, file=sys.stderr)
        return 2
    chance = random.Random(2016)
    given = pairs.tables_of(words[1], words[2:], chance)
    given += [tables.table(tables.written(WIDE))] * len(given)
    seen = Counter()
    for table, document, name in cases(int(words[0]), given, chance):
        said, numbers = plan(table, document, name)
        walks = [] if said[0] else list(walks_of(table, document, name, numbers, chance))
        seen['plan', said[0]] += 1
        seen.update(('walk', due[0][0]) for _, due in walks)
        seen.update(('step', kind) for kind in numbers[STEPS_AT::3])
        print(plan_line(table, document, name, said, numbers, walks))
    due = [('plan', 0), ('plan', 12), ('plan', 13), ('walk', 0), ('walk', 14), ('walk', 15)] + [('step', kind) for kind in range(1, 6)]
    for one in due:
        if not seen[one]:
            print(f'plans: {one} never came', file=sys.stderr)
    return 0 if all(seen[one] for one in due) else 1


if __name__ == '__main__':
    sys.exit(main(sys.argv[1:]))

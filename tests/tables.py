#!/usr/bin/env python3
"""Type tables for the tests: written in the type language, made by chance, broken in one rule, in their framing or counts.

  tables.py text TEXT          writes the table of a text of the type language (- reads it from standard input)
  tables.py cases SEED COUNT   prints tables made by chance with the answers of table_reader.py, a line each
  tables.py sizes              prints tables with counts and lengths at and over their sizes, the same way
  tables.py check [COUNT]      makes such tables and says how often each answer came; fails if one never does

A line is as table_reader.py reads it. The same seed makes the same tables.
"""
import copy
import random
import re
import sys
from collections import Counter

from table_reader import (ARGUMENT, DIRECTIVE, ENUM, ENUM_VALUE, FIELD, HELD, IMPLEMENTED, INPUT, INTERFACE, MUTATION, NAME,
                          OBJECT, QUERY, ROOTS, SCALAR, SUBSCRIPTION, TYPE, UNION, UNION_MEMBER, judge, line_of)

BUILT_IN = ['Int', 'Float', 'String', 'Boolean', 'ID']
MOST_TABLE = 32768


# ---- a table's words, and their bytes

class Member:
    """A field, argument, input field, union member, enum value or root."""
    def __init__(self, name, type=None, arguments=()):
        self.name, self.type, self.arguments = name, type, list(arguments)


class Definition:
    def __init__(self, kind, name=None, members=(), implemented=()):
        self.kind, self.name, self.members, self.implemented = kind, name, list(members), list(implemented)


def scalar(name):
    return Definition(SCALAR, name)


def object_type(name, fields, implemented=()):
    return Definition(OBJECT, name, fields, implemented)


def interface(name, fields):
    return Definition(INTERFACE, name, fields)


def union(name, names):
    return Definition(UNION, name, [Member(n) for n in names])


def enum(name, values):
    return Definition(ENUM, name, [Member(v) for v in values])


def input_object(name, fields):
    return Definition(INPUT, name, fields)


def directive(name, arguments=()):
    return Definition(DIRECTIVE, name, arguments)


def roots(query, mutation=None, subscription=None):
    return Definition(ROOTS, None, [Member(query), mutation and Member(mutation), subscription and Member(subscription)])


def piece(tag, content):
    """A house field; a list is of pieces."""
    if not isinstance(content, bytes):
        content = content.encode() if isinstance(content, str) else b''.join(content)
    return bytes([tag, len(content) >> 8 & 255, len(content) & 255]) + content


def member_bytes(tag, member):
    if tag not in (FIELD, ARGUMENT):
        return piece(tag, member.name)
    return piece(tag, [piece(NAME, member.name), piece(TYPE, member.type)] + [member_bytes(ARGUMENT, a) for a in member.arguments])


MEMBER_TAG = {OBJECT: FIELD, INTERFACE: FIELD, UNION: UNION_MEMBER, ENUM: ENUM_VALUE, INPUT: ARGUMENT, DIRECTIVE: ARGUMENT}


def definition_bytes(definition):
    if definition.kind == ROOTS:
        return piece(ROOTS, [piece(QUERY + i, root.name) for i, root in enumerate(definition.members) if root])
    return piece(definition.kind, [piece(NAME, definition.name)] + [piece(IMPLEMENTED, n) for n in definition.implemented] +
                 [member_bytes(MEMBER_TAG[definition.kind], m) for m in definition.members])


def table(definitions):
    return b''.join(map(definition_bytes, definitions))


# ---- the type language, as far as READINGS writes tables in it

class Words:
    def __init__(self, text):
        self.left = re.findall(r'[_A-Za-z][_0-9A-Za-z]*|[^\s,]', text)

    def look(self):
        return self.left[0] if self.left else None

    def take(self, *due):
        word = self.left.pop(0) if self.left else None
        if word is None or (due and word not in due):
            raise ValueError(f'{word} where {" or ".join(due) or "a name"} is due')
        return word

    def until(self, end, one):
        found = []
        while self.look() != end:
            found.append(one())
        self.take(end)
        return found

    def reference(self):
        if self.look() == '[':
            text = self.take() + self.reference() + self.take(']')
        else:
            text = self.take()
        while self.look() == '!':
            text += self.take()
        return text

    def member(self):
        name, arguments = self.take(), []
        if self.look() == '(':
            self.take()
            arguments = self.until(')', self.member)
        self.take(':')
        return Member(name, self.reference(), arguments)

    def body(self, one):
        self.take('{')
        return self.until('}', one)

    def definition(self):
        kind = self.take('scalar', 'type', 'interface', 'union', 'enum', 'input', 'directive', 'schema')
        if kind == 'schema':
            given = {m.name: m.type for m in self.body(self.member)}
            return roots(given['query'], given.get('mutation'), given.get('subscription'))
        if kind == 'directive':
            self.take('@')
        name = self.take()
        if kind == 'scalar':
            return scalar(name)
        if kind == 'union':
            names = []
            while self.look() in ('=', '|'):
                self.take()
                names.append(self.take())
            return union(name, names)
        if kind == 'directive':
            arguments = []
            if self.look() == '(':
                self.take()
                arguments = self.until(')', self.member)
            while self.look() in ('on', '|'):
                self.take()
                self.take()
            return directive(name, arguments)
        if kind == 'enum':
            return enum(name, self.body(self.take))
        if kind == 'input':
            return input_object(name, self.body(self.member))
        if kind == 'interface':
            return interface(name, self.body(self.member))
        implemented = []
        if self.look() == 'implements':
            self.take()
            while self.look() != '{':
                implemented.append(self.take())
        return object_type(name, self.body(self.member), implemented)


def written(text):
    """The definitions of a text of the type language."""
    words, found = Words(text), []
    while words.look():
        found.append(words.definition())
    return found


# ---- names and type references

LETTERS = 'abcdefghijklmnopqrstuvwxyzABCDEFGHIJKLMNOPQRSTUVWXYZ_'


def fresh_names(rng, count):
    """Names, all different, in one of several likenesses."""
    way = rng.randrange(5)
    prefix = rng.choice(['', 'T', '_', 'Common_prefix_of_all_', 'x' * rng.randrange(1, 40)])
    found, taken = [], set(BUILT_IN) | {'Query', 'Nope'}
    while len(found) < count:
        if way == 0:
            name = rng.choice(LETTERS) + ''.join(rng.choice(LETTERS + '0123456789') for _ in range(rng.randrange(3)))
        elif way == 1:
            name = prefix + ''.join(rng.choice('ab') for _ in range(6)) if count < 40 else prefix + f'N{len(found)}'
        elif way == 2:
            name = rng.choice(['Int', 'In', 'Quer', 'Query', 'String', 'Strin', 'ID', 'I', 'skip', 'include', 'true']) + \
                rng.choice(['', 's', '_', '1', 'X' * rng.randrange(4)])
            name = name if rng.randrange(4) else f'Q{len(found)}'
        elif way == 3:
            name = prefix + rng.choice(LETTERS) + str(rng.randrange(20))
        else:
            name = ''.join(rng.sample('abcde', 5)) + (rng.choice(LETTERS) if count > 60 else '')
        if name in taken or name.startswith('__'):
            name = f'N{len(taken)}x{len(found)}'
        if name not in taken:
            taken.add(name)
            found.append(name)
    return found


def wrapped(rng, base, most=7):
    """A reference with this base; most have few wrappers."""
    text, left = base, rng.choice([0, 0, 0, 1, 1, 2, 3, rng.randrange(8)])
    left = min(left, most)
    while left:
        if not text.endswith('!') and rng.randrange(2):
            text += '!'
        else:
            text = f'[{text}]'
        left -= 1
    return text


def base_of(reference):
    return reference.strip('[]!')


def wrappers(reference):
    return len(re.findall(r'[\[!]', reference))


# ---- tables by chance that break nothing

class Maker:
    """Makes one table that table_reader.py accepts. A field of one name promises the same in every interface."""

    def __init__(self, rng, size):
        self.rng = rng
        kinds = [INTERFACE] * rng.randrange(size > 0, 2 + size) + [OBJECT] * rng.randrange(0, 2 + 2 * size) + [UNION] * rng.randrange(0, 1 + size)
        kinds += [SCALAR] * rng.randrange(2) + [ENUM] * rng.randrange(2) + [INPUT] * rng.randrange(1 + size)
        names = fresh_names(rng, len(kinds))
        self.of = {kind: [n for n, k in zip(names, kinds) if k == kind] for kind in range(SCALAR, INPUT + 1)}
        self.of[OBJECT].append('Query')
        self.outputs = BUILT_IN + [n for k in (SCALAR, OBJECT, INTERFACE, UNION, ENUM) for n in self.of[k]]
        self.inputs = BUILT_IN + [n for k in (SCALAR, ENUM, INPUT) for n in self.of[k]]
        self.member_names = fresh_names(rng, 6 + 3 * size)
        self.promises = {n: self.field(n) for n in self.member_names[:2 + 2 * size]}
        self.fields_of = {i: self.some(list(self.promises), 1, 1 + size) for i in self.of[INTERFACE]}
        self.implemented = {o: self.some(self.of[INTERFACE], 0, 3) for o in self.of[OBJECT]}
        self.unions = {u: self.some(self.of[OBJECT], 1, 4) for u in self.of[UNION]}

    def some(self, of, least, most):
        return self.rng.sample(of, min(len(of), self.rng.randint(least, max(least, most))))

    def argument(self, name):
        return Member(name, wrapped(self.rng, self.rng.choice(self.inputs)))

    def arguments(self, least=0):
        count = self.rng.choice([least, least, least + 1, least + 2])
        return [self.argument(n) for n in self.some(self.member_names, count, count)]

    def field(self, name):
        return Member(name, wrapped(self.rng, self.rng.choice(self.outputs)), self.arguments())

    def narrowed(self, reference):
        """A sub-type of a reference."""
        if reference.endswith('!') or wrappers(reference) == 7:
            return reference
        if reference.startswith('['):
            text = f'[{self.narrowed(reference[1:-1])}]'
        else:
            can = [o for o in self.of[OBJECT] if reference in self.implemented[o] or o in self.unions.get(reference, [])]
            text = self.rng.choice([reference] + can)
        text += self.rng.choice(['', '', '!'])
        return text if wrappers(text) <= 7 else reference

    def kept(self, promised):
        """An object's field that keeps the promise."""
        if not self.rng.randrange(3):
            return copy.deepcopy(promised)
        arguments = [Member(a.name, a.type) for a in promised.arguments]
        for more in self.arguments():
            if more.name not in [a.name for a in arguments]:
                more.type = more.type.rstrip('!')
                arguments.append(more)
        self.rng.shuffle(arguments)
        reference = self.narrowed(promised.type)
        return Member(promised.name, reference if wrappers(reference) <= 7 else promised.type, arguments)

    def object_type(self, name):
        promised = {n: self.promises[n] for i in self.implemented[name] for n in self.fields_of[i]}
        fields = [self.kept(p) for p in promised.values()]
        for n in self.some(self.member_names, 1 if not fields else 0, 3):
            if n not in promised:
                fields.append(self.field(n))
        if not fields:
            fields = [self.field(self.member_names[-1])]
        self.rng.shuffle(fields)
        return object_type(name, fields, self.implemented[name])

    def make(self):
        rng, of = self.rng, self.of
        made = [scalar(n) for n in of[SCALAR]] + [self.object_type(n) for n in of[OBJECT]]
        made += [interface(n, [copy.deepcopy(self.promises[f]) for f in self.fields_of[n]]) for n in of[INTERFACE]]
        made += [union(n, self.unions[n]) for n in of[UNION]]
        values = [n for n in self.member_names if n not in ('true', 'false', 'null')]
        made += [enum(n, self.some(values, 1, 4)) for n in of[ENUM]]
        made += [input_object(n, [self.argument(a) for a in self.some(self.member_names, 1, 4)]) for n in of[INPUT]]
        if not rng.randrange(4):
            names = [n for n in self.member_names if n not in ('skip', 'include')] + ['Query', 'Int']
            made += [directive(n, self.arguments()) for n in self.some(names, 1, 2)]
        if not rng.randrange(3):
            pick = [rng.choice(of[OBJECT]), rng.choice([None] + of[OBJECT]), rng.choice([None] + of[OBJECT])]
            made.append(roots(*pick))
        rng.shuffle(made)
        return made


def valid(rng, size=2):
    return Maker(rng, size).make()


# ---- one rule broken

def kind_of(definitions, *kinds):
    return [d for d in definitions if d.kind in kinds]


def fields_with_owner(definitions):
    return [(d, m) for d in kind_of(definitions, OBJECT, INTERFACE) for m in d.members]


def argument_lists(definitions):
    return [m.arguments for _, m in fields_with_owner(definitions)] + [d.members for d in kind_of(definitions, INPUT, DIRECTIVE)]


def references(definitions):
    """All that have a type reference, outputs apart from inputs."""
    return [m for _, m in fields_with_owner(definitions)], [a for some in argument_lists(definitions) for a in some]


def names_of(definitions, *kinds):
    return [d.name for d in kind_of(definitions, *kinds)]


def with_base(reference, base):
    return reference.replace(base_of(reference), base)


def break_1(rng, ds):
    d = rng.choice([d for d in ds if d.kind != ROOTS])
    d.name = rng.choice(['__' + d.name, '__', '___', '__Type', '_'])


def break_2(rng, ds):
    d = rng.choice([d for d in ds if d.kind != ROOTS])
    like = [o.name for o in ds if o.kind != ROOTS and o is not d]
    d.name = rng.choice(like + (['skip', 'include'] if d.kind == DIRECTIVE else BUILT_IN))


def break_3(rng, ds):
    rng.choice([d for d in ds if d.kind not in (SCALAR, ROOTS)]).members = []


def break_4(rng, ds):
    some = rng.choice([s for s in argument_lists(ds) + [d.members for d in kind_of(ds, OBJECT, INTERFACE, UNION, ENUM)] if s])
    again = copy.deepcopy(rng.choice(some))
    if again.type and rng.randrange(2):
        again.type = wrapped(rng, rng.choice(BUILT_IN))
    some.insert(rng.randrange(len(some) + 1), again)


def break_5(rng, ds):
    m = rng.choice([m for _, m in fields_with_owner(ds)])
    if m.arguments and rng.randrange(2):
        m = rng.choice(m.arguments)
    m.name = rng.choice(['__' + m.name, '__', '_'])


def break_6(rng, ds):
    some = kind_of(ds, ENUM)
    if not some:
        some = [enum('Enum6', ['A', 'B', 'C'])]
        ds.append(some[0])
    rng.choice(rng.choice(some).members).name = rng.choice(['true', 'false', 'null', 'True', 'nul', 'nulls', 'falsee'])


def break_7(rng, ds):
    m = rng.choice(references(ds)[0] + references(ds)[1])
    base = base_of(m.type)
    m.type = with_base(m.type, rng.choice(['Nope', base + '_', base[:-1] or '_', base.swapcase(), 'skip', 'int'] + names_of(ds, DIRECTIVE)))


def break_8(rng, ds):
    outputs, inputs = references(ds)
    m = rng.choice(outputs + inputs)
    m.type = with_base(m.type, rng.choice(names_of(ds, OBJECT, INTERFACE, UNION, INPUT, ENUM) or ['Int']))


def break_9(rng, ds):
    name = rng.choice(names_of(ds, OBJECT, INTERFACE, UNION, INPUT, ENUM, SCALAR, DIRECTIVE) + ['Nope', 'Int'])
    some = kind_of(ds, UNION, OBJECT)
    d = rng.choice(some)
    if d.kind == UNION:
        rng.choice(d.members).name = name
    else:
        d.implemented.insert(rng.randrange(len(d.implemented) + 1), name)


def break_10(rng, ds):
    some = [d for d in kind_of(ds, OBJECT) if d.implemented]
    if some:
        d = rng.choice(some)
        d.implemented.insert(rng.randrange(len(d.implemented) + 1), rng.choice(d.implemented))


def promised(rng, ds):
    """An object's field that some interface promises, the promise, both with their owners; or None."""
    found = []
    for d in kind_of(ds, OBJECT):
        for i in kind_of(ds, INTERFACE):
            if i.name in d.implemented:
                found += [(d, own, i, p) for own in d.members for p in i.members if own.name == p.name]
    return rng.choice(found) if found else None


def break_11(rng, ds):
    got = promised(rng, ds)
    if got:
        d, own, i, p = got
        if rng.randrange(2):
            d.members.remove(own)
        else:
            own.name = p.name + rng.choice(['x', '_', '1'])


def break_12(rng, ds):
    got = promised(rng, ds)
    if got:
        side = rng.choice([got[1], got[3]])
        way = rng.randrange(4)
        if way == 0:
            side.type = wrapped(rng, base_of(side.type))
        elif way == 1:
            side.type = with_base(side.type, rng.choice(BUILT_IN + names_of(ds, OBJECT, INTERFACE, UNION)))
        elif way == 2:
            side.type = side.type[:-1] if side.type.endswith('!') else side.type + '!'
        else:
            side.type = f'[{side.type}]' if wrappers(side.type) < 7 else side.type


def break_13(rng, ds):
    got = promised(rng, ds)
    if got:
        _, own, _, p = got
        if own.arguments and rng.randrange(2):
            own.arguments.remove(rng.choice(own.arguments))
        else:
            p.arguments.insert(rng.randrange(len(p.arguments) + 1), Member('more', rng.choice(['Int', 'Int!'])))


def break_14(rng, ds):
    got = promised(rng, ds)
    if got and (got[1].arguments or got[3].arguments):
        a = rng.choice(got[1].arguments + got[3].arguments)
        a.type = rng.choice([a.type[:-1] if a.type.endswith('!') else a.type + '!', wrapped(rng, base_of(a.type)),
                             with_base(a.type, rng.choice(BUILT_IN))])


def break_15(rng, ds):
    got = promised(rng, ds)
    if got:
        own = got[1]
        own.arguments.insert(rng.randrange(len(own.arguments) + 1), Member('extra', rng.choice(['Int!', '[Int]!', '[Int!]', 'Int'])))


def break_16(rng, ds):
    some = kind_of(ds, ROOTS)
    if not some:
        if rng.randrange(2):
            ds.append(roots('Query', rng.choice([None, 'Nope', 'Int'] + names_of(ds, *range(SCALAR, INPUT + 1)))))
        else:
            for d in ds:
                if d.name == 'Query':
                    d.name = rng.choice(['Quer', 'query', 'Queryx'])
    else:
        rng.choice([r for r in some[0].members if r]).name = rng.choice(['Nope', 'Int'] + names_of(ds, INTERFACE, UNION, ENUM, INPUT, DIRECTIVE))


BREAKS = [break_1, break_2, break_3, break_4, break_5, break_6, break_7, break_8, break_9, break_10, break_11, break_12, break_13,
          break_14, break_15, break_16]


# ---- framing

def tree(some, tags):
    """The fields of right bytes, as lists: tag, then content or the list of fields held."""
    found, at = [], 0
    while at + 3 <= len(some):
        past = at + 3 + some[at + 1] * 256 + some[at + 2]
        tag, content = some[at], some[at + 3:past]
        found.append([tag, tree(content, tags) if tag in tags else content])
        at = past
    return found


def tree_bytes(fields):
    return b''.join(piece(tag, tree_bytes(content) if isinstance(content, list) else content) for tag, content in fields)


def lists_in(fields):
    return [fields] + [found for _, content in fields if isinstance(content, list) for found in lists_in(content)]


TEXTS = [b'', b'1', b'a ', b' a', b'a!', b'a!!', b'[a', b'a]', b'[a]]', b'[]', b'[a]!', b'[[a]', b'a-b', b'a\x00', b'\xc3\xa9', b'[a!]!!', b'9a',
         b'a,b', b'#', b'[a ]', b'!', b'_', b'[[[[[[[[a]]]]]]]]', b'[[[[a!]!]!]!]', b'a\n']
TAGS = [0, 1, 2, 3, 4, 5, 6, 7, 8, 9, 15, 16, 17, 18, 19, 20, 21, 22, 23, 24, 25, 26, 32, 255]


def reframe(rng, fields):
    """One change among the fields, all lengths kept right."""
    some = rng.choice([s for s in lists_in(fields) if s] or [fields])
    if not some:
        return
    i = rng.randrange(len(some))
    way = rng.randrange(7)
    if way == 0:
        del some[i]
    elif way == 1:
        some.insert(rng.randrange(len(some) + 1), copy.deepcopy(some[i]))
    elif way == 2:
        k = rng.randrange(len(some))
        some[i], some[k] = some[k], some[i]
    elif way == 3:
        some[i][0] = rng.choice(TAGS)
    elif way == 4:
        other = rng.choice([s for s in lists_in(fields) if s])
        some.insert(rng.randrange(len(some) + 1), copy.deepcopy(rng.choice(other)))
    elif way == 5 and not isinstance(some[i][1], list):
        some[i][1] = rng.choice(TEXTS)
    else:
        some.insert(i, [rng.choice(TAGS), rng.choice(TEXTS)])


def rebyte(rng, some):
    """One change among the bytes, whatever it does to lengths."""
    some = bytearray(some)
    at, way = rng.randrange(len(some) + 1), rng.randrange(6)
    if way == 0 or not some:
        some[at:at] = bytes([rng.choice(TAGS + [ord('['), ord('!'), ord('a'), 128])])
    elif way == 1:
        del some[at:at + rng.choice([1, 1, 1, 3, 7])]
    elif way == 2 and at < len(some):
        some[at] = (some[at] + rng.choice([1, 255, 128, 16])) & 255
    elif way == 3 and at < len(some):
        some[at] = rng.choice(TAGS)
    elif way == 4:
        del some[at:]
    else:
        some += bytes(rng.choice(TAGS) for _ in range(rng.randrange(1, 5)))
    return bytes(some)


# ---- counts at and over their sizes

def counted(count):
    return [f'n{i}' for i in range(count)]


def ints(count, type='Int'):
    return [Member(n, type) for n in counted(count)]


REFERENCES = ['[[[[[[[Int]]]]]]]', '[[[Int!]!]!]!', '[[[[[[[Int]]]]]]]!', '[[[[[[[[Int]]]]]]]]', '[[[[Int!]!]!]!]', '[[[[Int!]!]!]!]!', '[' * 40 + 'Int' + ']' * 40]


def count_tables():
    query = object_type('Query', [Member('a', 'Int')])
    for n in (255, 256, 257, 300):
        yield [query] + [scalar(x) for x in counted(n - 1)]
        yield [scalar(x) for x in counted(n - 1)] + [query]
        yield [scalar(x) for x in counted(n - 2)] + [roots('Query'), query]
    for n in (63, 64, 65, 66):
        yield [object_type('Query', ints(n))]
        yield [query, interface('I', ints(n))]
        yield [query, union('U', counted(n))] + [object_type(x, [Member('a', 'Int')]) for x in counted(n)]
        yield [query, enum('E', counted(n))]
        yield [query, input_object('J', ints(n))]
        yield [query, directive('d', ints(n))]
        yield [object_type('Query', [Member('a', 'Int')], counted(n))] + [interface(x, [Member('a', 'Int')]) for x in counted(n)]
        yield [object_type('Query', ints(n), counted(n))] + [interface(x, ints(1)) for x in counted(n)]
        yield [enum('E', counted(n)), query] + [scalar(x) for x in counted(255)]
    for n in (15, 16, 17, 40):
        yield [object_type('Query', [Member('a', 'Int', ints(n))])]
        yield [query, interface('I', [Member('b', 'Int'), Member('a', 'Int', ints(n))])]
        yield [query, directive('d', ints(n)), input_object('J', ints(n))]
        yield [object_type('Query', [Member('a', 'Int', ints(n)), Member('b', REFERENCES[3])])]
    for text in REFERENCES:
        yield [object_type('Query', [Member('a', text)])]
        yield [object_type('Query', [Member('a', 'Int', [Member('b', text)])])]
        yield [query, input_object('J', [Member('a', 'Int'), Member('b', text)])]
        yield [query, directive('d', [Member('a', text)])]
        yield [query, interface('I', [Member('a', 'Nope'), Member('b', text), Member('c', text)])]


def size_tables():
    """Every count at its size, one over and beyond, with what tells the orders of refusals apart."""
    for definitions in count_tables():
        made = table(definitions)
        yield made
        yield made + b'\x01'                                                # wrong behind what is over
        yield made + table([scalar('Int')])
        yield table([enum('E', ['A', 'A']), scalar('__')]) + made
        yield piece(SCALAR, piece(NAME, '?')) + made
    query = table([object_type('Query', [Member('a', 'Int')])])
    for length in (MOST_TABLE - 1, MOST_TABLE, MOST_TABLE + 1, MOST_TABLE + 700, 65536, 70000):
        rest = length - len(query)
        for name in ('a', '_', '9'):
            long = b''
            while rest - len(long) > 20006:
                long += table([scalar(name * 10000 + str(len(long)))])
            yield query + long + table([scalar(name * (rest - len(long) - 6))])
        yield bytes(length)
    yield bytes([SCALAR, 128, 0]) + bytes(32765)
    yield bytes([SCALAR, 127, 253, NAME, 127, 250]) + b'a' * 32762
    nest = b''
    while len(nest) < 32760:
        nest = bytes([OBJECT, len(nest) >> 8, len(nest) & 255]) + nest
    yield nest
    yield query + table([object_type('O', [Member('a', '[' * 16000 + 'A' + ']' * 16000)])])[:MOST_TABLE - len(query)]
    yield b''


# ---- cases

def random_case(rng):
    """One table; most are small."""
    way = rng.randrange(20)
    definitions = valid(rng, rng.choice([0, 1, 1, 1, 1, 2, 3] + [5] * (way == 0)))
    if way < 3:
        return table(definitions)
    if way < 12:
        for _ in range(rng.choice([1, 1, 1, 1, 2, 3])):
            try:
                rng.choice(BREAKS)(rng, definitions)
            except IndexError:
                pass                                    # nothing left of the kind that it changes
        return table(definitions)
    if way < 16:
        fields = tree(table(definitions), HELD)
        for _ in range(rng.choice([1, 1, 1, 2])):
            reframe(rng, fields)
        return tree_bytes(fields)
    made = table(definitions)
    for _ in range(rng.choice([1, 1, 1, 2, 4])):
        made = rebyte(rng, made)
    return made


def random_cases(seed, count):
    rng = random.Random(seed)
    for _ in range(count):
        yield random_case(rng)


def check(count):
    rng = random.Random(2016)
    seen, refused = Counter(), 0
    for _ in range(count // 10):
        made = table(valid(rng, rng.randrange(5)))
        if judge(made)[0] != 0:
            refused += 1
            print('tables: a table that should break nothing:', line_of(made, judge(made)), file=sys.stderr)
    for made in size_tables():
        said = judge(made)
        seen[said[0], said[2] if said[0] == 9 else 0] += 1
    for made in random_cases(2017, count):
        said = judge(made)
        seen[said[0], said[2] if said[0] == 9 else 0] += 1
    due = [(n, 0) for n in (0, 2, 7, 8)] + [(9, rule) for rule in range(1, 17)]
    print('tables:', ', '.join(f'{n}{f" rule {rule}" if rule else ""}: {seen[n, rule]}' for n, rule in due))
    return 1 if refused or not all(seen[d] for d in due) else 0


def main(words):
    if words[:1] == ['text'] and len(words) == 2:
        text = sys.stdin.read() if words[1] == '-' else words[1]
        sys.stdout.buffer.write(table(written(text)))
        return 0
    if words[:1] == ['cases'] and len(words) == 3:
        for made in random_cases(int(words[1]), int(words[2])):
            print(line_of(made, judge(made)))
        return 0
    if words == ['sizes']:
        for made in size_tables():
            print(line_of(made, judge(made)))
        return 0
    if words[:1] == ['check'] and len(words) <= 2:
        return check(int(words[1]) if len(words) == 2 else 2000)
    print(__doc__, file=sys.stderr)
    return 2


if __name__ == '__main__':
    sys.exit(main(sys.argv[1:]))

#!/usr/bin/env python3
"""The bench's type tables: realistic ones of several lengths, and the worst that the sizes allow.

  bench/tables.py DIRECTORY    writes them there, NAME.table, and says what is in each

Every one is accepted by tests/table_reader.py, or it is not written and the program fails.
"""
import itertools
import pathlib
import sys

ROOT = pathlib.Path(__file__).resolve().parent.parent
sys.path.insert(0, str(ROOT / 'tests'))

from names import LETTERS, alike, anagrams, one_bucket, short_names  # noqa: E402
from table_reader import INTERFACE, OBJECT, judge  # noqa: E402
from tables import (MOST_TABLE, Member, directive, enum, input_object, interface, object_type, roots, scalar, table,  # noqa: E402
                    union, written)

MOST_RECORDS, MOST_MEMBERS, MOST_IMPLEMENTED, MOST_ARGUMENTS = 256, 64, 64, 16

# ---- a realistic table: a works' machines, orders and people

BASE = '''
scalar Time scalar Url scalar Money
interface Node { id: ID! }
interface Dated { createdAt: Time! updatedAt: Time }
interface Named { name: String! label(language: Language, short: Boolean): String }
enum Language { EN DE ZH FR } enum Order { RISING FALLING }
type PageInfo { hasNextPage: Boolean! hasPreviousPage: Boolean! startCursor: String endCursor: String }
input Range { from: Time to: Time }
directive @cached(seconds: Int!) on FIELD directive @needs(role: String) on FIELD
'''

THINGS = ['Machine', 'PressureSensor', 'CirculationPump', 'SafetyValve', 'ServoMotor', 'ConveyorBelt', 'SteamBoiler', 'CustomerAccount',
          'Invoice', 'OutboundShipment', 'Warehouse', 'MaterialSupplier', 'Employee', 'ProductionShift', 'AlarmMessage', 'ProcessRecipe',
          'MaterialBatch', 'QualityInspection', 'Certificate', 'ServiceContract', 'TransportVehicle', 'MaintenancePlan']

MODULE = '''
type {T} implements Node Dated Named {{ id: ID! createdAt: Time! updatedAt: Time! name: String!
  label(language: Language, short: Boolean, most: Int): String! state: {T}State! owner: {B}
  parts(first: Int, after: String, order: Order): {T}Connection! listPrice(currency: String!): Money picture(width: Int!, height: Int): Url
  related: [{R}!] annotations: [String!]! grossWeight: Float quantity: Int measurements(range: Range!, limit: Int): [Float!]!
  responsible: {B} changesSince(time: Time!, states: [{T}State!]): [{T}!] description(language: Language): String }}
type {T}Connection {{ edges: [{T}Edge] pageInfo: PageInfo! totalCount: Int! }}
type {T}Edge {{ node: {T} cursor: String! }}
enum {T}State {{ PLANNED ACTIVE WAITING BROKEN RETIRED }}
input {T}Input {{ name: String! state: {T}State listPrice: Money grossWeight: Float quantity: Int range: Range annotations: [String!] }}
'''


def module(i):
    thing, before = THINGS[i], THINGS[i - 1] if i else 'Machine'
    found = written(MODULE.format(T=thing, B=before, R=f'Result{i // 4}' if i % 4 == 0 else before))
    if i % 4 == 0:
        found.append(union(f'Result{i // 4}', THINGS[max(0, i - 3):i + 1]))
        found.append(interface(f'Group{i // 4}', [Member('id', 'ID!'), Member('name', 'String!')]))
    found[0].implemented.append(f'Group{i // 4}')
    return found


def top(count):
    """The roots' types and record 8."""
    things = THINGS[:count]
    query = [Member('node', 'Node', [Member('id', 'ID!')])]
    for t in things:
        query.append(Member(t.lower(), t, [Member('id', 'ID!')]))
        query.append(Member(t.lower() + 's', f'{t}Connection!', [Member('first', 'Int'), Member('after', 'String'), Member('order', 'Order')]))
    mutation = [Member('change' + t, t + '!', [Member('id', 'ID!'), Member('input', t + 'Input!')]) for t in things]
    return [object_type('Query', query), object_type('Mutation', mutation), roots('Query', 'Mutation')]


def realistic(most):
    """As many modules as go into so many bytes, then settings up to it."""
    count = 1
    definitions = []
    while True:
        made = written(BASE) + [d for i in range(count) for d in module(i)] + top(count)
        if len(table(made)) > most:
            break
        definitions, count = made, count + 1
        if count > len(THINGS):
            break
    names = (f'setting{i}' for i in itertools.count())
    for part in itertools.count():
        settings = object_type(f'Settings{part}', [Member('value', 'String')])
        definitions.append(settings)
        for name in itertools.islice(names, MOST_MEMBERS - 1):
            settings.members.append(Member(name, '[String!]'))
            if len(table(definitions)) > most:
                settings.members.pop()
                return definitions


# ---- the worst ones

QUERY = object_type('Query', [Member('a', 'Int')])


def crowded_unions(prefix=''):
    """Unions of 64 objects that stand last among 256 names of one bucket."""
    names = one_bucket(MOST_RECORDS - 1, prefix)
    objects = [object_type(n, [Member('a', 'Int')]) for n in names[-MOST_MEMBERS:]]

    def make(n):
        unions = [union(u, [o.name for o in objects]) for u in names[:n]]
        return [scalar(s) for s in names[n:-MOST_MEMBERS]] + unions + objects + [roots(names[-1])]
    return largest(make, MOST_RECORDS - 1 - MOST_MEMBERS)


def crowded_interfaces():
    """Objects that implement 64 interfaces which stand last among 256 names of one bucket."""
    names = one_bucket(MOST_RECORDS - 1)
    last = [interface(n, [Member('a', 'Int')]) for n in names[-MOST_IMPLEMENTED:]]

    def make(n):
        objects = [object_type(o, [Member('a', 'Int')], [i.name for i in last]) for o in names[:n]]
        return [scalar(s) for s in names[n:-MOST_IMPLEMENTED]] + objects + last + [roots(names[0])]
    return largest(make, MOST_RECORDS - 1 - MOST_IMPLEMENTED)


def crowded_references():
    """Input fields whose types stand last among 256 names of one bucket."""
    names = one_bucket(MOST_RECORDS - 2)
    fields = [Member(f, names[-1 - i % 8]) for i, f in enumerate(short_names(MOST_MEMBERS))]
    return largest(lambda n: [QUERY] + [input_object(t, fields) for t in names[:n]] + [scalar(s) for s in names[n:]], 200)


def records(names, fields):
    """As many records as may be, each of whose fields names another one, far from it."""
    n = len(names)
    made = [object_type(name, [Member(f, names[(k * 89 + i * 53 + 128) % n]) for i, f in enumerate(short_names(fields))])
            for k, name in enumerate(names)]
    return made + [roots(names[-1])]


def promises(objects, interfaces, fields, arguments=0, length=0, crowded=False, own=None, promised=None, extra=(), wrap=('', '')):
    """Objects that implement each interface; the members stand in the opposite order in the two, so that one is found late."""
    names = (one_bucket if crowded else short_names)(interfaces + objects)
    many, some = names[:interfaces], names[interfaces:]
    field_names = alike(fields, length) if length else one_bucket(fields) if crowded else short_names(fields)
    argument_names = alike(arguments, length) if length else short_names(arguments)

    def held(type, back):
        given = [Member(a, 'Int!') for a in argument_names]
        found = [Member(f, wrap[0] + type + wrap[1], given[::-1] if back else given) for f in field_names]
        return found[::-1] if back else found
    own, promised = own or 'Int', promised or 'Int'
    made = [object_type(o, held(own.replace('SELF', o), True), many) for o in some]
    made += [interface(i, held(promised.replace('LAST', many[-1]), False)) for i in many]
    return made + list(extra) + [roots(some[-1])]


def some_unions():
    names = short_names(52)
    objects = [object_type(n, [Member('a', 'Int')]) for n in names] + [object_type(n + 'x', [Member('a', 'Int')]) for n in names[:12]]
    return objects, [o.name for o in objects]


def largest(make, most=MOST_MEMBERS):
    """The table made for the largest number for which it is within its length."""
    low, high = 1, most
    while low < high:
        n = (low + high + 1) // 2
        low, high = (n, high) if len(table(make(n))) <= MOST_TABLE else (low, n - 1)
    return make(low)


def union_of_64():
    """A union of 64 members, the type of the objects' fields last."""
    names = [f'u{i:02}' for i in range(MOST_MEMBERS)]
    return [object_type(n, [Member('a', 'Int')]) for n in names] + [union('u_', names)], names[-1]


def worst():
    """Name, what it is, definitions."""
    yield 'w_records', '255 objects of one name length, the same letters in all names, six references each', records(anagrams(255), 6)
    yield 'w_prefix', 'one prefix of 60 bytes in all type names', largest(lambda n: records(alike(n, 62), 2), 255)
    yield 'w_prefix_members', '64 fields each, one prefix of 24 bytes in all their names', largest(
        lambda n: [QUERY] + [object_type(t, [Member(f, t) for f in alike(64, 26)]) for t in short_names(n)])
    yield 'w_values', '64 values each of one length', largest(
        lambda n: [QUERY] + [enum(e, alike(64, 2, LETTERS)) for e in short_names(n)], 255)
    yield 'w_values_long', '64 values each, one prefix of 28 bytes', largest(
        lambda n: [QUERY] + [enum(e, alike(64, 30)) for e in short_names(n)], 255)
    yield 'w_references', '64 input fields each, every one naming another record', largest(
        lambda n: [QUERY] + [input_object(t, [Member(f, short_names(n)[(k * 7 + i) % n]) for i, f in enumerate(short_names(64))])
                             for k, t in enumerate(short_names(n))], 200)
    objects, names = some_unions()
    yield 'w_unions', '64 members each', largest(lambda n: [QUERY] + objects + [union(f'u{i}', names) for i in range(n)], 190)
    yield 'w_implemented', 'objects with 64 implemented names each, of one field', largest(lambda n: promises(n, 64, 1), 190)
    yield 'w_fields', '18 objects and 18 interfaces of 64 fields', largest(lambda n: promises(18, 18, n))
    yield 'w_fields_long', 'the same with one prefix in all field names', largest(lambda n: promises(13, 13, n, length=16))
    yield 'w_fields_bucket', 'the same with field names of one bucket', largest(lambda n: promises(17, 17, n, crowded=True))
    yield 'w_promises', '64 objects and 64 interfaces of some fields', largest(lambda n: promises(64, 64, n))
    yield 'w_arguments', 'objects and interfaces of one field with 16 arguments', largest(lambda n: promises(n, n, 1, 16))
    yield 'w_arguments_long', 'the same with one prefix in all their names', largest(lambda n: promises(n, n, 1, 16, length=16))
    yield 'w_sub_interface', '64 implemented names looked through for each sub-type', largest(
        lambda n: promises(56, 64, n, own='SELF', promised='LAST'))
    extra, last = union_of_64()
    yield 'w_sub_union', '64 union members looked through for each sub-type', largest(
        lambda n: promises(30, 60, n, own=last, promised='u_', extra=extra))
    yield 'w_deep', 'seven wrappers on each promised field', largest(
        lambda n: promises(40, 56, n, own='SELF', promised='LAST', wrap=('[[[[[[[', ']]]]]]]')))
    yield 'w_deep_marks', 'seven wrappers on each field of 64', largest(
        lambda n: [QUERY] + [object_type(t, [Member(f, f'[[[[{t}!]!]!]]') for f in short_names(64)]) for t in short_names(n)])
    yield 'w_directives', 'directives of 64 arguments', largest(
        lambda n: [QUERY, scalar('S')] + [directive(d, [Member(a, '[S!]') for a in short_names(64)]) for d in short_names(n)], 200)


    yield 'w_bucket_unions', 'names of one bucket, 64 members each', crowded_unions()
    yield 'w_bucket_unions_long', 'as w_bucket_unions, with one prefix of 12 bytes', crowded_unions('N' * 12)
    yield 'w_bucket_interfaces', 'names of one bucket, 64 implemented names each', crowded_interfaces()
    yield 'w_bucket_sub_interface', 'as w_sub_interface, type and field names of one bucket each', largest(
        lambda n: promises(30, 64, n, crowded=True, own='SELF', promised='LAST'))
    yield 'w_bucket_references', 'names of one bucket, 64 input fields each', crowded_references()


def all_tables():
    for most in (2048, 4096, 8192, 16384, MOST_TABLE):
        yield f'r_{most // 1024}k', 'realistic', realistic(most)
    yield from worst()


def main(words):
    if len(words) != 1:
        print(__doc__, file=sys.stderr)
        return 2
    room = pathlib.Path(words[0])
    room.mkdir(parents=True, exist_ok=True)
    refused = 0
    print(f'{"table":18} {"bytes":>6} {"records":>7} {"types":>5} {"members":>7} {"fields":>6} {"arguments":>9} {"promised":>8}  what')
    for name, what, definitions in all_tables():
        made = table(definitions)
        said = judge(made)
        if said[0]:
            print(f'{name}: not accepted: {said}', file=sys.stderr)
            refused = 1
            continue
        (room / f'{name}.table').write_bytes(made)
        members = sum(len(d.members) for d in definitions)
        arguments = sum(len(m.arguments) for d in definitions for m in d.members if m)
        size = {d.name: len(d.members) for d in definitions if d.kind == INTERFACE}
        promised = sum(size[n] for d in definitions if d.kind == OBJECT for n in d.implemented)
        types = sum(d.kind <= 6 for d in definitions)
        fields = sum(len(d.members) for d in definitions if d.kind in (OBJECT, INTERFACE))
        print(f'{name:18} {len(made):6} {len(definitions):7} {types:5} {members:7} {fields:6} {arguments:9} {promised:8}  {what}')
    return refused


if __name__ == '__main__':
    sys.exit(main(sys.argv[1:]))

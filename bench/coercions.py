#!/usr/bin/env python3
"""The bench's calls that coerce: ordinary ones, large ones of each shape, and the slowest that the sizes allow, as far as we found them.

  bench/coercions.py DIRECTORY    writes them there, NAME.table, NAME.graphql and NAME.variables, and says what is in each; in
                                  DIRECTORY/calls stand table, document, variables text and row (- for the variables' call), on a line
                                  each; in DIRECTORY/cases the same as tests/coerce_reader.py answers them, as tests/harness_coerce reads them

tests/coerce_reader.py must answer what is named here; else the program fails. A variables text leaves room for `{a(x:` and `)}` around it,
so that gw_parse can read it as an argument (but for the deepest).
"""
import pathlib
import sys

ROOT = pathlib.Path(__file__).resolve().parent.parent
sys.path.insert(0, str(ROOT / 'tests'))

from check_reader import check  # noqa: E402
from coerce_reader import coerce, line_of  # noqa: E402
from documents import MOST_ARGUMENTS, MOST_MEMBERS, MOST_RECORDS, MOST_VARIABLES, dag  # noqa: E402
from names import LETTERS, alike, one_bucket, short_names  # noqa: E402
from reader import MOST_LEVELS, MOST_ROWS, MOST_TEXT  # noqa: E402
from tables import Member, enum, input_object, object_type, scalar, table  # noqa: E402

AROUND = 8                        # bytes of a document around a variables text
MOST_BYTES = MOST_TEXT - AROUND
ESCAPES = '\\u00e9'


def query(*arguments):
    """A table's only object, with a field that has these arguments, name and type in turn."""
    return object_type('Query', [Member('a', 'Int'), Member('f', 'Int', [Member(n, t) for n, t in zip(arguments[::2], arguments[1::2])])])


def filled(opening, piece, closing, most=MOST_BYTES, count=MOST_ROWS):
    """As many pieces as there is room for."""
    return opening + piece * min(count, (most - len(opening) - len(closing)) // len(piece)) + closing


# ---- ordinary ones

ORDER = ['id: ID!', 'count: Int!', 'price: Float', 'state: State', 'note: String', 'at: Time', 'urgent: Boolean', 'tags: [String!]']
TYPES = ['ID!', 'Int', 'Float', 'String', 'Boolean', 'State', 'Time', '[Int!]', '[String]', 'Order']


def ordinary():
    """10 variables, one an input object of 8 fields: 1 KB."""
    members = [Member(*field.split(': ')) for field in ORDER]
    made = [scalar('Time'), enum('State', ['NEW', 'OPEN', 'CLOSED']), input_object('Order', members),
            query(*[word for i, t in enumerate(TYPES) for word in (f'arg{i}', t)])]
    defined = ', '.join(f'$value{i}: {t}' for i, t in enumerate(TYPES))
    document = f'query Place({defined}) {{ f({", ".join(f"arg{i}: $value{i}" for i in range(len(TYPES)))}) }}'
    text = f'''{{
  value0: "machine-4711", value1: 2147483647, value2: 12.5, value3: "{'a line of some words, ' * 12}",
  value4: true, value5: OPEN, value6: "2016-10-31T06:00:00Z", value7: [{', '.join(str(n * 7919) for n in range(30))}],
  value8: ["red", "green", null, "caf\\u00e9", "{'x' * 120}"],
  value9: {{ id: 4711, count: 12, price: 99, state: NEW, note: "{'careful with it; ' * 8}", at: "06:00", urgent: false, tags: ["a", "b", "c"] }}
}}'''
    return made, document, text, 1 + 2 * len(TYPES)


# ---- large ones, each a variable

def one(type, text, *definitions, uses=1):
    """One variable of a type, given by this text, and a field that takes it as often as is said, in a list where it is more than once."""
    made = [*definitions, query('x', type) if uses == 1 else query('y', f'[{type}]')]
    used = 'f(x: $v)' if uses == 1 else f'f(y: [{"$v " * uses}])'
    return made, f'query($v: {type}) {{ {used} }}', text, 3


def integers(most):
    return one('[Int]', filled('{v: [', '12345678 ', ']}', most))


def booleans():
    return one('[Boolean]', filled('{v: [', 'true    ', ']}', count=2040))


def nested(length):
    """Objects in objects, in a list: each with an entry of each kind."""
    inner = input_object('In', [Member('inside', '[In]'), Member('count', 'Int!'), Member('name', 'String')])
    value = ('{ count: 1, inside: { count: 22, name: "a name of a good many bytes, as people write them into forms", '
             'inside: { name: "", count: 333, inside: { count: 4444 } } } },\n')
    return one('[In]', filled('{v: [', value, ']}', length), inner)


def string(escape, count=MOST_TEXT):
    return one('String', filled('{v: "', escape, '"}', count=count))


def many_variables(length):
    names = alike(MOST_VARIABLES, length)
    made = [query('x', 'Int')]
    text = '{' + ' '.join(f'{n}: 1' for n in reversed(names)) + '}'
    return made, f'query({" ".join(f"${n}: Int" for n in names)}) {{ f(x: ${names[-1]}) }}', text, 1 + 2 * MOST_VARIABLES


# ---- the worst

def wide(length, type='Int'):
    """An input object of 64 members with names of one length."""
    return input_object('In', [Member(n, type) for n in alike(MOST_MEMBERS, length)])


def unknown_variables(length):
    """Variables that no definition has."""
    count = min(1000, (MOST_BYTES - 2) // (length + 3))
    text = '{' + ' '.join(f'{n}:1' for n in alike(count, length, LETTERS)) + '}'
    return [query('x', 'Int')], 'query($v: Int) { f(x: $v) }', text, 3


def unknown_entries(length):
    """An object of entries that its type does not have: looked at for repeats first."""
    count = min(1000, (MOST_BYTES - 8) // (length + 3))
    return one('In', '{v: {' + ' '.join(f'{n}:1' for n in alike(count, length, LETTERS)) + '}}', wide(8))


def repeated_last(length):
    """As unknown_entries, and the last one is a repeat of the first."""
    count = min(1000, (MOST_BYTES - 8) // (length + 3) - 1)
    names = alike(count, length, LETTERS)
    return one('In', '{v: {' + ' '.join(f'{n}:1' for n in names + names[:1]) + '}}', wide(8))


def empty_objects():
    return one('[In]', filled('{v: [', '{} ', ']}', count=2040), wide(8))


def empty_required():
    """Objects with the last of 64 members, which is required."""
    names = alike(MOST_MEMBERS, 8)
    members = [Member(n, 'Int') for n in names[:-1]] + [Member(names[-1], 'Int!')]
    return one('[In]', filled('{v: [', f'{{{names[-1]}:1}} ', ']}', count=680), input_object('In', members))


def full_objects(length):
    """Objects of 64 entries, in the order opposite to their definitions."""
    entries = ' '.join(f'{n}:1' for n in reversed(alike(MOST_MEMBERS, length)))
    return one('[In]', filled('{v: [', '{' + entries + '} ', ']}', count=2040 // (2 * MOST_MEMBERS + 1)), wide(length))


def nested_full():
    """Objects in objects, each with 64 entries of which the last holds the next."""
    names = alike(MOST_MEMBERS, 7)
    made = input_object('In', [Member(n, 'Int') for n in names[:-1]] + [Member(names[-1], 'In')])
    entries = ' '.join(f'{n}:1' for n in names[:-1])
    depth = 15
    return one('In', '{v: ' + f'{{{entries} {names[-1]}:' * depth + '{}' + '}' * depth + '}', made)


def nested_crowded():
    """Objects in objects, their type's name the last of a bucket and the entry's name the last of 64."""
    types, names = one_bucket(MOST_RECORDS - 2), alike(MOST_MEMBERS, 8)
    members = [Member(n, 'Int') for n in names[:-1]] + [Member(names[-1], types[-1])]
    value = f'{{{names[-1]}:' * 25 + '{}' + '}' * 25 + ' '
    return one(f'[{types[-1]}]', filled('{v: [', value, ']}', count=2040 // 51), *[scalar(t) for t in types[:-1]], input_object(types[-1], members))


def enums(length):
    names = alike(MOST_MEMBERS, length)
    return one('[E]', filled('{v: [', names[-1] + ' ', ']}', count=2040), enum('E', names))


def lists():
    """Each a list of one at six depths more."""
    return one('[[[[[[[Int]]]]]]]', filled('{v: [', '1 ', ']}', count=2040))


def deep_lists():
    return one('[[[[[[[Int]]]]]]]', filled('{v: [', '[[[[[[1]]]]]] ', ']}', count=2040 // 7))


def uses(type, text, *definitions, count=1000):
    return one(type, text, *definitions, uses=count)


def defaults(count):
    """64 variables with a default object each, every one used."""
    names = short_names(MOST_VARIABLES)
    inner = input_object('In', [Member(n, 'Int') for n in 'abcdefgh'])
    value = '{' + ' '.join(f'{n}:1' for n in 'abcdefgh'[:count]) + '}'
    made = [inner, query('y', '[In]')]
    document = f'query({" ".join(f"${n}: In = {value}" for n in names)}) {{ f(y: [{" ".join("$" + n for n in names)}]) }}'
    return made, document, '{}', 1 + (2 + 1 + 2 * count) * MOST_VARIABLES


def default_uses(default, type, *definitions, count=1000):
    """One variable with a default, of which the rows are told, used often."""
    text, rows = default
    made, document, _, _ = uses(type, '', *definitions, count=count)
    return made, document.replace(f'$v: {type}', f'$v: {type} = {text}'), '{}', 3 + rows


def last_of_64(length, count=800):
    """Uses of the last of 64 variables, with names of one length."""
    names = alike(MOST_VARIABLES, length)
    count = min(count, (MOST_TEXT - 600 - (length + 7) * MOST_VARIABLES) // (length + 2))
    made = [query('y', '[Int]')]
    document = f'query({" ".join(f"${n}: Int" for n in names)}) {{ f(y: [{" ".join(["$" + names[-1]] * count)}]) }}'
    return made, document, f'{{{names[-1]}: 1}}', 1 + 2 * MOST_VARIABLES


def absent_of_64(length):
    made, document, _, row = last_of_64(length)
    return made, document, '{zz: 1}', row


def literal(type, text, *definitions):
    """A value in the document itself."""
    return [*definitions, query('x', type)], f'{{ f(x: {text}) }}', '{}', 1


def literal_entries(length):
    count = min(1000, (MOST_TEXT - 20) // (length + 3))
    return literal('In', '{' + ' '.join(f'{n}:1' for n in alike(count, length, LETTERS)) + '}', wide(8))


def deepest():
    """Objects in objects as deep as both texts can be, each of them lists of one at seven depths, and a string in the innermost."""
    type = '[[[[[[[In]]]]]]]'
    inside = MOST_LEVELS - 2      # in braces and parentheses
    made = [input_object('In', [Member('i', type), Member('s', 'String')]), query('x', type)]
    document = f'query($v: {type}) {{ f(x: {"{i: " * inside}$v{"}" * inside}) }}'
    return made, document, '{v: ' + '{i: ' * (MOST_LEVELS - 2) + f'{{s: "{ESCAPES}"}}' + '}' * (MOST_LEVELS - 2) + '}', 3


def reaching():
    """A field of the last of 64 fragments, each of which spreads 44 of those behind it."""
    fragments, names = dag(44, 'f(x: $v)')
    made = [query('x', 'I'), scalar('I')]
    document = f'query($v: I) {{ ...{names[0]} }} ' + ' '.join(fragments)
    return made, document, '{v: 1}', None


def arguments(length):
    """All 16 arguments of a field, in the order opposite to their definitions, objects of many entries."""
    names = alike(MOST_ARGUMENTS, length)
    entries = ' '.join(f'{n}:1' for n in reversed(alike(MOST_MEMBERS, 5)))
    made = [wide(5), query(*[word for n in names for word in (n, 'In')])]
    return made, '{ f(' + ' '.join(f'{n}: {{{entries}}}' for n in reversed(names[:15])) + ') }', '{}', 1


LIST_1K = '{v: [' + '7 ' * 1000 + ']}'
OBJECT_1K = '{v: [' + '{a: 1} ' * 500 + ']}'
SMALL_IN = input_object('In', [Member('a', 'Int')])


def calls():
    """Name, answer, what it is, then table, document, variables text and the field's row. Each is called for variables and for arguments."""
    yield 'c_ordinary', 0, '10 variables, an input object of 8 fields, 1 KB', *ordinary()
    yield 'c_list_2k', 0, 'one list of integers', *integers(2048)
    yield 'c_list_4k', 0, 'one list of integers', *integers(4096)
    yield 'c_list_8k', 0, 'one list of integers', *integers(8192)
    yield 'c_list_16k', 16, '16 KB as one list of integers, whose value is over 8,192 bytes', *integers(MOST_BYTES)
    yield 'c_booleans_16k', 0, '16 KB as one list of booleans', *booleans()
    yield 'c_objects_4k', 0, '4 KB as nested objects', *nested(4096)
    yield 'c_objects_16k', 16, '16 KB as nested objects', *nested(MOST_BYTES)
    yield 'c_string_16k', 0, '16 KB as one string with escapes', *string(ESCAPES)
    yield 'c_string_plain', 0, 'one string without escapes', *string('a', 8100)
    yield 'c_variables_64', 0, '64 variables', *many_variables(7)
    yield 'c_uses_1000', 16, '1,000 uses of a variable that holds a list of 1,000', *uses('[Int]', LIST_1K)
    yield 'c_uses_short', 0, '1,000 uses of a variable that holds a list of none', *uses('[Int]', '{v: []}')
    yield 'w_unknown_variables', 0, '1,000 variables that the operation does not define', *unknown_variables(8)
    yield 'w_unknown_variables_long', 0, 'the same with one prefix in all names', *unknown_variables(40)
    yield 'w_unknown_entries', 11, 'an object of 1,000 entries, all unknown', *unknown_entries(8)
    yield 'w_unknown_entries_long', 11, 'the same with one prefix in all names', *unknown_entries(40)
    yield 'w_repeated', 11, 'an object of 1,000 entries, the last one a repeat', *repeated_last(8)
    yield 'w_empty_objects', 0, '2,040 empty objects of 64 members', *empty_objects()
    yield 'w_last_member', 16, '680 objects with the last of 64 members, which is required', *empty_required()
    yield 'w_full_objects', 16, 'objects of 64 entries in opposite order', *full_objects(7)
    yield 'w_full_objects_long', 16, 'the same with names of 30 bytes', *full_objects(30)
    yield 'w_nested_full', 16, 'objects of 64 entries, one in the other', *nested_full()
    yield 'w_nested_bucket', 16, 'objects in objects, type and member hard to find', *nested_crowded()
    yield 'w_enums', 16, 'enum values, the last of 64', *enums(3)
    yield 'w_enums_long', 16, 'the same with names of 30 bytes', *enums(30)
    yield 'w_lists', 16, 'integers as lists of one at six depths', *lists()
    yield 'w_lists_deep', 0, 'lists in lists', *deep_lists()
    yield 'w_uses_objects', 16, '1,000 uses of a variable that holds 500 objects', *uses('[In]', OBJECT_1K, SMALL_IN)
    yield 'w_uses_string', 16, '1,000 uses of a string of 16 KB with escapes', *uses('String', filled('{v: "', ESCAPES, '"}', count=MOST_TEXT))
    yield 'w_uses_wide', 16, '1,000 uses of an object of 64 members', *uses('In', '{v: {' + ' '.join(f'{n}:1' for n in alike(64, 6)) + '}}', wide(6))
    yield 'w_uses_empty', 0, '2,000 uses of an empty object of 64 members', *uses('In', '{v: {}}', wide(6), count=2000)
    yield 'w_defaults', 0, '64 variables with default objects', *defaults(6)
    yield 'w_default_uses', 16, '900 uses of a variable with a default list of 1,000', \
        *default_uses(('[' + '7 ' * 1000 + ']', 1001), '[Int]', count=900)
    yield 'w_default_empty', 0, '1,900 uses of a variable with a default object of 64 members', *default_uses(('{}', 1), 'In', wide(6), count=1900)
    yield 'w_default_string', 16, '900 uses of a variable with a default string of 12 KB', \
        *default_uses(('"' + ESCAPES * 2000 + '"', 1), 'String', count=900)
    yield 'w_last_of_64', 0, '800 uses of the last of 64 variables', *last_of_64(7)
    yield 'w_absent_of_64', 0, 'the same, absent', *absent_of_64(7)
    yield 'w_literal_objects', 0, '2,000 empty objects of 64 members in the document', *literal('[In]', '[' + '{} ' * 2000 + ']', wide(8))
    yield 'w_literal_entries', 11, 'an object of 1,000 entries in the document, all unknown', *literal_entries(8)
    yield 'w_deep', 0, 'objects as deep as can be, each of them lists of one at seven depths', *deepest()
    yield 'w_arguments', 16, '15 arguments in opposite order, objects of 64 entries', *arguments(7)
    yield 'w_reaching', 0, 'a field of the last of 64 fragments', *reaching()


def reached_row(made, document, row):
    """The row that was counted; without one the last field f of the document."""
    if row is not None:
        return row
    _, rows = check(made, document)
    return max(i // 7 for i in range(0, len(rows), 7) if rows[i] == 3 and document[rows[i + 4]:rows[i + 4] + rows[i + 5]] == b'f')


def main(words):
    if len(words) != 1:
        print(__doc__, file=sys.stderr)
        return 2
    room = pathlib.Path(words[0])
    room.mkdir(parents=True, exist_ok=True)
    wrong, paths, cases = 0, [], []
    print(f'{"call":26} {"document":>8} {"vars":>6} {"table":>6} {"v":>3} {"bytes":>5} {"a":>3} {"bytes":>5}  what')
    for name, due, what, definitions, document, text, row in calls():
        made, document, text = table(definitions), document.encode(), text.encode()
        row = reached_row(made, document, row)
        said = [coerce(made, document, b'', text, of) for of in (None, row)]
        answers = [report[0] for report, _ in said]
        if due not in answers or 12 in answers or any(answer not in (0, 11, 16) for answer in answers) or len(text) > MOST_BYTES:
            print(f'{name}: {answers}, {[report for report, _ in said]}, {len(text)} bytes are not due', file=sys.stderr)
            wrong = 1
            continue
        files = [room / f'{name}{end}' for end in ('.table', '.graphql', '.variables')]
        for path, some in zip(files, (made, document, text)):
            path.write_bytes(some)
        for of, (report, value) in zip((None, row), said):
            paths.append([*map(str, files), '-' if of is None else str(of)])
            cases.append(line_of(made, document, b'', text, of, report, value))
        sizes = ' '.join(f'{report[0]:3} {len(value):5}' for report, value in said)
        print(f'{name:26} {len(document):8} {len(text):6} {len(made):6} {sizes}  {what}')
    (room / 'calls').write_text(''.join(f'{word}\n' for call in paths for word in call))
    (room / 'cases').write_text(''.join(f'{line}\n' for line in cases))
    return wrong


if __name__ == '__main__':
    sys.exit(main(sys.argv[1:]))

#!/usr/bin/env python3
"""The bench's worst documents: the slowest that the sizes allow, as far as we found them, each with the type table that it is judged by.

  bench/documents.py DIRECTORY    writes them there, NAME.graphql and NAME.table, and says what is in each; in DIRECTORY/pairs stand the
                                  pairs of the bench, table and document on a line each: those of bench/inputs, then these

tests/check_reader.py must accept each, or refuse it by the rule that is named here; else the program fails.
"""
import pathlib
import sys

ROOT = pathlib.Path(__file__).resolve().parent.parent
sys.path.insert(0, str(ROOT / 'tests'))

from check_reader import check  # noqa: E402
from names import LETTERS, alike, one_bucket, short_names  # noqa: E402
from reader import MOST_ROWS, MOST_TEXT, parse  # noqa: E402
from tables import Member, input_object, object_type, scalar, table  # noqa: E402

MOST_FRAGMENTS, MOST_VARIABLES, MOST_MEMBERS, MOST_ARGUMENTS, MOST_RECORDS = 64, 64, 64, 16, 256
NESTED = 28         # lists or objects in an argument

PLAIN = [scalar('I'), object_type('Query', [Member('a', 'I'), Member('f', 'I', [Member('y', '[I]')])])]


def largest(make, most):
    """The document made for the largest number for which it is within the sizes."""
    low, high = 1, most
    while low < high:
        n = (low + high + 1) // 2
        text = make(n)
        fits = len(text) <= MOST_TEXT and parse(text.encode())[0][0] == 0
        low, high = (n, high) if fits else (low, n - 1)
    return make(low)


def uses(variable, count):
    """A field with so many uses of a variable."""
    return f'f(y:[{" ".join(["$" + variable] * count)}])'


def fragment(name, *selections):
    return f'fragment {name} on Query{{{" ".join(selections)}}}'


# ---- operations, variables, fragments

def operations(length):
    return largest(lambda n: ' '.join(f'query {name}{{a}}' for name in alike(n, length, LETTERS)), MOST_ROWS // 2)


def users(operations, defined, length):
    """Operations that define so many variables each, of one length, and reach uses of the last in one fragment."""
    variables = alike(defined, length)
    heads = [f'query {name}({" ".join(f"${v}:I" for v in variables)}){{...F}}' for name in alike(operations, 2, LETTERS)]
    return largest(lambda n: ' '.join(heads + [fragment('F', uses(variables[-1], n))]), MOST_ROWS)


def wrapped_users():
    """Operations that reach uses of their variable, whose type has a name of 18 bytes and seven wrappers."""
    base = 'I' * 18
    made = [scalar(base), object_type('Query', [Member('f', 'Int', [Member('y', f'[[[[[[[{base}]]]]]]]')])])]
    heads = [f'query {name}($v:[[[[[[{base}]]]]]]!){{...F}}' for name in alike(255, 2, LETTERS)]
    return made, largest(lambda n: ' '.join(heads + [fragment('F', uses('v', n))]), MOST_ROWS)


def kinds(operations):
    """Operations that reach uses of their variable at 80 places in turn: more than are remembered as alike."""
    letters = [chr(ord('a') + i) for i in range(MOST_ARGUMENTS)]
    fields = ['t', 'u', 'v', 'w', 'x']
    types = [scalar('I'), object_type('Query', [Member(f, 'I', [Member(a, 'I') for a in letters]) for f in fields])]
    heads = [f'query {name}($a:I){{...F}}' for name in alike(operations, 2, LETTERS)]
    asked = [f'{field}({" ".join(f"{a}:$a" for a in letters)})' for field in fields]
    return types, largest(lambda n: ' '.join(heads + [fragment('F', *(asked[i % len(asked)] for i in range(n)))]), MOST_ROWS)


def dag(spreads, last=''):
    """64 fragments, each of which spreads so many of those behind it."""
    names = alike(MOST_FRAGMENTS, 3, LETTERS)
    return [fragment(name, *(f'...{other}' for other in names[i + 1:i + 1 + spreads]), 'a' if i + 1 < len(names) else last or 'a')
            for i, name in enumerate(names)], names


def reachers(spreads, use=0):
    """As many operations as may be, each of which reaches 64 fragments, which use its variable."""
    fragments, names = dag(spreads)
    defined = '($v:I)' if use else ''
    used = [text[:-1] + f' {uses("v", use)}}}' if use else text for text in fragments]
    return largest(lambda n: ' '.join([f'query {name}{defined}{{...{names[0]}}}' for name in alike(n, 3, LETTERS)] + used), MOST_ROWS)


def circle():
    """Fragments of which the last reaches itself."""
    names = alike(MOST_FRAGMENTS, 3, LETTERS)
    return ' '.join(['{a}'] + dag(44, f'...{names[-1]}')[0])


# ---- fields, arguments, values, types

def many_fields(length):
    names = alike(MOST_MEMBERS, length)
    return [object_type('Query', [Member(n, 'Int') for n in names])], largest(lambda n: '{' + ' '.join([names[-1]] * n) + '}', MOST_ROWS)


def many_arguments(length):
    names = alike(MOST_ARGUMENTS, length)
    field = 'f(' + ' '.join(f'{n}:1' for n in names) + ')'
    return ([object_type('Query', [Member('f', 'Int', [Member(n, 'Int') for n in names[::-1]])])],
            largest(lambda n: '{' + ' '.join([field] * n) + '}', MOST_ROWS))


def unknown_arguments():
    return PLAIN, largest(lambda n: '{f(' + ' '.join(f'{a}:1' for a in alike(n, 4, LETTERS)) + ')}', MOST_ROWS)


def nested_objects(crowded, length):
    """Objects in objects, each entry the last of 64; the input object's name the last of a bucket."""
    types = one_bucket(MOST_RECORDS - 2) if crowded else ['In']
    names = alike(MOST_MEMBERS, length)
    members = [Member(n, 'Int') for n in names[:-1]] + [Member(names[-1], types[-1])]
    made = [scalar(t) for t in types[:-1]] + [input_object(types[-1], members), object_type('Query', [Member('f', 'Int', [Member('i', types[-1])])])]
    value = ('{' + names[-1] + ':') * NESTED + '{}' + '}' * NESTED
    return made, largest(lambda n: '{' + ' '.join([f'f(i:{value})'] * n) + '}', MOST_ROWS)


def nested_lists():
    value = '[' * NESTED + '$v' + ']' * NESTED
    made = [object_type('Query', [Member('f', 'Int', [Member('k', '[[[[[[[Int]]]]]]]')])])]
    return made, largest(lambda n: 'query($v:Int){' + ' '.join([f'f(k:{value})'] * n) + '}', MOST_ROWS)


def directives(operations):
    field = 'a@skip(if:$v)@include(if:$v)'
    heads = [f'query {name}($v:Boolean){{...F}}' for name in alike(operations, 3, LETTERS)]
    return largest(lambda n: ' '.join(heads + [fragment('F', *[field] * n)]), MOST_ROWS)


def crowded(members):
    """An object whose name is the last of 255 in one bucket."""
    names = one_bucket(MOST_RECORDS - 1)
    return [scalar(n) for n in names[:-2]] + [object_type(names[-1], members(names[-1])), object_type('Query', members(names[-1]))], names


def conditions():
    made, names = crowded(lambda last: [Member('a', 'Int')])
    return made, largest(lambda n: '{' + ' '.join([f'...on {names[-1]}{{a}}'] * n) + '}', MOST_ROWS)


def field_types(depth):
    made, _ = crowded(lambda last: [Member('a', 'Int'), Member('q', last)])
    field = 'q{' * depth + 'a' + '}' * depth
    return made, largest(lambda n: '{' + ' '.join([field] * n) + '}', MOST_ROWS)


def variable_types():
    made, names = crowded(lambda last: [Member('a', 'Int')])
    defined = ' '.join(f'${v}:{names[-3]}' for v in short_names(MOST_VARIABLES))
    return made, largest(lambda n: ' '.join(f'query {name}({defined}){{a}}' for name in short_names(n)), 40)


def worst():
    """Name, the rule that is broken or 0, what it is, table, document."""
    yield 'w_operations', 0, '1,024 operations', PLAIN, operations(3)
    yield 'w_operations_long', 0, 'operations with one prefix in all their names', PLAIN, operations(16)
    yield 'w_users', 0, '255 operations that reach 1,023 uses of their variable', PLAIN, users(255, 1, 1)
    yield 'w_users_long', 0, 'as w_users, with a name of 7 bytes', PLAIN, users(255, 1, 7)
    yield 'w_users_wrapped', 0, 'as w_users, with a type of 18 bytes and seven wrappers', *wrapped_users()
    yield 'w_users_few', 0, '60 operations that reach 1,803 uses', PLAIN, users(60, 1, 6)
    yield 'w_kinds', 0, '300 operations that reach uses of their variable at 80 places in turn', *kinds(300)
    yield 'w_kinds_few', 0, '60 operations that reach uses of their variable at 80 places in turn', *kinds(60)
    yield 'w_users_of_2', 0, '170 operations of 2 variables that reach uses of the second', PLAIN, users(170, 2, 6)
    yield 'w_users_of_8', 0, '56 operations of 8 variables that reach uses of the last', PLAIN, users(56, 8, 6)
    yield 'w_users_of_64', 0, '8 operations of 64 variables that reach uses of the last', PLAIN, users(8, MOST_VARIABLES, 8)
    yield 'w_user_of_64', 0, 'one operation of 64 variables, uses of the last', PLAIN, users(1, MOST_VARIABLES, 6)
    yield 'w_fragments', 0, '64 fragments, each spreads 45 of those behind it', PLAIN, ' '.join(dag(45)[0] + ['{a}'])
    yield 'w_circle', 8, 'as w_fragments, and the last reaches itself', PLAIN, circle()
    yield 'w_reachers', 0, 'operations that reach 64 fragments, each of which spreads 14', PLAIN, reachers(14)
    yield 'w_reachers_uses', 0, 'operations that reach 64 fragments, each of which spreads 5 and has uses', PLAIN, reachers(5, 10)
    yield 'w_directives', 0, 'fields with both directives, in a fragment that 60 operations reach', PLAIN, directives(60)
    yield 'w_fields', 0, 'fields that are the last of 64', *many_fields(7)
    yield 'w_fields_long', 0, 'as w_fields, with names of 100 bytes', *many_fields(100)
    yield 'w_arguments', 0, 'fields with 16 arguments', *many_arguments(8)
    yield 'w_arguments_unknown', 14, 'one field with arguments that it does not have', *unknown_arguments()
    yield 'w_objects', 0, 'objects in objects, the last of 64 entries', *nested_objects(False, 10)
    yield 'w_objects_bucket', 0, 'as w_objects, the type\'s name last in its bucket', *nested_objects(True, 10)
    yield 'w_lists', 0, 'lists in lists', *nested_lists()
    yield 'w_conditions', 0, 'conditions whose name is last in its bucket', *conditions()
    yield 'w_field_types', 0, 'fields whose type\'s name is last in its bucket', *field_types(1)
    yield 'w_field_types_deep', 0, 'the same, one in the other', *field_types(30)
    yield 'w_variable_types', 0, 'variables whose type\'s name is last in its bucket', *variable_types()


def given():
    """The pairs of bench/inputs."""
    for document in sorted((ROOT / 'bench/inputs').glob('*.graphql')):
        yield document.with_name('T.table' if document.name.startswith('a_') else 'B.table'), document


def main(words):
    if len(words) != 1:
        print(__doc__, file=sys.stderr)
        return 2
    room = pathlib.Path(words[0])
    room.mkdir(parents=True, exist_ok=True)
    wrong, pairs = 0, [(t.relative_to(ROOT), d.relative_to(ROOT)) for t, d in given()]
    print(f'{"document":20} {"bytes":>6} {"rows":>5} {"table":>6} {"says":>4}  what')
    for name, rule, what, definitions, text in worst():
        made, document = table(definitions), text.encode()
        said, _ = check(made, document)
        if (said[0], said[2]) != ((10, rule) if rule else (0, 0)):
            print(f'{name}: {said} is not due', file=sys.stderr)
            wrong = 1
            continue
        pairs.append((room / f'{name}.table', room / f'{name}.graphql'))
        pairs[-1][0].write_bytes(made)
        pairs[-1][1].write_bytes(document)
        print(f'{name:20} {len(document):6} {parse(document)[0][1]:5} {len(made):6} {said[0]:4}  {what}')
    (room / 'pairs').write_text(''.join(f'{path}\n' for pair in pairs for path in pair))
    return wrong


if __name__ == '__main__':
    sys.exit(main(sys.argv[1:]))

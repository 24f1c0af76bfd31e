#!/usr/bin/env python3
"""Documents and plans for the bench: those that are slow to plan or to walk within the sizes, as far as we found them.

  bench/plans.py DIRECTORY    writes them there, NAME.table with NAME.graphql or NAME.walk, and says what is in each; in DIRECTORY/pairs
                              stand the pairs of the bench, table and document or walk on a line each: those of bench/inputs, then these;
                              in DIRECTORY/cases all of them with the answers that are due, as tests/plan_reader.py reads them

A walk is the type's record, the count of blocks, these, and the plan's numbers, 32 bits each in this machine's order. tests/plan_reader.py
must answer each as it is named here; else the program fails.
"""
import pathlib
import struct
import sys

ROOT = pathlib.Path(__file__).resolve().parent.parent
sys.path.insert(0, str(ROOT / 'tests'))

from documents import given, largest  # noqa: E402
from names import LETTERS, alike  # noqa: E402
from plan_reader import IF_MET, LIST, UNLESS_APPLIES, collect, lent, opened, plan, plan_line, walk, walk_line  # noqa: E402
from plan_reader import MOST_BLOCKS, MOST_PAIRS, MOST_STEPS, MOST_WALKED  # noqa: E402
from plans import doubling  # noqa: E402
from reader import MOST_ROWS  # noqa: E402
from table_reader import OBJECT  # noqa: E402
from tables import Member, interface, object_type, table, union  # noqa: E402

MOST_MEMBERS = 64
PLAIN = [object_type('Query', [Member('a', 'Int'), Member('q', 'Query')])]


# ---- documents

def wide_union(length):
    """A union of 64 objects, behind them."""
    names = alike(MOST_MEMBERS + 1, length, LETTERS)
    members = [object_type(name, [Member('a', 'Int')]) for name in names[1:]]
    return members + [union(names[0], names[1:]), object_type('Query', [Member('u', names[0])])]


def many_keys(length):
    """Fields of many keys, each of which is looked for among those before it."""
    return largest(lambda n: '{' + ' '.join(f'{key}:a' for key in alike(n, length, LETTERS)) + '}', MOST_ROWS)


def blocks(deep):
    return largest(lambda n: '{' + ' '.join('q{' * deep + 'a' + '}' * deep for _ in range(n)) + '}', MOST_ROWS)


def spreads(count, fields):
    return '{' + '...F ' * count + '} fragment F on Query{' + 'a ' * fields + '}'


def wide_conditions(length):
    """Conditions on a union of 64 members, one in the other."""
    made = wide_union(length)
    deep = f'...on {made[-2].name}{{' * 29 + '__typename' + '}' * 29
    return made, largest(lambda n: '{u{' + ' '.join([deep] * n) + '}}', MOST_ROWS)


def many_conditions(count):
    """Conditions whose names are looked up, on many records."""
    names = alike(count, 3, LETTERS)
    made = [object_type(name, [Member('a', 'Int')]) for name in names] + PLAIN
    return made, largest(lambda n: '{' + ' '.join(f'...on {names[i % count]}{{a}}' for i in range(n)) + '}', MOST_ROWS)


def variables():
    names = alike(MOST_MEMBERS, 6, LETTERS)
    defined = ' '.join(f'${name}:Boolean' for name in names)
    return largest(lambda n: f'query({defined}){{' + ' '.join([f'a@skip(if:${names[-1]})'] * n) + '}', MOST_ROWS)


def documents():
    """Name, the answer, what it is, table, document."""
    yield 'p_double64', 13, '64 fragments, each spreads the next one twice', PLAIN, doubling(64)
    yield 'p_double10', 0, '10 such fragments', PLAIN, doubling(10)
    yield 'p_steps', 0, '4,096 steps, of a fragment that is spread 64 times', PLAIN, spreads(64, 62)
    yield 'p_too_many', 13, '4,097 steps and more, of a fragment that is spread 600 times', PLAIN, spreads(600, 1000)
    yield 'p_keys', 0, 'as many keys as may be', PLAIN, many_keys(3)
    yield 'p_keys_long', 0, 'keys with one prefix', PLAIN, many_keys(12)
    yield 'p_blocks', 0, 'as many blocks as may be', PLAIN, blocks(29)
    yield 'p_blocks_flat', 0, 'blocks beside each other', PLAIN, blocks(1)
    yield 'p_conditions', 0, 'conditions that are found among 200 records', *many_conditions(200)
    yield 'p_union', 0, 'conditions on a union of 64 members, one in the other', *wide_conditions(3)
    yield 'p_variables', 0, 'uses of the last of 64 variables', PLAIN, variables()


# ---- plans that no document has

def numbers_of(firsts, steps):
    return [len(firsts), len(steps), *firsts] + [0] * (MOST_BLOCKS - len(firsts)) + [number for step in steps for number in step]


def wide_object(length):
    """An object that implements 64 interfaces."""
    names = alike(MOST_MEMBERS, length, LETTERS)
    return [interface(name, [Member('a', 'Int')]) for name in names] + [object_type('Query', [Member('a', 'Int')], names)]


def tests_of(record, count):
    """Steps that ask for a record and go on either way."""
    return [(UNLESS_APPLIES, record, at + 1) for at in range(count)]


def walks():
    """Name, the answer, what it is, table, record, blocks, first steps, steps."""
    many = [0] * MOST_WALKED
    of_union, of_interface = [tests_of(record, MOST_STEPS) for record in (64, 63)]
    yield 'w_union', 0, '64 times 4,096 conditions on a union, of which the object is the last of 64', wide_union(3), 63, many, [0], of_union
    yield 'w_union_other', 0, 'the same, long names, and the object is none of them', wide_union(40), 65, many, [0], of_union
    yield 'w_interface', 0, '64 times 4,096 conditions on the last of 64 interfaces of the object', wide_object(3), 64, many, [0], of_interface
    each = [(UNLESS_APPLIES, at % 64, at + 1) for at in range(MOST_STEPS)]
    yield 'w_interfaces', 0, 'the same, on all of them in turn', wide_object(12), 64, many, [0], each
    yield 'w_marks', 0, '64 times 4,096 fragments', PLAIN, 0, many, [0], [(IF_MET, at % 64, at + 1) for at in range(MOST_STEPS)]
    yield 'w_keys', 0, '512 pairs, each of another key', PLAIN, 0, [0], [0], [(LIST, at, at) for at in range(MOST_PAIRS)]
    yield 'w_keys_back', 0, '512 pairs of 256 keys, the second half in opposite order', PLAIN, 0, [0], [0], \
        [(LIST, min(at, MOST_PAIRS - 1 - at), at) for at in range(MOST_PAIRS)]
    yield 'w_one_key', 0, '512 pairs of one key', PLAIN, 0, [0], [0], [(LIST, 7, at) for at in range(MOST_PAIRS)]
    yield 'w_pair_513', 15, '513 pairs', PLAIN, 0, [0], [0], [(LIST, at, at) for at in range(MOST_PAIRS + 1)]
    yield 'w_last_step', 14, 'a plan whose last step is wrong', PLAIN, 0, many, [0], [(LIST, 1, 1)] * (MOST_STEPS - 1) + [(LIST, 1, MOST_ROWS)]
    every = list(range(MOST_BLOCKS))
    yield 'w_blocks', 0, '2,048 blocks', PLAIN, 0, every[-MOST_WALKED:], every, [(LIST, 1, 1)] * MOST_BLOCKS


TRUTHS = bytes(i & 1 for i in range(64))


def line_of(types, text):
    """The plan of a document's first operation, and walks of block 0 and of 64 blocks for each of some objects."""
    document = opened(types, text)[1]
    name = document.operations[0].name if document else b''
    said, numbers = plan(types, text, name)
    objects = [i for i, one in enumerate(document.schema.definitions) if one.kind == OBJECT][:8] if document and not said[0] else []
    asked = [(record, some, TRUTHS) for record in objects for some in ([0], [i % numbers[0] for i in range(MOST_WALKED)])]
    return plan_line(types, text, name, said, numbers, [(one, collect(types, text, name, *one)) for one in asked])


def planned(types, text):
    """The report, the file's ending, its bytes, the line of the case."""
    text = text.encode()
    return plan(types, text, b'')[0], 'graphql', text, line_of(types, text)


def walked(types, record, some, firsts, steps):
    numbers = lent(numbers_of(firsts, steps))
    said = walk(types, numbers, record, some, TRUTHS)
    line = walk_line(types, numbers, [((record, some, TRUTHS), said)])
    return said[0], 'walk', struct.pack(f'={2 + len(some) + len(numbers)}I', record, len(some), *some, *numbers), line


def main(words):
    if len(words) != 1:
        print(__doc__, file=sys.stderr)
        return 2
    room = pathlib.Path(words[0])
    room.mkdir(parents=True, exist_ok=True)
    wrong, pairs = 0, [(t.relative_to(ROOT), d.relative_to(ROOT)) for t, d in given()]
    cases = [line_of(t.read_bytes(), d.read_bytes()) for t, d in given()]
    for name, due, what, types, *rest in [*documents(), *walks()]:
        types = table(types)
        said, ending, some, line = planned(types, *rest) if len(rest) == 1 else walked(types, *rest)
        if said[0] != due:
            print(f'{name}: {said} is not due', file=sys.stderr)
            wrong = 1
            continue
        pairs.append((room / f'{name}.table', room / f'{name}.{ending}'))
        pairs[-1][0].write_bytes(types)
        pairs[-1][1].write_bytes(some)
        cases.append(line)
        print(f'{name:16} {len(types):6} {len(some):6} {" ".join(map(str, said[:3])):14}  {what}')
    (room / 'pairs').write_text(''.join(f'{path}\n' for pair in pairs for path in pair))
    (room / 'cases').write_text(''.join(f'{line}\n' for line in cases))
    return wrong


if __name__ == '__main__':
    sys.exit(main(sys.argv[1:]))

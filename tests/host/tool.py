#!/usr/bin/env python3
"""The host program under a JSON reader, and its tables.   tool.py GATEWAY COUNT

  - each object of tests/host/expected_tool is JSON
  - whatever the files hold, each line of --json is an object, its verdict is that of the words beside it, and so is the status
  - tables made by chance come out of show-table and table as they went in, and tables.py makes the same of the text
"""
import json
import os
import random
import subprocess
import sys
import tempfile

sys.path.insert(0, os.path.join(os.path.dirname(__file__), '..'))
import tables  # noqa: E402

EXAMPLES = 'host/examples/'


def run(gateway, *words):
    done = subprocess.run([gateway, *words], stdout=subprocess.PIPE, stderr=subprocess.PIPE, check=False)
    assert done.returncode in range(6), (words, done.returncode, done.stderr)
    return done.returncode, done.stdout


def status_of(said):
    """The exit status that an object means."""
    number, of = said.get('refusal'), said.get('input')
    if said['accepted']:
        return 0
    if number in (11, 16):
        return 4
    if number in (1, 12, 13, 14, 15):
        return 5
    return {'table': 3, 'types': 3, 'variables text': 4}.get(of, 1)


def compare(gateway, *words):
    """Runs a command in words and as JSON; returns the object."""
    status, text = run(gateway, *words)
    again, line = run(gateway, *words, '--json')
    said = json.loads(line.decode('utf-8'))
    assert line.count(b'\n') == 1 and status == again == status_of(said), (words, status, again, line)
    text = text.decode('utf-8')
    if not said['accepted']:
        assert said['text'] in text and said.get('detail', '') in text, (words, text, said)
        assert all(name in text for name in said.get('names', [])), (words, said)
        if 'line' in said:
            assert f":{said['line']}:{said['column']}: " in text, (words, text, said)
            assert f"{said['line']:5} | " in text, (words, text, said)  # the line shown is the line told
    return said


def stored_objects():
    """How many lines of the stored answers are objects; each is read."""
    with open('tests/host/expected_tool', encoding='utf-8') as file:
        return len([json.loads(line) for line in file if line.startswith('{"')])


def mutated(rng, some):
    some = bytearray(some)
    for _ in range(rng.choice([1, 1, 2, 4])):
        at = rng.randrange(len(some) + 1)
        way = rng.randrange(4)
        if way == 0:
            some[at:at] = rng.choice([b'"', b'{', b'}', b'\xff', b'\xef\xbb\xbf', b'\r', b'\n', b'\t', b'$', b'\x1b', b'[', b'!', b'#', b'\xe4\xb8\xad', b'\\u', b'\x00'])
        elif way == 1:
            del some[at:at + rng.choice([1, 1, 5, 40])]
        elif way == 2:
            del some[at:]
        elif at < len(some):
            some[at] = rng.randrange(256)
    return bytes(some)


def hostile(gateway, room, count):
    rng = random.Random(15)
    pairs = [('T', 'D'), ('plant', 'plant'), ('ramp', 'ramp')]
    seen = set()
    for _ in range(count):
        table, document = rng.choice(pairs)
        files = {'table': f'{EXAMPLES}{table}.table', 'document': f'{EXAMPLES}{document}.graphql', 'variables': f'{EXAMPLES}ramp.variables',
                 'types': f'{EXAMPLES}{table}.types'}
        which = rng.choice(list(files))
        with open(files[which], 'rb') as file:
            some = mutated(rng, file.read())
        files[which] = os.path.join(room, which)
        with open(files[which], 'wb') as file:
            file.write(some)
        operation = ['--operation', 'Ramp'] if table == 'ramp' else ['--operation', 'Hall'] if table == 'plant' else []
        both = [files['table'], files['document']]
        command = {'table': [['check-table', files['table']], ['check', *both]], 'types': [['table', files['types'], '-o', room + '/made']],
                   'document': [['parse', files['document']], ['check', *both], ['plan', *both, *operation],
                                ['walk', *both, '--type', 'Query', *operation]],
                   'variables': [['coerce', *both, '--variables', files['variables'], *operation]]}[which]
        said = compare(gateway, *rng.choice(command))
        seen.add((which, said.get('refusal'), said['accepted']))
    return seen


def round_trips(gateway, room, count):
    rng = random.Random(16)
    path, text = os.path.join(room, 'chance.table'), os.path.join(room, 'chance.types')
    for _ in range(count):
        some = tables.table(tables.valid(rng, rng.randrange(4)))
        with open(path, 'wb') as file:
            file.write(some)
        status, types = run(gateway, 'show-table', path)
        assert status == 0
        assert tables.table(tables.written(types.decode())) == some
        with open(text, 'wb') as file:
            file.write(types.replace(b'\n', rng.choice([b'\n', b' ', b',\r\n', b' # comment "\n'])))
        status, again = run(gateway, 'table', text)
        assert status == 0 and again == some, types


def long_ones(gateway, room):
    """Names that fill the table, and more records than it may have, to text and back unchecked."""
    path, text = os.path.join(room, 'long.table'), os.path.join(room, 'long.types')
    for types in (f'type Query {{ a: {"N" * 30000} }} scalar {"S" * 1500}', 'interface A { } ' * 4600):
        some = tables.table(tables.written(types))
        with open(path, 'wb') as file:
            file.write(some)
        status, shown = run(gateway, 'show-table', '--unchecked', path)
        with open(text, 'wb') as file:
            file.write(shown)
        again, made = run(gateway, 'table', '--unchecked', text)
        assert status == again == 0 and made == some


def main(gateway, count):
    with tempfile.TemporaryDirectory() as room:
        seen = hostile(gateway, room, count)
        due = {('document', n, False) for n in (3, 4, 10)} | {('table', n, False) for n in (7, 9)} | {('variables', n, False) for n in (3, 4, 11)}
        assert due <= seen, due - seen
        round_trips(gateway, room, count // 5)
        long_ones(gateway, room)
    assert stored_objects() > 30
    print(f'host: {count} files changed by chance are told alike in words and as JSON; {count // 5} tables by chance to text and back')


main(sys.argv[1], int(sys.argv[2]))

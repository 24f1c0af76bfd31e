#!/usr/bin/env python3
"""Runs requests on the simulated cooling tower and compares what the gateway answers with what is stored.

  cases.py check FOLDER      runs all cases with the programs of a folder (build/plant): the files of tests/plant/cases, the requests below,
                             and those made by chance (random.jsonl)
  cases.py renew FOLDER      writes expected.txt anew

A case is a document. Lines that begin with #: say what else there is to it:
  #: variables TEXT          the variables text
  #: operation NAME
  #: set UNIT:REGISTER=VALUE a register of a drive before it starts
  #: gone UNIT               the drive's address is one where nobody listens
  #: table NAME              by the table of tests/plant/NAME.types instead of the tower's
  #: timeout MILLISECONDS
Each case has drives of its own, on a port of the loopback that is free. What is compared with expected.txt: status, response, standard error,
and what the drives were told. The same responses, without the words of errors, are compared with those of graphql-core (oracle.jsonl).
"""
import json
import os
import pathlib
import socket
import struct
import subprocess
import sys
import tempfile
import time

HERE = pathlib.Path(__file__).resolve().parent
ROOT = HERE.parent.parent
TABLE = ROOT / 'host/plant/tower.table'
SECONDS = 60  # the longest that a program may take
PATIENCE = '20000'  # how long a drive may take to answer, in milliseconds: a machine with much else to do is no fault


class Case:
    def __init__(self, name, document, variables=None, operation=None, sets=(), gone=(), timeout=None, table=TABLE):
        self.name, self.document, self.variables, self.operation = name, document, variables, operation
        self.sets, self.gone, self.timeout, self.table = list(sets), list(gone), timeout, table
        self.types = None  # a text of types to make the table of


def case_of(name, document):
    """A case of a file, by its lines that begin with #:"""
    case = Case(name, document)
    for line in document.splitlines():
        if not line.startswith('#: '):
            continue
        word, value = line[3:].split(' ', 1)
        if word == 'set':
            case.sets.append(value)
        elif word == 'gone':
            case.gone.append(int(value))
        elif word == 'table':
            case.types = HERE / f'{value}.types'
        else:
            assert word in ('variables', 'operation', 'timeout'), line
            setattr(case, word, value)
    return case


def file_cases():
    return [case_of(path.stem, path.read_text()) for path in sorted((HERE / 'cases').glob('*.graphql'))]


def refused_cases(room):
    """A request for each refusal of the core that a host can meet."""
    def table(name, content):
        path = pathlib.Path(room) / name
        path.write_bytes(content)
        return path
    good = TABLE.read_bytes()
    ramp = 'mutation M($t: Int!) { setRamp(machine: 1, step: 1, time: $t) { tag } }'
    profile = 'mutation P($p: Profile!) { setProfile(machine: 1, profile: $p) { tag } }'
    yield Case('refused 2 document', '{ tower { name } }' + ' ' * 16384)
    yield Case('refused 2 variables', '{ tower { name } }', '{' + ' ' * 16384 + '}')
    yield Case('refused 2 table', '{ tower { name } }', table=table('long.table', bytes(32769)))
    yield Case('refused 3', '{ tower\n  { name ? } }')
    yield Case('refused 3 variables', ramp, '{ t: 5,\n  u: "no end }')
    yield Case('refused 4', '{ tower { } }')
    yield Case('refused 4 at the end', '{ tower { name }')
    yield Case('refused 4 variables', ramp, '{ t: $t }')
    yield Case('refused 5', '{' + 'a{' * 33)
    yield Case('refused 6', '{' + 'a ' * 2049 + '}')
    yield Case('refused 7', '{ tower { name } }', table=table('cut.table', good[:-1]))
    yield Case('refused 8', '{ tower { name } }' + ''.join(f' fragment F{i} on Tower {{ name }}' for i in range(65)))
    yield Case('refused 8 table', '{ tower { name } }', table=ROOT / 'host/examples/wrapped.table')
    yield Case('refused 9', '{ tower { name } }', table=ROOT / 'host/examples/refused.table')
    yield Case('refused 10 field', '{ tower { name } fan(no: 1) { tag flow } }')
    yield Case('refused 10 leaf', '{ tower }')
    yield Case('refused 10 undefined', '{ fan(no: $no) { tag } }')
    yield Case('refused 10 no root', 'subscription { tower { name } }')
    yield Case('refused 10 argument', '{ fan(number: 1) { tag } }')
    yield Case('refused 11 reason 1', ramp, '{ t: "fast" }')
    yield Case('refused 11 reason 2', ramp, '{ t:\n  -2147483649 }')
    yield Case('refused 11 reason 3', ramp)
    yield Case('refused 11 reason 4', ramp, '{ t: null }')
    yield Case('refused 11 reason 5', profile, '{ p: { rpm: 5, speed: 3 } }')
    yield Case('refused 11 reason 6', profile, '{ p: { rpm: 5, rpm: 6 } }')
    yield Case('refused 11 reason 7', 'query Q($k: Kind) { tower { machines(kind: $k) { tag } } }', '{ k: VALVE }')
    yield Case('refused 11 reason 8', 'query Q($t: String!) { part(tag: $t) { __typename } }', '{ t: "\\ud800" }')
    yield Case('refused 11 in a list', profile, '{ p: { times: [1000, 2147483648] } }')
    yield Case('refused 12 name', 'query A { tower { name } }', operation='B')
    yield Case('refused 12 which', 'query A { tower { name } } query B { tower { name } }')
    yield Case('refused 12 none', 'fragment F on Tower { name }')
    often = {name: ' '.join(f'...{name}' for _ in range(20)) for name in 'ABC'}
    yield Case('refused 13', '{ %(A)s } fragment A on Query { %(B)s } fragment B on Query { %(C)s } fragment C on Query { __typename }' % often)
    yield Case('refused 14', '{ tower { name } ' + 'fan(no: 1) { tag } ' * 65 + '}')
    yield Case('refused 15', '{ tower { ' + ' '.join(f'a{i}: name' for i in range(513)) + ' } }')
    yield Case('refused 16', 'query Q($t: String!) { part(tag: $t) { __typename } }', '{ t: "' + 'x' * 8200 + '" }')


class Drives:
    """The drives of a case, as long as it lasts."""
    def __init__(self, folder, case, room):
        self.log, self.addresses = pathlib.Path(room) / 'log', pathlib.Path(room) / 'addresses'
        self.addresses.unlink(missing_ok=True)
        words = [f'{folder}/drives', '--addresses', str(self.addresses), '--log', str(self.log), '--seconds', str(SECONDS)]
        for one in case.sets:
            words += ['--set', one]
        self.program = subprocess.Popen(words)
        deadline = time.monotonic() + SECONDS
        while not self.addresses.exists():
            if self.program.poll() is not None or time.monotonic() > deadline:
                self.stop()
                raise SystemExit(f'{case.name}: the drives do not start')
            time.sleep(0.002)
        # bound and not listening, so that nobody else can take the port while the case runs
        self.nobody = socket.socket()
        self.nobody.bind(('127.0.0.1', 0))
        for unit in case.gone:
            lines = self.addresses.read_text().splitlines()
            lines[unit] = f'{unit} 127.0.0.1:{self.nobody.getsockname()[1]}/1'
            self.addresses.write_text('\n'.join(lines) + '\n')

    def __enter__(self):
        return self

    def __exit__(self, *_):
        self.nobody.close()
        self.stop()

    def stop(self):
        self.program.kill()
        self.program.wait()


def run(folder, case, room):
    """Status, response, standard error and what the drives were told."""
    room = pathlib.Path(room)
    (room / 'document').write_bytes(case.document.encode())
    if case.types:
        case.table = room / 'other.table'
        case.table.write_bytes(subprocess.run([sys.executable, ROOT / 'tests/tables.py', 'text', case.types.read_text()], check=True, capture_output=True).stdout)
    words = [f'{folder}/gateway', 'run', str(case.table), str(room / 'document'), '--json', '--timeout', case.timeout or PATIENCE]
    if case.variables is not None:
        (room / 'variables').write_text(case.variables)
        words += ['--variables', str(room / 'variables')]
    if case.operation is not None:
        words += ['--operation', case.operation]
    with Drives(folder, case, room) as drives:
        words += ['--drives', str(drives.addresses)]
        done = subprocess.run(words, capture_output=True, timeout=SECONDS)
        return done.returncode, done.stdout.decode(), done.stderr.decode(), drives.log.read_text()


def told_of(folder, case, room):
    status, response, trouble, log = run(folder, case, room)
    return f'## {case.name}\nstatus {status}\n{response}{trouble}{log}'


def usage_told(folder, room):
    """What is said of words of the command line that are wrong."""
    room = pathlib.Path(room)
    (room / 'document').write_text('{ tower { name machines { id } } }')
    (room / 'two').write_text('1 127.0.0.1:1502/1\n1 127.0.0.1:1502/2\n')
    (room / 'bad').write_text('# none\n\n1 127.0.0.1:1502/1 # the first\n2\n')
    (room / 'json').write_text('{"no": 1}')
    (room / 'long').write_text('type Query { tower: Int }' + ' ' * 32768)
    types = os.path.relpath(TABLE.with_suffix('.types'), ROOT)
    table, document = os.path.relpath(TABLE, ROOT), str(room / 'document')
    for words in ([], [table], [table, document, document], [table, document, '--speed', '3'], [table, document, '--timeout'],
                  [table, document, '--timeout', '0'], [table, 'tests/plant/none.graphql'], [table, document, '--drives', 'tests/plant/none'],
                  [table, document, '--drives', str(room / 'two')], [table, document, '--drives', str(room / 'bad')],
                  [table, document, '--drive', '127.0.0.1:1502/0'], [table, document, '--drive', '127.0.0.1:70000/1'],
                  [table, document, '--drive', '[::1:1502'], [table, document, '--drive', '127.0.0.1:1502/1,:1502/1'], ['-', '-'], [document, table],
                  [document, document], [types, document], [str(room / 'long'), document], [table, document, '--variables', str(room / 'json')],
                  [table, types], [table, 'tests/plant/none.graphql', '--json'], [table, document, '--json', '--drives', 'tests/plant/none'],
                  [table, document, '--json', '--drives', str(room / 'bad')], [table, document, '--variables', 'tests/plant/none', '--json'],
                  [table, document, '--help'], [table, '--version'], [table, document]):
        done = subprocess.run([f'{folder}/gateway', 'run', *words], capture_output=True, timeout=SECONDS, cwd=ROOT, stdin=subprocess.DEVNULL)
        said = f'## run {" ".join(words)}\nstatus {done.returncode}\n{done.stdout.decode()}{done.stderr.decode()}'
        yield said.replace(str(room), 'ROOM')


def addressed_told(folder, room):
    """Drives by addresses of the command line: their ids are their numbers."""
    case = Case('addresses', '{ tower { machines { id tag } } }')
    document = pathlib.Path(room) / 'document'
    document.write_text(case.document)
    with Drives(folder, case, room) as drives:
        port = drives.addresses.read_text().split(':', 2)[2].split('/')[0]
        for words in ([f'127.0.0.1:{port}/3,localhost:{port}'], [f'127.0.0.1:{port}/9']):
            done = subprocess.run([f'{folder}/gateway', 'run', '--json', '--timeout', PATIENCE, str(TABLE), str(document), '--drive', *words],
                                  capture_output=True, timeout=SECONDS)
            yield f'## run --drive {words[0]}\nstatus {done.returncode}\n{done.stdout.decode()}{done.stderr.decode()}'.replace(port, 'PORT')


def write_register(port, unit, register, value):
    """Writes a register as any Modbus master does; the answer repeats the request, or has an exception's number."""
    request = struct.pack('>HHHBBHH', 1, 0, 6, unit, 6, register, value)
    with socket.create_connection(('127.0.0.1', port), timeout=SECONDS) as line:
        line.sendall(request)
        answer = line.recv(260)
    return 'taken' if answer == request else f'exception {answer[8]}'


def registers_told(folder, room):
    """A drive that is told by a register to answer with an error, and then not to."""
    case = Case('registers', '{ fan(no: 1) { tag } }')
    document = pathlib.Path(room) / 'document'
    document.write_text(case.document)
    said = '## a drive that is told by a register to answer with an error\n'
    with Drives(folder, case, room) as drives:
        port = int(drives.addresses.read_text().split(':', 2)[2].split('/')[0])
        for register, value in ((8, 4), (3, 500), (8, 0), (3, 500), (77, 0)):
            said += f'register {register}, {value}: {write_register(port, 1, register, value)}\n'
            done = subprocess.run([f'{folder}/gateway', 'run', '--json', '--timeout', PATIENCE, str(TABLE), str(document), '--drives', str(drives.addresses)],
                                  capture_output=True, timeout=SECONDS)
            said += f'status {done.returncode}\n{done.stdout.decode()}{done.stderr.decode()}'
        return said + drives.log.read_text()


def bare(response):
    """A response as the other implementation gives it too: data in order, of errors path and places, sorted as that one does."""
    return json.dumps([response.get('data'), sorted(json.dumps([e.get('path'), e.get('locations')]) for e in response.get('errors', []))])


def same_as_oracle(case, response, answer):
    """Whether a response is the other implementation's."""
    mine, theirs = bare(response), bare(answer)
    if mine != theirs:
        print(f'{case.name}: graphql-core answers otherwise\n{case.document}\n- {theirs}\n+ {mine}')
    return mine == theirs


def compare_with_oracle(folder, room):
    """All answers of the other implementation that are stored."""
    cases = {case.name: case for case in file_cases()}
    count, good = 0, True
    for name in ('oracle.jsonl', 'random.jsonl'):
        for line in (HERE / name).read_text().splitlines():
            stored = json.loads(line)
            case = cases.get(stored['name']) or Case(stored['name'], stored['document'], stored['variables'], sets=stored['sets'], gone=stored['gone'])
            response = json.loads(run(folder, case, room)[1])
            good &= same_as_oracle(case, response, stored['answer'])
            count += 1
    print(f'tests/plant: {count} responses are those of graphql-core' if good else 'tests/plant: responses differ from those of graphql-core')
    return good


def main():
    folder = sys.argv[2]
    with tempfile.TemporaryDirectory() as room:
        told = [told_of(folder, case, room) for case in [*file_cases(), *refused_cases(room)]] + [*usage_told(folder, room), *addressed_told(folder, room), registers_told(folder, room)]
        text = '\n'.join(told)
        if sys.argv[1] == 'renew':
            (HERE / 'expected.txt').write_text(text)
            return
        pathlib.Path(folder, 'said.txt').write_text(text)
        if subprocess.run(['diff', '-u', str(HERE / 'expected.txt'), f'{folder}/said.txt']).returncode != 0:
            raise SystemExit('tests/plant: answers differ from expected.txt')
        print(f'tests/plant: {len(told)} requests answered as expected')
        if not compare_with_oracle(folder, room):
            raise SystemExit(1)


if __name__ == '__main__':
    main()

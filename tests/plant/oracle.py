#!/usr/bin/env python3
"""Writes the answers of another implementation, graphql-core 3.2 (pip install graphql-core), to the requests of tests/plant/cases that are not
refused (oracle.jsonl) and to requests made by chance (random.jsonl). The tests compare with these files and do not need it.

  oracle.py [SEED [COUNT]]

The plant below is a model in Python of the one in host/plant: the same registers, the same answers, none of the code.
"""
import json
import pathlib
import random
import re
import sys

from graphql import build_schema, execute, parse, parse_value, value_from_ast_untyped, version

import cases

HERE = pathlib.Path(__file__).resolve().parent
TYPES = (HERE.parent.parent / 'host/plant/tower.types').read_text()

KIND, STATE, SPEED, TARGET, FAULT, SIZE, HOURS, ANSWERS, BROKEN, TAG, RAMPS, COUNT = 0, 1, 2, 3, 4, 5, 6, 8, 9, 16, 32, 40
STARTS = [('FAN-1', 1, 900, 6, 41200, (4000, 6000, 8000, 12000)), ('FAN-2', 1, 850, 6, 39875, (4000, 6000, 8000, 12000)),
          ('PUMP-1', 2, 1450, 185, 12044, (2500, 2500, 5000, 5000)), ('FAN-3', 1, 0, 8, 310, (5000,) * 4)]


# ---- the plant

class Plant:
    def __init__(self, sets, gone):
        self.gone, self.drives = gone, []
        for tag, kind, speed, size, hours, ramps in STARTS:
            r = [0] * COUNT
            r[KIND], r[TARGET], r[SIZE], r[HOURS], r[HOURS + 1] = kind, speed, size, hours >> 16, hours & 0xFFFF
            for i, pair in enumerate(zip(*[iter(tag.ljust(16, '\0'))] * 2)):
                r[TAG + i] = ord(pair[0]) << 8 | ord(pair[1])
            for i, time in enumerate(ramps):
                r[RAMPS + 2 * i:RAMPS + 2 * i + 2] = self.pair(time)
            self.settle(r)
            self.drives.append(r)
        for one in sets:
            unit, register, value = map(int, re.fullmatch(r'(\d+):(\d+)=(\d+)', one).groups())
            self.drives[unit - 1][register] = value

    @staticmethod
    def pair(number):
        return [number % 2**32 >> 16, number % 2**16]

    @staticmethod
    def signed(high, low):
        return (high << 16 | low) - (2**32 if high >= 2**15 else 0)

    def settle(self, r):
        if r[TARGET] and any(r[RAMPS + 2 * i] >= 2**15 for i in range(4)):
            r[FAULT] = 1
        r[SPEED] = 0 if r[FAULT] else r[TARGET]
        r[STATE] = 2 if r[FAULT] else 1 if r[TARGET] else 0

    def registers(self, drive, first, count):
        r = self.drives[drive]
        if drive + 1 in self.gone or r[ANSWERS] or (r[BROKEN] and first <= r[BROKEN] < first + count):
            raise ValueError('the drive does not tell')
        return r

    def read(self, drive, first, count=1):
        return self.registers(drive, first, count)[first:first + count]

    def write(self, drive, first, values):
        r = self.registers(drive, first, len(values))
        r[first:first + len(values)] = values
        self.settle(r)

    # ---- things

    def machine(self, drive):
        kind, = self.read(drive, KIND)
        return {'__typename': {1: 'Fan', 2: 'Pump'}[kind], 'drive': drive}

    def machines(self, type=None, most=4):
        found = []
        for i in range(4):
            try:
                one = self.machine(i)
            except (ValueError, KeyError) as trouble:
                one = ValueError(str(trouble))
            if len(found) < most and (type is None or isinstance(one, Exception) or one['__typename'] == type):
                found.append(one)
        return found

    def called(self, id):
        return int(id) - 1 if id in ('1', '2', '3', '4') else None

    def tag(self, drive):
        return b''.join(bytes(divmod(r, 256)) for r in self.read(drive, TAG, 8)).rstrip(b'\0').decode()

    def part(self, tag):
        for i in range(4):
            if self.tag(i) == tag:
                return self.machine(i)
        return None

    def times(self, drive):
        r = self.read(drive, RAMPS, 8)
        return [self.signed(*r[2 * i:2 * i + 2]) for i in range(4)]

    def time(self, ramp):
        return self.signed(*self.read(ramp['drive'], RAMPS + 2 * (ramp['step'] - 1), 2))

    def ramp(self, drive, step):
        return {'__typename': 'Ramp', 'drive': drive, 'step': step} if 1 <= step <= 4 else None

    def fault(self, drive):
        code, = self.read(drive, FAULT)
        return {'__typename': {1: 'Sheared', 2: 'Overheated'}[code], 'drive': drive, 'code': code} if code else None

    def sheared_ramp(self, drive):
        return next((self.ramp(drive, i + 1) for i, time in enumerate(self.times(drive)) if time < 0), None)

    def hours(self, drive):
        high, low = self.read(drive, HOURS, 2)
        return high << 16 | low

    # ---- what it is told

    def told(self, id, *written):
        drive = self.called(id)
        if drive is None:
            raise ValueError('no such machine')
        for first, values in written:
            self.write(drive, first, values)
        return self.machine(drive)

    def set_ramp(self, machine, step, time):
        if not (1 <= step <= 4 and time >= 0):
            raise ValueError('no such step or time')
        return self.told(machine, (RAMPS + 2 * (step - 1), self.pair(time)))

    def set_profile(self, machine, profile):
        times, rpm = profile.get('times') or [], profile.get('rpm')
        if len(times) > 4 or any(time < 0 for time in times) or not 0 <= (rpm or 0) <= 3000:
            raise ValueError('no such profile')
        written = [(RAMPS, [half for time in times for half in self.pair(time)])] if times else []
        return self.told(machine, *written, *([(TARGET, [rpm])] if rpm is not None else []))

    def set_speed(self, machine, rpm):
        if not 0 <= rpm <= 3000:
            raise ValueError('no such speed')
        return self.told(machine, (TARGET, [rpm]))


def some(first):
    """A count that is asked for, which cannot be below 0."""
    if first is not None and first < 0:
        raise ValueError('below 0')
    return 4 if first is None else first


STATES = ['STOPPED', 'RUNNING', 'TRIPPED']
RESOLVERS = {
    'Query.tower': lambda p, o: {'__typename': 'Tower'},
    'Query.machine': lambda p, o, id: None if p.called(id) is None else p.machine(p.called(id)),
    'Query.fan': lambda p, o, no: next((m for m in [p.machine(no - 1)] if m['__typename'] == 'Fan'), None) if 1 <= no <= 4 else None,
    'Query.part': lambda p, o, tag: p.part(tag),
    'Mutation.setRamp': lambda p, o, **a: p.set_ramp(**a),
    'Mutation.setSpeed': lambda p, o, **a: p.set_speed(**a),
    'Mutation.setProfile': lambda p, o, **a: p.set_profile(**a),
    'Mutation.reset': lambda p, o, machine: p.told(machine, (FAULT, [0])),
    'Tower.name': lambda p, o: 'Tower A',
    'Tower.machines': lambda p, o, kind=None, first=None: p.machines({'FAN': 'Fan', 'PUMP': 'Pump', None: None}[kind], some(first)),
    'Tower.fans': lambda p, o: p.machines('Fan'),
    'Tower.pumps': lambda p, o: p.machines('Pump'),
    'Fan.blades': lambda p, o: p.read(o['drive'], SIZE)[0],
    'Pump.flow': lambda p, o: p.read(o['drive'], SIZE)[0] / 10,
    'Drive.speed': lambda p, o: p.read(o['drive'], SPEED)[0],
    'Drive.target': lambda p, o: p.read(o['drive'], TARGET)[0],
    'Drive.hours': lambda p, o: p.hours(o['drive']),
    'Drive.running': lambda p, o: p.read(o['drive'], STATE)[0] == 1,
    'Drive.ramp': lambda p, o, step: p.ramp(o['drive'], step),
    'Drive.ramps': lambda p, o, first=None: [p.ramp(o['drive'], i + 1) for i in range(min(4, some(first)))],
    'Drive.times': lambda p, o: p.times(o['drive']),
    'Drive.fault': lambda p, o: p.fault(o['drive']),
    'Drive.machine': lambda p, o: p.machine(o['drive']),
    'Ramp.step': lambda p, o: o['step'],
    'Ramp.time': lambda p, o: p.time(o),
    'Ramp.seconds': lambda p, o: p.time(o) / 1000,
    'Ramp.drive': lambda p, o: {'__typename': 'Drive', 'drive': o['drive']},
    'Sheared.ramp': lambda p, o: p.sheared_ramp(o['drive']),
}
for type in ('Sheared', 'Overheated'):
    RESOLVERS[f'{type}.code'] = lambda p, o: o['code']
    RESOLVERS[f'{type}.text'] = lambda p, o: {1: 'coupling sheared', 2: 'motor overheated'}[o['code']]
for type in ('Fan', 'Pump'):
    RESOLVERS[f'{type}.id'] = lambda p, o: str(o['drive'] + 1)
    RESOLVERS[f'{type}.tag'] = lambda p, o: p.tag(o['drive'])
    RESOLVERS[f'{type}.kind'] = lambda p, o: o['__typename'].upper()
    RESOLVERS[f'{type}.state'] = lambda p, o: (STATES + [None])[p.read(o['drive'], STATE)[0]]
    RESOLVERS[f'{type}.drive'] = lambda p, o: {'__typename': 'Drive', 'drive': o['drive']}


def resolver(ask):
    return lambda o, info, **arguments: ask(info.context, o, **arguments)


def schema_of(types):
    schema = build_schema(types)
    for name, ask in RESOLVERS.items():
        type, field = name.split('.')
        if type in schema.type_map and field in schema.type_map[type].fields:
            schema.type_map[type].fields[field].resolve = resolver(ask)
    return schema


SCHEMA = schema_of(TYPES)


def answer_to(case):
    """The answer of graphql-core; None where the request is refused before it is executed."""
    variables = value_from_ast_untyped(parse_value(case.variables)) if case.variables else {}
    schema = schema_of(case.types.read_text()) if case.types else SCHEMA
    result = execute(schema, parse(case.document), variable_values=variables, operation_name=case.operation, context_value=Plant(case.sets, case.gone))
    if result.errors and any(e.path is None for e in result.errors):
        raise SystemExit(f'{case.name}: {result.errors}')
    return {'data': result.data, 'errors': [{'path': e.path, 'locations': [{'line': l.line, 'column': l.column} for l in e.locations]}
                                            for e in result.errors or []]}


# ---- requests made by chance

ARGUMENTS = {
    'Query.machine': ['id: 1', 'id: "3"', 'id: 9', 'id: $id'], 'Query.fan': ['no: 1', 'no: 2', 'no: 3', 'no: $no'],
    'Query.part': ['tag: "PUMP-1"', 'tag: "FAN-3"'], 'Tower.machines': ['', 'kind: FAN', 'kind: $kind', 'first: 2', 'first: -1'],
    'Drive.ramp': ['step: 1', 'step: 4', 'step: 5', 'step: $no'], 'Drive.ramps': ['', 'first: 2', 'first: null'],
    'Mutation.setRamp': ['machine: 1, step: 2, time: 7', 'machine: 2, step: 1, time: 2147483647', 'machine: 1, step: 9, time: 7'],
    'Mutation.setSpeed': ['machine: 1, rpm: 500', 'machine: 3, rpm: 0', 'machine: $id, rpm: 1000'],
    'Mutation.setProfile': ['machine: 2, profile: { times: [1, 2], rpm: 5 }'], 'Mutation.reset': ['machine: 1', 'machine: 8']}
HEAD = '($id: ID!, $no: Int!, $kind: Kind, $yes: Boolean!, $no_: Boolean!)'
CONDITIONS = ['', '', '', '', ' @include(if: $yes)', ' @include(if: $no_)', ' @skip(if: $no_)', ' @skip(if: $yes)', ' @skip(if: $no_) @include(if: $yes)']
KINDS = {'Machine': ['Fan', 'Pump', 'Machine', 'Part'], 'Part': ['Fan', 'Pump', 'Machine'], 'Fault': ['Sheared', 'Overheated', 'Fault']}


class Chance:
    """A request: selections by the types, with fragments, conditions and keys that are met more than once. One key always means one field."""
    def __init__(self, seed):
        self.chance = random.Random(seed)
        self.fragments, self.open = {}, []

    def pick(self, some):
        return self.chance.choice(some)

    def condition(self):
        return self.pick(CONDITIONS)

    def field(self, type, depth):
        fields = [n for n, f in SCHEMA.type_map[type].fields.items() if depth > 0 or not self.base(f.type)]
        name = self.pick(fields)
        written = ARGUMENTS.get(f'{type}.{name}', [''])
        which = self.chance.randrange(len(written))
        key = name if len(written) == 1 or self.chance.random() < 0.5 else f'{name}{which}'
        if key == name:
            which = 0
        base = self.base(SCHEMA.type_map[type].fields[name].type)
        return (f'{key}: ' if key != name else '') + name + (f'({written[which]})' if written[which] else '') + self.condition() + \
            (self.selections(base, depth - 1) if base else '')

    def base(self, type):
        while hasattr(type, 'of_type'):
            type = type.of_type
        return type.name if type.name in KINDS or hasattr(type, 'fields') else None

    def selection(self, type, depth):
        fields = hasattr(SCHEMA.type_map[type], 'fields')
        if fields and self.chance.random() < (0.7 if depth > 0 else 0.9):
            return self.field(type, depth)
        if self.chance.random() < 0.25:
            return '__typename' + self.condition()
        on = self.pick(KINDS.get(type, [type] + [k for k, some in KINDS.items() if type in some]))
        if self.chance.random() < 0.5:
            return f'... on {on}{self.condition()}' + self.selections(on, depth)
        return f'...{self.fragment(on, depth)}{self.condition()}'

    def fragment(self, on, depth):
        known = [name for name, (type, deep, _) in self.fragments.items() if type == on and deep <= depth and name not in self.open]
        if known and self.chance.random() < 0.6:
            return self.pick(known)
        name = f'F{len(self.fragments)}'
        self.fragments[name] = (on, depth, '')
        self.open.append(name)
        self.fragments[name] = (on, depth, self.selections(on, depth))
        self.open.remove(name)
        return name

    def selections(self, type, depth):
        return ' { ' + ' '.join(self.selection(type, depth) for _ in range(self.chance.randrange(1, 5 if depth > 0 else 3))) + ' }'

    def request(self):
        root = self.pick(['Query', 'Query', 'Query', 'Mutation'])
        own = f'{root.lower()} R{HEAD}' + self.selections(root, 5)
        return '\n'.join([own] + [f'fragment {name} on {on}{body}' for name, (on, _, body) in self.fragments.items()])

    def sets(self):
        found = []
        for unit in range(1, 5):
            if self.chance.random() < 0.4:
                found.append(f'{unit}:{BROKEN}={self.pick([STATE, SPEED, FAULT, SIZE, HOURS, TAG, RAMPS, RAMPS + 3])}')
            if self.chance.random() < 0.2:
                found.append(self.pick([f'{unit}:{FAULT}=1', f'{unit}:{FAULT}=2', f'{unit}:{RAMPS}=65535', f'{unit}:{ANSWERS}=4']))
        return found


def chance_case(seed):
    c = Chance(seed)
    case = cases.Case(f'random {seed}', c.request())
    case.variables = '{ id: %s, no: %d, kind: %s, yes: true, no_: false }' % (c.pick(['1', '"2"', '5']), c.pick([1, 2, 3, 4]), c.pick(['FAN', 'PUMP', 'null']))
    case.sets, case.gone = c.sets(), [c.pick([1, 2, 3, 4])] if c.chance.random() < 0.15 else []
    return case


def main():
    seed, count = int(sys.argv[1]) if len(sys.argv) > 1 else 1, int(sys.argv[2]) if len(sys.argv) > 2 else 150
    print(f'graphql-core {version}')
    with open(HERE / 'oracle.jsonl', 'w') as out:
        for case in cases.file_cases():
            if 'not for graphql-core' not in case.document:
                print(json.dumps({'name': case.name, 'answer': answer_to(case)}), file=out)
    with open(HERE / 'random.jsonl', 'w') as out:
        while count > 0:
            case = chance_case(seed)
            seed += 1
            if len(case.document) > 1500:
                continue
            stored = {'name': case.name, 'document': case.document, 'variables': case.variables, 'sets': case.sets, 'gone': case.gone}
            print(json.dumps({**stored, 'answer': answer_to(case)}), file=out)
            count -= 1


if __name__ == '__main__':
    main()

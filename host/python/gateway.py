#!/usr/bin/env python3
"""A minimal host in Python: checks a document by a type table, then lists the fields of the operation's own object.

  cc -shared -Wl,--whole-archive build/native/libgateway.a -Wl,--no-whole-archive -o build/libgateway.so
  host/python/gateway.py build/libgateway.so host/examples/T.table host/examples/D.graphql 3    (3: the number of the record of type Query)

A call takes up to 245,760 bytes of stack (gateway.h), which the main thread has; a thread of your own may need threading.stack_size.
"""
import ctypes
import sys

# as in gateway.h
ROW_SIZE, ROWS_SIZE, ROW_NAME_START, ROW_NAME_LENGTH = 7, 14336, 4, 5
REPORT_SIZE, PLAN_SIZE, PAIRS_SIZE, VARIABLES_SIZE = 8, 14338, 1024, 64


class Refused(Exception):
    """The report of a refusal: its number, then what it shows."""


def numbers(size):
    return (ctypes.c_uint32 * size)()


class Gateway:
    """The calls, each with its buffers; an input is bytes or an array of numbers."""

    def __init__(self, path):
        self.library = ctypes.CDLL(path)

    def call(self, name, *parts):
        """Each part is bytes, an array or a number; bytes and arrays are handed over with their length, the report comes last."""
        words, report = [], numbers(REPORT_SIZE)
        for part in (*parts, report):
            if isinstance(part, int):
                words.append(ctypes.c_uint32(part))
            else:
                words += [part, ctypes.c_size_t(len(part))]
        call = getattr(self.library, name)
        call.restype = ctypes.c_uint32
        if call(*words) != 0:
            raise Refused(list(report))
        return list(report)

    def check(self, table, document):
        """The rows of a document that the table accepts, each seven numbers."""
        rows = numbers(ROWS_SIZE)
        report = self.call('gw_check', table, document, rows)
        return [rows[ROW_SIZE * i:ROW_SIZE * (i + 1)] for i in range(report[1])]

    def plan(self, table, document, operation=b''):
        plan = numbers(PLAN_SIZE)
        self.call('gw_plan', table, document, operation, plan)
        return plan

    def walk(self, table, plan, record, blocks=(0,), variables=bytes(VARIABLES_SIZE)):
        """The pairs of response key and row of an object whose type is this record of the table."""
        pairs = numbers(PAIRS_SIZE)
        count = self.call('gw_walk', table, plan, record, (ctypes.c_uint32 * len(blocks))(*blocks), variables, pairs)[1]
        return [(pairs[2 * i], pairs[2 * i + 1]) for i in range(count)]


def main(words):
    if len(words) != 4:
        print(__doc__, file=sys.stderr)
        return 2
    gateway = Gateway(words[0])
    with open(words[1], 'rb') as file:
        table = file.read()
    with open(words[2], 'rb') as file:
        document = file.read()
    try:
        rows = gateway.check(table, document)
        print(f'accepted, {len(rows)} rows')
        for key, row in gateway.walk(table, gateway.plan(table, document), int(words[3])):
            start, length = rows[row][ROW_NAME_START], rows[row][ROW_NAME_LENGTH]
            print(f'key {key}, row {row}: {document[start:start + length].decode()}')
    except Refused as refused:
        report = refused.args[0]
        print(f'refusal {report[0]}, shown {report[1:]}')
        return 1
    return 0


if __name__ == '__main__':
    sys.exit(main(sys.argv[1:]))

#!/usr/bin/env python3
"""A plain, slow reader of documents, written from document 01 and source 002 and from no code of this repository.

  reader.py vectors FILE   reads the documents of a vectors file and compares with the answers that stand there
  reader.py cases FILE     prints the cases of a vectors file, a line each, as tests/harness reads them
  reader.py compare        reads such lines (from tests/harness sample) and compares their answers with its own

A line: the document in hex (- for none), the report's eight numbers, how many row numbers follow, these.
"""
import gc
import json
import multiprocessing
import re
import sys

MOST_TEXT, MOST_LEVELS, MOST_ROWS = 16384, 32, 2048
MOST_FRAGMENTS, MOST_VARIABLES, MOST_WRAPPERS = 64, 64, 7
NO_PARENT = 2048

NAME = re.compile(rb'[_A-Za-z][_0-9A-Za-z]*')
NUMBER = re.compile(rb'-?(?:0|[1-9][0-9]*)(\.[0-9]+)?([eE][+-]?[0-9]+)?')
ESCAPE = re.compile(rb'\\(?:u[0-9A-Fa-f]{4}|["\\/bfnrt])')
LINE = re.compile(rb'[^\n\r]*')
IGNORED = re.compile(rb'(?:[\t \n\r,]|\xef\xbb\xbf)*')       # all but comments; the three bytes are the byte order mark
MARKS = {ord(mark): mark for mark in '!$():=@[]{|}'}
OPERATIONS = {b'query': 0, b'mutation': 1, b'subscription': 2}
WORDS = {b'true': (24, 1), b'false': (24, 0), b'null': (25, 0)}


class Refused(Exception):
    pass


def is_source_text(some):
    """Valid UTF-8, and every character one of the draft's: tab, LF, CR, U+0020 to U+FFFF."""
    try:
        text = some.decode('utf-8')
    except UnicodeDecodeError:
        return False
    return all(c in '\t\n\r' or ' ' <= c <= '\uffff' for c in text)


class Reader:
    def __init__(self, text):
        self.text = text
        self.past = 0           # one past the last token taken
        self.seen = None        # the next token, once it was looked at: kind, start, end
        self.level = 0
        self.rows = []
        self.fragments = 0
        self.variables = 0
        self.wrappers = 0

    # ---- tokens (2.1)

    def skip_ignored(self, at):
        text = self.text
        while True:
            at = IGNORED.match(text, at).end()
            if not text.startswith(b'#', at):
                return at
            past = LINE.match(text, at).end()
            if not is_source_text(text[at:past]):
                raise Refused(3, at)
            at = past

    def string_end(self, start):
        text, at = self.text, start + 1
        while True:
            if at >= len(text) or text[at] in b'\n\r':
                raise Refused(3, start)
            if text[at] == ord('"'):
                break
            if text[at] == ord('\\'):
                escape = ESCAPE.match(text, at)
                if not escape:
                    raise Refused(3, start)
                at = escape.end()
            else:
                at += 1
        if not is_source_text(text[start + 1:at]):
            raise Refused(3, start)
        return at + 1

    def look(self):
        """The next token's kind: its mark, or name, integer, float, string, end."""
        if self.seen is None:
            self.seen = self.token_at(self.skip_ignored(self.past))
        return self.seen[0]

    def token_at(self, at):
        text = self.text
        if at == len(text):
            return 'end', at, at
        mark = MARKS.get(text[at])
        if mark:
            return mark, at, at + 1
        name = NAME.match(text, at)
        if name:
            return 'name', at, name.end()
        if text.startswith(b'...', at):
            return '...', at, at + 3
        if text.startswith(b'"', at):
            return 'string', at, self.string_end(at)
        number = NUMBER.match(text, at)
        if number:
            return 'float' if number[1] or number[2] else 'integer', at, number.end()
        raise Refused(3, at)

    def word(self):
        """The next token's bytes if it is a name."""
        return self.text[self.seen[1]:self.seen[2]] if self.look() == 'name' else None

    def no_going(self):
        raise Refused(4, self.seen[1])

    def take(self, kind):
        """Takes a token of this kind, or refuses; counts the levels. Returns its start and end."""
        if self.look() != kind:
            self.no_going()
        _, start, end = self.seen
        if kind in '{[(':
            if self.level == MOST_LEVELS:
                raise Refused(5, start)
            self.level += 1
        elif kind in '}])':
            self.level -= 1
        self.seen, self.past = None, end
        return start, end

    # ---- rows

    def open_row(self, kind, start, parent, name=None, extra=0):
        if len(self.rows) == MOST_ROWS:
            raise Refused(6, start)
        self.rows.append([kind, start, self.past, parent, 0, 0, extra])
        if name:
            self.set_name(len(self.rows) - 1, name)
        return len(self.rows) - 1

    def set_name(self, row, token):
        self.rows[row][4:6] = token[0], token[1] - token[0]

    def close_row(self, row):
        self.rows[row][2] = self.past

    # ---- documents, operations, selections (2.2 to 2.5, 2.7, 2.8)

    def document(self):
        self.definition()
        while self.look() != 'end':
            self.definition()

    def definition(self):
        word = self.word()
        if self.look() == '{':
            row = self.open_row(1, self.seen[1], NO_PARENT)
            self.selection_set(row)
        elif word in OPERATIONS:
            row = self.operation(OPERATIONS[word])
        elif word == b'fragment':
            row = self.fragment()
        else:
            self.no_going()
        self.close_row(row)

    def operation(self, extra):
        row = self.open_row(1, self.take('name')[0], NO_PARENT, extra=extra)
        if self.look() == 'name':
            self.set_name(row, self.take('name'))
        if self.look() == '(':
            self.variable_definitions(row)
        self.directives(row)
        self.selection_set(row)
        return row

    def fragment(self):
        start, _ = self.take('name')
        row = self.open_row(2, start, NO_PARENT)
        self.fragments += 1
        if self.fragments > MOST_FRAGMENTS:
            raise Refused(8, start)
        if self.word() == b'on':
            self.no_going()
        self.set_name(row, self.take('name'))
        if self.word() != b'on':
            self.no_going()
        self.type_condition(row)
        self.directives(row)
        self.selection_set(row)
        return row

    def type_condition(self, parent):
        self.take('name')
        name = self.take('name')
        self.open_row(9, name[0], parent, name)

    def selection_set(self, parent):
        self.take('{')
        self.selection(parent)
        while self.look() != '}':
            self.selection(parent)
        self.take('}')

    def selection(self, parent):
        if self.look() == '...':
            row = self.spread_or_inline(parent)
        else:
            row = self.field(parent)
        self.close_row(row)

    def field(self, parent):
        name = self.take('name')
        row = self.open_row(3, name[0], parent, name)
        if self.look() == ':':
            self.take(':')
            self.set_name(row, self.take('name'))
        self.arguments(row)
        self.directives(row)
        if self.look() == '{':
            self.selection_set(row)
        return row

    def spread_or_inline(self, parent):
        row = self.open_row(5, self.take('...')[0], parent)
        word = self.word()
        if word is not None and word != b'on':
            self.rows[row][0] = 4
            self.set_name(row, self.take('name'))
            self.directives(row)
            return row
        if word == b'on':
            self.type_condition(row)
        self.directives(row)
        self.selection_set(row)
        return row

    # ---- arguments, directives, variables, types (2.6, 2.10 to 2.12)

    def arguments(self, parent):
        if self.look() == '(':
            self.take('(')
            self.named_value(6, parent, False)
            while self.look() != ')':
                self.named_value(6, parent, False)
            self.take(')')

    def named_value(self, kind, parent, constant):
        name = self.take('name')
        row = self.open_row(kind, name[0], parent, name)
        self.take(':')
        self.value(row, constant)
        self.close_row(row)

    def directives(self, parent):
        while self.look() == '@':
            row = self.open_row(7, self.take('@')[0], parent)
            self.set_name(row, self.take('name'))
            self.arguments(row)
            self.close_row(row)

    def variable_definitions(self, parent):
        self.take('(')
        self.variables = 0
        self.variable_definition(parent)
        while self.look() != ')':
            self.variable_definition(parent)
        self.take(')')

    def variable_definition(self, parent):
        start, _ = self.take('$')
        row = self.open_row(8, start, parent)
        self.variables += 1
        if self.variables > MOST_VARIABLES:
            raise Refused(8, start)
        self.set_name(row, self.take('name'))
        self.take(':')
        self.type_reference(row)
        if self.look() == '=':
            self.take('=')
            self.value(row, True)
        self.close_row(row)

    def type_reference(self, parent):
        self.wrappers = 0
        base, wrappers, row = self.type(parent, None)
        self.set_name(row, base)
        self.rows[row][6] = sum(w << 2 * i for i, w in enumerate(wrappers))
        self.close_row(row)

    def type(self, parent, row):
        """Returns the base name, the wrappers from outside in, and the row, which begins with the first token."""
        if self.look() == '[':
            start, _ = self.take('[')
            row = self.open_row(9, start, parent) if row is None else row
            self.wrapper(start)
            base, wrappers, row = self.type(parent, row)
            self.take(']')
            wrappers = [1] + wrappers
        else:
            base, wrappers = self.take('name'), []
            row = self.open_row(9, base[0], parent) if row is None else row
        if self.look() == '!':
            self.wrapper(self.take('!')[0])
            wrappers = [2] + wrappers
        return base, wrappers, row

    def wrapper(self, start):
        self.wrappers += 1
        if self.wrappers > MOST_WRAPPERS:
            raise Refused(8, start)

    # ---- values (2.9)

    def value(self, parent, constant):
        kind = self.look()
        if kind == '$' and not constant:
            row = self.open_row(20, self.take('$')[0], parent)
            self.set_name(row, self.take('name'))
            self.close_row(row)
        elif kind in ('integer', 'float', 'string'):
            number = {'integer': 21, 'float': 22, 'string': 23}[kind]
            self.open_row(number, self.take(kind)[0], parent)
        elif kind == 'name':
            self.word_value(parent)
        elif kind == '[':
            row = self.open_row(27, self.take('[')[0], parent)
            while self.look() != ']':
                self.value(row, constant)
            self.take(']')
            self.close_row(row)
        elif kind == '{':
            row = self.open_row(28, self.take('{')[0], parent)
            while self.look() != '}':
                self.named_value(10, row, constant)
            self.take('}')
            self.close_row(row)
        else:
            self.no_going()

    def word_value(self, parent):
        word = self.word()
        name = self.take('name')
        if word in WORDS:
            kind, extra = WORDS[word]
            self.open_row(kind, name[0], parent, None, extra)
        else:
            self.open_row(26, name[0], parent, name)


def parse(text):
    """The report and the rows, flat, of a document."""
    if len(text) > MOST_TEXT:
        return [2, 0, 0, 0, 0, 0, 0, 0], []
    reader = Reader(text)
    try:
        reader.document()
    except Refused as refused:
        number, offset = refused.args
        return [number, offset, 0, 0, 0, 0, 0, 0], []
    return [0, len(reader.rows), 0, 0, 0, 0, 0, 0], [n for row in reader.rows for n in row]


# ---- the commands

def line_of(text, report, rows):
    return ' '.join(map(str, [text.hex() or '-', *report, len(rows), *rows]))


def differs(line):
    """What is wrong with a line's answer, or None."""
    words = line.split(' ', 1)
    text = bytes.fromhex(words[0].replace('-', ''))
    mine = line_of(text, *parse(text))
    return None if mine == line else f'gave     {line}\nexpected {mine}'


def cases_of(path):
    with open(path) as file:
        for line in file:
            case = json.loads(line)
            yield line_of(bytes.fromhex(case['doc']), case['report'], case['out'])


def judge(lines, what):
    count = wrong = 0
    # nothing here has cycles, and collecting them takes a fifth of the time
    with multiprocessing.Pool(initializer=gc.disable) as pool:
        for said in pool.imap(differs, lines, chunksize=64):
            count += 1
            if said:
                wrong += 1
                if wrong <= 5:
                    print(said[:2000], file=sys.stderr)
    print(f'reader: {count} {what} compared, {wrong} differ')
    return 1 if wrong or not count else 0


def main(words):
    if words[:1] == ['vectors'] and len(words) == 2:
        return judge(cases_of(words[1]), 'vectors')
    if words[:1] == ['cases'] and len(words) == 2:
        for line in cases_of(words[1]):
            print(line)
        return 0
    if words == ['compare']:
        return judge((line.rstrip('\n') for line in sys.stdin), 'documents')
    print(__doc__, file=sys.stderr)
    return 2


if __name__ == '__main__':
    sys.exit(main(sys.argv[1:]))

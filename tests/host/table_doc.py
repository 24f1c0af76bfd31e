#!/usr/bin/env python3
"""Compares the example of docs/TABLE.md, byte by byte, with the table that the host program makes of its text, and what is said beside
each line with the bytes.   table_doc.py GATEWAY"""
import re
import subprocess
import sys

TAGS = {1: 'scalar', 2: 'object', 3: 'interface', 16: 'name', 17: 'implemented name', 18: 'field', 19: 'argument', 20: 'type reference'}


def main(gateway):
    with open('docs/TABLE.md', encoding='utf-8') as file:
        doc = file.read()
    types = re.search(r'```graphql\n(.*?)```', doc, re.S).group(1)
    lines = re.search(r'## An example.*?```text\n(.*?)```', doc, re.S).group(1).splitlines()
    made = subprocess.run([gateway, 'table', '-'], input=types.encode(), stdout=subprocess.PIPE, check=True).stdout
    read = b''
    for line in lines:
        offset, some, tag, length, text = re.fullmatch(r' *(\d+)  ((?:[0-9a-f]{2} )+) *([a-z ]+), (\d+) bytes(?:: (.*))?', line).groups()
        some = bytes.fromhex(some)
        assert int(offset) == len(read), line
        assert TAGS[some[0]] == tag.strip() and some[1] * 256 + some[2] == int(length), line
        assert some[3:].decode() == (text or ''), line
        read += some
    assert read == made, 'docs/TABLE.md has other bytes than the table'
    assert f'table of {len(made)} bytes' in doc
    print(f'docs/TABLE.md: {len(lines)} fields, {len(made)} bytes as they are')


main(sys.argv[1])
